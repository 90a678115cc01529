#!/usr/bin/env bash
# The program `carry` against the oracle's own converter, over whole strips, both ways; and the stored strips.
cd "$(dirname "$0")/../.." || exit 1
. tests/check.bash
room=$(mktemp -d)
trap 'rm -rf "$room"' EXIT

target/oracle/oracle carry up <crates/carry/stdin >"$room/up" 2>/dev/null
same_file "carry: what the crate's own run has to write is the oracle's" "$room/up" crates/carry/stdout

mapfile -t carry < <(tests/run-program --words carry)
target/oracle/oracle carries --seed 1 --count 2000 -- "${carry[@]}" | tee "$room/said"
same "carry: fixed strips and 2000 random ones, both ways, byte for byte as the oracle has them" 0 "${PIPESTATUS[0]}"
same "carry: 200 strips or more are carried each way" "2 of 2" \
    "$(sed -n 's/^  .*; \([0-9]*\) carried up and \([0-9]*\) back$/\1 \2/p' "$room/said" |
        xargs -n 1 | awk '$1 >= 200 { enough++ } END { print enough + 0 " of " NR }')"
same "carry: 100 heads or more and 100 records are refused with 9 on the way back, and none on the way up" "2 of 2" \
    "$(grep -o '[0-9]* with 9' "$room/said" | awk '$1 >= 100 { enough++ } END { print enough + 0 " of " NR }')"
