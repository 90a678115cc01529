#!/usr/bin/env bash
# The program `strip` against the ruled Rust, over whole strips; and the stored lines, which are the Rust's.
cd "$(dirname "$0")/../.." || exit 1
. tests/check.bash
room=$(mktemp -d)
trap 'rm -rf "$room"' EXIT

tests/strips/make "$room" target/oracle/oracle strip
same "the stored lines of tests/strips are the oracle's" "" \
    "$(for due in "$room"/*.lines tests/strips/*.lines; do cmp {"$room",tests/strips}/"$(basename "$due")" 2>&1; done)"
target/oracle/oracle strip < <(tests/strips/waits strip) >"$room/waits"
same_file "the lines of a strip with a T of 3,000 are the oracle's" "$room/waits" <(tests/strips/waits lines)
target/oracle/oracle strip <examples/service.strip >"$room/example"
same_file "the example's stored lines are the oracle's" "$room/example" examples/service.lines

mapfile -t strip < <(tests/run-program --words strip)
target/oracle/oracle strips --seed 1 --count 2000 -- "${strip[@]}" | tee "$room/said"
same "strip: fixed strips and 2000 random ones, byte for byte as the ruled Rust has them" 0 "${PIPESTATUS[0]}"
same "strip: 1000 strips or more and 1000 heads taken are of each version, and 1000 lines with a T above 200 are P" "5 of 5" \
    "$(sed -n 's/^  \([0-9]*\) of version 1, \([0-9]*\) of version 2, .* heads taken: \([0-9]*\) and \([0-9]*\)$/\1 \2 \3 \4/p
        s/^  .* have T above 200, and \([0-9]*\) lines behind them are P$/\1/p' "$room/said" |
        xargs -n 1 | awk '$1 >= 1000 { enough++ } END { print enough + 0 " of " NR }')"
same "strip: 400 gaps or more stand behind T - 1, T and T + 1 frames of speech each, behind a gap and before all frames" "5 of 5" \
    "$(sed -n 's/^  of the gaps \([0-9]*\) stand behind T - 1 frames of speech, \([0-9]*\) behind T, \([0-9]*\) behind T + 1, \([0-9]*\) behind a gap, \([0-9]*\) before all frames$/\1 \2 \3 \4 \5/p' "$room/said" |
        xargs -n 1 | awk '$1 >= 400 { enough++ } END { print enough + 0 " of " NR }')"
