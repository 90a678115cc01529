#!/usr/bin/env bash
# A short run of the comparison at scale: one round of random questions to every part.
cd "$(dirname "$0")/../.." || exit 1
. tests/check.bash
room=$(mktemp -d)
trap 'rm -rf "$room"' EXIT

# A failing case is shrunk by asking the oracle for the answers to questions that are given.
target/oracle/oracle replay <crates/replay/stdin >"$room/answers"
same_file "the oracle answers the fixed list as the list has it" crates/replay/stdout "$room/answers"

target/oracle/oracle scale --seed 1001 --rounds 1 -- tests/run-program replay | tee "$room/said"
same "scale: one round with seed 1001 finds nothing" 0 "${PIPESTATUS[0]}"
same "scale: it compares ten million samples, half a million frames and every part" "10 parts, yes" \
    "$(sed 's/,//g' "$room/said" | awk '
        /^  part/ { table = 1; next }
        table && $1 == "all" { enough = $6 >= 10000000 && $4 + $5 >= 500000 && $7 == 0; next }
        table && $2 > 1000 { parts++ }
        END { print parts " parts, " (enough ? "yes" : "no") }')"
