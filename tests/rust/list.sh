#!/usr/bin/env bash
# The fixed list that the repository keeps is what the oracle writes today.
cd "$(dirname "$0")/../.." || exit 1
. tests/check.bash
room=$(mktemp -d)
trap 'rm -rf "$room"' EXIT
target/oracle/oracle list questions >"$room/questions"
target/oracle/oracle list answers >"$room/answers"
same_file "the fixed list's questions are the oracle's" "$room/questions" crates/replay/stdin
same_file "the fixed list's answers are the oracle's" "$room/answers" crates/replay/stdout
