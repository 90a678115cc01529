#!/usr/bin/env bash
# tests/runner.bash itself, by which ./test runs every script: one that hangs is told and ended, with all that it has started,
# and the next one runs.
cd "$(dirname "$0")/.." || exit 1
. tests/check.bash
room=$(mktemp -d)
trap 'rm -rf "$room"' EXIT

# The lines that ./test would print of a script, and its two counts, with so many seconds for it.
run_one() { # LIMIT SCRIPT
    (
        . tests/runner.bash
        trap end_sessions EXIT
        patience=1
        run_script "$1" "$room/kept" "$2"
        echo "$passed passed, $failed failed"
    ) 2>/dev/null | grep -v ' took [0-9]* s$' | sed "s|$room/||"
}
script() { # NAME: the text comes on the standard input
    { echo '#!/usr/bin/env bash'; cat; } >"$room/$1"
    chmod +x "$room/$1"
}
# How many of the processes are left whose numbers a script has written; one that has ended and waits for its parent is not.
left() {
    local process count=0
    for process in $(cat "$room/processes"); do
        if [ -d "/proc/$process" ] && ! grep -q '^State:[[:space:]]*Z' "/proc/$process/status" 2>/dev/null; then count=$((count + 1)); fi
    done
    echo "$count of $(wc -l <"$room/processes")"
}

script sound <<'END'
echo "ok one"
echo "not ok two"
echo "ok three"
exit 1
END
same "runner: the lines of a script are counted" "ok one
not ok two
ok three
2 passed, 1 failed" "$(run_one 60 "$room/sound")"

# It waits for a process in its own group and for one in another group; neither ends when it is asked to.
script hangs <<END
echo "ok one"
(trap '' TERM; echo \$BASHPID >>"$room/processes"; while :; do sleep 1; done) &
timeout 1000 bash -c 'echo \$\$ >>"$room/processes"; trap "" TERM; while :; do sleep 1; done' &
echo \$\$ >>"$room/processes"
wait
echo "ok two"
END
same "runner: a script that hangs is told, and what it said before is counted" "ok one
not ok hangs: ran longer than 2 s
1 passed, 1 failed" "$(run_one 2 "$room/hangs")"
same "runner: nothing is left of it" "0 of 3" "$(left)"

rm "$room/processes"
script stubborn <<END
trap '' TERM
echo \$\$ >>"$room/processes"
while :; do sleep 1; done
END
same "runner: so is one that does not end when it is asked to" "not ok stubborn: ran longer than 1 s
0 passed, 1 failed" "$(run_one 1 "$room/stubborn")"
same "runner: nothing is left of that one" "0 of 1" "$(left)"

rm "$room/processes"
script leaves <<END
echo "ok one"
sleep 1000 &
echo \$! >>"$room/processes"
END
same "runner: a script that ends does not wait for what it has left running" "ok one
1 passed, 0 failed" "$(run_one 60 "$room/leaves")"
same "runner: nothing is left of that" "0 of 1" "$(left)"

script silent </dev/null
same "runner: a script that counts nothing is a failure" "not ok silent ended with status 0 after 0 tests
0 passed, 1 failed" "$(run_one 60 "$room/silent")"
script fails <<'END'
echo "ok one"
exit 124
END
same "runner: so is one that fails and does not say why, whatever its status" "ok one
not ok fails ended with status 124 after 1 tests
1 passed, 1 failed" "$(run_one 60 "$room/fails")"

# The whole of ./test ends by a signal while a script runs.
rm "$room/processes"
script long <<END
echo \$\$ >>"$room/processes"
sleep 1000
END
bash -c ". tests/runner.bash; trap end_sessions EXIT; run_script 60 '$room/kept' '$room/long'" >/dev/null 2>&1 &
for _ in {1..100}; do [ -s "$room/processes" ] && break; sleep 0.1; done
kill "$!"
wait "$!"
same "runner: where it is ended itself, it leaves nothing" "0 of 1" "$(left)"
