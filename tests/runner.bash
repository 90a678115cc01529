# How ./test runs a script and counts what it says. ./test sources it, and so does tests/test-runner.sh, which tests it.
. tools/session.bash
passed=0 failed=0
ok() { echo "ok $1"; passed=$((passed + 1)); }
not_ok() { echo "not ok $1"; failed=$((failed + 1)); }

# The sessions that were started and are not ended yet, each with the second at which its time is over.
declare -A ends=()
# The seconds between the two signals to a command that runs too long: one that it can answer, and one that it cannot.
patience=10

# Starts a command in a session of its own, for at most LIMIT seconds. What it says goes to FILE; session is its number.
start() { # LIMIT FILE COMMAND..
    local limit=$1 file=$2
    shift 2
    setsid timeout --kill-after="$patience" "$limit" "$@" >"$file" 2>&1 </dev/null &
    session=$!
    ends[$session]=$((SECONDS + limit))
}

# Waits for the command of a session, and ends whatever that has left running. Returns its status; late is 'yes' where the
# command ran longer than it may.
finish_session() { # SESSION
    local status
    wait "$1"
    status=$?
    late=no
    # The status of `timeout` itself: 124 after the first signal, 137 after the second.
    case $status in 124 | 137) [ "$SECONDS" -lt "${ends[$1]}" ] || late=yes ;; esac
    end_session "$1"
    return "$status"
}

# Ends a session, with all that it has left running.
end_session() { # SESSION
    kill_session "$1"
    unset "ends[$1]"
}

# Ends all that was started: for the end of the shell, however that comes.
end_sessions() {
    local each
    for each in "${!ends[@]}"; do end_session "$each"; done
}

# Runs a command for at most LIMIT seconds, and shows what it says, which FILE keeps. Returns as finish_session does.
run() { # LIMIT FILE COMMAND..
    local began=$SECONDS status
    : >"$2"
    start "$@"
    tail --follow --lines=+1 --sleep-interval=0.1 --pid="$session" "$2"
    finish_session "$session"
    status=$?
    echo "-- $3 took $((SECONDS - began)) s"
    return "$status"
}

# Runs a script that prints 'ok NAME' and 'not ok NAME', and counts those lines.
run_script() { # LIMIT FILE SCRIPT
    run "$@"
    count_lines "$3" $? "$1" "$2"
}

# Counts what a script has said. A script that counts nothing, that fails without a 'not ok', or that ran too long is a
# failure itself.
count_lines() { # NAME STATUS LIMIT FILE
    local good bad
    good=$(grep -c '^ok ' "$4")
    bad=$(grep -c '^not ok ' "$4")
    passed=$((passed + good)) failed=$((failed + bad))
    if [ "$late" = yes ]; then
        not_ok "$1: ran longer than $3 s"
    elif [ $((good + bad)) -eq 0 ] || { [ "$2" -ne 0 ] && [ "$bad" -eq 0 ]; }; then
        not_ok "$1 ended with status $2 after $good tests"
    fi
}
