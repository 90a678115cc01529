# How library/build and ./level have crates proved: they tell how far it is, and leave no prover running when they are ended.
# Each sources this file in the root of the repository; tests/proving.sh tests it.
. "$(dirname "${BASH_SOURCE[0]}")/session.bash"

# Prints the named crates and all that they use, each once, of those that crates.txt lists; without a name, all of them.
crates_behind() { # NAME..
    awk -v wanted="$*" '
        function visit(name,    used, count, i) {
            if (!(name in uses) || name in seen) return
            seen[name] = 1
            count = split(uses[name], used, " ")
            for (i = 1; i <= count; i++) visit(used[i])
            print name
        }
        { sub(/#.*/, "") }
        /:/ {
            # Behind the name may stand `staticlib`.
            sub(/^[ \t]+/, "")
            split($0, names, /[ \t:]+/)
            name = names[1]
            sub(/^[^:]*:/, "")
            uses[name] = $0
            listed = listed " " name
        }
        END {
            count = split(wanted == "" ? listed : wanted, names, " ")
            for (i = 1; i <= count; i++) visit(names[i])
        }' crates.txt
}

# Runs `rt VERB` in the folder of each crate NAME, one after the other, up to the first that fails; VERB may have flags in the same
# word. It has a session of its own, nothing to read, and a folder of its own for what it writes in between; all that it says goes to
# LOG. `rt` proves the crates that NAME uses as well, where they have changed since they were proved, and says nothing of one that
# has not. `rt run` proves and builds a program and then runs it: what that writes and how it ends is nothing here. Each crate that is
# done is told on standard error, the silent ones at the end: in one line that changes where that is a
# terminal, otherwise in a line each. Returns the status of `rt`. A signal that ends this shell meanwhile (INT, TERM, HUP: the status
# is 130, 143, 129), and any other end, ends the session first; the caller's own traps are put back, and that for EXIT is run.
prove_with_progress() { # LOG rt VERB NAME..
    local log=$1 name line part='' of='' total count=0 status lines silence running=yes
    local -a behind
    local -A left=()
    shift
    mapfile -t behind < <(crates_behind "${@:3}")
    for name in "${behind[@]}"; do left[$name]=yes; done
    total=${#left[@]}
    # Of the silence nothing is ever read: a pause without a process, of which the shell would tell how a signal ends it.
    : >"$log" && exec {lines}<"$log" {silence}<> <(:) && proving_room=$(mktemp -d) || return
    # `rt` runs a program as another user where it can, who has to reach its folder.
    chmod 711 "$proving_room"
    proving_shown='' proving_last=${!-} proving_traps=$(trap -p INT TERM HUP QUIT EXIT)
    eval "proving_exit=($(trap -p EXIT))"
    trap 'end_proving && :; eval "${proving_exit[2]-}"' EXIT
    trap 'exit 130' INT
    trap 'exit 143' TERM
    trap 'exit 129' HUP
    trap 'exit 131' QUIT
    TMPDIR=$proving_room setsid bash -c '
        for name in "${@:4}"; do
            if [ "$3" = run ]; then
                (cd "crates/$name" && exec "$2" run) 2>&1 >/dev/null || grep -q "^rt: running out/$name;" "$1" || exit 1
            else
                (cd "crates/$name" && exec "$2" $3) || exit
            fi
        done' prover "$log" "$@" >>"$log" 2>&1 </dev/null &
    while [ "$running" = yes ]; do
        read -r -t 0.2 -u "$silence" _ || :
        # What was said last is read after the end.
        kill -0 "$!" 2>/dev/null || running=no
        while IFS= read -r line <&"$lines"; do
            line=$part$line part=
            # A crate's count of modules; and behind it, where that is so, that the crate is proved.
            [[ ! $line =~ ^crate\ ([a-z0-9_]+):\  ]] || of=${BASH_REMATCH[1]}
            [[ ! $line =~ ^logic=proved\  ]] || tell_proved "$of"
        done
        # A line that is still being written.
        part+=$line
    done
    exec {lines}<&- {silence}<&-
    wait "$!" && status=0 || status=$?
    if [ "$status" = 0 ]; then for name in "${behind[@]}"; do tell_proved "$name"; done; fi
    end_proving
    return "$status"
}

# Tells a crate once, of prove_with_progress.
tell_proved() { # NAME
    [ -n "$1" ] && [ -n "${left[$1]-}" ] || return 0
    unset "left[$1]"
    count=$((count + 1))
    local line="proved $count of $total: $1"
    if [ -t 2 ]; then printf '\r%-60s' "$line" >&2 && proving_shown=yes; else echo "$line" >&2; fi
}

# Ends what prove_with_progress has started, and puts back what it has changed. Returns the status that there was before.
end_proving() {
    local status=$?
    trap '' INT TERM HUP QUIT
    [ -z "$proving_shown" ] || echo >&2 || :
    [ "${!-}" = "$proving_last" ] || kill_session "$!"
    rm -rf "$proving_room"
    trap - INT TERM HUP QUIT EXIT
    eval "$proving_traps"
    return "$status"
}
