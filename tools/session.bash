# How a script ends all that a command of its own has started. tools/proving.bash and tests/runner.bash source it.

# Ends each process of a session that this shell has started in the background, by `setsid COMMAND &`, and waits for its first
# one. What a command starts is in its session, also in a process group of its own. A process that is just being started is
# found in the next round; the first one of all is still in the session of this shell, and is known by its number.
kill_session() { # SESSION
    local found process stat words
    for _ in {1..50}; do
        found=no
        for process in /proc/[0-9]*; do
            stat=
            read -r -d '' stat <"$process/stat" || :
            # Behind the name, which stands in brackets: the state (Z: it has ended), the parent, the group, the session.
            read -r -a words <<<"${stat##*) }" || :
            if { [ "${words[3]-}" = "$1" ] || [ "${process#/proc/} ${words[1]-}" = "$1 $BASHPID" ]; } && [ "${words[0]}" != Z ]; then
                kill -KILL "${process#/proc/}" || :
                found=yes
            fi
        done
        [ "$found" = yes ] || break
        sleep 0.1
    done
    wait "$1" || :
} 2>/dev/null
