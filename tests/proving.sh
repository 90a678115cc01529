#!/usr/bin/env bash
# tools/proving.bash, by which library/build and ./level have crates proved: it tells how far it is, and whoever ends it leaves
# nothing running. A script stands in for `rt`, so that it takes seconds.
cd "$(dirname "$0")/.." || exit 1
. tests/check.bash
root=$PWD
room=$(mktemp -d) || exit 1
trap 'rm -rf "$room"' EXIT

# In place of `rt`: it says what `rt` says and leaves what `rt` leaves, and writes down its processes. Where the file `hangs` is
# there it hangs, in three processes, one of them in a group of its own, and none ends when it is asked to.
mkdir "$room/bin" "$room/temporary"
cat >"$room/bin/rt" <<END
#!/usr/bin/env bash
trap '' INT TERM HUP
echo \$\$ >>"$room/processes"
echo "\$(basename "\$PWD") \$*" >"$room/asked"
cat >"$room/read"
mktemp -d >"$room/folder"
echo "library lists: modules loaded=1 checked=0"
echo "crate a: modules loaded=1 checked=2"
echo "logic=proved functions=3 sum=00"
echo "crate a: modules loaded=3 checked=0"
echo "logic=proved functions=3 sum=00"
echo "crate other: modules loaded=1 checked=0"
echo "logic=proved functions=3 sum=00"
sleep 0.5
echo "crate b: modules loaded=1 checked=1"
echo "axioms std: none reached of the 2 declared"
printf 'logic=pro'
sleep 0.5
echo 'ved functions=3' >&2
if [ -e "$room/hangs" ]; then
    sh -c 'echo \$\$ >>"$room/processes"; while :; do sleep 1; done' &
    set -m
    sh -c 'echo \$\$ >>"$room/processes"; while :; do sleep 1; done' &
    while :; do sleep 1; done
fi
sleep 1000 &
echo \$! >>"$room/processes"
echo "crate c: modules loaded=1 checked=1"
echo "logic=proved functions=1"
exit 7
END
chmod +x "$room/bin/rt"
printf '# NAME: DEP DEP ..\na:\nb: a\nc staticlib: b io\nother: c # a program\n' >"$room/crates.txt"
mkdir -p "$room/crates/"{a,b,c,other}
cat >"$room/script" <<END
set -u
cd "$room"
. "$root/tools/proving.bash"
trap 'echo "the caller ends with \$?" >&2' EXIT
trap 'echo none' USR1
prove_with_progress "$room/log" rt "lib --cpu x86-64" c
echo "status \$?"
trap -p
END
export PATH="$room/bin:$PATH" TMPDIR="$room/temporary"

# The processes that were written down and have not ended; one that has, and waits for its parent, has.
alive() {
    local process
    for process in $(cat "$room/processes"); do
        if [ -d "/proc/$process" ] && ! grep -q '^State:[[:space:]]*Z' "/proc/$process/status" 2>/dev/null; then echo "$process"; fi
    done
}
# How many there are of them, and of the temporary files.
here() { echo "$(alive | wc -l) of $(wc -l <"$room/processes") processes, $(find "$room/temporary" -mindepth 1 | wc -l) files"; }
# The same after the end. A test that fails leaves nothing either.
left() {
    here
    local processes
    processes=$(alive)
    [ -z "$processes" ] || kill -KILL $processes
    rm -rf "$room/temporary"/* "$room/processes"
}
# Waits until all three processes hang, and all that was done is told.
hung() {
    for _ in {1..200}; do
        if [ -e "$room/processes" ] && [ "$(wc -l <"$room/processes")" -eq 3 ] && grep -q '^proved 2' "$room/err"; then break; fi
        sleep 0.1
    done
}

behind() { (cd "$room" && . "$root/tools/proving.bash" && crates_behind "$@" | tr '\n' ' '); }
same "proving: behind a crate stands all that it uses, each once" "a b c " "$(behind c b)"
same "proving: without a name it is every crate" "a b c other " "$(behind)"

bash "$room/script" >"$room/out" 2>"$room/err" <"$room/crates.txt"
same "proving: each crate that is done is told once, with the count" "proved 1 of 3: a
proved 2 of 3: b
proved 3 of 3: c
the caller ends with 0" "$(cat "$room/err")"
same "proving: the status is that of rt, and the caller's traps are as they were" "status 7
trap -- 'echo \"the caller ends with \$?\" >&2' EXIT
trap -- 'echo none' SIGUSR1" "$(cat "$room/out")"
same "proving: rt has its words in the crate's folder, and nothing to read" "c lib --cpu x86-64|" "$(cat "$room/asked")|$(cat "$room/read")"
same "proving: the log has all that rt said" "12" "$(wc -l <"$room/log" | tr -d ' ')"
same "proving: nothing is left of what rt has started, and of its temporary files" "0 of 2 processes, 0 files" "$(left)"

cat >"$room/plain" <<END
cd "$room"
. "$root/tools/proving.bash"
prove_with_progress "$room/log" rt lib c
echo "\$? \$(trap -p)"
END
same "proving: a caller without traps has none after it" "7 " "$(bash "$room/plain" 2>/dev/null)"
left >/dev/null

# Crates that have not changed since they were proved, of which rt says nothing, and one that is not proved.
mkdir "$room/other-bin"
cat >"$room/other-bin/rt" <<END
#!/usr/bin/env bash
echo "\$(basename "\$PWD") \$*" >>"$room/asked-each"
echo "crate \$(basename "\$PWD"): modules loaded=1 checked=0"
echo "logic=proved functions=1"
END
chmod +x "$room/other-bin/rt"
cat >"$room/several" <<END
cd "$room"
PATH=$room/other-bin:\$PATH
. "$root/tools/proving.bash"
prove_with_progress "$room/log" rt check b other
echo "status \$?"
paste -sd, "$room/asked-each"
END
several() {
    rm -f "$room/asked-each"
    bash "$room/several" 2>&1
}
same "proving: several crates are proved one after the other, and what rt is silent of is told at the end" "proved 1 of 4: b
proved 2 of 4: other
proved 3 of 4: a
proved 4 of 4: c
status 0
b check,other check" "$(several)"
cat >"$room/other-bin/rt" <<END
#!/usr/bin/env bash
echo "crate \${PWD##*/}: modules loaded=1 checked=0" >&2
[ ! -e "$room/fails" ] || { echo "logic=not-proved" >&2; exit 1; }
echo "logic=proved functions=1" >&2
echo "rt: running out/\${PWD##*/}; to give it other input, run that file yourself" >&2
echo "what the program writes"
exit 3
END
sed 's/rt check b other/rt run b other/; /asked-each/d' "$room/several" >"$room/runs"
same "proving: programs that were built are run, and how they end is nothing here" "proved 1 of 4: b
proved 2 of 4: other
proved 3 of 4: a
proved 4 of 4: c
status 0 0" "$(bash "$room/runs" 2>&1) $(grep -c 'the program writes' "$room/log")"
: >"$room/fails"
same "proving: and one that is not proved ends it" "status 1" "$(bash "$room/runs" 2>&1)"
rm "$room/fails"
cat >"$room/other-bin/rt" <<END
#!/usr/bin/env bash
echo "\$(basename "\$PWD") \$*" >>"$room/asked-each"
echo "crate a: modules loaded=1 checked=0"
echo "logic=not-proved"
exit 5
END
same "proving: after one that is not proved comes no other" "status 5
b check" "$(several)"

# Each signal, to the script alone, and to its group, as a terminal sends it. With `set -m` the script has a group of its own.
# Whoever runs this may ignore a signal, and then a script cannot catch it: so each is first as it is by default.
default=(env --default-signal=INT,TERM,HUP)
: >"$room/hangs"
for case in "INT group 130" "INT alone 130" "TERM group 143" "TERM alone 143" "HUP group 129" "HUP alone 129"; do
    read -r signal whom due <<<"$case"
    set -m
    "${default[@]}" bash "$room/script" >"$room/out" 2>"$room/err" &
    script=$!
    set +m
    hung
    was=$(here)
    if [ "$whom" = group ]; then kill -"$signal" -- "-$script"; else kill -"$signal" "$script"; fi
    wait "$script"
    status=$?
    same "proving: after $signal to the script ($whom) nothing is left" \
        "3 of 3 processes, 2 files; $due; 0 of 3 processes, 0 files" "$was; $status; $(left)"
    same "proving: and the caller's own end is run, and nothing else said" "proved 1 of 3: a
proved 2 of 3: b
the caller ends with $due" "$(cat "$room/out" "$room/err")"
done

# Whoever reads the progress goes away.
timeout 60 bash "$room/script" 2>&1 >"$room/out" | head -n 1 >/dev/null
same "proving: where nobody reads what it tells, it ends, and nothing is left" "141 0 0 files" "${PIPESTATUS[0]} $(left | sed 's/ of.*,//')"

# On a terminal: a line that changes, and the key Control-C.
cat >"$room/terminal" <<'END'
import os, pty, re, sys, time
room = sys.argv[1]
child, terminal = pty.fork()
if child == 0:
    os.execvp("bash", ["bash", room + "/script"])
text, pressed = b"", False
while True:
    try:
        text += os.read(terminal, 1000)
    except OSError:
        break
    if b"2 of 3: b" in text and not pressed:
        while len(open(room + "/processes").readlines()) < 3:
            time.sleep(0.1)
        os.write(terminal, b"\x03")
        pressed = True
status = os.waitpid(child, 0)[1]
told = text.replace(b"^C", b"").replace(b"\r\n", b"|").decode()
print([re.sub(r" +(?=\||$)", "", line) for line in told.split("\r")], os.WEXITSTATUS(status))
END
"${default[@]}" timeout 60 python3 "$room/terminal" "$room" >"$room/out"
same "proving: on a terminal one line changes, and Control-C ends the script" \
    "['', 'proved 1 of 3: a', 'proved 2 of 3: b|the caller ends with 130|'] 130" "$(cat "$room/out")"
same "proving: and nothing is left" "0 of 3 processes, 0 files" "$(left)"
