#!/usr/bin/env bash
# The program `carry`, run from outside, and ./level carry, of one strip and of many.
cd "$(dirname "$0")/.." || exit 1
. tests/check.bash
if [ ! -f crates/carry/out/carry ]; then
    echo "not ok carry: the program is built"
    exit 1
fi
room=$(mktemp -d)
trap 'rm -rf "$room"' EXIT

mapfile -t words < <(tests/run-program --words carry)
run() { "${words[@]}" "$@" >"$room/got" 2>"$room/err" 3>"$room/reply"; }
strips=tests/strips
paper=$strips/paper.strip
twin=$strips/version-2-paper.strip

carried() { # NAME DUE: it was written, its size was told, and 0 stands on descriptor 3
    same_file "carry: $1: the bytes" "$2" "$room/got"
    same "carry: $1: its size is told" "$(wc -c <"$2") bytes" "$(cat "$room/err")"
    same_file "carry: $1: on descriptor 3" <(printf 0) "$room/reply"
}
refused() { # NAME LINE: nothing was written, and the line and the reply are told
    same "carry: $1: what is told, on descriptor 3, and how many bytes are written" "$2, ${2##* }, 0" \
        "$(cat "$room/err"), $(cat "$room/reply"), $(wc -c <"$room/got")"
}
fails() { # NAME MESSAGE: nothing stands on descriptor 3
    same "carry: $1: what is told, and nothing on descriptor 3" "$2, " "$(cat "$room/err"), $(cat "$room/reply")"
}

# The paper's strip and its twin: five records take 26 + 5 x 22 bytes in version 1, and one more in version 2.
run up <"$paper"
carried "the paper's strip, up" "$twin"
same "carry: the paper's strip, up: 27 + 5 x 22 bytes" "137 bytes" "$(cat "$room/err")"
run back <"$twin"
carried "its twin, back" "$paper"
same "carry: its twin, back: 26 + 5 x 22 bytes" "136 bytes" "$(cat "$room/err")"

# Every strip of tests/strips, both ways. What each begins with and ends with is in its name and in its lines, which are the
# Rust's: a refusal of the strip is the one that its last line says, but for 7 of the other version.
version() { od -An -j2 -N1 -tu1 "$1" | tr -d ' '; }
own() { awk '$2 == "R" { line = $0 } END { print line }' "${1%.strip}.lines"; }
for strip in "$strips"/*.strip; do
    name=$(basename "$strip" .strip)
    bytes=$(wc -c <"$strip") line=$(own "$strip")
    for way in up back; do
        case $way in up) from=1 ;; *) from=2 ;; esac
        if [ "$bytes" -lt 3 ]; then
            due="0 R 5"
        elif [ "$(version "$strip")" != "$from" ]; then
            due="0 R 7"
        elif [ -n "$line" ]; then
            due=$line
        elif [ "$way" = up ]; then
            due="$((bytes + 1)) bytes"
        else
            # T has two bytes, and a gap's line is G.
            t=$(od -An -j3 -N2 -tu1 "$strip" | awk '{ print $1 * 256 + $2 }')
            gap=$(awk '$2 == "G" { print $1; exit }' "${strip%.strip}.lines")
            if [ "$t" -gt 200 ]; then due="0 R 9"; elif [ -n "$gap" ]; then due="$gap R 9"; else due="$((bytes - 1)) bytes"; fi
        fi
        run "$way" <"$strip"
        case $due in
        *bytes)
            same "carry: $name, $way: its size, and what is on descriptor 3" "$due, 0" "$(cat "$room/err"), $(cat "$room/reply")"
            cp "$room/got" "$room/there"
            if [ "$way" = up ]; then run back <"$room/there"; else run up <"$room/there"; fi
            carried "$name, $way and the other way again" "$strip"
            ;;
        *) refused "$name, $way" "$due" ;;
        esac
    done
done
# The order: what the strip itself is refused with, then T, then the first gap.
head -c 27 "$strips/version-2-threshold-201.strip" >"$room/head-201"
tail -c +28 "$twin" | head -c 22 >"$room/record"
tail -c +50 "$strips/version-2-record-2-no-number.strip" | head -c 22 >"$room/wrong"
cat "$room/head-201" <(printf '\0\0') "$room/record" >"$room/strip"
run back <"$room/strip"
refused "a T of 201 before a gap" "0 R 9"
cat "$room/head-201" <(printf '\0\0') "$room/wrong" >"$room/strip"
run back <"$room/strip"
refused "a figure behind a gap, with a T of 201" "2 R 2"
cat "$room/head-201" "$room/record" <(printf '\0') >"$room/strip"
run back <"$room/strip"
refused "a strip that is cut, with a T of 201" "2 R 5"
cat <(head -c 27 "$twin") "$room/record" <(printf '\0\0') "$room/record" <(printf '\0\0') >"$room/strip"
run back <"$room/strip"
refused "two gaps: the first is told" "2 R 9"
printf '\0\x18\x02' >"$room/strip"
run up <"$room/strip"
refused "7 before the length and before what is cut, up" "0 R 7"
printf '\0\x19\x01' >"$room/strip"
run back <"$room/strip"
refused "7 before the length and before what is cut, back" "0 R 7"

# What was carried prints the same lines, and levels the same sound.
run up <examples/service.strip
cp "$room/got" "$room/service.strip"
tests/run-program strip <"$room/service.strip" >"$room/lines" 2>/dev/null
same_file "carry: the example service prints the same lines" examples/service.lines "$room/lines"
sound=crates/recording
run up <"$sound/data/service.strip"
cp "$room/got" "$room/service.strip"
tests/run-program recording "$room/service.strip" <"$sound/stdin" >"$room/levelled" 2>/dev/null
same_file "carry: a recording is levelled the same" "$sound/stdout" "$room/levelled"

# Cut at each byte: a head that is cut, a record that is, or a shorter strip. 7 is seen once there are three bytes.
cut_anywhere() { # NAME WAY STRIP HEAD
    local n due
    : >"$room/due" && : >"$room/all"
    for ((n = 0; n <= $(wc -c <"$3"); n++)); do
        head -c "$n" "$3" >"$room/strip"
        run "$2" <"$room/strip"
        cat "$room/err" >>"$room/all"
        if [ "$n" -lt "$4" ]; then
            due="0 R 5"
        elif [ $(((n - $4) % 22)) -ne 0 ]; then
            due="$(((n - $4) / 22 + 1)) R 5"
        elif [ "$2" = up ]; then
            due="$((n + 1)) bytes"
        else
            due="$((n - 1)) bytes"
        fi
        echo "$due" >>"$room/due"
    done
    same_file "carry: $1: cut at each byte" "$room/due" "$room/all"
}
cut_anywhere "the paper's strip, up" up "$paper" 26
cut_anywhere "its twin, back" back "$twin" 27

# Words, and what cannot be read twice or written.
usage="carry: it takes one word, up or back: carry up < OLD.strip > NEW.strip"
for word in "" u upp Up bac back2 "up back"; do
    # shellcheck disable=SC2086
    run $word <"$paper"
    fails "the words '$word'" "$usage"
done
twice="carry: standard input cannot be read twice: give a file, and no pipe"
run up < <(cat "$paper")
fails "a pipe" "$twice"
same "carry: a pipe: nothing is written" "" "$(cat "$room/got")"
# A strip by its name: standard input is not looked at.
run up --file "$paper" < <(cat "$paper")
carried "a named strip, up" "$twin"
run back --file "$twin" <&-
carried "a named strip, back" "$paper"
run up --file "$room/none" <"$paper"
fails "a named strip that is missing" "carry: the strip: No such file or directory"
run up --file . <"$paper"
fails "a named folder" "carry: the strip: Is a directory"
for word in "up --file" "up --fil $paper" "sideways --file $paper" "up --file $paper $paper"; do
    # shellcheck disable=SC2086
    run $word <"$paper"
    fails "the words '$word'" "$usage"
done
run up <&-
fails "closed input" "$twice"
run up <.
fails "a folder" "carry: standard input: Is a directory"
"${words[@]}" up <"$paper" >/dev/full 2>"$room/err" 3>"$room/reply"
fails "output to /dev/full" "137 bytes
carry: standard output: No space left on device"
"${words[@]}" up <"$paper" >&- 2>"$room/err" 3>"$room/reply"
fails "closed output" "137 bytes
carry: standard output: Bad file descriptor"
# The size is told before the first byte is written: a reader who never reads lets nothing through but that line.
mkfifo "$room/slow"
{ cat "$paper"; yes "$room/record" | head -n 20000 | xargs cat; } >"$room/long"
"${words[@]}" up <"$room/long" 2>"$room/err" 3>"$room/reply" >"$room/slow" &
program=$!
exec 4<"$room/slow"
for ((i = 0; i < 600; i++)); do [ -s "$room/err" ] && break; sleep 0.1; done
same "carry: the size is told while the output still waits" "$(($(wc -c <"$room/long") + 1)) bytes, " "$(cat "$room/err"), $(cat "$room/reply")"
cat <&4 >"$room/got"
wait "$program"
exec 4<&-
same "carry: and then all of it is written" "$(($(wc -c <"$room/long") + 1)), 0" "$(wc -c <"$room/got"), $(cat "$room/reply")"

# A strip that changes between the two readings: the program stands still before its second one, at the line with the size, which
# nobody has read yet.
changed="carry: the strip changed while it was carried: what was written is not to be used"
mkfifo "$room/told"
while_carried() { # NAME COMMAND..: on $room/strip, which the paper's strip is, before its second reading
    local name=$1
    shift
    cp "$paper" "$room/strip"
    # The pipe is full, however much it holds, so the line with the size has to wait.
    exec 5<>"$room/told"
    timeout 1 cat /dev/zero >&5
    "${words[@]}" up <"$room/strip" >"$room/got" 2>"$room/told" 3>"$room/reply" &
    program=$!
    # It waits in the write of that line, to descriptor 2, twice in a row; where that cannot be seen, some seconds have to do.
    local waits=0
    for ((i = 0; i < 600 && waits < 2; i++)); do
        if ! read -r _ descriptor _ 2>/dev/null <"/proc/$program/syscall"; then
            sleep 5
            break
        fi
        if [ "$descriptor" = 0x2 ]; then waits=$((waits + 1)); else waits=0; fi
        sleep 0.1
    done
    "$@"
    # All that the pipe has, up to a sign of our own behind what the program told.
    cat <&5 >"$room/raw" &
    local reader=$!
    wait "$program"
    printf @ >&5
    for ((i = 0; i < 600; i++)); do
        [ -z "$(tail -c 1 "$room/raw" | tr -d -c @)" ] || break
        sleep 0.1
    done
    { kill "$reader" && wait "$reader"; } 2>/dev/null
    exec 5<&-
    tr -d '\0@' <"$room/raw" >"$room/err"
    case $name in
    *"the same"*) same "carry: $name: what is told, and on descriptor 3" "137 bytes, 0" "$(cat "$room/err"), $(cat "$room/reply")" ;;
    *) fails "$name" "137 bytes
$changed" ;;
    esac
}
cut_off() { truncate -s -22 "$room/strip"; }
cut_inside() { truncate -s -1 "$room/strip"; }
longer() { cat "$room/record" >>"$room/strip"; }
other_t() { printf '\x03' | dd of="$room/strip" bs=1 seek=3 conv=notrunc status=none; }
other_version() { printf '\x02' | dd of="$room/strip" bs=1 seek=2 conv=notrunc status=none; }
while_carried "a strip that stays the same" true
while_carried "a strip that loses a record" cut_off
while_carried "a strip that is cut" cut_inside
while_carried "a strip that has one record more" longer
while_carried "a strip with another T" other_t
while_carried "a strip with another version" other_version

# A million records: the first hundred of the example, again and again. The memory is that of ten thousand.
example=examples/service.strip
head -c 26 "$example" >"$room/head"
head -c 2226 "$example" | tail -c 2200 >"$room/hundred"
yes "$room/hundred" | head -n 100 | xargs cat >"$room/block"
cat "$room/head" "$room/block" >"$room/ten-thousand"
{ cat "$room/head" && for ((i = 0; i < 100; i++)); do cat "$room/block"; done; } >"$room/million"
# The program waits while nobody takes what it writes: so the last hundred thousand bytes are taken once the memory is read.
mkfifo "$room/measured"
measured() { # STRIP WAY: carries it to $room/got, and prints the most memory that the program has used by then, in kB
    tests/run-program carry "$2" <"$1" >"$room/measured" 2>"$room/err" 3>"$room/reply" &
    local program=$!
    {
        head -c $(($(wc -c <"$1") - 100000)) >"$room/got"
        sed -n 's/^VmHWM:[^0-9]*\([0-9]*\) kB/\1/p' "/proc/$program/status"
        cat >>"$room/got"
    } <"$room/measured"
    wait "$program"
}
before=$(measured "$room/ten-thousand" up)
after=$(measured "$room/million" up)
same "carry: a million records, up: their size, and what is on descriptor 3" "22000027 bytes, 0" "$(cat "$room/err"), $(cat "$room/reply")"
same_file "carry: a million records, up: the bytes" <(printf '\0\x19\x02\0'; tail -c +4 "$room/million") "$room/got"
if [ -n "$before" ] && [ -n "$after" ] && [ "$after" -le $((before + 500)) ]; then
    echo "ok carry: a million records take no more memory than 10000 ($before kB, $after kB)"
else
    echo "not ok carry: a million records take no more memory than 10000 ($before kB, $after kB)"
fi
# Back, a tenth of them: an output of version 1 is just as long, but for one byte.
head -c $((27 + 2200000)) "$room/got" >"$room/tenth"
run back <"$room/tenth"
same_file "carry: a hundred thousand records, back: the bytes" <(head -c $((26 + 2200000)) "$room/million") "$room/got"
# The last of many records is refused, and nothing is written.
{ head -c $((26 + 2200000)) "$room/million"; printf '\0\x14'; } >"$room/cut"
run up <"$room/cut"
refused "the record behind a hundred thousand is cut" "100001 R 5"

# ---- ./level, one strip
level() { ./level carry "$@" >"$room/got" 2>"$room/err"; }
level up "$paper"
same "level carry: up ends with status 0, and its size" "0 137 bytes" "$? $(cat "$room/err")"
same_file "level carry: up, the bytes" "$twin" "$room/got"
level back "$twin"
same "level carry: back ends with status 0, and its size" "0 136 bytes" "$? $(cat "$room/err")"
same_file "level carry: back, the bytes" "$paper" "$room/got"
level up - <"$paper"
same "level carry: standard input that is a file" "0 137 bytes" "$? $(cat "$room/err")"
level up "$twin"
same "level carry: a strip of the other version: status 1, one line, and nothing is written" "1 0 R 7 0" "$? $(cat "$room/err") $(wc -c <"$room/got")"
level back "$strips/version-2-gap.strip"
same "level carry: a gap: status 1, one line, and nothing is written" "1 2 R 9 0" "$? $(cat "$room/err") $(wc -c <"$room/got")"
level back "$strips/version-2-threshold-201.strip"
same "level carry: a T of 201: status 1, one line, and nothing is written" "1 0 R 9 0" "$? $(cat "$room/err") $(wc -c <"$room/got")"
level up - < <(cat "$paper")
same "level carry: a pipe: status 1, a line, and nothing is written" "1 $twice 0" "$? $(cat "$room/err") $(wc -c <"$room/got")"
level up <(cat "$paper")
same "level carry: a pipe that is named: status 1, a line, and nothing is written" "1 $twice 0" "$? $(cat "$room/err") $(wc -c <"$room/got")"
./level carry up "$paper" >/dev/full 2>"$room/err"
same "level carry: a full disk: status 1 and a message" "1 carry: standard output: No space left on device" "$? $(tail -n 1 "$room/err")"
./level carry up "$paper" >&- 2>"$room/err"
same "level carry: no standard output: status 1 and a message" "1 carry: standard output: Bad file descriptor" "$? $(tail -n 1 "$room/err")"
./level carry up "$room/long" 2>"$room/err" | head -c 0
same "level carry: a reader that is gone: status 1 and a message" "1 carry: standard output: Broken pipe" "${PIPESTATUS[0]} $(tail -n 1 "$room/err")"
wrong() { # NAME WORD..: status 2, a line, and nothing on standard output
    local name=$1
    shift
    level "$@"
    same "level carry: $name: status 2, a message, and nothing is written" "2 1 0" "$? $(wc -l <"$room/err") $(wc -c <"$room/got")"
}
wrong "no way" "$paper"
wrong "another way" down "$paper"
wrong "no strip" up
wrong "two strips and no folder" up "$paper" "$twin"
wrong "--over and no folder" up "$paper" --over
wrong "no such strip" up "$room/nothing"
wrong "a folder for a strip" up "$room"
wrong "a folder in no folder" up "$paper" --into "$room/nothing/there"
wrong "a folder that is a file" up "$paper" --into "$paper"
wrong "--into without a folder" up "$paper" --into
wrong "another word" up "$paper" --onto "$room"
cp "$paper" "$room/itself"
./level carry up "$room/itself" >>"$room/itself" 2>"$room/err"
same "level carry: a strip that is the output too: status 2" 2 $?
same_file "level carry: a strip that is the output too: it stays" "$paper" "$room/itself"

# ---- ./level, many strips
shelf=$room/shelf
mkdir "$shelf" "$room/old" "$room/old/other"
cp "$paper" "$room/old/one.strip"
cp "$strips/head-alone.strip" "$room/old/a name.strip"
cp "$twin" "$room/old/two.strip"
cp "$strips/record-5-cut.strip" "$room/old/cut.strip"
cp "$paper" "$room/old/other/one.strip"
many() { (cd "$room/old" && "$OLDPWD/level" carry "$@") >"$room/got" 2>"$room/err"; }
names() { (cd "$1" && find . -mindepth 1 -printf '%P\n' | LC_ALL=C sort | paste -sd,); } # FOLDER
many up one.strip "a name.strip" two.strip cut.strip none.strip other --into "$shelf"
same "level carry: many: status 1, and nothing on standard error" "1 " "$? $(cat "$room/err")"
same "level carry: many: a line for each" "one.strip: 137 bytes
a name.strip: 27 bytes
two.strip: 0 R 7
cut.strip: 2 R 5
none.strip: there is no such file
other: it is a folder" "$(cat "$room/got")"
same "level carry: many: only what was carried is there" "a name.strip,one.strip" "$(names "$shelf")"
same_file "level carry: many: the bytes" "$twin" "$shelf/one.strip"
same_file "level carry: many: the bytes of a head alone" "$strips/version-2-head-alone.strip" "$shelf/a name.strip"
same "level carry: many: a file may be read as others that are made here" "$(touch "$room/plain" && stat -c %a "$room/plain")" "$(stat -c %a "$shelf/one.strip")"
many up one.strip --into "$shelf"
same "level carry: many: a file that is there stays: status 1, and a line" \
    "1 one.strip: '$shelf/one.strip' is there already, and stays (--over overwrites it)" "$? $(cat "$room/got")"
echo stays >"$shelf/one.strip"
many up one.strip "a name.strip" --into "$shelf"
same "level carry: many: it stays as it is" "1 stays" "$? $(cat "$shelf/one.strip")"
many up --over one.strip --into "$shelf"
same "level carry: many: --over" "0 one.strip: 137 bytes" "$? $(cat "$room/got")"
same_file "level carry: many: --over, the bytes" "$twin" "$shelf/one.strip"
echo stays >"$shelf/cut.strip"
many up --over cut.strip --into "$shelf"
same "level carry: many: --over of a strip that is refused leaves what is there" "1 stays cut.strip: 2 R 5" "$? $(cat "$shelf/cut.strip") $(cat "$room/got")"
mkdir "$shelf/two.strip"
many back --over two.strip --into "$shelf"
same "level carry: many: --over overwrites no folder" "1 two.strip: '$shelf/two.strip' could not be made" "$? $(cat "$room/got")"
same "level carry: many: nothing else is left there" "a name.strip,cut.strip,one.strip,two.strip" "$(names "$shelf")"
many up one.strip other/one.strip --into "$shelf"
same "level carry: many: two of the same name: status 2, and a line" \
    "2 level: 'one.strip' and 'other/one.strip' would both be '$shelf/one.strip'" "$? $(cat "$room/err")"
many up - --into "$shelf"
same "level carry: many: standard input has no name: status 2" "2 level: standard input has no name in '$shelf'" "$? $(cat "$room/err")"
many up --into "$shelf" -- -none.strip
same "level carry: many: a name that begins with a dash" "1 -none.strip: there is no such file" "$? $(cat "$room/got")"
many up one.strip --into "$room/new shelf"
same "level carry: many: a folder that is not there is made" "0 one.strip: 137 bytes" "$? $(cat "$room/got")"
same_file "level carry: many: a folder that is not there is made: the bytes" "$twin" "$room/new shelf/one.strip"
# A shelf where it stands, and back.
many up one.strip --over --into .
same "level carry: many: a shelf where it stands" "0 one.strip: 137 bytes" "$? $(cat "$room/got")"
same_file "level carry: many: a strip takes the place of the one that it was carried from" "$twin" "$room/old/one.strip"
many back one.strip two.strip --over --into .
same "level carry: many: and back" 0 $?
same_file "level carry: many: and back, the first" "$paper" "$room/old/one.strip"
same_file "level carry: many: and back, the second" "$paper" "$room/old/two.strip"
# No file under its name before it is whole, and none where the command is ended.
head -c $((26 + 11000000)) "$room/million" >"$room/old/long.strip"
rm -rf "$shelf" && mkdir "$shelf"
(cd "$room/old" && exec "$OLDPWD/level" carry up one.strip long.strip --into "$shelf") >"$room/got" 2>"$room/err" &
program=$!
for ((i = 0; i < 3000; i++)); do
    [ -n "$(find "$shelf" -name '.carried.*' -size +0)" ] && [ -s "$room/got" ] && break
    sleep 0.1
done
same "level carry: many: while it is carried a strip has not its name" "one.strip" "$(names "$shelf" | tr ',' '\n' | grep -v '^\.carried\.')"
kill "$program"
wait "$program"
same "level carry: many: ended by a signal" 143 $?
same "level carry: many: ended by a signal, nothing of it is left" "one.strip" "$(names "$shelf")"
