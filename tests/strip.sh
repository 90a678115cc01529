#!/usr/bin/env bash
# The program `strip`, run from outside.
cd "$(dirname "$0")/.." || exit 1
. tests/check.bash
if [ ! -f crates/strip/out/strip ]; then
    echo "not ok strip: the program is built"
    exit 1
fi
room=$(mktemp -d)
trap 'rm -rf "$room"' EXIT

mapfile -t words < <(tests/run-program --words strip)
run() { "${words[@]}" "$@"; }

# The strip that document 01 works on paper, and its output, which is printed there; and its twin in version 2.
paper=tests/strips/paper.strip
twin=tests/strips/version-2-paper.strip
cat >"$room/paper" <<'LINES'
1 N -4000 2000 1500 0
2 W -4000 2000 1500 0
3 N -4000 2000 1500 0
4 W -4000 2000 1500 0
5 P -4000 2004 1495 0
LINES
run <"$paper" >"$room/got"
same "strip: a strip that is read to its end ends with status 0" 0 $?
same_file "strip: the paper's strip, to the byte" "$room/paper" "$room/got"
run <"$twin" >"$room/got"
same_file "strip: the paper's strip in version 2: the same lines, to the byte" "$room/paper" "$room/got"
# With a gap before its last record that is W, and not P: the run is broken, and no figure moves.
broken=tests/strips/version-2-gap-paper.strip
{ head -n 4 "$room/paper"; echo 5 G -4000 2000 1500 0; echo 6 W -4000 2000 1500 0; } >"$room/broken"
run <"$broken" >"$room/got"
same_file "strip: the paper's strip in version 2 with a gap before its last record, to the byte" "$room/broken" "$room/got"
run <tests/strips/record-2-no-number.strip >"$room/got"
same "strip: a strip that is refused ends with status 0 too" 0 $?

mkdir "$room/made"
tests/strips/make "$room/made"
same "strip: the strips of tests/strips are those that cases.txt says" "" \
    "$(for strip in "$room"/made/*.strip tests/strips/*.strip; do cmp {"$room/made",tests/strips}/"$(basename "$strip")" 2>&1; done)"
for strip in tests/strips/*.strip; do
    name=$(basename "$strip" .strip)
    run <"$strip" >"$room/got" || echo "status $?" >>"$room/got"
    same_file "strip: $name" "tests/strips/$name.lines" "$room/got"
done
# The name of a strip that is refused says where and with which number: head-6.. is 0 R 6, and record-6.. is 2 R 6.
same "strip: the stored lines end as the names of their strips say" "" \
    "$(for due in tests/strips/*.lines; do
        name=$(basename "$due" .lines) last=$(tail -n 1 "$due")
        case ${name#version-2-} in
        head-[0-9]-*) said=${name#*head-} said="0 R ${said%%-*}" ;;
        record-[0-9]-*) said=${name#*record-} said="2 R ${said%%-*}" ;;
        *) said="${last/ R / }" ;;
        esac
        [ "$last" = "$said" ] || echo "$name: $last"
    done)"

# Gaps: with a T of 2 a frame of speech on either side of one never publishes, and without it the second does.
kinds() { run <"tests/strips/$1.strip" | cut -d' ' -f2 | paste -sd' '; } # NAME
same "strip: speech, a gap and speech, with a T of 2" "W G W" "$(kinds version-2-gap)"
same "strip: the same speech without the gap" "W P" "$(kinds version-2-no-gap)"
same "strip: with a T of 3, two frames of speech, a gap and two frames" "W W G W W" "$(kinds version-2-gap-threshold-3)"
same "strip: with a T of 3, the same speech without the gap" "W W P P" "$(kinds version-2-no-gap-threshold-3)"
same "strip: a reading behind a gap" "G W P" "$(kinds version-2-gap-first)"
same "strip: with a T of 1 each frame of speech counts, also behind a gap" "P G P" "$(kinds version-2-gap-threshold-1)"
same "strip: each stored line has the next number, and a gap's has the figures of the line before it" "" \
    "$(awk '{ figures = $3 " " $4 " " $5 " " $6 }
        ($2 != "R" && $1 != FNR) || ($2 == "G" && FNR > 1 && figures != last) { print FILENAME ": " $0 }
        { last = figures }' tests/strips/*.lines)"
# 5,000 gaps, more than a block holds, whose end is in the middle of one.
{ head -c 27 "$twin" && head -c 10000 /dev/zero; } | run >"$room/got"
same_file "strip: 5,000 gaps: each has its number, and no figure moves" <(seq -f '%.0f G -4000 2000 1500 0' 5000) "$room/got"
{ head -c 27 "$twin" && head -c 9999 /dev/zero; } | run >"$room/got"
same "strip: 4,999 gaps and a half: the last lines" "4999 G -4000 2000 1500 0,5000 R 5" "$(tail -n 2 "$room/got" | paste -sd,)"
{ head -c 26 "$paper" && head -c 10000 /dev/zero; } | run >"$room/got"
same "strip: in version 1 a length of 0 is refused with 6" "1 R 6" "$(cat "$room/got")"

# Version 2 with a T of 3,000, thirty seconds: 2,999 lines wait, and the 3,000th publishes.
tests/strips/waits strip >"$room/waits.strip"
tests/strips/waits lines >"$room/due"
run <"$room/waits.strip" >"$room/got"
same_file "strip: with a T of 3,000, each line to the byte" "$room/due" "$room/got"
same "strip: with a T of 3,000, 2,999 lines are W, the 3,000th is the first P, and the next two are P and N" \
    "2999 W 2 P 1 N" "$(cut -d' ' -f2 "$room/got" | uniq -c | xargs)"
# And 2,999 frames, a gap and 2,999 frames never publish.
tests/strips/waits strip gap >"$room/waits.strip"
tests/strips/waits lines gap >"$room/due"
run <"$room/waits.strip" >"$room/got"
same_file "strip: with a T of 3,000, a gap after 2,999 frames and 2,999 frames after it, each line to the byte" "$room/due" "$room/got"

# The ring: how many peaks the protector remembers. The headroom falls with the frame that takes the first push out.
tests/strips/echo >"$room/echo.strip"
for n in {1..16}; do
    run --ring "$n" <"$room/echo.strip" >"$room/ring-$n" 2>"$room/err" 3>"$room/reply"
    same "strip: a ring of $n: 741 lines and no message, and the headroom falls for the first time with line $((41 * (n + 1)))" "741 $((41 * (n + 1))) 0" \
        "$(wc -l <"$room/ring-$n") $(awk 'NR > 1 && $4 < last && !fell { fell = $1 } { last = $4 } END { print fell }' "$room/ring-$n") $(cat "$room/reply")$(cat "$room/err")"
done
run <"$room/echo.strip" >"$room/got"
same_file "strip: without the word the ring holds 4" "$room/ring-4" "$room/got"
same "strip: the lines of a ring of 1, of 4 and of 16 are the Rust's" "$(cat tests/strips/echo.sha256)" \
    "$(for n in 1 4 16; do echo "$(sha256sum <"$room/ring-$n" | head -c 64) $n"; done)"
for asked in "--ring" "--ring 0" "--ring 17" "--ring 4x" "--ring 016" "--ring -1" "--ring 4 4" "4" "--rings 4" "-ring 4"; do
    # shellcheck disable=SC2086
    run $asked <"$paper" >"$room/got" 2>"$room/err" 3>"$room/reply"
    same "strip: the words '$asked': a line says what it takes, and nothing is printed" \
        "strip: it may take the words --ring N, with N from 1 to 16: strip [--ring N] < FILE.strip  " "$(cat "$room/err") $(cat "$room/got") $(cat "$room/reply")"
done

# The last act is to write the reply to descriptor 3, with no line end: the number of the refusal in the last line, and 0 where
# there is none. Nothing is written there where a read or a write failed.
told() { # NAME REPLY: descriptor 3 is in $room/reply
    same_file "strip: $1: on descriptor 3" <(printf %s "$2") "$room/reply"
}
for strip in tests/strips/*.strip; do
    name=$(basename "$strip" .strip)
    run <"$strip" >"$room/got" 3>"$room/reply"
    told "$name" "$(tail -n 1 "tests/strips/$name.lines" | awk '$2 == "R" { reply = $3 } END { print reply + 0 }')"
done
fails() { # NAME MESSAGE: standard error is in $room/err
    same "strip: $1: what is told" "strip: $2" "$(cat "$room/err")"
    told "$1" ""
}
run <"$paper" >/dev/full 2>"$room/err" 3>"$room/reply"
fails "output to /dev/full" "standard output: No space left on device"
run <tests/strips/record-2-no-number.strip >/dev/full 2>"$room/err" 3>"$room/reply"
fails "a refusal to /dev/full" "standard output: No space left on device"
run <"$paper" >&- 2>"$room/err" 3>"$room/reply"
fails "closed output" "standard output: Bad file descriptor"
run <tests/strips/head-alone.strip >&- 2>"$room/err" 3>"$room/reply"
fails "closed output and no line to write" "standard output: Bad file descriptor"
run <. >"$room/got" 2>"$room/err" 3>"$room/reply"
fails "input that is a folder" "standard input: Is a directory"
run <&- >"$room/got" 2>"$room/err" 3>"$room/reply"
fails "closed input" "standard input: Bad file descriptor"
# Where descriptor 3 is closed, or cannot be written, nothing else changes.
as_ever() { # NAME STATUS
    same "strip: $1: status and messages" "0 " "$2 $(cat "$room/err")"
    same_file "strip: $1: the lines" "$room/paper" "$room/got"
}
run <"$paper" >"$room/got" 2>"$room/err" 3>&-
as_ever "descriptor 3 is closed" $?
run <"$paper" >"$room/got" 2>"$room/err" 3>/dev/full
as_ever "descriptor 3 is /dev/full" $?

# A desk that is live sees the line of a record as soon as it came. The strip stays open.
within() { # COMMAND..: yes where it succeeds within a second
    for ((i = 0; i < 100; i++)); do
        if "$@"; then echo yes; return; fi
        sleep 0.01
    done
    echo no
}
live() { # STRIP BYTES: starts the program on a strip that descriptor 4 feeds, and gives it so many bytes, a head
    rm -f "$room/live" && mkfifo "$room/live"
    tests/run-program strip <"$room/live" >"$room/got" 2>"$room/err" 3>"$room/reply" &
    program=$!
    exec 4>"$room/live"
    # The second begins when the program itself runs.
    for ((i = 0; i < 1000; i++)); do
        if tr '\0' '\n' <"/proc/$program/cmdline" 2>/dev/null | grep -q 'crates/strip/out/strip$'; then break; fi
        sleep 0.01
    done
    head -c "$2" "$1" >&4
}
record() { tail -c "+$((5 + 22 * $1))" "$paper" | head -c 22 >&4; } # NUMBER
has_lines() { [ "$(wc -l <"$room/got")" -ge "$1" ]; } # COUNT
is_over() { ! kill -0 "$program"; } 2>/dev/null
live "$paper" 26
for number in 1 2 3; do
    record $number
    same "strip: a live strip: the line of record $number within a second" yes "$(within has_lines $number)"
    same_file "strip: a live strip: the lines up to record $number" <(head -n $number "$room/paper") "$room/got"
done
told "a live strip that goes on" ""
exec 4>&-
wait "$program"
told "a live strip that ends" 0
same "strip: a live strip: nothing is told" "" "$(cat "$room/err")"
live "$paper" 26
record 1
printf '\0\x15' >&4
same "strip: a live strip that is refused ends within a second" yes "$(within is_over)"
told "a live strip that is refused" 6
same_file "strip: a live strip that is refused: the lines" <(head -n 1 "$room/paper"; echo 2 R 6) "$room/got"
wait "$program"
exec 4>&-
live "$paper" 26
record 1
same "strip: a live strip whose program is killed: the first line" yes "$(within has_lines 1)"
{ kill -KILL "$program" && wait "$program"; } 2>/dev/null
same "strip: a live strip whose program is killed: its status" 137 $?
exec 4>&-
told "a live strip whose program is killed" ""
live "$twin" 27
record 1
printf '\0\0' >&4
same "strip: a live strip with a gap: its line within a second" yes "$(within has_lines 2)"
same_file "strip: a live strip with a gap: the lines up to it" <(head -n 1 "$room/paper"; echo 2 G -4000 2000 1500 0) "$room/got"
exec 4>&-
wait "$program"
told "a live strip with a gap" 0

run <examples/service.strip >"$room/got" 3>"$room/reply"
same_file "strip: the example service" examples/service.lines "$room/got"
told "the example service" 0
same "strip: in the example the cough moves no figure" "-3825 1998 1327 1" \
    "$(sed -n 50,74p "$room/got" | cut -d' ' -f3- | sort -u)"

# Cut at each byte: a head that is cut ends with 0 R 5; then, for each record, the lines of those before it, and at its end
# nothing more, and inside it 5. A head has 26 bytes, and in version 2 27; a record has 22, and a gap 2.
cut_anywhere() { # NAME STRIP LINES HEAD RECORD..: the bytes of its head and of its records
    local name=$1 strip=$2 lines=$3 ends=("$4") whole=0 bytes n
    for bytes in "${@:5}"; do ends+=($((ends[-1] + bytes))); done
    : >"$room/due" && : >"$room/got"
    for ((n = 0; n <= ends[-1]; n++)); do
        echo "$n bytes:" | tee -a "$room/due" >>"$room/got"
        head -c "$n" "$strip" | run >>"$room/got"
        if [ "$n" -lt "${ends[0]}" ]; then
            echo "0 R 5" >>"$room/due"
            continue
        fi
        if [ "$n" -eq "${ends[whole + 1]:-0}" ]; then whole=$((whole + 1)); fi
        head -n "$whole" "$lines" >>"$room/due"
        if [ "$n" -ne "${ends[whole]}" ]; then echo "$((whole + 1)) R 5" >>"$room/due"; fi
    done
    same_file "strip: $name: cut at each byte of its head and of its records" "$room/due" "$room/got"
}
cut_anywhere "version 1" "$paper" "$room/paper" 26 22 22 22 22 22
cut_anywhere "version 2" "$twin" "$room/paper" 27 22 22 22 22 22
cut_anywhere "version 2 with a gap" "$broken" "$room/broken" 27 22 22 22 22 2 22
same "strip: no byte at all is a head that is cut" "0 R 5" "$(run </dev/null)"

# However the bytes come.
in_pieces() { # NAME STRIP LINES
    for cut in 1 2 3 4 5 25 26 27 28 29 47 48 49 50 114 115 116 117 118; do
        { head -c "$cut" "$2"; sleep 0.05; tail -c "+$((cut + 1))" "$2"; } | run | cmp -s - "$3" || echo "at $cut"
    done >"$room/got"
    same "strip: $1: a strip that comes in two pieces" "" "$(cat "$room/got")"
    for ((i = 0; i < $(wc -c <"$2"); i++)); do
        tail -c "+$((i + 1))" "$2" | head -c 1
        sleep 0.002
    done | run >"$room/got"
    same_file "strip: $1: a strip that comes byte by byte" "$3" "$room/got"
}
in_pieces "version 1" "$paper" "$room/paper"
in_pieces "version 2" "$twin" "$room/paper"
in_pieces "version 2 with a gap" "$broken" "$room/broken"

# A million records: the first hundred of the example, again and again, over frames of 40 samples. The
# memory that the program has used is read after 10,000 and at the end, before the strip is closed.
example=examples/service.strip
{ printf '\x00\x18\x01\x0c\x00\x28'; head -c 26 "$example" | tail -c 20; } >"$room/head"
head -c 2226 "$example" | tail -c 2200 >"$room/hundred"
yes "$room/hundred" | head -n 100 | xargs cat >"$room/block"
used() { sed -n 's/^VmHWM:[^0-9]*\([0-9]*\) kB/\1/p' "/proc/$program/status"; }
mkfifo "$room/in" "$room/out"
tests/run-program strip <"$room/in" >"$room/out" &
program=$!
awk '$1 != NR || NF != 6 { wrong++ } { last = $0 } END { print NR, wrong + 0; print last }' "$room/out" >"$room/counted" &
counting=$!
exec 3>"$room/in"
cat "$room/head" "$room/block" >&3
before=$(used)
for ((i = 0; i < 99; i++)); do cat "$room/block" >&3; done
after=$(used)
exec 3>&-
wait "$program"
same "strip: a million records end with status 0" 0 $?
wait "$counting"
same "strip: a million records: so many lines, each with its number and six fields, and the last as the Rust has it" \
    "1000000 0 1000000 P -4152 2120 1531 1" "$(paste -sd' ' "$room/counted")"
if [ -n "$before" ] && [ -n "$after" ] && [ "$after" -le $((before + 500)) ]; then
    echo "ok strip: a million records take no more memory than 10000 ($before kB, $after kB)"
else
    echo "not ok strip: a million records take no more memory than 10000 ($before kB, $after kB)"
fi

# Where it cannot write or read: a message on standard error, by which ./level ends with status 1. (A program in
# Rattle has no exit status of its own.)
said() { # NAME STATUS: standard error is in $room/err
    if [ "$2" -eq 1 ] && [ -s "$room/err" ]; then
        echo "ok strip: $1: status 1 and a message"
    else
        echo "not ok strip: $1: status 1 and a message"
        echo "  got: status $2, $(wc -c <"$room/err") bytes of message"
    fi
}
level() { ./level strip -; }
level <"$paper" >&- 2>"$room/err"
said "no standard output" $?
level <"$paper" >/dev/full 2>"$room/err"
said "a full disk" $?
cat "$room/head" "$room/block" >"$room/long"
level <"$room/long" >/dev/full 2>"$room/err"
said "a full disk, and more lines than a buffer holds" $?
level <"$room/long" 2>"$room/err" | head -c 0
said "a reader that is gone" "${PIPESTATUS[0]}"
level <. >"$room/got" 2>"$room/err"
said "a folder in place of a strip" $?
same "strip: a folder in place of a strip: no line" "" "$(cat "$room/got")"
level <&- >"$room/got" 2>"$room/err"
said "no standard input" $?
same "strip: no standard input: no line" "" "$(cat "$room/got")"
# Without ./level too a lost reader is an error that the program tells, and no signal: a program of the toolchain starts so.
tests/run-program strip <"$room/long" 2>"$room/err" 3>"$room/reply" | head -c 0
same "strip: a reader that is gone ends the program" "0 strip: standard output: Broken pipe" "${PIPESTATUS[0]} $(cat "$room/err")"
told "a reader that is gone" ""

# As a volunteer runs it.
./level strip "$paper" >"$room/got" 2>/dev/null
same "strip: ./level ends with status 0" 0 $?
same_file "strip: ./level strip, the paper's strip" "$room/paper" "$room/got"
(cd tests/strips && ../../level strip record-2-no-number.strip) >"$room/got" 2>/dev/null
same_file "strip: ./level strip from another folder" tests/strips/record-2-no-number.lines "$room/got"
./level strip "$room/nothing" >/dev/null 2>&1
same "strip: ./level ends with status 2 where there is no such file" 2 $?
