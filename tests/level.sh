#!/usr/bin/env bash
# The command ./level, as a volunteer runs it, and with faults that are made for real: a full disk, a program that is killed,
# a toolchain that refuses, a locale that is not there.
cd "$(dirname "$0")/.." || exit 1
. tests/check.bash
# Python starts more than fifty times: the one that is found, without a wrapper in front of it.
PATH=$(dirname "$(python3 -c 'import os, sys; print(os.path.realpath(sys.executable))')"):$PATH
room=$(mktemp -d)
small=$room/small
trap 'umount "$small" 2>/dev/null; rm -rf "$room"' EXIT
mkdir "$small"

first() { ./level "$@" 2>/dev/null | head -n 1; }
status() { ./level "$@" >/dev/null 2>&1 </dev/null; echo $?; }
# The status, what was told and what was written, without its first line where that says whose figures they are.
run() { # WORDS..
    ./level "$@" >"$room/got" 2>"$room/err"
    ended=$?
}
lines() { wc -l <"$room/err" | tr -d ' '; }
within() { # SECONDS COMMAND..: whether it becomes true in so many seconds
    local tries=$(($1 * 20))
    shift
    for ((i = 0; i < tries; i++)); do
        "$@" && return
        sleep 0.05
    done
    return 1
}
gone() { ! kill -0 "$1" 2>/dev/null; }
yes_no() { if "$@" >/dev/null 2>&1; then echo yes; else echo no; fi; }

# ---- a ratio
same "level: 20 dB" "20 dB makes the sound 10 times as large." "$(first ratio 20)"
same "level: 0 dB" "0 dB makes the sound 1 times as large." "$(first ratio 0)"
same "level: 40 dB" "40 dB makes the sound 100 times as large." "$(first ratio 40)"
same "level: 51 dB is accepted" 0 "$(status ratio 51)"
same "level: -1 dB is refused with 2" "Refused with reply 2: the figure is not a number, or it is out of range." "$(first ratio -1)"
same "level: no number is refused with 2" "Refused with reply 2: the figure is not a number, or it is out of range." "$(first ratio nan)"
same "level: infinity is refused with 2" "Refused with reply 2: the figure is not a number, or it is out of range." "$(first ratio inf)"
same "level: a refusal ends with status 1" 1 "$(status ratio 51.1)"
./level ratio 20 >/dev/full 2>"$room/err"
same "level: a ratio on a full device is a line and status 1" "1 1" "$? $(lines)"

# ---- words, which are judged before anything is built
told() { # NAME LINE WORDS..
    local name=$1 line=$2
    shift 2
    run "$@"
    same "level: $name" "2 level: $line" "$ended $(cat "$room/err")"
}
same "level: no word ends with status 2" 2 "$(status)"
same "level: an unknown word ends with status 2" 2 "$(status levels)"
same "level: help is no fault" 0 "$(status --help)"
same "level: three recordings end with status 2" 2 "$(status recording a b c)"
told "a word in the place of a number" "'loud' is not a number. For example: ./level ratio 20" ratio loud
told "1_0 is no number" "'1_0' is not a number. For example: ./level ratio 20" ratio 1_0
told "a decimal comma" "'2,5': write 2.5, with a point" ratio 2,5
told "no such strip" "there is no file '$room/nothing'" strip "$room/nothing"
told "a folder in place of a strip" "'$room' is a folder" strip "$room"
told "no such recording" "there is no file '$room/nothing'" recording "$room/nothing" "$room/out.wav"
told "no folder for the levelled recording" "there is no folder '$room/no' for '$room/no/out.wav'" recording examples/two-readers.wav "$room/no/out.wav"
told "a folder in its place" "'$room' is a folder" recording examples/two-readers.wav "$room"
cp examples/two-readers.wav "$room/in.wav"
ln "$room/in.wav" "$room/same.wav"
told "the recording itself in its place" "'$room/same.wav' is the recording itself: name another file" recording "$room/in.wav" "$room/same.wav"
told "a strip that is missing" "--strip wants a file" recording --strip
told "the meter's words beside a strip" "--threshold is the meter's, and the strip has the figures already" \
    recording --threshold 5 --strip examples/service.strip "$room/in.wav" "$room/out.wav"
told "a word of the meter that is no number" "--noise wants a number, and 'loud' is none" recording --noise loud "$room/in.wav" "$room/out.wav"
run recording --threshold 3001 "$room/in.wav" "$room/out.wav"
same "level: a word of the meter that is out of its range" "2 meter: --threshold 3001 is not a whole number from 1 to 3000" "$ended $(cat "$room/err")"
service=examples/service.strip
for verb in "strip $service" "recording $room/in.wav $room/out.wav"; do
    told "${verb%% *}: a ring that is missing" "--ring wants a number from 1 to 16" $verb --ring
    for n in 0 17 4x 016 -1 ''; do told "${verb%% *}: a ring of '$n'" "--ring wants a number from 1 to 16, and '$n' is none" ${verb%% *} --ring "$n" ${verb#* }; done
done
told "a word of strip that is none" "'--rings' is no word of ./level strip" strip --rings 4 $service
same "level: two strips end with status 2" 2 "$(status strip $service $service)"
told "a word that is none" "'--loud' is no word of ./level recording" recording --loud "$room/in.wav" "$room/out.wav"

# ---- nothing is lost in silence
same "level: a service ends with status 0" 0 "$(status strip $service)"

# ---- the ring
tests/strips/echo >"$room/echo.strip"
for n in 1 4 16; do
    ./level strip --ring $n "$room/echo.strip" >"$room/ring-$n" 2>"$room/err"
    same "level: a ring of $n: status 0 and no message" "0 " "$? $(cat "$room/err")"
done
same "level: the lines of a ring of 1, of 4 and of 16 are the Rust's" "$(cat tests/strips/echo.sha256)" \
    "$(for n in 1 4 16; do echo "$(sha256sum <"$room/ring-$n" | head -c 64) $n"; done)"
./level strip "$room/echo.strip" >"$room/got"
same_file "level: without the word the ring holds 4" "$room/ring-4" "$room/got"
tests/wav-maker --rate 4000 --samples 29640 --loud 300 --seed 6 >"$room/echo.wav"
for n in 4 16; do ./level recording --ring $n --strip "$room/echo.strip" "$room/echo.wav" "$room/ring-$n.wav" 2>/dev/null; done
./level recording --strip "$room/echo.strip" --ring 16 "$room/echo.wav" "$room/16.wav" 2>/dev/null
./level recording --strip "$room/echo.strip" "$room/echo.wav" "$room/out.wav" 2>/dev/null
same_file "level: a recording without the word is one with a ring of 4" "$room/ring-4.wav" "$room/out.wav"
same_file "level: the word may stand behind the strip" "$room/ring-16.wav" "$room/16.wav"
same "level: a ring of 4 drops its first peak with frame 205 of a recording, and one of 16 with frame 697: they differ between the two" 1 \
    "$(cmp "$room/ring-4.wav" "$room/ring-16.wav" | sed 's/.*byte \([0-9]*\),.*/\1/' | awk '{ print ($1 - 45 >= 204 * 80 && $1 - 45 < 696 * 80) + 0 }')"
cp "$room/echo.strip" "$room/--ring"
(cd "$room" && "$OLDPWD/level" recording --strip --ring echo.wav out.wav) 2>/dev/null
same_file "level: a strip may have the name --ring" "$room/ring-4.wav" "$room/out.wav"
{ printf '\x00\x18\x01\x0c\x00\x28' && head -c 26 $service | tail -c 20; } >"$room/long.strip"
for _ in {1..200}; do tail -c +27 $service; done >>"$room/long.strip"
LC_ALL=xx_XX.UTF-8 ./level strip $service >"$room/got" 2>/dev/null
same "level: a locale that is not installed: status 0" 0 $?
same_file "level: a locale that is not installed: the lines" examples/service.lines "$room/got"
if mount -t tmpfs -o size=64k tmpfs "$small" 2>/dev/null; then
    TMPDIR=$small ./level strip "$room/long.strip" >"$small/lines" 2>"$room/err"
    same "level: a full disk, with TMPDIR on it: a line and status 1" "1 1" "$? $(lines)"
    same "level: a full disk: it is full" 65536 "$(stat -c %s "$small/lines")"
    TMPDIR=$small ./level strip $service >/dev/full 2>"$room/err"
    same "level: a full device and a full TMPDIR: a line and status 1" "1 1" "$? $(lines)"
    : >"$small/lines"
    TMPDIR=$small ./level recording examples/two-readers.wav "$small/out.wav" 2>"$room/err" </dev/null
    same "level: a recording on a full disk: status 1, and it is told" "1 1" "$? $(grep -c '^recording: the output: No space left on device$' "$room/err")"
    umount "$small"
else
    echo "-- level: no file system can be mounted here, so a full disk is not tried; a full device is"
fi
./level strip $service >/dev/full 2>"$room/err"
same "level: a full device: a line and status 1" "1 1" "$? $(lines)"
./level strip "$room/long.strip" 2>"$room/err" | head -c 0
same "level: a reader that is gone: a line and status 1" "1 1" "${PIPESTATUS[0]} $(lines)"
./level strip - <"$room" >"$room/got" 2>"$room/err"
same "level: a folder as standard input: a line and status 1" "1 1" "$? $(lines)"
./level strip - <&- >"$room/got" 2>"$room/err"
same "level: no standard input: a line and status 1" "1 1" "$? $(lines)"

# A program that is killed, and a command that is: a strip comes through a pipe that stays open.
mkfifo "$room/pipe"
program_of() { # the program below ./level of this number, once it is there
    local child
    for child in $(cat "/proc/$1/task/$1/children" 2>/dev/null); do
        { tr "\0" "\n" <"/proc/$child/cmdline"; } 2>/dev/null | grep -q '/crates/strip/out/' && echo "$child" && return
    done
    return 1
}
live() { # starts ./level strip on the pipe; level and program are the two processes
    # A shell has what it starts beside itself ignore the signal of a terminal; from a terminal it is not ignored.
    env --default-signal=INT ./level strip - <"$room/pipe" >"$room/got" 2>"$room/err" &
    level=$!
    exec 8>"$room/pipe"
    within 10 program_of $level >/dev/null
    program=$(program_of $level)
}
has_lines() { [ "$(wc -l <"$room/got")" -eq "$1" ]; }
live
head -c 48 $service >&8
same "level: a live strip: the first line comes with its record" yes "$(yes_no within 2 has_lines 1)"
head -c 70 $service | tail -c 22 >&8
same "level: a live strip: and so does the second" yes "$(yes_no within 2 has_lines 2)"
kill -KILL "$program"
wait $level 2>/dev/null
same "level: a program that is killed: status 1" 1 $?
same "level: a program that is killed: it is told" 1 "$(grep -c '^level: the program was ended by the signal KILL: not all was done$' "$room/err")"
exec 8>&-
for signal in TERM:143 INT:130 HUP:129; do
    live
    kill -"${signal%:*}" $level
    wait $level 2>/dev/null
    same "level: ./level that gets ${signal%:*}: its status" "${signal#*:}" $?
    same "level: ./level that gets ${signal%:*}: the program ends with it" yes "$(yes_no within 5 gone "$program")"
    exec 8>&-
done

# ---- refusals in words
run strip README.md
same "level: a text in place of a strip: status 1, and its line" "1 0 R 7" "$ended $(cat "$room/got")"
same "level: a text in place of a strip: in words" "level: the strip is refused with 7: it does not begin as a strip of version 1 or 2 does: it is no strip, or one for another box" "$(cat "$room/err")"
# Of the strips of tests/strips one for each record and reply with which they are refused, and one that is not.
: >"$room/due" && : >"$room/said"
declare -A tried=()
for strip in tests/strips/*.strip; do
    refused=$(sed -n 's/^\([0-9]*\) R /\1 /p' "${strip%.strip}.lines")
    [ -z "${tried[_$refused]-}" ] || continue
    tried[_$refused]=yes
    run strip "$strip"
    echo "$strip $((${#refused} > 0)) ${refused#* }" >>"$room/due"
    echo "$strip $ended $(sed -n 's/^level: the strip is refused with \([0-9]\): ..*/\1/p' "$room/err")" >>"$room/said"
done
same_file "level: a strip of each kind: status 1 and words where it is refused, and only there" "$room/due" "$room/said"
same "level: a strip of each kind: so many have no refusal, and all replies are there" "1 1 2 4 5 6 7" \
    "$(grep -c ' 0 $' "$room/said") $(sed -n 's/.* 1 //p' "$room/said" | sort -u | paste -sd' ')"
# A strip of each version whose threshold is too large for it, and one whose length is that of the other version.
in_words() { # NAME REPLY WORDS DIGITS: what a refusal of these bytes says; the settings follow them
    { printf '%b' "$4" && head -c 26 $service | tail -c 22; } >"$room/wrong.strip"
    run strip "$room/wrong.strip"
    same "level: $1" "1 0 R $2, level: the strip is refused with $2: $3" "$ended $(cat "$room/got"), $(cat "$room/err")"
}
too_large="a setting is out of its range, or the threshold is not 1 to 3000 (in a strip of version 1: 1 to 200)"
in_words "version 1 and a threshold of 201" 4 "$too_large" '\x00\x18\x01\xc9'
in_words "version 2 and a threshold of 3001" 4 "$too_large" '\x00\x19\x02\x0b\xb9'
in_words "version 2 and the length of version 1" 6 \
    "the length of its head is not its version's, or that of a record is wrong: it is damaged, or no strip" '\x00\x18\x02\x0c'
for reply in 1 2 4 5 6 7; do
    same "level: reply $reply is on README's card, and has words here" "1 1" "$(grep -c "^| $reply |" README.md) $(grep -c "^    $reply) echo" level)"
done

# ---- a strip of version 2
# The twin of a strip of version 1: the length 25, the version 2, and the threshold in two bytes.
twin() { printf '\x00\x19\x02\x00' && tail -c +4 "$1"; } # STRIP
twin $service >"$room/two.strip"
run strip "$room/two.strip"
same "level: the service as a strip of version 2: status 0" 0 "$ended"
same_file "level: the service as a strip of version 2: the lines are the same" examples/service.lines "$room/got"
# Thirty seconds: a run of 2999 frames, which a pause ends, and one of 3001. The level starts at -20 - 15 - 5 dBFS.
speech="1 -50 -40 -80 -60"
{ echo "head threshold 3000 samples 40" && yes "$speech" | head -n 2999 && echo "0 -70 -60 -80 -60" && yes "$speech" | head -n 3001; } |
    tools/strip-maker to-strip >"$room/3000.strip"
run strip "$room/3000.strip"
same "level: with a threshold of 3000 speech counts from its 3000th frame on" "0 2999 W 1 N 2999 W 2 P" \
    "$ended $(cut -d' ' -f2 "$room/got" | uniq -c | tr -s ' \n' ' ' | sed 's/^ //; s/ $//')"
same "level: until then what stood before is published" "-4000 2000 1500 0" "$(head -n 5999 "$room/got" | cut -d' ' -f3- | sort -u)"
same "level: and from then on a level of -50 dBFS, within a tenth, which is trusted" "2 yes" \
    "$(tail -n 2 "$room/got" | awk '$3 > -5010 && $3 < -4990 && $6 == 1 { good++ } END { print NR, good == NR ? "yes" : "no" }')"

# ---- a recording, in each of its forms
levelled() { # NAME: out.wav is whole, and the sound of both readers is nearer than it was
    same "level: $1: status 0" 0 "$ended"
    python3 - examples/two-readers.wav "$room/out.wav" <<'NEARER' >"$room/said" 2>&1
import sys, wave, array
def rms(name, first, last):
    with wave.open(name) as file:
        rate = file.getframerate()
        file.setpos(int(first * rate))
        sound = array.array("h", file.readframes(int((last - first) * rate)))
        return file.getnframes(), (sum(x * x for x in sound) / len(sound)) ** 0.5
before, after = ([rms(name, 1.5, 5), rms(name, 14, 18)] for name in sys.argv[1:])
assert before[0][0] == after[0][0], "samples are missing"
loud, quiet = (b[1] / a[1] for a, b in zip(before, after))
apart = lambda two: two[0][1] / two[1][1]
assert apart(before) > 8 and apart(after) < 3.2, f"the loud reader is {apart(before):.1f} times the quiet one before, {apart(after):.1f} after"
NEARER
    same "level: $1: whole, and the two readers less than 10 dB apart" "" "$(cat "$room/said")"
}
run recording examples/two-readers.wav "$room/out.wav"
levelled "IN.wav OUT.wav"
cp "$room/out.wav" "$room/due.wav"
same "level: IN.wav OUT.wav: a line says whose figures they are" 1 "$(grep -c '^level: the figures are those of our own plain meter; --strip takes those of yours$' "$room/err")"
same "level: IN.wav OUT.wav: a line says how many frames were speech" 1 "$(grep -c '^meter: .*speech' "$room/err")"
same "level: IN.wav OUT.wav: and nothing else is told" 2 "$(lines)"
rm "$room/out.wav"
run recording - - <examples/two-readers.wav
same "level: - -: status 0" 0 "$ended"
same_file "level: - -: the same recording" "$room/due.wav" "$room/got"
run recording examples/two-readers.wav -
same_file "level: IN.wav -: the same recording" "$room/due.wav" "$room/got"
run recording - "$room/out.wav" < <(cat examples/two-readers.wav)
same_file "level: - OUT.wav, from a pipe: the same recording" "$room/due.wav" "$room/out.wav"
run recording <(cat examples/two-readers.wav) "$room/piped.wav"
same_file "level: <(..) as the recording: the same recording" "$room/due.wav" "$room/piped.wav"
tools/meter --no-progress <examples/two-readers.wav 2>/dev/null | tools/strip-maker to-strip >"$room/my.strip"
run recording --strip "$room/my.strip" examples/two-readers.wav "$room/strip.wav"
same "level: --strip STRIP IN.wav OUT.wav: status 0, and nothing is told" "0 0" "$ended $(lines)"
same_file "level: --strip STRIP IN.wav OUT.wav: the same recording" "$room/due.wav" "$room/strip.wav"
run recording "$room/my.strip" <examples/two-readers.wav
same_file "level: STRIP < in.wav > out.wav: the same recording" "$room/due.wav" "$room/got"
run recording <(cat "$room/my.strip") <examples/two-readers.wav
same_file "level: <(..) as the strip: the same recording" "$room/due.wav" "$room/got"
twin "$room/my.strip" >"$room/two.strip"
rm "$room/strip.wav"
run recording --strip "$room/two.strip" examples/two-readers.wav "$room/strip.wav"
same "level: a strip of version 2: status 0, and nothing is told" "0 0" "$ended $(lines)"
same_file "level: a strip of version 2: the same recording" "$room/due.wav" "$room/strip.wav"
# Nobody reads for thirty seconds without a pause, so nothing counts: it is levelled as if nobody read.
tools/meter --no-progress <examples/two-readers.wav 2>/dev/null | sed 's/^0\.95/0.05/' | tools/strip-maker to-strip >"$room/nobody.strip"
run recording --strip "$room/nobody.strip" examples/two-readers.wav "$room/nobody.wav"
rm "$room/out.wav"
run recording --threshold 3000 examples/two-readers.wav "$room/out.wav"
same "level: --threshold 3000: status 0, and another recording" "0 no" "$ended $(yes_no cmp "$room/due.wav" "$room/out.wav")"
same_file "level: --threshold 3000: no reading is long enough to count" "$room/nobody.wav" "$room/out.wav"
run recording --threshold 1 --noise -60 examples/two-readers.wav "$room/out.wav"
same "level: the meter's words: status 0, and another recording" "0 no" "$ended $(yes_no cmp "$room/due.wav" "$room/out.wav")"
(cd "$room" && "$OLDPWD/level" recording in.wav here.wav) 2>/dev/null
same_file "level: from another folder, with its own paths" "$room/due.wav" "$room/here.wav"
rm -f "$room/out.wav"
./level recording examples/two-readers.wav "$room/out.wav" >&- 2>/dev/null
same_file "level: OUT.wav, and no standard output: the same recording" "$room/due.wav" "$room/out.wav"
echo kept >"$room/out.wav"
run recording README.md "$room/out.wav"
same "level: no WAV file: status 1, and one line for it" "1 recording: not a WAV file" "$ended $(grep -v 'plain meter' "$room/err")"
same "level: no WAV file: what stood there stays" kept "$(cat "$room/out.wav")"
run recording --strip "$service" examples/two-readers.wav "$room/out.wav"
same "level: a strip of another rate: status 1" 1 "$ended"
same "level: a strip of another rate: what stood there stays" kept "$(cat "$room/out.wav")"
run recording --strip README.md examples/two-readers.wav "$room/out.wav"
same "level: a text as the strip: status 1, in words" "1 level: the strip is refused with 7: it does not begin as a strip of version 1 or 2 does: it is no strip, or one for another box" \
    "$ended $(tail -n 1 "$room/err")"

# ---- README's commands, as they stand there, in a folder that has what a clone has
mkdir "$room/clone"
ln -s "$PWD"/{level,examples,tools} "$room/clone/"
cp "$room/in.wav" "$room/my.strip" "$room/clone/"
# A command stands four spaces in; what it does stands behind it, after five or more.
sed -n 's/^    \(\.\/level .*\)$/\1/p' README.md | sed 's/     .*//' >"$room/commands"
same "level: README has its first command first" "./level recording examples/two-readers.wav levelled.wav" "$(head -n 1 "$room/commands")"
while IFS= read -r line; do
    (cd "$room/clone" && eval "$line") </dev/null >"$room/got" 2>"$room/err"
    same "level: README: $line" 0 $?
done <"$room/commands"
same_file "level: README's first command levels" "$room/due.wav" "$room/clone/levelled.wav"

# ---- wherever it stands: a copy of the repository, whose toolchain says what it is told to
copy=$room/copy
mkdir -p "$copy/tools" "$copy/tests" "$copy/examples" "$room/bin"
cp level "$copy/"
cp tools/*.bash tools/meter tools/strip-maker tools/ratio "$copy/tools/"
cp tests/*.bash tests/run-program "$copy/tests/"
tar -c --exclude='crates/*/out' crates crates.txt | tar -x -C "$copy"
# The toolchain proves three crates, does as `mood` says, and builds the program that is here.
cat >"$room/bin/rt" <<'FAKE'
#!/usr/bin/env bash
name=${PWD##*/}
cd ../..
echo "$name $*" >>rt.asked
for crate in lists rounding floats; do printf 'crate %s: modules loaded=1 checked=1\nlogic=proved functions=1\n' $crate >&2; done
case $(cat rt.mood) in
waits)
    # As a prover may: it does not hear the signal of a terminal.
    trap '' INT
    sleep 300 &
    echo $! >rt.child
    wait
    ;;
refuses) exit 1 ;;
*)
    mkdir -p "crates/$name/out"
    from=$(cat rt.from)/crates/$name/out/$name
    [ "$(cat rt.mood) $name" != "errs strip" ] || from=/bin/true
    cp "$from" "crates/$name/out/$name"
    echo "rt: running out/$name; to give it other input, run that file yourself" >&2
    # As a program may that is given nothing to read.
    exit 1
    ;;
esac
FAKE
chmod +x "$room/bin/rt"
echo "$PWD" >"$copy/rt.from"
there() { (cd "$room" && PATH=$room/bin:$PATH "$copy/level" "$@") >"$room/got" 2>"$room/err"; ended=$?; }
# How often the programs were asked for: the first of them, each time.
asked() { grep -c '^strip run$' "$copy/rt.asked"; }
echo refuses >"$copy/rt.mood"
there strip "$room/nothing"
same "level: a wrong word builds nothing" "2 no" "$ended $(yes_no test -e "$copy/rt.asked")"
for try in first second; do
    there strip "$PWD/$service"
    same "level: a program that is not proved, at the $try try: status 1 and no line of it" "1 0" "$ended $(wc -c <"$room/got" | tr -d ' ')"
done
same "level: and it is tried again" 2 "$(asked)"
echo errs >"$copy/rt.mood"
for try in first second; do
    there strip "$PWD/$service"
    same "level: a program that does not write what is due, at the $try try: status 1, told, and no line of it" "1 0 1" \
        "$ended $(wc -c <"$room/got" | tr -d ' ') $(grep -c "^level: .*/crates/strip/out/strip does not write what its file stdout has" "$room/err")"
done
same "level: and it is built again" 4 "$(asked)"
echo waits >"$copy/rt.mood"
for signal in TERM:143 INT:130; do
    rm -f "$copy/rt.child" "$copy/rt.asked"
    (cd "$room" && PATH=$room/bin:$PATH exec env --default-signal=INT setsid "$copy/level" build) >"$room/got" 2>"$room/err" &
    level=$!
    within 10 test -s "$copy/rt.child"
    # As a terminal does, to the whole group.
    kill -"${signal%:*}" -- -$level
    wait $level 2>/dev/null
    same "level: ${signal%:*} while it proves: its status" "${signal#*:}" $?
    same "level: ${signal%:*} while it proves: no prover is left" yes "$(yes_no within 5 gone "$(cat "$copy/rt.child")")"
done
echo builds >"$copy/rt.mood"
rm "$copy/rt.asked"
there strip "$PWD/$service"
same "level: the first run builds and runs" 0 "$ended"
same_file "level: the first run: its lines" examples/service.lines "$room/got"
same "level: all programs are built" "strip run,carry run,recording run,replay run" "$(paste -sd, "$copy/rt.asked")"
total=$(awk -F: '
    /^[^#]/ { deps[$1] = $2 }
    END {
        todo = "strip carry recording replay"
        while (split(todo, names, " ")) {
            todo = ""
            for (i in names) if (names[i] in deps && !(names[i] in seen)) { seen[names[i]]; all++; todo = todo " " deps[names[i]] }
        }
        print all
    }' crates.txt)
same "level: the first run says how far it is" "3 of $total floats" "$(sed -n 's/^proved \(3 of [0-9]*\): \(floats\)$/\1 \2/p' "$room/err" | tail -n 1)"
there ratio 20
same "level: the second run builds nothing" "0 1" "$ended $(asked)"
ln -s "$copy/level" "$room/link"
(cd "$room" && PATH=$room/bin:$PATH ./link strip "$OLDPWD/$service") >"$room/got" 2>/dev/null
same_file "level: through a link" examples/service.lines "$room/got"
touch "$copy/crates/strip/src/main.rt"
there strip "$PWD/$service"
same "level: a source that is newer is built again" "0 2" "$ended $(asked)"
rm "$copy/crates/recording/out/recording"
there strip "$PWD/$service"
same "level: a program that was taken away is built again" "0 3" "$ended $(asked)"
if [ "$(id -u)" = 0 ] && setpriv --reuid=65534 --regid=65534 --clear-groups true 2>/dev/null; then
    chmod 711 "$room"
    chmod -R go+rX "$copy" "$room/bin"
    as_nobody() { (cd / && PATH=$room/bin:$PATH setpriv --reuid=65534 --regid=65534 --clear-groups "$copy/level" strip - <"$OLDPWD/$service") >"$room/got" 2>"$room/err"; ended=$?; }
    as_nobody
    same "level: a clone that cannot be written, and is built: status 0" 0 "$ended"
    same_file "level: a clone that cannot be written, and is built: the lines" examples/service.lines "$room/got"
    touch "$copy/crates/strip/src/main.rt"
    as_nobody
    same "level: a clone that cannot be written, and is not built: a line and status 1" "1 1 3" "$ended $(grep -c 'cannot be written' "$room/err") $(asked)"
fi
