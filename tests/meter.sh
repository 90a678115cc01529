#!/usr/bin/env bash
# The meter, tools/meter: the records of the program that it reads, the figures that it makes of them, and how it is run.
cd "$(dirname "$0")/.." || exit 1
. tests/check.bash
if [ ! -f crates/recording/out/recording ]; then
    echo "not ok meter: the program is built"
    exit 1
fi
# Python starts some two hundred times: the one that is found, without a wrapper in front of it or what a site has added to it.
PATH=$(dirname "$(python3 -c 'import os, sys; print(os.path.realpath(sys.executable))')"):$PATH
room=$(mktemp -d)
trap 'umount "$room/disk" 2>/dev/null; rm -rf "$room"' EXIT

python() { python3 -I -S "$@"; }
wav() { python tests/wav-maker "$@"; }
# A WAV file whose samples are standard input, so many bytes of it.
with_head() { # BYTES WORDS..
    wav --samples 0 --size "$1" "${@:2}"
    head -c "$1"
}
# Sounds at 16 kHz, one after the other, over the noise of a room: each is what it is, how loud in dBFS, and its frames.
#   room: the room alone   reader: someone who reads, with short gaps and now and then a pause   cough: noise
sounds() { # ROOM-AMPLITUDE SOUND..
    python - "$@" <<'SOUNDS'
import math, random, struct, sys

room = int(sys.argv[1])
source = random.Random(7)
out = []


def noise(loud, frames):
    """A bell of noise, so loud on average."""
    n = 160 * frames
    top = 32768 * 10 ** (loud / 20) * math.sqrt(6)
    return [top * math.sin(math.pi * i / n) * source.uniform(-1, 1) for i in range(n)]


def reader(loud, frames):
    read, words = [], 0
    while len(read) < 160 * frames:
        words += 1
        read += noise(loud, source.randint(13, 30)) + [0] * 160 * (source.randint(2, 8) if words % 8 else 40)
    return read[: 160 * frames]


for sound in sys.argv[2:]:
    kind, loud, frames = sound.split(",")
    loud, frames = float(loud), int(frames)
    if kind == "room":
        out += [0] * 160 * frames
    elif kind == "reader":
        out += reader(loud, frames)
    else:
        level = 32768 * 10 ** (loud / 20)
        out += [source.choice([-level, level]) for _ in range(160 * frames)]
samples = [round(x) + (room if i * 7919 % 160 < 80 else -room) for i, x in enumerate(out)]
body = struct.pack(f"<{len(samples)}h", *samples)
sys.stdout.buffer.write(b"RIFF" + struct.pack("<I", 36 + len(body)) + b"WAVEfmt " + struct.pack("<IHHIIHH", 16, 1, 1, 16000, 32000, 2, 16))
sys.stdout.buffer.write(b"data" + struct.pack("<I", len(body)) + body)
SOUNDS
}
# Whether a frame is speech, as a row of letters: s where it is, and a point where not.
speech() { tools/meter --no-progress "$@" 2>/dev/null | sed -n 's/^0\.95 .*/s/p; s/^0\.05 .*/./p' | tr -d '\n'; }
some() { [ "$2" = 0 ] || printf "$1%.0s" $(seq "$2"); }

# ---- the program's records
run() { tests/run-program recording 3>"$room/answer"; }
records() { # NAME ANSWER TOLD: the file is standard input
    cat >"$room/in.wav"
    python tests/metering <"$room/in.wav" >"$room/due"
    run <"$room/in.wav" >"$room/got" 2>"$room/err"
    same_file "metering: $1" "$room/due" "$room/got"
    same "metering: $1: what is told" "answer '$2', $3" "answer '$(cat "$room/answer")', $(cat "$room/err")"
}
for each in 8000,1 12000,2 16000,3 24000,8 32000,1 48000,1 48000,2 48000,3 48000,8; do
    rate=${each%,*} channels=${each#*,}
    records "$channels channels at $rate Hz" 0 "" < <(wav --rate "$rate" --channels "$channels" --samples $((rate / 20 + 7)) --loud 32767 --seed "$channels")
done
records "4000 Hz" 0 "" < <(wav --rate 4000 --samples 815)
records "a whole number of frames" 0 "" < <(wav --samples 960)
records "no sample" 0 "" < <(wav --samples 0)
records "one sample" 0 "" < <(wav --samples 1 --last -1 --channels 2)
records "-32768 at the end of each channel" 0 "" < <(wav --channels 3 --samples 500 --last -32768)
records "32767 at the end of each channel" 0 "" < <(wav --channels 3 --samples 500 --last 32767)
with_head 1920 --channels 2 < <(python -c 'import sys; sys.stdout.buffer.write(b"\0\x80" * 960)') >"$room/lowest.wav"
records "-32768 all the way" 0 "" <"$room/lowest.wav"
same "metering: -32768 all the way: 480 squares of it, and 32768" "480 2 1920 515396075520 32768" \
    "$(run <"$room/lowest.wav" | python -c 'import struct, sys; print(*struct.unpack("<IIIQI", sys.stdin.buffer.read()))')"
records "an extended format, and a chunk of odd size before the samples" 0 "" < <(wav --samples 1000 --extended --odd-list)
records "chunks after the samples" 0 "" < <(wav --samples 1000 --late)
records "a size that is no whole number of samples" 0 "" < <(wav --samples 1000 --channels 2 --size 3999)
records "a size that is unknown" 0 "" < <(wav --samples 1000 --channels 2 --size 4294967295)
cut="recording: the WAV file is cut:"
records "a file that is cut" "" "$cut 1000 bytes of its samples are missing" < <(wav --samples 4800 --short 1000)
records "a file that is cut inside a sample" "" "$cut 4 bytes of its samples are missing" < <(wav --samples 4800 --channels 2 --short 1)
records "a file that is cut before its samples" "" "$cut 9600 bytes of its samples are missing" < <(wav --samples 4800 --short 9600)

# ---- the figures
# A tone at half of full scale has its peak at -6.02 dBFS and its rms at -9.03; silence is at -90.
python -c 'import math, struct, sys
sys.stdout.buffer.write(b"".join(struct.pack("<h", round(16384 * math.sin(math.pi * i / 24)) if 480 <= i < 960 else 0) for i in range(1060)))' |
    with_head 2120 >"$room/tone.wav"
head_and() { printf 'head version 1 threshold 12 samples 480\n# probability rms peak noise envelope\n'; cat; }
head_and >"$room/due" <<'LINES'
0.05 -90.00 -90.00 -90.00 -90.00
0.95 -9.03 -6.02 -90.00 -6.02
0.05 -90.00 -90.00 -90.00 -90.00
LINES
tools/meter <"$room/tone.wav" >"$room/got" 2>"$room/err"
same_file "meter: silence, a tone, and a short frame of silence" "$room/due" "$room/got"
same "meter: how much is speech is told at the end" "meter: 1 of 3 frames are speech, 0.01 s of 0.03 s" "$(cat "$room/err")"
same "meter: a level above which it is speech, noise and envelope that are held, a threshold" \
    "head version 1 threshold 7 samples 480 0.05 -90.00 -90.00 -70.00 -30.00 0.05 -9.03 -6.02 -70.00 -30.00" \
    "$(tools/meter --speech-above -9 --noise=-70 --envelope -30 --threshold 7 <"$room/tone.wav" 2>/dev/null | grep -v '^#' | head -n 3 | paste -sd' ')"
# The strip that is made of it: of version 1 with a threshold of 1 to 200, and of version 2 with more, as the head says.
for both in 1:00180101 200:001801c8 201:00190200c9 3000:0019020bb8; do
    version=$([ "${both%:*}" -le 200 ] && echo 1 || echo 2)
    same "meter: the head with --threshold ${both%:*} says version $version" "head version $version threshold ${both%:*} samples 480" \
        "$(tools/meter --threshold "${both%:*}" <"$room/tone.wav" 2>/dev/null | head -n 1)"
    due=${both#*:}01e040a00000424800004170000040c00000c2480000
    strip=$(tools/meter --threshold "${both%:*}" <"$room/tone.wav" 2>/dev/null | tools/strip-maker to-strip | od -An -v -tx1 | tr -d ' \n')
    same "meter: the head of the strip with --threshold ${both%:*}, and the bytes behind it" "$due 66" "${strip::${#due}} $(((${#strip} - ${#due}) / 2))"
done
tools/meter <"$room/lowest.wav" 2>/dev/null | sed -n '3p' >"$room/got"
same "meter: full scale is 0 dBFS" "0.05 0.00 0.00 0.00 0.00" "$(cat "$room/got")"
same "meter: of two channels the louder counts" "0.05 -6.02 -6.02 -6.02 -6.02" \
    "$(python -c 'import sys; sys.stdout.buffer.write(b"\0\0\0\x40" * 480)' | with_head 1920 --channels 2 | tools/meter 2>/dev/null | sed -n 3p)"
# What stands out of the noise is speech, however quiet it is. The room is at -75 dBFS, and at -60.
for loud in -20 -35 -50; do
    for amplitude in 6 33; do
        [ $loud$amplitude != -5033 ] || continue
        due=$(some . 100)$(some s 8)$(some . 100)
        same "meter: a noise of 80 ms at $loud dBFS in a room of amplitude $amplitude" "$due" "$(sounds $amplitude room,0,100 cough,$loud,8 room,0,100 | speech)"
        sounds $amplitude room,0,100 reader,$loud,1000 | speech >"$room/got"
        part=$(tail -c +101 "$room/got" | tr -d . | wc -c)
        same "meter: a reader at $loud dBFS in a room of amplitude $amplitude is speech for most of the time" "yes" "$([ "$part" -gt 500 ] && echo yes || echo "$part frames of 1000")"
    done
done
same "meter: what stands out by less than 8 dB is no speech" "$(some . 150)" "$(sounds 33 room,0,100 cough,-55,50 | speech)"
same "meter: with --above-noise 3 it is" "$(some . 100)$(some s 50)" "$(sounds 33 room,0,100 cough,-55,50 | speech --above-noise 3)"
same "meter: with --speech-above nothing but the level counts" "$(some . 100)$(some s 50)$(some . 50)$(some s 50)" \
    "$(sounds 33 room,0,100 cough,-44,50 cough,-46,50 cough,-44,50 | speech --speech-above -45)"
same "meter: where the noise is given, speech stands out of that" "$(some . 100)$(some s 50)" "$(sounds 33 room,0,100 cough,-52,50 | speech --noise -61)"
same "meter: and not what stands out of the noise that is there" "$(some . 150)" "$(sounds 6 room,0,100 cough,-52,50 | speech --noise -55)"
same "meter: noise at -90 dBFS after digital silence is no speech" "$(some . 60)" \
    "$(python -c 'import sys; sys.stdout.buffer.write(bytes(28800) + b"\1\0\xff\xff" * 7200)' | with_head 57600 | speech)"
same "meter: nor is a room at -70 dBFS" "$(some . 60)" \
    "$(python -c 'import sys; sys.stdout.buffer.write(bytes(28800) + b"\12\0\xf6\xff" * 7200)' | with_head 57600 | speech)"
# A noise that stays is the room's: after three seconds it is taken for that, 3 dB a second, and less noise at once.
sounds 6 room,0,200 cough,-40,2000 room,0,100 | tools/meter --no-progress 2>/dev/null | sed 1,2d | cut -d' ' -f4 >"$room/noise"
same "meter: the noise of a room that gets louder: before it, after 3 s, after 4 s, at last" "-74.8 -74.8 -71.8 -40.0" \
    "$(for line in 200 499 599 2200; do printf '%.1f\n' "$(sed -n ${line}p "$room/noise")"; done | paste -sd' ')"
same "meter: the noise of a room that gets quieter: at once" "-74.75" "$(sed -n 2205p "$room/noise")"
# A cough changes nothing but its own frames.
for what in alone,0 cough,8; do
    sounds 6 room,0,100 reader,-30,500 room,0,120 "cough,$([ $what = alone,0 ] && echo -120 || echo -25),8" room,0,120 reader,-30,500 |
        tools/meter --no-progress 2>/dev/null >"$room/${what%,*}"
done
same "meter: a cough of 8 frames: the lines that differ" "723,730c723,730" "$(diff "$room/alone" "$room/cough" | grep '^[0-9]')"
same "meter: a cough of 8 frames is speech" 8 "$(sed -n 723,730p "$room/cough" | grep -c '^0\.95')"

# ---- a quiet reader after a loud one, levelled
sounds 6 room,0,100 reader,-20,1500 room,0,50 reader,-48,2500 >"$room/two.wav"
tools/meter --no-progress <"$room/two.wav" 2>/dev/null | tools/strip-maker to-strip >"$room/two.strip"
./level recording "$room/two.strip" <"$room/two.wav" >"$room/two.levelled.wav" 2>"$room/err"
apart() { # FILE: by how many dB the quiet reader lies below the loud one, in the last ten seconds of each
    python - "$1" <<'APART'
import math, struct, sys

sound = open(sys.argv[1], "rb").read()[44:]


def loud(first, last):
    powers = [sum(x * x for x in struct.unpack_from("<160h", sound, 320 * i)) for i in range(first, last)]
    heard = [p for p in powers if p > max(powers) / 300]
    return 10 * math.log10(sum(heard) / len(heard))


print(round(loud(600, 1600) - loud(3150, 4150), 1))
APART
}
before=$(apart "$room/two.wav")
after=$(apart "$room/two.levelled.wav")
same "meter: a quiet reader lies $before dB below a loud one, and levelled $after: at most 10" yes \
    "$(python3 -c "print('yes' if 25 < $before and $after <= 10 else 'no')")"

# ---- what is told
long() { with_head 960000 --rate 4000 </dev/zero; }
tools/meter < <(long) >"$room/got" 2>"$room/err"
same "meter: two minutes are told one by one" "0 meter: 1 min meter: 2 min meter: 0 of 12000 frames are speech, 0.00 s of 120.00 s" "$? $(paste -sd' ' "$room/err")"
same "meter: two minutes have 12000 lines" 12002 "$(wc -l <"$room/got")"
tools/meter --no-progress < <(long) 2>&1 >/dev/null | cat >"$room/err"
same "meter: --no-progress" "meter: 0 of 12000 frames are speech, 0.00 s of 120.00 s" "$(cat "$room/err")"

# ---- as the sound comes
waits() { # COMMAND..: until it succeeds, for ten seconds
    local i
    for ((i = 0; i < 200; i++)); do
        if "$@"; then return; fi
        sleep 0.05
    done
    return 1
}
has_lines() { [ "$(wc -l <"$2")" -ge "$1" ]; }
has_bytes() { [ "$(wc -c <"$2")" -ge "$1" ]; }
wav --samples 9600 >"$room/in.wav"
mkfifo "$room/sound"
tools/meter <"$room/sound" 2>/dev/null >"$room/got" &
exec 4>"$room/sound"
head -c 44 "$room/in.wav" >&4
waits has_lines 2 "$room/got"
same "meter: the head is printed before a sample came" 2 "$(wc -l <"$room/got")"
head -c $((44 + 9600)) "$room/in.wav" | tail -c +45 >&4
waits has_lines 12 "$room/got"
same "meter: ten frames are printed as soon as they came" 12 "$(wc -l <"$room/got")"
tail -c +$((45 + 9600)) "$room/in.wav" >&4
exec 4>&-
wait $!
same "meter: and the rest, and it ends well" "0 22" "$? $(wc -l <"$room/got")"
# The whole desk live: the sound goes to the meter and to the leveller, and the strip from one to the other.
mkfifo "$room/copy" "$room/strip"
tee "$room/copy" <"$room/sound" | tests/run-program recording "$room/strip" >"$room/got" 2>"$room/err" &
leveller=$!
tools/meter <"$room/copy" 2>/dev/null | tools/strip-maker to-strip >"$room/strip" &
exec 4>"$room/sound"
head -c $((44 + 9600)) "$room/in.wav" >&4
waits has_bytes 9644 "$room/got"
same "meter: metered and levelled live, ten frames come out as soon as they came in" 9644 "$(wc -c <"$room/got")"
tail -c +$((45 + 9600)) "$room/in.wav" >&4
exec 4>&-
wait $leveller
same "meter: and the rest" "19244 " "$(wc -c <"$room/got") $(cat "$room/err")"

# ---- an hour of stereo
cost() { # COMMAND..: the seconds of a processor that it takes, and the megabytes
    python -c 'import os, sys
process = os.posix_spawnp(sys.argv[1], sys.argv[1:], os.environ)
_, status, used = os.wait4(process, 0)
print(status, round(used.ru_utime + used.ru_stime), used.ru_maxrss // 1024, file=open("/dev/fd/5", "w"))' "$@" 5>"$room/cost"
}
cheap() { # NAME SECONDS MEGABYTES
    local status seconds megabytes
    read -r status seconds megabytes <"$room/cost"
    # Under an emulator a time says nothing.
    [ "$(uname -m)" = x86_64 ] || seconds=0
    same "$1 ($seconds s, $megabytes MB)" "0 yes yes" "$status $([ "$seconds" -le "$2" ] && echo yes) $([ "$megabytes" -le "$3" ] && echo yes)"
}
yes 'For unto us a child is born, unto us a son is given.' 2>/dev/null | with_head 691200000 --channels 2 |
    cost tools/meter --no-progress 2>/dev/null >"$room/hour.txt"
cheap "meter: an hour of stereo takes at most 15 s and 40 MB" 15 40
same "meter: an hour has 360000 lines" 360002 "$(wc -l <"$room/hour.txt")"
cost tools/strip-maker to-strip <"$room/hour.txt" >"$room/hour.strip"
cheap "strip-maker: the strip of an hour takes at most 15 s and 40 MB" 15 40
same "strip-maker: the strip of an hour has 360000 records" $((26 + 22 * 360000)) "$(wc -c <"$room/hour.strip")"
rm "$room/hour.txt" "$room/hour.strip"

# ---- what goes wrong: one line, and status 1
fails() { # NAME TOLD COMMAND..
    "${@:3}" >"$room/got" 2>"$room/err"
    same "meter: $1" "1 $2" "$? $(cat "$room/err")"
}
# The program tells by itself what is wrong with the file; the meter adds nothing.
as_told() { # NAME: the file is standard input
    cat >"$room/bad"
    run <"$room/bad" >/dev/null 2>"$room/told"
    same "meter: $1 is told by the program in a line" 1 "$(grep -c '^recording: ' "$room/told")"
    fails "$1" "$(cat "$room/told")" tools/meter <"$room/bad"
}
as_told "a text" <README.md
as_told "an empty file" </dev/null
as_told "a file at 44100 Hz" < <(wav --rate 44100)
as_told "a file of nine channels" < <(wav --channels 9)
as_told "a file of 24 bits" < <(wav --bits 24 --group 3)
as_told "a file that ends in its head" < <(wav | head -c 40)
as_told "a file that is cut" < <(wav --samples 4800 --short 1000)
same "meter: what came of a file that is cut is printed" 11 "$(wc -l <"$room/got")"
fails "a folder" "meter: standard input: Is a directory" tools/meter <.
fails "no standard input" "meter: standard input: Bad file descriptor" tools/meter <&-
python3 - <<'READ_FAILS' >"$room/got" 2>"$room/err"
import os, subprocess, sys
source, sink = os.pipe()
os.set_blocking(source, False)
os.write(sink, open("crates/recording/stdin", "rb").read(500))
sys.exit(subprocess.run(["tools/meter"], stdin=source).returncode)
READ_FAILS
same "meter: a read that fails" "1 recording: standard input: Resource temporarily unavailable" "$? $(cat "$room/err")"
to_full() { tools/meter --no-progress < <(long) >"$1"; }
fails "a device that is full" "meter: standard output: No space left on device" to_full /dev/full
full=/dev/full
mkdir "$room/disk"
if [ "$(id -u)" = 0 ] && mount -t tmpfs -o size=64k none "$room/disk" 2>/dev/null; then full=$room/disk/lines; fi
fails "a disk that gets full on the way ($(basename "$full"))" "meter: standard output: No space left on device" to_full "$full"
without_output() { tools/meter <"$room/in.wav" >&-; }
fails "no standard output" "meter: standard output: Bad file descriptor" without_output
tools/meter --no-progress < <(long) 2>"$room/err" | head -n 3 >"$room/got"
same "meter: a reader that goes away" "1 3 " "${PIPESTATUS[0]} $(wc -l <"$room/got") $(cat "$room/err")"
tools/meter <"$room/in.wav" 2>&- >"$room/got"
same "meter: no standard error is no reason to end" "0 22" "$? $(wc -l <"$room/got")"
tools/meter <"$room/in.wav" 2>/dev/full >"$room/got"
same "meter: nor is one that is full" "0 22" "$? $(wc -l <"$room/got")"
child_of() { # PROCESS
    local each stat words
    for each in /proc/[0-9]*; do
        stat=
        read -r -d '' stat <"$each/stat"
        read -r -a words <<<"${stat##*) }"
        if [ "${words[1]-}" = "$1" ]; then echo "${each#/proc/}"; fi
    done 2>/dev/null
}
tools/meter <"$room/sound" >"$room/got" 2>"$room/err" &
meter=$!
exec 4>"$room/sound"
head -c $((44 + 9600)) "$room/in.wav" >&4
waits has_lines 12 "$room/got"
kill -KILL "$(child_of $meter)"
exec 4>&-
wait $meter
same "meter: the program is killed" "1 meter: the program that reads the sound was ended by signal 9" "$? $(cat "$room/err")"

# ---- words: what is wrong with them is told in a line, before anything is read
word() { # TOLD WORDS..
    { tools/meter "${@:2}" >"$room/got" 2>"$room/err"; echo $? >"$room/status"; wc -c >"$room/left"; } <"$room/in.wav"
    same "meter: '${*:2}'" "2 meter: $1, $(wc -c <"$room/in.wav") bytes left, 0 written" \
        "$(cat "$room/status") $(cat "$room/err"), $(cat "$room/left") bytes left, $(wc -c <"$room/got") written"
}
for n in 0 3001 2.5 1_0 twelve "" ٣; do word "--threshold $n is not a whole number from 1 to 3000" --threshold "$n"; done
word "--threshold 0,5: write 0.5, with a point" --threshold 0,5
for n in nan -inf 1_0 loud 1e999 -151 ""; do word "--noise $n is not a number from -150 to 50" --noise "$n"; done
word "--noise -66,5: write -66.5, with a point" --noise -66,5
word "--envelope 101 is not a number from -150 to 100" --envelope=101
word "--speech-above 51 is not a number from -150 to 50" --speech-above 51
word "--above-noise -1 is not a number from 0 to 100" --above-noise -1
word "--above-noise 0,5: write 0.5, with a point" --above-noise=0,5
word "--threshold has no number after it" --noise -66 --threshold
word "--no-progress takes no number" --no-progress=1
word "'--volume' is none of its words: --help says them" --volume 11
word "'in.wav' is none of its words: --help says them" in.wav
tools/meter --help >"$room/got" 2>"$room/err"
same "meter: --help" "0 Meters a recording: reads a WAV file of 16-bit samples, and prints the figures of which tools/strip-maker makes a strip." \
    "$? $(head -n 1 "$room/got")$(cat "$room/err")"
for name in --threshold --above-noise --speech-above --noise --envelope --no-progress --help probability rms peak noise envelope; do
    same "meter: --help has a line for $name" 1 "$(grep -c "^  $name " "$room/got")"
done
fails "--help on a full disk" "meter: standard output: No space left on device" bash -c 'tools/meter --help >/dev/full'
ln -s "$PWD/tools/meter" "$room/linked"
same "meter: through a link, from another folder" 22 "$(cd "$room" && ./linked <in.wav 2>/dev/null | wc -l)"
