#!/usr/bin/env bash
# The program `recording`, run from outside: levelling and metering; the meter, and the cough of examples/cough.
cd "$(dirname "$0")/.." || exit 1
. tests/check.bash
if [ ! -f crates/recording/out/recording ]; then
    echo "not ok recording: the program is built"
    exit 1
fi
room=$(mktemp -d)
trap 'rm -rf "$room" "${hours-}"' EXIT

# Python starts some two hundred times: the one that is found, without a wrapper in front of it or what a site has added to it.
PATH=$(dirname "$(python3 -c 'import os, sys; print(os.path.realpath(sys.executable))')"):$PATH
python() { python3 -I -S "$@"; }
wav() { python tests/wav-maker "$@"; }
# A strip of so many records for channels of so many samples.
strip() { # RECORDS SAMPLES
    { echo "head threshold 4 samples $2" && yes "0.9 -30 -20 -60 -40" | head -n "$1"; } | tools/strip-maker to-strip
}
# A strip that changes nothing: it begins without gain, and no frame of it is speech. A sound that stays below the limiter
# comes out as it went in, byte for byte; and the head of a file that tests/wav-maker makes is the one that is written.
flat() { # RECORDS SAMPLES [THRESHOLD]
    { echo "head threshold ${3:-4} samples $2 initial-gain 0" && yes "0 -60 -60 -60 -60" | head -n "$1"; } | tools/strip-maker to-strip
}
# The twin of a strip of version 1: the length 25, the version 2, and the threshold in two bytes.
twin() { printf '\x00\x19\x02\x00' && tail -c +4 "$1"; } # STRIP
run() { tests/run-program recording "$@"; }
# Runs it on standard input, and keeps what it writes, what it tells, and what it says at the end on descriptor 3.
kept() { run "$@" >"$room/got" 2>"$room/err" 3>"$room/end"; }
# What it says at the end where this was told: 0 where nothing was, the number of a refusal, otherwise nothing.
end_of() { # LINES
    if [ -z "$1" ]; then echo 0; else sed -n 's/^[0-9]* R \([0-9]*\)$/\1/p' <<<"$1"; fi
}
# A line as it is told: that of a refused strip stands for itself.
line_of() { # LINE
    if [[ $1 =~ ^[0-9]+\ R\ [0-9]+$ ]]; then echo "$1"; else echo "recording: $1"; fi
}
for samples in 40 160 480; do strip 10 "$samples" >"$room/$samples.strip"; done
for samples in 80 480; do flat 10 "$samples" >"$room/$samples.flat"; done
twin "$room/480.strip" >"$room/480.two"

# The stored WAV file is of the maker, has a LIST chunk of odd size before the samples and a short last frame; rt has
# run the program on it.
wav --rate 4000 --channels 2 --samples 1015 --odd-list --seed 3 >"$room/stored"
same_file "recording: the stored WAV file is the maker's" "$room/stored" crates/recording/stdin
stored=crates/recording/data/service.strip
kept $stored <crates/recording/stdin
same "recording: it ends with status 0" 0 $?
same_file "recording: the stored WAV file" crates/recording/stdout "$room/got"
same "recording: nothing is told, and 0 is said at the end" " 0" "$(cat "$room/err") $(cat "$room/end")"

# How many peaks the protector remembers. The headroom falls with the frame that takes the first push out of the ring: in a ring of
# 1 that is frame 82 of tests/strips/echo, in one of 4 frame 205, and in one of 16 frame 697. The gain follows the headroom, and a
# sample the gain, some frames later.
tests/strips/echo >"$room/echo.strip"
wav --rate 4000 --samples 29640 --loud 300 --seed 6 >"$room/echo.wav"
for n in 1 4 16; do
    kept --ring $n "$room/echo.strip" <"$room/echo.wav"
    same "recording: a ring of $n: nothing is told, and 0 is said at the end" " 0" "$(cat "$room/err") $(cat "$room/end")"
    mv "$room/got" "$room/ring-$n"
done
kept "$room/echo.strip" <"$room/echo.wav"
same_file "recording: without the words the ring holds 4" "$room/ring-4" "$room/got"
kept --ring 16 "$room/echo.strip" "$room/named.wav" <"$room/echo.wav"
same_file "recording: with the words the output may be named too" "$room/ring-16" "$room/named.wav"
unlike_from() { # FILE FILE FRAME END: whether the first frame that differs is from one on, and before another
    cmp "$1" "$2" | sed 's/.*byte \([0-9]*\),.*/\1/' | awk -v from="$3" -v end="$4" '{ at = int(($1 - 45) / 80) + 1; print (from <= at && at < end) ? "yes" : at }'
}
same "recording: rings of 1 and of 4, and of 4 and of 16, differ where the smaller one has dropped the first push, and the other has not" "yes yes" \
    "$(unlike_from "$room/ring-1" "$room/ring-4" 82 205) $(unlike_from "$room/ring-4" "$room/ring-16" 205 697)"

# What is refused: one line each, and not a byte of a recording.
refuses() { # NAME LINE WORDS..: the file is standard input
    local name=$1 line
    line=$(line_of "$2")
    shift 2
    kept "$@"
    same "recording: $name" "$line" "$(cat "$room/err")"
    same "recording: $name: nothing is written" 0 "$(wc -c <"$room/got")"
    same "recording: $name: what is said at the end" "$(end_of "$line")" "$(cat "$room/end")"
}
good=$room/good.wav
wav --samples 4800 >"$good"
words="it takes the path of a strip, and may take that of the levelled file: recording [--ring N] STRIP [OUT] < in.wav"
refuses "three words" "$words" "$room/480.strip" "$room/out.wav" more <"$good"
refuses "a ring and no strip" "$words" --ring 4 <"$good"
refuses "a ring and three words" "$words" --ring 4 "$room/480.strip" "$room/out.wav" more <"$good"
for n in 0 17 016 4x -1 ''; do refuses "a ring of '$n'" "--ring wants a number from 1 to 16" --ring "$n" "$room/480.strip" <"$good"; done
refuses "a ring without its number" "--ring wants a number from 1 to 16" --ring <"$good"
refuses "four words" "$words" "$room/480.strip" "$room/out.wav" more more <"$good"
same "recording: too many words: no output is made" no "$([ -e "$room/out.wav" ] && echo yes || echo no)"
refuses "no such strip" "the strip: No such file or directory" "$room/nothing" <"$good"
refuses "an empty word" "the strip: No such file or directory" "" <"$good"
for bytes in 4096 4097 9000; do
    refuses "a path of $bytes bytes" "the strip: File name too long" "$(printf "%${bytes}s" "" | tr ' ' a)" <"$good"
    refuses "a path of the output of $bytes bytes" "the output: File name too long" "$room/480.strip" "$(printf "%${bytes}s" "" | tr ' ' a)" <"$good"
done
refuses "a folder in place of the strip" "the strip: Is a directory" "$room" <"$good"
refuses "a strip that is cut in its head" "0 R 5" <(head -c 20 "$room/480.strip") <"$good"
refuses "a strip of another version" "0 R 7" "$good" <"$good"
refuses "a strip of version 3" "0 R 7" <(printf '\x00\x19\x03'; tail -c +4 "$room/480.two") <"$good"
refuses "a strip of version 2 with the length of version 1" "0 R 6" <(printf '\x00\x18'; tail -c +3 "$room/480.two") <"$good"
refuses "a strip of version 1 with the length of version 2" "0 R 6" <(printf '\x00\x19'; tail -c +3 "$room/480.strip") <"$good"
refuses "a strip of version 2 that is cut in its head" "0 R 5" <(head -c 26 "$room/480.two") <"$good"
refuses "a strip of version 2 with 20 samples" "0 R 1" <(head -c 5 "$room/480.two"; printf '\x00\x14'; tail -c +8 "$room/480.two") <"$good"
for threshold in '\x00\x00' '\x0b\xb9' '\xff\xff'; do
    refuses "a strip of version 2 with the threshold $threshold" "0 R 4" <(head -c 3 "$room/480.two"; printf "$threshold"; tail -c +6 "$room/480.two") <"$good"
done
for threshold in '\x00' '\xc9' '\xff'; do
    refuses "a strip of version 1 with the threshold $threshold" "0 R 4" <(head -c 3 "$room/480.strip"; printf "$threshold"; tail -c +5 "$room/480.strip") <"$good"
done
refuses "a text, and a strip of another version: the sound comes first" "not a WAV file" "$good" <README.md
refuses "an empty input" "not a WAV file" "$room/480.strip" </dev/null
refuses "a text" "not a WAV file" "$room/480.strip" <README.md
refuses "a file of eleven bytes" "not a WAV file" "$room/480.strip" < <(head -c 11 "$good")
refuses "a folder in place of the recording" "standard input: Is a directory" "$room/480.strip" <.
refuses "a file that ends after its start" "the WAV file ends before its samples" "$room/480.strip" < <(head -c 12 "$good")
refuses "a file that ends in a chunk's head" "the WAV file ends before its samples" "$room/480.strip" < <(head -c 40 "$good")
refuses "a file that ends in its format" "the format of the WAV file has fewer than 16 bytes" "$room/480.strip" < <(head -c 30 "$good")
for size in 0 14 15; do
    refuses "a format of $size bytes" "the format of the WAV file has fewer than 16 bytes" "$room/480.strip" < <(wav --format-bytes $size)
done
refuses "samples before the format" "the WAV file does not say its format before its samples" "$room/480.strip" \
    < <(head -c 12 "$good"; printf 'data\x02\0\0\0\0\0')
refuses "samples of 24 bits" "the samples are not 16-bit PCM" "$room/480.strip" < <(wav --bits 24 --group 3)
refuses "samples of 24 bits in two bytes" "the samples are not 16-bit PCM" "$room/480.strip" < <(wav --bits 24)
refuses "samples of 8 bits" "the samples are not 16-bit PCM" "$room/480.strip" < <(wav --bits 8 --group 1)
refuses "samples that are floats" "the samples are not 16-bit PCM" "$room/480.strip" < <(wav --tag 3)
refuses "an extended format of floats" "the samples are not 16-bit PCM" "$room/480.strip" < <(wav --extended --tag 3)
refuses "a group of samples that is too long" "the samples of the channels do not lie side by side, in two bytes each" \
    "$room/480.strip" < <(wav --group 4)
refuses "no channel" "the sound has 0 channels: 1 to 8 can be levelled" "$room/480.strip" < <(wav --channels 0)
refuses "nine channels" "the sound has 9 channels: 1 to 8 can be levelled" "$room/480.strip" < <(wav --channels 9)
for rate in 44100 22050 2000 50000 96000; do
    refuses "$rate Hz" "10 ms at $rate Hz are no whole frame: 8000, 12000, 16000, 24000, 32000 or 48000 Hz can be levelled: sox in.wav -r 48000 out.wav makes such a file" \
        "$room/480.strip" < <(wav --rate $rate)
done
refuses "another rate than the strip's" "the strip has 480 samples a frame, and the recording 160" "$room/480.strip" < <(wav --rate 16000)

# What ends it on the way: what came before it is written.
stops() { # NAME LINE BYTES STRIP: the file is standard input; BYTES are those of the samples
    kept "$4"
    same "recording: $1" "$(line_of "$2")" "$(cat "$room/err")"
    same "recording: $1: what came before it is written" "$((44 + $3))" "$(wc -c <"$room/got")"
    same "recording: $1: what is said at the end" "$(end_of "$(line_of "$2")")" "$(cat "$room/end")"
}
wav --samples 4800 --short 1000 >"$room/cut.wav"
stops "a recording that is cut" "the WAV file is cut: 1000 bytes of its samples are missing" 8600 "$room/480.strip" <"$room/cut.wav"
stops "a recording that is cut inside a sample" "the WAV file is cut: 2 bytes of its samples are missing" 9598 "$room/480.strip" < <(wav --samples 4800 --short 1)
stops "a strip that is too short" "the strip ends before the recording, which goes on: there is no record 11" 9600 "$room/480.strip" < <(wav --samples 4801)
stops "a strip that is too long" "the recording ends before the strip, which goes on with record 10" 8160 "$room/480.strip" < <(wav --samples 4080)
stops "a strip for no sample" "the recording ends before the strip, which goes on with record 1" 0 "$room/480.strip" < <(wav --samples 0)
stops "a record that is cut" "10 R 5" 8640 <(head -c 240 "$room/480.strip") <"$good"
stops "a record of a wrong length" "3 R 6" 1920 \
    <(head -c 70 "$room/480.strip"; printf '\0\x15'; tail -c +73 "$room/480.strip") <"$good"
stops "a record whose figure is no number" "1 R 2" 0 \
    <(head -c 28 "$room/480.strip"; printf '\x7f\xc0\0\0'; tail -c +33 "$room/480.strip") <"$good"
stops "a record of length 0" "3 R 6" 1920 <(head -c 70 "$room/480.strip"; printf '\0\0'; tail -c +71 "$room/480.strip") <"$good"
# The records of version 2 are those of version 1, one byte further on; and one of length 0 is a gap, of which more below.
stops "version 2: a strip that is too short" "the strip ends before the recording, which goes on: there is no record 11" 9600 "$room/480.two" < <(wav --samples 4801)
stops "version 2: a record that is cut" "10 R 5" 8640 <(head -c 241 "$room/480.two") <"$good"
stops "version 2: a record of a wrong length" "3 R 6" 1920 <(head -c 71 "$room/480.two"; printf '\0\x15'; tail -c +74 "$room/480.two") <"$good"
# A gap of version 2 takes no sound, and is a record with its number. A length of 0 is none of version 1.
gapped() { # STRIP: with a gap in front, two as records 4 and 5, and two at the end
    head -c 27 "$1"
    printf '\0\0'
    tail -c +28 "$1" | head -c 44
    printf '\0\0\0\0'
    tail -c +72 "$1"
    printf '\0\0\0\0'
}
stops "gaps: a record that is cut behind them" "13 R 5" 8640 <(gapped "$room/480.two" | head -c 250) <"$good"
stops "gaps: half a gap" "5 R 5" 1920 <(gapped "$room/480.two" | head -c 76) <"$good"
stops "gaps: a strip that is too long, without its gaps" "the recording ends before the strip, which goes on with record 13" 8160 \
    <(gapped "$room/480.two") < <(wav --samples 4080)
stops "gaps: a record behind the last gaps" "the recording ends before the strip, which goes on with record 16" 9600 \
    <(gapped "$room/480.two"; tail -c 22 "$room/480.two") <"$good"
stops "version 2: a record whose figure is no number" "1 R 2" 0 \
    <(head -c 29 "$room/480.two"; printf '\x7f\xc0\0\0'; tail -c +34 "$room/480.two") <"$good"

# However the file says what it is: the samples come out the same. With the flat strip they are those that went in.
levels() { # NAME DUE STRIP: the file is standard input, nothing is told, and DUE is what is written
    kept "$3"
    same "recording: $1: nothing is told, and 0 is said at the end" " 0" "$(cat "$room/err") $(cat "$room/end")"
    same_file "recording: $1" "$2" "$room/got"
}
alike() { levels "$1" "$good" "$room/480.flat"; }
alike "a whole number of frames" <"$good"
alike "an extended format without a mask comes out plain" < <(wav --samples 4800 --extended)
alike "an extended format, and a chunk of odd size before the samples" < <(wav --samples 4800 --extended --odd-list)
alike "a plain format of 40 bytes, which says no mask" < <(wav --samples 4800 --format-bytes 40)
for size in 17 18 19; do alike "a format of $size bytes" < <(wav --samples 4800 --format-bytes $size); done
for size in 41 4135 4136 4137; do alike "an extended format of $size bytes" < <(wav --samples 4800 --extended --format-bytes $size); done
alike "chunks after the samples" < <(wav --samples 4800 --late)
alike "bytes after the samples" < <(cat "$good"; echo more)
alike "a format that says it twice" < <(head -c 36 "$good"; tail -c +13 "$good" | head -c 24; tail -c +37 "$good")
pieces() { # FILE PLACES..: the file, cut at these places, one piece after the other
    local file=$1 from=0 to
    shift
    for to in "$@" 999999; do
        tail -c +$((from + 1)) "$file" | head -c $((to - from))
        from=$to
        sleep 0.02
    done
}
alike "a file that comes in pieces" < <(pieces "$good" 1 3 9 5003)
levels "a strip that comes in pieces" "$good" <(pieces "$room/480.flat" 1 2 5 26 27 70) <"$good"
levels "a strip of version 2" "$good" <(twin "$room/480.flat") <"$good"
twin "$room/480.flat" >"$room/480.flat-two"
levels "a strip of version 2 that comes in pieces" "$good" <(pieces "$room/480.flat-two" 2 3 4 5 26 27 28 71) <"$good"
levels "a strip of version 2 with a threshold of 3000" "$good" <(flat 10 480 3000) <"$good"
levels "gaps take no sound, also behind the last frame" "$good" <(gapped "$room/480.flat-two") <"$good"
gapped "$room/480.flat-two" >"$room/480.gapped"
levels "gaps that come in pieces" "$good" <(pieces "$room/480.gapped" 27 28 29 30 73 74 75 76 77 78 79 80 253 254 255 256) <"$good"
# A gap breaks a run: the gain rises in the fourth frame of speech in a row, and until then the sound stays as it is.
for both in none:4 1:5 3:7 4:4; do
    {
        echo "head version 2 threshold 4 samples 480 initial-gain 0"
        for frame in {1..10}; do
            echo "1 -50 -40 -80 -60"
            if [ "$frame" = "${both%:*}" ]; then echo gap; fi
        done
    } | tools/strip-maker to-strip >"$room/rising.strip"
    kept "$room/rising.strip" <"$good"
    first=$(cmp "$good" "$room/got" | sed -n 's/.*byte \([0-9]*\),.*/\1/p')
    same "recording: a gap behind frame ${both%:*} of a reading: the first frame that is louder, and 0 is said at the end" "${both#*:} 0" \
        "$(((${first:-0} - 45) / 960 + 1)) $(cat "$room/end")"
done
levels "a size that is no whole number of samples: the whole ones" "$good" "$room/480.flat" < <(wav --samples 4800 --size 9601)
for channels in 1 2 3 8; do
    wav --rate 8000 --channels $channels --samples 793 --seed $channels --loud 20000 >"$room/in.wav"
    levels "$channels channels, and a short last frame" "$room/in.wav" "$room/80.flat" <"$room/in.wav"
done

# The mask, which says the speakers that the channels are for, is kept: the head is then an extended one. The bytes of the
# one for the speakers of 7.1: the size of all, the format of 40 bytes, its tag, 8 channels, the rate, the bytes a second, 16
# bytes a group, 16 bits; 22 bytes more, 16 bits, the mask, the own tag; and the size of the samples.
wav --channels 8 --samples 4800 --extended --mask 0x63f >"$room/8.wav"
levels "8 channels with a mask: every byte as it was" "$room/8.wav" "$room/480.flat" <"$room/8.wav"
same "recording: 8 channels with a mask: the head" \
    "RIFF 3c2c0100 WAVEfmt  28000000 feff 0800 80bb0000 00b80b00 1000 1000 1600 1000 3f060000 0100000000001000800000aa00389b71 data 002c0100" \
    "$(python - "$room/got" <<'HEAD'
import sys
head = open(sys.argv[1], "rb").read(68)
at, words = 0, []
for size in (-4, 4, -8, 4, 2, 2, 4, 4, 2, 2, 2, 2, 4, 16, -4, 4):
    word = head[at : at + abs(size)]
    words.append(word.decode("latin-1") if size < 0 else word.hex())
    at += abs(size)
print(*words)
HEAD
)"
levels "8 channels with a mask, and a chunk of odd size before the samples" "$room/8.wav" "$room/480.flat" \
    < <(wav --channels 8 --samples 4800 --extended --mask 0x63f --odd-list)
for bytes in 41 4137; do
    levels "8 channels with a mask in a format of $bytes bytes" "$room/8.wav" "$room/480.flat" \
        < <(wav --channels 8 --samples 4800 --extended --mask 0x63f --format-bytes $bytes)
done
levels "a format with a mask, and then one without: the last one counts" "$good" "$room/480.flat" \
    < <(wav --samples 4800 --extended --mask 4 | head -c 60; tail -c +13 "$good")
for mask in 1 4 0x100 0x10000 0x80000000 0xffffffff; do
    wav --samples 4800 --extended --mask $mask >"$room/in.wav"
    levels "the mask $mask" "$room/in.wav" "$room/480.flat" <"$room/in.wav"
done
wav --channels 8 --samples 4800 >"$room/plain.wav"
levels "8 channels without a mask come out plain" "$room/plain.wav" "$room/480.flat" < <(wav --channels 8 --samples 4800 --extended --mask 0)

# The size that the file says of its samples, and the size of all in bytes 5 to 8 of the head, which does not wrap. Every size
# is known but the two that programs write to a pipe.
said() { od -An -tu4 -j "$1" -N 4 "$2" | tr -d ' '; }
sizes() { echo "$(said $((${2:-44} - 4)) "$1") $(said 4 "$1")"; } # FILE [BYTES-OF-THE-HEAD]
# A file with another size of its samples in its head.
resized() { # FILE SIZE [BYTES-OF-THE-HEAD]
    head -c $((${3:-44} - 4)) "$1"
    printf "$(printf '\\x%02x' $(($2 & 255)) $(($2 >> 8 & 255)) $(($2 >> 16 & 255)) $(($2 >> 24)))"
    tail -c +$((${3:-44} + 1)) "$1"
}
wav --samples 4800 --extended --mask 4 >"$room/good.68"
ln -s "$good" "$room/good.44"
sized() { # SIZE SIZE-THAT-IS-WRITTEN SIZE-OF-ALL TOLD [BYTES-OF-THE-HEAD]
    local size=$1 due="$2 $3" told=$4 head=${5-44}
    kept "$room/480.flat" < <(resized "$room/good.$head" "$size" "$head")
    same "recording: samples of $size bytes behind $head: what is told, and said at the end" "$told $(end_of "$told")" "$(cat "$room/err") $(cat "$room/end")"
    same "recording: samples of $size bytes behind $head: the sizes in the head" "$due" "$(sizes "$room/got" "$head")"
    same_file "recording: samples of $size bytes behind $head: those that came" <(tail -c +45 "$good") <(tail -c +$((head + 1)) "$room/got")
}
missing() { echo "recording: the WAV file is cut: $1 bytes of its samples are missing"; }
sized 9602 9602 9638 "$(missing 2)"
sized 9603 9602 9638 "$(missing 2)"
# From 0x7fff0000 on, around 0x7ffff000, at 0x80000000 and up to 0xfffffffe they are known.
for size in 2147418110 2147418112 2147479550 2147479554 2147483646 2147483648 4294967258 4294967260 4294967294; do
    sized $size $size $((size < 4294967259 ? size + 36 : 4294967295)) "$(missing $((size - 9600)))"
done
for size in 2147418111 2147479551 2147479553 2147483647 4294967259 4294967293; do
    sized $size $((size - 1)) $((size - 1 < 4294967259 ? size + 35 : 4294967295)) "$(missing $((size - 9601)))"
done
sized 9602 9602 9662 "$(missing 2)" 68
for size in 2147483646 4294967234 4294967236 4294967258 4294967294; do
    sized $size $size $((size < 4294967235 ? size + 60 : 4294967295)) "$(missing $((size - 9600)))" 68
done
# What sox and ffmpeg write to a pipe.
sized 2147479552 2147479552 2147479588 ""
sized 4294967295 4294967295 4294967295 ""
sized 2147479552 2147479552 2147479612 "" 68
sized 4294967295 4294967295 4294967295 "" 68
# sox writes whole groups: of these channels so many bytes. Two bytes, or a group, more or fewer are known.
piped() { # CHANNELS SIZE SIZE-THAT-IS-WRITTEN TOLD: of in.wav
    kept "$room/80.flat" < <(resized "$room/in.wav" "$2")
    same "recording: $1 channels of $2 bytes: what is told, and said at the end" "$4 $(end_of "$4")" "$(cat "$room/err") $(cat "$room/end")"
    same "recording: $1 channels of $2 bytes: the size in the head" "$3" "$(said 40 "$room/got")"
    same_file "recording: $1 channels of $2 bytes: those that came" <(tail -c +45 "$room/in.wav") <(tail -c +45 "$room/got")
}
for both in "1 2147479552" "2 2147479552" "3 2147479548" "4 2147479552" "5 2147479550" "6 2147479548" "7 2147479544" "8 2147479552"; do
    read -r channels size <<<"$both"
    wav --rate 8000 --channels "$channels" --samples 800 >"$room/in.wav"
    piped "$channels" "$size" "$size" ""
    piped "$channels" $((size - 2 * channels)) $((size - 2 * channels)) "$(missing $((size - 2 * channels - 1600 * channels)))"
    piped "$channels" $((size + 2 * channels)) $((size + 2 * channels)) "$(missing $((size + 2 * channels - 1600 * channels)))"
    [ "$channels" != 3 ] || piped 3 2147479552 2147479548 "$(missing $((2147479548 - 4800)))"
done

# A file that says that it has no samples, and goes on behind them.
none="recording: the WAV file says that it has no samples, and goes on behind them: was its head never put right? (sox --ignore-length reads such a file)"
flat 0 480 >"$room/none.flat"
behind() { # NAME TOLD STRIP: the file is standard input
    kept "$3"
    same "recording: $1: what is told, and said at the end" "$2 $(end_of "$2")" "$(cat "$room/err") $(cat "$room/end")"
    same_file "recording: $1: a head without samples" <(wav --samples 0) "$room/got"
}
behind "a file without samples" "" "$room/none.flat" < <(wav --samples 0)
behind "a size of 0, and samples" "$none" "$room/480.flat" < <(wav --samples 4800 --size 0)
behind "a size of 0, and samples, and no record" "$none" "$room/none.flat" < <(wav --samples 4800 --size 0)
behind "a size of 0, and one byte more" "$none" "$room/none.flat" < <(wav --samples 0; printf x)
behind "a size of 0, and a chunk" "$none" "$room/none.flat" < <(wav --samples 0 --late)
behind "a size of 1, which is no sample" "" "$room/none.flat" < <(wav --samples 0 --size 1; printf 'x\0')

# A group of samples that is not whole is not written, and is not heard: the half of one at the end of these files is so
# loud that the limiter would take the samples before it back.
loud() { wav --rate 8000 --channels 2 --samples 794 --seed 5 --loud 20000 --last 32767 "$@"; }
loud --short 4 | tail -c +45 >"$room/before"
half() { # NAME SIZE-THAT-IS-WRITTEN TOLD: the file is standard input
    kept "$room/80.flat"
    same "recording: $1: what is told, and said at the end" "$3 $(end_of "$3")" "$(cat "$room/err") $(cat "$room/end")"
    same "recording: $1: the size in the head" "$2" "$(said 40 "$room/got")"
    same_file "recording: $1: the whole groups of samples, as they were" "$room/before" <(tail -c +45 "$room/got")
}
for bytes in 1 2 3; do
    half "a stereo file without its last $bytes bytes" 3176 "$(missing 4)" < <(loud --short $bytes)
    half "a stereo file of unknown size without its last $bytes bytes" 4294967295 "" < <(loud --short $bytes --size 4294967295)
    half "a stereo file whose size is $bytes bytes short" 3172 "" < <(loud --size $((3176 - bytes)))
done

# A strip is read in blocks of 4096 bytes: the head and 185 records of version 1 fill the first, and of version 2 the last byte of
# record 185 is in the second.
wav --rate 8000 --samples 14800 >"$room/185.wav"
flat 187 80 >"$room/blocks.1"
twin "$room/blocks.1" >"$room/blocks.2"
for version in 1 2; do
    for records in 184 185 186 187; do
        kept <(head -c $((25 + version + 22 * records)) "$room/blocks.$version") <"$room/185.wav"
        told=""
        [ $records -lt 185 ] && told="recording: the strip ends before the recording, which goes on: there is no record 185"
        [ $records -gt 185 ] && told="recording: the recording ends before the strip, which goes on with record 186"
        same "recording: version $version, $records records for 185 frames: what is told, and said at the end" "$told $(end_of "$told")" "$(cat "$room/err") $(cat "$room/end")"
        same_file "recording: version $version, $records records for 185 frames" <(head -c $((44 + 160 * (records < 185 ? records : 185))) "$room/185.wav") "$room/got"
    done
done

# A read of standard input that fails on the way, since it would have to wait: it is told, once, the frames that came
# whole are written, and nothing is said at the end.
fails() { # NAME FRAMES STRIP: the bytes that come before it are standard input
    cat >"$room/bytes"
    python - "$room/bytes" "$3" <<'FAILS' >"$room/got" 2>"$room/err" 3>"$room/end"
import os, subprocess, sys
source, sink = os.pipe()
os.set_blocking(source, False)
os.write(sink, open(sys.argv[1], "rb").read())
subprocess.run(["tests/run-program", "recording", sys.argv[2]], stdin=source, pass_fds=[3])
FAILS
    same "recording: $1: what is told" "recording: standard input: Resource temporarily unavailable" "$(cat "$room/err")"
    same "recording: $1: nothing is said at the end" "" "$(cat "$room/end")"
    same_file "recording: $1: what came before it" <([ "$2" = none ] || head -c $((44 + 960 * $2)) "${4:-$good}") "$room/got"
}
fails "a read that fails in the start" none "$room/480.flat" < <(head -c 5 "$good")
fails "a read that fails in a chunk's head" none "$room/480.flat" < <(head -c 40 "$good")
fails "a read that fails in the format" none "$room/480.flat" < <(head -c 30 "$good")
fails "a read that fails in a chunk that is skipped" none "$room/480.flat" < <(wav --odd-list | head -c 50)
fails "a read that fails before the samples" 0 "$room/480.flat" < <(head -c 44 "$good")
fails "a read that fails between two frames" 3 "$room/480.flat" < <(head -c $((44 + 2880)) "$good")
fails "a read that fails in a frame" 3 "$room/480.flat" < <(head -c $((44 + 2900)) "$good")
wav --samples 0 >"$room/empty.wav"
fails "a read that fails behind samples that are none" 0 "$room/none.flat" "$room/empty.wav" <"$room/empty.wav"

# Sound that is levelled, of 1, 2 and 8 channels, with a short last frame: as the ruled Rust levels it, whose digests are
# stored. It knows no gaps, so these stand where they change nothing: before the first frame, after each that is no speech, and with
# a threshold of 1, which one of the strips has, after any.
with_gaps() { # STRIP: of version 1
    python - "$1" <<'GAPS'
import struct, sys
strip = open(sys.argv[1], "rb").read()
out = b"\0\x19\2\0" + strip[3:26] + b"\0\0"
for at in range(26, len(strip), 22):
    speech = struct.unpack_from(">f", strip, at + 2)[0] > 0.9
    out += strip[at : at + 22] + (b"" if speech and strip[3] > 1 else b"\0\0\0\0")
sys.stdout.buffer.write(out)
GAPS
}
tests/some-recordings "$room/some"
while read -r digest name; do
    kept "$room/some/$name.strip" <"$room/some/$name.wav"
    same "recording: $name: nothing is told, and 0 is said at the end" " 0" "$(cat "$room/err") $(cat "$room/end")"
    same "recording: $name: the digest of what the ruled Rust writes" "$digest" "$(sha256sum <"$room/got" | head -c 64)"
    kept <(twin "$room/some/$name.strip") <"$room/some/$name.wav"
    same "recording: $name, by a strip of version 2: the same digest, and 0 is said at the end" "$digest 0" "$(sha256sum <"$room/got" | head -c 64) $(cat "$room/end")"
    kept <(with_gaps "$room/some/$name.strip") <"$room/some/$name.wav"
    same "recording: $name, and gaps that change nothing: the same digest, and 0 is said at the end" "$digest 0" "$(sha256sum <"$room/got" | head -c 64) $(cat "$room/end")"
done <tests/some-recordings.sha256

# A threshold of 3000: what was read for thirty seconds counts with its last frame, and until then the sound stays as it is.
wav --rate 4000 --samples 120040 --loud 3000 --seed 2 >"$room/thirty.wav"
{ echo "head threshold 3000 samples 40 initial-gain 0" && yes "1 -50 -40 -80 -60" | head -n 3001; } | tools/strip-maker to-strip >"$room/thirty.strip"
kept "$room/thirty.strip" <"$room/thirty.wav"
same "recording: thirty seconds, and a threshold of 3000: nothing is told, and 0 is said at the end" " 0" "$(cat "$room/err") $(cat "$room/end")"
first=$(cmp "$room/thirty.wav" "$room/got" | sed -n 's/.*byte \([0-9]*\),.*/\1/p')
same "recording: thirty seconds, and a threshold of 3000: the first sample that is louder is one of frame 3000" 3000 "$(((${first:-0} - 45) / 80 + 1))"

# A strip of version 2 may have gaps, which take no sound. Ten frames, and strips for them by their bytes.
two() { # THRESHOLD SAMPLES WORDS..: S is a frame of speech, N one of none, G a gap, with how many there are before it
    python - "$@" <<'TWO'
import re, struct, sys
threshold, samples, words = int(sys.argv[1]), int(sys.argv[2]), " ".join(sys.argv[3:])
kinds = {"S": struct.pack(">H5f", 20, 1, -50, -40, -80, -60), "N": struct.pack(">H5f", 20, 0, -50, -40, -80, -60), "G": b"\0\0"}
write = sys.stdout.buffer.write
write(struct.pack(">HBHH5f", 25, 2, threshold, samples, 5, 50, 0, 6, -50))
write(b"".join(int(count or 1) * kinds[kind] for count, kind in re.findall("([0-9]*)([SNG])", words)))
TWO
}
wav --rate 8000 --samples 800 --loud 3000 --seed 4 >"$room/ten.wav"
wav --rate 8000 --samples 0 >"$room/no.wav"
# Where no frame is speech every sample stays as it was.
while read -r words; do
    levels "a strip of $words" "$room/ten.wav" <(two 4 80 $words) <"$room/ten.wav"
done <<<"10N
3N G 7N
G 10N
5G 10N
5N 3000G 5N
10N G
10N 3000G
GN GN GN GN GN GN GN GN GN GN G"
levels "no frame, and a strip of 3G" "$room/no.wav" <(two 4 80 3G) <"$room/no.wav"
two 4 80 G 5N 3G 5N 2G >"$room/gaps.two"
levels "a strip that is cut in its gaps" "$room/ten.wav" <(pieces "$room/gaps.two" 28 139 140 141 142 143 144 256 257 258) <"$room/ten.wav"
# A gap has a number as every record has, and what is told numbers by it.
ends="the strip ends before the recording, which goes on: there is no record"
goes="the recording ends before the strip, which goes on with record"
stops "gaps, and a strip that is too short" "$ends 8" 960 <(two 4 80 3N G 3N) <"$room/ten.wav"
stops "gaps at the end of a strip that is too short" "$ends 10" 960 <(two 4 80 3N G 3N 2G) <"$room/ten.wav"
stops "a strip of gaps alone" "$ends 4" 0 <(two 4 80 3G) <"$room/ten.wav"
stops "a wrong length behind gaps" "6 R 6" 480 <(two 4 80 G 3N G; printf '\0\x15') <"$room/ten.wav"
stops "a cut record behind gaps" "6 R 5" 480 <(two 4 80 G 3N G; printf '\0') <"$room/ten.wav"
stops "no number behind gaps" "6 R 2" 480 <(two 4 80 G 3N G; printf '\0\x14\x7f\xc0\0\0'; head -c 16 /dev/zero) <"$room/ten.wav"
stops "figures behind the last frame" "$goes 11" 1600 <(two 4 80 10N N) <"$room/ten.wav"
stops "gaps, and figures behind the last frame" "$goes 14" 1600 <(two 4 80 G 10N 2G N) <"$room/ten.wav"
stops "many gaps, and figures behind the last frame" "$goes 3011" 1600 <(two 4 80 10N 3000G 2N) <"$room/ten.wav"
stops "gaps, and a cut record behind the last frame" "$goes 13" 1600 <(two 4 80 10N 2G; printf '\0') <"$room/ten.wav"
stops "gaps, and a wrong length behind the last frame" "$goes 13" 1600 <(two 4 80 10N 2G; printf '\0\x15') <"$room/ten.wav"
stops "no frame, and figures behind gaps" "$goes 4" 0 <(two 4 80 3G N) <"$room/no.wav"
stops "a recording that is cut, and gaps behind it" "the WAV file is cut: 160 bytes of its samples are missing" 1440 <(two 4 80 9N 3G) \
    < <(head -c $((44 + 1440)) "$room/ten.wav")
# A gap ends a run of speech. Speech that did not last is then as no speech at all, with the same noise and envelope; a gap where
# there is no run, and any gap with a threshold of 1, is as none.
as() { # NAME THRESHOLD WORDS OTHER-WORDS [differs]: the sound of both strips is the same, or is not
    run <(two "$2" 80 $4) <"$room/forty.wav" >"$room/due" 2>"$room/err" 3>"$room/end"
    same "recording: $1: $4: what is told, and said at the end" " 0" "$(cat "$room/err") $(cat "$room/end")"
    kept <(two "$2" 80 $3) <"$room/forty.wav"
    same "recording: $1: $3: what is told, and said at the end" " 0" "$(cat "$room/err") $(cat "$room/end")"
    if [ "${5-}" = differs ]; then
        same "recording: $1: $3 is not as $4" no "$(cmp -s "$room/due" "$room/got" && echo yes || echo no)"
    else
        same_file "recording: $1: $3 is as $4" "$room/due" "$room/got"
    fi
}
wav --rate 8000 --samples 3200 --loud 3000 --seed 5 >"$room/forty.wav"
as "a gap in speech" 4 "3S G 3S 34N" "40N"
as "a gap in speech" 4 "3S G 3S 34N" "6S 34N" differs
as "a gap in speech after a reading" 4 "10S 5N 3S G 3S 19N" "10S 30N"
as "a gap in speech after a reading" 4 "10S 5N 3S G 3S 19N" "10S 5N 6S 19N" differs
as "a gap, and then a reading" 4 "2S G 38S" "2N 38S"
as "a gap, and then a reading" 4 "2S G 38S" "40S" differs
as "a gap in a reading" 4 "20S G 3S 17N" "20S 20N"
as "a gap in a reading" 4 "20S G 3S 17N" "23S 17N" differs
as "gaps where no run is" 4 "3G 3N G 20S N 2G 3S 2N G 10S N 5G" "3N 20S N 3S 2N 10S N"
as "two gaps in a row" 4 "10S 2G 30S" "10S G 30S"
as "a gap at each end of a frame" 4 "10S G S G 29S" "10S G N 29S"
as "gaps with a threshold of 1" 1 "G 10S G 10S 2G 5N G S G S 13N G" "20S 5N 2S 13N"
as "a gap with a threshold of 30" 30 "20S G 20S" "40N"
as "a gap with a threshold of 30" 30 "20S G 20S" "40S" differs
# Speech, pauses and gaps at random: a gap is as a frame of silence that is no speech and is cut out again, since the gain that this
# sound comes to never falls.
python - "$room" <<'RANDOM'
import random, struct, sys
source, room = random.Random(8), sys.argv[1]
kinds, now = [], "N"
for _ in range(200):
    now = source.choice("SN") if source.random() < 0.2 else now
    kinds.append("G" if source.random() < 0.2 else now)
def entry(kind):
    rms = source.uniform(-55, -45)
    return struct.pack(">H5f", 20, kind == "S", rms, rms + source.uniform(0, 10), -80, -60)
records = [entry(kind) for kind in kinds]
sound = [struct.pack("<80h", *(source.randint(-1000, 1000) for _ in range(80))) for _ in kinds]
gap, silence = struct.pack(">H5f", 20, 0, -50, -40, -80, -60), bytes(160)
def write(name, *parts):
    open(f"{room}/{name}", "wb").write(b"".join(b"".join(part) if isinstance(part, list) else part for part in parts))
def wave(name, frames):
    write(name, b"RIFF", struct.pack("<I", 36 + 160 * len(frames)), b"WAVEfmt ", struct.pack("<IHHIIHH", 16, 1, 1, 8000, 16000, 2, 16),
          b"data", struct.pack("<I", 160 * len(frames)), frames)
def each(of_gap, of_frame):
    return [part for kind, frame in zip(kinds, of_frame) for part in (of_gap if kind == "G" else [frame])]
head = struct.pack(">HBHH5f", 25, 2, 4, 80, 5, 50, 0, 6, -50)
write("gaps.strip", head, each([b"\0\0"], records))
write("silence.strip", head, each([gap], records))
write("without.strip", head, each([], records))
wave("gaps.wav", each([], sound))
wave("silence.wav", each([silence], sound))
write("kinds", "".join(kinds).encode())
RANDOM
run "$room/silence.strip" <"$room/silence.wav" 2>/dev/null 3>/dev/null |
    python -c 'import sys; f = sys.stdin.buffer.read()[44:]; sys.stdout.buffer.write(b"".join(f[160 * i : 160 * i + 160] for i, k in enumerate(open(sys.argv[1]).read()) if k != "G"))' "$room/kinds" >"$room/due"
run "$room/without.strip" <"$room/gaps.wav" 2>/dev/null 3>/dev/null | tail -c +45 >"$room/without"
kept "$room/gaps.strip" <"$room/gaps.wav"
same "recording: gaps at random: nothing is told, and 0 is said at the end" " 0" "$(cat "$room/err") $(cat "$room/end")"
same_file "recording: gaps at random: each is as silence that is cut out" "$room/due" <(tail -c +45 "$room/got")
same "recording: gaps at random: they are not as none" no "$(cmp -s "$room/without" "$room/due" && echo yes || echo no)"

# Silence in gives silence out.
wav --samples 4800 --loud 0 >"$room/silent.wav"
levels "silence in gives silence out" "$room/silent.wav" "$room/480.strip" <"$room/silent.wav"

# A file that is named: it gets what standard output would get, and standard output nothing.
out=$room/out.wav
puts() { # NAME DUE TOLD STRIP [OUT]: the file is standard input; DUE is what the output has then
    kept "$4" "${5:-$out}"
    same "recording: $1: what is told, and said at the end" "$3 $(end_of "$3")" "$(cat "$room/err") $(cat "$room/end")"
    same_file "recording: $1: the output" "$2" "${5:-$out}"
    same "recording: $1: standard output gets nothing" 0 "$(wc -c <"$room/got")"
}
puts "a named output" "$good" "" "$room/480.flat" <"$good"
head -c 50000 /dev/urandom >"$out"
puts "a named output that is there and is longer" "$good" "" "$room/480.flat" <"$good"
(cd "$room" && "$OLDPWD/tests/run-program" recording 480.flat by-name.wav <good.wav 2>err)
same_file "recording: a named output in the folder that it is run in" "$good" "$room/by-name.wav"
ln -s "$out" "$room/link.wav"
puts "a link to a file" "$good" "" "$room/480.flat" "$room/link.wav" <"$good"

# At the end of a run that went well the head is put right: where the size was unknown, from a pipe, and where samples are
# missing. The bytes of the samples are 9600 and 8600, and those that follow the first eight 9636 and 8636.
righted() { # NAME SIZES TOLD STRIP SAMPLES: the file is standard input, the samples that are due have the head's 44 bytes before them
    kept "$4" "$out" < <(cat)
    same "recording: $1: what is told, and said at the end" "$3 $(end_of "$3")" "$(cat "$room/err") $(cat "$room/end")"
    same "recording: $1: the sizes in the head" "$2" "$(sizes "$out")"
    same_file "recording: $1: the rest of the head" <(head -c 40 "$5" | tail -c +9) <(head -c 40 "$out" | tail -c +9)
    same_file "recording: $1: the samples" <(tail -c +45 "$5") <(tail -c +45 "$out")
}
righted "ffmpeg's size, and a named output" "9600 9636" "" "$room/480.flat" "$good" < <(wav --samples 4800 --size 4294967295)
righted "sox's size, and a named output" "9600 9636" "" "$room/480.flat" "$good" < <(wav --samples 4800 --size 2147479552)
wav --rate 8000 --channels 3 --samples 793 >"$room/three.wav"
righted "sox's size of three channels, and a named output" "4758 4794" "" "$room/80.flat" "$room/three.wav" \
    < <(wav --rate 8000 --channels 3 --samples 793 --size 2147479548)
head -c $((44 + 8600)) "$good" >"$room/8600.wav"
righted "a recording that is cut, and a named output" "8600 8636" "$(missing 1000)" "$room/480.flat" "$room/8600.wav" <"$room/cut.wav"
righted "a recording that is cut inside a sample, and a named output" "8600 8636" "$(missing 1000)" "$room/480.flat" "$room/8600.wav" < <(wav --samples 4800 --short 999)
righted "a recording without one of its samples, and a named output" "0 36" "$(missing 9600)" "$room/none.flat" "$room/empty.wav" < <(head -c 44 "$good")
righted "no sample of an unknown size, and a named output" "0 36" "" "$room/none.flat" "$room/empty.wav" < <(wav --samples 0 --size 4294967295)
righted "a size that is true, and a named output" "9600 9636" "recording: the recording ends before the strip, which goes on with record 11" <(flat 11 480) "$good" <"$good"
righted "gaps, ffmpeg's size, and a named output" "9600 9636" "" <(two 4 480 G 5N 2G 5N G) "$good" < <(wav --samples 4800 --size 4294967295)
# Where the run did not go well the head stays as it was.
flat 9 480 >"$room/nine.flat"
head -c $((44 + 8640)) "$good" >"$room/8640.wav"
righted "a strip that ends, and a named output" "4294967295 4294967295" "recording: the strip ends before the recording, which goes on: there is no record 10" \
    "$room/nine.flat" "$room/8640.wav" < <(wav --samples 4800 --size 4294967295)
righted "a record that is refused, and a named output" "4294967295 4294967295" "10 R 5" \
    <(head -c 240 "$room/480.flat") "$room/8640.wav" < <(wav --samples 4800 --size 4294967295)
# Standard output is not sought, though it be a file: it gets the size that came in.
kept "$room/480.flat" < <(wav --samples 4800 --size 4294967295)
same "recording: ffmpeg's size, and standard output: it stays, and 0 is said at the end" "4294967295 4294967295 0" "$(sizes "$room/got") $(cat "$room/end")"
kept "$room/480.flat" <"$room/cut.wav"
same "recording: a recording that is cut, and standard output: the size stays" "9600 9636 " "$(sizes "$room/got") $(cat "$room/end")"
# A pipe with a name can not be sought: it gets every byte once.
mkfifo "$room/out.fifo"
cat "$room/out.fifo" >"$room/piped" &
kept "$room/480.flat" "$room/out.fifo" < <(wav --samples 4800 --size 4294967295)
wait $!
same "recording: a pipe as the output: nothing is told, and 0 is said at the end" " 0" "$(cat "$room/err") $(cat "$room/end")"
same_file "recording: a pipe as the output: every byte, once" <(wav --samples 4800 --size 4294967295 | head -c 40; printf '\xff\xff\xff\xff'; tail -c +45 "$good") \
    <(head -c 4 "$room/piped"; printf '\xa4\x25\0\0'; tail -c +9 "$room/piped")

# An output that can not be made, and one that stays as it was since the run is refused before.
refuses "an output in a folder that is not there" "the output: No such file or directory" "$room/480.flat" "$room/nowhere/out.wav" <"$good"
refuses "a folder as the output" "the output: Is a directory" "$room/480.flat" "$room" <"$good"
refuses "an empty word for the output" "the output: No such file or directory" "$room/480.flat" "" <"$good"
stays() { # NAME LINE STRIP: the file is standard input
    echo "not a byte of this" >"$out"
    refuses "$1, and a named output" "$2" "$3" "$out"
    same "recording: $1: the named output stays as it was" "not a byte of this" "$(cat "$out")"
    rm "$out"
    kept "$3" "$out" <"$good"
}
stays "a text" "not a WAV file" "$room/480.flat" <README.md
stays "samples of 24 bits" "the samples are not 16-bit PCM" "$room/480.flat" < <(wav --bits 24 --group 3)
stays "44100 Hz" "10 ms at 44100 Hz are no whole frame: 8000, 12000, 16000, 24000, 32000 or 48000 Hz can be levelled: sox in.wav -r 48000 out.wav makes such a file" \
    "$room/480.flat" < <(wav --rate 44100)
stays "another rate than the strip's" "the strip has 480 samples a frame, and the recording 160" "$room/480.flat" < <(wav --rate 16000)
stays "a strip of another version" "0 R 7" "$good" <"$good"
stays "no such strip" "the strip: No such file or directory" "$room/nothing" <"$good"

# A disk that is full: it is told, and nothing is said at the end. Where root may mount one, a small disk, on which the head has
# room, and not the samples.
full() { # NAME OUT: at OUT there is no room
    kept "$room/480.flat" "$2" <"$good"
    same "recording: $1: what is told, and said at the end" "recording: the output: No space left on device " "$(cat "$room/err") $(cat "$room/end")"
}
full "an output that is full" /dev/full
mkdir "$room/disk"
if mount -t tmpfs -o size=8k none "$room/disk" 2>/dev/null; then
    full "a small disk" "$room/disk/out.wav"
    same_file "recording: a small disk: what had room" <(head -c "$(wc -c <"$room/disk/out.wav")" "$good") "$room/disk/out.wav"
    same "recording: a small disk: it is full" yes "$([ "$(wc -c <"$room/disk/out.wav")" -ge 4096 ] && echo yes || echo no)"
    umount "$room/disk"
fi
run "$room/480.flat" <"$good" >/dev/full 2>"$room/err" 3>"$room/end"
same "recording: standard output that is full" "recording: standard output: No space left on device " "$(cat "$room/err") $(cat "$room/end")"
run "$room/480.flat" <"$good" >&- 2>"$room/err" 3>"$room/end"
same "recording: no standard output" "recording: standard output: Bad file descriptor " "$(cat "$room/err") $(cat "$room/end")"
run "$room/480.flat" "$out" <"$good" >&- 2>"$room/err" 3>"$room/end"
same "recording: no standard output, and a named one" " 0" "$(cat "$room/err") $(cat "$room/end")"
same_file "recording: no standard output, and a named one: the output" "$good" "$out"
run "$room/480.flat" "$out" <"$good" 2>&- 3>"$room/end"
same "recording: no standard error, and a named output" 0 "$(cat "$room/end")"
same_file "recording: no standard error, and a named output: the output" "$good" "$out"
run "$room/480.flat" "$out" <"$good" >&- 2>&- 3>"$room/end"
same "recording: neither standard output nor standard error: nothing is said at the end, and the output is empty" " 0" "$(cat "$room/end") $(wc -c <"$out")"
run "$room/480.flat" "$out" <"$good" 3>&- 2>"$room/err"
same "recording: nobody listens at the end: nothing is told" "" "$(cat "$room/err")"
same_file "recording: nobody listens at the end: the output" "$good" "$out"

# A disk that takes what is written, and fails once all is written, as it may where it is far away: the kernel is told to refuse the
# call by which the program asks whether all is kept, where it can be. Only the program itself may be filtered, so it is started here.
settles() { # NAME TOLD DUE WRITTEN WORDS..: what is due is written in spite of it
    local name=$1 told=$2 due=$3 written=$4
    shift 4
    python - "$good" "$@" <<'SETTLES' >"$room/got" 2>"$room/err" 3>"$room/end"
import ctypes, os, platform, struct, sys
source, words = sys.argv[1], sys.argv[2:]
# A filter of system calls: fdatasync fails with EIO, and all else goes through.
code = [(0x20, 0, 0, 0), (0x15, 0, 1, 75), (0x06, 0, 0, 0x00050005), (0x06, 0, 0, 0x7FFF0000)]
filter = ctypes.create_string_buffer(b"".join(struct.pack("=HBBI", *line) for line in code))
program = ctypes.create_string_buffer(struct.pack("@HP", len(code), ctypes.addressof(filter)))
libc = ctypes.CDLL(None, use_errno=True)
os.dup2(os.open(source, os.O_RDONLY), 0)
if platform.machine() != "x86_64" or libc.prctl(38, 1, 0, 0, 0) or libc.prctl(22, 2, program, 0, 0):
    sys.exit("not tried")
start = "crates/recording/out/recording"
os.execv(start, [start] + words)
SETTLES
    if [ "$(cat "$room/err")" = "not tried" ]; then
        echo "ok recording: $name: not tried, since this system does not filter its system calls"
    else
        same "recording: $name: what is told, and said at the end" "$told " "$(cat "$room/err") $(cat "$room/end")"
        same_file "recording: $name: all was written" "$due" "$written"
    fi
}
settles "a disk of standard output that fails at the end" "recording: standard output: Input/output error" "$good" "$room/got" "$room/480.flat"
settles "a disk of a named output that fails at the end" "recording: the output: Input/output error" "$good" "$out" "$room/480.flat" "$out"

# A program that is killed says nothing at the end, however much it has written.
mkfifo "$room/kill"
rm "$out"
written() { wc -c <"${word:-$room/got}" 2>/dev/null || echo 0; }
for word in "" "$out"; do
    tests/run-program recording "$room/480.flat" ${word:+"$word"} <"$room/kill" >"$room/got" 2>"$room/err" 3>"$room/end" &
    program=$!
    exec 4>"$room/kill"
    head -c $((44 + 4800)) "$good" >&4
    for ((i = 0; i < 600; i++)); do
        [ "$(written)" -ge $((44 + 4800)) ] && break
        sleep 0.05
    done
    { kill -9 "$program" && wait "$program"; } 2>/dev/null
    exec 4>&-
    same "recording: killed${word:+, with a named output}: nothing is said at the end" "4844 " "$(written) $(cat "$room/end")"
done

# Two minutes of sound, 12,000 frames of 40 samples: it tells each minute, and the memory that it has used is the same
# at the end as after a second.
flat 12000 40 >"$room/long.strip"
wav --rate 4000 --samples 480000 --loud 3000 >"$room/long.wav"
used() { sed -n 's/^VmHWM:[^0-9]*\([0-9]*\) kB/\1/p' "/proc/$program/status"; }
mkfifo "$room/in"
tests/run-program recording "$room/long.strip" <"$room/in" >"$room/got" 2>"$room/err" 3>"$room/end" &
program=$!
exec 3>"$room/in"
# The memory that is used once so many bytes are written.
used_at() { # BYTES
    for ((i = 0; i < 600; i++)); do
        if [ "$(wc -c <"$room/got")" -ge "$1" ]; then
            used
            return
        fi
        sleep 0.05
    done
}
head -c 8044 "$room/long.wav" >&3
before=$(used_at 8044)
head -c 959964 "$room/long.wav" | tail -c +8045 >&3
after=$(used_at 959964)
tail -c 80 "$room/long.wav" >&3
exec 3>&-
wait "$program"
same "recording: two minutes end with status 0" 0 $?
same "recording: two minutes are told one by one, and 0 is said at the end" "recording: 1 min recording: 2 min 0" "$(paste -sd' ' "$room/err") $(cat "$room/end")"
same_file "recording: two minutes: every byte" "$room/long.wav" "$room/got"
kept <(two 4 40 3000G 6000N 3000G 6000N) <"$room/long.wav"
same "recording: two minutes, and gaps, which do not count for them" "recording: 1 min recording: 2 min 0" "$(paste -sd' ' "$room/err") $(cat "$room/end")"
same_file "recording: two minutes, and gaps: every byte" "$room/long.wav" "$room/got"
if [ -n "$before" ] && [ -n "$after" ] && [ "$after" -le $((before + 500)) ]; then
    echo "ok recording: two minutes take no more memory than a second ($before kB, $after kB)"
else
    echo "not ok recording: two minutes take no more memory than a second ($before kB, $after kB)"
fi

# Without a word it meters: twelve bytes with the samples of 10 ms, the channels and the size that the file says, and then for
# each 10 ms twelve, the largest sum of the squares of a channel and the largest magnitude.
metering() { # FILE [SIZE]: what is due of a file with a head of 44 bytes; the size that it says, where that is another
    python - "$@" <<'METERING'
import struct, sys
file = open(sys.argv[1], "rb").read()
channels, rate = struct.unpack_from("<HI", file, 22)
size = int(sys.argv[2]) if len(sys.argv) > 2 else struct.unpack_from("<I", file, 40)[0]
whole = len(file[44:]) // (2 * channels) * channels
sound = struct.unpack(f"<{whole}h", file[44 : 44 + 2 * whole])
write = sys.stdout.buffer.write
write(struct.pack("<III", rate // 100, channels, size))
part = rate // 100 * channels
for at in range(0, len(sound), part):
    now = sound[at : at + part]
    square = max(sum(x * x for x in now[c::channels]) for c in range(channels))
    write(struct.pack("<QI", square, max(abs(x) for x in now)))
METERING
}
meters() { # NAME TOLD DUE: the file is standard input
    kept
    same "recording: a metering of $1: what is told, and said at the end" "$2 $(end_of "$2")" "$(cat "$room/err") $(cat "$room/end")"
    same_file "recording: a metering of $1" "$3" "$room/got"
}
wav --rate 4000 --channels 2 --samples 1015 --seed 3 >"$room/in.wav"
meters "the stored WAV file" "" <(metering "$room/in.wav") <crates/recording/stdin
for channels in 1 2 3 8; do
    wav --rate 8000 --channels $channels --samples 793 --seed $channels --loud 32767 --last -32768 >"$room/in.wav"
    meters "$channels channels, and a short last frame" "" <(metering "$room/in.wav") <"$room/in.wav"
    meters "$channels channels of ffmpeg's size" "" <(metering "$room/in.wav" 4294967295) \
        < <(head -c 40 "$room/in.wav"; printf '\xff\xff\xff\xff'; tail -c +45 "$room/in.wav")
done
meters "a whole number of frames" "" <(metering "$good") <"$good"
meters "a file in pieces" "" <(metering "$good") < <(pieces "$good" 1 3 9 5003)
meters "an extended format with a mask" "" <(metering "$good") < <(wav --samples 4800 --extended --mask 4 --odd-list)
meters "chunks after the samples" "" <(metering "$good") < <(wav --samples 4800 --late)
meters "a size that is no whole number of samples" "" <(metering "$good" 9601) < <(wav --samples 4800 --size 9601)
meters "sox's size" "" <(metering "$good" 2147479552) < <(wav --samples 4800 --size 2147479552)
meters "a file without samples" "" <(metering "$room/empty.wav") <"$room/empty.wav"
meters "a size of 0, and samples" "$none" <(metering "$room/empty.wav") < <(wav --samples 4800 --size 0)
meters "a recording that is cut" "$(missing 1000)" <(metering "$room/8600.wav" 9600) <"$room/cut.wav"
meters "a recording that is cut inside a sample" "$(missing 1000)" <(metering "$room/8600.wav" 9600) < <(wav --samples 4800 --short 999)
refuses "a metering of a text" "not a WAV file" <README.md
refuses "a metering of nothing" "not a WAV file" </dev/null
refuses "a metering of a folder" "standard input: Is a directory" <.
refuses "a metering of a file that ends after its start" "the WAV file ends before its samples" < <(head -c 12 "$good")
refuses "a metering of samples before the format" "the WAV file does not say its format before its samples" < <(head -c 12 "$good"; printf 'data\x02\0\0\0\0\0')
refuses "a metering of a format of 15 bytes" "the format of the WAV file has fewer than 16 bytes" < <(wav --format-bytes 15)
refuses "a metering of samples of 24 bits" "the samples are not 16-bit PCM" < <(wav --bits 24 --group 3)
refuses "a metering of a group of samples that is too long" "the samples of the channels do not lie side by side, in two bytes each" < <(wav --group 4)
refuses "a metering of nine channels" "the sound has 9 channels: 1 to 8 can be levelled" < <(wav --channels 9)
refuses "a metering at 44100 Hz" "10 ms at 44100 Hz are no whole frame: 8000, 12000, 16000, 24000, 32000 or 48000 Hz can be levelled: sox in.wav -r 48000 out.wav makes such a file" \
    < <(wav --rate 44100)
# Each record is written as soon as its sound came.
metering "$good" >"$room/due"
tests/run-program recording <"$room/kill" >"$room/got" 2>"$room/err" 3>"$room/end" &
program=$!
exec 4>"$room/kill"
head -c 44 "$good" >&4
for frame in 0 1 2 3; do
    for ((i = 0; i < 600; i++)); do
        [ "$(wc -c <"$room/got")" -ge $((12 + 12 * frame)) ] && break
        sleep 0.05
    done
    same_file "recording: a metering as the sound comes: after $frame frames" <(head -c $((12 + 12 * frame)) "$room/due") "$room/got"
    tail -c +$((45 + 960 * frame)) "$good" | head -c 960 >&4
done
{ kill -9 "$program" && wait "$program"; } 2>/dev/null
exec 4>&-
same "recording: a metering that is killed: nothing is said at the end" "" "$(cat "$room/end")"
# What can not be read or written.
head -c $((44 + 2900)) "$good" >"$room/bytes"
python - "$room/bytes" <<'FAILS' >"$room/got" 2>"$room/err" 3>"$room/end"
import os, subprocess, sys
source, sink = os.pipe()
os.set_blocking(source, False)
os.write(sink, open(sys.argv[1], "rb").read())
subprocess.run(["tests/run-program", "recording"], stdin=source, pass_fds=[3])
FAILS
same "recording: a metering with a read that fails: what is told, and said at the end" "recording: standard input: Resource temporarily unavailable " "$(cat "$room/err") $(cat "$room/end")"
same_file "recording: a metering with a read that fails: what came before it" <(head -c 48 "$room/due") "$room/got"
run <"$good" >/dev/full 2>"$room/err" 3>"$room/end"
same "recording: a metering on a full disk" "recording: standard output: No space left on device " "$(cat "$room/err") $(cat "$room/end")"
run <"$good" >&- 2>"$room/err" 3>"$room/end"
same "recording: a metering without standard output" "recording: standard output: Bad file descriptor " "$(cat "$room/err") $(cat "$room/end")"
settles "a metering with a disk that fails at the end" "recording: standard output: Input/output error" "$room/due" "$room/got"

# Hours, each with a loud chunk behind the samples, which is not heard: one hour of sound that is levelled, and the largest recording
# whose size is known, metered. The silence of that is a hole in a file, which takes no room and is read fastest where files lie in
# memory. They are not made where an emulator runs the program, since it would take minutes.
loud_chunk() { printf 'LIST\x30\x75\0\0' && head -c 30000 /dev/zero | tr '\0' '\177'; }
if [ "$(uname -m)" = x86_64 ]; then
    size=57600000
    python -c 'import sys; strip = open(sys.argv[1], "rb").read(); sys.stdout.buffer.write(strip[:26] + strip[26:48] * 360000)' "$room/80.flat" >"$room/hour.flat"
    { wav --rate 8000 --samples 0 --size $size && yes ABCDEFG 2>/dev/null | head -c $size; } >"$room/hour.wav"
    cat "$room/hour.wav" <(loud_chunk) | run "$room/hour.flat" 2>"$room/err" 3>"$room/end" | cmp -i 44 - "$room/hour.wav" >"$room/apart" 2>&1
    same "recording: an hour at 8000 Hz, and a chunk behind it: every sample as it was, and no more" "" "$(cat "$room/apart")"
    same "recording: an hour at 8000 Hz: what is told, and said at the end" "recording: 60 min 0" "$(tail -n 1 "$room/err") $(cat "$room/end")"
    rm "$room/hour.wav"
    hours=$(mktemp /dev/shm/murzicanu.XXXXXX 2>/dev/null || mktemp)
    size=4294967294
    wav --channels 3 --samples 0 --size $size >"$hours"
    truncate -s $((44 + size)) "$hours"
    loud_chunk >>"$hours"
    kept <"$hours"
    same "recording: a metering of three channels of $size bytes: what is told, and said at the end" " 0" "$(cat "$room/err") $(cat "$room/end")"
    same "recording: a metering of three channels of $size bytes: a record for each 10 ms, and all are silent" \
        "$((12 + 12 * ((size - size % 6 + 2879) / 2880))) 0" "$(wc -c <"$room/got") $(tail -c +13 "$room/got" | tr -d '\0' | wc -c)"
    rm "$hours"
fi

# As a volunteer runs it.
status() { "$@" >/dev/null 2>&1; echo $?; }
./level recording "$room/480.flat" <"$good" >"$room/got" 2>"$room/err"
same "recording: ./level ends with status 0" 0 $?
same_file "recording: ./level recording" "$good" "$room/got"
(cd "$room" && "$OLDPWD/level" recording 480.flat <good.wav >got 2>/dev/null)
same_file "recording: ./level recording from another folder" "$good" "$room/got"
./level recording "$room/long.strip" <"$room/long.wav" >/dev/null 2>"$room/err"
same "recording: ./level ends with status 0 where only minutes are told" "0 recording: 1 min recording: 2 min" "$? $(paste -sd' ' "$room/err")"
same "recording: ./level ends with status 0 where gaps come behind the last frame" 0 "$(status ./level recording "$room/gaps.two" <"$room/ten.wav")"
same "recording: ./level ends with status 1 where the recording is cut" 1 "$(status ./level recording "$room/480.strip" <"$room/cut.wav")"
same "recording: ./level ends with status 2 where there is no such strip" 2 "$(status ./level recording "$room/nothing" <"$good")"
same "recording: ./level ends with status 1 where the strip is too long" 1 "$(status ./level recording "$room/long.strip" < <(wav --rate 4000))"
same "recording: ./level ends with status 2 without a strip" 2 "$(status ./level recording)"
./level recording "$room/480.strip" <"$good" >/dev/full 2>"$room/err"
same "recording: a full disk" "1 recording: standard output: No space left on device" "$? $(cat "$room/err")"
./level recording "$room/480.strip" <"$good" >&- 2>/dev/null
same "recording: ./level ends with status 1 where there is no standard output" 1 $?
./level recording "$room/long.strip" <"$room/long.wav" 2>"$room/err" | head -c 0
same "recording: a reader that is gone" "1 recording: standard output: Broken pipe" "${PIPESTATUS[0]} $(cat "$room/err")"

# The cough.
examples/cough >"$room/said" 2>"$room/err"
same "cough: one of 80 ms leaves every other sample as it is, and one of 200 ms does not" 0 $?
cat "$room/said"
