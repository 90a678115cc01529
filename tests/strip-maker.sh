#!/usr/bin/env bash
# The tool tools/strip-maker, as a volunteer runs it.
cd "$(dirname "$0")/.." || exit 1
. tests/check.bash
# Python starts more than a hundred times: the one that is found, without a wrapper in front of it.
PATH=$(dirname "$(python3 -c 'import os, sys; print(os.path.realpath(sys.executable))')"):$PATH
room=$(mktemp -d)
trap 'rm -rf "$room"' EXIT

to_strip() { tools/strip-maker to-strip; }
to_lines() { tools/strip-maker to-lines; }
# The bytes that these digits say, two for each.
hex() { # DIGITS..
    local digits="$*" all=
    digits=${digits// /}
    for ((; ${#digits} > 0; )); do
        all+="\\x${digits:0:2}"
        digits=${digits:2}
    done
    printf "$all"
}

# A call that must fail: status 1, this message and nothing else, and no byte on standard output.
refused() { # NAME MESSAGE COMMAND..
    "${@:3}" >"$room/out" 2>"$room/err"
    same "strip-maker: $1" "status 1, 0 bytes, $2" "status $?, $(wc -c <"$room/out") bytes, $(<"$room/err")"
}

to_strip <examples/service.txt >"$room/strip"
same_file "strip-maker: the example's lines make the example's strip" examples/service.strip "$room/strip"
# A figure is shown as it was typed, without zeros at its end.
same "strip-maker: the example's strip shows the figures that were typed" \
    "$(sed '1,/^head/d' examples/service.txt | grep '^[0-9]' | sed -E 's/(\.[0-9]*[1-9])0+( |$)/\1\2/g; s/\.0+( |$)/\1/g')" \
    "$(to_lines <examples/service.strip | sed 1,2d)"
same "strip-maker: the paper's strip as lines" "$(cat <<'LINES'
head threshold 2 samples 480 headroom 5 largest-gain 50 initial-gain 15 change-per-second 6 output-noise -50
# probability rms peak noise envelope
0 -60 -60 -90 -90
1 -10 -5 -90 -90
0 -60 -60 -90 -90
1 -40 0 -90 -90
1 -40 0 -90 -90
LINES
)" "$(to_lines <tests/strips/paper.strip)"

# Each of tests/strips: to lines and back gives its bytes; one that is refused is told by its record, its
# number, and what that number means.
means=([1]="the samples are not 40 to 480 in a multiple of 20" [2]="a figure is not a number, or is out of range"
    [4]="a setting is not a number, is out of range, or is a negative zero" [5]="the strip ends inside it"
    [6]="its length is not what it must be" [7]="the version is neither 1 nor 2")
for strip in tests/strips/*.strip; do
    name=$(basename "$strip" .strip)
    last=$(tail -n 1 "tests/strips/$name.lines")
    case $last in
    "0 R "*) refused "$name" "the head is refused with ${last##* }: ${means[${last##* }]}" to_lines <"$strip" ;;
    *" R "*) refused "$name" "record ${last%% *} is refused with ${last##* }: ${means[${last##* }]}" to_lines <"$strip" ;;
    *)
        to_lines <"$strip" >"$room/lines"
        to_strip <"$room/lines" >"$room/strip"
        same_file "strip-maker: $name, to lines and back" "$strip" "$room/strip"
        ;;
    esac
done

# Both versions. The settings of a head, a record, and what a line says of them.
usual=40a00000424800004170000040c00000c2480000
reading=00143f800000c220000000000000c2b40000c2b40000
settings="headroom 5 largest-gain 50 initial-gain 15 change-per-second 6 output-noise -50"
# Lines make these bytes, and the bytes say the lines again: without the version where it is the usual one.
both_ways() { # WORDS HEAD: the words before the samples, and the head's bytes before them
    { hex "$2" 01e0 $usual $reading; } >"$room/due"
    printf '%s\n' "head $1 samples 480" "1 -40 0 -90 -90" | to_strip >"$room/strip"
    same_file "strip-maker: 'head $1 samples 480' makes the bytes $2" "$room/due" "$room/strip"
    same "strip-maker: and they say '$1' again" \
        "head $1 samples 480 $settings, # probability rms peak noise envelope, 1 -40 0 -90 -90" "$(to_lines <"$room/due" | paste -sd, | sed 's/,/, /g')"
}
both_ways "threshold 1" "0018 01 01"
both_ways "threshold 200" "0018 01 c8"
both_ways "threshold 201" "0019 02 00c9"
both_ways "threshold 256" "0019 02 0100"
both_ways "threshold 3000" "0019 02 0bb8"
both_ways "version 2 threshold 1" "0019 02 0001"
both_ways "version 2 threshold 200" "0019 02 00c8"
# The version may stand anywhere in the head, and may be the usual one.
asked() { # WORDS HEAD
    same "strip-maker: 'head $1' makes the head $2" "${2// /} 01e0 $usual" \
        "$(echo "head $1" | to_strip | od -An -v -tx1 | tr -d ' \n' | sed 's/01e0/ 01e0 /')"
}
asked "threshold 12 samples 480 version 1" "0018 01 0c"
asked "headroom 5, version 2, samples 480, threshold 3000" "0019 02 0bb8"
# Heads of each version that are refused, in the order 5, 7, 6, 5, 1, 4. A record follows them.
head_bytes() { # NAME REPLY DIGITS
    refused "$1" "the head is refused with $2: ${means[$2]}" to_lines < <(hex "$3")
}
head_bytes "two bytes of version 2" 5 "0019"
for version in 00 03 ff; do
    head_bytes "version $version, with the length of version 2" 7 "0019 $version 000c 01e0 $usual $reading"
    head_bytes "version $version, with no length" 7 "0000 $version"
done
head_bytes "version 2 with the length of version 1" 6 "0018 02 0c 01e0 $usual $reading"
head_bytes "version 1 with the length of version 2" 6 "0019 01 000c 01e0 $usual $reading"
head_bytes "version 2 with the length of version 1, and cut" 6 "0018 02"
head_bytes "version 2, its head cut after 3 bytes" 5 "0019 02"
head_bytes "version 2, its head cut after 26 bytes" 5 "0019 02 000c 01e0 ${usual::38}"
head_bytes "version 2 with 20 samples and the threshold 0" 1 "0019 02 0000 0014 $usual $reading"
for threshold in 0000 0bb9 0cb8 8001 ffff; do
    head_bytes "version 2 with the threshold $threshold" 4 "0019 02 $threshold 01e0 $usual $reading"
done
for threshold in 00 c9 ff; do
    head_bytes "version 1 with the threshold $threshold" 4 "0018 01 $threshold 01e0 $usual $reading"
done
head_bytes "version 2 with a negative zero" 4 "0019 02 000c 01e0 80000000 ${usual:8} $reading"
# Records of figures are the same in both versions, and have 22 bytes.
record_bytes() { # NAME REPLY DIGITS
    refused "version 2: $1" "record 2 is refused with $2: ${means[$2]}" to_lines < <(hex "0019 02 0bb8 01e0 $usual $reading" "$3")
}
record_bytes "a record of one byte" 5 "00"
record_bytes "a record of the length 1" 6 "0001 $reading"
record_bytes "a record that is cut" 5 "${reading::42}"
record_bytes "a record whose probability is above 1" 2 "0014 3f800001 ${reading:12}"

# Gaps. A line `gap` is the two bytes of a length of 0, wherever it stands, and makes version 2 where no other is asked for. A file
# and a pipe give the same bytes, and the bytes say the lines again.
as_lines() { # ENTRIES: r is a record, g a gap
    for ((i = 0; i < ${#1}; i++)); do
        if [ "${1:i:1}" = g ]; then echo gap; else echo "1 -40 0 -90 -90"; fi
    done
}
as_digits() { # ENTRIES
    local all=${1//r/$reading}
    echo "${all//g/0000}"
}
with_gaps() { # WORDS ENTRIES HEAD [WORDS-THAT-ARE-SHOWN]
    hex "$3" 01e0 $usual "$(as_digits "$2")" >"$room/due"
    { echo "head $1 samples 480" && as_lines "$2"; } >"$room/lines"
    to_strip <"$room/lines" >"$room/strip"
    same_file "strip-maker: '$1' and $2, from a file" "$room/due" "$room/strip"
    cat "$room/lines" | to_strip >"$room/strip"
    same_file "strip-maker: '$1' and $2, through a pipe" "$room/due" "$room/strip"
    same "strip-maker: and they say '${4-$1}' and $2 again" \
        "head ${4-$1} samples 480 $settings
# probability rms peak noise envelope
$(as_lines "$2")" "$(to_lines <"$room/due")"
    to_lines <"$room/due" | to_strip >"$room/strip"
    same_file "strip-maker: and these lines make the bytes" "$room/due" "$room/strip"
}
for entries in g gr rg rgr gg ggrr rrgg rggrgrg; do with_gaps "threshold 12" $entries "0019 02 000c"; done
with_gaps "threshold 1" rgr "0019 02 0001"
with_gaps "threshold 200" rgr "0019 02 00c8"
with_gaps "threshold 201" rgr "0019 02 00c9"
with_gaps "threshold 3000" rgr "0019 02 0bb8"
# A gap says the version by itself: it is shown only where nothing else says it.
with_gaps "version 2 threshold 12" rgr "0019 02 000c" "threshold 12"
with_gaps "version 2 threshold 12" rr "0019 02 000c"
with_gaps "version 2 threshold 201" rr "0019 02 00c9" "threshold 201"
with_gaps "threshold 12" rr "0018 01 0c"
with_gaps "version 1 threshold 12" rr "0018 01 0c" "threshold 12"
# What a line with a gap may look like.
hex "0019 02 000c 01e0 $usual $reading 0000 $reading" >"$room/due"
for line in 'gap\n' '  gap \t\n' 'gap\r\n' 'gap # the meter was off\n' 'gap#\n' '\n# a note\ngap\n\n'; do
    printf "head threshold 12 samples 480\n1 -40 0 -90 -90\n${line}1 -40 0 -90 -90" | to_strip >"$room/strip"
    same_file "strip-maker: a gap typed as '$line'" "$room/due" "$room/strip"
done
hex "0019 02 000c 01e0 $usual $reading 0000" >"$room/due"
printf 'head threshold 12 samples 480\n1 -40 0 -90 -90\ngap' >"$room/lines"
to_strip <"$room/lines" >"$room/strip"
same_file "strip-maker: a gap that nothing ends, from a file" "$room/due" "$room/strip"
cat "$room/lines" | to_strip >"$room/strip"
same_file "strip-maker: a gap that nothing ends, through a pipe" "$room/due" "$room/strip"
# A gap where version 1 is asked for, and what is no gap, by its line: from a file and through a pipe.
no_gap() { # LINE MESSAGE LINES
    printf "$3" >"$room/lines"
    refused "$2, from a file" "line $1: $2" to_strip <"$room/lines"
    refused "$2, through a pipe" "line $1: $2" to_strip < <(cat "$room/lines")
}
no_gap 3 "version 1 cannot say a gap" 'head version 1 threshold 12 samples 480\n1 -40 0 -90 -90\ngap\n'
no_gap 2 "version 1 cannot say a gap" 'head threshold 12 samples 480 version 1\ngap\n'
no_gap 1 "the first line is the head, for example: head threshold 12 samples 480" 'gap\nhead threshold 12 samples 480\n'
no_gap 2 "a gap stands alone on its line" 'head threshold 12 samples 480\ngap gap\n'
no_gap 2 "a gap stands alone on its line" 'head threshold 12 samples 480\ngap 1 -40 0 -90 -90\n'
no_gap 2 "a gap stands alone on its line" 'head threshold 12 samples 480\ngap,\n'
no_gap 2 "a record has five figures, this line has 1" 'head threshold 12 samples 480\nGAP\n'
no_gap 2 "a record has five figures, this line has 1" 'head threshold 12 samples 480\ngaps\n'
no_gap 2 "a record has five figures, this line has 6" 'head threshold 12 samples 480\n1 -40 0 -90 -90 gap\n'
# Where the version is not known yet nothing is written of a wrong line, nor of those before it.
no_gap 3 "the peak 70 is not from -150 to 50" 'head threshold 12 samples 480\n1 -40 0 -90 -90\n1 -40 70 -90 -90\ngap\n'
# Strips: a gap is no record of version 1, and one that is cut is none of version 2.
strip_bytes() { # NAME RECORD REPLY DIGITS
    refused "$1" "record $2 is refused with $3: ${means[$3]}" to_lines < <(hex "$4")
}
strip_bytes "a gap in version 1" 2 6 "0018 01 0c 01e0 $usual $reading 0000 $reading"
strip_bytes "a gap in version 1, as its only record" 1 6 "0018 01 0c 01e0 $usual 0000"
strip_bytes "a gap that is cut" 3 5 "0019 02 000c 01e0 $usual $reading 0000 00"
strip_bytes "a wrong record behind gaps" 5 2 "0019 02 000c 01e0 $usual 0000 $reading 0000 0000 0014 3f800001 ${reading:12}"
strip_bytes "a cut record behind a gap" 2 5 "0019 02 000c 01e0 $usual 0000 ${reading::42}"
strip_bytes "figures whose length is left out behind a gap" 2 6 "0019 02 000c 01e0 $usual 0000 ${reading:4}"

# Any figures: bits by chance, and whatever of them is accepted.
python3 - >"$room/any" <<'END_OF_PYTHON'
import random, struct, sys
random.seed(1)
strip = open("tests/strips/paper.strip", "rb").read(26)
for _ in range(1000):
    bits = []
    for low, high in [(0, 1), (-149.99, 49.99), (-150, 50), (-150, 50), (-150, 100)]:
        figure = struct.pack(">I", random.choice([0x80000000, 1, random.getrandbits(32), random.getrandbits(31)]))
        if not low <= struct.unpack(">f", figure)[0] <= high:
            figure = struct.pack(">f", random.uniform(low, high))
        bits.append(figure)
    strip += b"\0\x14" + b"".join(bits)
sys.stdout.buffer.write(strip)
END_OF_PYTHON
to_lines <"$room/any" >"$room/lines"
to_strip <"$room/lines" >"$room/strip"
same_file "strip-maker: a thousand records of any bits, to lines and back" "$room/any" "$room/strip"
same "strip-maker: no decimal that it writes has an exponent" 0 "$(sed 1,2d "$room/lines" | grep -c '[^-0-9. ]')"

# What a line may look like: each of these is the paper's second record.
lines() { printf -- "head threshold 2 samples 480\n$1"; }
head -c 26 tests/strips/paper.strip >"$room/one"
tail -c +49 tests/strips/paper.strip | head -c 22 >>"$room/one"
for line in '1 -10 -5 -90 -90\n' '1,-10,-5,-90,-90\n' '1\t-10\t-5\t-90\t-90\n' ' 1 , -10,  -5 ,-90\t -90 \n' \
    '1 -10 -5 -90 -90\r\n' '1 -10 -5 -90 -90' '1 -10 -5 -90 -90 # a cough' '\n\r\n# a note\n  \n1 -10 -5 -90 -90\n\n' \
    '+1 -10.0 -5. -9e1 -90.00000000001\n' '1 -1E+1 -.5e1 -90 -900e-1\n'; do
    lines "$line" | to_strip >"$room/strip"
    same_file "strip-maker: a record typed as '$line'" "$room/one" "$room/strip"
done
printf '\r\n# all settings\r\nhead output-noise -50, samples 480,headroom\t5 change-per-second 6 initial-gain 15 threshold 2 largest-gain 50\r\n1 -10 -5 -90 -90' |
    to_strip >"$room/strip"
same_file "strip-maker: the settings in another order, and lines that end as on Windows" "$room/one" "$room/strip"
{ printf '\xef\xbb\xbf'; lines '1 -10 -5 -90 -90\n# \xe9t\xe9\n'; } | to_strip >"$room/strip"
same_file "strip-maker: a mark before the first line, and a note in other letters" "$room/one" "$room/strip"
head -c 26 tests/strips/paper.strip >"$room/one"
lines '' | to_strip >"$room/strip"
same_file "strip-maker: a head alone" "$room/one" "$room/strip"

figures() { lines "$1" | to_strip | tail -c 20 | od -An -v -tx1 | tr -d ' \n'; }
same "strip-maker: a negative zero stays one" "8000000080000000000000008000000080000000" "$(figures '-0 -0.0 0 -0e5 -1e-60\n')"
# The middle of the two floats from 1: the even one; what lies above it by less than 64 bits can tell: the other.
same "strip-maker: a figure is the float nearest to what is typed" "000000003f8000003f8000013f8000003f800002" \
    "$(figures '0 1.000000059604644775390625 1.000000059604644775390625000000000000000001 1.000000059604644775390624999999999999999999 1.000000178813934326171875\n')"

# What is wrong with a line.
head_line() { refused "$1" "line 1: $2" to_strip < <(echo "$1"); }
head_line "1 -10 -5 -90 -90" "the first line is the head, for example: head threshold 12 samples 480"
head_line "head samples 480" "the head has no threshold"
head_line "head threshold 2" "the head has no samples"
head_line "head threshold 2 samples" "the samples has no number after it"
head_line "head threshold 2 samples 480 samples 480" "the samples is there twice"
head_line "head threshold 2 samples 480 volume 3" \
    "'volume' is not one of version, threshold, samples, headroom, largest-gain, initial-gain, change-per-second, output-noise"
for n in 0 3001 -1 2.5 two 1e1 99999999999999999999; do
    head_line "head threshold $n samples 480" "the threshold $n is not a whole number from 1 to 3000"
done
head_line "head version 2 threshold 3001 samples 480" "the threshold 3001 is not a whole number from 1 to 3000"
for n in 0 201 3000; do
    head_line "head version 1 threshold $n samples 480" "the threshold $n is not a whole number from 1 to 200, which is all that version 1 can say"
done
for n in 0 3 2.0 two; do head_line "head threshold 12 samples 480 version $n" "the version $n is not 1 or 2"; done
head_line "head version 1 threshold 12 version 1 samples 480" "the version is there twice"
head_line "head threshold 12 samples 480 version" "the version has no number after it"
for n in 20 39 50 500 0 480.0; do
    head_line "head threshold 2 samples $n" "the samples $n is not from 40 to 480 in a multiple of 20"
done
setting() { head_line "head threshold 2 samples 480 $1 $2" "the $1 $2 is $3"; }
setting headroom 50.1 "not from 0 to 50"
setting headroom -0 "a negative zero, which no setting can be"
setting largest-gain 0 "not above 0, to 50"
setting largest-gain 1e-60 "not above 0, to 50"
setting initial-gain -1 "not from 0 to 50"
setting change-per-second 0.009 "not from 0.01 to 100"
setting output-noise 1 "not from -90 to 0"
setting output-noise -0 "a negative zero, which no setting can be"

record() { refused "$1" "line 2: $2" to_strip < <(lines "$1\n"); }
record "1.01 -10 -5 -90 -90" "the probability 1.01 is not from 0 to 1"
record "1 50 -5 -90 -90" "the rms 50 is not above -150 and below 50"
record "1 -150 -5 -90 -90" "the rms -150 is not above -150 and below 50"
record "1 49.9999999 -5 -90 -90" "the rms 49.9999999 is not above -150 and below 50"
record "1 -10 70 -90 -90" "the peak 70 is not from -150 to 50"
record "1 -10 -5 -150.1 -90" "the noise -150.1 is not from -150 to 50"
record "1 -10 -5 -90 100.1" "the envelope 100.1 is not from -150 to 100"
record "1 -10 -5 -90 1e999" "the envelope 1e999 is not from -150 to 100"
record "1 -10 -5 -90" "a record has five figures, this line has 4"
record "1 -10 -5 -90 -90 -90" "a record has five figures, this line has 6"
# A comma that stands for a point.
record "0,95 -10 -5 -90 -90" "write 0.95, with a point"
record "0.95 -10 -5,5 -90 -90" "write -5.5, with a point"
record "0,95 -34,5 -21 -62 -90 # a note" "write 0.95, with a point"
record "1,-10,-5,-90,-90,-90" "a record has five figures, this line has 6"
head_line "head threshold 2 samples 480 headroom 0,5" "write 0.5, with a point"
head_line "head threshold 2 headroom 5,25 samples 480" "write 5.25, with a point"
for word in nan inf 1_0 0x10; do head_line "head threshold 2 samples 480 headroom $word" "the headroom '$word' is not a number"; done
for word in nan inf -inf loud 1_0 0x10 -- 1e ٣; do
    record "1 $word -5 -90 -90" "the rms '$word' is not a number"
done
record "1,,-5,-90,-90" "the rms '' is not a number"
record "head threshold 2 samples 480" "there is a second head"
refused "the seventh line" "line 7: the peak 70 is not from -150 to 50" to_strip < <(lines '\n# a note\n1 -10 -5 -90 -90\r\n\n0 0 0 0 0\n1 -10 70 -90 -90\n1 -10 80 -90 -90\n')
refused "no line" "there is no line with a head" to_strip </dev/null
refused "notes and empty lines alone" "there is no line with a head" to_strip < <(printf '\n# head threshold 2 samples 480\n')

# How it is called.
same "strip-maker: --help says what it is for" "Makes a strip from figures that you can type, and shows a strip as such figures." \
    "$(tools/strip-maker --help | sed -n 1p)"
for words in "" "to-tape" "to-strip more"; do
    # shellcheck disable=SC2086
    same "strip-maker: called with '$words', it says how to call it" "2 usage: strip-maker to-strip < lines > strip" \
        "$(tools/strip-maker $words </dev/null 2>"$room/err"; echo "$? $(head -n 1 "$room/err")")"
done

# A long strip, of more than is kept in memory: the version is known at its end, or by a gap in it.
long() { # ENDING
    echo "head threshold 12 samples 480" && yes "1 -40 0 -90 -90" | head -n 48000 && printf "$1"
}
began() { echo "$(od -An -tx1 -N 3 "$1" | tr -d ' ') $(wc -c <"$1")"; } # STRIP: its first bytes, and how many it has
for both in "001801 1056026 " "001902 1056051 gap\n1 -40 0 -90 -90\n"; do
    ending=${both#* * }
    long "$ending" >"$room/lines"
    to_strip <"$room/lines" >"$room/strip"
    cat "$room/lines" | to_strip >"$room/piped"
    same "strip-maker: 48000 records and '$ending': the version, and so many bytes" "${both% "$ending"}" "$(began "$room/strip")"
    same_file "strip-maker: 48000 records and '$ending': through a pipe" "$room/strip" "$room/piped"
    to_lines <"$room/strip" | sed 1,2d | cmp - <(sed 1d "$room/lines") >"$room/apart" 2>&1
    same "strip-maker: 48000 records and '$ending': the lines again" "" "$(cat "$room/apart")"
done
long "1 -40 70 -90 -90\n" >"$room/lines"
refused "a wrong line behind 48000, from a file" "line 48002: the peak 70 is not from -150 to 50" to_strip <"$room/lines"
refused "a wrong line behind 48000, through a pipe" "line 48002: the peak 70 is not from -150 to 50" to_strip < <(cat "$room/lines")
# A file is read from where it stands, and to its end.
{ echo "none of its lines" && long gap; } >"$room/lines"
{ read -r _ && to_strip >"$room/strip" && wc -c >"$room/left"; } <"$room/lines"
same "strip-maker: a file whose first line was read before" "001902 1056029, 0 left" "$(began "$room/strip"), $(cat "$room/left") left"
# A temporary file that has no room.
long "" | (ulimit -f 500 && to_strip 2>"$room/err") | cat >"$room/strip"
same "strip-maker: a temporary file that gets too large" "1 0 the temporary file: File too large; with a version in the head there is none" \
    "${PIPESTATUS[1]} $(wc -c <"$room/strip") $(cat "$room/err")"

# As the lines come: what they say is written at once, where the head has the version, and a wrong line takes nothing of it back.
mkfifo "$room/in"
to_strip <"$room/in" >"$room/strip" 2>"$room/err" &
exec 4>"$room/in"
written() { # BYTES: how many there are, once there are so many, or after ten seconds
    for ((i = 0; i < 200; i++)); do
        [ "$(wc -c <"$room/strip")" -lt "$1" ] || break
        sleep 0.05
    done
    wc -c <"$room/strip"
}
printf 'head version 1 threshold 2 samples 480\n1 -10 -5 -90 -90\n1 -10' >&4
same "strip-maker: a head and a record are written as soon as they came" 48 "$(written 48)"
printf ' -5 -90 -90\n' >&4
same "strip-maker: a record that comes in two pieces" 70 "$(written 70)"
printf '1 -10 70 -90 -90\n' >&4
exec 4>&-
wait $!
same "strip-maker: a wrong line after that" "1 70 line 4: the peak 70 is not from -150 to 50" "$? $(written 70) $(cat "$room/err")"
# A threshold above 200 says the version too; and where nothing says it the first gap does, up to which the strip is kept.
to_strip <"$room/in" >"$room/strip" 2>"$room/err" &
exec 4>"$room/in"
printf 'head threshold 201 samples 480\n' >&4
same "strip-maker: a head with a threshold of 201 is written as soon as it came" 27 "$(written 27)"
printf 'gap\n' >&4
same "strip-maker: and so is a gap" 29 "$(written 29)"
exec 4>&-
wait $!
same "strip-maker: and it ends well" "0 29 " "$? $(written 29) $(cat "$room/err")"
mkdir "$room/tmp"
TMPDIR=$room/tmp tools/strip-maker to-strip <"$room/in" >"$room/strip" 2>"$room/err" &
maker=$!
exec 4>"$room/in"
long "" >&4
kept() { find /proc/$maker/fd -lname "$room/tmp/*"; } # the temporary files that it has open
for ((i = 0; i < 200; i++)); do
    [ -z "$(kept)" ] || break
    sleep 0.05
done
same "strip-maker: without a version the strip is kept in a file that has no name, and nothing is written" "1 kept, 0 there, 0 bytes" \
    "$(kept | wc -l) kept, $(ls "$room/tmp" | wc -l) there, $(wc -c <"$room/strip") bytes"
printf 'gap\n' >&4
same "strip-maker: with the first gap all of it is written" 1056029 "$(written 1056029)"
printf '1 -40 0 -90 -90\n' >&4
same "strip-maker: and from then on each record as it comes" 1056051 "$(written 1056051)"
same "strip-maker: and nothing is kept" 0 "$(kept | wc -l)"
exec 4>&-
wait $maker
same "strip-maker: and it ends well" "0 1056051 " "$? $(written 1056051) $(cat "$room/err")"
# A file that changes between its two readings. The second one waits for a reader that is slow.
long "" >"$room/lines"
{ to_strip <"$room/lines" 2>"$room/err"; echo $? >"$room/status"; } | { head -c 1000 >"$room/strip"; echo gap >>"$room/lines"; cat >>"$room/strip"; }
same "strip-maker: a file to which a gap is added while it is read" "1 001801 standard input: it changed while it was read" \
    "$(cat "$room/status") $(od -An -tx1 -N 3 "$room/strip" | tr -d ' ') $(cat "$room/err")"
refused "bytes that are no lines" "line 1: it has more than 65536 bytes" to_strip < <(head -c 200000 /dev/zero)

# What goes wrong around it: one line, and status 1.
told() { # NAME TOLD COMMAND..
    "${@:3}" >"$room/out" 2>"$room/err"
    same "strip-maker: $1" "1 $2" "$? $(cat "$room/err")"
}
full() { tools/strip-maker "$1" >/dev/full; }
shut() { tools/strip-maker "$1" >&-; }
told "a line that does not end" "line 2: it has more than 65536 bytes" to_strip < <(lines ''; head -c 200000 /dev/zero | tr '\0' 1)
told "to-strip on a full disk" "standard output: No space left on device" full to-strip <examples/service.txt
told "to-lines on a full disk" "standard output: No space left on device" full to-lines <examples/service.strip
told "--help on a full disk" "standard output: No space left on device" full --help
told "to-strip without standard output" "standard output: Bad file descriptor" shut to-strip <examples/service.txt
told "to-lines without standard output" "standard output: Bad file descriptor" shut to-lines <examples/service.strip
for way in to-strip to-lines; do
    told "$way without standard input" "standard input: Bad file descriptor" tools/strip-maker $way <&-
    told "$way of a folder" "standard input: Is a directory" tools/strip-maker $way <.
done
{ echo "head version 1 threshold 2 samples 480"; yes '1 -10 -5 -90 -90'; } 2>/dev/null | to_strip 2>"$room/err" | head -c 70 >"$room/strip"
same "strip-maker: a reader that goes away" "1 70 " "${PIPESTATUS[1]} $(wc -c <"$room/strip") $(cat "$room/err")"
