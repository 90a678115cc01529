#!/usr/bin/env bash
# The program `replay`, run from outside.
cd "$(dirname "$0")/.." || exit 1
. tests/check.bash
room=$(mktemp -d)
trap 'rm -rf "$room"' EXIT

replay <crates/replay/stdin >"$room/wrote"
same_file "replay: the fixed list is answered as the Rust answered it" crates/replay/stdout "$room/wrote"

same "replay: no input, no answer" "" "$(replay </dev/null)"

# The answers to some lines, each in brackets.
answers() { replay | sed 's/.*/[&]/' | paste -sd' '; }
ten="00000000 41200000"

same "replay: the paper's ratios" \
    "[00000000 3f800000] [$ten] [00000000 42c80000] [00000000 43b1681d] [00000002 00000000]" \
    "$(printf 'ratio %s\n' 00000000 41a00000 42200000 424c0000 bf800000 | answers)"

# The ring: the capacity, the place, the size, sixteen slots, its test, the usual capacity, its own, the oldest, the size, equality.
one_to_five() { printf 'ring.push %s\n' 3f800000 40000000 40400000 40800000 40a00000; }
same "replay: push 1 to 5 into a ring of 4, and the oldest is 2" \
    "[00000000 00000004 00000001 00000004 40a00000 40000000 40400000 40800000 00000000 00000000 00000000 00000000 00000000 00000000 00000000 00000000 00000000 00000000 00000000 00000000 00000001 00000004 00000000 00000004 00000000 00000001 40000000 00000000 00000004 00000004 00000000]" \
    "$({ echo ring.new 00000004; one_to_five; } | answers | sed 's/.* \[/[/')"
oldest() { replay | tail -n 1 | cut -d' ' -f25-27; }
same "replay: an empty ring has none" "00000000 00000000 00000000" "$(echo ring.new 00000004 | oldest)"
same "replay: the oldest in a ring of 1 is the last push" "00000000 00000001 40a00000" "$({ echo ring.new 00000001; one_to_five; } | oldest)"
zeros() { yes 'ring.push 00000000' | head -n "$1"; }
same "replay: the oldest in a ring of 16 is the push 16 pushes ago" "00000000 00000001 3f800000" \
    "$({ echo ring.new 00000010; one_to_five; zeros 11; } | oldest)"
same "replay: and the next one with the next push" "00000000 00000001 40000000" "$({ echo ring.new 00000010; one_to_five; zeros 12; } | oldest)"
same "replay: a ring of 0, 17, 2^31 and 2^32 - 1 peaks is refused with 4, and all is 0" \
    "00000004 00000000 00000004 00000000 00000004 00000000 00000004 00000000" \
    "$(printf 'ring.new %08x\n' 0 17 2147483648 4294967295 | replay | cut -d' ' -f1-2 | paste -sd' ')"
same "replay: one of 1 to 16 is taken, and says so" "$(for n in {1..16}; do printf '00000000 00000000 %08x ' "$n"; done)" \
    "$(printf 'ring.new %08x\n' {1..16} | replay | cut -d' ' -f1,23-24 | tr '\n' ' ')"
# A ring of 4 with a NaN in the fifth slot and behind it: it passes, and what is pushed, reset and compared leaves these slots.
some="3f800000 40000000 40400000 40800000" odd=$(yes 7fc00000 | head -n 12 | paste -sd' ')
same "replay: slots from the capacity on are neither looked at nor changed (push, reset; reply, test and these slots)" \
    "[00000000 00000001 $odd] [00000000 00000001 $odd] [00000000 00000001 $odd]" \
    "$(printf '%s\n' "ring.set 00000004 00000003 00000004 $some $odd" "ring.push 40a00000" ring.reset | replay | cut -d' ' -f1,9-21 |
        awk '{ print "[" $1, $NF, substr($0, 10, 107) "]" }' | paste -sd' ')"
same "replay: a NaN below the capacity, a place at it and a size above it are refused with 4" "4 4 4" \
    "$(for state in "00000005 00000003 00000004" "00000004 00000004 00000004" "00000004 00000003 00000005"; do
        printf '%s\n' "ring.set $state $some $odd" ring.reset
    done | replay | sed -n 'n; p' | cut -c8 | paste -sd' ')"
same "replay: rings of unlike capacity with the same items are equal" "00000000 00000001" \
    "$({ echo ring.new 00000004; one_to_five; echo ring.keep; echo ring.new 00000010; one_to_five | sed 1d; } | replay | tail -n 1 | cut -d' ' -f30-31)"

same "replay: the paper's levels: 0, 30057.297, 33724.844, 36575.03, 65536 (region and gain)" \
    "00000000 3f800000 00000001 3f800000 00000002 3f747a65 00000002 3f651c1d 00000003 3f000000" \
    "$(printf 'curve.level %s\n' 00000000 46ead298 4703bcd8 470edf08 47800000 | replay | cut -d' ' -f11,15 | paste -sd' ')"

same "replay: a state goes on from line to line, and new starts it afresh" \
    "00000002 00000000 00000001" \
    "$(printf 'curve.level 00000000\ncurve.level 00000000\ncurve.new\ncurve.level 00000000\n' | replay | cut -d' ' -f3 | sed 1d | paste -sd' ')"

for part in estimator limiter; do
    same "replay: $part: the paper's samples, 20, 50 and 500 refused with 1, 40 and 480 accepted" "1 1 1 0 0" \
        "$(printf "$part.new %08x\n" 20 50 500 40 480 | replay | cut -c8 | paste -sd' ')"
done

# A frame of so many samples at 1, asked about as some channels of 480.
frame() { # NAME CHANNELS SAMPLES
    printf '%s %08x 000001e0' "$1" "$2"
    [ "$3" -eq 0 ] || yes ' 3f800000' | head -n "$3" | tr -d '\n'
    echo
}
ones() { replay | tail -n 1 | grep -o ' 3f800000' | wc -l; }

same "replay: the largest frame, 8 channels of 480, is limited: 3840 samples, the factor, the level and the one that is told" 3843 \
    "$({ echo limiter.new 000001e0; frame limiter.process 8 3840; } | ones)"
same "replay: a gain of 1 leaves it: 3840 samples, both factors and the one that is told" 3843 \
    "$({ echo applier.new 00000000 3f800000; frame applier.apply 8 3840; } | ones)"
same "replay: a frame one sample short is refused with 1, and given back" "00000001 3842" \
    "$({ echo applier.new 00000000 3f800000; frame applier.apply 8 3839; } >"$room/short"; replay <"$room/short" | tail -n 1 | cut -d' ' -f1) $(ones <"$room/short")"
same "replay: a frame of no sample is refused with 1" 00000001 \
    "$({ echo limiter.new 000001e0; frame limiter.process 1 0; } | replay | tail -n 1 | cut -d' ' -f1)"
same "replay: more samples than a frame can have are no question" "?" "$(frame applier.apply 8 3841 | replay)"
same "replay: before new every figure is 0, which no state passes" 00000004 \
    "$(frame applier.apply 1 480 | replay | cut -d' ' -f1)"

usual="40a00000 42480000 41700000 40c00000 c2480000"

same "replay: 40 speech frames push no peak, the 41st pushes (the preliminary ring's size)" "00000000 00000001" \
    "$({ echo protector.new 41a00000 00000001 00000004; yes 'protector.analyze 3f800000 c0a00000 c1f00000' | head -n 41; } | replay | tail -n 2 | cut -d' ' -f9 | paste -sd' ')"

same "replay: 39 speech frames are not trusted, the 40th is" "00000000 00000001" \
    "$({ echo "speech.new $usual 00000001"; yes 'speech.update c2200000 3f800000' | head -n 40; } | replay | tail -n 2 | cut -d' ' -f16 | paste -sd' ')"

# T is 2, and the level starts at -40. A NaN is refused with 2 and does not end the run.
same "replay: a run of 1 is thrown away, a refused frame is not counted, a run of 2 publishes (reply, level, count)" \
    "[00000000 c2200000 00000001] [00000000 c2200000 00000000] [00000000 c2200000 00000001] [00000002 c2200000 00000001] [00000000 c1d63cbf 00000002]" \
    "$({ echo "speech.new $usual 00000002"; printf 'speech.update %s\n' 'c1200000 3f800000' 'c2200000 3f733332' 'c1a00000 3f733333' '7fc00000 00000000' 'c1a00000 3f800000'; } | replay | sed 1d | cut -d' ' -f1,15,17 | sed 's/.*/[&]/' | paste -sd' ')"

# T is 1 to 3,000 in each part that has it, and in the chain.
new_with() { # PART T
    case $1 in
    protector) printf 'protector.new 41a00000 %08x 00000004\n' "$2" ;;
    chain) printf 'chain.new %s %08x 00000028 00000004\n' "$usual" "$2" ;;
    *) printf '%s.new %s %08x\n' "$1" "$usual" "$2" ;;
    esac
}
for part in speech protector controller chain; do
    same "replay: $part: T of 0, 3,001, 65,535 and 65,538 are refused with 4, and 1, 200, 201 and 3,000 are taken" "4 4 4 4 0 0 0 0" \
        "$(for t in 0 3001 65535 65538 1 200 201 3000; do new_with "$part" "$t"; done | replay | cut -c8 | paste -sd' ')"
done
# The capacity is 1 to 16, in the protector and in the chain.
for part in protector chain; do
    same "replay: $part: rings of 0, 17 and 2^32 - 1 peaks are refused with 4, and of 1, 4 and 16 are taken" "4 4 4 0 0 0" \
        "$(for n in 0 17 4294967295 1 4 16; do new_with "$part" 12 | sed "s/00000004\$/$(printf %08x "$n")/"; done | replay | cut -c8 | paste -sd' ')"
done
# A protector whose two rings differ in capacity, each of which passes.
read -ra fair <<<"$(new_with protector 12 | replay | cut -d' ' -f2-49)"
same "replay: a protector's state is 48 figures" 48 "${#fair[@]}"
unlike=("${fair[@]}")
unlike[27]=00000005
same "replay: a protector whose rings differ in capacity is refused with 4 (its test, a frame, a gap)" "00000001 00000000 00000000 00000004 00000004" \
    "$({
        printf 'protector.set %s\n' "${fair[*]}" "${unlike[*]}" | replay | cut -d' ' -f50
        printf '%s\n' "protector.set ${unlike[*]}" 'protector.analyze 3f800000 c0a00000 c1f00000' protector.gap | replay | cut -d' ' -f1
    } | paste -sd' ')"
same "replay: T of 3,000: the count of a run goes to 2,999, back to 0 with no speech, and to 3,000, where it is held" \
    "00000bb7 00000000 00000bb7 00000bb8 00000bb8" \
    "$({
        new_with speech 3000
        yes 'speech.update c1200000 3f800000' | head -n 2999
        echo 'speech.update c1200000 00000000'
        yes 'speech.update c2200000 3f800000' | head -n 3001
    } | replay | sed -n '3000p; 3001p; 6000,6002p' | cut -d' ' -f17 | paste -sd' ')"

# A frame of so many samples at 1 for the controller, as some channels of 480, with nothing to boost.
known() { # CHANNELS SAMPLES
    printf 'controller.process %08x 000001e0 3f800000 00000000 00000001 c2b40000 41a00000 c2b40000' "$1"
    [ "$2" -eq 0 ] || yes ' 3f800000' | head -n "$2" | tr -d '\n'
    echo
}
flat="controller.new 40a00000 42480000 00000000 40c00000 c2480000 00000001"
same "replay: the controller leaves the largest frame at 0 dB: 3840 samples and both factors" 3842 \
    "$({ echo "$flat"; known 8 3840; } | ones)"
same "replay: the controller refuses a frame one sample short with 1" 00000001 \
    "$({ echo "$flat"; known 8 3839; } | replay | tail -n 1 | cut -d' ' -f1)"
same "replay: the controller refuses a frame of no sample with 1" 00000001 \
    "$({ echo "$flat"; known 1 0; } | replay | tail -n 1 | cut -d' ' -f1)"
same "replay: more samples than the controller's frame can have are no question" "?" "$(known 8 3841 | replay)"

# The paper's worked records, over silent frames of one channel: no speech, a cough, no speech, and a reading.
record() { # PROBABILITY RMS PEAK
    printf 'chain.step 00000001 000001e0 %s %s %s c2b40000 c2b40000' "$1" "$2" "$3"
    yes ' 00000000' | head -n 480 | tr -d '\n'
    echo
}
same "replay: the paper's five records are N, W, N, W and P, and the cough moves neither level nor gain" \
    "[0 c2200000 41700000] [1 c2200000 41700000] [0 c2200000 41700000] [1 c2200000 41700000] [2 c2200000]" \
    "$({
        echo "chain.new 40a00000 42480000 41700000 40c00000 c2480000 00000002 000001e0 00000004"
        record 00000000 c2700000 c2700000
        record 3f800000 c1200000 c0a00000
        record 00000000 c2700000 c2700000
        record 3f800000 c2200000 00000000
        record 3f800000 c2200000 00000000
    } | replay | sed 1d | cut -d' ' -f3,7,10 | sed 's/^0000000//; s/^2 \([^ ]*\) .*/2 \1/; s/.*/[&]/' | paste -sd' ')"

# Gaps. With a T of 2 a frame of speech on either side of one is no reading.
same "replay: speech, a gap and two frames of speech, with a T of 2 (reply, level, count)" \
    "[00000000 c2200000 00000001] [00000000 c2200000 00000000] [00000000 c2200000 00000001] [00000000 c1d55555 00000002]" \
    "$({ echo "speech.new $usual 00000002"; printf 'speech.%s\n' 'update c1200000 3f800000' gap 'update c1a00000 3f800000' 'update c1a00000 3f800000'; } | replay | sed 1d | cut -d' ' -f1,15,17 | sed 's/.*/[&]/' | paste -sd' ')"
same "replay: the same of the headroom: the count" "00000001 00000000 00000001 00000002" \
    "$({ echo protector.new 41a00000 00000002 00000004; printf 'protector.%s\n' 'analyze 3f800000 c0a00000 c1f00000' gap 'analyze 3f800000 c0a00000 c1f00000' 'analyze 3f800000 c0a00000 c1f00000'; } | replay | sed 1d | cut -d' ' -f4 | paste -sd' ')"
one_frame() { known 1 480; }
same "replay: the controller waits anew behind a gap, and nothing else of it moves" "00000001 00000002 00000001 yes" \
    "$({ echo "controller.new $usual 00000002"; one_frame; echo controller.gap; one_frame; } | replay | sed 1d | cut -d' ' -f1-15 >"$room/gap"
    cut -d' ' -f14 "$room/gap" | paste -sd' ') $(cmp -s <(sed -n 1p "$room/gap" | cut -d' ' -f1-13,15) <(sed -n 2p "$room/gap" | cut -d' ' -f1-13,15) && echo yes)"
same "replay: a chain's gap between a cough and a reading: what stands is published, and the reading counts with its second frame" \
    "[1 c2200000 41a00000 00000000 41700000] [0 c2200000 41a00000 00000000 41700000] [1 c2200000 41a00000 00000000 41700000] [2 c2200000]" \
    "$({
        echo "chain.new $usual 00000002 000001e0 00000004"
        record 3f800000 c1200000 c0a00000
        echo chain.gap
        record 3f800000 c2200000 00000000
        record 3f800000 c2200000 00000000
    } | replay | sed 1d | cut -d' ' -f3,7-10 | sed 's/^0000000//; s/^2 \([^ ]*\) .*/2 \1/; s/.*/[&]/' | paste -sd' ')"
same "replay: a gap has no samples: the reply, whether it passes, four figures of no frame, and four that are published" 10 \
    "$({ echo "chain.new $usual 00000002 000001e0 00000004"; echo chain.gap; } | replay | tail -n 1 | wc -w)"
for part in speech protector controller chain; do
    same "replay: $part: before new a gap is refused with 4, and with a figure it is no question" "00000004 ?" \
        "$(printf '%s\n' $part.gap "$part.gap 00000000" | replay | cut -d' ' -f1 | paste -sd' ')"
done

# The whole state of a chain, 94 figures: what chain.state shows of the four parts, without what their own calls say of them.
state() { replay | tail -n 1 | cut -d' ' -f2-17,21-36,42-89,93-106; }
new="chain.new $usual 00000002 000001e0 00000004"
read -ra good <<<"$({ echo "$new"; echo chain.state; } | state)"
same "replay: a chain's state is 94 figures" 94 "${#good[@]}"
same "replay: a chain's state that is handed in is shown as it was" "${good[*]}" "$({ echo "chain.set ${good[*]}"; echo chain.state; } | state)"
same "replay: a chain that is handed in goes on as the new one does" \
    "$({ echo "$new"; record 3f800000 c2200000 00000000; } | replay | tail -n 1)" \
    "$({ echo "chain.set ${good[*]}"; record 3f800000 c2200000 00000000; } | replay | tail -n 1)"
# Its parts are not alike in one setting: the controller's headroom, behind 16, 16 and 48 figures and the applier's five. The
# chain is refused with 4, publishes nothing, and stands as it came.
other=("${good[@]}")
other[85]=40a00001
same "replay: a chain whose parts differ in one setting is refused with 4 and publishes nothing" \
    "00000004 00000000 00000000 00000000 00000000 00000000 00000000 00000000 00000000 00000000" \
    "$({ echo "chain.set ${other[*]}"; record 3f800000 c2200000 00000000; } | replay | tail -n 1 | cut -d' ' -f1-10)"
same "replay: what looks at it is refused with 4 too, and has no samples" "00000004 00000004 00000000" \
    "$({ echo "chain.set ${other[*]}"; echo chain.state; } | replay | tail -n 1 | cut -d' ' -f117-119)"
same "replay: it stands as it came, also after a refused frame" "${other[*]}" \
    "$({ echo "chain.set ${other[*]}"; record 3f800000 c2200000 00000000; echo chain.state; } | state)"

same "replay: an empty line is no question" "?" "$(echo | replay)"

same "replay: a line that is cut is no question" "[$ten] [?]" "$(printf 'ratio 41a00000\nratio 41a0' | answers)"

same "replay: a last line without its line feed is no question" "[$ten] [?]" \
    "$(printf 'ratio 41a00000\nratio 41a00000' | answers)"

same "replay: NaNs and infinities are refused" "2 2 2 2 2 2 2 2" \
    "$(printf 'ratio %s\n' 7f800001 7fc00000 7fffffff ff800001 ffc00000 ffffffff 7f800000 ff800000 | replay | sed -n 's/^00000002 00000000$/2/p' | paste -sd' ')"

same "replay: a line of a million bytes is no question, and the next one is answered" "[?] [$ten]" \
    "$({ printf 'ratio 41a00000'; head -c 1000000 /dev/zero | tr '\0' 0; printf '\nratio 41a00000\n'; } | answers)"

same "replay: a line of zero bytes is no question" "[?] [$ten]" \
    "$({ head -c 14 /dev/zero; printf '\nratio 41a00000\n'; } | answers)"

# Its line buffer has 35200 bytes: a longer line is cut there, and must not be taken for another one.
for length in 35199 35200 35201 70000; do
    same "replay: a line of $length bytes is no question" "[?] [$ten]" \
        "$({ printf 'ratio 41a00000'; head -c $((length - 14)) /dev/zero | tr '\0' 0; printf '\nratio 41a00000\n'; } | answers)"
done
for figures in 2 3900 3910 3911 5000; do
    same "replay: a ratio of $figures figures is no question" "[?] [$ten]" \
        "$({ printf ratio; yes ' 41a00000' | head -n "$figures" | tr -d '\n'; printf '\nratio 41a00000\n'; } | answers)"
done

same "replay: a question that comes in pieces is answered" "$ten" \
    "$({ printf 'rat'; sleep 0.2; printf 'io 41a0'; sleep 0.2; printf '0000\n'; } | replay)"

# More than the program's buffers hold, in both directions: 65536 bytes each.
for ((i = 0; i < 200; i++)); do printf 'ratio 41a00000\nratio 00000000\nratio bf800000\nx\n'; done >"$room/some"
for ((i = 0; i < 200; i++)); do printf '00000000 41200000\n00000000 3f800000\n00000002 00000000\n?\n'; done >"$room/due-some"
for ((i = 0; i < 100; i++)); do cat "$room/some"; done >"$room/many"
for ((i = 0; i < 100; i++)); do cat "$room/due-some"; done >"$room/due"
replay <"$room/many" >"$room/wrote"
same_file "replay: 80000 questions, more than its buffers hold" "$room/due" "$room/wrote"

yes '' | head -n 100000 | replay >"$room/wrote"
yes '?' | head -n 100000 >"$room/due"
same_file "replay: 100000 empty lines, whose answers are longer than they are" "$room/due" "$room/wrote"
