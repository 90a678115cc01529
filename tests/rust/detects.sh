#!/usr/bin/env bash
# The comparison can fail: each kind of wrong answer is found. Without these a comparison that
# compares nothing would pass.
cd "$(dirname "$0")/../.." || exit 1
. tests/check.bash

room=$(mktemp -d)
trap 'rm -rf "$room"' EXIT

# The oracle's exit status where a command answers a part's questions.
compared() { # PART COMMAND
    target/oracle/oracle compare --only "$1" --brief -- bash -c "$2" >/dev/null 2>&1
    echo $?
}
# The same where the program answers, which leaves its answers in a file; and where these go through a filter first. A part's
# questions are the same in each run, so the program is asked once.
answered() { compared "$1" "tests/run-program replay | tee '$room/$1'"; } # PART
through() { compared "$1" "cat >/dev/null; { $2; } <'$room/$1'"; }        # PART FILTER

# Alters the digit at a place of the first answer after a line that has more than so many characters.
digit() { # PLACE LINE LONGER
    echo "awk -v at=$1 'NR > $2 && length(\$0) > $3 && !done { done = 1; new = substr(\$0, at, 1) == \"0\" ? \"1\" : \"0\"; \$0 = substr(\$0, 1, at - 1) new substr(\$0, at + 1) } { print }'"
}

for part in ratio ring curve estimator applier limiter speech protector controller chain; do
    refusal=2
    case $part in estimator | limiter) refusal=3 ;; esac
    same "$part: the comparison finds nothing where nothing is altered" 0 "$(answered "$part")"
    same "$part: nor in the same answers again" 0 "$(through "$part" cat)"
    same "$part: it finds one digit that is altered" 1 "$(through "$part" "$(digit 16 700 10)")"
    same "$part: it finds a refusal that is altered" 1 "$(through "$part" "sed '0,/^0000000$refusal /s/^0000000$refusal /00000000 /'")"
    same "$part: it finds an answer that is missing at the end" 1 "$(through "$part" "sed '\$d'")"
    same "$part: it finds an answer that is missing in the middle" 1 "$(through "$part" 'sed 7d')"
    same "$part: it finds an answer too many" 1 "$(through "$part" "sed '\$p'")"
done
# The last digit of a sample in the middle of a frame: behind the reply, the state and what is shown.
for part in estimator applier limiter; do
    same "$part: it finds a sample that is altered in its last place" 1 "$(through "$part" "$(digit 449 400 600)")"
done
same "estimator: it finds an envelope value that is altered" 1 "$(through estimator "$(digit 107 400 600)")"
same "applier: it finds a remembered gain that is altered" 1 "$(through applier "$(digit 17 400 600)")"
same "limiter: it finds a carried factor that is altered" 1 "$(through limiter "$(digit 17 400 600)")"
same "limiter: it finds a count that is altered" 1 "$(through limiter "$(digit 62 400 600)")"
# The last digit of a figure that is shown: each is nine characters, and the reply is the first.
figure() { # NUMBER LINE LONGER
    digit $((9 * $1 + 8)) "$2" "$3"
}
same "speech: it finds a sum that is altered" 1 "$(through speech "$(figure 9 400 60)")"
same "speech: it finds a weight that is altered" 1 "$(through speech "$(figure 10 400 60)")"
same "speech: it finds a level that is altered" 1 "$(through speech "$(figure 14 400 60)")"
same "speech: it finds a confidence that is altered" 1 "$(through speech "$(figure 15 400 60)")"
same "speech: it finds a count that is altered" 1 "$(through speech "$(figure 16 400 60)")"
same "protector: it finds a headroom that is altered" 1 "$(through protector "$(figure 4 400 60)")"
same "protector: it finds a capacity that is altered" 1 "$(through protector "$(figure 6 400 60)")"
same "protector: it finds a stored peak that is altered" 1 "$(through protector "$(figure 9 400 60)")"
same "protector: it finds what is altered in the last slot" 1 "$(through protector "$(figure 24 400 60)")"
same "protector: it finds a time that is altered" 1 "$(through protector "$(figure 26 400 60)")"
same "controller: it finds a factor that is altered" 1 "$(through controller "$(figure 3 400 400)")"
same "controller: it finds a waiting count that is altered" 1 "$(through controller "$(figure 13 400 400)")"
same "controller: it finds a gain that is altered" 1 "$(through controller "$(figure 14 400 400)")"
same "controller: it finds a sample that is altered in its last place" 1 "$(through controller "$(figure 36 400 400)")"
same "chain: it finds a case that is altered" 1 "$(through chain "$(figure 2 400 400)")"
same "chain: it finds a published level that is altered" 1 "$(through chain "$(figure 6 400 400)")"
same "chain: it finds a published headroom that is altered" 1 "$(through chain "$(figure 7 400 400)")"
same "chain: it finds a gain that is altered" 1 "$(through chain "$(figure 9 400 400)")"
same "chain: it finds a sample that is altered in its last place" 1 "$(through chain "$(figure 36 400 400)")"
same "the comparison finds that nothing is answered" 1 "$(through ratio 'cat >/dev/null')"
same "the comparison finds that the program fails" 1 "$(through ratio 'cat; exit 3')"
same "the comparison finds that the program takes no question" 1 "$(compared curve 'true')"
same "the comparison finds a count that is altered" 1 "$(through curve "sed '9000s/^\(.\{26\}\)\(.\)/\1f/'")"
same "ring: it finds a capacity that is altered" 1 "$(through ring "$(figure 1 9000 60)")"
same "ring: it finds a stored peak that is altered" 1 "$(through ring "$(figure 7 9000 60)")"
same "ring: it finds what is altered in the last slot" 1 "$(through ring "$(figure 19 9000 60)")"
same "ring: it finds an equality that is altered" 1 "$(through ring "$(figure 30 9000 60)")"
same "a part that there is not is refused" 2 "$(compared nothing cat)"

# Whole strips: the oracle's own lines go through a filter first, in place of the program's.
strips() { # FILTER
    target/oracle/oracle strips --first --count 100 -- sh -c "target/oracle/oracle strip | $1" >/dev/null 2>&1
    echo $?
}
same "strips: the comparison finds nothing where nothing is altered" 0 "$(strips cat)"
same "strips: it finds one letter that is altered in one line of one strip" 1 "$(strips "sed '19000s/[NWP]/R/'")"
same "strips: it finds a zero with a sign" 1 "$(strips "sed 's/ 0 \([0-9]* [0-9]* [01]\)\$/ -0 \1/'")"
same "strips: it finds a space too many" 1 "$(strips "sed 's/ P /  P /'")"
same "strips: it finds a line feed that is missing at the end" 1 "$(strips "head -c -1")"
same "strips: it finds lines that end otherwise" 1 "$(strips "sed 's/\$/\r/'")"
same "strips: it finds a line that is missing at the end" 1 "$(strips "sed '\$d'")"
same "strips: it finds a line too many" 1 "$(strips "sed '\$p'")"
same "strips: it finds a refusal with another number" 1 "$(strips "sed 's/R 7\$/R 6/'")"
same "strips: it finds that nothing is printed" 1 "$(strips 'cat >/dev/null')"
same "strips: it finds that the program fails" 1 "$(strips 'cat; exit 3')"

# Strips that are carried: what the oracle itself writes goes through a filter, in place of what the program does.
carries() { # FILTER
    target/oracle/oracle carries --first --count 100 -- sh -c "target/oracle/oracle carry \$1 | $1" - >/dev/null 2>&1
    echo $?
}
same "carries: the comparison finds nothing where nothing is altered" 0 "$(carries cat)"
same "carries: it finds a byte that is altered" 1 "$(carries "tr '\024' '\025'")"
same "carries: it finds a byte that is missing at the end" 1 "$(carries "head -c -1")"
same "carries: it finds a byte too many" 1 "$(carries "{ cat; printf x; }")"
same "carries: it finds that something is written of a strip that is refused" 1 "$(carries "{ cat; test \$1 = up || printf x; }")"
same "carries: it finds that nothing is written" 1 "$(carries 'cat >/dev/null')"
same "carries: it finds something else that is told" 1 "$(carries '{ cat; echo >&2; }')"
same "carries: it finds that the program fails" 1 "$(carries '{ cat; exit 3; }')"

# A source that is not the one that the oracle was written for is refused, and not compiled as it is.
prepared() { target/oracle/prepare "$room/source" oracle/src/rules.rs "$room/out" >/dev/null 2>&1; echo $?; }
source=${SONORA_SRC:-../shared/docs/src/crates/sonora-agc2/src}
mkdir "$room/source"
cp "$source"/*.rs "$room/source"
chmod -R u+w "$room/source"
same "the published source is taken" 0 "$(prepared)"
sed -i 's/powf(v/powf( v/' "$room/source/common.rs"
same "a source without the power that is to be replaced is refused" 1 "$(prepared)"
cp "$source/common.rs" "$room/source" && chmod u+w "$room/source/common.rs"
grep -h '(1.0 - t).powf(p)' "$source/limiter.rs" >>"$room/source/limiter.rs"
same "a source with that power twice is refused" 1 "$(prepared)"

# Programs that are wrong in one thing: the oracle's own answers and its reader of strips, and the Rust under it. It is built
# once more with all of these slips, each behind a switch: at run time the one slip is made that SLIP names. The text that a
# slip stands for must be there exactly once.
mkdir "$room/slips" && cp -r oracle/src "$room/slips/oracle" && cp -r target/oracle/ruled "$room/slips/ruled"
slip() { printf '%s\0' "$@" >>"$room/slips/all"; } # NAME FILE OLD NEW
readers=()
reader() { readers+=("$1") && slip "$1" "oracle/$2" "$3" "$4"; } # NAME FILE OLD NEW
reader "hundredths that are rounded" strip 'hundred >> -power' '(hundred + (1 << (-power - 1))) >> -power'
reader "hundredths of a product that is rounded" strip 'hundredths(level)' '(f32::from_bits(level) * 100.0) as i128'
reader "publishing one frame too early" strip 'run == head.threshold' 'speech && run + 1 >= head.threshold'
reader "one byte taken for the end" strip 'bytes.is_empty()' 'bytes.len() < 2'
reader "a negative zero taken in a setting" judge 'self.0[i] != 0x8000_0000' 'true'
reader "an rms of -150 taken" chain '-150.0 < rms' '-150.0 <= rms'
reader "the length judged before the version" strip 'Err(VERSION)' 'Err(if [24, 25].contains(&two(&bytes, 0)) { VERSION } else { LENGTH })'
reader "version 2 refused" strip 'version.number == bytes[2]' '[version.number, 1] == [bytes[2]; 2]'
reader "version 3 taken" strip 'version.number == bytes[2]' 'version.number == if bytes[2] == 3 { 2 } else { bytes[2] }'
reader "a length of 24 taken in version 2" strip 'two(&bytes, 0) != version.length' '![24, version.length].contains(&two(&bytes, 0))'
reader "a length of 25 taken in version 1" strip 'two(&bytes, 0) != version.length' '![25, version.length].contains(&two(&bytes, 0))'
reader "a T of version 2 with its low byte first" strip 'two(&bytes, 3)' '(bytes[4] as u32) << 8 | bytes[3] as u32'
reader "the low byte alone of a T of version 2" strip 'two(&bytes, 3)' 'bytes[4] as u32'
reader "a T of 255 taken in version 1" strip '(1..=version.largest)' '(1..=version.largest.max(255))'
reader "a T of 3,001 taken in version 2" strip '(1..=version.largest)' '(1..=version.largest + version.largest / 3000)'
reader "a T above 200 refused in version 2" strip '(1..=version.largest)' '(1..=200)'
reader "a run count that is held at 200" strip '(run + 1).min(head.threshold)' '(run + 1).min(head.threshold.min(200))'
reader "a gap taken in version 1" strip 'version.gaps && two(&bytes, 0) == 0' 'two(&bytes, 0) == 0'
reader "a length of 0 refused in version 2" strip 'version.gaps && two(&bytes, 0) == 0' 'false'
reader "a gap printed as N" strip '["N", "W", "P", "G"]' '["N", "W", "P", "N"]'
reader "a gap that has no number" strip 'chain.gap(&LOST[number % LOST.len()])' '{ chain.gap(&LOST[0]); number -= 1 }'
reader "a gap that has sound" strip 'chain.gap(&LOST[number % LOST.len()])' 'chain.step(&LOST[0], &mut [vec![0.0; head.samples as usize]])'
reader "a gap after which speech goes on to count" strip 'run = 0' '()'
reader "a gap that leaves the run of the level open" chain ' level.update(rms, p)' '()'
reader "a gap that leaves the run of the headroom open" chain ' protector.analyze(p, peak, level.level_dbfs())' '()'
reader "a gap that leaves the waiting count" chain ' controller.gap()' '()'
carriers=()
carrier() { carriers+=("$1") && slip "$1" oracle/carry "$2" "$3"; } # NAME OLD NEW
carrier "a gap carried back" 'Err((number, UNSAID))' 'Ok([&[0, 24, 1, strip[4]], &strip[5..]].concat())'
carrier "a T cut to a byte" 'head.threshold > LARGEST_IN_VERSION_1' 'false'
carrier "a gap told before what the strip is refused with" 'first_gap = first_gap.or(Some(number))' 'return Err((number, UNSAID))'
carrier "the last gap told" 'first_gap.or(Some(number))' 'Some(number)'
carrier "a strip of the other version taken" 'strip[2] != from.number' 'false'
carrier "another version told as a length" 'Err((0, VERSION))' 'Err((0, strip::LENGTH))'
carrier "the bytes of T in another order" '[0, 25, 2, 0, strip[3]]' '[0, 25, 2, strip[3], 0]'
carrier "a size that is one too large" 'bytes.len()' 'bytes.len() + 1'
# Answers that are wrong from some frame on, or to some states.
slip "a run count of the level that is held at 200" oracle/speech '(self.count + 1).min(t)' '(self.count + 1).min(t.min(200))'
slip "a run count of the protector that is held at 200" oracle/protector '(self.count + 1).min(t)' '(self.count + 1).min(t.min(200))'
slip "a first step of 200 changes at most" oracle/controller 'self.change * self.threshold as f32' 'self.change * self.threshold.min(200) as f32'
slip "waiting for 200 frames at most" oracle/controller 'self.waiting -= 1' 'self.waiting = self.waiting.min(200) - 1'
slip "a threshold of 3,001 taken" oracle/judge '(1..=LARGEST_THRESHOLD)' '(1..=LARGEST_THRESHOLD + 1)'
slip "that a refused frame ends a run" oracle/chain 'frame.untouched()' '{ if reply == FIGURE { self.state.speech.count = 0; } frame.untouched() }'
slip "a gap after which the level's run goes on" oracle/speech 'self.update(0.0, 0.0)' '()'
slip "a gap that keeps a short run" oracle/speech 'self.update(0.0, 0.0)' '{ self.reliable = self.preliminary; self.count = 0 }'
slip "a gap in a level that fails its test" oracle/speech 'before.passes()' 'true'
slip "a gap after which the headroom's run goes on" oracle/protector 'self.analyze(0.0, 0.0, 0.0)' 'None'
slip "a gap in a headroom that fails its test" oracle/protector 'before.passes()' 'true'
slip "a gap after which the gain need not wait" oracle/controller 'self.waiting = t' '()'
slip "a gap in a gain that fails its test" oracle/controller 'before.passes()' 'true'
slip "a gap in a chain that fails its test" oracle/chain 'self.put("chain.gap", &[], reply, [0; 4], &[], to)' 'self.put("chain.gap", &[], DONE, [0; 4], &[], to)'
slip "a gap that moves the gain" oracle/chain 'self.controller.gap()' '{ self.controller.gap(); self.controller.gain *= 0.999 }'
slip "a peak that is pushed a frame early" oracle/protector 'self.elapsed > 400' 'self.elapsed >= 400'
# The ring, in the ways that its size may be forgotten.
slip "a place that goes round at 16" oracle/ring '(self.place + 1) % self.capacity' '(self.place + 1) % LARGEST_RING'
slip "a place that goes round at 4" oracle/ring '(self.place + 1) % self.capacity' '(self.place + 1) % judge::DEFAULT_RING'
slip "a ring that is full with 4" oracle/ring 'self.size == self.capacity' 'self.size == judge::DEFAULT_RING'
slip "a ring that holds 16" oracle/ring '(self.size + 1).min(self.capacity)' '(self.size + 1).min(LARGEST_RING)'
slip "a capacity of 17 taken" oracle/judge '(1..=LARGEST_RING)' '(1..=LARGEST_RING + 1)'
slip "a test that looks at every slot" oracle/ring 'self.slots().iter()' 'self.stored.iter()'
slip "keeping without the slots from the capacity on" oracle/protector 'self.reliable = self.preliminary' \
    '{ let before = self.reliable.ring; self.reliable = self.preliminary; let from = before.slots().len(); self.reliable.ring.stored[from..].copy_from_slice(&before.stored[from..]) }'
slip "equality that wants one capacity" oracle/ring 'self.ring.items() == self.aside.items()' \
    'self.ring.items() == self.aside.items() && self.ring.capacity == self.aside.capacity'
slip "a cough that leaves a trace" oracle/speech 'self.preliminary = self.reliable' 'self.preliminary.left = self.reliable.left'
# A slip in each part of the Rust that judges.
slip "speech from another probability" ruled/speech_level_estimator \
    'speech_probability < VAD_CONFIDENCE_THRESHOLD' 'speech_probability <= VAD_CONFIDENCE_THRESHOLD'
slip "a peak that the Rust pushes early" ruled/saturation_protector \
    'state.time_since_push_ms > PEAK_ENVELOPER_SUPER_FRAME_LENGTH_MS' 'state.time_since_push_ms >= PEAK_ENVELOPER_SUPER_FRAME_LENGTH_MS'
slip "a ring of the Rust that holds three" ruled/saturation_protector_buffer \
    'self.size < SATURATION_PROTECTOR_BUFFER_SIZE' 'self.size + 1 < SATURATION_PROTECTOR_BUFFER_SIZE'
slip "no first faster step" ruled/adaptive_digital_gain_controller \
    'first_confident_speech_frame = self.frames_to_gain_increase_allowed == 0' 'first_confident_speech_frame = false'
if python3 - "$room/slips" <<'END' &&
import sys
folder = sys.argv[1]
words = open(folder + "/all", encoding="utf-8").read().split("\0")[:-1]
for name, file, old, new in zip(*[iter(words)] * 4):
    with open(f"{folder}/{file}.rs", encoding="utf-8") as source:
        text = source.read()
    if text.count(old) != 1:
        sys.exit(f"'{old}' stands {text.count(old)} times in {file}.rs, and not once")
    with open(f"{folder}/{file}.rs", "w", encoding="utf-8") as source:
        source.write(text.replace(old, f'(if crate::slip("{name}") {{ {new} }} else {{ {old} }})'))
for root in ["oracle/main.rs", "ruled/lib.rs"]:
    with open(f"{folder}/{root}", "a", encoding="utf-8") as source:
        source.write('\npub fn slip(name: &str) -> bool {\n    std::env::var("SLIP").map_or(false, |chosen| chosen == name)\n}\n')
END
    rustc --edition 2021 -A warnings -O --crate-type rlib --crate-name sonora_ruled -o "$room/slips/libsonora_ruled.rlib" "$room/slips/ruled/lib.rs" &&
    rustc --edition 2021 -A warnings --crate-name oracle -o "$room/slips/slipped" --extern "sonora_ruled=$room/slips/libsonora_ruled.rlib" \
        --extern sonora_as_is=target/oracle/libsonora_as_is.rlib "$room/slips/oracle/main.rs"; then
    echo "ok the oracle is built with every slip"
else
    echo "not ok the oracle is built with every slip"
    exit 1
fi
slipped=$room/slips/slipped
export SLIP=

same "strips: the comparison finds nothing where no slip is made" 0 \
    "$(target/oracle/oracle strips --count 100 -- "$slipped" strip >/dev/null 2>&1; echo $?)"
for SLIP in "${readers[@]}"; do
    target/oracle/oracle strips --first --count 100 -- "$slipped" strip >/dev/null 2>&1
    same "strips: it finds $SLIP" 1 $?
done
SLIP=
same "carries: the comparison finds nothing where no slip is made" 0 \
    "$(target/oracle/oracle carries --count 100 -- "$slipped" carry >/dev/null 2>&1; echo $?)"
for SLIP in "${carriers[@]}"; do
    target/oracle/oracle carries --first --count 100 -- "$slipped" carry >/dev/null 2>&1
    same "carries: it finds $SLIP" 1 $?
done
SLIP=
# A program that makes a slip, in the short comparison, which the gate runs, or in one as brief.
makes() { # PART SLIP [LENGTH]
    same "$1: it finds $2" 1 "$(SLIP=$2 target/oracle/oracle compare --only "$1" --first "${3:---short}" -- "$slipped" replay >/dev/null 2>&1; echo $?)"
}
makes speech "a run count of the level that is held at 200"
makes protector "a run count of the protector that is held at 200"
makes controller "a first step of 200 changes at most"
makes controller "waiting for 200 frames at most"
makes chain "a run count of the protector that is held at 200"
makes chain "a first step of 200 changes at most"
for part in speech protector controller chain; do makes "$part" "a threshold of 3,001 taken" --brief; done
makes chain "that a refused frame ends a run" --brief
for slip in "a place that goes round at 16" "a place that goes round at 4" "a ring that is full with 4" "a ring that holds 16" \
    "a capacity of 17 taken" "a test that looks at every slot"; do
    for part in ring protector; do makes "$part" "$slip" --brief; done
done
makes ring "equality that wants one capacity" --brief
makes protector "keeping without the slots from the capacity on" --brief
for slip in "a place that goes round at 16" "a capacity of 17 taken" "a test that looks at every slot"; do makes chain "$slip" --brief; done
makes speech "a gap after which the level's run goes on" --brief
makes speech "a gap that keeps a short run" --brief
makes speech "a gap in a level that fails its test" --brief
makes protector "a gap after which the headroom's run goes on" --brief
makes protector "a gap in a headroom that fails its test" --brief
makes controller "a gap after which the gain need not wait" --brief
makes controller "a gap in a gain that fails its test" --brief
for slip in "a gap after which the level's run goes on" "a gap that keeps a short run" "a gap after which the headroom's run goes on" \
    "a gap after which the gain need not wait" "a gap that moves the gain" "a gap in a chain that fails its test"; do
    makes chain "$slip" --brief
done

# The test of a handed-in state: of each clause of each part's test there are questions that a program without that clause answers
# wrongly. The wrong program is the oracle's own answers, by a test without the clause; and the sound program is asked the same.
for part in ring curve estimator applier limiter speech protector controller chain; do
    same "$part: the comparison of its test finds nothing where nothing is left out" 0 \
        "$(target/oracle/oracle compare --only "$part" --states -- tests/run-program replay >/dev/null 2>&1; echo $?)"
    target/oracle/oracle clauses "$part" >"$room/clauses"
    while read -r clause; do
        target/oracle/oracle compare --only "$part" --first --states -- target/oracle/oracle replay --without "$clause" >/dev/null 2>&1 </dev/null
        same "$part: it finds a test without its clause '$clause'" 1 $?
    done <"$room/clauses"
done
same "the clauses are those of documents 01 and 02: so many for each part" "4 2 3 4 6 15 18 15 54" \
    "$(for part in ring curve estimator applier limiter speech protector controller chain; do target/oracle/oracle clauses "$part" | wc -l; done | paste -sd' ')"
# The short comparison, which the gate runs, asks these questions too.
same "speech: the short comparison finds a test without a clause" 1 \
    "$(target/oracle/oracle compare --only speech --first --short -- target/oracle/oracle replay --without 'speech reliable sum' >/dev/null 2>&1; echo $?)"
same "chain: the short comparison finds parts that are not alike in a setting" 1 \
    "$(target/oracle/oracle compare --only chain --first --short -- target/oracle/oracle replay --without 'chain output noise' >/dev/null 2>&1; echo $?)"
# A refused frame in the middle of a service, in the chain's answers: the first that is refused after those about the edges of the
# test, behind which the services are. It must not be told as accepted, and it must give its samples back.
edges=$(target/oracle/oracle compare --only chain --states -- target/oracle/oracle replay | sed -n 's/.*: \([0-9]*\) answers compared.*/\1/p')
refused() { echo "awk 'NR > ${edges:-0} && /^0000000[123] 00000001/ && !done { done = 1; $1 } { print }'"; } # CHANGE
same "chain: it finds a refused frame in a service that is said to be accepted" 1 \
    "$(through chain "$(refused 'sub(/^0000000./, "00000000")')")"
same "chain: it finds a refused frame in a service whose samples are altered" 1 \
    "$(through chain "$(refused 'sub(/.$/, /7$/ ? "8" : "7")')")"

# At scale: a wrong program is found, the questions are shrunk to a few, and what is kept shows the difference
# with that program and none with the sound one.
at_scale() { # NAME PART MOST COMMAND..
    local name="scale, $2: it finds $1" part=$2 most=$3 kept=target/oracle/smallest lines
    shift 3
    rm -f "$kept".*
    target/oracle/oracle scale --only "$part" -- "$@" >"$room/scale" 2>&1
    same "$name" 1 $?
    lines=$(wc -l <"$kept.questions")
    if [ "${lines:-0}" -ge 1 ] && [ "$lines" -le "$most" ]; then
        echo "ok $name, and $most questions or fewer are kept"
    else
        echo "not ok $name, and $most questions or fewer are kept: ${lines:-none}"
    fi
    if "$@" <"$kept.questions" >"$room/again" 2>/dev/null && cmp -s "$room/again" "$kept.due"; then
        echo "not ok $name, and they show it again"
    else
        echo "ok $name, and they show it again"
    fi
    tests/run-program replay <"$kept.questions" >"$room/again"
    same_file "$name, and the sound program answers them as it must" "$kept.due" "$room/again"
    rm -f "$kept".*
}
damaged() { echo "tests/run-program replay | $1"; }
at_scale "one digit that is altered" ratio 1 bash -c "$(damaged "sed 's/^\(00000000 41.\)7/\18/'")"
at_scale "a ring of three that is altered" ring 4 bash -c "$(damaged "sed '/^.\{27\}00000003/s/f\$/e/; /^.\{27\}00000003/s/0\$/1/'")"
at_scale "a frame that is said not to be published" chain 201 bash -c "$(damaged "sed 's/^00000000 00000001 00000002/00000000 00000001 00000001/'")"
at_scale "an answer that is missing at the end" curve 1 bash -c "$(damaged "sed '\$d'")"
at_scale "an answer too many" limiter 1 bash -c "$(damaged "sed '\$p'")"
at_scale "that the program fails" estimator 1 bash -c "$(damaged 'cat; exit 3')"
at_scale "that nothing is answered" applier 1 bash -c "$(damaged 'cat >/dev/null')"
# A program with a slip in it, whose state is wrong from there on.
SLIP="a peak that is pushed a frame early" at_scale "a peak that is pushed a frame early" protector 41 "$slipped" replay
SLIP="a cough that leaves a trace" at_scale "a cough that leaves a trace" speech 4 "$slipped" replay
target/oracle/oracle scale --only nothing -- cat >/dev/null 2>&1
same "scale: a part that there is not is refused" 2 $?

# The Rust itself is compared, and not only what the oracle has by hand: a slip in each of the parts that judge, in the Rust
# that the oracle is built over, is found.
under() { # PART SLIP
    SLIP=$2 "$slipped" compare --only "$1" --brief -- tests/run-program replay >/dev/null 2>&1
    echo $?
}
same "speech: it finds a slip in the Rust" 1 "$(under speech "speech from another probability")"
same "protector: it finds a slip in the Rust" 1 "$(under protector "a peak that the Rust pushes early")"
same "controller: it finds a slip in the Rust" 1 "$(under controller "no first faster step")"
for slip in "speech from another probability" "a peak that the Rust pushes early" "no first faster step"; do
    same "chain: it finds a slip in the Rust: $slip" 1 "$(under chain "$slip")"
    same "strips: it finds a slip in the Rust: $slip" 1 \
        "$(SLIP=$slip target/oracle/oracle strips --first --count 100 -- "$slipped" strip >/dev/null 2>&1; echo $?)"
done
same "scale, ring: it finds a slip in the Rust" 1 \
    "$(SLIP="a ring of the Rust that holds three" "$slipped" scale --only ring -- tests/run-program replay >/dev/null 2>&1; echo $?)"
for part in speech protector controller chain; do
    same "$part: where the Rust has no slip, it finds none" 0 "$(under "$part" "")"
done
