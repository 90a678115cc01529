#!/usr/bin/env bash
# Rings of other sizes than the published one, which all other scripts compare: of 1 and of 16, or of each from 1 to 16 where the
# variable `length` is --long, as ./test --long sets it. For each of them the oracle is built over the Rust with such a ring.
cd "$(dirname "$0")/../.." || exit 1
. tests/check.bash
room=$(mktemp -d)
trap 'rm -rf "$room"' EXIT
mapfile -t strip < <(tests/run-program --words strip)

# What the gate asks is brief: each part's questions about handed-in states, a few sequences, and some that go round the ring. What
# does not depend on the ring, as long runs up to a T of 3,000, is asked at the published size.
sizes=(1 16) run=--brief
if [ "${length:-}" = --long ]; then sizes=({1..16}) run=--long; fi

# Whether a number is at least another.
enough() { if [ "${1:-0}" -ge "$2" ]; then echo yes; else echo "${1:-none}"; fi; } # NUMBER LEAST

# The parts that have a ring, with the Rust's of this size beside: sequences in which it is full and goes round a dozen times.
compare_parts() { # SIZE ORACLE
    local part name
    for part in ring protector chain; do
        name="a ring of $1: $part"
        "$2" compare --only $part $run -- tests/run-program replay | tee "$room/said"
        same "$name: every answer is as due, and the Rust's ring is of that size" "0 yes" \
            "${PIPESTATUS[0]} $(grep -q "^$part, .* the Rust's ring of $1, " "$room/said" && echo yes)"
        same "$name: with the Rust beside, $((12 * $1)) peaks or more are pushed into a full ring" yes \
            "$(enough "$(sed -n 's/.* beside, \([0-9]*\) of them into a full ring.*/\1/p' "$room/said")" $((12 * $1)))"
    done
}

# Whole strips, some of which go round the ring. With another ring the program must be found to print something else.
compare_strips() { # SIZE ORACLE OTHER
    "$2" strips --seed 1 --count 200 -- "${strip[@]}" --ring "$1"
    same "a ring of $1: the strips that go round it and 200 random ones, byte for byte as the ruled Rust has them" 0 $?
    "$2" strips --first --count 0 -- "${strip[@]}" --ring "$3" >"$room/said" 2>&1
    same "a ring of $1: the comparison finds that strips are printed with a ring of $3, in a line" "1 1" \
        "$? $(grep -c '^  differs: .* line [0-9]*: "[0-9]* P .* is due$' "$room/said")"
}

# Recordings, each with a strip that goes round the ring.
compare_recordings() { # SIZE ORACLE OTHER
    local seed=0 frames=0 records rate channels part
    : >"$room/apart"
    for rate in 4000 8000; do
        for channels in 1 2; do
            seed=$((seed + 1)) part=$((rate / 100))
            tests/rust/ring-strip $seed $part "$1" >"$room/strip"
            records=$((($(wc -c <"$room/strip") - 27) / 22))
            frames=$((frames + records))
            tests/wav-maker --rate $rate --channels $channels --samples $((part * records)) --loud 3000 --seed $seed >"$room/in.wav"
            "$2" recording "$room/strip" <"$room/in.wav" >"$room/due" 2>>"$room/apart"
            tests/run-program recording --ring "$1" "$room/strip" <"$room/in.wav" >"$room/got" 2>>"$room/apart"
            cmp "$room/due" "$room/got" >>"$room/apart" 2>&1
        done
    done
    same "a ring of $1: $seed recordings, $frames frames of 1 and 2 channels at 4000 and 8000 Hz, as the ruled Rust has them" "" "$(cat "$room/apart")"
    tests/run-program recording --ring "$3" "$room/strip" <"$room/in.wav" >"$room/got" 2>/dev/null
    same "a ring of $1: the comparison finds that a recording is levelled with a ring of $3, in so many bytes" "1 $(wc -c <"$room/due")" \
        "$(cmp -s "$room/due" "$room/got"; echo $?) $(wc -c <"$room/got")"
}

for size in "${sizes[@]}"; do
    if ! oracle/build --ring "$size"; then
        echo "not ok the oracle is built over the Rust with a ring of $size"
        continue
    fi
    echo "ok the oracle is built over the Rust with a ring of $size"
    oracle=target/oracle/ring-$size/oracle other=$((size == 1 ? 2 : size - 1))
    compare_parts "$size" "$oracle"
    compare_strips "$size" "$oracle" "$other"
    compare_recordings "$size" "$oracle" "$other"
done

# The lines of an echoing hall, which tests/strip.sh has, with rings of 1, of 4 and of 16.
same "the stored digests of tests/strips/echo are the oracle's" "$(cat tests/strips/echo.sha256)" \
    "$(for size in 1 4 16; do
        oracle=target/oracle/ring-$size/oracle
        [ $size != 4 ] || oracle=target/oracle/oracle
        echo "$(tests/strips/echo | "$oracle" strip | sha256sum | head -c 64) $size"
    done)"

# The largest ring itself is compared, and not only what the oracle has by hand: one of the Rust that goes round a peak early is found.
slips=$room/slips full='self.next == SATURATION_PROTECTOR_BUFFER_SIZE'
cp -r target/oracle/ring-16/ruled "$slips"
same "the Rust's ring goes round in one place" 1 "$(grep -c "$full" "$slips/saturation_protector_buffer.rs")"
sed -i "s/$full/self.next + 1 >= SATURATION_PROTECTOR_BUFFER_SIZE/" "$slips/saturation_protector_buffer.rs"
if rustc --edition 2021 -A warnings -O --crate-type rlib --crate-name sonora_ruled -o "$room/libsonora_ruled.rlib" "$slips/lib.rs" &&
    rustc --edition 2021 -A warnings --crate-name oracle -o "$room/slipped" --extern "sonora_ruled=$room/libsonora_ruled.rlib" \
        --extern sonora_as_is=target/oracle/ring-16/libsonora_as_is.rlib oracle/src/main.rs; then
    for part in ring protector; do
        "$room/slipped" compare --only $part --brief -- target/oracle/ring-16/oracle replay >"$room/said"
        same "a ring of 16: $part: it finds that the Rust's goes round a peak early, and nothing else" "1 0 differ" \
            "$? $(sed -n 's/.* answers compared, //p' "$room/said")"
    done
else
    echo "not ok the oracle is built over a ring of the Rust that goes round a peak early"
fi

# No other size is built.
same "a ring of 0, of 17 and of no number is refused" "2 2 2 2" \
    "$(for words in "--ring 0" "--ring 17" "--ring x" "--ring"; do oracle/build $words 2>/dev/null; echo $?; done | paste -sd' ')"
