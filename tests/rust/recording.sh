#!/usr/bin/env bash
# The program `recording` against the ruled Rust, byte for byte.
cd "$(dirname "$0")/../.." || exit 1
. tests/check.bash
room=$(mktemp -d)
trap 'rm -rf "$room"' EXIT

target/oracle/oracle recording crates/recording/data/service.strip <crates/recording/stdin >"$room/due"
same_file "the stored levelled recording is the oracle's" "$room/due" crates/recording/stdout

# The recordings whose digests tests/recording.sh has.
tests/some-recordings "$room/some"
for file in "$room"/some/*.wav; do
    name=$(basename "$file" .wav)
    echo "$(target/oracle/oracle recording "$room/some/$name.strip" <"$file" | sha256sum | head -c 64) $name"
done >"$room/digests"
same_file "the stored digests of levelled recordings are the oracle's" tests/some-recordings.sha256 "$room/digests"

# Noise of a second and a half, quiet and loud, with strips of version 2 and 1 in turn, and 20 gaps in every second one of version 2.
seed=0 frames=0
: >"$room/apart"
for rate in 8000 48000; do
    for channels in 1 2 8; do
        for loud in 300 12000 32767; do
            seed=$((seed + 1))
            part=$((rate / 100))
            samples=$((part * 150 + 7 * seed))
            records=$(((samples + part - 1) / part))
            frames=$((frames + records))
            tests/wav-maker --rate $rate --channels $channels --samples $samples --loud $loud --seed $seed >"$room/in.wav"
            tests/random-strip $seed $part $records $((1 + seed % 2)) $((seed % 4 == 1 ? 20 : 0)) >"$room/strip"
            target/oracle/oracle recording "$room/strip" <"$room/in.wav" >"$room/due" 2>>"$room/apart"
            tests/run-program recording "$room/strip" <"$room/in.wav" >"$room/got" 2>>"$room/apart"
            same "seed $seed: so many bytes" $((44 + 2 * channels * samples)) "$(wc -c <"$room/due")" | grep '^not ok' >>"$room/apart"
            cmp "$room/due" "$room/got" >>"$room/apart" 2>&1
        done
    done
done
same "recording: $seed recordings of noise, $frames frames of 1, 2 and 8 channels at 8000 and 48000 Hz, strips of both versions, with gaps in version 2, as the ruled Rust has them" \
    "" "$(cat "$room/apart")"
