//! Strips for the program `strip`, each run through it once and compared byte for byte with what strip.rs
//! has: fixed ones, in which each thing that a strip can have wrong stands alone, and random ones, which are
//! whole services and damaged ones. About half of them are of version 1, and half of version 2; of those of version 2 about
//! half have gaps.
//!
//! Some of the fixed ones go several times round the ring. What a strip is refused for does not depend on the ring: where the Rust has
//! another one than published, only these and the paper's are run of the fixed ones.
//!
//! A random strip depends on the seed and on its own number alone, so a run finds the same strips whatever
//! the number of cores.

use crate::chain::{self, Figures, Passage};
use crate::judge::{self, fraction, one_of, Settings, ENVELOPE, LEVEL, PROBABILITY, RMS};
use crate::random::Random;
use crate::sound;
use crate::strip::{self, Seen, Version, RECORD, VERSIONS};
use std::io::{Read, Write};
use std::process::{Command, Stdio};
use std::sync::atomic::{AtomicUsize, Ordering};
use std::sync::Mutex;

/// What a strip is for, and its bytes.
pub type Case = (&'static str, Vec<u8>);

const RANGES: [judge::Range; 5] = [PROBABILITY, RMS, LEVEL, LEVEL, ENVELOPE];

pub fn head(version: &Version, threshold: u32, samples: u32, settings: Settings) -> Vec<u8> {
    let mut all = vec![0, version.length as u8, version.number];
    match version.number {
        1 => all.push(threshold as u8),
        _ => all.extend((threshold as u16).to_be_bytes()),
    }
    all.extend((samples as u16).to_be_bytes());
    all.extend(settings.0.iter().flat_map(|b| b.to_be_bytes()));
    all
}

pub fn record(figures: &Figures) -> Vec<u8> {
    let mut all = vec![0, 20];
    all.extend(figures.iter().flat_map(|b| b.to_be_bytes()));
    all
}

/// A record of length 0, which is a gap in version 2.
const GAP: [u8; 2] = [0, 0];

fn with(strip: &[u8], at: usize, byte: u8) -> Vec<u8> {
    let mut all = strip.to_vec();
    all[at] = byte;
    all
}

/// The paper's worked strip, and its twin in version 2.
fn paper(version: &Version) -> Vec<u8> {
    let mut all = head(version, 2, 480, Settings::USUAL);
    for [p, rms, peak] in [[0.0, -60.0, -60.0], [1.0, -10.0, -5.0], [0.0, -60.0, -60.0], [1.0, -40.0, 0.0], [1.0, -40.0, 0.0]] {
        all.extend(record(&[p, rms, peak, -90.0, -90.0].map(f32::to_bits)));
    }
    all
}

/// A head, and two records behind it.
fn short(head: Vec<u8>) -> Vec<u8> {
    [head, record(&chain::GOOD), record(&chain::GOOD)].concat()
}

/// Thresholds of a head: inside and outside of both versions' ranges, at the ends of a byte, and numbers whose bytes say
/// something else where one of them is left out or both change places.
const HEAD_THRESHOLDS: [u32; 38] = [
    0, 1, 2, 3, 40, 41, 42, 127, 128, 199, 200, 201, 202, 254, 255, 256, 257, 258, 300, 456, 511, 512, 768, 1024, 1500, 2816,
    2999, 3000, 3001, 3002, 3072, 0x0c01, 0x4002, 0x7fff, 0x8000, 0xb80b, 0xff00, 0xffff,
];

/// Each thing that a head can have wrong, and each end of what it may have.
fn fixed_heads(version: &Version, all: &mut Vec<Case>) {
    for settings in Settings::ends() {
        all.push(("a setting at its end", short(head(version, 2, 480, settings))));
    }
    for settings in Settings::wrong() {
        all.push(("a setting that is refused", short(head(version, 2, 480, settings))));
        all.push(("samples and a setting that are refused", short(head(version, 2, 20, settings))));
    }
    for threshold in HEAD_THRESHOLDS {
        if version.number == 1 && threshold > 255 {
            continue;
        }
        // As many records as it takes, where it is accepted, and two more.
        let samples = if threshold > 300 { 40 } else { 480 };
        let mut strip = short(head(version, threshold, samples, Settings::USUAL));
        if judge::is_threshold(threshold) {
            (0..threshold).for_each(|_| strip.extend(record(&chain::GOOD)));
        }
        all.push(("a threshold", strip));
        if threshold == 0 || threshold > version.largest {
            all.push(("samples and a threshold that are refused", short(head(version, threshold, 50, Settings::USUAL))));
        }
    }
    for samples in (0..520).step_by(20).chain([1, 39, 41, 50, 110, 479, 481, 0x2800, 0xe001, 0x8028, 0xffff]) {
        all.push(("a number of samples", short(head(version, 2, samples, Settings::USUAL))));
    }
    all.push(("a refused head that is cut", head(version, 0, 20, Settings::default())[..25].to_vec()));
}

/// The bytes that a head begins with: lengths crossed with versions, over the rest of either version's head, with two records
/// behind it; and cut, where the length is one of the two at each byte.
fn fixed_starts(all: &mut Vec<Case>) {
    for [high, low] in [[0, 0], [0, 20], [0, 23], [0, 24], [0, 25], [0, 26], [24, 0], [25, 0], [1, 24], [1, 25], [255, 255]] {
        for number in [0, 1, 2, 3, 128, 255] {
            for version in &VERSIONS {
                let mut strip = head(version, 2, 480, Settings::USUAL);
                strip[..3].copy_from_slice(&[high, low, number]);
                all.push(("a head's length and version", short(strip.clone())));
                let is_length = VERSIONS.iter().any(|other| [0, other.length as u8] == [high, low]);
                let cuts = if is_length && number < 4 { 0..=strip.len() } else { 3..=3 };
                if version.number == 2 {
                    all.extend(cuts.map(|n| ("a head's length and version where it is cut", strip[..n].to_vec())));
                }
            }
        }
    }
}

/// Each thing that a record can have wrong, and each end of what it may have.
fn fixed_records(version: &Version, all: &mut Vec<Case>) {
    let before = short(head(version, 2, 40, Settings::USUAL));
    let mut ends = head(version, 1, 40, Settings::USUAL);
    for (i, range) in RANGES.iter().enumerate() {
        let mut figures = chain::GOOD;
        for &b in range.ends {
            figures[i] = b;
            ends.extend(record(&figures));
        }
        for &b in range.wrong {
            figures[i] = b;
            all.push(("a figure that is refused", [&before[..], &record(&figures), &record(&chain::GOOD)].concat()));
            all.push(("a refused record that is cut", [&before[..], &record(&figures)[..21]].concat()));
        }
    }
    all.push(("every figure at its ends", ends));
    for [high, low] in [[0, 0], [0, 19], [0, 21], [0, 22], [0, 24], [20, 0], [1, 20], [255, 255]] {
        let wrong = with(&with(&record(&chain::GOOD), 0, high), 1, low);
        all.push(("a record's length", [&before[..], &wrong, &record(&chain::GOOD)].concat()));
        all.push(("a record's length where it is cut", [&before[..], &wrong[..2]].concat()));
    }
}

/// Records, each of which a letter stands for: s is speech, n is none, and g is a gap.
fn spelled(letters: &str) -> Vec<u8> {
    let mut pause = chain::GOOD;
    pause[0] = 0;
    let one = |letter| match letter {
        's' => record(&chain::GOOD),
        'n' => record(&pause),
        _ => GAP.to_vec(),
    };
    letters.chars().flat_map(one).collect()
}

/// Gaps: at the start, at the end, between frames of each kind, in a row, alone; after runs around the threshold, beside the
/// same runs without a gap; at each place of the blocks in which a strip is read; cut, damaged, and in version 1.
fn fixed_gaps(all: &mut Vec<Case>) {
    let [one, two] = &VERSIONS;
    let start = |version: &Version, threshold: u32| head(version, threshold, 40, Settings::USUAL);
    for letters in ["g", "gg", "gs", "sg", "sgs", "sgss", "ssgs", "ssgss", "sggs", "gsgsg", "ngn", "sgn", "ngs", "ssgn", "sgnss", "gnsgssg"] {
        for threshold in 1..=3 {
            all.push(("gaps", [start(two, threshold), spelled(letters)].concat()));
        }
        all.push(("a length of 0 in version 1", [start(one, 2), spelled(letters)].concat()));
    }
    for t in [1, 2, 3, 12, 40, 41, 200, 201, 256, judge::LARGEST_THRESHOLD] {
        let speech = |n: u32| record(&chain::GOOD).repeat(n as usize);
        for (before, after) in [(t - 1, t - 1), (t - 1, t), (t, t - 1), (t, t), (t + 1, t + 1), (t + 50, 2)] {
            all.push(("a run, a gap and a run", [start(two, t), speech(before), GAP.to_vec(), speech(after)].concat()));
            // The run goes on where no gap is.
            if (before, after) == (t - 1, t - 1) {
                all.push(("the same run without a gap", [start(two, t), speech(2 * t - 2)].concat()));
            }
        }
    }
    // Each block of 4096 bytes then ends in another place of a record, or in the middle of a gap.
    for n in [0, 1, 2, 3, 4, 5, 6, 7, 8, 9, 10, 11, 2034, 2035, 5000] {
        all.push(("many gaps", [start(two, 3), GAP.repeat(n), spelled(&"ssgn".repeat(100))].concat()));
    }
    all.push(("many gaps alone", [start(two, 3), GAP.repeat(40_000)].concat()));
    all.push(("half a gap behind many", [start(two, 3), GAP.repeat(5000), vec![0]].concat()));
    let few = [start(two, 2), spelled("gsggsg")].concat();
    let first = two.head();
    all.extend((first..=few.len()).map(|n| ("gaps, cut at each byte", few[..n].to_vec())));
    for at in [first, first + 24, first + 26, few.len() - 2] {
        for bit in 0..16 {
            let byte = at + bit / 8;
            all.push(("each bit of a gap flipped", with(&few, byte, few[byte] ^ 1 << (bit % 8))));
        }
    }
    for [high, low] in [[0, 1], [0, 2], [0, 19], [0, 21], [1, 0], [20, 0], [255, 255]] {
        all.push(("a record's length behind a gap", [start(two, 2), spelled("sg"), vec![high, low], spelled("s")].concat()));
    }
    for n in [1, 2, 3, 21] {
        all.push(("a record that is cut behind a gap", [start(two, 2), spelled("sg"), spelled("s")[..n].to_vec()].concat()));
    }
    for version in &VERSIONS {
        all.push(("half a gap", [start(version, 2), spelled("s"), vec![0]].concat()));
        all.push(("half a gap alone", [start(version, 2), vec![0]].concat()));
        all.push(("half a gap before a record", [start(version, 2), vec![0], spelled("s")].concat()));
    }
}

/// Readings and coughs with peaks that each move the headroom, which fill the Rust's ring and go round it several times.
fn rounds(threshold: u32, source: &mut Random) -> Vec<u8> {
    let mut all = Vec::new();
    for passage in Passage::many_near(threshold, judge::frames_of_rounds(), source) {
        for i in 0..passage.length + passage.pause {
            all.extend(record(&passage.figures(i < passage.length, source)));
        }
    }
    all
}

fn fixed() -> Vec<Case> {
    let mut all: Vec<Case> = VERSIONS.iter().map(|version| ("the paper's strip", paper(version))).collect();
    // More than a pipe holds, in both directions.
    let source = &mut Random::new(0);
    all.push(("a long one", [head(&VERSIONS[0], 12, 480, Settings::USUAL), passages(12, 20_000, false, source)].concat()));
    for (i, threshold) in [1, 2, 3, 12, 41, 60, 200, 300].into_iter().enumerate() {
        let version = &VERSIONS[i % 2];
        let mut records = rounds(threshold, source);
        if version.gaps && i % 4 == 1 {
            records = with_gaps(threshold, &records, source);
        }
        all.push(("round the ring", [head(version, threshold, 40, Settings::USUAL), records].concat()));
    }
    if judge::ring() == judge::DEFAULT_RING {
        all.extend(fixed_with_any_ring());
    }
    all
}

/// Those in which the ring does not matter.
fn fixed_with_any_ring() -> Vec<Case> {
    let mut all = Vec::new();
    // It starts at -20, and one frame of 20 brings it to 0.
    let settings = Settings([0, 0x4248_0000, 0, 0x40c0_0000, 0xc248_0000]);
    let twenty = [1.0_f32, 20.0, 20.0, -90.0, -90.0].map(f32::to_bits);
    all.push(("a level of zero", [head(&VERSIONS[1], 1, 40, settings), record(&twenty)].concat()));
    for version in &VERSIONS {
        fixed_heads(version, &mut all);
        fixed_records(version, &mut all);
    }
    fixed_starts(&mut all);
    fixed_gaps(&mut all);
    for version in &VERSIONS {
        let few = &paper(version)[..version.head() + 2 * RECORD];
        for n in 0..=few.len() {
            all.push(("cut at each byte", few[..n].to_vec()));
        }
        // Records are the same in both versions.
        let flipped = version.head() + if version.number == 1 { RECORD } else { 2 };
        for bit in 0..8 * flipped {
            all.push(("each bit flipped", with(few, bit / 8, few[bit / 8] ^ 1 << (bit % 8))));
        }
    }
    all
}

/// Readings, coughs and pauses; where so asked, with peaks above the speech by about what the headroom can be,
/// so that each of them moves it.
fn passages(threshold: u32, records: usize, near: bool, source: &mut Random) -> Vec<u8> {
    let mut all = Vec::new();
    while all.len() < records * RECORD {
        let passage = Passage::any(threshold, source);
        for i in 0..passage.length + passage.pause {
            let mut figures = passage.figures(i < passage.length, source);
            if near {
                let rms = -40.0 - 4.0 * fraction(source);
                figures[1] = rms.to_bits();
                figures[2] = (rms + 10.0 + 16.0 * fraction(source)).to_bits();
            }
            all.extend(record(&figures));
        }
    }
    all.truncate(records * RECORD);
    all
}

/// Any figures that are accepted: ends, and any bits.
fn extremes(records: usize, source: &mut Random) -> Vec<u8> {
    let mut all = Vec::new();
    for _ in 0..records {
        let mut figures = chain::GOOD;
        for (i, range) in RANGES.iter().enumerate() {
            figures[i] = one_of(range.ends, source);
            while source.up_to(1) == 0 || !chain::accepted(&figures) {
                figures[i] = source.next() as u32;
            }
        }
        if source.up_to(1) == 0 {
            figures[0] = judge::probability(true, source);
        }
        all.extend(record(&figures));
    }
    all
}

/// The f32 nearest to so many hundredths.
fn hundredth(n: i32) -> f32 {
    (n as f64 / 100.0) as f32
}

/// Speech at one level with hardly a change, and a frame here and there that is no speech.
fn steady(records: usize, mut level: impl FnMut(usize, &mut Random) -> f32, source: &mut Random) -> Vec<u8> {
    let mut all = Vec::new();
    for i in 0..records {
        let probability = if source.up_to(15) == 0 { 0 } else { 0x3f80_0000 };
        let rms = level(i, source).to_bits();
        let noise = hundredth(-(source.up_to(9000) as i32)).to_bits();
        all.extend(record(&[probability, rms, one_of(&[0xc1a0_0000, rms], source), noise, 0xc2b4_0000]));
    }
    all
}

/// The same records with gaps among them: here and there, at the start and at the end, one or several in a row, and more often
/// than elsewhere after as many frames of speech as the threshold is, one fewer and one more.
fn with_gaps(threshold: u32, records: &[u8], source: &mut Random) -> Vec<u8> {
    let often = one_of(&[2, 8, 40, 400], source);
    let some = |most: u32, source: &mut Random| match source.up_to(most) {
        0 => GAP.repeat(one_of(&[1, 1, 1, 1, 2, 2, 3, 12], source)),
        _ => Vec::new(),
    };
    let mut all = some(3, source);
    let mut run = 0;
    for record in records.chunks(RECORD) {
        all.extend(record);
        let probability = u32::from_be_bytes([record[2], record[3], record[4], record[5]]);
        run = if judge::is_speech(f32::from_bits(probability)) { run + 1 } else { 0 };
        let near = run > 0 && (run + 1 == threshold || run == threshold || run == threshold + 1);
        let gaps = some(if near { 2 } else { often }, source);
        if !gaps.is_empty() {
            all.extend(gaps);
            run = 0;
        }
    }
    all.extend(some(3, source));
    all
}

/// A threshold that a version can say.
fn any_threshold(version: &Version, source: &mut Random) -> u32 {
    let all: Vec<u32> = judge::THRESHOLDS.iter().chain(&HEAD_THRESHOLDS).copied().collect();
    let some: Vec<u32> = all.into_iter().filter(|t| (1..=version.largest).contains(t)).collect();
    match source.up_to(3) {
        0 => 1 + source.up_to(version.largest - 1),
        1 => one_of(&some, source),
        _ => 1 + source.up_to(4),
    }
}

/// A strip that is accepted, with its version.
fn service(source: &mut Random) -> (&'static Version, Case) {
    let version = &VERSIONS[source.up_to(1) as usize];
    let (threshold, samples) = (any_threshold(version, source), sound::any_samples(source));
    let records = match source.up_to(31) {
        0 => 300 + source.up_to(1500),
        // Enough for a long run to count, here and there.
        1..=4 if threshold > 200 => threshold + source.up_to(300),
        1 | 2 => source.up_to(300),
        _ => source.up_to(60),
    } as usize;
    let mut settings = Settings::any(source);
    let (what, rest) = match source.up_to(7) {
        0 => ("any figures", extremes(records, source)),
        // The published level stays within a few floats of some hundredths, on both sides of them.
        1 | 2 => {
            let [headroom, gain] = [0, 1].map(|_| hundredth(source.up_to(3500) as i32));
            settings.0[0] = headroom.to_bits();
            settings.0[2] = gain.to_bits();
            ("a level that stays", steady(records, |_, _| -20.0 - gain - headroom, source))
        }
        // It starts at -20 and comes near to 0 with the first frame that counts.
        3 => {
            settings.0[0] = 0;
            settings.0[2] = 0;
            let near = |i, source: &mut Random| (if i == 0 { 20.0 } else { 0.0 }) + 0.1 * fraction(source) - 0.05;
            ("a level near zero", steady(records, near, source))
        }
        4 => ("a service with peaks near its speech", passages(threshold, records, true, source)),
        _ => ("a service", passages(threshold, records, false, source)),
    };
    let rest = if version.gaps && source.up_to(1) == 0 { with_gaps(threshold, &rest, source) } else { rest };
    (version, (what, [head(version, threshold, samples, settings), rest].concat()))
}

/// A place of a strip, up to and with its end.
fn place(strip: &[u8], source: &mut Random) -> usize {
    source.up_to(strip.len() as u32) as usize
}

/// Where the records of a strip begin that is accepted, each with whether it is a gap.
fn places(version: &Version, strip: &[u8]) -> Vec<(usize, bool)> {
    let (mut at, mut all) = (version.head(), Vec::new());
    while at < strip.len() {
        let gap = version.gaps && strip[at..].starts_with(&GAP);
        all.push((at, gap));
        at += if gap { GAP.len() } else { RECORD };
    }
    all
}

/// The place of a record of figures, and none where a strip has none.
fn any_record(version: &Version, strip: &[u8], source: &mut Random) -> Option<usize> {
    let mut all = places(version, strip);
    all.retain(|&(_, gap)| !gap);
    (!all.is_empty()).then(|| one_of(&all, source).0)
}

/// Where a record begins, or the last one ends.
fn between_records(version: &Version, strip: &[u8], source: &mut Random) -> usize {
    let mut all = places(version, strip);
    all.push((strip.len(), false));
    one_of(&all, source).0
}

/// No number or an infinity, in any of its forms.
fn no_number(source: &mut Random) -> u32 {
    0x7f80_0000 | source.up_to(1) << 31 | one_of(&[0, 0, 1, 0x0040_0000, 0x007f_ffff, source.next() as u32 & 0x007f_ffff], source)
}

/// A strip with something wrong in it, or that comes out so. Some stay accepted.
fn damaged(source: &mut Random) -> Case {
    let (version, (_, mut strip)) = service(source);
    let head = version.head();
    match source.up_to(17) {
        0 | 1 => {
            strip.truncate(place(&strip, source));
            ("cut", strip)
        }
        2 => {
            for _ in 0..=source.up_to(2) {
                let at = place(&strip[1..], source);
                strip[at] ^= 1 << source.up_to(7);
            }
            ("flipped bits", strip)
        }
        3 => {
            let at = place(&strip, source);
            let more: Vec<u8> = (0..=source.up_to(30)).map(|_| source.next() as u8).collect();
            strip.splice(at..at, more);
            ("inserted bytes", strip)
        }
        4 => {
            let at = place(&strip, source);
            let to = (at + 1 + source.up_to(30) as usize).min(strip.len());
            strip.drain(at..to);
            ("dropped bytes", strip)
        }
        5 | 6 => {
            if let Some(at) = any_record(version, &strip, source) {
                let i = source.up_to(4) as usize;
                let bits = if source.up_to(1) == 0 { no_number(source) } else { one_of(RANGES[i].wrong, source) };
                strip[at + 2 + 4 * i..at + 6 + 4 * i].copy_from_slice(&bits.to_be_bytes());
            }
            ("a figure that is refused", strip)
        }
        7 => {
            if let Some(at) = any_record(version, &strip, source) {
                strip[at + source.up_to(1) as usize] = source.next() as u8;
            }
            ("a record's length", strip)
        }
        8 => {
            let at = one_of(&[0, 1, 2, 3, 4, 5, 6], source);
            strip[at] = source.next() as u8;
            ("a byte of the head", strip)
        }
        9 => {
            let at = head - 20 + 4 * source.up_to(4) as usize;
            strip[at..at + 4].copy_from_slice(&no_number(source).to_be_bytes());
            ("a setting that is no number", strip)
        }
        10 => {
            let (_, (_, other)) = service(source);
            ("a strip behind another", [strip, other].concat())
        }
        11 => {
            let all = [0, 1, 200, 201, 255, 256, 300, 3000, 3001, 65535, source.up_to(65535), 3001 + source.up_to(62534)];
            let threshold = one_of(&all, source).to_be_bytes();
            strip[3..head - 22].copy_from_slice(&threshold[4 - (head - 25)..]);
            ("another threshold", strip)
        }
        12 => {
            strip[1] = one_of(&[24, 25], source);
            strip[2] = one_of(&[0, 1, 2, 3], source);
            ("another length and version", strip)
        }
        13 => {
            strip.truncate(source.up_to(27) as usize);
            strip.iter_mut().skip(2).take(1).for_each(|byte| *byte = one_of(&[1, 2, 2, 1, 0, 3], source));
            ("a head that is cut", strip)
        }
        14 => {
            let at = between_records(version, &strip, source);
            strip.splice(at..at, GAP.repeat(1 + source.up_to(2) as usize));
            ("a length of 0", strip)
        }
        15 => {
            let at = between_records(version, &strip, source);
            strip.truncate(at);
            strip.push(0);
            ("cut after one byte of a record", strip)
        }
        16 => {
            let at = between_records(version, &strip, source);
            strip.insert(at, 0);
            ("half a gap", strip)
        }
        _ => ("any bytes", (0..source.up_to(100)).map(|_| source.next() as u8).collect()),
    }
}

/// The random strip of a number.
pub fn random(seed: u64, number: usize) -> Case {
    let start = Random::new(seed ^ (number as u64) << 32).next();
    let source = &mut Random::new(start);
    if source.up_to(1) == 0 {
        service(source).1
    } else {
        damaged(source)
    }
}

/// What a program prints for a strip. It need not take the whole of one that it refuses.
fn run(command: &[String], strip: &[u8]) -> Result<Vec<u8>, String> {
    let mut child = Command::new(&command[0])
        .args(&command[1..])
        .stdin(Stdio::piped())
        .stdout(Stdio::piped())
        .spawn()
        .map_err(|e| format!("cannot run {}: {}", command[0], e))?;
    let mut input = child.stdin.take().ok_or("no standard input")?;
    let mut output = child.stdout.take().ok_or("no standard output")?;
    let mut got = Vec::new();
    let read = std::thread::scope(|scope| {
        scope.spawn(move || input.write_all(strip));
        output.read_to_end(&mut got)
    });
    read.map_err(|e| e.to_string())?;
    let ended = child.wait().map_err(|e| e.to_string())?;
    if ended.success() {
        Ok(got)
    } else {
        Err(format!("the command ended with {}", ended))
    }
}

/// A strip that differs: its number, what is due, and what came.
struct Unlike {
    number: usize,
    case: Case,
    due: Vec<u8>,
    got: Result<Vec<u8>, String>,
}

/// What the comparison is asked for: the seed, how many random strips, whether it ends at the first that differs, and the
/// command.
pub struct Wish {
    pub seed: u64,
    pub count: usize,
    pub first: bool,
    pub command: Vec<String>,
}

/// What the comparison counts.
#[derive(Default)]
struct Tally {
    strips: usize,
    /// By the byte where the version stands: 1, 2, and another or none.
    versions: [usize; 3],
    /// Heads that are not refused, by version; of these with T above 200, and their lines of the kind P.
    heads: [usize; 2],
    late: [usize; 2],
    records: usize,
    lines: usize,
    kinds: [usize; 4],
    gaps: [usize; 5],
    /// Refusals of a head and of a record, by number.
    refused: [[usize; 8]; 2],
    wrong: usize,
    first: Option<Unlike>,
}

impl Tally {
    fn note(&mut self, number: usize, case: Case, due: Vec<u8>, seen: Seen, got: Result<Vec<u8>, String>) {
        self.strips += 1;
        let version = VERSIONS.iter().position(|version| case.1.get(2) == Some(&version.number));
        self.versions[version.unwrap_or(2)] += 1;
        if let Some((version, threshold)) = seen.head {
            self.heads[version as usize - 1] += 1;
            if threshold > 200 {
                self.late[0] += 1;
                self.late[1] += seen.kinds[2];
            }
        }
        self.lines += seen.lines;
        for (all, one) in self.kinds.iter_mut().zip(seen.kinds) {
            *all += one;
            self.records += one;
        }
        for (all, one) in self.gaps.iter_mut().zip(seen.gaps) {
            *all += one;
        }
        if let Some((record, reply)) = seen.refused {
            self.refused[(record > 0) as usize][reply as usize] += 1;
        }
        if got.as_ref() != Ok(&due) {
            self.wrong += 1;
            if self.first.as_ref().map_or(true, |first| number < first.number) {
                self.first = Some(Unlike {
                    number,
                    case,
                    due,
                    got,
                });
            }
        }
    }

    /// How many heads or records were refused, number by number.
    fn refusals(&self, of: usize) -> String {
        let all = [1, 2, 4, 5, 6, 7].map(|n| (n, self.refused[of][n]));
        let some: Vec<String> = all.iter().filter(|(_, k)| *k > 0).map(|(n, k)| format!("{} with {}", k, n)).collect();
        some.join(", ")
    }
}

/// The first line that is not the same, counted from 1, and both.
fn unlike(due: &[u8], got: &[u8]) -> String {
    let text = |bytes: &[u8]| String::from_utf8_lossy(bytes).into_owned();
    let (due, got) = (text(due), text(got));
    let (mut ours, mut theirs) = (due.split_inclusive('\n'), got.split_inclusive('\n'));
    for number in 1.. {
        let (a, b) = (ours.next(), theirs.next());
        if a != b || a.is_none() {
            let shown = |line: Option<&str>| line.map_or("nothing".to_string(), |l| format!("{:?}", l));
            return format!("line {}: {}, and {} is due", number, shown(b), shown(a));
        }
    }
    String::new()
}

/// Tells of the first strip that differs, and keeps it beside the oracle with what is due and what came.
fn tell(first: &Unlike) -> Result<(), String> {
    let (what, strip) = &first.case;
    let (why, came) = match &first.got {
        Ok(bytes) => (unlike(&first.due, bytes), &bytes[..]),
        Err(why) => (why.clone(), &[][..]),
    };
    println!("  differs: strip {} ({}), {} bytes, {}", first.number, what, strip.len(), why);
    let program = std::env::current_exe().map_err(|e| e.to_string())?;
    for (name, bytes) in [("differs.strip", &strip[..]), ("differs.due", &first.due[..]), ("differs.got", came)] {
        let path = program.with_file_name(name);
        std::fs::write(&path, bytes).map_err(|e| format!("cannot write {}: {}", path.display(), e))?;
        println!("  kept: {}", path.display());
    }
    Ok(())
}

/// Runs the command on the fixed strips and on so many random ones; true where every byte is as it must be.
pub fn compare(wish: &Wish) -> bool {
    let (seed, count) = (wish.seed, wish.count);
    println!("strip, {} random strips, seed {}, the Rust's ring of {}, {}:", count, seed, judge::ring(), std::env::consts::ARCH);
    let fixed = fixed();
    let (next, tally) = (AtomicUsize::new(0), Mutex::new(Tally::default()));
    let work = || loop {
        let number = next.fetch_add(1, Ordering::Relaxed);
        let case = match fixed.get(number) {
            Some((what, strip)) => (*what, strip.clone()),
            None if number < fixed.len() + count => random(seed, number - fixed.len()),
            None => return,
        };
        let mut due = Vec::new();
        let seen = strip::print(&mut &case.1[..], &mut due).expect("a buffer can be read and written");
        let got = run(&wish.command, &case.1);
        if let Ok(mut tally) = tally.lock() {
            tally.note(number, case, due, seen, got);
            if wish.first && tally.wrong > 0 {
                return;
            }
        }
    };
    std::thread::scope(|scope| {
        for _ in 0..std::thread::available_parallelism().map_or(1, |n| n.get()) {
            scope.spawn(work);
        }
    });
    let tally = tally.into_inner().unwrap_or_default();
    let [n, w, p, g] = tally.kinds;
    println!("  {} fixed strips, {} records: {} N, {} W, {} P, {} G", fixed.len(), tally.records, n, w, p, g);
    let [short, at, past, behind, first] = tally.gaps;
    println!(
        "  of the gaps {} stand behind T - 1 frames of speech, {} behind T, {} behind T + 1, {} behind a gap, {} before all frames",
        short, at, past, behind, first
    );
    let ([one, two, neither], [first, second], [late, published]) = (tally.versions, tally.heads, tally.late);
    println!("  {} of version 1, {} of version 2, {} of neither; heads taken: {} and {}", one, two, neither, first, second);
    println!("  {} of the heads taken have T above 200, and {} lines behind them are P", late, published);
    println!("  heads refused: {}; records refused: {}", tally.refusals(0), tally.refusals(1));
    if let Some(first) = &tally.first {
        if let Err(why) = tell(first) {
            println!("  {}", why);
        }
    }
    println!("  against the ruled Rust: {} strips and {} lines compared, {} differ", tally.strips, tally.lines, tally.wrong);
    tally.wrong == 0 && tally.strips == fixed.len() + count
}
