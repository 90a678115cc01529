//! Tests of the library from Rust. MURZICANU_STRIP and MURZICANU_LINES name a strip and the lines that are due for it; where
//! cargo builds the tests, they are otherwise the example of the repository.

use murzicanu::{floats_ready, Answer, Chain, Figures, Limiter, Refusal, Settings, USUAL_RING, USUAL_THRESHOLD, VERSION};
use std::arch::asm;
use std::mem::{size_of, MaybeUninit};
use std::path::{Path, PathBuf};
use std::{env, fs, slice};

/// The crate's own declarations of what the archive has, for the tests that look at every byte.
#[path = "../src/library.rs"]
#[allow(dead_code)]
mod library;

const SPEECH: Figures = Figures { probability: 0.95, rms: -20.0, peak: -12.0, noise: -80.0, envelope: -60.0 };
const PAUSE: Figures = Figures { probability: 0.05, rms: -70.0, peak: -60.0, noise: -80.0, envelope: -60.0 };

fn tone(loudness: f32, samples: usize, channels: usize, k: usize) -> Vec<f32> {
    (0..channels * samples).map(|i| loudness * ((i % samples + samples * k) as f32 * 0.05 * (1 + i / samples) as f32).sin()).collect()
}

fn real(bytes: &[u8]) -> f32 {
    f32::from_bits(u32::from_be_bytes(bytes.try_into().unwrap()))
}

/// Hundredths, cut toward zero; an f64 holds them exactly.
fn hundredths(x: f32) -> i64 {
    (f64::from(x) * 100.0) as i64
}

/// The file that a variable names, or one of the repository's examples. Only cargo says where the crate is.
fn file(variable: &str, example: &str) -> PathBuf {
    env::var_os(variable).map(PathBuf::from).unwrap_or_else(|| {
        let here = option_env!("CARGO_MANIFEST_DIR");
        let here = here.unwrap_or_else(|| panic!("without cargo, {variable} has to name a file like examples/{example}"));
        Path::new(here).join("../../examples").join(example)
    })
}

#[test]
fn a_service_has_the_lines_that_are_due() {
    let strip = fs::read(file("MURZICANU_STRIP", "service.strip")).unwrap();
    let due = fs::read_to_string(file("MURZICANU_LINES", "service.lines")).unwrap();
    // A strip of version 1 has its threshold in one byte, and one of version 2 in two; there a record of length 0 is a gap.
    let version = usize::from(strip[2]);
    assert!(version == 1 || version == 2);
    let (threshold, rest) = strip[3..].split_at(version);
    let threshold = threshold.iter().fold(0, |n, byte| 256 * n + u32::from(*byte));
    let samples = usize::from(u16::from_be_bytes([rest[0], rest[1]]));
    let settings = Settings {
        headroom: real(&rest[2..6]),
        largest_gain: real(&rest[6..10]),
        initial_gain: real(&rest[10..14]),
        change: real(&rest[14..18]),
        noise: real(&rest[18..22]),
    };
    let mut chain = Chain::new(&settings, threshold, samples, USUAL_RING).unwrap();
    let (mut made, mut rest, mut number) = (String::new(), &rest[22..], 0);
    while !rest.is_empty() {
        let gap = version == 2 && rest.starts_with(&[0, 0]);
        let (record, left) = rest.split_at(if gap { 2 } else { 22 });
        let answer = if gap {
            chain.gap().unwrap();
            None
        } else {
            let figures = Figures {
                probability: real(&record[2..6]),
                rms: real(&record[6..10]),
                peak: real(&record[10..14]),
                noise: real(&record[14..18]),
                envelope: real(&record[18..22]),
            };
            Some(chain.step(&figures, &mut vec![0.0; samples], 1).unwrap())
        };
        let now = chain.published().unwrap();
        let kind = match answer {
            None => 'G',
            Some(Answer::NonSpeech) => 'N',
            Some(Answer::Waiting { .. }) => 'W',
            Some(Answer::Publishing { level, headroom }) => {
                assert_eq!((level, headroom), (now.level, now.headroom));
                'P'
            }
        };
        number += 1;
        made += &format!(
            "{number} {kind} {} {} {} {}\n",
            hundredths(now.level),
            hundredths(now.headroom),
            hundredths(now.gain),
            u8::from(now.confident)
        );
        rest = left;
    }
    assert_eq!(made, due);
}

#[test]
fn a_short_cough_leaves_no_trace_and_a_long_one_does() {
    let run = |cough: usize| {
        let mut chain = Chain::new(&Settings::default(), USUAL_THRESHOLD, 480, USUAL_RING).unwrap();
        let mut heard = Vec::new();
        for k in 0..600 {
            let reading = k % 200 < 150;
            let coughs = (160..160 + cough).contains(&k);
            let figures = if reading { Figures { rms: -30.0, peak: -22.0, ..SPEECH } } else if coughs { SPEECH } else { PAUSE };
            let mut frame = tone(if reading { 900.0 } else { 2.0 }, 480, 1, k);
            chain.step(&figures, &mut frame, 1).unwrap();
            heard.push((frame.iter().map(|x| x.to_bits()).collect::<Vec<_>>(), chain.published().unwrap()));
        }
        heard
    };
    let quiet = run(0);
    assert!(run(11) == quiet, "a run of 11 frames changed what is published or heard");
    assert!(run(12) != quiet, "a run of 12 frames changed nothing");
}

#[test]
fn a_threshold_is_1_to_3000() {
    for threshold in [1, 200, 201, 3000] {
        assert!(Chain::new(&Settings::default(), threshold, 480, USUAL_RING).is_ok(), "{threshold}");
    }
    for threshold in [0, 3001, 65536 + 12, u32::MAX] {
        assert_eq!(Chain::new(&Settings::default(), threshold, 480, USUAL_RING).err(), Some(Refusal::Setting), "{threshold}");
    }
}

/// Frames of silence with these figures, and what each was.
fn heard(chain: &mut Chain, figures: &Figures, frames: usize) -> Vec<Answer> {
    (0..frames).map(|_| chain.step(figures, &mut [0.0; 40], 1).unwrap()).collect()
}

#[test]
fn a_threshold_of_3000_waits_for_thirty_seconds_of_speech() {
    let quiet = Figures { probability: 1.0, rms: -60.0, peak: -50.0, noise: -90.0, envelope: -60.0 };
    let pause = Figures { probability: 0.0, ..quiet };
    let settings = Settings { change: 0.5, ..Settings::default() };
    let mut chain = Chain::new(&settings, 3000, 40, USUAL_RING).unwrap();
    let (before, mut never) = (chain.published().unwrap(), chain.clone());
    for (k, answer) in heard(&mut chain, &quiet, 2999).into_iter().enumerate() {
        assert_eq!(answer, Answer::Waiting { missing: 2999 - k as u32 });
    }
    assert_eq!(chain.published().unwrap(), before);
    let mut closed = chain.clone();
    let last = heard(&mut chain, &quiet, 1);
    let now = chain.published().unwrap();
    assert_eq!(last, [Answer::Publishing { level: now.level, headroom: now.headroom }]);
    assert!(now.level < before.level && now.confident && !before.confident);
    // Half a dB a second, for the thirty seconds that it waited; and then 0.005 dB a frame.
    assert!((now.gain - before.gain - 15.0).abs() < 0.001, "{}", now.gain);
    heard(&mut chain, &quiet, 1);
    let gain = chain.published().unwrap().gain;
    assert!((gain - now.gain - 0.005).abs() < 0.001, "{gain}");
    // The same run ended by a pause, and no run at all: what comes then is heard alike.
    heard(&mut closed, &pause, 1);
    heard(&mut never, &pause, 3000);
    for _ in 0..3001 {
        assert_eq!(heard(&mut closed, &quiet, 1), heard(&mut never, &quiet, 1));
        assert_eq!(closed.published().unwrap(), never.published().unwrap());
    }
    assert!(closed.published().unwrap().confident);
}

#[test]
fn a_gap_ends_the_run_of_speech() {
    for threshold in [2, 12, 200] {
        let mut chain = Chain::new(&Settings::default(), threshold, 40, USUAL_RING).unwrap();
        let (before, mut other) = (chain.published().unwrap(), chain.clone());
        let run = threshold as usize - 1;
        // Two runs that both miss one frame: each frame of the second waits like that of the first.
        let first = heard(&mut chain, &SPEECH, run);
        chain.gap().unwrap();
        assert_eq!(heard(&mut chain, &SPEECH, run), first);
        assert_eq!(first, (1..threshold).rev().map(|missing| Answer::Waiting { missing }).collect::<Vec<_>>());
        assert_eq!(chain.published().unwrap(), before);
        // Without the gap they are one run, and its second half publishes.
        assert_eq!(heard(&mut other, &SPEECH, run), first);
        assert!(heard(&mut other, &SPEECH, run).iter().all(|answer| matches!(answer, Answer::Publishing { .. })));
        assert_ne!(other.published().unwrap(), before);
    }
}

#[test]
fn a_gap_moves_no_published_figure_and_a_run_that_is_long_enough_is_kept() {
    let mut chain = Chain::new(&Settings::default(), 12, 40, USUAL_RING).unwrap();
    for frames in 0..40 {
        let mut other = chain.clone();
        let before = chain.published().unwrap();
        other.gap().unwrap();
        assert_eq!(other.published().unwrap(), before, "after {frames} frames");
        // As a gap ends the run, so does a pause; and what comes then is heard alike but for the pause's own frame.
        let mut pause = chain.clone();
        assert_eq!(heard(&mut pause, &Figures { probability: 0.0, ..SPEECH }, 1), [Answer::NonSpeech]);
        other.gap().unwrap();
        assert_eq!(heard(&mut other, &PAUSE, 1), [Answer::NonSpeech]);
        for _ in 0..30 {
            assert_eq!(heard(&mut other, &SPEECH, 1), heard(&mut pause, &SPEECH, 1));
            assert_eq!(other.published().unwrap(), pause.published().unwrap());
        }
        heard(&mut chain, &SPEECH, 1);
    }
    assert!(chain.published().unwrap().confident);
}

#[test]
fn gaps_in_pauses_change_nothing() {
    let run = |gaps: usize| {
        let mut chain = Chain::new(&Settings::default(), USUAL_THRESHOLD, 160, USUAL_RING).unwrap();
        let mut heard = Vec::new();
        for k in 0..400 {
            let speaks = k % 100 < 70;
            let mut frame = tone(if speaks { 900.0 } else { 2.0 }, 160, 2, k);
            let answer = chain.step(if speaks { &SPEECH } else { &PAUSE }, &mut frame, 2).unwrap();
            for _ in 0..if speaks { 0 } else { gaps } {
                chain.gap().unwrap();
            }
            heard.push((bits(&frame), answer, chain.published().unwrap()));
        }
        heard
    };
    let without = run(0);
    assert!(run(1) == without && run(3) == without);
}

#[test]
fn nothing_leaves_full_scale() {
    let mut chain = Chain::new(&Settings::default(), 1, 480, USUAL_RING).unwrap();
    let mut limiter = Limiter::new(240).unwrap();
    for k in 0..200 {
        let mut frame = tone(65000.0, 480, 8, k);
        chain.step(&SPEECH, &mut frame, 8).unwrap();
        assert!(frame.iter().all(|x| (-32768.0..=32767.0).contains(x)));
        let mut frame = tone(3.0e7, 240, 2, k);
        limiter.step(&mut frame, 2).unwrap();
        assert!(frame.iter().all(|x| (-32768.0..=32767.0).contains(x)));
    }
    assert!(limiter.level().unwrap() > 1.0e7);
}

#[test]
fn a_refusal_has_its_number_and_changes_nothing() {
    assert_eq!(Chain::new(&Settings::default(), 12, 441, USUAL_RING).err(), Some(Refusal::Shape));
    assert_eq!(Chain::new(&Settings::default(), 0, 480, USUAL_RING).err(), Some(Refusal::Setting));
    assert_eq!(Chain::new(&Settings { noise: -0.0, ..Settings::default() }, 12, 480, USUAL_RING).err(), Some(Refusal::Setting));
    assert_eq!(Limiter::new(500).err(), Some(Refusal::Shape));
    let mut chain = Chain::new(&Settings::default(), 12, 160, USUAL_RING).unwrap();
    chain.step(&SPEECH, &mut tone(1000.0, 160, 2, 0), 2).unwrap();
    let (before, kept) = (chain.published().unwrap(), chain.clone());
    let mut frame = tone(1000.0, 160, 2, 1);
    let same = frame.clone();
    assert_eq!(chain.step(&SPEECH, &mut frame, 3), Err(Refusal::Shape));
    assert_eq!(chain.step(&Figures { probability: f32::NAN, ..SPEECH }, &mut frame, 2), Err(Refusal::Figure));
    assert_eq!(frame, same);
    frame[5] = 70000.0;
    assert_eq!(chain.step(&SPEECH, &mut frame, 2), Err(Refusal::Sample));
    assert_eq!((frame[5], frame[6]), (70000.0, same[6]));
    assert_eq!(chain.published().unwrap(), before);
    // The refused chain and the one that was kept go on alike.
    let (mut a, mut b, mut other) = (tone(900.0, 160, 2, 2), tone(900.0, 160, 2, 2), kept);
    assert_eq!(chain.step(&SPEECH, &mut a, 2), other.step(&SPEECH, &mut b, 2));
    assert_eq!(a, b);
    assert_eq!(Refusal::Sample.number(), Some(3));
    assert!(Refusal::Shape.to_string().contains("refused with 1"));
}

const SAMPLES: usize = 160;
const CHANNELS: usize = 2;
const LENGTH: usize = CHANNELS * SAMPLES;

/// Memory for a struct of the archive, each byte of it the same.
fn filled<T>(pattern: u8) -> T {
    let mut memory = MaybeUninit::<T>::uninit();
    // SAFETY: the structs of the archive are plain numbers without holes, of which any bytes are a value.
    unsafe {
        memory.as_mut_ptr().write_bytes(pattern, 1);
        memory.assume_init()
    }
}

fn bytes<T>(of: &T) -> &[u8] {
    // SAFETY: as above.
    unsafe { slice::from_raw_parts((of as *const T).cast(), size_of::<T>()) }
}

fn bytes_mut<T>(of: &mut T) -> &mut [u8] {
    // SAFETY: as above.
    unsafe { slice::from_raw_parts_mut((of as *mut T).cast(), size_of::<T>()) }
}

/// A random number, the same in every run: xorshift.
struct Drawn(u32);

impl Drawn {
    fn next(&mut self) -> usize {
        self.0 ^= self.0 << 13;
        self.0 ^= self.0 >> 17;
        self.0 ^= self.0 << 5;
        self.0 as usize
    }
}

/// The bits of a frame, since a NaN does not equal itself.
fn bits(frame: &[f32]) -> Vec<u32> {
    frame.iter().map(|x| x.to_bits()).collect()
}

/// One step of the chain. Where it is refused, no byte of the chain or the frame may change, and each of the answer is 0.
fn step(chain: &mut library::Chain, figures: &Figures, frame: &mut [f32], channels: usize, samples: usize) -> u32 {
    let (before, sound, mut answer) = (*chain, bits(frame), filled::<library::Answer>(0xAA));
    // SAFETY: the references are to whole structs, and the frame is handed on with its length.
    let reply = unsafe {
        library::murzicanu_chain_step(chain, figures, frame.as_mut_ptr(), frame.len(), channels, samples, &mut answer)
    };
    if reply != 0 {
        assert_eq!(bytes(chain), bytes(&before));
        assert_eq!(bits(frame), sound);
        assert!(bytes(&answer).iter().all(|b| *b == 0));
    }
    reply
}

/// A gap of the chain. Where it is refused, no byte of the chain may change.
fn gap(chain: &mut library::Chain) -> u32 {
    let before = *chain;
    // SAFETY: the reference is to a whole struct.
    let reply = unsafe { library::murzicanu_chain_gap(chain) };
    if reply != 0 {
        assert_eq!(bytes(chain), bytes(&before));
    }
    reply
}

/// One step of the limiter, and the same of it.
fn limit(limiter: &mut library::Limiter, frame: &mut [f32], channels: usize, samples: usize) -> u32 {
    let (before, sound) = (*limiter, bits(frame));
    // SAFETY: as above.
    let reply =
        unsafe { library::murzicanu_limiter_step(limiter, frame.as_mut_ptr(), frame.len(), channels, samples) };
    if reply != 0 {
        assert_eq!(bytes(limiter), bytes(&before));
        assert_eq!(bits(frame), sound);
    }
    reply
}

fn read_chain(chain: &library::Chain, pattern: u8) -> (u32, Vec<u8>) {
    let mut now = filled::<library::Published>(pattern);
    // SAFETY: as above.
    let reply = unsafe { library::murzicanu_chain_read(chain, &mut now) };
    (reply, bytes(&now).to_vec())
}

fn read_limiter(limiter: &library::Limiter, pattern: u8) -> (u32, Vec<u8>) {
    let mut level = filled::<f32>(pattern);
    // SAFETY: as above.
    let reply = unsafe { library::murzicanu_limiter_read(limiter, &mut level) };
    (reply, bytes(&level).to_vec())
}

fn new_chain(pattern: u8, settings: &Settings, threshold: u32, samples: usize, capacity: u32) -> (u32, library::Chain) {
    let mut chain = filled(pattern);
    // SAFETY: as above.
    let reply = unsafe { library::murzicanu_chain_new(&mut chain, settings, threshold, samples, capacity) };
    (reply, chain)
}

fn new_limiter(pattern: u8, samples: usize) -> (u32, library::Limiter) {
    let mut limiter = filled(pattern);
    // SAFETY: as above.
    let reply = unsafe { library::murzicanu_limiter_new(&mut limiter, samples) };
    (reply, limiter)
}

/// A chain and a limiter that were made over a pattern and have heard some frames.
fn made(pattern: u8, frames: usize) -> (library::Chain, library::Limiter) {
    let (reply, mut chain) = new_chain(pattern, &Settings::default(), 12, SAMPLES, USUAL_RING);
    let (other, mut limiter) = new_limiter(pattern, SAMPLES);
    assert_eq!((reply, other), (0, 0));
    for k in 0..frames {
        assert_eq!(step(&mut chain, &SPEECH, &mut tone(20000.0, SAMPLES, CHANNELS, k), CHANNELS, SAMPLES), 0);
        assert_eq!(limit(&mut limiter, &mut tone(20000.0, SAMPLES, CHANNELS, k), CHANNELS, SAMPLES), 0);
    }
    (chain, limiter)
}

/// Where the numbers of the kept chain and limiter stand, as the header's assertions have it.
const CONFIDENT: usize = 56;
const RINGS: [usize; 2] = [64 + 16 + 4, 64 + 104 + 4];
const CLIP: usize = 64 + 192;
const OF_LIMITER: usize = 64 + 192 + 56;
const OWN_SAMPLES: usize = 4;
const AVAILABLE: usize = 16 + 32;

/// Where the numbers of a ring stand in it, after its slots.
const CAPACITY: usize = 64;
const PLACE: usize = 68;
const SIZE: usize = 72;

#[test]
fn the_archive_has_the_version_of_the_crate() {
    // SAFETY: the function takes nothing.
    assert_eq!(unsafe { library::murzicanu_version() }, VERSION);
}

/// What is answered in a thread whose register MXCSR is this: how the processor rounds, and what it does with the
/// smallest numbers.
fn with_register<T>(register: u32, asked: impl FnOnce() -> T) -> T {
    let mut kept = 0_u32;
    // SAFETY: the register is stored to a number and loaded from one. Rust takes the default for granted; what is asked in
    // between is what the crate does where it is another one.
    unsafe {
        asm!("stmxcsr [{}]", in(reg) &mut kept as *mut u32, options(nostack));
        asm!("ldmxcsr [{}]", in(reg) &register as *const u32, options(nostack));
    }
    let answer = asked();
    // SAFETY: as above.
    unsafe { asm!("ldmxcsr [{}]", in(reg) &kept as *const u32, options(nostack)) };
    answer
}

#[test]
fn a_thread_with_other_floats_is_refused() {
    let all = || {
        // The settings and the samples are wrong as well: the floats are told first.
        let wrong = Settings { noise: 1.0, ..Settings::default() };
        let (chain, limiter) = (Chain::new(&Settings::default(), 12, 480, USUAL_RING).err(), Limiter::new(480).err());
        (floats_ready(), chain, limiter, Chain::new(&wrong, 12, 480, USUAL_RING).err(), Limiter::new(500).err())
    };
    let ready = (true, None, None, Some(Refusal::Setting), Some(Refusal::Shape));
    let none = Some(Refusal::Floats);
    assert_eq!(with_register(0x1F80, all), ready);
    for (register, how) in [
        (0x3F80, "rounded down"),
        (0x5F80, "rounded up"),
        (0x7F80, "rounded to zero"),
        (0x9F80, "a subnormal result made zero (FTZ)"),
        (0x1FC0, "a subnormal operand taken for zero (DAZ)"),
    ] {
        assert_eq!(with_register(register, all), (false, none, none, none, none), "{how}");
    }
    assert_eq!(all(), ready);
}

#[test]
fn every_byte_is_determined() {
    for frames in [0, 50, 100] {
        let ((a, b), (c, d)) = (made(0xAA, frames), made(0x55, frames));
        assert_eq!((bytes(&a), bytes(&b)), (bytes(&c), bytes(&d)));
        assert_eq!((read_chain(&a, 0xAA), read_limiter(&b, 0xAA)), (read_chain(&c, 0x55), read_limiter(&d, 0x55)));
        assert_eq!((read_chain(&a, 0xAA).0, read_limiter(&b, 0xAA).0), (0, 0));
        assert_eq!((bytes(&a), bytes(&b)), (bytes(&c), bytes(&d)));
    }
    for (settings, threshold, samples, due) in [
        (Settings::default(), 12, 441, 1),
        (Settings::default(), 0, SAMPLES, 4),
        (Settings { noise: -0.0, ..Settings::default() }, 12, SAMPLES, 4),
    ] {
        let (reply, chain) = new_chain(0xAA, &settings, threshold, samples, USUAL_RING);
        assert_eq!(reply, due);
        assert!(bytes(&chain).iter().all(|b| *b == 0));
    }
    let (reply, limiter) = new_limiter(0xAA, 500);
    assert_eq!(reply, 1);
    assert!(bytes(&limiter).iter().all(|b| *b == 0));
}

#[test]
fn each_kind_of_refusal_changes_no_byte() {
    let (mut chain, mut limiter) = made(0xAA, 20);
    let mut frame = tone(20000.0, SAMPLES, CHANNELS, 20);
    assert_eq!(step(&mut chain, &SPEECH, &mut frame, 3, SAMPLES), 1);
    assert_eq!(step(&mut chain, &Figures { peak: f32::NAN, ..SPEECH }, &mut frame, CHANNELS, SAMPLES), 2);
    assert_eq!(limit(&mut limiter, &mut frame[1..], CHANNELS, SAMPLES), 1);
    frame[LENGTH - 1] = f32::NAN;
    assert_eq!(step(&mut chain, &SPEECH, &mut frame, CHANNELS, SAMPLES), 3);
    assert_eq!(limit(&mut limiter, &mut frame, CHANNELS, SAMPLES), 3);
    frame[LENGTH - 1] = 0.0;
    let [_, reliable] = RINGS;
    for (place, byte) in [
        (CONFIDENT, 2),
        (reliable + CAPACITY, 5),
        (reliable + PLACE, 4),
        (CLIP + 3, 1),
        (OF_LIMITER + OWN_SAMPLES + 6, 1),
        (OF_LIMITER + AVAILABLE, 7),
    ] {
        let mut other = chain;
        bytes_mut(&mut other)[place] = byte;
        assert_eq!(step(&mut other, &SPEECH, &mut frame, CHANNELS, SAMPLES), 4, "byte {place}");
        assert_eq!(gap(&mut other), 4, "byte {place}");
        assert_eq!(read_chain(&other, 0xAA), (4, vec![0; 16]));
    }
    let mut other = limiter;
    bytes_mut(&mut other)[AVAILABLE] = 7;
    assert_eq!(limit(&mut other, &mut frame, CHANNELS, SAMPLES), 4);
    assert_eq!(read_limiter(&other, 0xAA), (4, vec![0; 4]));
    // A chain that was never made: the samples differ first.
    assert_eq!(step(&mut filled(0), &SPEECH, &mut frame, CHANNELS, SAMPLES), 1);
    assert_eq!(step(&mut filled(0xAA), &SPEECH, &mut frame, CHANNELS, SAMPLES), 1);
    assert_eq!(limit(&mut filled(0), &mut frame, CHANNELS, SAMPLES), 1);
    assert!((0..=255).all(|pattern| gap(&mut filled(pattern)) == 4));
    assert_eq!(gap(&mut chain), 0);
    assert_eq!(read_chain(&filled(0), 0xAA).0, 4);
    assert_eq!(read_limiter(&filled(0), 0xAA).0, 4);
}

/// A number of 32 bits that stands in a chain.
fn number(chain: &library::Chain, at: usize) -> u32 {
    u32::from_ne_bytes(bytes(chain)[at..at + 4].try_into().unwrap())
}

/// The chain with other numbers there.
fn with(mut chain: library::Chain, numbers: &[(usize, u32)]) -> library::Chain {
    for (at, number) in numbers {
        bytes_mut(&mut chain)[*at..at + 4].copy_from_slice(&number.to_ne_bytes());
    }
    chain
}

/// A step, a gap and a reading of a chain that fails its test: each is refused with 4, and none changes a byte.
fn fails(mut chain: library::Chain) -> bool {
    step(&mut chain, &SPEECH, &mut tone(20000.0, SAMPLES, CHANNELS, 0), CHANNELS, SAMPLES) == 4
        && gap(&mut chain) == 4
        && read_chain(&chain, 0xAA) == (4, vec![0; 16])
}

#[test]
fn a_ring_holds_1_to_16_peaks() {
    for capacity in 1..=16 {
        assert!(Chain::new(&Settings::default(), 12, 480, capacity).is_ok(), "{capacity}");
        let (reply, mut chain) = new_chain(0xAA, &Settings::default(), 12, SAMPLES, capacity);
        assert_eq!((reply, RINGS.map(|ring| number(&chain, ring + CAPACITY))), (0, [capacity; 2]));
        assert_eq!(bytes(&chain), bytes(&new_chain(0x55, &Settings::default(), 12, SAMPLES, capacity).1));
        assert_eq!(gap(&mut chain), 0);
    }
    for capacity in [0, 17, 65536 + 4, u32::MAX] {
        assert_eq!(Chain::new(&Settings::default(), 12, 480, capacity).err(), Some(Refusal::Setting), "{capacity}");
        // The samples are none as well: that is told first.
        assert_eq!(Chain::new(&Settings::default(), 12, 441, capacity).err(), Some(Refusal::Shape), "{capacity}");
        let (reply, chain) = new_chain(0xAA, &Settings::default(), 12, SAMPLES, capacity);
        assert_eq!(reply, 4);
        assert!(bytes(&chain).iter().all(|b| *b == 0));
    }
}

#[test]
fn two_rings_of_unlike_capacity_are_refused() {
    // After 20 frames each of these capacities has the place, the size and the slots that are there, so that only the two
    // that differ are refused.
    let (chain, _) = made(0xAA, 20);
    let rings = |first, second| with(chain, &[(RINGS[0] + CAPACITY, first), (RINGS[1] + CAPACITY, second)]);
    for n in 1..=16 {
        assert_eq!(gap(&mut rings(n, n)), 0);
        assert!((1..=16).all(|m| n == m || fails(rings(n, m))), "{n}");
    }
    assert!([0, 17, 65536 + 4, u32::MAX].into_iter().all(|n| fails(rings(n, n))));
    assert!(RINGS.into_iter().all(|ring| fails(with(chain, &[(ring + PLACE, 4)])) && fails(with(chain, &[(ring + SIZE, 5)]))));
}

#[test]
fn what_stands_in_the_slots_from_the_capacity_on_stays_and_changes_nothing_else() {
    for capacity in [1, 4, 9, 15, 16] {
        let (reply, mut chain) = new_chain(0xAA, &Settings::default(), 12, SAMPLES, capacity);
        assert_eq!(reply, 0);
        // Numbers and none, quiet and signalling.
        let beyond: Vec<(usize, u32)> = (capacity..16)
            .flat_map(|i| {
                let drawn = [0x7FC0_0000 + i, u32::MAX, 0x7F80_0000, 0x7F80_0001 + i, 0xCAFE_F00D][i as usize % 5];
                RINGS.map(|ring| (ring + 4 * i as usize, drawn))
            })
            .collect();
        let mut other = with(chain, &beyond);
        for k in 0..400 {
            let figures = if k % 100 < 90 { &SPEECH } else { &PAUSE };
            let (mut frame, mut sound) = (tone(20000.0, SAMPLES, CHANNELS, k), tone(20000.0, SAMPLES, CHANNELS, k));
            assert_eq!(step(&mut chain, figures, &mut frame, CHANNELS, SAMPLES), 0);
            assert_eq!(step(&mut other, figures, &mut sound, CHANNELS, SAMPLES), 0);
            assert_eq!((bits(&frame), read_chain(&chain, 0xAA)), (bits(&sound), read_chain(&other, 0xAA)));
            if k % 130 == 129 {
                assert_eq!((gap(&mut chain), gap(&mut other)), (0, 0));
            }
        }
        assert!(number(&chain, RINGS[1] + SIZE) > 0);
        assert!(beyond.iter().all(|(at, drawn)| number(&other, *at) == *drawn));
        assert_eq!(bytes(&with(chain, &beyond)), bytes(&other));
        // The last slot that is the ring's own.
        assert!(RINGS.into_iter().all(|ring| fails(with(chain, &[(ring + 4 * (capacity as usize - 1), f32::NAN.to_bits())]))));
    }
}

/// At which frame of speech, counted from 1, two chains first differ in what a frame was that differ in their rings alone.
/// Each 41 frames have another peak than the 41 before them.
fn apart(one: u32, other: u32) -> Option<usize> {
    let made = |capacity| Chain::new(&Settings::default(), 1, 40, capacity).unwrap();
    let (mut first, mut second) = (made(one), made(other));
    (1..=700).find(|k| {
        let peak = if (k - 1) / 41 % 2 == 0 { -6.0 } else { -7.0 };
        let figures = Figures { probability: 1.0, rms: -28.0, peak, ..SPEECH };
        heard(&mut first, &figures, 1) != heard(&mut second, &figures, 1)
    })
}

#[test]
fn a_ring_drops_its_oldest_peak_when_it_is_full_and_not_before() {
    // At its push n + 1 the ring of n drops the peak that one of 16 still goes by.
    for n in 1..16 {
        assert_eq!(apart(n, 16), Some(41 * (n as usize + 1)), "{n}");
    }
    assert_eq!((apart(USUAL_RING, 16), apart(USUAL_RING, 4), apart(16, 16)), (Some(205), None, None));
}

#[test]
fn ten_thousand_refused_calls_change_no_byte() {
    let wrong = [f32::NAN, f32::INFINITY, f32::NEG_INFINITY, 1.0e30, -151.0, 101.0];
    let (mut chain, mut limiter) = made(0xAA, 20);
    let (first, second) = (chain, limiter);
    let sound = tone(20000.0, SAMPLES, CHANNELS, 20);
    let (mut frame, mut random, mut calls, mut seen) = (sound.clone(), Drawn(2463534242), 0, [0; 5]);
    while calls < 10_000 {
        let kind = 1 + random.next() % 4;
        let (mut figures, mut channels, mut samples, mut length) = (SPEECH, CHANNELS, SAMPLES, LENGTH);
        let (mut damaged, mut cracked, place) = (chain, limiter, random.next() % LENGTH);
        let (mut due, mut other) = (kind as u32, kind as u32);
        match kind {
            1 => match random.next() % 3 {
                0 => channels = 3 + random.next() % 1000,
                1 => samples = 40 + 20 * (random.next() % 6),
                _ => length = random.next() % LENGTH,
            },
            2 => {
                let field = [
                    &mut figures.probability,
                    &mut figures.rms,
                    &mut figures.peak,
                    &mut figures.noise,
                    &mut figures.envelope,
                ];
                *field.into_iter().nth(random.next() % 5).unwrap() = wrong[random.next() % 6];
            }
            3 => frame[place] = wrong[random.next() % 4],
            _ => {
                // Some byte is another one; a state that still passes its test is damaged again.
                while read_chain(&damaged, 0xAA).0 == 0 {
                    bytes_mut(&mut damaged)[random.next() % size_of::<library::Chain>()] ^= 1 + (random.next() % 255) as u8;
                }
                while read_limiter(&cracked, 0xAA).0 == 0 {
                    bytes_mut(&mut cracked)[random.next() % size_of::<library::Limiter>()] ^= 1 + (random.next() % 255) as u8;
                }
                let (at, end) = (OF_LIMITER + OWN_SAMPLES, OF_LIMITER + OWN_SAMPLES + 4);
                if bytes(&damaged)[at..end] != bytes(&chain)[at..end] {
                    due = 1;
                }
                if bytes(&cracked)[OWN_SAMPLES..OWN_SAMPLES + 4] != bytes(&limiter)[OWN_SAMPLES..OWN_SAMPLES + 4] {
                    other = 1;
                }
            }
        }
        let (state, alone) = if kind == 4 { (&mut damaged, &mut cracked) } else { (&mut chain, &mut limiter) };
        assert_eq!(step(state, &figures, &mut frame[..length], channels, samples), due);
        assert!(kind != 4 || gap(state) == 4);
        seen[due as usize] += 1;
        calls += 1;
        if kind != 2 {
            assert_eq!(limit(alone, &mut frame[..length], channels, samples), other);
            calls += 1;
        }
        frame[place] = sound[place];
    }
    assert!(seen[1..].iter().all(|n| *n > 1000), "{seen:?}");
    assert_eq!((bytes(&chain), bytes(&limiter), frame), (bytes(&first), bytes(&second), sound));
}

impl Drawn {
    /// One of so many numbers, from 0.
    fn below(&mut self, many: usize) -> usize {
        self.next() % many
    }

    fn between(&mut self, low: f32, high: f32) -> f32 {
        low + (high - low) * (self.below(65537) as f32 / 65536.0)
    }

    /// A probability that is speech, or none.
    fn probability(&mut self, speech: bool) -> f32 {
        let ends = if speech { [0.95, 1.0] } else { [0.0, 0.949_999_9] };
        match self.below(4) {
            0 => ends[self.below(2)],
            _ => self.between(ends[0], ends[1]),
        }
    }
}

/// An event of a history: a frame of a random service, or a gap.
#[derive(Clone)]
enum Event {
    Frame(Figures, Vec<f32>),
    Gap,
}

/// What a random history is made of, and how often it came.
#[derive(Default, Debug)]
struct Counts {
    events: usize,
    gaps: usize,
    long_runs: usize,
    closed_by_a_frame: usize,
    closed_by_a_gap: usize,
    refused: usize,
    compared: usize,
}

/// A random history and its twin, in which the speech of short closed runs was changed; and after which events a changed run
/// is open.
fn twins(random: &mut Drawn, threshold: usize, length: usize, counts: &mut Counts) -> (Vec<Event>, Vec<Event>, Vec<bool>) {
    let (mut first, mut second, mut open) = (Vec::new(), Vec::new(), Vec::new());
    let frame = |random: &mut Drawn, speech: bool| {
        let (rms, loudness) = (random.between(-90.0, 0.0), random.between(0.0, 65536.0));
        let figures = Figures {
            probability: random.probability(speech),
            rms,
            peak: rms + random.between(0.0, 20.0),
            noise: random.between(-95.0, -20.0),
            envelope: random.between(-90.0, 20.0),
        };
        (figures, (0..length).map(|_| random.between(-loudness, loudness)).collect::<Vec<_>>())
    };
    while first.len() < 250 {
        // A run of speech, and what closes it: a frame or a gap, or some of them.
        let short = random.below(3) > 0;
        let run = if short { 1 + random.below(threshold - 1) } else { threshold + random.below(threshold + 5) };
        let closers: Vec<bool> = (0..1 + random.below(3)).map(|_| random.below(2) == 0).collect();
        // Of a short run all frames are changed, some, or none.
        let (every, mut touched) = (random.below(3), false);
        for _ in 0..run {
            let (figures, sound) = frame(random, true);
            let mut other = figures;
            if short && (every == 0 || (every == 1 && random.below(2) == 0)) {
                touched = true;
                other.probability = random.probability(false);
                other.rms = random.between(-149.0, 49.0);
                other.peak = random.between(-150.0, 50.0);
            }
            first.push(Event::Frame(figures, sound.clone()));
            second.push(Event::Frame(other, sound));
            open.push(touched);
        }
        counts.long_runs += usize::from(!short);
        counts.closed_by_a_gap += usize::from(touched && closers[0]);
        counts.closed_by_a_frame += usize::from(touched && !closers[0]);
        for gap in closers {
            let event = if gap {
                counts.gaps += 1;
                Event::Gap
            } else {
                let (figures, sound) = frame(random, false);
                Event::Frame(figures, sound)
            };
            first.push(event.clone());
            second.push(event);
            open.push(false);
        }
    }
    (first, second, open)
}

/// A frame that is refused, for its shape, its figures or its samples: it is not counted, and ends no run.
fn refuse(chain: &mut library::Chain, random: &mut Drawn, channels: usize, samples: usize) -> usize {
    let many = random.below(4) / 2;
    for _ in 0..many {
        let mut sound = vec![100.0; channels * samples];
        let figures = Figures { probability: random.probability(random.0 % 2 == 0), ..SPEECH };
        let due = 1 + random.below(3) as u32;
        let reply = match due {
            1 => step(chain, &figures, &mut sound, channels + 1, samples),
            2 => step(chain, &Figures { rms: f32::NAN, ..figures }, &mut sound, channels, samples),
            _ => {
                sound[random.below(channels * samples)] = 65537.0;
                step(chain, &figures, &mut sound, channels, samples)
            }
        };
        assert_eq!(reply, due);
    }
    many
}

/// What comes out at an event: the bits of the frame, and what is published.
fn happens(chain: &mut library::Chain, event: &Event, channels: usize, samples: usize) -> (Vec<u32>, Vec<u8>) {
    let mut sound = Vec::new();
    match event {
        Event::Gap => assert_eq!(gap(chain), 0),
        Event::Frame(figures, frame) => {
            sound.clone_from(frame);
            assert_eq!(step(chain, figures, &mut sound, channels, samples), 0);
            assert!(sound.iter().all(|x| (-32768.0..=32767.0).contains(x)));
        }
    }
    let (reply, now) = read_chain(chain, 0xAA);
    assert_eq!(reply, 0);
    (bits(&sound), now)
}

#[test]
fn random_histories_with_gaps_and_their_twins_come_out_alike() {
    let (mut random, mut counts, mut published, mut told) = (Drawn(2463534242), Counts::default(), Vec::new(), 0);
    for round in 0..40 {
        let threshold = [2, 3, 5, 12, 40][round % 5];
        let (channels, samples) = (1 + random.below(3), [40, 60, 160][random.below(3)]);
        let settings = Settings {
            headroom: random.between(0.0, 20.0),
            largest_gain: random.between(5.0, 50.0),
            initial_gain: random.between(0.0, 40.0),
            change: random.between(0.5, 100.0),
            noise: random.between(-80.0, 0.0),
        };
        let (first, second, open) = twins(&mut random, threshold, channels * samples, &mut counts);
        let made = |pattern| {
            let (reply, chain) = new_chain(pattern, &settings, threshold as u32, samples, 1 + round as u32 % 16);
            assert_eq!(reply, 0);
            chain
        };
        let (mut a, mut b) = (made(0xAA), made(0x55));
        for (k, (event, twin)) in first.iter().zip(&second).enumerate() {
            counts.refused += refuse(&mut a, &mut random, channels, samples) + refuse(&mut b, &mut random, channels, samples);
            let heard = happens(&mut a, event, channels, samples);
            assert!(heard == happens(&mut b, twin, channels, samples), "round {round}, event {k} comes out otherwise");
            if !open[k] {
                assert_eq!(bytes(&a), bytes(&b), "round {round}, event {k} leaves another chain");
                counts.compared += 1;
            }
            counts.events += 1;
            published.push(heard.1);
        }
        // The same two histories without their gaps: runs that a gap alone kept apart are one, and a changed one may be told.
        let (mut a, mut b) = (made(0xAA), made(0x55));
        told += usize::from(first.iter().zip(&second).any(|(event, twin)| {
            !matches!(event, Event::Gap)
                && happens(&mut a, event, channels, samples) != happens(&mut b, twin, channels, samples)
        }));
    }
    published.sort();
    published.dedup();
    assert!(counts.events > 10_000 && counts.refused > 5_000 && counts.compared > 5_000, "{counts:?}");
    assert!(counts.gaps > 500 && counts.long_runs > 100, "{counts:?}");
    assert!(counts.closed_by_a_frame > 100 && counts.closed_by_a_gap > 100, "{counts:?}");
    // The histories say much, and the gaps of most of them are needed.
    assert!(published.len() > 1_000 && told > 20, "{} published, {told} told", published.len());
}
