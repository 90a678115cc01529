//! The Rust's side of the speed table: the twin of the program `speed` (crates/speed), over the
//! published modules. It reads the same lines, fills the same frames with the same numbers, and
//! writes the same digests. docs/SPEED.md says what is counted.
//!
//! A part that is added has a function here, a line in `work`, and its twin in crates/speed.
//!
//! Compiled with `--cfg library` it is the driver of the library to link (library/rust): the same loops, over the chain
//! and the limiter of libmurzicanu.a, as a box has them.

#![cfg_attr(library, allow(dead_code))]

use sonora_ruled::adaptive_digital_gain_controller::{AdaptiveDigitalGainController, FrameInfo};
use sonora_ruled::fixed_digital_level_estimator::FixedDigitalLevelEstimator;
use sonora_ruled::gain_applier::GainApplier;
use sonora_ruled::interpolated_gain_curve::InterpolatedGainCurve;
use sonora_ruled::limiter::Limiter;
use sonora_ruled::saturation_protector::SaturationProtector;
use sonora_ruled::speech_level_estimator::{AdaptiveDigitalConfig, SpeechLevelEstimator};
use std::io::{Read, Write};

/// How loud each frame of a syllable is.
const SYLLABLE: [f32; 16] = [
    0.03125, 0.125, 0.25, 0.5, 1.0, 1.5, 2.0, 1.75, 1.25, 1.0, 0.75, 0.5, 0.25, 0.125, 0.0625, 0.03125,
];

/// How likely each four frames are speech.
const SPEAKS: [f32; 16] = [
    1.0, 0.96875, 1.0, 0.984375, 1.0, 1.0, 0.953125, 1.0, 0.984375, 1.0, 0.5, 0.25, 1.0, 0.75, 0.25, 0.125,
];

/// How many adjacent speech frames a run needs to count, and the headroom to start with.
const THRESHOLD: i32 = 12;
const HEADROOM: f32 = 20.0;

const SPEECH: u32 = 1;

fn loudness(sound: u32, number: u32) -> f32 {
    if sound == SPEECH {
        SYLLABLE[(number % 16) as usize]
    } else {
        0.0
    }
}

/// What is metered of a frame.
struct Figures {
    probability: f32,
    rms: f32,
    peak: f32,
    noise: f32,
    envelope: f32,
}

/// 1 for speech and 0 for silence.
fn present(sound: u32) -> f32 {
    (sound % 2) as u16 as f32
}

fn figures(sound: u32, number: u32) -> Figures {
    let loud = present(sound);
    let rms = loud * (24 + number % 16) as u16 as f32 - 90.0;
    Figures {
        probability: loud * SPEAKS[(number / 4 % 16) as usize],
        rms,
        peak: rms + 20.0,
        noise: loud * (number / 16 % 4 * 12) as u16 as f32 - 90.0,
        envelope: rms + 60.0,
    }
}

/// The channels of a frame. The published functions that change samples take them so.
type Frame = Vec<Vec<f32>>;

#[inline(never)]
fn fill(frame: &mut Frame, seed: u64, loud: f32) -> u64 {
    let mut s = seed;
    let mut at = 0;
    for channel in frame.iter_mut() {
        for x in channel.iter_mut() {
            s = (s % 2147483648 * 1103515245 + 12345) % 2147483648;
            let noise = (s / 32768 % 65536) as u16 as f32 - 32768.0;
            let pulse = (256 - at % 256) as u16 as f32 * 0.00390625;
            *x = noise * pulse * loud;
            at += 1;
        }
    }
    s
}

fn mix(before: u32, x: f32) -> u32 {
    before.rotate_right(1).wrapping_add(x.to_bits())
}

fn mix_figures(before: u32, figures: &Figures) -> u32 {
    let Figures {
        probability,
        rms,
        peak,
        noise,
        envelope,
    } = *figures;
    [probability, rms, peak, noise, envelope].iter().fold(before, |d, x| mix(d, *x))
}

#[inline(never)]
fn digest(before: u32, frame: &Frame) -> u32 {
    let mut d = before;
    for channel in frame {
        for x in channel {
            d = mix(d, *x);
        }
    }
    d
}

struct Ask {
    part: u32,
    sound: u32,
    channels: usize,
    samples: usize,
    frames: u32,
}

/// What a part is given besides the frame: its figures, a level for the curve, and its number.
struct Given {
    figures: Figures,
    level: f32,
    number: u32,
}

/// The loop that all parts have: the digest takes what became of the frame before, the frame and its figures are
/// made anew, and the part works on them. Inlined, so that each part has a loop of its own.
#[inline(always)]
fn over_frames(frame: &mut Frame, ask: &Ask, mut part: impl FnMut(&mut Frame, &Given)) -> u32 {
    let (mut d, mut seed) = (0, 1);
    for number in 0..ask.frames {
        d = digest(d, frame);
        seed = fill(frame, seed, loudness(ask.sound, number));
        let given = Given {
            figures: figures(ask.sound, number),
            level: present(ask.sound) * (number % 64 * 768) as u16 as f32,
            number,
        };
        d = mix(mix_figures(d, &given.figures), given.level);
        part(frame, &given);
    }
    d
}

fn nothing(frame: &mut Frame, ask: &Ask) -> u32 {
    over_frames(frame, ask, |_, _| {})
}

fn hear(frame: &mut Frame, ask: &Ask) -> u32 {
    let mut estimator = SpeechLevelEstimator::new(&AdaptiveDigitalConfig::default(), THRESHOLD);
    let d = over_frames(frame, ask, |_, given| {
        estimator.update(given.figures.rms, given.figures.probability)
    });
    mix(d, estimator.level_dbfs())
}

fn protect(frame: &mut Frame, ask: &Ask) -> u32 {
    let mut protector = SaturationProtector::new(HEADROOM, THRESHOLD);
    let d = over_frames(frame, ask, |_, given| {
        let Figures { probability, rms, peak, .. } = given.figures;
        protector.analyze(probability, peak, rms);
    });
    mix(d, protector.headroom_db())
}

fn control(frame: &mut Frame, ask: &Ask) -> u32 {
    let mut controller = AdaptiveDigitalGainController::new(AdaptiveDigitalConfig::default(), THRESHOLD);
    over_frames(frame, ask, |frame, given| {
        let info = FrameInfo {
            speech_probability: given.figures.probability,
            speech_level_dbfs: given.figures.rms,
            speech_level_reliable: given.number % 16 < 8,
            noise_rms_dbfs: given.figures.noise,
            headroom_db: given.figures.probability * 8.0 + 12.0,
            limiter_envelope_dbfs: given.figures.envelope,
        };
        controller.process_owned_frame(&info, frame);
    })
}

fn look_up(frame: &mut Frame, ask: &Ask) -> u32 {
    let mut curve = InterpolatedGainCurve::default();
    let mut gains = 0.0;
    let d = over_frames(frame, ask, |_, given| gains += curve.look_up_gain_to_apply(given.level));
    let stats = curve.get_stats();
    [
        stats.look_ups_identity_region,
        stats.look_ups_knee_region,
        stats.look_ups_limiter_region,
        stats.look_ups_saturation_region,
    ]
    .iter()
    .fold(mix(d, gains), |d, count| mix(d, (count % 65536) as u16 as f32))
}

fn estimate(frame: &mut Frame, ask: &Ask) -> u32 {
    let mut estimator = FixedDigitalLevelEstimator::new(ask.samples);
    let mut levels = [0.0; 20];
    // This one takes a list of slices, which is made anew for each frame.
    let d = over_frames(frame, ask, |frame, _| {
        let mut slices: [&[f32]; 8] = [&[]; 8];
        for (slice, channel) in slices.iter_mut().zip(frame.iter()) {
            *slice = channel;
        }
        levels = estimator.compute_level(&slices[..frame.len()]);
    });
    levels.iter().fold(d, |d, x| mix(d, *x))
}

fn apply(frame: &mut Frame, ask: &Ask, factor: f32) -> u32 {
    let mut applier = GainApplier::new(false, factor);
    let d = over_frames(frame, ask, |frame, _| applier.apply_gain_to_owned_signal(frame));
    mix(d, applier.get_gain_factor())
}

fn ramp(frame: &mut Frame, ask: &Ask, clip: bool, factor: f32) -> u32 {
    let mut applier = GainApplier::new(clip, factor);
    let d = over_frames(frame, ask, |frame, given| {
        applier.set_gain_factor(if given.number % 2 == 0 { factor + factor } else { factor });
        applier.apply_gain_to_owned_signal(frame);
    });
    mix(d, applier.get_gain_factor())
}

fn limit(frame: &mut Frame, ask: &Ask) -> u32 {
    let mut limiter = Limiter::new(ask.samples);
    let d = over_frames(frame, ask, |frame, _| limiter.process_owned_signal(frame));
    mix(d, limiter.last_audio_level())
}

/// The four modules in document 01's order, as in oracle/src/chain.rs. The Rust has no such type, so its steps
/// stand in the loop.
fn level(frame: &mut Frame, ask: &Ask) -> u32 {
    let mut estimator = SpeechLevelEstimator::new(&AdaptiveDigitalConfig::default(), THRESHOLD);
    let mut protector = SaturationProtector::new(HEADROOM, THRESHOLD);
    let mut controller = AdaptiveDigitalGainController::new(AdaptiveDigitalConfig::default(), THRESHOLD);
    let mut limiter = Limiter::new(ask.samples);
    let d = over_frames(frame, ask, |frame, given| {
        let Figures {
            probability,
            rms,
            peak,
            noise,
            envelope,
        } = given.figures;
        estimator.update(rms, probability);
        let level = estimator.level_dbfs();
        protector.analyze(probability, peak, level);
        let info = FrameInfo {
            speech_probability: probability,
            speech_level_dbfs: level,
            speech_level_reliable: estimator.is_confident(),
            noise_rms_dbfs: noise,
            headroom_db: protector.headroom_db(),
            limiter_envelope_dbfs: envelope,
        };
        controller.process_owned_frame(&info, frame);
        limiter.process_owned_signal(frame);
    });
    mix(mix(d, estimator.level_dbfs()), protector.headroom_db())
}

/// The library, over a frame whose channels stand one after the other in one piece.
#[cfg(library)]
mod library {
    use super::{mix, nothing, over_frames, Ask, Figures, Frame, THRESHOLD};

    fn limit(frame: &mut Frame, ask: &Ask) -> u32 {
        let mut limiter = murzicanu::Limiter::new(ask.samples).unwrap();
        let d = over_frames(frame, ask, |frame, _| limiter.step(&mut frame[0], ask.channels).unwrap());
        mix(d, limiter.level().unwrap())
    }

    fn level(frame: &mut Frame, ask: &Ask) -> u32 {
        let settings = murzicanu::Settings::default();
        let mut chain = murzicanu::Chain::new(&settings, THRESHOLD as u32, ask.samples, murzicanu::USUAL_RING).unwrap();
        let d = over_frames(frame, ask, |frame, given| {
            let Figures { probability, rms, peak, noise, envelope } = given.figures;
            let figures = murzicanu::Figures { probability, rms, peak, noise, envelope };
            chain.step(&figures, &mut frame[0], ask.channels).unwrap();
        });
        let now = chain.published().unwrap();
        mix(mix(d, now.level), now.headroom)
    }

    pub(super) fn work(frame: &mut Frame, ask: &Ask) -> u32 {
        match ask.part {
            0 => nothing(frame, ask),
            10 => limit(frame, ask),
            11 => level(frame, ask),
            _ => panic!("the library has no part {}", ask.part),
        }
    }
}

#[cfg(library)]
use library::work;

#[cfg(not(library))]
fn work(frame: &mut Frame, ask: &Ask) -> u32 {
    match ask.part {
        1 => hear(frame, ask),
        2 => protect(frame, ask),
        3 => control(frame, ask),
        4 => estimate(frame, ask),
        5 => apply(frame, ask, 1.0),
        6 => apply(frame, ask, 0.75),
        7 => ramp(frame, ask, false, 0.5),
        8 => ramp(frame, ask, true, 1.5),
        9 => look_up(frame, ask),
        10 => limit(frame, ask),
        11 => level(frame, ask),
        _ => nothing(frame, ask),
    }
}

/// What the part that is asked for makes, the last frame included.
fn run(ask: &Ask) -> u32 {
    let mut frame = if cfg!(library) {
        vec![vec![0.0; ask.samples * ask.channels]]
    } else {
        vec![vec![0.0; ask.samples]; ask.channels]
    };
    let d = work(&mut frame, ask);
    digest(d, &frame)
}

fn main() {
    let mut text = String::new();
    std::io::stdin().read_to_string(&mut text).unwrap();
    for line in text.lines() {
        let figures: Vec<u32> = line.split(' ').map(|f| u32::from_str_radix(f, 16).unwrap()).collect();
        let ask = Ask {
            part: figures[0],
            sound: figures[1],
            channels: figures[2] as usize,
            samples: figures[3] as usize,
            frames: figures[4],
        };
        writeln!(std::io::stdout(), "{:08x} 00000000", run(&ask)).unwrap();
    }
}
