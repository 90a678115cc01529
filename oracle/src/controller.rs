//! The gain controller: whole sequences of frames with the Rust's controller beside one that is written
//! here from document 01, over the Rust's own gain applier and the ratio of rules.rs.
//!
//! The answers come from the one below, and after every call the Rust's must agree with it: in each
//! sample, and in its whole state, which the Rust's `Debug` form shows. A handed-in state is in most cases
//! that of a second controller, which goes on in the Rust too; any other is held to document 01 alone, and
//! those frames are counted apart. The Rust has no gap: what one does is document 02's rule, here and for the
//! Rust's (prepare.rs).
//!
//! The Rust as it stands goes along over the same frames, and shows how far its power function and the
//! ratio by document 01's tables are apart.

use crate::applier::{self, LARGEST};
use crate::clauses::{self, Clause, Edges, MINUS_ZERO, NAN};
use crate::drive::{Ask, Length, Part};
use crate::judge::{self, Departure, Judge, Settings, Tally, ENVELOPE, HEADROOM, LEVEL, PROBABILITY};
use crate::lines::{self, bits, DONE, FIGURE, SAMPLE, SETTING};
use crate::random::Random;
use crate::sound::{self, Frame};
use sonora_as_is::adaptive_digital_gain_controller as as_is;
use sonora_as_is::speech_level_estimator::AdaptiveDigitalConfig as AsIsConfig;
use sonora_ruled::adaptive_digital_gain_controller as ruled;
use sonora_ruled::rules::ratio;
use sonora_ruled::speech_level_estimator::AdaptiveDigitalConfig as RuledConfig;

/// What is known of a frame, as it is asked: probability, level, whether it is trusted, noise, headroom,
/// envelope.
#[derive(Clone, Copy)]
pub struct Info(pub [u32; 6]);

/// Where the figures stand in it, with their ranges.
const FIGURES: [(usize, judge::Range); 5] =
    [(0, PROBABILITY), (1, LEVEL), (3, LEVEL), (4, HEADROOM), (5, ENVELOPE)];
const TRUSTED: usize = 2;

const GOOD: Info = Info([0x3f80_0000, 0xc220_0000, 1, 0xc2b4_0000, 0x41a0_0000, 0xc2b4_0000]);

impl Info {
    fn at(&self, i: usize) -> f32 {
        f32::from_bits(self.0[i])
    }

    fn trusted(&self) -> bool {
        self.0[TRUSTED] != 0
    }

    fn accepted(&self) -> bool {
        let within = |i: usize, low: f32, high: f32| low <= self.at(i) && self.at(i) <= high;
        within(0, 0.0, 1.0)
            && within(1, -150.0, 50.0)
            && within(3, -150.0, 50.0)
            && within(4, 0.0, 100.0)
            && self.at(4) > 0.0
            && within(5, -150.0, 100.0)
    }

    fn with(mut self, i: usize, b: u32) -> Info {
        self.0[i] = b;
        self
    }
}

/// The names of the clauses about the settings.
const SETTINGS: [&str; 5] = [
    "controller headroom setting",
    "controller largest gain",
    "controller initial gain",
    "controller change per second",
    "controller output noise",
];

/// The controller by document 01.
#[derive(Clone, Copy, Default)]
pub struct State {
    applier: applier::State,
    pub settings: Settings,
    pub threshold: u32,
    change: f32,
    waiting: u32,
    pub gain: f32,
}

/// The change in a frame of 10 ms.
pub fn change(settings: &Settings) -> f32 {
    settings.at(3) * 10.0 / 1000.0
}

/// What happened in a frame.
#[derive(Clone, Copy, Default)]
pub struct Seen {
    by_noise: bool,
    by_envelope: bool,
    first: bool,
    change: f32,
}

impl State {
    pub fn new(settings: Settings, threshold: u32) -> State {
        let gain = settings.at(2);
        State {
            applier: applier::State {
                clip: false,
                last: ratio(gain),
                current: ratio(gain),
                samples: -1,
                inverse: -1.0,
            },
            settings,
            threshold,
            change: change(&settings),
            waiting: threshold,
            gain,
        }
    }

    /// "waiting counts 0 to T; gain 0 to 51 dB, a controller's factors to 355; change per frame as its rule
    /// gives it".
    pub fn clauses(&self) -> Vec<Clause> {
        let mut all = self.settings.clauses(SETTINGS);
        all.extend([
            ("controller threshold", judge::is_threshold(self.threshold)),
            ("controller change per frame", self.change == change(&self.settings)),
            ("controller waiting count", self.waiting <= self.threshold),
            ("controller gain", 0.0 <= self.gain && self.gain <= 51.0),
            ("controller last factor", self.applier.last <= 355.0),
            ("controller current factor", self.applier.current <= 355.0),
        ]);
        all.extend(self.applier.clauses());
        all
    }

    pub fn passes(&self) -> bool {
        clauses::hold(&self.clauses())
    }

    pub fn figures(&self) -> Vec<u32> {
        let mut all = self.applier.figures().to_vec();
        all.extend(self.settings.figures());
        all.extend([self.threshold, bits(self.change), self.waiting, bits(self.gain)]);
        all
    }

    /// The state, and whether it passes.
    pub fn shown(&self) -> Vec<u32> {
        let mut all = self.figures();
        all.push(self.passes() as u32);
        all
    }

    /// The state with these figures.
    pub fn read(figures: &[u32]) -> Option<State> {
        match figures {
            [clip, last, current, samples, inverse, rest @ ..] => {
                let (settings, rest) = Settings::read(rest)?;
                match *rest {
                    [threshold, change, waiting, gain] => Some(State {
                        applier: applier::State::read([*clip, *last, *current, *samples, *inverse]),
                        settings,
                        threshold,
                        change: f32::from_bits(change),
                        waiting,
                        gain: f32::from_bits(gain),
                    }),
                    _ => None,
                }
            }
            _ => None,
        }
    }

    /// "an increase only after T adjacent speech frames, the first of them up to T times larger".
    pub fn process(&mut self, info: &Info, channels: &mut [Vec<f32>]) -> Option<Seen> {
        let mut seen = Seen::default();
        let (headroom, most) = (self.settings.at(0), self.settings.at(1));
        let level = info.at(1) + info.at(4);
        let mut target = if level < -(headroom + most) {
            most
        } else if level < -headroom {
            -headroom - level
        } else {
            0.0
        };
        let quiet = judge::larger(self.settings.at(4) - info.at(3), 0.0);
        seen.by_noise = quiet < target;
        target = judge::smaller(target, quiet);
        if !info.trusted() && info.at(5) > -1.0 {
            let bound = judge::larger(-1.0 - (info.at(5) - self.gain), 0.0);
            seen.by_envelope = bound < target;
            target = judge::smaller(bound, target);
        }
        if !judge::is_speech(info.at(0)) {
            self.waiting = self.threshold;
        } else if self.waiting > 0 {
            self.waiting -= 1;
            seen.first = self.waiting == 0;
        }
        let mut difference = target - self.gain;
        if self.waiting > 0 {
            difference = judge::smaller(difference, 0.0);
        }
        let rise = if seen.first { self.change * self.threshold as f32 } else { self.change };
        seen.change = judge::clamp(difference, -self.change, rise);
        let gain = self.gain + seen.change;
        let mut made = applier::published(&self.applier)?;
        if seen.change != 0.0 {
            made.set_gain_factor(ratio(gain));
        }
        made.apply_gain(&mut channels.iter_mut().map(|c| c.as_mut_slice()).collect::<Vec<_>>());
        self.applier = applier::State::of(&made)?;
        self.gain = gain;
        Some(seen)
    }

    /// A gap "sets the controller's waiting count back to T, handles no samples and moves no gain".
    pub fn gap(&mut self) {
        let t = self.threshold;
        self.waiting = t;
    }
}

pub const NAMES: [&str; 16] = [
    "gain_applier",
    "hard_clip_samples",
    "last_gain_factor",
    "current_gain_factor",
    "samples_per_channel",
    "inverse_samples_per_channel",
    "config",
    "headroom_db",
    "max_gain_db",
    "initial_gain_db",
    "max_gain_change_db_per_second",
    "max_output_noise_level_dbfs",
    "adjacent_speech_frames_threshold",
    "max_gain_change_db_per_10ms",
    "frames_to_gain_increase_allowed",
    "last_gain_db",
];

/// Where the factor and the gain stand in what the `Debug` form shows.
const FACTOR: usize = 2;
const GAIN: usize = 13;

/// A controller by document 01, with the Rust's two beside it where they go along.
struct Trio {
    state: State,
    rust: Option<(ruled::AdaptiveDigitalGainController, as_is::AdaptiveDigitalGainController)>,
}

impl Trio {
    fn new(settings: Settings, threshold: u32) -> Trio {
        let [headroom_db, max_gain_db, initial_gain_db, max_gain_change_db_per_second, max_output_noise_level_dbfs] =
            settings.0.map(f32::from_bits);
        let one = RuledConfig {
            headroom_db,
            max_gain_db,
            initial_gain_db,
            max_gain_change_db_per_second,
            max_output_noise_level_dbfs,
        };
        let other = AsIsConfig {
            headroom_db,
            max_gain_db,
            initial_gain_db,
            max_gain_change_db_per_second,
            max_output_noise_level_dbfs,
        };
        let t = threshold as i32;
        let rust = (
            ruled::AdaptiveDigitalGainController::new(one, t),
            as_is::AdaptiveDigitalGainController::new(other, t),
        );
        Trio {
            state: State::new(settings, threshold),
            rust: Some(rust),
        }
    }

    fn alone(state: State) -> Trio {
        Trio { state, rust: None }
    }
}

struct Desk {
    now: Trio,
    aside: Trio,
    unlike: Vec<String>,
    tally: Tally,
    departures: [Departure; 3],
    middles: Info,
    samples: usize,
    /// Frames limited by noise, by the envelope, with a first faster step, whose gain rises, falls, stays;
    /// frames of another shape than 1 channel of 40 samples; and first steps that no T up to 200 allows.
    cases: [usize; 8],
}

impl Desk {
    fn new() -> Desk {
        Desk {
            now: Trio::alone(State::default()),
            aside: Trio::new(Settings::USUAL, 12),
            unlike: Vec::new(),
            tally: Tally::default(),
            departures: Default::default(),
            middles: GOOD,
            samples: 0,
            cases: [0; 8],
        }
    }

    /// Asks; the answer is the reply, the state, whether it passes, and the samples.
    fn put(&mut self, name: &str, figures: &[u32], reply: u32, rest: &[u32], to: Ask) -> bool {
        let state = &self.now.state;
        let ours = state.figures();
        if let Some((one, other)) = &self.now.rust {
            let [theirs, as_it_stands] =
                [format!("{:?}", one), format!("{:?}", other)].map(|text| judge::values(&text, &NAMES));
            if theirs.as_ref() != Some(&ours) {
                judge::object(&mut self.unlike, format!("after {} in frame {}: {:08x?}, and {:?}", name, self.tally.frames(), ours, one));
            }
            if let Some(theirs) = as_it_stands {
                let gain = f32::from_bits(ours[GAIN]);
                let frame = self.tally.frames();
                for (found, at) in self.departures.iter_mut().zip([GAIN, FACTOR]) {
                    let place = || format!("at {:?} dB, frame {}", gain, frame);
                    found.note(f32::from_bits(ours[at]), f32::from_bits(theirs[at]), place);
                }
            }
        }
        let mut all = vec![reply];
        all.extend(state.shown());
        all.extend(rest);
        to(lines::question(name, figures), lines::answer(&all))
    }

    fn call(&mut self, name: &str, figures: &[u32], reply: u32, to: Ask) -> bool {
        self.tally.call(reply);
        self.put(name, figures, reply, &[], to)
    }

    fn fresh(&mut self, settings: Settings, threshold: u32, to: Ask) -> bool {
        let reply = if settings.accepted() && judge::is_threshold(threshold) {
            self.now = Trio::new(settings, threshold);
            DONE
        } else {
            self.now = Trio::alone(State::default());
            SETTING
        };
        let mut figures = settings.0.to_vec();
        figures.push(threshold);
        self.call("controller.new", &figures, reply, to)
    }

    /// Hands any state in.
    fn set(&mut self, state: State, to: Ask) -> bool {
        self.now = Trio::alone(state);
        self.call("controller.set", &state.figures(), DONE, to)
    }

    fn process(&mut self, info: &Info, frame: &Frame, to: Ask) -> bool {
        let passes = self.now.state.passes();
        // In the order 1, 4, 2, 3.
        let reply = match frame.reply(true, passes, LARGEST) {
            DONE | SAMPLE if !info.accepted() => FIGURE,
            other => other,
        };
        let mut samples = frame.untouched();
        if reply == DONE {
            let (seen, ours) = self.go(info, frame);
            samples = ours;
            self.count(&seen, frame);
        }
        self.tally.frame(judge::is_speech(info.at(0)), reply, self.now.rust.is_some());
        let mut figures = vec![frame.channels, frame.samples];
        figures.extend(info.0);
        figures.extend(&frame.data);
        self.put("controller.process", &figures, reply, &samples, to)
    }

    /// An accepted frame, with the Rust's two beside where they go along: what happened, and the samples.
    fn go(&mut self, info: &Info, frame: &Frame) -> (Seen, Vec<u32>) {
        let mut ours = frame.sound();
        let seen = self.now.state.process(info, &mut ours).unwrap_or_else(|| {
            judge::object(&mut self.unlike, format!("no applier in frame {}", self.tally.frames()));
            Seen::default()
        });
        let samples = sound::flat(&ours);
        self.beside(info, frame, &samples);
        (seen, samples)
    }

    fn count(&mut self, seen: &Seen, frame: &Frame) {
        self.samples += frame.data.len();
        let all = [
            seen.by_noise,
            seen.by_envelope,
            seen.first,
            seen.change > 0.0,
            seen.change < 0.0,
            seen.change == 0.0,
            frame.data.len() != 40,
            seen.first && seen.change > 200.5 * self.now.state.change,
        ];
        for (count, one) in self.cases.iter_mut().zip(all) {
            *count += one as usize;
        }
    }

    /// The same frame with the Rust's two.
    fn beside(&mut self, info: &Info, frame: &Frame, samples: &[u32]) {
        let (one, other) = match &mut self.now.rust {
            None => return,
            Some(both) => both,
        };
        let (mut here, mut there) = (frame.sound(), frame.sound());
        let [speech_probability, speech_level_dbfs, _, noise_rms_dbfs, headroom_db, limiter_envelope_dbfs] =
            info.0.map(f32::from_bits);
        let speech_level_reliable = info.trusted();
        let known = ruled::FrameInfo {
            speech_probability,
            speech_level_dbfs,
            speech_level_reliable,
            noise_rms_dbfs,
            headroom_db,
            limiter_envelope_dbfs,
        };
        one.process(&known, &mut here.iter_mut().map(|c| c.as_mut_slice()).collect::<Vec<_>>());
        let known = as_is::FrameInfo {
            speech_probability,
            speech_level_dbfs,
            speech_level_reliable,
            noise_rms_dbfs,
            headroom_db,
            limiter_envelope_dbfs,
        };
        other.process(&known, &mut there.iter_mut().map(|c| c.as_mut_slice()).collect::<Vec<_>>());
        let number = self.tally.frames();
        if sound::flat(&here) != samples {
            judge::object(&mut self.unlike, format!("the samples of frame {}", number));
        }
        for (x, y) in here.iter().flatten().zip(there.iter().flatten()) {
            self.departures[2].note(*x, *y, || format!("frame {}", number));
        }
    }

    /// The first faster step: new ones with a threshold, each with a change per second and an initial gain from which there
    /// is far to go, over one run that is longer than the threshold. The changes are the ends, the usual one and such that
    /// 3,000 of a frame's are less than there is to go.
    fn faster(&mut self, threshold: u32, source: &mut Random, to: Ask) -> bool {
        let info = GOOD.with(1, (-120.0_f32).to_bits()).with(3, (-150.0_f32).to_bits());
        [0.01_f32, 0.5, 1.0, 6.0, 100.0].iter().all(|change| {
            [0.0_f32, 15.0, 49.0].iter().all(|initial| {
                let mut settings = Settings::USUAL;
                settings.0[2] = initial.to_bits();
                settings.0[3] = change.to_bits();
                self.fresh(settings, threshold, to)
                    && (0..threshold + 3).all(|i| {
                        let frame = short_frame(source);
                        let going = self.process(&info, &frame, to);
                        let rises = self.now.state.gain > *initial;
                        if rises != (i + 1 >= threshold) {
                            judge::object(&mut self.unlike, format!("T {}: the gain in frame {} of a run", threshold, i + 1));
                        }
                        going
                    })
            })
        })
    }
}

/// A frame of sound: in most cases 1 channel of 40 samples.
fn any_frame(source: &mut Random) -> Frame {
    let (channels, samples) = match source.up_to(255) {
        0 => (1 + source.up_to(7), 40),
        1 => (1, 40 + 20 * source.up_to(22)),
        2 if source.up_to(7) == 0 => (1 + source.up_to(7), 40 + 20 * source.up_to(22)),
        _ => (1, 40),
    };
    sound::frame(source.up_to(9) as usize, channels, samples, LARGEST, source)
}

fn short_frame(source: &mut Random) -> Frame {
    sound::frame(2, 1, 40, LARGEST, source)
}

impl Judge for Desk {
    fn tally(&mut self) -> &mut Tally {
        &mut self.tally
    }

    fn object(&mut self, why: Vec<String>) {
        self.unlike.extend(why);
    }

    fn has_the_rust(&self) -> bool {
        self.now.rust.is_some()
    }

    fn threshold(&self) -> u32 {
        self.now.state.threshold
    }

    fn renew(&mut self, threshold: u32, source: &mut Random, to: Ask) -> bool {
        self.fresh(Settings::any(source), threshold, to)
    }

    fn swap(&mut self, to: Ask) -> bool {
        if self.now.rust.is_none() {
            self.now = Trio::new(Settings::USUAL, 3);
        }
        std::mem::swap(&mut self.now, &mut self.aside);
        let figures = self.now.state.figures();
        self.call("controller.set", &figures, DONE, to)
    }

    fn after_speech(&mut self, threshold: u32, frames: u32, source: &mut Random, to: Ask) -> bool {
        self.now = Trio::new(Settings::any(source), threshold);
        for _ in 0..frames {
            let info = self.middles.with(0, judge::probability(true, source));
            let frame = short_frame(source);
            self.go(&info, &frame);
        }
        let figures = self.now.state.figures();
        self.call("controller.set", &figures, DONE, to)
    }

    /// "Refuses only with 4, for a state that fails its test."
    fn gap(&mut self, to: Ask) -> bool {
        let before = self.now.state;
        let reply = if before.passes() {
            self.tally.gap(before.threshold, before.threshold.saturating_sub(before.waiting));
            self.now.state.gap();
            if let Some((one, other)) = &mut self.now.rust {
                one.gap();
                other.gap();
            }
            DONE
        } else {
            SETTING
        };
        self.call("controller.gap", &[], reply, to)
    }

    /// A controller has no reset: a new one with the same settings.
    fn reset(&mut self, to: Ask) -> bool {
        let state = self.now.state;
        self.fresh(state.settings, state.threshold, to)
    }

    fn hand_in(&mut self, source: &mut Random, to: Ask) -> bool {
        let threshold = judge::any_threshold(source);
        let mut state = State::new(Settings::any(source), threshold);
        let factors = [0x0000_0001, 0x43b1_8000, 0x3f80_0000, source.up_to(0x43b1_7fff) + 1];
        state.applier.clip = source.up_to(1) == 1;
        state.applier.last = f32::from_bits(judge::one_of(&factors, source));
        state.applier.current = f32::from_bits(judge::one_of(&factors, source));
        state.applier.samples = judge::one_of(&[-1, 40, 60, 480], source);
        state.applier.inverse = 1.0 / state.applier.samples as f32;
        state.waiting = judge::one_of(&[0, 1, threshold - 1, threshold], source);
        state.gain = judge::one_of(&[0.0, -0.0, 51.0, 51.0 * judge::fraction(source)], source);
        self.set(state, to)
    }

    fn turn(&mut self, source: &mut Random) {
        self.middles = GOOD
            .with(1, (-100.0 * judge::fraction(source)).to_bits())
            .with(TRUSTED, source.up_to(1))
            .with(4, (10.0 + 20.0 * judge::fraction(source)).to_bits());
        if source.up_to(2) == 0 {
            self.middles.0[3] = (-100.0 * judge::fraction(source)).to_bits();
        }
        if source.up_to(2) == 0 {
            self.middles.0[5] = (20.0 * judge::fraction(source) - 2.0).to_bits();
        }
    }

    fn frame(&mut self, probability: u32, source: &mut Random, to: Ask) -> bool {
        let mut info = self.middles.with(0, probability);
        for (i, range) in FIGURES.iter().skip(1) {
            if source.up_to(1) == 0 {
                info.0[*i] = range.any(self.middles.at(*i), source);
            }
        }
        let frame = any_frame(source);
        self.process(&info, &frame, to)
    }

    fn wrong(&mut self, source: &mut Random, to: Ask) -> bool {
        let mut info = self.middles.with(0, judge::probability(source.up_to(1) == 1, source));
        let mut frame = short_frame(source);
        let which = source.up_to(3);
        if which < 2 {
            let (i, range) = &FIGURES[source.up_to(4) as usize];
            info.0[*i] = judge::one_of(range.wrong, source);
        }
        if which > 0 {
            let some = sound::damaged(&frame, LARGEST);
            frame = some[source.up_to(some.len() as u32 - 1) as usize].clone();
        }
        self.process(&info, &frame, to)
    }

    fn each_figure(&mut self, source: &mut Random, to: Ask) -> bool {
        let good = short_frame(source);
        let figures = FIGURES.iter().all(|(i, range)| {
            range.ends.iter().chain(range.wrong).all(|&b| {
                let info = GOOD.with(*i, b);
                self.process(&info, &good, to) && (*i != 5 || self.process(&info.with(TRUSTED, 0), &good, to))
            })
        });
        // 1 before 2, and 2 before 3.
        let mut wrong = good.clone();
        wrong.data[39] = 0x7fc0_0000;
        let mut short = wrong.clone();
        short.data.pop();
        let bad = GOOD.with(1, 0x7fc0_0000);
        figures
            && self.process(&bad, &wrong, to)
            && self.process(&bad, &short, to)
            && sound::damaged(&good, LARGEST).iter().all(|one| self.process(&GOOD, one, to))
            && self.process(&GOOD, &good, to)
    }

    fn each_setting(&mut self, source: &mut Random, to: Ask) -> bool {
        let wrong = Settings::wrong();
        wrong.into_iter().all(|settings| self.fresh(settings, 2, to))
            && judge::WRONG_THRESHOLDS.iter().all(|&t| self.fresh(Settings::USUAL, t, to))
            && judge::GOOD_THRESHOLDS.iter().all(|&t| self.fresh(Settings::USUAL, t, to))
            && Settings::ends().into_iter().all(|settings| {
                self.fresh(settings, 2, to) && judge::run(self, 2, 0, source, to)
            })
    }

    fn edges(&self) -> Edges {
        edges()
    }

    fn amiss(&self) -> Vec<String> {
        edges().amiss(&[], &clauses_of)
    }

    fn at_edge(&mut self, figures: &[u32], to: Ask) -> Option<bool> {
        let state = State::read(figures)?;
        Some(self.set(state, to))
    }

    fn refuse(&mut self, source: &mut Random, to: Ask) -> bool {
        let mut frame = short_frame(source);
        frame.data[0] = 0x7fc0_0000;
        let empty = Frame {
            channels: 1,
            samples: 40,
            data: Vec::new(),
        };
        // 4 before 2 and 3, and 1 before 4.
        let good = short_frame(source);
        self.process(&GOOD, &good, to)
            && self.process(&GOOD.with(0, 0x7fc0_0000), &frame, to)
            && self.process(&GOOD, &empty, to)
            && self.gap(to)
    }
}

/// Where the figures stand in a state.
const THRESHOLD: usize = 10;
const CHANGE: usize = 11;
const WAITING: usize = 12;

/// The states at the edges of the test.
pub fn edges() -> Edges {
    let mut good = State::new(Settings::USUAL, 3);
    good.waiting = 0;
    let mut all = Edges::of(good.figures());
    Settings::add_edges(&mut all, 5, SETTINGS, &|settings| (CHANGE, bits(change(settings))));
    all.at("controller threshold", THRESHOLD, &judge::GOOD_THRESHOLDS, &judge::WRONG_THRESHOLDS);
    let usual = change(&Settings::USUAL);
    all.at("controller change per frame", CHANGE, &[usual.to_bits()], &[clauses::below(usual), clauses::above(usual), 0, NAN]);
    for (threshold, waiting) in judge::COUNTS {
        all.with("controller waiting count", waiting <= threshold, &[(THRESHOLD, threshold), (WAITING, waiting)]);
    }
    all.between("controller gain", GAIN, 0.0, 51.0);
    all.at("controller gain", GAIN, &[MINUS_ZERO], &[]);
    let most = 355.0_f32.to_bits();
    all.at("controller last factor", 1, &[most], &[most + 1, 0x43ff_ffff]);
    all.at("controller current factor", 2, &[most], &[most + 1, 0x43ff_ffff]);
    applier::add_edges(&mut all, 0, most);
    all
}

fn clauses_of(figures: &[u32]) -> Option<Vec<Clause>> {
    Some(State::read(figures)?.clauses())
}

/// The questions of the fixed list.
pub fn list(seed: u64, to: Ask) -> Vec<String> {
    let mut desk = Desk::new();
    judge::list(&mut desk, seed, &[1, 3], to);
    // One frame of each other kind of shape.
    let source = &mut Random::new(seed);
    desk.fresh(Settings::USUAL, 1, to);
    for (channels, samples) in [(2, 40), (1, 480), (3, 60)] {
        let frame = sound::frame(2, channels, samples, LARGEST, source);
        desk.process(&GOOD, &frame, to);
    }
    judge::list_gaps(&mut desk, seed, to);
    desk.unlike
}

pub struct Controllers {
    seed: u64,
    length: Length,
    desk: Desk,
}

impl Controllers {
    pub fn new(seed: u64, length: Length) -> Controllers {
        Controllers {
            seed,
            length,
            desk: Desk::new(),
        }
    }
}

impl Part for Controllers {
    fn name(&self) -> &'static str {
        "controller"
    }

    fn ask(&mut self, to: Ask) {
        let frames = self.length.frames(20_000, 400_000, 50_000);
        let thresholds: &[u32] = match self.length {
            Length::Short => &[200, 201, judge::LARGEST_THRESHOLD],
            Length::Long => &[1, 2, 200, 201, 256, 1500, 2999, judge::LARGEST_THRESHOLD],
            _ => &[],
        };
        let source = &mut Random::new(self.seed);
        let going = thresholds.iter().all(|&t| self.desk.faster(t, source, to));
        if going && !thresholds.is_empty() && self.desk.cases[7] == 0 {
            judge::object(&mut self.desk.unlike, "no first step is above what a T of 200 allows".to_string());
        }
        let _ = going && judge::play(&mut self.desk, self.seed, self.length, frames, to);
    }

    fn again(&mut self, name: &str, figures: &[u32], to: Ask) -> Option<bool> {
        let desk = &mut self.desk;
        Some(match (name, figures) {
            ("controller.new", all) => match Settings::read(all)? {
                (settings, &[threshold]) => desk.fresh(settings, threshold, to),
                _ => return None,
            },
            ("controller.set", state) => desk.set(State::read(state)?, to),
            ("controller.gap", []) => desk.gap(to),
            ("controller.process", [channels, samples, a, b, c, d, e, f, data @ ..]) => {
                let frame = Frame::read(&[&[*channels, *samples][..], data].concat())?;
                desk.process(&Info([*a, *b, *c, *d, *e, *f]), &frame, to)
            }
            _ => return None,
        })
    }

    fn clauses(&self) -> Vec<&'static str> {
        edges().names(&[], &clauses_of)
    }

    fn kinds(&self) -> Vec<(&'static str, usize)> {
        let mut all = vec![("samples", self.desk.samples)];
        all.extend(self.desk.tally.kinds());
        all
    }

    fn unlike(&self) -> &[String] {
        &self.desk.unlike
    }

    fn notes(&self) -> Vec<String> {
        let [noise, envelope, first, up, down, same, shapes, faster] = self.desk.cases;
        let mut all = vec![
            self.desk.tally.note(),
            format!(
                "of the frames {} are limited by the noise, {} by the envelope, {} end the waiting, {} of them with a step above 200 changes of a frame; in {} the gain rises, in {} it falls, in {} it stays; {} have another shape than 1 channel of 40",
                noise, envelope, first, faster, up, down, same, shapes
            ),
        ];
        for (found, what) in self.desk.departures.iter().zip(["the gain in dB", "the gain factor", "the samples"]) {
            all.push(found.line(what));
        }
        all
    }
}
