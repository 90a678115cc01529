//! The level of the speech: whole sequences with the Rust's speech level estimator beside one that is
//! written here from document 01.
//!
//! The answers come from the one below, and after every call the Rust's must agree with it in its whole
//! state, which the Rust's `Debug` form shows. The Rust keeps no settings, and its count is not held at T:
//! the smaller of count and T is compared. A handed-in state is in most cases that of a second estimator,
//! which goes on in the Rust too; any other is held to document 01 alone, and those frames are counted
//! apart. The Rust has no gap: it gets a frame that is no speech, with one set of figures or another.

use crate::chain::{Figures, LOST};
use crate::clauses::{self, Clause, Edges, MINUS_ZERO, NAN};
use crate::drive::{Ask, Length, Part};
use crate::judge::{self, Departure, Judge, Settings, Tally, PROBABILITY, RMS};
use crate::lines::{self, bits, DONE, FIGURE, SETTING};
use crate::random::Random;
use sonora_as_is::speech_level_estimator as as_is;
use sonora_ruled::speech_level_estimator as ruled;

/// The names of the clauses about the settings, and about each average.
const SETTINGS: [&str; 5] = [
    "speech headroom setting",
    "speech largest gain",
    "speech initial gain",
    "speech change per second",
    "speech output noise",
];
const PRELIMINARY: [&str; 3] = ["speech preliminary time", "speech preliminary weight", "speech preliminary sum"];
const RELIABLE: [&str; 3] = ["speech reliable time", "speech reliable weight", "speech reliable sum"];

#[derive(Clone, Copy, Default)]
struct Average {
    left: u32,
    sum: f32,
    weight: f32,
}

impl Average {
    /// "times 0 to 400 in tens; weight from 1 to 450 less the time left; the sum's magnitude at most
    /// exactly 151 times the weight".
    fn clauses(&self, names: [&'static str; 3]) -> [Clause; 3] {
        let [time, weight, sum] = names;
        let most = (450 - self.left as i64) as f32;
        [
            (time, self.left <= 400 && self.left % 10 == 0),
            (weight, 1.0 <= self.weight && self.weight <= most),
            (sum, (self.sum as f64).abs() <= 151.0 * self.weight as f64),
        ]
    }

    fn figures(&self) -> [u32; 3] {
        [self.left, bits(self.sum), bits(self.weight)]
    }
}

/// The estimator by document 01.
#[derive(Clone, Copy, Default)]
pub struct State {
    pub settings: Settings,
    pub threshold: u32,
    initial: f32,
    preliminary: Average,
    reliable: Average,
    pub level: f32,
    pub confident: bool,
    pub count: u32,
}

/// "Starts at the clamped -20 - initial gain - headroom".
pub fn starting(settings: &Settings) -> f32 {
    judge::clamp(-20.0 - settings.at(2) - settings.at(0), -90.0, 30.0)
}

impl State {
    pub fn new(settings: Settings, threshold: u32) -> State {
        let initial = starting(&settings);
        let average = Average {
            left: 400,
            sum: initial,
            weight: 1.0,
        };
        State {
            settings,
            threshold,
            initial,
            preliminary: average,
            reliable: average,
            level: initial,
            confident: false,
            count: 0,
        }
    }

    /// "its settings and figures lie in their ranges; published level -90 to 30; run counts 0 to T; starting level
    /// as its rule gives it".
    pub fn clauses(&self) -> Vec<Clause> {
        let mut all = self.settings.clauses(SETTINGS);
        all.extend([
            ("speech threshold", judge::is_threshold(self.threshold)),
            ("speech starting level", self.initial == starting(&self.settings)),
            ("speech level", -90.0 <= self.level && self.level <= 30.0),
            ("speech count", self.count <= self.threshold),
        ]);
        all.extend(self.preliminary.clauses(PRELIMINARY));
        all.extend(self.reliable.clauses(RELIABLE));
        all
    }

    pub fn passes(&self) -> bool {
        clauses::hold(&self.clauses())
    }

    pub fn figures(&self) -> Vec<u32> {
        let mut all = self.settings.figures().to_vec();
        all.extend([self.threshold, bits(self.initial)]);
        all.extend(self.preliminary.figures());
        all.extend(self.reliable.figures());
        all.extend([bits(self.level), self.confident as u32, self.count]);
        all
    }

    /// The state, and what each call says that only looks at it: whether it passes, the level, and whether it is
    /// trusted.
    pub fn shown(&self) -> Vec<u32> {
        let mut all = self.figures();
        all.extend(if self.passes() {
            [1, DONE, bits(self.level), DONE, self.confident as u32]
        } else {
            [0, SETTING, 0, SETTING, 0]
        });
        all
    }

    /// The state with these figures.
    pub fn read(figures: &[u32]) -> Option<State> {
        let (settings, rest) = Settings::read(figures)?;
        let average = |left: u32, sum: u32, weight: u32| Average {
            left,
            sum: f32::from_bits(sum),
            weight: f32::from_bits(weight),
        };
        match *rest {
            [threshold, initial, a, b, c, d, e, f, level, confident, count] => Some(State {
                settings,
                threshold,
                initial: f32::from_bits(initial),
                preliminary: average(a, b, c),
                reliable: average(d, e, f),
                level: f32::from_bits(level),
                confident: confident != 0,
                count,
            }),
            _ => None,
        }
    }

    pub fn update(&mut self, rms: f32, p: f32) {
        let t = self.threshold;
        if judge::is_speech(p) {
            let one = &mut self.preliminary;
            let leak = if one.left == 0 { 1.0 - 1.0 / 400.0 } else { 1.0 };
            one.left = one.left.saturating_sub(10);
            one.sum = one.sum * leak + rms * p;
            one.weight = one.weight * leak + p;
            self.count = (self.count + 1).min(t);
            if self.count == t {
                self.level = judge::clamp(one.sum / one.weight, -90.0, 30.0);
            }
        } else {
            if t > 1 && self.count == t {
                self.reliable = self.preliminary;
            } else if t > 1 && self.count > 0 {
                self.preliminary = self.reliable;
            }
            self.count = 0;
        }
        self.confident = if t == 1 {
            self.preliminary.left == 0
        } else {
            self.reliable.left == 0 || (self.count == t && self.preliminary.left == 0)
        };
    }

    /// A gap "ends the run as a non-speech frame does".
    pub fn gap(&mut self) {
        self.update(0.0, 0.0)
    }
}

const NAMES: [&str; 15] = [
    "initial_speech_level_dbfs",
    "adjacent_speech_frames_threshold",
    "preliminary_state",
    "time_to_confidence_ms",
    "level_dbfs",
    "numerator",
    "denominator",
    "reliable_state",
    "time_to_confidence_ms",
    "level_dbfs",
    "numerator",
    "denominator",
    "level_dbfs",
    "is_confident",
    "num_adjacent_speech_frames",
];

/// A weight whose product with 151 is no f32, the f32 next above that product, which is also the nearest,
/// and the one below.
const WEIGHT: u32 = 0x3f80_0003;
const OVER: u32 = 0x4317_0004;
const UNDER: u32 = 0x4317_0003;

/// Whether the Rust's estimator has this state: all of it but for the settings.
pub fn is_shown(state: &State, other: &ruled::SpeechLevelEstimator) -> bool {
    let mut ours = state.figures().split_off(6);
    ours.insert(1, state.threshold);
    match judge::values(&format!("{:?}", other), &NAMES) {
        None => false,
        Some(mut theirs) => {
            if let Some(count) = theirs.last_mut() {
                *count = (*count).min(state.threshold);
            }
            ours == theirs
                && other.level_dbfs().to_bits() == state.level.to_bits()
                && other.is_confident() == state.confident
        }
    }
}

/// An estimator by document 01, with the Rust's two beside it where they go along.
struct Trio {
    state: State,
    rust: Option<(ruled::SpeechLevelEstimator, as_is::SpeechLevelEstimator)>,
}

impl Trio {
    fn new(settings: Settings, threshold: u32) -> Trio {
        let [headroom_db, max_gain_db, initial_gain_db, max_gain_change_db_per_second, max_output_noise_level_dbfs] =
            settings.0.map(f32::from_bits);
        let one = ruled::AdaptiveDigitalConfig {
            headroom_db,
            max_gain_db,
            initial_gain_db,
            max_gain_change_db_per_second,
            max_output_noise_level_dbfs,
        };
        let other = as_is::AdaptiveDigitalConfig {
            headroom_db,
            max_gain_db,
            initial_gain_db,
            max_gain_change_db_per_second,
            max_output_noise_level_dbfs,
        };
        let t = threshold as i32;
        let rust = (ruled::SpeechLevelEstimator::new(&one, t), as_is::SpeechLevelEstimator::new(&other, t));
        Trio {
            state: State::new(settings, threshold),
            rust: Some(rust),
        }
    }

    fn alone(state: State) -> Trio {
        Trio { state, rust: None }
    }

    fn update(&mut self, rms: f32, p: f32) {
        self.state.update(rms, p);
        if let Some((one, other)) = &mut self.rust {
            one.update(rms, p);
            other.update(rms, p);
        }
    }

    /// A gap; the Rust gets a frame with these figures.
    fn gap(&mut self, lost: &Figures) {
        self.state.gap();
        if let Some((one, other)) = &mut self.rust {
            let [p, rms, ..] = lost.map(f32::from_bits);
            one.update(rms, p);
            other.update(rms, p);
        }
    }
}

struct Desk {
    now: Trio,
    aside: Trio,
    unlike: Vec<String>,
    tally: Tally,
    departure: Departure,
    middle: f32,
    /// Frames after which a level was published, that leaked, and after which it was trusted.
    cases: [usize; 3],
}

impl Desk {
    fn new() -> Desk {
        Desk {
            now: Trio::alone(State::default()),
            aside: Trio::new(Settings::USUAL, 12),
            unlike: Vec::new(),
            tally: Tally::default(),
            departure: Departure::default(),
            middle: -40.0,
            cases: [0; 3],
        }
    }

    /// Asks; the answer is the reply, the state, whether it passes, the level, and whether it is trusted.
    fn put(&mut self, name: &str, figures: &[u32], reply: u32, to: Ask) -> bool {
        let state = &self.now.state;
        let mut all = vec![reply];
        all.extend(state.shown());
        if let Some((other, _)) = &self.now.rust {
            if !is_shown(state, other) {
                judge::object(&mut self.unlike, format!("after {} {:08x?}: {:08x?}, and {:?}", name, figures, all, other));
            }
        }
        to(lines::question(name, figures), lines::answer(&all))
    }

    fn call(&mut self, name: &str, figures: &[u32], reply: u32, to: Ask) -> bool {
        self.tally.call(reply);
        self.put(name, figures, reply, to)
    }

    fn fresh(&mut self, settings: Settings, threshold: u32, to: Ask) -> bool {
        let reply = if settings.accepted() && judge::is_threshold(threshold) {
            self.now = Trio::new(settings, threshold);
            DONE
        } else {
            self.now = Trio::alone(State::default());
            SETTING
        };
        let mut figures = settings.0.to_vec();
        figures.push(threshold);
        self.call("speech.new", &figures, reply, to)
    }

    /// Hands any state in.
    fn set(&mut self, state: State, to: Ask) -> bool {
        self.now = Trio::alone(state);
        self.call("speech.set", &state.figures(), DONE, to)
    }

    fn update(&mut self, rms: u32, probability: u32, to: Ask) -> bool {
        let (x, p) = (f32::from_bits(rms), f32::from_bits(probability));
        let reply = if !self.now.state.passes() {
            SETTING
        } else if !(-150.0 < x && x < 50.0 && 0.0 <= p && p <= 1.0) {
            FIGURE
        } else {
            let speech = judge::is_speech(p);
            self.cases[1] += (speech && self.now.state.preliminary.left == 0) as usize;
            self.now.update(x, p);
            let state = &self.now.state;
            self.cases[0] += (speech && state.count == state.threshold) as usize;
            self.cases[2] += state.confident as usize;
            if let Some((_, other)) = &self.now.rust {
                let frame = self.tally.frames();
                self.departure.note(state.level, other.level_dbfs(), || format!("frame {}", frame));
            }
            DONE
        };
        self.tally.frame(judge::is_speech(p), reply, self.now.rust.is_some());
        self.put("speech.update", &[rms, probability], reply, to)
    }
}

impl Judge for Desk {
    fn tally(&mut self) -> &mut Tally {
        &mut self.tally
    }

    fn object(&mut self, why: Vec<String>) {
        self.unlike.extend(why);
    }

    fn has_the_rust(&self) -> bool {
        self.now.rust.is_some()
    }

    fn threshold(&self) -> u32 {
        self.now.state.threshold
    }

    fn renew(&mut self, threshold: u32, source: &mut Random, to: Ask) -> bool {
        self.fresh(Settings::any(source), threshold, to)
    }

    fn swap(&mut self, to: Ask) -> bool {
        if self.now.rust.is_none() {
            self.now = Trio::new(Settings::USUAL, 3);
        }
        std::mem::swap(&mut self.now, &mut self.aside);
        let figures = self.now.state.figures();
        self.call("speech.set", &figures, DONE, to)
    }

    fn after_speech(&mut self, threshold: u32, frames: u32, source: &mut Random, to: Ask) -> bool {
        self.now = Trio::new(Settings::any(source), threshold);
        for _ in 0..frames {
            let (rms, p) = (RMS.any(self.middle, source), judge::probability(true, source));
            self.now.update(f32::from_bits(rms), f32::from_bits(p));
        }
        let figures = self.now.state.figures();
        self.call("speech.set", &figures, DONE, to)
    }

    fn reset(&mut self, to: Ask) -> bool {
        let state = self.now.state;
        let reply = if state.passes() {
            self.now.state = State::new(state.settings, state.threshold);
            if let Some((one, other)) = &mut self.now.rust {
                one.reset();
                other.reset();
            }
            DONE
        } else {
            SETTING
        };
        self.call("speech.reset", &[], reply, to)
    }

    /// "Refuses only with 4, for a state that fails its test." It publishes no other level; and whether that is trusted may
    /// change only where a state was handed in that no frames bring about.
    fn gap(&mut self, to: Ask) -> bool {
        let before = self.now.state;
        let reply = if before.passes() {
            self.tally.gap(before.threshold, before.count);
            self.now.gap(&LOST[self.tally.gaps() % LOST.len()]);
            DONE
        } else {
            SETTING
        };
        let after = &self.now.state;
        let trusted = after.confident == before.confident || self.now.rust.is_none();
        if after.level.to_bits() != before.level.to_bits() || !trusted {
            judge::object(&mut self.unlike, format!("a gap published: {:08x?}", before.figures()));
        }
        self.call("speech.gap", &[], reply, to)
    }

    fn hand_in(&mut self, source: &mut Random, to: Ask) -> bool {
        let threshold = judge::any_threshold(source);
        let mut state = State::new(Settings::any(source), threshold);
        for one in [&mut state.preliminary, &mut state.reliable] {
            one.left = 10 * judge::one_of(&[0, 1, 2, 20, 39, 40], source);
            let most = (450 - one.left) as f32;
            one.weight = judge::one_of(&[1.0, most, 1.0 + (most - 1.0) * judge::fraction(source)], source);
            let share = judge::one_of(&[-1.0, 1.0, 0.0, -0.0, 2.0 * judge::fraction(source) - 1.0], source);
            // The largest sum that passes: 151 times the weight, rounded towards 0.
            let bound = 151.0 * one.weight as f64;
            let mut sum = (bound * share as f64) as f32;
            if (sum as f64).abs() > bound {
                sum = f32::from_bits(sum.to_bits() - 1);
            }
            one.sum = sum;
        }
        state.level = judge::one_of(&[-90.0, 30.0, -0.0, -90.0 + 120.0 * judge::fraction(source)], source);
        state.confident = source.up_to(1) == 1;
        state.count = judge::one_of(&[0, 1, threshold - 1, threshold], source);
        self.set(state, to)
    }

    fn turn(&mut self, source: &mut Random) {
        self.middle = RMS.middle(source);
    }

    fn frame(&mut self, probability: u32, source: &mut Random, to: Ask) -> bool {
        let rms = RMS.any(self.middle, source);
        self.update(rms, probability, to)
    }

    fn wrong(&mut self, source: &mut Random, to: Ask) -> bool {
        let speech = source.up_to(1) == 1;
        let (mut rms, mut p) = (RMS.any(self.middle, source), judge::probability(speech, source));
        match source.up_to(2) {
            0 => rms = judge::one_of(RMS.wrong, source),
            1 => p = judge::one_of(PROBABILITY.wrong, source),
            _ => (rms, p) = (judge::one_of(RMS.wrong, source), judge::one_of(PROBABILITY.wrong, source)),
        }
        self.update(rms, p, to)
    }

    fn each_figure(&mut self, _: &mut Random, to: Ask) -> bool {
        let speech = 1.0_f32.to_bits();
        RMS.ends.iter().chain(RMS.wrong).all(|&rms| self.update(rms, speech, to) && self.update(rms, 0, to))
            && PROBABILITY.ends.iter().chain(PROBABILITY.wrong).all(|&p| self.update((-30.0_f32).to_bits(), p, to))
            && [UNDER, UNDER | 1 << 31].iter().all(|&sum| {
                let mut state = State::new(Settings::USUAL, 1);
                state.preliminary.sum = f32::from_bits(sum);
                state.preliminary.weight = f32::from_bits(WEIGHT);
                self.set(state, to) && self.update(0x4247_ffff, speech, to)
            })
    }

    fn each_setting(&mut self, source: &mut Random, to: Ask) -> bool {
        let wrong = Settings::wrong();
        wrong.into_iter().all(|settings| self.fresh(settings, 2, to))
            && judge::WRONG_THRESHOLDS.iter().all(|&t| self.fresh(Settings::USUAL, t, to))
            && judge::GOOD_THRESHOLDS.iter().all(|&t| self.fresh(Settings::USUAL, t, to))
            && Settings::ends().into_iter().all(|settings| {
                self.fresh(settings, 2, to) && judge::run(self, 1, 1, source, to) && judge::run(self, 3, 1, source, to)
            })
    }

    fn edges(&self) -> Edges {
        edges()
    }

    fn amiss(&self) -> Vec<String> {
        edges().amiss(&[], &clauses_of)
    }

    fn at_edge(&mut self, figures: &[u32], to: Ask) -> Option<bool> {
        let state = State::read(figures)?;
        Some(self.set(state, to))
    }

    fn refuse(&mut self, _: &mut Random, to: Ask) -> bool {
        self.update((-30.0_f32).to_bits(), 1.0_f32.to_bits(), to)
            && self.update(0x7fc0_0000, 0, to)
            && self.reset(to)
            && self.gap(to)
    }
}

/// Where the figures stand in a state.
const THRESHOLD: usize = 5;
const INITIAL: usize = 6;
const LEVEL: usize = 13;
const COUNT: usize = 15;

/// The states at the edges of the test.
pub fn edges() -> Edges {
    let mut all = Edges::of(State::new(Settings::USUAL, 3).figures());
    Settings::add_edges(&mut all, 0, SETTINGS, &|settings| (INITIAL, bits(starting(settings))));
    all.at("speech threshold", THRESHOLD, &judge::GOOD_THRESHOLDS, &judge::WRONG_THRESHOLDS);
    let usual = starting(&Settings::USUAL);
    all.at("speech starting level", INITIAL, &[usual.to_bits()], &[clauses::below(usual), clauses::above(usual), NAN, 0]);
    all.between("speech level", LEVEL, -90.0, 30.0);
    all.at("speech level", LEVEL, &[0, MINUS_ZERO], &[]);
    for (threshold, count) in judge::COUNTS {
        all.with("speech count", count <= threshold, &[(THRESHOLD, threshold), (COUNT, count)]);
    }
    for (place, [time, weight, sum]) in [(7, PRELIMINARY), (10, RELIABLE)] {
        let mut with = |name, inside, left: u32, x: f32, w: f32| {
            all.with(name, inside, &[(place, left), (place + 1, x.to_bits()), (place + 2, w.to_bits())]);
        };
        for left in [0, 10, 390, 400, 5, 395, 399, 401, 405, 410, u32::MAX] {
            with(time, left <= 400 && left % 10 == 0, left, 0.0, 1.0);
        }
        for (inside, left, w) in [
            (true, 400, 1.0),
            (true, 400, 50.0),
            (true, 0, 450.0),
            (true, 200, 250.0),
            (false, 400, 0.99999994),
            (false, 400, 50.000004),
            (false, 0, 450.00003),
            (false, 200, 250.00002),
            (false, 400, 0.0),
            (false, 400, -1.0),
            (false, 390, f32::NAN),
            (false, 390, f32::INFINITY),
        ] {
            with(weight, inside, left, 0.0, w);
        }
        // 151 times this weight is no f32: the one above is that product rounded, and fails.
        let (under, over, odd) = (f32::from_bits(UNDER), f32::from_bits(OVER), f32::from_bits(WEIGHT));
        for (inside, x, w) in [
            (true, 151.0, 1.0),
            (true, -151.0, 1.0),
            (true, -0.0, 1.0),
            (true, under, odd),
            (true, -under, odd),
            (false, 151.00002, 1.0),
            (false, -151.00002, 1.0),
            (false, over, odd),
            (false, -over, odd),
            (false, f32::NAN, 1.0),
            (false, f32::INFINITY, 1.0),
            (false, f32::NEG_INFINITY, 1.0),
        ] {
            with(sum, inside, 400, x, w);
        }
    }
    all
}

fn clauses_of(figures: &[u32]) -> Option<Vec<Clause>> {
    Some(State::read(figures)?.clauses())
}

/// The questions of the fixed list.
pub fn list(seed: u64, to: Ask) -> Vec<String> {
    let mut desk = Desk::new();
    judge::list(&mut desk, seed, &[1, 2, 12], to);
    // 40 speech frames take all of the time off, and from the 41st on the sum leaks.
    desk.fresh(Settings::USUAL, 40, to);
    judge::run(&mut desk, 45, 1, &mut Random::new(seed), to);
    judge::list_gaps(&mut desk, seed, to);
    desk.unlike
}

pub struct Speeches {
    seed: u64,
    length: Length,
    desk: Desk,
}

impl Speeches {
    pub fn new(seed: u64, length: Length) -> Speeches {
        Speeches {
            seed,
            length,
            desk: Desk::new(),
        }
    }
}

impl Part for Speeches {
    fn name(&self) -> &'static str {
        "speech"
    }

    fn ask(&mut self, to: Ask) {
        let frames = self.length.frames(60_000, 1_000_000, 200_000);
        judge::play(&mut self.desk, self.seed, self.length, frames, to);
    }

    fn again(&mut self, name: &str, figures: &[u32], to: Ask) -> Option<bool> {
        let desk = &mut self.desk;
        Some(match (name, figures) {
            ("speech.new", all) => match Settings::read(all)? {
                (settings, &[threshold]) => desk.fresh(settings, threshold, to),
                _ => return None,
            },
            ("speech.set", state) => desk.set(State::read(state)?, to),
            ("speech.update", &[rms, p]) => desk.update(rms, p, to),
            ("speech.reset", []) => desk.reset(to),
            ("speech.gap", []) => desk.gap(to),
            _ => return None,
        })
    }

    fn clauses(&self) -> Vec<&'static str> {
        edges().names(&[], &clauses_of)
    }

    fn kinds(&self) -> Vec<(&'static str, usize)> {
        self.desk.tally.kinds()
    }

    fn unlike(&self) -> &[String] {
        &self.desk.unlike
    }

    fn notes(&self) -> Vec<String> {
        let [published, leaked, confident] = self.desk.cases;
        vec![
            self.desk.tally.note(),
            format!("of the frames {} publish, {} leak, and {} end with a level that is trusted", published, leaked, confident),
            self.desk.departure.line("the level in dBFS"),
        ]
    }
}
