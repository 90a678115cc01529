//! The level estimator: whole sequences of frames with the Rust's estimator beside one that is written
//! here from document 01.
//!
//! The answers come from the one below, and after every call the Rust's must agree with it: in each
//! envelope value, and in its whole state, which the Rust's `Debug` form shows. A handed-in level is
//! brought about in the Rust by a frame that ends at it. Where none is found, and where a state fails
//! its test, the answers are held to document 01 alone, and those frames are counted apart.

use crate::clauses::{self, Clause, Edges, MINUS_ZERO};
use crate::drive::{Ask, Length, Part};
use crate::lines::{self, bits, DONE, SETTING, SHAPE};
use crate::random::Random;
use crate::sound::{self, field, is_samples, Frame, Player, Tally};
use sonora_ruled::fixed_digital_level_estimator::FixedDigitalLevelEstimator as Published;

/// "Into level estimator or limiter: to 33554432", and the envelope's own bound.
pub const LARGEST: f32 = 33_554_432.0;

/// "value*(1-0.9971259)+state*0.9971259".
const DECAY: f32 = 0.9971259;

/// The estimator by document 01.
#[derive(Clone, Copy, Default)]
pub struct State {
    pub level: f32,
    pub samples: u32,
    pub part: u32,
}

impl State {
    pub fn new(samples: u32) -> State {
        State {
            level: 0.0,
            samples,
            part: samples / 20,
        }
    }

    /// "envelope 0 to 33554432"; samples a shape's; "sub-frame length as its rule gives it".
    pub fn clauses(&self) -> Vec<Clause> {
        vec![
            ("estimator envelope", (0.0..=LARGEST).contains(&self.level)),
            ("estimator samples", is_samples(self.samples)),
            ("estimator sub-frame length", self.part == self.samples / 20),
        ]
    }

    pub fn passes(&self) -> bool {
        clauses::hold(&self.clauses())
    }

    /// The state with these figures.
    fn read(figures: &[u32]) -> Option<State> {
        match *figures {
            [level, samples, part] => Some(State {
                level: f32::from_bits(level),
                samples,
                part,
            }),
            _ => None,
        }
    }

    pub fn figures(&self) -> [u32; 3] {
        [bits(self.level), self.samples, self.part]
    }

    /// "Largest magnitude per sub-frame over all channels; then each of the first 19 is raised to its
    /// right neighbour's unraised value where that is larger; then smoothing."
    pub fn envelope(&mut self, channels: &[Vec<f32>]) -> [f32; 20] {
        let size = self.part as usize;
        let mut found = [0.0_f32; 20];
        for channel in channels {
            for (i, x) in channel.iter().enumerate() {
                if found[i / size] < x.abs() {
                    found[i / size] = x.abs();
                }
            }
        }
        let unraised = found;
        for k in 0..19 {
            if found[k] < unraised[k + 1] {
                found[k] = unraised[k + 1];
            }
        }
        for value in &mut found {
            if self.level < *value {
                self.level = *value;
            } else {
                self.level = *value * (1.0 - DECAY) + self.level * DECAY;
            }
            *value = self.level;
        }
        found
    }
}

/// The Rust's estimator at a level, by a frame that ends at it.
pub fn published(state: &State) -> Option<Published> {
    if !state.passes() {
        return None;
    }
    let size = state.part as usize;
    let fresh = || Published::new(state.samples as usize);
    if state.level.to_bits() == 0 {
        return Some(fresh());
    }
    let mut before = lines::near(state.level, 2);
    before.extend(lines::near(state.level / DECAY, 6));
    for loud in before.into_iter().map(f32::from_bits).filter(|x| x.is_finite() && *x > 0.0) {
        for last in [0.0, state.level, state.level * 0.5] {
            let mut made = fresh();
            let mut channel = vec![0.0; 20 * size];
            channel[18 * size] = loud;
            channel[19 * size] = last;
            made.compute_level(&[&channel]);
            if made.last_audio_level().to_bits() == state.level.to_bits() {
                return Some(made);
            }
        }
    }
    None
}

/// Whether a text of the Rust's has this state.
pub fn is_shown(state: &State, text: &str) -> bool {
    field::<f32>(text, "filter_state_level").map(f32::to_bits) == Some(state.level.to_bits())
        && field(text, "samples_in_frame") == Some(state.samples)
        && field(text, "samples_in_sub_frame") == Some(state.part)
}

/// The states at the edges of the test.
pub fn edges() -> Edges {
    let mut all = Edges::of(vec![100.0_f32.to_bits(), 40, 2]);
    all.between("estimator envelope", 0, 0.0, LARGEST);
    all.at("estimator envelope", 0, &[MINUS_ZERO], &[]);
    for samples in [40, 60, 480, 0, 20, 39, 41, 50, 479, 481, 500, 1 << 31, u32::MAX] {
        all.with("estimator samples", is_samples(samples), &[(1, samples), (2, samples / 20)]);
    }
    for (samples, part) in [(40, 2), (480, 24), (40, 0), (40, 1), (40, 3), (480, 23), (480, 25), (40, u32::MAX)] {
        all.with("estimator sub-frame length", part == samples / 20, &[(1, samples), (2, part)]);
    }
    all
}

fn clauses_of(figures: &[u32]) -> Option<Vec<Clause>> {
    Some(State::read(figures)?.clauses())
}

/// A level that is handed in.
pub fn any_level(source: &mut Random) -> u32 {
    match source.up_to(15) {
        0 => 0x8000_0000,
        1 => LARGEST.to_bits(),
        2 => LARGEST.to_bits() + 1,
        3 => [0x7fc0_0000, 0x7f80_0000, 0xff80_0000, 0x8000_0001, 0xffff_ffff][source.up_to(4) as usize],
        4 => 0,
        5..=9 => (40000.0 * source.up_to(1 << 20) as f32 / (1 << 20) as f32).to_bits(),
        _ => source.up_to(LARGEST.to_bits()),
    }
}

/// Samples and a sub-frame's samples that are handed in: now and then some that fail.
pub fn any_set(source: &mut Random) -> [u32; 2] {
    let samples = sound::any_samples(source);
    match source.up_to(15) {
        0 => [50, 2],
        1 => [samples, samples / 20 + 1],
        2 => [source.up_to(u32::MAX), source.up_to(u32::MAX)],
        3 => [0, 0],
        4 => [500, 25],
        _ => [samples, samples / 20],
    }
}

/// A run of calls.
pub struct Desk {
    state: State,
    published: Option<Published>,
    unlike: Vec<String>,
    tally: Tally,
}

impl Desk {
    fn new() -> Desk {
        Desk {
            state: State::default(),
            published: None,
            unlike: Vec::new(),
            tally: Tally::default(),
        }
    }

    /// Asks; the answer is the reply, the state, whether it passes, the last level, and what follows.
    fn put(&mut self, name: &str, figures: &[u32], reply: u32, rest: &[u32], to: Ask) -> bool {
        if let Some(other) = &self.published {
            let text = format!("{:?}", other);
            if !is_shown(&self.state, &text) || other.last_audio_level().to_bits() != self.state.level.to_bits() {
                self.unlike.push(format!("after {}: the Rust's is {}", name, text));
            }
        }
        let mut all = vec![reply];
        all.extend(self.state.figures());
        all.extend(if self.state.passes() { [1, DONE, bits(self.state.level)] } else { [0, SETTING, 0] });
        all.extend(rest);
        to(lines::question(name, figures), lines::answer(&all))
    }

    fn call(&mut self, name: &str, figures: &[u32], reply: u32, to: Ask) -> bool {
        self.tally.others += 1;
        self.tally.call(reply);
        self.put(name, figures, reply, &[], to)
    }

    fn fresh(&mut self, samples: u32, to: Ask) -> bool {
        let reply = if is_samples(samples) {
            self.state = State::new(samples);
            self.published = Some(Published::new(samples as usize));
            DONE
        } else {
            self.state = State::default();
            self.published = None;
            SHAPE
        };
        self.call("estimator.new", &[samples], reply, to)
    }

    fn set(&mut self, level: u32, set: [u32; 2], to: Ask) -> bool {
        self.state = State {
            level: f32::from_bits(level),
            samples: set[0],
            part: set[1],
        };
        self.published = published(&self.state);
        self.call("estimator.set", &[level, set[0], set[1]], DONE, to)
    }

    fn change(&mut self, samples: u32, to: Ask) -> bool {
        let reply = if !is_samples(samples) {
            SHAPE
        } else if !self.state.passes() {
            SETTING
        } else {
            self.state.samples = samples;
            self.state.part = samples / 20;
            if let Some(other) = &mut self.published {
                other.set_samples_per_channel(samples as usize);
            }
            DONE
        };
        self.call("estimator.samples", &[samples], reply, to)
    }

    fn reset(&mut self, to: Ask) -> bool {
        let reply = if self.state.passes() {
            self.state.level = 0.0;
            match &mut self.published {
                Some(other) => other.reset(),
                None => self.published = published(&self.state),
            }
            DONE
        } else {
            SETTING
        };
        self.call("estimator.reset", &[], reply, to)
    }
}

impl Player for Desk {
    fn tally(&mut self) -> &mut Tally {
        &mut self.tally
    }

    fn object(&mut self, why: Vec<String>) {
        self.unlike.extend(why);
    }

    fn bound(&self) -> f32 {
        LARGEST
    }

    fn set_to(&self) -> Option<u32> {
        Some(self.state.samples)
    }

    fn passes(&self) -> bool {
        self.state.passes()
    }

    fn renew(&mut self, samples: u32, _: &mut Random, to: Ask) -> bool {
        self.fresh(samples, to)
    }

    fn play(&mut self, frame: &Frame, to: Ask) -> bool {
        let reply = frame.reply(frame.samples == self.state.samples, self.state.passes(), LARGEST);
        let mut envelope = [0.0; 20];
        if reply == DONE {
            let channels = frame.sound();
            envelope = self.state.envelope(&channels);
            if let Some(other) = &mut self.published {
                let lent: Vec<&[f32]> = channels.iter().map(|c| c.as_slice()).collect();
                let theirs = other.compute_level(&lent);
                if theirs.map(f32::to_bits) != envelope.map(f32::to_bits) {
                    self.unlike.push(format!("frame {}: {:?} and the Rust's {:?}", self.tally.frames, envelope, theirs));
                }
            }
        }
        self.tally.frame(frame, reply, self.published.is_some());
        let mut rest = envelope.map(bits).to_vec();
        rest.extend(frame.untouched());
        self.put("estimator.level", &frame.figures(), reply, &rest, to)
    }

    fn other(&mut self, source: &mut Random, to: Ask) -> bool {
        match source.up_to(15) {
            0..=3 => self.reset(to),
            4 => self.change([0, 20, 50, 500, u32::MAX][source.up_to(4) as usize], to),
            5..=9 => self.change(sound::any_samples(source), to),
            10 => self.fresh([0, 20, 50, 500, 39][source.up_to(4) as usize], to),
            _ => {
                let level = any_level(source);
                let set = any_set(source);
                self.set(level, set, to)
            }
        }
    }

    fn edges(&self) -> Edges {
        edges()
    }

    fn amiss(&self) -> Vec<String> {
        edges().amiss(&[], &clauses_of)
    }

    fn at_edge(&mut self, figures: &[u32], to: Ask) -> Option<bool> {
        match *figures {
            [level, samples, part] => Some(self.set(level, [samples, part], to)),
            _ => None,
        }
    }

    fn refuse(&mut self, to: Ask) -> bool {
        self.reset(to) && self.change(80, to) && self.change(50, to)
    }
}

/// The questions of the fixed list.
pub fn list(seed: u64, to: Ask) -> Vec<String> {
    let mut desk = Desk::new();
    sound::list(&mut desk, seed, to);
    desk.unlike
}

pub struct Estimators {
    seed: u64,
    length: Length,
    desk: Desk,
}

impl Estimators {
    pub fn new(seed: u64, length: Length) -> Estimators {
        Estimators {
            seed,
            length,
            desk: Desk::new(),
        }
    }
}

impl Part for Estimators {
    fn name(&self) -> &'static str {
        "estimator"
    }

    fn ask(&mut self, to: Ask) {
        let samples = self.length.of(400_000, 10_000_000, 2_000_000);
        sound::run(&mut self.desk, self.seed, self.length, samples, to);
    }

    fn again(&mut self, name: &str, figures: &[u32], to: Ask) -> Option<bool> {
        let desk = &mut self.desk;
        Some(match (name, figures) {
            ("estimator.new", &[samples]) => desk.fresh(samples, to),
            ("estimator.set", &[level, samples, part]) => desk.set(level, [samples, part], to),
            ("estimator.samples", &[samples]) => desk.change(samples, to),
            ("estimator.reset", []) => desk.reset(to),
            ("estimator.level", frame) => desk.play(&Frame::read(frame)?, to),
            _ => return None,
        })
    }

    fn clauses(&self) -> Vec<&'static str> {
        edges().names(&[], &clauses_of)
    }

    fn kinds(&self) -> Vec<(&'static str, usize)> {
        self.desk.tally.kinds()
    }

    fn unlike(&self) -> &[String] {
        &self.desk.unlike
    }

    fn notes(&self) -> Vec<String> {
        vec![self.desk.tally.note()]
    }
}
