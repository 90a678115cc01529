//! The gain applier: whole sequences of frames with the Rust's applier, whose state its `Debug` form
//! shows. Every state that passes can be brought about in the Rust by its own calls, so that all accepted
//! frames are the Rust's own. By hand from document 01 are the refusals.

use crate::clauses::{self, Clause, Edges, NOT_ABOVE_ZERO, NO_NUMBERS};
use crate::drive::{Ask, Length, Part};
use crate::lines::{self, bits, DONE, FIGURE, SETTING};
use crate::random::Random;
use crate::sound::{self, field, is_samples, Frame, Player, Tally};
use sonora_ruled::gain_applier::GainApplier as Published;

/// "Samples into controller or applier: magnitude to 65536".
pub const LARGEST: f32 = 65536.0;

/// "gain factor: above 0, below 512".
fn is_factor(x: f32) -> bool {
    0.0 < x && x < 512.0
}

/// Factors whose answer is easily got wrong: the ends of "within 1/32767 of 1" and the floats beside
/// them, the ends of the range, and what lies outside.
const FACTORS: [u32; 22] = [
    0x3f80_0000, // 1
    0x3f7f_fdff, // 1 - 1/32767 and beside it
    0x3f7f_fe00,
    0x3f7f_fe01,
    0x3f80_00ff, // 1 + 1/32767 and beside it
    0x3f80_0100,
    0x3f80_0101,
    0x0000_0001, // the smallest above 0
    0x0080_0000,
    0x43ff_ffff, // the largest below 512
    0x43b1_8000, // 355
    0x4000_0000, // 2
    0x3f00_0000, // 1/2
    0x0000_0000, // 0, and from here on nothing is accepted
    0x8000_0000,
    0xbf80_0000,
    0x4400_0000, // 512
    0x7f80_0000,
    0xff80_0000,
    0x7fc0_0000,
    0x7f80_0001,
    0xffff_ffff,
];
const ACCEPTED: u32 = 13;
const ONE: u32 = 0x3f80_0000;
const FIVE: u32 = 0x40a0_0000;

#[derive(Clone, Copy, Default)]
pub struct State {
    pub clip: bool,
    pub last: f32,
    pub current: f32,
    pub samples: i32,
    pub inverse: f32,
}

impl State {
    /// Both factors in range, samples a shape's or -1, "inverse as its rule gives it".
    pub fn clauses(&self) -> Vec<Clause> {
        vec![
            ("applier last factor", is_factor(self.last)),
            ("applier current factor", is_factor(self.current)),
            ("applier samples", self.samples == -1 || is_samples(self.samples as u32)),
            ("applier inverse", self.inverse == 1.0 / self.samples as f32),
        ]
    }

    pub fn passes(&self) -> bool {
        clauses::hold(&self.clauses())
    }

    pub fn figures(&self) -> [u32; 5] {
        [
            self.clip as u32,
            bits(self.last),
            bits(self.current),
            self.samples as u32,
            bits(self.inverse),
        ]
    }

    /// The state with these figures.
    pub fn read(figures: [u32; 5]) -> State {
        let [clip, last, current, samples, inverse] = figures;
        State {
            clip: clip != 0,
            last: f32::from_bits(last),
            current: f32::from_bits(current),
            samples: samples as i32,
            inverse: f32::from_bits(inverse),
        }
    }

    pub fn of(other: &Published) -> Option<State> {
        let text = format!("{:?}", other);
        Some(State {
            clip: field(&text, "hard_clip_samples")?,
            last: field(&text, "last_gain_factor")?,
            current: field(&text, "current_gain_factor")?,
            samples: field(&text, " samples_per_channel")?,
            inverse: field(&text, "inverse_samples_per_channel")?,
        })
    }
}

/// The Rust's applier with this state: made at the last factor, sent over silence for its samples, and
/// given the current factor.
pub fn published(state: &State) -> Option<Published> {
    // The test may be without a clause: then too no more samples are made than a channel has.
    if !state.passes() || state.samples > 480 {
        return None;
    }
    let mut made = Published::new(state.clip, state.last);
    if state.samples > 0 {
        let mut silence = vec![0.0; state.samples as usize];
        made.apply_gain(&mut [&mut silence]);
    }
    made.set_gain_factor(state.current);
    Some(made)
}

/// A run of calls: the Rust's applier, or a state that fails its test and that every call refuses.
struct Desk {
    published: Option<Published>,
    failing: State,
    unlike: Vec<String>,
    tally: Tally,
    cases: [usize; 4],
}

impl Desk {
    fn new() -> Desk {
        Desk {
            published: None,
            failing: State::default(),
            unlike: Vec::new(),
            tally: Tally::default(),
            cases: [0; 4],
        }
    }

    fn state(&mut self) -> State {
        match &self.published {
            None => self.failing,
            Some(other) => State::of(other).unwrap_or_else(|| {
                self.unlike.push(format!("not read: {:?}", other));
                State::default()
            }),
        }
    }

    /// Asks; the answer is the reply, the state, whether it passes, the factor, and the samples.
    fn put(&mut self, name: &str, figures: &[u32], reply: u32, rest: &[u32], to: Ask) -> bool {
        let state = self.state();
        let mut all = vec![reply];
        all.extend(state.figures());
        all.extend(match &self.published {
            Some(other) => [1, DONE, bits(other.get_gain_factor())],
            None => [0, SETTING, 0],
        });
        if self.published.is_some() != state.passes() {
            self.unlike.push(format!("after {}: the state fails the paper's test", name));
        }
        all.extend(rest);
        to(lines::question(name, figures), lines::answer(&all))
    }

    fn call(&mut self, name: &str, figures: &[u32], reply: u32, to: Ask) -> bool {
        self.tally.others += 1;
        self.tally.call(reply);
        self.put(name, figures, reply, &[], to)
    }

    fn fresh(&mut self, clip: bool, factor: u32, to: Ask) -> bool {
        let x = f32::from_bits(factor);
        let reply = if is_factor(x) {
            self.published = Some(Published::new(clip, x));
            DONE
        } else {
            self.published = None;
            self.failing = State::default();
            FIGURE
        };
        self.call("applier.new", &[clip as u32, factor], reply, to)
    }

    fn set(&mut self, state: State, to: Ask) -> bool {
        self.published = published(&state);
        self.failing = state;
        let mut figures = state.figures();
        // The bits as they were drawn, also those of a NaN.
        figures[1] = state.last.to_bits();
        figures[2] = state.current.to_bits();
        figures[4] = state.inverse.to_bits();
        self.call("applier.set", &figures, DONE, to)
    }

    fn aim(&mut self, factor: u32, to: Ask) -> bool {
        let x = f32::from_bits(factor);
        let reply = match &mut self.published {
            None => SETTING,
            Some(_) if !is_factor(x) => FIGURE,
            Some(other) => {
                other.set_gain_factor(x);
                DONE
            }
        };
        self.call("applier.factor", &[factor], reply, to)
    }
}

fn any_factor(source: &mut Random) -> u32 {
    match source.up_to(7) {
        0..=2 => FACTORS[source.up_to(ACCEPTED - 1) as usize],
        3 => source.up_to(0x43ff_fffe) + 1,
        _ => (0.25 + 8.0 * source.up_to(1 << 20) as f32 / (1 << 20) as f32).to_bits(),
    }
}

/// A state that is handed in: mostly one that passes.
fn handed_in(source: &mut Random) -> State {
    let samples = if source.up_to(3) == 0 { -1 } else { sound::any_samples(source) as i32 };
    let mut state = State {
        clip: source.up_to(1) == 1,
        last: f32::from_bits(any_factor(source)),
        current: f32::from_bits(any_factor(source)),
        samples,
        inverse: 1.0 / samples as f32,
    };
    let wrong = f32::from_bits(FACTORS[(ACCEPTED + source.up_to(FACTORS.len() as u32 - ACCEPTED - 1)) as usize]);
    match source.up_to(19) {
        0 => state.last = wrong,
        1 => state.current = wrong,
        2 => state.inverse = wrong,
        3 => state.inverse = f32::from_bits(state.inverse.to_bits() ^ 1),
        4 => {
            state.samples = [0, -2, 20, 50, 500, i32::MIN, i32::MAX][source.up_to(6) as usize];
            state.inverse = 1.0 / state.samples as f32;
        }
        5 => state.current = state.last,
        _ => (),
    }
    state
}

impl Player for Desk {
    fn tally(&mut self) -> &mut Tally {
        &mut self.tally
    }

    fn object(&mut self, why: Vec<String>) {
        self.unlike.extend(why);
    }

    fn bound(&self) -> f32 {
        LARGEST
    }

    fn set_to(&self) -> Option<u32> {
        None
    }

    fn passes(&self) -> bool {
        self.published.is_some()
    }

    fn renew(&mut self, _: u32, source: &mut Random, to: Ask) -> bool {
        let clip = source.up_to(1) == 1;
        let factor = any_factor(source);
        self.fresh(clip, factor, to)
    }

    fn play(&mut self, frame: &Frame, to: Ask) -> bool {
        let reply = frame.reply(true, self.published.is_some(), LARGEST);
        let state = self.state();
        let samples = match &mut self.published {
            Some(other) if reply == DONE => {
                let mut channels = frame.sound();
                let mut lent: Vec<&mut [f32]> = channels.iter_mut().map(|c| c.as_mut_slice()).collect();
                other.apply_gain(&mut lent);
                let near = (state.current - 1.0).abs() <= 1.0 / 32767.0;
                let case = if state.last != state.current { 2 } else { 1 - near as usize };
                self.cases[case] += 1;
                self.cases[3] += state.clip as usize;
                sound::flat(&channels)
            }
            _ => frame.untouched(),
        };
        self.tally.frame(frame, reply, true);
        self.put("applier.apply", &frame.figures(), reply, &samples, to)
    }

    fn other(&mut self, source: &mut Random, to: Ask) -> bool {
        match source.up_to(15) {
            0..=11 => {
                let factor = any_factor(source);
                self.aim(factor, to)
            }
            12 => self.aim(FACTORS[source.up_to(FACTORS.len() as u32 - 1) as usize], to),
            13 => self.fresh(false, FACTORS[source.up_to(FACTORS.len() as u32 - 1) as usize], to),
            _ => {
                let state = handed_in(source);
                self.set(state, to)
            }
        }
    }

    fn edges(&self) -> Edges {
        edges()
    }

    fn amiss(&self) -> Vec<String> {
        edges().amiss(&[], &clauses_of)
    }

    fn at_edge(&mut self, figures: &[u32], to: Ask) -> Option<bool> {
        match *figures {
            [clip, last, current, samples, inverse] => Some(self.set(State::read([clip, last, current, samples, inverse]), to)),
            _ => None,
        }
    }

    fn refuse(&mut self, to: Ask) -> bool {
        self.aim(0x3f80_0000, to) && self.aim(0x7fc0_0000, to)
    }
}

/// The edges of an applier's clauses whose figures stand from a place on, with factors up to a value.
pub fn add_edges(all: &mut Edges, place: usize, high: u32) {
    for (clause, at) in [("applier last factor", place + 1), ("applier current factor", place + 2)] {
        all.at(clause, at, &[1, 0x3f80_0000, high], &NOT_ABOVE_ZERO);
        all.at(clause, at, &[], &[0x4400_0000, 0x4400_0001]);
        all.at(clause, at, &[], &NO_NUMBERS);
    }
    let inverse = |samples: i32| (1.0 / samples as f32).to_bits();
    for samples in [-1, 40, 60, 480, 0, 1, -2, 20, 39, 41, 50, 481, 500, i32::MIN, i32::MAX] {
        let inside = samples == -1 || is_samples(samples as u32);
        all.with("applier samples", inside, &[(place + 3, samples as u32), (place + 4, inverse(samples))]);
    }
    for samples in [-1, 40, 480] {
        let right = inverse(samples);
        for (figure, inside) in [(right, true), (right + 1, false), (right - 1, false), (0, false), (0x7fc0_0000, false), (0x7f80_0000, false)] {
            all.with("applier inverse", inside, &[(place + 3, samples as u32), (place + 4, figure)]);
        }
    }
}

/// The states at the edges of the test: "gain factor above 0, below 512".
fn edges() -> Edges {
    let good = [1.0_f32, 2.0, 1.0 / 40.0].map(f32::to_bits);
    let mut all = Edges::of(vec![1, good[0], good[1], 40, good[2]]);
    add_edges(&mut all, 0, 0x43ff_ffff);
    all
}

fn clauses_of(figures: &[u32]) -> Option<Vec<Clause>> {
    match *figures {
        [clip, last, current, samples, inverse] => Some(State::read([clip, last, current, samples, inverse]).clauses()),
        _ => None,
    }
}

/// Each factor that is easily got wrong, held for a frame and then ramped to and from, with clipping
/// and without.
fn each_factor(desk: &mut Desk, source: &mut Random, to: Ask) -> bool {
    for clip in [false, true] {
        for factor in FACTORS {
            // From the factor to itself, to 1 and to 5; and from 1 and 5 to the factor.
            let ways = [(factor, factor), (factor, ONE), (factor, FIVE), (ONE, factor), (FIVE, factor)];
            for (first, next) in ways {
                let one = sound::frame(3, 1, 40, LARGEST, source);
                let two = sound::frame(4, 2, 40, LARGEST, source);
                let going = desk.fresh(clip, first, to)
                    && desk.play(&one, to)
                    && desk.aim(next, to)
                    && desk.play(&two, to)
                    && desk.play(&one, to);
                if !going {
                    return false;
                }
            }
        }
    }
    true
}

/// The questions of the fixed list.
pub fn list(seed: u64, to: Ask) -> Vec<String> {
    let mut desk = Desk::new();
    sound::list(&mut desk, seed, to);
    for factor in FACTORS {
        desk.fresh(true, factor, to);
        desk.aim(factor, to);
    }
    desk.unlike
}

pub struct Appliers {
    seed: u64,
    length: Length,
    desk: Desk,
}

impl Appliers {
    pub fn new(seed: u64, length: Length) -> Appliers {
        Appliers {
            seed,
            length,
            desk: Desk::new(),
        }
    }
}

impl Part for Appliers {
    fn name(&self) -> &'static str {
        "applier"
    }

    fn ask(&mut self, to: Ask) {
        let samples = self.length.of(400_000, 10_000_000, 2_000_000);
        let _ = (matches!(self.length, Length::Round | Length::States)
            || each_factor(&mut self.desk, &mut Random::new(self.seed), to))
            && sound::run(&mut self.desk, self.seed, self.length, samples, to);
    }

    fn again(&mut self, name: &str, figures: &[u32], to: Ask) -> Option<bool> {
        let desk = &mut self.desk;
        Some(match (name, figures) {
            ("applier.new", &[clip, factor]) => desk.fresh(clip != 0, factor, to),
            ("applier.set", &[clip, last, current, samples, inverse]) => {
                desk.set(State::read([clip, last, current, samples, inverse]), to)
            }
            ("applier.factor", &[factor]) => desk.aim(factor, to),
            ("applier.apply", frame) => desk.play(&Frame::read(frame)?, to),
            _ => return None,
        })
    }

    fn clauses(&self) -> Vec<&'static str> {
        edges().names(&[], &clauses_of)
    }

    fn kinds(&self) -> Vec<(&'static str, usize)> {
        self.desk.tally.kinds()
    }

    fn unlike(&self) -> &[String] {
        &self.desk.unlike
    }

    fn notes(&self) -> Vec<String> {
        let [near, equal, ramp, clip] = self.desk.cases;
        vec![
            self.desk.tally.note(),
            format!(
                "of the frames {} at a gain that stays within 1/32767 of 1, {} at another that stays, {} ramps; {} with clipping",
                near, equal, ramp, clip
            ),
        ]
    }
}
