//! What the parts that judge have in common (the level of the speech, the protector and the controller):
//! settings, thresholds, the ring's size, runs of speech frames, figures at the ends of their ranges, and
//! the Rust's `Debug` form.

use crate::clauses::{Clause, Edges};
use crate::drive::{Ask, Length};
use crate::lines::{bits, DONE, FIGURE, SAMPLE, SETTING, SHAPE};
use crate::random::Random;
use sonora_as_is::saturation_protector_buffer::SaturationProtectorBuffer as AsItStands;
use sonora_ruled::saturation_protector_buffer::SaturationProtectorBuffer as Ruled;

/// "Let the peak ring hold 1 to 16 entries": the largest capacity, and as many slots has every ring.
pub const LARGEST_RING: u32 = 16;

/// "with 4 as the default".
pub const DEFAULT_RING: u32 = 4;

/// How many peaks a ring of the Rust holds that this oracle is built over: as published, or as oracle/build was asked for. Both
/// copies of it hold as many.
pub fn ring() -> u32 {
    let both = [Ruled::default().capacity(), AsItStands::default().capacity()];
    assert_eq!(both[0], both[1], "the two copies of the Rust hold so many peaks");
    both[0] as u32
}

pub fn is_capacity(n: u32) -> bool {
    (1..=LARGEST_RING).contains(&n)
}

/// Beside the ends, and far from them: also what ends as a capacity does.
pub const WRONG_CAPACITIES: [u32; 8] = [0, LARGEST_RING + 1, 18, 32, 0x104, 0x1_0010, 1 << 31, u32::MAX];

/// Any capacity from 1 to 16, and in most cases the Rust's.
pub fn any_capacity(source: &mut Random) -> u32 {
    match source.up_to(7) {
        0 => 1 + source.up_to(LARGEST_RING - 1),
        _ => ring(),
    }
}

/// How many peaks a sequence pushes into a full ring of the Rust: three times round it, and not fewer than a dozen.
pub fn rounds() -> u32 {
    3 * ring().max(4)
}

/// How many frames of speech that takes, in readings, from a new ring: "40 speech frames push nothing, the 41st pushes".
pub fn frames_of_rounds() -> u32 {
    41 * (ring() + rounds())
}

/// A capacity that is refused.
pub fn wrong_capacity(source: &mut Random) -> u32 {
    match source.up_to(3) {
        0 => LARGEST_RING + 1 + source.up_to(u32::MAX - LARGEST_RING - 1),
        _ => one_of(&WRONG_CAPACITIES, source),
    }
}

/// "a run threshold of up to 3,000 frames": the largest threshold of a chain and of each of its parts.
pub const LARGEST_THRESHOLD: u32 = 3000;

/// The thresholds that sequences are played with, in their order.
pub const THRESHOLDS: [u32; 11] = [1, 2, 3, 12, 40, 41, 42, 200, 201, 1500, LARGEST_THRESHOLD];

/// How many of them are short, and how many shorter still: a brief run has these alone.
const SHORT_THRESHOLDS: usize = 9;
const BRIEF_THRESHOLDS: usize = 7;

/// Any of the short ones.
pub fn short_threshold(source: &mut Random) -> u32 {
    one_of(&THRESHOLDS[..SHORT_THRESHOLDS], source)
}

/// In most cases a short one, since a run of the others takes long.
pub fn any_threshold(source: &mut Random) -> u32 {
    match source.up_to(7) {
        0 => one_of(&THRESHOLDS, source),
        _ => short_threshold(source),
    }
}

/// Thresholds at and beside those where a number of 8 bits or fewer bits of a wider one end, and at the largest.
const MORE_THRESHOLDS: [u32; 14] = [199, 202, 255, 256, 257, 300, 511, 512, 1023, 1024, 2047, 2048, 2049, 2999];

pub fn is_threshold(t: u32) -> bool {
    (1..=LARGEST_THRESHOLD).contains(&t)
}

/// Beside the ends, and far from them: also what ends as a small number does.
pub const WRONG_THRESHOLDS: [u32; 7] = [0, LARGEST_THRESHOLD + 1, 4096, 0xffff, 0x1_0002, 1 << 31, u32::MAX];

/// Thresholds that are accepted: the ends, and those where version 1 of a strip, and a byte, end.
pub const GOOD_THRESHOLDS: [u32; 7] = [LARGEST_THRESHOLD, 1, 200, 201, 255, 256, 300];

/// A threshold with a count: just inside and just outside of "run and waiting counts 0 to T".
pub const COUNTS: [(u32, u32); 15] = [
    (LARGEST_THRESHOLD, LARGEST_THRESHOLD),
    (LARGEST_THRESHOLD, LARGEST_THRESHOLD - 1),
    (LARGEST_THRESHOLD, 201),
    (LARGEST_THRESHOLD, 0),
    (3, 0),
    (3, 3),
    (200, 200),
    (1, 1),
    (LARGEST_THRESHOLD, LARGEST_THRESHOLD + 1),
    (3, 4),
    (200, 201),
    (1, 2),
    (LARGEST_THRESHOLD, 0xffff),
    (1500, LARGEST_THRESHOLD),
    (3, u32::MAX),
];

/// "Larger, smaller and clamp keep the first operand when equal."
pub fn larger(x: f32, y: f32) -> f32 {
    if y > x {
        y
    } else {
        x
    }
}

pub fn smaller(x: f32, y: f32) -> f32 {
    if y < x {
        y
    } else {
        x
    }
}

pub fn clamp(x: f32, low: f32, high: f32) -> f32 {
    smaller(larger(x, low), high)
}

/// "speech from probability 0.95".
pub fn is_speech(probability: f32) -> bool {
    probability >= 0.95
}

/// A figure's range: its ends and what lies beside them, as bits; what is refused; and between which
/// numbers others are drawn.
pub struct Range {
    pub ends: &'static [u32],
    pub wrong: &'static [u32],
    low: f32,
    high: f32,
}

/// 0 to 1; 0.95 and the floats beside it.
pub const PROBABILITY: Range = Range {
    ends: &[0x3f73_3332, 0x3f73_3333, 0x3f73_3334, 0, 0x8000_0000, 0x0000_0001, 0x3f80_0000, 0x3f7f_ffff],
    wrong: &[0x8000_0001, 0x3f80_0001, 0xbf80_0000, 0x7f80_0000, 0xff80_0000, 0x7fc0_0000, 0x7f80_0001, 0xffff_ffff],
    low: 0.0,
    high: 1.0,
};

/// Above -150, below 50.
pub const RMS: Range = Range {
    ends: &[0xc315_ffff, 0x4247_ffff, 0, 0x8000_0000, 0x0000_0001, 0x8000_0001],
    wrong: &[0xc316_0000, 0x4248_0000, 0xc316_0001, 0x7f80_0000, 0xff80_0000, 0x7fc0_0000, 0x7f80_0001, 0xffff_ffff],
    low: -149.0,
    high: 49.0,
};

/// Peak, noise, speech level: -150 to 50.
pub const LEVEL: Range = Range {
    ends: &[0xc316_0000, 0xc315_ffff, 0x4248_0000, 0x4247_ffff, 0, 0x8000_0000, 0x0000_0001],
    wrong: &[0xc316_0001, 0x4248_0001, 0x7f7f_ffff, 0x7f80_0000, 0xff80_0000, 0x7fc0_0000, 0x7f80_0001, 0xffff_ffff],
    low: -150.0,
    high: 50.0,
};

/// Above 0, to 100.
pub const HEADROOM: Range = Range {
    ends: &[0x0000_0001, 0x42c8_0000, 0x42c7_ffff, 0x4140_0000, 0x41c8_0000, 0x41a0_0000],
    wrong: &[0, 0x8000_0000, 0x8000_0001, 0x42c8_0001, 0x7f80_0000, 0xff80_0000, 0x7fc0_0000, 0xffff_ffff],
    low: 1.0,
    high: 60.0,
};

/// -150 to 100; the controller's own -1 and the floats beside it.
pub const ENVELOPE: Range = Range {
    ends: &[0xc316_0000, 0x42c8_0000, 0xbf80_0000, 0xbf7f_ffff, 0xbf80_0001, 0, 0x8000_0000],
    wrong: &[0xc316_0001, 0x42c8_0001, 0x7f80_0000, 0xff80_0000, 0x7fc0_0000, 0x7f80_0001, 0xffff_ffff],
    low: -150.0,
    high: 100.0,
};

/// A number from 0 to 1.
pub fn fraction(source: &mut Random) -> f32 {
    source.up_to(1 << 24) as f32 / (1 << 24) as f32
}

pub fn one_of<T: Copy>(all: &[T], source: &mut Random) -> T {
    all[source.up_to(all.len() as u32 - 1) as usize]
}

impl Range {
    /// Any figure that is accepted: an end, a whole number, or one near a middle.
    pub fn any(&self, middle: f32, source: &mut Random) -> u32 {
        let x = match source.up_to(15) {
            0 => return one_of(self.ends, source),
            1 => self.low + (self.high - self.low) * fraction(source),
            2 => (self.low + (self.high - self.low) * fraction(source)).floor(),
            3 => middle,
            _ => middle + 12.0 * fraction(source) - 6.0,
        };
        clamp(x, self.low, self.high).to_bits()
    }

    /// A middle to draw near to.
    pub fn middle(&self, source: &mut Random) -> f32 {
        self.low + (self.high - self.low) * fraction(source)
    }
}

/// The probability of a speech frame, or of one that is not.
pub fn probability(speech: bool, source: &mut Random) -> u32 {
    let least = 0x3f73_3333;
    match (speech, source.up_to(7)) {
        (true, 0) => least,
        (true, 1) => least + 1,
        (true, 2 | 3) => 0x3f80_0000,
        (true, _) => least + source.up_to(0x3f80_0000 - least),
        (false, 0 | 1) => least - 1,
        (false, 2) => one_of(&[0, 0x8000_0000, 1], source),
        (false, 3) => source.up_to(least - 1),
        (false, _) => (0.949 * fraction(source)).to_bits(),
    }
}

/// The settings: headroom, largest gain, initial gain, change per second, largest output noise.
#[derive(Clone, Copy, Default)]
pub struct Settings(pub [u32; 5]);

/// The lowest and the highest of each.
pub const ENDS: [[u32; 2]; 5] = [
    [0, 0x4248_0000],
    [0x0000_0001, 0x4248_0000],
    [0, 0x4248_0000],
    [0x3c23_d70a, 0x42c8_0000],
    [0xc2b4_0000, 0],
];

/// What is refused of each: beside its ends, a negative zero, and no number.
const WRONG: [[u32; 7]; 5] = [
    [0x8000_0000, 0x8000_0001, 0x4248_0001, 0xbf80_0000, 0x7f80_0000, 0xff80_0000, 0x7fc0_0000],
    [0, 0x8000_0000, 0x8000_0001, 0x4248_0001, 0x7f80_0000, 0xff80_0000, 0x7fc0_0000],
    [0x8000_0000, 0x8000_0001, 0x4248_0001, 0xbf80_0000, 0x7f80_0000, 0xff80_0000, 0x7fc0_0000],
    [0x3c23_d709, 0, 0x8000_0000, 0x42c8_0001, 0xc0c0_0000, 0x7f80_0000, 0x7fc0_0000],
    [0x8000_0000, 0x0000_0001, 0xc2b4_0001, 0x3f80_0000, 0x7f80_0000, 0xff80_0000, 0x7fc0_0000],
];

impl Settings {
    /// The Rust's defaults.
    pub const USUAL: Settings = Settings([0x40a0_0000, 0x4248_0000, 0x4170_0000, 0x40c0_0000, 0xc248_0000]);

    pub fn at(&self, i: usize) -> f32 {
        f32::from_bits(self.0[i])
    }

    /// The settings that figures begin with, and the figures behind them.
    pub fn read(figures: &[u32]) -> Option<(Settings, &[u32])> {
        match figures {
            [a, b, c, d, e, rest @ ..] => Some((Settings([*a, *b, *c, *d, *e]), rest)),
            _ => None,
        }
    }

    /// "headroom 0 to 50; largest gain above 0, to 50; initial gain 0 to 50; change per second 0.01 to
    /// 100; largest output noise -90 to 0. A negative zero is refused in a setting".
    fn holds(&self) -> [bool; 5] {
        let within = |i: usize, low: f32, high: f32| {
            low <= self.at(i) && self.at(i) <= high && self.0[i] != 0x8000_0000
        };
        [
            within(0, 0.0, 50.0),
            within(1, 0.0, 50.0) && self.at(1) > 0.0,
            within(2, 0.0, 50.0),
            within(3, 0.01, 100.0),
            within(4, -90.0, 0.0),
        ]
    }

    pub fn accepted(&self) -> bool {
        self.holds().into_iter().all(|holds| holds)
    }

    /// A clause for each, by these names.
    pub fn clauses(&self, names: [&'static str; 5]) -> Vec<Clause> {
        names.into_iter().zip(self.holds()).collect()
    }

    /// The edges of these clauses, where the settings stand from a place on: each setting at both ends, and what is
    /// refused of it. What else goes with the settings is worked out.
    pub fn add_edges(all: &mut Edges, place: usize, names: [&'static str; 5], with: &dyn Fn(&Settings) -> (usize, u32)) {
        for (i, name) in names.into_iter().enumerate() {
            let ends = ENDS[i].iter().map(|&b| (b, true));
            for (figure, inside) in ends.chain(WRONG[i].iter().map(|&b| (b, false))) {
                let mut settings = Settings::USUAL;
                settings.0[i] = figure;
                all.with(name, inside, &[(place + i, figure), with(&settings)]);
            }
        }
    }

    pub fn figures(&self) -> [u32; 5] {
        self.0.map(|b| bits(f32::from_bits(b)))
    }

    pub fn any(source: &mut Random) -> Settings {
        let mut all = Settings::USUAL;
        if source.up_to(3) == 0 {
            return all;
        }
        for (i, [low, high]) in ENDS.into_iter().enumerate() {
            let (from, to) = (f32::from_bits(low), f32::from_bits(high));
            all.0[i] = match source.up_to(7) {
                0 => low,
                1 => high,
                2 | 3 => all.0[i],
                _ => clamp(from + (to - from) * fraction(source), from, to).to_bits(),
            };
        }
        all
    }

    /// All lowest, all highest, and the usual ones with one of them at an end.
    pub fn ends() -> Vec<Settings> {
        let mut all = vec![Settings(ENDS.map(|[low, _]| low)), Settings(ENDS.map(|[_, high]| high))];
        for (i, both) in ENDS.into_iter().enumerate() {
            for one in both {
                let mut settings = Settings::USUAL;
                settings.0[i] = one;
                all.push(settings);
            }
        }
        all
    }

    /// The usual ones with one that is refused.
    pub fn wrong() -> Vec<Settings> {
        let mut all = Vec::new();
        for (i, some) in WRONG.iter().enumerate() {
            for &one in some {
                let mut settings = Settings::USUAL;
                settings.0[i] = one;
                all.push(settings);
            }
        }
        all
    }
}

/// What a run asked.
#[derive(Default)]
pub struct Tally {
    pub speech: usize,
    pub pauses: usize,
    pub with_the_rust: usize,
    pub by_hand: usize,
    pub refused: [usize; 5],
    pub others: usize,
    /// Runs shorter than T - 1, of T - 1, T, T + 1, and longer: all, and those with T above 200.
    runs: [usize; 5],
    late_runs: [usize; 5],
    /// Gaps that are not refused: where no frame of speech is counted, fewer than T - 1, T - 1, and T or more.
    gaps: [usize; 4],
}

impl Tally {
    pub fn frame(&mut self, speech: bool, reply: u32, rust: bool) {
        if reply == DONE {
            self.speech += speech as usize;
            self.pauses += !speech as usize;
            self.with_the_rust += rust as usize;
            self.by_hand += !rust as usize;
        }
        self.refused[reply as usize] += 1;
    }

    pub fn call(&mut self, reply: u32) {
        self.others += 1;
        self.refused[reply as usize] += 1;
    }

    pub fn frames(&self) -> usize {
        self.speech + self.pauses
    }

    /// A gap that is not refused, where so many frames of speech are counted, which are held at T.
    pub fn gap(&mut self, threshold: u32, count: u32) {
        let which = match count {
            0 => 0,
            n if n >= threshold => 3,
            n if n + 1 == threshold => 2,
            _ => 1,
        };
        self.gaps[which] += 1;
    }

    pub fn gaps(&self) -> usize {
        self.gaps.iter().sum()
    }

    fn run(&mut self, threshold: u32, length: u32) {
        let which = (length + 2).saturating_sub(threshold).min(4) as usize;
        self.runs[which] += 1;
        self.late_runs[which] += (threshold > 200) as usize;
    }

    pub fn kinds(&self) -> Vec<(&'static str, usize)> {
        vec![
            ("accepted frames", self.frames()),
            ("of them speech", self.speech),
            ("not speech", self.pauses),
            ("with the Rust beside", self.with_the_rust),
            ("by the paper alone", self.by_hand),
            ("refused with 1", self.refused[SHAPE as usize]),
            ("with 4", self.refused[SETTING as usize]),
            ("with 2", self.refused[FIGURE as usize]),
            ("with 3", self.refused[SAMPLE as usize]),
            ("calls without a frame", self.others),
            ("of them gaps that are not refused", self.gaps()),
        ]
    }

    pub fn note(&self) -> String {
        let lengths = |[less, short, at, past, longer]: [usize; 5]| {
            format!("{} one short of T, {} at T, {} one past it, {} shorter, {} longer", short, at, past, less, longer)
        };
        let [none, less, short, at] = self.gaps;
        format!(
            "runs by their length: {}; of these with T above 200: {}; gaps: {} in no run, {} behind T - 1 frames of one, {} behind fewer, {} behind T or more",
            lengths(self.runs),
            lengths(self.late_runs),
            none,
            short,
            less,
            at
        )
    }
}

/// A part that judges, with its state.
pub trait Judge {
    fn tally(&mut self) -> &mut Tally;
    /// Whether the Rust goes along.
    fn has_the_rust(&self) -> bool;
    fn threshold(&self) -> u32;
    /// Starts afresh with a threshold.
    fn renew(&mut self, threshold: u32, source: &mut Random, to: Ask) -> bool;
    /// Goes on in the Rust with another state, which is handed in.
    fn swap(&mut self, to: Ask) -> bool;
    /// The same with the state that so many speech frames bring about from a new one, which are not asked about.
    fn after_speech(&mut self, threshold: u32, frames: u32, source: &mut Random, to: Ask) -> bool;
    fn reset(&mut self, to: Ask) -> bool;
    /// A gap: for the Rust's level and headroom a frame that is no speech.
    fn gap(&mut self, to: Ask) -> bool;
    /// Hands in a state that passes and that the Rust is not brought to.
    fn hand_in(&mut self, source: &mut Random, to: Ask) -> bool;
    /// What the figures of the next frames are drawn near to.
    fn turn(&mut self, source: &mut Random);
    /// A frame of this probability, accepted.
    fn frame(&mut self, probability: u32, source: &mut Random, to: Ask) -> bool;
    /// A frame that is refused, speech or not.
    fn wrong(&mut self, source: &mut Random, to: Ask) -> bool;
    /// Each figure's ends and what is refused of it, one after the other.
    fn each_figure(&mut self, source: &mut Random, to: Ask) -> bool;
    /// A new one with each setting at its ends and outside of them, and a short run with each.
    fn each_setting(&mut self, source: &mut Random, to: Ask) -> bool;
    /// Notes what is amiss with the comparison itself.
    fn object(&mut self, why: Vec<String>);
    /// The states at the edges of the test, and what is amiss with them.
    fn edges(&self) -> Edges;
    fn amiss(&self) -> Vec<String>;
    /// Hands in the state with these figures; none where there is no such state.
    fn at_edge(&mut self, figures: &[u32], to: Ask) -> Option<bool>;
    /// Each call that a failing state refuses.
    fn refuse(&mut self, source: &mut Random, to: Ask) -> bool;
}

/// A run of speech frames, and then frames that are not, with a refused one here and there: those are not
/// counted and do not end it.
pub fn run(judge: &mut dyn Judge, length: u32, pause: u32, source: &mut Random, to: Ask) -> bool {
    judge.turn(source);
    for i in 0..length + pause {
        if source.up_to(63) == 0 && !judge.wrong(source, to) {
            return false;
        }
        if !judge.frame(probability(i < length, source), source, to) {
            return false;
        }
    }
    let threshold = judge.threshold();
    judge.tally().run(threshold, length);
    true
}

/// From a new state, each boundary of 400 ms: as many speech frames, once again, and then some more.
fn boundaries(judge: &mut dyn Judge, threshold: u32, source: &mut Random, to: Ask) -> bool {
    [39, 40, 41, 42, 81, 82, 83].iter().all(|&n| {
        judge.renew(threshold, source, to)
            && run(judge, n, 1, source, to)
            && run(judge, n, 2, source, to)
            && run(judge, threshold, 1, source, to)
    })
}

/// Runs one short of a threshold, at it, one past it and longer, each of which begins in a state that is handed in two
/// frames short of the threshold or at it.
fn near_threshold(judge: &mut dyn Judge, t: u32, source: &mut Random, to: Ask) -> bool {
    [(t - 2, 1), (t - 2, 2), (t - 2, 3), (t + 50, 2)].iter().all(|&(before, more)| {
        judge.turn(source);
        let going = judge.after_speech(t, before, source, to)
            && (0..=more).all(|i| judge.frame(probability(i < more, source), source, to));
        judge.tally().run(t, before + more);
        going
    })
}

/// The same runs, each of which a gap ends; then two frames of speech, a gap, and one that is no speech.
fn gaps_near_threshold(judge: &mut dyn Judge, t: u32, source: &mut Random, to: Ask) -> bool {
    [(t - 2, 1), (t - 2, 2), (t - 2, 3), (t + 50, 2)].iter().all(|&(before, more)| {
        judge.turn(source);
        let going = judge.after_speech(t, before, source, to)
            && (0..more).all(|_| judge.frame(probability(true, source), source, to))
            && judge.gap(to)
            && (0..2).all(|_| judge.frame(probability(true, source), source, to))
            && judge.gap(to)
            && judge.frame(probability(false, source), source, to);
        judge.tally().run(t, before + more);
        going
    })
}

/// A gap in a new state; runs around a threshold that gaps end, one gap or two; and gaps behind a frame that is no speech.
fn broken_runs(judge: &mut dyn Judge, t: u32, source: &mut Random, to: Ask) -> bool {
    judge.renew(t, source, to)
        && judge.gap(to)
        && [t - 1, t - 1, t, t - 1, t + 1, 1, t, t].iter().all(|&n| run(judge, n, 0, source, to) && judge.gap(to))
        && judge.gap(to)
        && [t, t - 1].iter().all(|&n| run(judge, n, 1, source, to) && judge.gap(to))
}

/// A run, with gaps in some: at its end in the place of the frames that are no speech, behind these, or in the midst of it.
fn run_or_broken(judge: &mut dyn Judge, length: u32, pause: u32, source: &mut Random, to: Ask) -> bool {
    match source.up_to(15) {
        0 | 1 => run(judge, length, 0, source, to) && judge.gap(to),
        2 => run(judge, length, 0, source, to) && judge.gap(to) && judge.gap(to),
        3 => run(judge, length, pause, source, to) && judge.gap(to),
        4 => {
            let first = source.up_to(length);
            run(judge, first, 0, source, to) && judge.gap(to) && run(judge, length - first, pause, source, to)
        }
        _ => run(judge, length, pause, source, to),
    }
}

/// One after the other, and all of their frames asked about: runs one short of a threshold, at it, one past it, one short
/// of it again, of one frame, and far longer.
fn whole_runs(judge: &mut dyn Judge, t: u32, source: &mut Random, to: Ask) -> bool {
    judge.renew(t, source, to) && [t - 1, t, t + 1, t - 1, 1, t + 700].iter().all(|&n| run(judge, n, 1, source, to))
}

/// Runs one short of a threshold, at it and one past it, many in a row, and others, in so many frames, and gaps.
fn runs(judge: &mut dyn Judge, threshold: u32, frames: usize, source: &mut Random, to: Ask) -> bool {
    let wanted = judge.tally().frames() + frames;
    let mut going = judge.renew(threshold, source, to);
    while going && judge.tally().frames() < wanted {
        // Whatever the state that goes on: that of another threshold may have been handed in.
        let t = judge.threshold();
        let length = match source.up_to(63) {
            0 => t + source.up_to(600),
            1..=3 => t + source.up_to(90),
            4..=9 => source.up_to(2 * t + 2),
            10..=27 => t - 1,
            28..=45 => t,
            _ => t + 1,
        };
        let pause = match source.up_to(7) {
            0..=5 => 1,
            6 => 2 + source.up_to(2),
            _ => source.up_to(20),
        };
        going = run_or_broken(judge, length, pause, source, to);
        if !going {
            break;
        }
        going = if !judge.has_the_rust() {
            judge.swap(to)
        } else {
            match source.up_to(63) {
                0..=2 => judge.reset(to),
                3..=8 => judge.swap(to),
                9 => judge.hand_in(source, to),
                10 | 11 => judge.renew(threshold, source, to),
                _ => true,
            }
        };
    }
    going
}

/// Each state at an edge of the test, inside and outside, with a gap, and handed in once more with every call; or a few of
/// them with every call.
fn at_edges(judge: &mut dyn Judge, few: bool, source: &mut Random, to: Ask) -> bool {
    let amiss = judge.amiss();
    judge.object(amiss);
    for edge in judge.edges().some(few) {
        let with_gap = few || (judge.at_edge(&edge.figures, to).unwrap_or(true) && judge.gap(to));
        let going = with_gap && judge.at_edge(&edge.figures, to).unwrap_or(true);
        if !going || !judge.refuse(source, to) {
            return false;
        }
    }
    true
}

/// What a run asks, in so many frames and at least some runs of each threshold. A round has random runs alone.
pub fn play(judge: &mut dyn Judge, seed: u64, length: Length, frames: usize, to: Ask) -> bool {
    let source = &mut Random::new(seed);
    let fixed = length != Length::Round;
    if length == Length::States {
        return at_edges(judge, false, source, to);
    }
    let brief = length == Length::Brief;
    let thresholds = &THRESHOLDS[..if brief { BRIEF_THRESHOLDS } else { THRESHOLDS.len() }];
    let share = |t: u32| (frames / SHORT_THRESHOLDS).max(6 * t as usize);
    judge.renew(2, source, to)
        && (!fixed || judge.each_figure(source, to))
        && (!fixed || judge.each_setting(source, to))
        && (!fixed || at_edges(judge, false, source, to))
        && (!fixed || thresholds.iter().take(SHORT_THRESHOLDS).all(|&t| broken_runs(judge, t, source, to)))
        && (brief || !fixed || MORE_THRESHOLDS.iter().all(|&t| near_threshold(judge, t, source, to)))
        && (brief || !fixed || MORE_THRESHOLDS.iter().chain(&[1500, LARGEST_THRESHOLD]).all(|&t| gaps_near_threshold(judge, t, source, to)))
        && (brief || !fixed || thresholds.iter().all(|&t| whole_runs(judge, t, source, to)))
        && (brief || thresholds.iter().all(|&t| boundaries(judge, t, source, to)))
        && thresholds.iter().all(|&t| runs(judge, t, share(t), source, to))
        && (length != Length::Long || sweep(judge, source, to))
}

/// Each of more thresholds, and any others above 200, with runs that are asked about as a whole.
fn sweep(judge: &mut dyn Judge, source: &mut Random, to: Ask) -> bool {
    let others: Vec<u32> = (0..40).map(|_| 201 + source.up_to(LARGEST_THRESHOLD - 201)).collect();
    MORE_THRESHOLDS.iter().chain(&others).all(|&t| whole_runs(judge, t, source, to))
}

/// The questions of the fixed list that all have: each figure's ends, each setting's, states at the edges of the
/// test, and runs of some thresholds.
pub fn list(judge: &mut dyn Judge, seed: u64, thresholds: &[u32], to: Ask) {
    let source = &mut Random::new(seed);
    judge.renew(2, source, to);
    judge.each_figure(source, to);
    judge.each_setting(source, to);
    at_edges(judge, true, source, to);
    for &t in thresholds {
        judge.renew(t, source, to);
        for length in [t - 1, t - 1, t, t, t + 1, t + 1] {
            run(judge, length, 1, source, to);
        }
        judge.swap(to);
        run(judge, 2, 2, source, to);
        judge.reset(to);
        judge.hand_in(source, to);
        run(judge, t, 1, source, to);
    }
    near_threshold(judge, LARGEST_THRESHOLD, source, to);
}

/// The questions of the fixed list with gaps, which stand behind a part's others.
pub fn list_gaps(judge: &mut dyn Judge, seed: u64, to: Ask) {
    let source = &mut Random::new(seed);
    [1, 2, 3].iter().all(|&t| broken_runs(judge, t, source, to));
    judge.hand_in(source, to);
    judge.gap(to);
    run(judge, 2, 0, source, to);
    judge.gap(to);
    gaps_near_threshold(judge, LARGEST_THRESHOLD, source, to);
}

/// The values in the Rust's `Debug` form, in their order: floats as their bits. None where the names are
/// not these.
pub fn values(text: &str, names: &[&str]) -> Option<Vec<u32>> {
    let mut found = Vec::new();
    let mut due = names.iter();
    for word in text.split(|c| matches!(c, ' ' | ',' | '{' | '}' | '[' | ']')) {
        if let Some(name) = word.strip_suffix(':') {
            if due.next() != Some(&name) {
                return None;
            }
        } else if word == "true" || word == "false" {
            found.push((word == "true") as u32);
        } else if let Ok(n) = word.parse::<i32>() {
            found.push(n as u32);
        } else if let Ok(x) = word.parse::<f32>() {
            found.push(x.to_bits());
        } else if !word.chars().next().map_or(true, char::is_uppercase) {
            return None;
        }
    }
    match due.next() {
        None => Some(found),
        Some(_) => None,
    }
}

/// Notes where the Rust and document 01 by hand do not agree; after a hundred there is no need of more.
pub fn object(unlike: &mut Vec<String>, why: String) {
    if unlike.len() < 100 {
        unlike.push(why);
    }
}

/// How far a value and that of the Rust as it stands are apart.
#[derive(Default)]
pub struct Departure {
    frames: usize,
    unlike: usize,
    largest: f64,
    place: String,
}

impl Departure {
    pub fn note(&mut self, ours: f32, theirs: f32, place: impl Fn() -> String) {
        self.frames += 1;
        self.unlike += (ours.to_bits() != theirs.to_bits()) as usize;
        let apart = (ours as f64 - theirs as f64).abs();
        if apart > self.largest {
            self.largest = apart;
            self.place = format!(": {:?} and {:?}, {}", ours, theirs, place());
        }
    }

    pub fn line(&self, what: &str) -> String {
        format!(
            "against the Rust as it stands, {}: {} compared, {} with other bits; largest difference {:.6e}{}",
            what, self.frames, self.unlike, self.largest, self.place
        )
    }
}
