//! Frames of sound, and how a part that takes frames is asked about whole sequences of them: what the
//! level estimator, the applier and the limiter have in common.

use crate::clauses::Edges;
use crate::drive::{Ask, Length};
use crate::lines::{bits, DONE, SAMPLE, SETTING, SHAPE};
use crate::random::Random;

/// A frame as it is asked about: the shape that is said, and the bits of the samples, which may be
/// fewer or more than the shape has.
#[derive(Clone)]
pub struct Frame {
    pub channels: u32,
    pub samples: u32,
    pub data: Vec<u32>,
}

/// "1 to 8 channels, each 40 to 480 samples in a multiple of 20".
pub fn is_samples(samples: u32) -> bool {
    (40..=480).contains(&samples) && samples % 20 == 0
}

/// The most samples that a question has, whatever its shape says.
const MOST: usize = 3840;

impl Frame {
    /// The frame with these figures.
    pub fn read(figures: &[u32]) -> Option<Frame> {
        match figures {
            [channels, samples, data @ ..] if data.len() <= MOST => Some(Frame {
                channels: *channels,
                samples: *samples,
                data: data.to_vec(),
            }),
            _ => None,
        }
    }

    /// The first reply that applies, in the order 1, 4, 3: `set` says that the samples are those that
    /// the state was set to, and `passes` that the state passes its test.
    pub fn reply(&self, set: bool, passes: bool, bound: f32) -> u32 {
        let shape = (1..=8).contains(&self.channels)
            && is_samples(self.samples)
            && self.data.len() == (self.channels * self.samples) as usize;
        if !(shape && set) {
            SHAPE
        } else if !passes {
            SETTING
        } else if !self.data.iter().all(|&b| f32::from_bits(b).abs() <= bound) {
            SAMPLE
        } else {
            DONE
        }
    }

    /// The channels, for the Rust.
    pub fn sound(&self) -> Vec<Vec<f32>> {
        let all: Vec<f32> = self.data.iter().map(|&b| f32::from_bits(b)).collect();
        all.chunks(self.samples as usize).map(|c| c.to_vec()).collect()
    }

    /// The figures of a question.
    pub fn figures(&self) -> Vec<u32> {
        let mut all = vec![self.channels, self.samples];
        all.extend(&self.data);
        all
    }

    /// The samples as a refused call leaves them.
    pub fn untouched(&self) -> Vec<u32> {
        self.data.iter().map(|&b| bits(f32::from_bits(b))).collect()
    }
}

/// The bits of all channels.
pub fn flat(sound: &[Vec<f32>]) -> Vec<u32> {
    sound.iter().flatten().map(|&x| bits(x)).collect()
}

/// The kinds of frames.
pub const KINDS: [&str; 10] = [
    "silence",
    "zeros of both signs",
    "noise",
    "full scale",
    "the largest magnitudes",
    "one loud sample",
    "an attack",
    "a decay",
    "near the knee",
    "any bits in range",
];
const LOUD: usize = 5;

/// What a run asked.
#[derive(Default)]
pub struct Tally {
    pub frames: usize,
    pub samples: usize,
    pub kinds: [usize; KINDS.len()],
    pub refused: [usize; 5],
    pub others: usize,
    pub with_the_rust: usize,
    pub by_hand: usize,
}

impl Tally {
    pub fn frame(&mut self, frame: &Frame, reply: u32, rust: bool) {
        if reply == DONE {
            self.frames += 1;
            self.samples += frame.data.len();
            if rust {
                self.with_the_rust += 1;
            } else {
                self.by_hand += 1;
            }
        }
        self.call(reply);
    }

    pub fn call(&mut self, reply: u32) {
        self.refused[reply as usize] += 1;
    }

    pub fn kinds(&self) -> Vec<(&'static str, usize)> {
        vec![
            ("samples", self.samples),
            ("accepted frames", self.frames),
            ("of them with the Rust beside", self.with_the_rust),
            ("by the paper alone", self.by_hand),
            ("refused with 1", self.refused[SHAPE as usize]),
            ("with 4", self.refused[SETTING as usize]),
            ("with 2", self.refused[2]),
            ("with 3", self.refused[SAMPLE as usize]),
            ("calls without a frame", self.others),
        ]
    }

    pub fn note(&self) -> String {
        let all: Vec<String> = KINDS.iter().zip(self.kinds).map(|(what, n)| format!("{} {}", n, what)).collect();
        format!("frames by kind: {}", all.join(", "))
    }
}

/// A part that takes frames, with its state.
pub trait Player {
    fn tally(&mut self) -> &mut Tally;
    /// The largest magnitude of a sample.
    fn bound(&self) -> f32;
    /// The samples that the state is set to, where it is.
    fn set_to(&self) -> Option<u32>;
    fn passes(&self) -> bool;
    /// Starts afresh for channels of so many samples.
    fn renew(&mut self, samples: u32, source: &mut Random, to: Ask) -> bool;
    /// Asks about a frame.
    fn play(&mut self, frame: &Frame, to: Ask) -> bool;
    /// A call without a frame.
    fn other(&mut self, source: &mut Random, to: Ask) -> bool;
    /// Notes what is amiss with the comparison itself.
    fn object(&mut self, why: Vec<String>);
    /// The states at the edges of the test, and what is amiss with them.
    fn edges(&self) -> Edges;
    fn amiss(&self) -> Vec<String>;
    /// Hands in the state with these figures; none where there is no such state.
    fn at_edge(&mut self, figures: &[u32], to: Ask) -> Option<bool>;
    /// Each call without a frame that a failing state refuses.
    fn refuse(&mut self, to: Ask) -> bool;
}

/// Each state at an edge of the test, inside and outside, or a few of them, with a good frame, one with a NaN, one of a wrong length,
/// and the calls without a frame: 1 comes before 4, and 4 before 2 and 3.
fn at_edges(player: &mut dyn Player, few: bool, source: &mut Random, to: Ask) -> bool {
    let amiss = player.amiss();
    player.object(amiss);
    for edge in player.edges().some(few) {
        let going = player.at_edge(&edge.figures, to).unwrap_or(true);
        let samples = player.set_to().filter(|&n| is_samples(n)).unwrap_or(40);
        let good = frame(2, 1, samples, player.bound(), source);
        let mut wrong = good.clone();
        wrong.data[0] = 0x7fc0_0000;
        let mut short = wrong.clone();
        short.data.pop();
        let played = [good, wrong, short].iter().all(|one| player.play(one, to));
        if !(going && played && player.refuse(to)) {
            return false;
        }
    }
    true
}

/// Any number of samples that a channel can have.
pub fn any_samples(source: &mut Random) -> u32 {
    match source.up_to(3) {
        0 => 40,
        1 => 480,
        _ => 40 + 20 * source.up_to(22),
    }
}

/// A number from -1 to 1.
fn unit(source: &mut Random) -> f32 {
    (source.up_to(1 << 24) as f32 - (1 << 23) as f32) / (1 << 23) as f32
}

fn signed(x: f32, source: &mut Random) -> f32 {
    if source.up_to(1) == 0 {
        x
    } else {
        -x
    }
}

/// How loud a frame is.
fn loudness(bound: f32, source: &mut Random) -> f32 {
    match source.up_to(7) {
        0 => 32767.0,
        1 => 32768.0,
        2 => bound,
        3 => 25000.0 + 20000.0 * unit(source).abs(),
        4 | 5 => 40000.0 * unit(source).abs(),
        _ => bound * (0.5_f32).powi(source.up_to(40) as i32),
    }
}

/// One sample of a kind. `late` says that it comes at or after the frame's turn.
fn sample(kind: usize, bound: f32, loud: f32, late: bool, source: &mut Random) -> f32 {
    match kind {
        0 => 0.0,
        1 => signed(0.0, source),
        2 => loud * unit(source),
        3 => [32767.0, -32768.0][source.up_to(1) as usize],
        4 => match source.up_to(3) {
            0 => signed(f32::from_bits(bound.to_bits() - 1), source),
            _ => signed(bound, source),
        },
        LOUD => loud * unit(source) / 1024.0,
        6 if late => loud * unit(source),
        6 => loud * unit(source) / 256.0,
        7 if late => loud * unit(source) / 256.0,
        7 => loud * unit(source),
        8 => signed(29900.0 + 7000.0 * unit(source).abs(), source),
        _ => f32::from_bits(source.up_to(bound.to_bits()) | source.up_to(1) << 31),
    }
}

/// A frame of a kind.
pub fn frame(kind: usize, channels: u32, samples: u32, bound: f32, source: &mut Random) -> Frame {
    let loud = loudness(bound, source);
    let turn = source.up_to(samples - 1);
    let mut data = Vec::with_capacity((channels * samples) as usize);
    for _ in 0..channels {
        for i in 0..samples {
            data.push(sample(kind, bound, loud, i >= turn, source).to_bits());
        }
    }
    if kind == LOUD {
        let channel = source.up_to(channels - 1);
        data[(channel * samples + turn) as usize] = signed(loud, source).to_bits();
    }
    Frame {
        channels,
        samples,
        data,
    }
}

/// Plays a frame of a kind, in the samples that the state is set to.
fn play_kind(player: &mut dyn Player, kind: usize, source: &mut Random, to: Ask) -> bool {
    let channels = match source.up_to(3) {
        0 => 1,
        1 => 2,
        _ => 1 + source.up_to(7),
    };
    let samples = player.set_to().filter(|&n| is_samples(n)).unwrap_or_else(|| any_samples(source));
    let asked = frame(kind, channels, samples, player.bound(), source);
    let before = player.tally().frames;
    let going = player.play(&asked, to);
    if player.tally().frames > before {
        player.tally().kinds[kind] += 1;
    }
    going
}

/// One loud sample at each place of some sub-frames, in silence: a frame for each.
pub fn each_place(player: &mut dyn Player, samples: u32, parts: &[u32], source: &mut Random, to: Ask) -> bool {
    let size = samples / 20;
    if !player.renew(samples, source, to) {
        return false;
    }
    for &part in parts {
        for j in 0..size {
            let channels = 1 + j % 2;
            let mut data = vec![0; (channels * samples) as usize];
            let place = (channels - 1) * samples + part * size + j;
            data[place as usize] = (32000.0 + 40.0 * (part * size + j) as f32).to_bits();
            let asked = Frame {
                channels,
                samples,
                data,
            };
            player.tally().kinds[LOUD] += 1;
            if !player.play(&asked, to) {
                return false;
            }
        }
    }
    true
}

/// The damaged forms of a good frame: wrong lengths, channels and samples, and samples that are no
/// number, infinite or too large, at the first and the last place.
pub fn damaged(good: &Frame, bound: f32) -> Vec<Frame> {
    let mut all = Vec::new();
    let length = good.data.len();
    for size in [0, 1, length - 1, length - good.samples as usize, length / 2] {
        let mut one = good.clone();
        one.data.truncate(size);
        all.push(one);
    }
    for more in [1, good.samples as usize] {
        let mut one = good.clone();
        if length + more <= MOST {
            one.data.resize(length + more, 0);
            all.push(one);
        }
    }
    for channels in [0, 9, good.channels + 1, u32::MAX, 1 << 31] {
        all.push(Frame {
            channels,
            ..good.clone()
        });
    }
    for samples in [0, 20, 50, 500, good.samples + 20, good.samples - 1, u32::MAX] {
        all.push(Frame {
            samples,
            ..good.clone()
        });
        // The length is the product all the same.
        if samples <= 500 {
            let mut one = Frame {
                samples,
                channels: 1,
                data: good.data.clone(),
            };
            one.data.resize(samples as usize, 0);
            all.push(one);
        }
    }
    let large = bound.to_bits() + 1;
    for wrong in [0x7fc0_0000, 0x7f80_0001, 0xffff_ffff, 0x7f80_0000, 0xff80_0000, large, large | 1 << 31, 0x7f7f_ffff] {
        for place in [0, length - 1] {
            let mut one = good.clone();
            one.data[place] = wrong;
            all.push(one.clone());
            // A wrong shape comes first.
            if wrong == 0x7fc0_0000 {
                one.channels += 1;
                all.push(one);
            }
        }
    }
    all
}

/// The damaged forms of a good frame, or one in some of them, and then the good one.
fn play_damaged(player: &mut dyn Player, channels: u32, every: usize, source: &mut Random, to: Ask) -> bool {
    let samples = player.set_to().filter(|&n| is_samples(n)).unwrap_or(40);
    let good = frame(2, channels, samples, player.bound(), source);
    let skip = source.up_to(every as u32 - 1) as usize;
    let some = damaged(&good, player.bound());
    some.iter().skip(skip).step_by(every).all(|one| player.play(one, to)) && player.play(&good, to)
}

/// A sequence of so many samples: frames of all kinds, often the same kind for some frames, with other
/// calls and damaged frames between them.
pub fn sequence(player: &mut dyn Player, source: &mut Random, samples: usize, to: Ask) -> bool {
    let mut kind = 0;
    let wanted = player.tally().samples + samples;
    let mut going = true;
    while going && player.tally().samples < wanted {
        if !player.passes() {
            // A state that fails its test refuses whatever comes, and is soon given up.
            going = match source.up_to(7) {
                0 => play_damaged(player, 1, 16, source, to),
                1 | 2 => play_kind(player, kind, source, to),
                3 | 4 => player.other(source, to),
                _ => player.renew(any_samples(source), source, to),
            };
            continue;
        }
        if source.up_to(2) == 0 {
            kind = source.up_to(KINDS.len() as u32 - 1) as usize;
        }
        going = match source.up_to(31) {
            0..=3 => player.other(source, to),
            4 if source.up_to(3) == 0 => play_damaged(player, [1, 2, 8][source.up_to(2) as usize], 8, source, to),
            5 if source.up_to(7) == 0 => player.renew(any_samples(source), source, to),
            _ => play_kind(player, kind, source, to),
        };
    }
    going
}

/// What a run asks: one loud sample at each place, all damaged calls, all states at the edges of the test, and a
/// sequence. A round has the sequence alone.
pub fn run(player: &mut dyn Player, seed: u64, length: Length, samples: usize, to: Ask) -> bool {
    let source = &mut Random::new(seed);
    let every: Vec<u32> = (0..20).collect();
    let shapes: &[(u32, &[u32])] = match length {
        Length::Round => return sequence(player, source, samples, to),
        Length::States => return at_edges(player, false, source, to),
        Length::Long => &[(40, &every), (60, &every), (160, &every), (480, &every)],
        Length::Brief | Length::Short => &[(40, &every), (480, &[0, 19])],
    };
    shapes.iter().all(|&(n, parts)| each_place(player, n, parts, source, to))
        && [1, 2, 8].iter().all(|&channels| play_damaged(player, channels, 1, source, to))
        && at_edges(player, false, source, to)
        && sequence(player, source, samples, to)
}

/// The questions of the fixed list: each damaged form of a frame, states at the edges of the test, frames of each
/// kind of 40 samples, with other calls between them, and a few of 480.
pub fn list(player: &mut dyn Player, seed: u64, to: Ask) {
    let source = &mut Random::new(seed);
    player.renew(40, source, to);
    play_damaged(player, 1, 1, source, to);
    at_edges(player, true, source, to);
    player.renew(40, source, to);
    for kind in 0..KINDS.len() {
        for channels in [1, 2] {
            let one = frame(kind, channels, 40, player.bound(), source);
            player.play(&one, to);
        }
        player.other(source, to);
        player.renew(40, source, to);
    }
    player.renew(480, source, to);
    for kind in [2, 6, 7] {
        let one = frame(kind, 1, 480, player.bound(), source);
        player.play(&one, to);
    }
    for _ in 0..20 {
        player.other(source, to);
    }
}

/// A field's value in the Rust's `Debug` form.
pub fn field<T: std::str::FromStr>(text: &str, name: &str) -> Option<T> {
    let from = text.find(&format!("{}: ", name))? + name.len() + 2;
    let rest = &text[from..];
    let to = rest.find(|c: char| c == ',' || c == ' ').unwrap_or(rest.len());
    rest[..to].parse().ok()
}
