//! The curve from level to gain: whole sequences of look-ups with the Rust's curve, whose statistics
//! are public, so that each of them is compared and any state can be handed in.
//!
//! By hand from document 01 are the refusals, a state that the Rust's types cannot hold, and a
//! duration at its largest value, which is held there while the Rust's rolls over.

use crate::clauses::{self, Clause, Edges};
use crate::drive::{Ask, Length, Part};
use crate::lines::{self, bits, halves, DONE, FIGURE, SETTING};
use crate::random::Random;
use sonora_ruled::interpolated_gain_curve::{GainCurveRegion, InterpolatedGainCurve as Published, Stats};

/// "curve level: 0 to 33554432".
const LARGEST: f32 = 33_554_432.0;

/// Where the curve's pieces meet, and where the last one ends: levels to ask about. The answers come
/// from the Rust's own tables.
const PLACES: [f32; 33] = [
    30057.297, 30148.986, 30240.676, 30424.053, 30607.43, 30790.807, 30974.184, 31157.56, 31340.94, 31524.316,
    31707.693, 31891.07, 32074.447, 32257.824, 32441.201, 32624.58, 32807.957, 32991.332, 33174.71, 33358.09,
    33541.465, 33724.844, 33819.535, 34009.54, 34200.06, 34389.816, 34674.49, 35054.375, 35434.863, 35814.816,
    36195.168, 36575.03, 36766.3,
];

/// Levels whose answer is easily got wrong.
const EDGES: [u32; 24] = [
    0x0000_0000, // 0
    0x8000_0000, // -0
    0x0000_0001, // the smallest above 0
    0x8000_0001, // the largest below 0
    0x0080_0000, // the smallest normal one
    0x3f80_0000, // 1
    0xbf80_0000, // -1
    0x46ff_fe00, // 32767
    0x4700_0000, // 32768
    0x4780_0000, // 65536
    0x4bff_ffff, // just below 33554432
    0x4c00_0000, // 33554432
    0x4c00_0001, // just above it
    0xc6ea_d298, // minus the first knot
    0x7f7f_ffff, // the largest
    0xff7f_ffff, // the lowest
    0x7f80_0000, // infinity
    0xff80_0000, // minus infinity
    0x7f80_0001, // NaNs, from here on
    0x7fc0_0000,
    0x7fff_ffff,
    0xff80_0001,
    0xffc0_0000,
    0xffff_ffff,
];

/// One level of each region.
const REGIONS: [f32; 4] = [1000.0, 32000.0, 35000.0, 40000.0];

/// The statistics as a state has them, also one that the Rust's types cannot hold.
#[derive(Clone, Copy)]
pub struct State {
    pub counts: [u64; 4],
    pub available: bool,
    pub region: u32,
    pub duration: i64,
}

pub const FRESH: State = State {
    counts: [0; 4],
    available: false,
    region: 0,
    duration: 0,
};

impl State {
    /// A region that there is; "duration not negative".
    pub fn clauses(&self) -> Vec<Clause> {
        vec![("curve region", self.region <= 3), ("curve duration", self.duration >= 0)]
    }

    pub fn passes(&self) -> bool {
        clauses::hold(&self.clauses())
    }

    pub fn figures(&self) -> Vec<u32> {
        let mut all: Vec<u32> = self.counts.iter().flat_map(|&n| halves(n)).collect();
        all.push(self.available as u32);
        all.push(self.region);
        all.extend(halves(self.duration as u64));
        all
    }

    /// The state with these figures.
    pub fn read(figures: &[u32]) -> Option<State> {
        let whole = |high: u32, low: u32| (high as u64) << 32 | low as u64;
        match *figures {
            [a, b, c, d, e, f, g, h, available, region, high, low] => Some(State {
                counts: [whole(a, b), whole(c, d), whole(e, f), whole(g, h)],
                available: available != 0,
                region,
                duration: whole(high, low) as i64,
            }),
            _ => None,
        }
    }

    /// The gain of a level, by the Rust's curve, and the state after it.
    pub fn look_up(&mut self, level: f32) -> f32 {
        let mut curve = published(self);
        let gain = looked(&mut curve, level).0;
        *self = state_of(&curve.stats);
        gain
    }
}

/// Looks a level up in the Rust's curve, and says whether the duration is held: "held at its largest
/// value (a difference)", where the Rust's rolls over.
fn looked(curve: &mut Published, level: f32) -> (f32, bool) {
    let before = state_of(&curve.stats);
    let gain = curve.look_up_gain_to_apply(level);
    let held = before.duration == i64::MAX && curve.stats.region as u32 == before.region;
    if held {
        curve.stats.region_duration_frames = i64::MAX;
    }
    (gain, held)
}

fn published(state: &State) -> Published {
    let region = match state.region {
        0 => GainCurveRegion::Identity,
        1 => GainCurveRegion::Knee,
        2 => GainCurveRegion::Limiter,
        _ => GainCurveRegion::Saturation,
    };
    Published {
        stats: Stats {
            look_ups_identity_region: state.counts[0] as usize,
            look_ups_knee_region: state.counts[1] as usize,
            look_ups_limiter_region: state.counts[2] as usize,
            look_ups_saturation_region: state.counts[3] as usize,
            available: state.available,
            region,
            region_duration_frames: state.duration,
        },
    }
}

fn state_of(stats: &Stats) -> State {
    State {
        counts: [
            stats.look_ups_identity_region as u64,
            stats.look_ups_knee_region as u64,
            stats.look_ups_limiter_region as u64,
            stats.look_ups_saturation_region as u64,
        ],
        available: stats.available,
        region: stats.region as u32,
        duration: stats.region_duration_frames,
    }
}

/// A run of calls: the Rust's curve, or a state that fails its test and that every call refuses.
struct Desk {
    curve: Published,
    failing: Option<State>,
    unlike: Vec<String>,
    accepted: usize,
    refused: usize,
    others: usize,
    held: usize,
}

impl Desk {
    fn new() -> Desk {
        Desk {
            curve: published(&FRESH),
            failing: None,
            unlike: Vec::new(),
            accepted: 0,
            refused: 0,
            others: 0,
            held: 0,
        }
    }

    fn state(&self) -> State {
        self.failing.unwrap_or_else(|| state_of(self.curve.get_stats()))
    }

    /// Asks; the answer is the reply, the state, whether it passes, the gain, and what follows.
    fn put(&self, name: &str, figures: &[u32], reply: u32, gain: f32, rest: &[u32], to: Ask) -> bool {
        let mut all = vec![reply];
        all.extend(self.state().figures());
        all.extend([self.failing.is_none() as u32, bits(gain)]);
        all.extend(rest);
        to(lines::question(name, figures), lines::answer(&all))
    }

    fn fresh(&mut self, to: Ask) -> bool {
        self.others += 1;
        self.curve = published(&FRESH);
        self.failing = None;
        // The Rust's own new curve has the same statistics.
        let own = state_of(&Published::default().stats).figures();
        if own != FRESH.figures() {
            self.unlike.push("the Rust's new curve is another".to_string());
        }
        self.put("curve.new", &[], DONE, 0.0, &[], to)
    }

    fn set(&mut self, state: State, to: Ask) -> bool {
        self.others += 1;
        if state.passes() {
            self.curve = published(&state);
            self.failing = None;
        } else {
            self.failing = Some(state);
        }
        self.put("curve.set", &state.figures(), DONE, 0.0, &[], to)
    }

    /// The statistics as the call gives them. The state stays, as the next answer shows.
    fn stats(&mut self, to: Ask) -> bool {
        self.others += 1;
        let (reply, given) = match self.failing {
            Some(_) => (SETTING, FRESH),
            None => (DONE, self.state()),
        };
        self.put("curve.stats", &[], reply, 0.0, &given.figures(), to)
    }

    /// 4 comes before 2, and a refused look-up has gain 0 and counts nothing.
    fn level(&mut self, figure: u32, to: Ask) -> bool {
        let x = f32::from_bits(figure);
        let (reply, gain) = if self.failing.is_some() {
            (SETTING, 0.0)
        } else if !(0.0..=LARGEST).contains(&x) {
            (FIGURE, 0.0)
        } else {
            let (gain, held) = looked(&mut self.curve, x);
            self.held += held as usize;
            (DONE, gain)
        };
        if reply == DONE {
            self.accepted += 1;
        } else {
            self.refused += 1;
        }
        self.put("curve.level", &[figure], reply, gain, &[], to)
    }
}

/// Every place and `reach` floats of it on both sides, upwards and then downwards.
fn near_places(reach: i64) -> Vec<u32> {
    let mut all: Vec<u32> = PLACES.iter().flat_map(|&x| lines::near(x, reach)).collect();
    let back: Vec<u32> = all.iter().rev().copied().collect();
    all.extend(back);
    all
}

/// Random levels: any from 0 to 33554432, most of them between the ends, some of any bits.
fn random_level(source: &mut Random) -> u32 {
    let (first, last) = (PLACES[0].to_bits() - 64, PLACES[32].to_bits() + 64);
    match source.up_to(15) {
        0..=4 => source.up_to(LARGEST.to_bits()),
        5 => source.up_to(u32::MAX),
        6 => EDGES[source.up_to(EDGES.len() as u32 - 1) as usize],
        _ => first + source.up_to(last - first),
    }
}

/// A state that is handed in: counts near the roll-over, a duration at its largest, or one that fails.
pub fn any_state(source: &mut Random) -> State {
    let mut state = State {
        counts: [0; 4],
        available: source.up_to(1) == 1,
        region: source.up_to(3),
        duration: i64::MAX - source.up_to(3) as i64,
    };
    for count in &mut state.counts {
        *count = match source.up_to(2) {
            0 => u64::MAX - source.up_to(3) as u64,
            1 => u32::MAX as u64 - source.up_to(3) as u64,
            _ => source.next(),
        };
    }
    match source.up_to(7) {
        0 => state.region = 4 + source.up_to(u32::MAX - 4),
        1 => state.duration = -1 - source.up_to(3) as i64,
        2 => state.duration = i64::MIN + source.up_to(3) as i64,
        3 => (state.region, state.duration) = (4, -1),
        4 | 5 => state.duration = source.up_to(u32::MAX) as i64,
        _ => (),
    }
    state
}

/// Some look-ups in one region, then in another.
fn repeats(desk: &mut Desk, source: &mut Random, to: Ask) -> bool {
    let level = REGIONS[source.up_to(3) as usize].to_bits();
    (0..=source.up_to(40)).all(|_| desk.level(level, to))
}

fn sequence(desk: &mut Desk, source: &mut Random, calls: usize, to: Ask) -> bool {
    let mut asked = 0;
    let mut going = true;
    while going && asked < calls {
        let mut counted = |question: String, answer: String| {
            asked += 1;
            to(question, answer)
        };
        let to: Ask = &mut counted;
        // A state that fails its test is soon given up.
        if desk.failing.is_some() && source.up_to(3) == 0 {
            going = desk.fresh(to);
            continue;
        }
        going = match source.up_to(255) {
            0 => repeats(desk, source, to),
            1 | 2 => desk.set(any_state(source), to),
            3..=5 => desk.stats(to),
            6 => desk.fresh(to),
            _ => desk.level(random_level(source), to),
        };
    }
    going
}

/// The states at the edges of the test.
pub fn edges() -> Edges {
    let mut all = Edges::of(vec![0, 1, 2, 3, u32::MAX, u32::MAX, 6, 7, 1, 2, 0, 9]);
    all.at("curve region", 9, &[0, 3], &[4, 5, 1 << 31, u32::MAX]);
    for duration in [0, 1, i64::MAX, -1, i64::MIN, -(1 << 32)] {
        let [high, low] = halves(duration as u64);
        all.with("curve duration", duration >= 0, &[(10, high), (11, low)]);
    }
    all
}

fn clauses_of(figures: &[u32]) -> Option<Vec<Clause>> {
    Some(State::read(figures)?.clauses())
}

/// Each state at an edge of the test, or a few of them, with every call.
fn at_edges(desk: &mut Desk, few: bool, to: Ask) -> bool {
    let edges = edges();
    desk.unlike.extend(edges.amiss(&[], &clauses_of));
    edges.some(few).iter().all(|edge| {
        let state = State::read(&edge.figures).unwrap_or(FRESH);
        desk.set(state, to)
            && desk.stats(to)
            && desk.level(REGIONS[2].to_bits(), to)
            && desk.level(0x7fc0_0000, to)
            && desk.stats(to)
    })
}

/// The questions of the fixed list: the edges, every knot with 4 floats on both sides, states at the
/// roll-over, and a sequence.
pub fn list(seed: u64, to: Ask) -> Vec<String> {
    let mut desk = Desk::new();
    desk.fresh(to);
    for level in EDGES {
        desk.level(level, to);
    }
    for level in near_places(4) {
        desk.level(level, to);
    }
    desk.stats(to);
    let full = State {
        counts: [u64::MAX; 4],
        available: true,
        region: 3,
        duration: i64::MAX - 1,
    };
    for region in [3, 3, 3, 2, 1, 0] {
        if region == 3 {
            desk.set(full, to);
        }
        for _ in 0..3 {
            desk.level(REGIONS[region].to_bits(), to);
        }
    }
    for failing in [
        State { region: 4, ..full },
        State { duration: -1, ..full },
        State { duration: i64::MIN, ..full },
    ] {
        desk.set(failing, to);
        desk.stats(to);
        desk.level(0, to);
        desk.level(0x7fc0_0000, to);
    }
    at_edges(&mut desk, true, to);
    desk.fresh(to);
    sequence(&mut desk, &mut Random::new(seed), 300, to);
    desk.unlike
}

/// The edges and all near the places, in a long run every float between the ends, then sequences. A round has
/// the sequences alone.
pub struct Curves {
    seed: u64,
    length: Length,
    desk: Desk,
    near: usize,
    between: usize,
}

impl Curves {
    pub fn new(seed: u64, length: Length) -> Curves {
        Curves {
            seed,
            length,
            desk: Desk::new(),
            near: 0,
            between: 0,
        }
    }
}

impl Part for Curves {
    fn name(&self) -> &'static str {
        "curve"
    }

    fn ask(&mut self, to: Ask) {
        let mut near = EDGES.to_vec();
        near.extend(near_places(4));
        if self.length == Length::Round {
            near.clear();
        } else if !(at_edges(&mut self.desk, false, to) && self.length != Length::States && self.desk.fresh(to)) {
            return;
        }
        for level in near {
            self.near += 1;
            if !self.desk.level(level, to) {
                return;
            }
        }
        if self.length == Length::Long {
            for level in PLACES[0].to_bits() - 64..=PLACES[32].to_bits() + 64 {
                self.between += 1;
                if !self.desk.level(level, to) {
                    return;
                }
            }
        }
        let calls = self.length.of(20_000, 1_000_000, 100_000);
        sequence(&mut self.desk, &mut Random::new(self.seed), calls, to);
    }

    fn again(&mut self, name: &str, figures: &[u32], to: Ask) -> Option<bool> {
        let desk = &mut self.desk;
        Some(match (name, figures) {
            ("curve.new", []) => desk.fresh(to),
            ("curve.set", state) => desk.set(State::read(state)?, to),
            ("curve.level", &[x]) => desk.level(x, to),
            ("curve.stats", []) => desk.stats(to),
            _ => return None,
        })
    }

    fn clauses(&self) -> Vec<&'static str> {
        edges().names(&[], &clauses_of)
    }

    fn kinds(&self) -> Vec<(&'static str, usize)> {
        vec![
            ("edges and near knots", self.near),
            ("every float from the first knot to the end", self.between),
            ("levels accepted in all", self.desk.accepted),
            ("refused", self.desk.refused),
            ("other calls", self.desk.others),
            ("with the duration held", self.desk.held),
        ]
    }

    fn unlike(&self) -> &[String] {
        &self.desk.unlike
    }
}
