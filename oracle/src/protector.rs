//! The headroom that the recent peaks ask for: whole sequences with the Rust's saturation protector beside
//! one that is written here from documents 01 and 02.
//!
//! The answers come from the one below, and after every call the Rust's must agree with it in its whole
//! state, which the Rust's `Debug` form shows: both rings with their storage as well. Its count is not held
//! at T: the smaller of count and T is compared. A handed-in state is in most cases that of a second
//! protector, which goes on in the Rust too; any other is held to the documents alone, and those frames are
//! counted apart. So is a protector whose rings are not of the Rust's size. The Rust has no gap: it gets a frame that is no
//! speech, with one set of figures or another.
//!
//! The Rust's rings have no slots from the capacity on. These are held to the rule that keeping and throwing away copy the ring
//! whole and that nothing else changes them; in about half of the states that are handed in, any bits stand in them.
//!
//! The largest peak can meet two zeros of unlike sign. Here the first is kept, as the Rust does on x86-64;
//! on Arm the Rust has +0 there, and exactly that is let through.

use crate::chain::{Figures, LOST};
use crate::clauses::{self, Clause, Edges, MINUS_ZERO, NO_NUMBERS};
use crate::drive::{Ask, Length, Part};
use crate::judge::{self, Departure, Judge, Tally, HEADROOM, LARGEST_RING, LEVEL, PROBABILITY};
use crate::lines::{self, bits, DONE, FIGURE, SETTING};
use crate::random::Random;
use crate::ring::{self, Ring};
use sonora_as_is::saturation_protector::SaturationProtector as AsItStands;
use sonora_ruled::saturation_protector::SaturationProtector as Published;

/// common.rs: `MIN_LEVEL_DBFS`.
const LOWEST: f32 = -90.309;

/// "headroom, initial headroom: above 0, to 100".
fn is_headroom(x: f32) -> bool {
    0.0 < x && x <= 100.0
}

/// "peak, speech level: -150 to 50".
fn is_level(x: f32) -> bool {
    -150.0 <= x && x <= 50.0
}

/// The names of the clauses about each of the two states, but for the capacity's.
const PRELIMINARY: [&str; 6] = [
    "protector preliminary headroom",
    "protector preliminary place",
    "protector preliminary size",
    "protector preliminary storage",
    "protector preliminary largest peak",
    "protector preliminary time",
];
const RELIABLE: [&str; 6] = [
    "protector reliable headroom",
    "protector reliable place",
    "protector reliable size",
    "protector reliable storage",
    "protector reliable largest peak",
    "protector reliable time",
];

/// The clause about both capacities. One of them alone is not out of its range where they are alike, so it has no clause of its own.
const CAPACITY: &str = "protector capacity";
const ALIKE: &str = "protector capacities alike";

/// Where the two states stand among the figures of a protector, how many each has, and where its figures stand.
const STATES: [usize; 2] = [4, 4 + PEAKS];
const PEAKS: usize = ELAPSED + 1;
const RING: usize = 1;
const LARGEST: usize = RING + ring::STATE;
const ELAPSED: usize = LARGEST + 1;

#[derive(Clone, Copy, Default)]
struct Peaks {
    headroom: f32,
    ring: Ring,
    largest: f32,
    elapsed: u32,
}

impl Peaks {
    fn new(headroom: f32, capacity: u32) -> Peaks {
        Peaks {
            headroom,
            ring: Ring::new(capacity),
            largest: LOWEST,
            elapsed: 0,
        }
    }

    /// "a protector's largest peak and ring storage -150 to 50; times 0 to 400 in tens"; a "ring place or count" that fits its
    /// size. The first is the capacity's.
    fn clauses(&self, names: [&'static str; 6]) -> [Clause; 7] {
        let [headroom, place, size, storage, largest, time] = names;
        let [capacity, place, size, storage] = self.ring.clauses([CAPACITY, place, size, storage], is_level);
        [
            capacity,
            (headroom, is_headroom(self.headroom)),
            place,
            size,
            storage,
            (largest, is_level(self.largest)),
            (time, self.elapsed <= 400 && self.elapsed % 10 == 0),
        ]
    }

    fn figures(&self) -> Vec<u32> {
        let mut all = vec![bits(self.headroom)];
        all.extend(self.ring.figures());
        all.extend([bits(self.largest), self.elapsed]);
        all
    }

    /// The state with these figures.
    fn read(figures: &[u32]) -> Option<Peaks> {
        if figures.len() != PEAKS {
            return None;
        }
        Some(Peaks {
            headroom: f32::from_bits(figures[0]),
            ring: Ring::read(&figures[RING..LARGEST])?,
            largest: f32::from_bits(figures[LARGEST]),
            elapsed: figures[ELAPSED],
        })
    }

    /// "The largest peak is pushed when elapsed time exceeds 400 ms; with an empty ring it stands for the
    /// oldest." Answers whether the ring was full that it was pushed into; none where it was not pushed.
    fn advance(&mut self, peak: f32, level: f32) -> Option<bool> {
        self.largest = judge::larger(self.largest, peak);
        self.elapsed += 10;
        let pushed = (self.elapsed > 400).then(|| self.ring.is_full());
        if pushed.is_some() {
            self.ring.push(self.largest);
            self.largest = LOWEST;
            self.elapsed = 0;
        }
        let difference = self.ring.oldest().unwrap_or(self.largest) - level;
        let stays: f32 = if difference > self.headroom { 0.9988494 } else { 0.99976975 };
        self.headroom = judge::clamp(self.headroom * stays + difference * (1.0 - stays), 12.0, 25.0);
        pushed
    }

    /// "Reset forgets items, not their storage"; nor the capacity.
    fn restart(&mut self, headroom: f32) {
        let mut ring = self.ring;
        ring.reset();
        *self = Peaks {
            ring,
            ..Peaks::new(headroom, ring.capacity)
        };
    }
}

/// The protector by documents 01 and 02.
#[derive(Clone, Copy, Default)]
pub struct State {
    pub initial: f32,
    pub threshold: u32,
    count: u32,
    pub headroom: f32,
    preliminary: Peaks,
    reliable: Peaks,
}

impl State {
    /// "Both states always have the same size."
    pub fn new(initial: f32, threshold: u32, capacity: u32) -> State {
        State {
            initial,
            threshold,
            count: 0,
            headroom: initial,
            preliminary: Peaks::new(initial, capacity),
            reliable: Peaks::new(initial, capacity),
        }
    }

    /// "its settings and figures lie in their ranges; run counts 0 to T"; 4 for a state "whose two rings differ in size".
    pub fn clauses(&self) -> Vec<Clause> {
        let [one, rest @ ..] = self.preliminary.clauses(PRELIMINARY);
        let [other, others @ ..] = self.reliable.clauses(RELIABLE);
        let mut all = vec![
            ("protector initial headroom", is_headroom(self.initial)),
            ("protector threshold", judge::is_threshold(self.threshold)),
            ("protector count", self.count <= self.threshold),
            ("protector headroom", is_headroom(self.headroom)),
            (CAPACITY, one.1 && other.1),
            (ALIKE, self.preliminary.ring.capacity == self.reliable.ring.capacity),
        ];
        all.extend(rest);
        all.extend(others);
        all
    }

    pub fn passes(&self) -> bool {
        clauses::hold(&self.clauses())
    }

    pub fn figures(&self) -> Vec<u32> {
        let mut all = vec![bits(self.initial), self.threshold, self.count, bits(self.headroom)];
        all.extend(self.preliminary.figures());
        all.extend(self.reliable.figures());
        all
    }

    /// The state, and what each call says that only looks at it: whether it passes, and the headroom.
    pub fn shown(&self) -> Vec<u32> {
        let mut all = self.figures();
        all.extend(if self.passes() { [1, DONE, bits(self.headroom)] } else { [0, SETTING, 0] });
        all
    }

    /// The state with these figures.
    pub fn read(figures: &[u32]) -> Option<State> {
        let [preliminary, reliable] = STATES;
        if figures.len() != reliable + PEAKS {
            return None;
        }
        Some(State {
            initial: f32::from_bits(figures[0]),
            threshold: figures[1],
            count: figures[2],
            headroom: f32::from_bits(figures[3]),
            preliminary: Peaks::read(&figures[preliminary..reliable])?,
            reliable: Peaks::read(&figures[reliable..])?,
        })
    }

    /// Any bits in the slots of both rings from the capacity on.
    pub fn litter(&mut self, source: &mut Random) {
        self.preliminary.ring.litter(source);
        self.reliable.ring.litter(source);
    }

    /// Answers whether the ring was full that a peak was pushed into; none where none was pushed.
    pub fn analyze(&mut self, p: f32, peak: f32, level: f32) -> Option<bool> {
        let t = self.threshold;
        if judge::is_speech(p) {
            let pushed = self.preliminary.advance(peak, level);
            self.count = (self.count + 1).min(t);
            if self.count == t {
                self.headroom = self.preliminary.headroom;
            }
            pushed
        } else {
            if t > 1 && self.count == t {
                self.reliable = self.preliminary;
            } else if t > 1 && self.count > 0 {
                self.preliminary = self.reliable;
            }
            self.count = 0;
            None
        }
    }

    /// A gap "ends the run as a non-speech frame does".
    pub fn gap(&mut self) {
        self.analyze(0.0, 0.0, 0.0);
    }
}

const NAMES: [&str; 20] = [
    "initial_headroom_db",
    "adjacent_speech_frames_threshold",
    "num_adjacent_speech_frames",
    "headroom_db",
    "preliminary_state",
    "headroom_db",
    "peak_delay_buffer",
    "buffer",
    "next",
    "size",
    "max_peaks_dbfs",
    "time_since_push_ms",
    "reliable_state",
    "headroom_db",
    "peak_delay_buffer",
    "buffer",
    "next",
    "size",
    "max_peaks_dbfs",
    "time_since_push_ms",
];

/// Whether a peak is the Rust's: yes, no, or only because it is let through. On Arm the Rust has +0 where two zeros of
/// unlike sign met.
fn let_through(ours: u32, theirs: u32) -> Option<usize> {
    if ours == theirs {
        Some(0)
    } else {
        (cfg!(target_arch = "aarch64") && ours == MINUS_ZERO && theirs == 0).then_some(1)
    }
}

/// Whether the Rust's protector has this state, and then how many zeros of the other sign were let through. A state is here the
/// headroom, the ring's capacity, its place, its size and its slots, the largest and the time; the Rust has no capacity and no slots from
/// there on, and the other slots before place and size.
pub fn is_shown(state: &State, other: &Published) -> Option<usize> {
    let capacity = judge::ring() as usize;
    // What the Rust shows of one of the two states.
    let shown = capacity + 5;
    let theirs = judge::values(&format!("{:?}", other), &NAMES).filter(|all| all.len() == 4 + 2 * shown)?;
    let first = [bits(state.initial), state.threshold, state.count, bits(state.headroom)];
    let count = theirs[2].min(state.threshold);
    let mut same = first == [theirs[0], theirs[1], count, theirs[3]] && other.headroom_db().to_bits() == state.headroom.to_bits();
    let mut zeros = 0;
    for (one, two) in [&state.preliminary, &state.reliable].into_iter().zip(theirs[4..].chunks(shown)) {
        let ring = &one.ring;
        let (slots, rest) = two[1..].split_at(capacity);
        same &= ring.capacity as usize == capacity && bits(one.headroom) == two[0];
        same &= [ring.place, ring.size] == rest[..2] && one.elapsed == rest[3];
        for (&x, &y) in ring.slots().iter().zip(slots) {
            zeros += let_through(bits(x), y)?;
        }
        zeros += let_through(bits(one.largest), rest[2])?;
    }
    same.then_some(zeros)
}

/// A protector by documents 01 and 02, with the Rust's two beside it where they go along.
struct Trio {
    state: State,
    rust: Option<(Published, AsItStands)>,
}

impl Trio {
    /// The Rust goes along where it has such rings.
    fn new(initial: f32, threshold: u32, capacity: u32) -> Trio {
        let t = threshold as i32;
        Trio {
            state: State::new(initial, threshold, capacity),
            rust: (capacity == judge::ring()).then(|| (Published::new(initial, t), AsItStands::new(initial, t))),
        }
    }

    fn alone(state: State) -> Trio {
        Trio { state, rust: None }
    }

    /// Answers what the state does.
    fn analyze(&mut self, p: f32, peak: f32, level: f32) -> Option<bool> {
        if let Some((one, other)) = &mut self.rust {
            one.analyze(p, peak, level);
            other.analyze(p, peak, level);
        }
        self.state.analyze(p, peak, level)
    }

    /// A gap; the Rust gets a frame with these figures.
    fn gap(&mut self, lost: &Figures) {
        self.state.gap();
        if let Some((one, other)) = &mut self.rust {
            let [p, level, peak, ..] = lost.map(f32::from_bits);
            one.analyze(p, peak, level);
            other.analyze(p, peak, level);
        }
    }
}

struct Desk {
    now: Trio,
    aside: Trio,
    unlike: Vec<String>,
    tally: Tally,
    departure: Departure,
    peak: f32,
    level: f32,
    /// Frames that publish, and whose largest peak meets a zero of the other sign.
    cases: [usize; 2],
    /// Frames that push with the Rust beside, and those of them into a full ring; and the same by hand.
    pushes: [usize; 2],
    pushes_by_hand: [usize; 2],
    /// How many zeros of the other sign were let through: one that stays is counted after each call.
    zeros: usize,
}

impl Desk {
    fn new() -> Desk {
        Desk {
            now: Trio::alone(State::default()),
            aside: Trio::new(20.0, 12, judge::ring()),
            unlike: Vec::new(),
            tally: Tally::default(),
            departure: Departure::default(),
            peak: -20.0,
            level: -40.0,
            cases: [0; 2],
            pushes: [0; 2],
            pushes_by_hand: [0; 2],
            zeros: 0,
        }
    }

    /// Asks; the answer is the reply, the state, whether it passes, and the headroom.
    fn put(&mut self, name: &str, figures: &[u32], reply: u32, to: Ask) -> bool {
        let state = &self.now.state;
        let mut all = vec![reply];
        all.extend(state.shown());
        if let Some((other, _)) = &self.now.rust {
            if let Some(zeros) = is_shown(state, other) {
                self.zeros += zeros;
            } else {
                judge::object(&mut self.unlike, format!("after {} {:08x?}: {:08x?}, and {:?}", name, figures, all, other));
            }
        }
        to(lines::question(name, figures), lines::answer(&all))
    }

    fn call(&mut self, name: &str, figures: &[u32], reply: u32, to: Ask) -> bool {
        self.tally.call(reply);
        self.put(name, figures, reply, to)
    }

    /// "initial headroom is a figure", so 2, and the threshold and the ring's size are settings, so 4, which comes first.
    fn fresh(&mut self, initial: u32, threshold: u32, capacity: u32, to: Ask) -> bool {
        let x = f32::from_bits(initial);
        let reply = if !(judge::is_threshold(threshold) && judge::is_capacity(capacity)) {
            SETTING
        } else if !is_headroom(x) {
            FIGURE
        } else {
            DONE
        };
        self.now = if reply == DONE { Trio::new(x, threshold, capacity) } else { Trio::alone(State::default()) };
        self.call("protector.new", &[initial, threshold, capacity], reply, to)
    }

    /// Hands any state in.
    fn set(&mut self, state: State, to: Ask) -> bool {
        self.now = Trio::alone(state);
        self.call("protector.set", &state.figures(), DONE, to)
    }

    fn analyze(&mut self, probability: u32, peak: u32, level: u32, to: Ask) -> bool {
        let [p, x, y] = [probability, peak, level].map(f32::from_bits);
        let reply = if !self.now.state.passes() {
            SETTING
        } else if !(0.0 <= p && p <= 1.0 && is_level(x) && is_level(y)) {
            FIGURE
        } else {
            let speech = judge::is_speech(p);
            let before = self.now.state.preliminary.largest;
            self.cases[1] += (speech && before == 0.0 && x == 0.0 && before.to_bits() != x.to_bits()) as usize;
            if let Some(full) = self.now.analyze(p, x, y) {
                let counts = if self.now.rust.is_some() { &mut self.pushes } else { &mut self.pushes_by_hand };
                counts[0] += 1;
                counts[1] += full as usize;
            }
            let state = &self.now.state;
            self.cases[0] += (speech && state.count == state.threshold) as usize;
            if let Some((_, other)) = &self.now.rust {
                let frame = self.tally.frames();
                self.departure.note(state.headroom, other.headroom_db(), || format!("frame {}", frame));
            }
            DONE
        };
        self.tally.frame(judge::is_speech(p), reply, self.now.rust.is_some());
        self.put("protector.analyze", &[probability, peak, level], reply, to)
    }
}

impl Judge for Desk {
    fn tally(&mut self) -> &mut Tally {
        &mut self.tally
    }

    fn object(&mut self, why: Vec<String>) {
        self.unlike.extend(why);
    }

    fn has_the_rust(&self) -> bool {
        self.now.rust.is_some()
    }

    fn threshold(&self) -> u32 {
        self.now.state.threshold
    }

    fn renew(&mut self, threshold: u32, source: &mut Random, to: Ask) -> bool {
        let initial = match source.up_to(3) {
            0 => 20.0_f32.to_bits(),
            1 => judge::one_of(HEADROOM.ends, source),
            _ => (10.0 + 17.0 * judge::fraction(source)).to_bits(),
        };
        self.fresh(initial, threshold, judge::ring(), to)
    }

    /// Every second time with any bits in the slots from the capacity on, which the Rust does not have.
    fn swap(&mut self, to: Ask) -> bool {
        if self.now.rust.is_none() {
            self.now = Trio::new(20.0, 3, judge::ring());
        }
        std::mem::swap(&mut self.now, &mut self.aside);
        if self.tally.others % 2 == 0 {
            self.now.state.litter(&mut Random::new(self.tally.others as u64));
        }
        let figures = self.now.state.figures();
        self.call("protector.set", &figures, DONE, to)
    }

    fn after_speech(&mut self, threshold: u32, frames: u32, source: &mut Random, to: Ask) -> bool {
        self.now = Trio::new(20.0, threshold, judge::ring());
        for _ in 0..frames {
            let p = judge::probability(true, source);
            let [p, peak, level] = [p, LEVEL.any(self.peak, source), LEVEL.any(self.level, source)].map(f32::from_bits);
            self.now.analyze(p, peak, level);
        }
        let figures = self.now.state.figures();
        self.call("protector.set", &figures, DONE, to)
    }

    fn reset(&mut self, to: Ask) -> bool {
        let reply = if self.now.state.passes() {
            let state = &mut self.now.state;
            state.count = 0;
            state.headroom = state.initial;
            state.preliminary.restart(state.initial);
            state.reliable.restart(state.initial);
            if let Some((one, other)) = &mut self.now.rust {
                one.reset();
                other.reset();
            }
            DONE
        } else {
            SETTING
        };
        self.call("protector.reset", &[], reply, to)
    }

    /// "Refuses only with 4, for a state that fails its test." It publishes no other headroom.
    fn gap(&mut self, to: Ask) -> bool {
        let before = self.now.state;
        let reply = if before.passes() {
            self.tally.gap(before.threshold, before.count);
            self.now.gap(&LOST[self.tally.gaps() % LOST.len()]);
            DONE
        } else {
            SETTING
        };
        if self.now.state.headroom.to_bits() != before.headroom.to_bits() {
            judge::object(&mut self.unlike, format!("a gap published: {:08x?}", before.figures()));
        }
        self.call("protector.gap", &[], reply, to)
    }

    /// One of any capacity. In some cases one that fails comes before it: the same with two capacities that differ; or the same with
    /// another capacity, which what the rings have then fits or does not.
    fn hand_in(&mut self, source: &mut Random, to: Ask) -> bool {
        let threshold = judge::any_threshold(source);
        let capacity = if source.up_to(1) == 0 { judge::ring() } else { 1 + source.up_to(LARGEST_RING - 1) };
        let mut state = State::new(f32::from_bits(judge::one_of(HEADROOM.ends, source)), threshold, capacity);
        state.headroom = f32::from_bits(judge::one_of(HEADROOM.ends, source));
        state.count = judge::one_of(&[0, 1, threshold - 1, threshold], source);
        for one in [&mut state.preliminary, &mut state.reliable] {
            one.headroom = f32::from_bits(HEADROOM.any(18.0, source));
            one.ring.place = source.up_to(capacity - 1);
            one.ring.size = if source.up_to(1) == 0 { capacity } else { source.up_to(capacity) };
            for x in one.ring.stored.iter_mut() {
                *x = f32::from_bits(LEVEL.any(-20.0, source));
            }
            one.largest = f32::from_bits(LEVEL.any(-20.0, source));
            one.elapsed = 10 * judge::one_of(&[0, 1, 38, 39, 40], source);
        }
        if source.up_to(3) > 0 {
            state.litter(source);
        }
        let other = 1 + source.up_to(LARGEST_RING - 1);
        let mut wrong = state;
        wrong.reliable.ring.capacity = other;
        if source.up_to(1) == 0 {
            wrong.preliminary.ring.capacity = other;
        }
        (source.up_to(2) > 0 || (self.set(wrong, to) && self.refuse(source, to))) && self.set(state, to)
    }

    fn turn(&mut self, source: &mut Random) {
        self.peak = LEVEL.middle(source);
        // In most runs a headroom between its ends is asked for.
        self.level = match source.up_to(3) {
            0 => LEVEL.middle(source),
            _ => judge::clamp(self.peak - 10.0 - 17.0 * judge::fraction(source), -150.0, 50.0),
        };
    }

    fn frame(&mut self, probability: u32, source: &mut Random, to: Ask) -> bool {
        let peak = match source.up_to(31) {
            0 => judge::one_of(&[0, 0x8000_0000], source),
            1 => LOWEST.to_bits(),
            _ => LEVEL.any(self.peak, source),
        };
        let level = LEVEL.any(self.level, source);
        self.analyze(probability, peak, level, to)
    }

    fn wrong(&mut self, source: &mut Random, to: Ask) -> bool {
        let speech = source.up_to(1) == 1;
        let mut all = [
            judge::probability(speech, source),
            LEVEL.any(self.peak, source),
            LEVEL.any(self.level, source),
        ];
        let which = source.up_to(2) as usize;
        all[which] = judge::one_of([&PROBABILITY, &LEVEL, &LEVEL][which].wrong, source);
        self.analyze(all[0], all[1], all[2], to)
    }

    fn each_figure(&mut self, _: &mut Random, to: Ask) -> bool {
        let [speech, peak, level] = [1.0_f32, -20.0, -40.0].map(f32::to_bits);
        PROBABILITY.ends.iter().chain(PROBABILITY.wrong).all(|&p| self.analyze(p, peak, level, to))
            && LEVEL.ends.iter().chain(LEVEL.wrong).all(|&x| {
                self.analyze(speech, x, level, to) && self.analyze(speech, peak, x, to) && self.analyze(0, x, x, to)
            })
    }

    fn each_setting(&mut self, source: &mut Random, to: Ask) -> bool {
        let (twenty, none, ring) = (20.0_f32.to_bits(), 0x7fc0_0000, judge::ring());
        judge::WRONG_THRESHOLDS.iter().all(|&t| self.fresh(twenty, t, ring, to) && self.fresh(none, t, ring, to))
            && judge::WRONG_CAPACITIES.iter().all(|&n| {
                self.fresh(twenty, 2, n, to) && self.fresh(none, 2, n, to) && self.fresh(twenty, 0, n, to) && self.refuse(source, to)
            })
            && HEADROOM.wrong.iter().all(|&x| self.fresh(x, 2, ring, to))
            && judge::GOOD_THRESHOLDS.iter().all(|&t| self.fresh(twenty, t, ring, to))
            && (1..=LARGEST_RING).all(|n| self.fresh(twenty, 2, n, to) && judge::run(self, 2, 1, source, to))
            && HEADROOM.ends.iter().all(|&x| {
                self.fresh(x, 2, ring, to) && judge::run(self, 1, 1, source, to) && judge::run(self, 3, 1, source, to)
            })
    }

    fn edges(&self) -> Edges {
        edges()
    }

    fn amiss(&self) -> Vec<String> {
        edges().amiss(&[], &clauses_of)
    }

    fn at_edge(&mut self, figures: &[u32], to: Ask) -> Option<bool> {
        let state = State::read(figures)?;
        Some(self.set(state, to))
    }

    fn refuse(&mut self, _: &mut Random, to: Ask) -> bool {
        let [speech, peak, level] = [1.0_f32, -20.0, -40.0].map(f32::to_bits);
        self.analyze(speech, peak, level, to)
            && self.analyze(0x7fc0_0000, peak, level, to)
            && self.reset(to)
            && self.gap(to)
    }
}

/// The states at the edges of the test.
pub fn edges() -> Edges {
    let mut all = Edges::of(State::new(20.0, 3, judge::ring()).figures());
    all.above_zero("protector initial headroom", 0, 100.0);
    all.at("protector threshold", 1, &judge::GOOD_THRESHOLDS, &judge::WRONG_THRESHOLDS);
    for (threshold, count) in judge::COUNTS {
        all.with("protector count", count <= threshold, &[(1, threshold), (2, count)]);
    }
    all.above_zero("protector headroom", 3, 100.0);
    let low_and_high = [-150.0_f32, 50.0].map(f32::to_bits);
    let good = [&low_and_high[..], &[MINUS_ZERO]].concat();
    let wrong = [&NO_NUMBERS[..1], &[clauses::below(-150.0), clauses::above(50.0)], &NO_NUMBERS[1..]].concat();
    let rings = STATES.map(|from| from + RING);
    for (from, [headroom, place, size, storage, largest, time]) in STATES.into_iter().zip([PRELIMINARY, RELIABLE]) {
        all.above_zero(headroom, from, 100.0);
        ring::add_edges(&mut all, [CAPACITY, place, size, storage], from + RING, &rings, &good, &wrong);
        all.between(largest, from + LARGEST, -150.0, 50.0);
        all.at(largest, from + LARGEST, &[MINUS_ZERO], &[]);
        all.at(time, from + ELAPSED, &[0, 10, 390, 400], &[5, 395, 399, 401, 405, 410, u32::MAX]);
    }
    // Two capacities that are each in range, by one apart and far; and one that is not, in either.
    let [one, other] = rings.map(|at| at + ring::CAPACITY);
    for n in 1..=LARGEST_RING {
        all.with(ALIKE, true, &[(one, n), (other, n)]);
        for more in [n + 1, LARGEST_RING].into_iter().filter(|&m| n < m && m <= LARGEST_RING) {
            all.with(ALIKE, false, &[(one, n), (other, more)]);
            all.with(ALIKE, false, &[(one, more), (other, n)]);
        }
    }
    for n in judge::WRONG_CAPACITIES {
        all.at(CAPACITY, one, &[], &[n]);
        all.at(CAPACITY, other, &[], &[n]);
    }
    all
}

fn clauses_of(figures: &[u32]) -> Option<Vec<Clause>> {
    Some(State::read(figures)?.clauses())
}

/// Two zeros of unlike sign, in both orders, and each pushed.
fn zeros(desk: &mut Desk, to: Ask) -> bool {
    let [speech, level] = [1.0_f32, -20.0].map(f32::to_bits);
    [[0, 0x8000_0000], [0x8000_0000, 0]].iter().all(|pair| {
        desk.fresh(20.0_f32.to_bits(), 1, judge::ring(), to) && (0..42).all(|i| desk.analyze(speech, pair[i % 2], level, to))
    })
}

/// From a new state: readings, with a cough between each two, until the ring is full and has gone round several times. With a
/// threshold above 41 a cough pushes a peak too, which is thrown away.
fn rounds(desk: &mut Desk, threshold: u32, source: &mut Random, to: Ask) -> bool {
    let wanted = desk.pushes[1] + judge::rounds() as usize;
    let mut going = desk.renew(threshold, source, to);
    while going && desk.pushes[1] < wanted {
        let reading = threshold + source.up_to(120);
        going = judge::run(desk, reading, 1, source, to) && judge::run(desk, threshold - 1, 1, source, to);
    }
    going
}

/// A protector of a capacity, whose time is handed in at 400 ms before each frame of speech, so that each pushes, twice round the
/// ring; with a frame that is none behind some, which keeps two peaks or throws one away. In the midst of it any bits come to stand
/// in the slots from the capacity on.
fn pushed_through(desk: &mut Desk, capacity: u32, source: &mut Random, to: Ask) -> bool {
    desk.turn(source);
    desk.fresh(20.0_f32.to_bits(), 2, capacity, to)
        && (0..2 * capacity + 2).all(|i| {
            let mut state = desk.now.state;
            state.preliminary.elapsed = 400;
            if i == capacity {
                state.litter(source);
            }
            desk.set(state, to)
                && desk.frame(judge::probability(true, source), source, to)
                && (source.up_to(2) > 0 || desk.frame(judge::probability(false, source), source, to))
        })
}

/// The questions of the fixed list. "40 speech frames push nothing, the 41st pushes" is among them.
pub fn list(seed: u64, to: Ask) -> Vec<String> {
    let mut desk = Desk::new();
    judge::list(&mut desk, seed, &[1, 2, 12], to);
    zeros(&mut desk, to);
    let [speech, peak, level] = [1.0_f32, -5.0, -30.0].map(f32::to_bits);
    desk.fresh(20.0_f32.to_bits(), 1, judge::ring(), to);
    for i in 0..42 {
        desk.analyze(speech, peak, level, to);
        if desk.now.state.preliminary.ring.size != (i >= 40) as u32 {
            judge::object(&mut desk.unlike, format!("a push after {} speech frames", i + 1));
        }
    }
    judge::list_gaps(&mut desk, seed, to);
    for capacity in [1, judge::DEFAULT_RING, LARGEST_RING] {
        pushed_through(&mut desk, capacity, &mut Random::new(seed), to);
    }
    desk.unlike
}

pub struct Protectors {
    seed: u64,
    length: Length,
    desk: Desk,
}

impl Protectors {
    pub fn new(seed: u64, length: Length) -> Protectors {
        Protectors {
            seed,
            length,
            desk: Desk::new(),
        }
    }
}

impl Part for Protectors {
    fn name(&self) -> &'static str {
        "protector"
    }

    fn ask(&mut self, to: Ask) {
        let frames = self.length.frames(60_000, 1_000_000, 200_000);
        let (desk, source) = (&mut self.desk, &mut Random::new(self.seed));
        let _ = (matches!(self.length, Length::Round | Length::States)
            || (zeros(desk, to)
                && (1..=LARGEST_RING).all(|n| pushed_through(desk, n, source, to))
                && [1, 2, 12, 42].iter().all(|&t| rounds(desk, t, source, to))))
            && judge::play(desk, self.seed, self.length, frames, to);
    }

    fn again(&mut self, name: &str, figures: &[u32], to: Ask) -> Option<bool> {
        let desk = &mut self.desk;
        Some(match (name, figures) {
            ("protector.new", &[initial, threshold, capacity]) => desk.fresh(initial, threshold, capacity, to),
            ("protector.set", state) => desk.set(State::read(state)?, to),
            ("protector.analyze", &[p, peak, level]) => desk.analyze(p, peak, level, to),
            ("protector.reset", []) => desk.reset(to),
            ("protector.gap", []) => desk.gap(to),
            _ => return None,
        })
    }

    fn clauses(&self) -> Vec<&'static str> {
        edges().names(&[], &clauses_of)
    }

    fn kinds(&self) -> Vec<(&'static str, usize)> {
        let mut all = self.desk.tally.kinds();
        all.extend([
            ("pushes with the Rust beside", self.desk.pushes[0]),
            ("of them into a full ring", self.desk.pushes[1]),
            ("pushes by the paper alone", self.desk.pushes_by_hand[0]),
            ("of them into a full ring", self.desk.pushes_by_hand[1]),
        ]);
        all
    }

    fn unlike(&self) -> &[String] {
        &self.desk.unlike
    }

    fn notes(&self) -> Vec<String> {
        let [published, zeros] = self.desk.cases;
        vec![
            self.desk.tally.note(),
            format!("of the frames {} publish, and in {} two zeros of unlike sign meet", published, zeros),
            format!("zeros of unlike sign that the Rust has otherwise, and that were let through: {}", self.desk.zeros),
            self.desk.departure.line("the headroom in dB"),
        ]
    }
}
