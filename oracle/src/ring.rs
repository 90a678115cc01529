//! The ring of recent peaks: whole sequences of calls, with the Rust's ring beside a ring that is
//! written here from documents 01 and 02.
//!
//! The Rust refuses nothing, its storage is private, and its rings are all of one size. So the answers come from the ring
//! below, and after every call on a ring of the Rust's size the Rust's must agree with it: in its front, its size, its equality
//! with the ring that was put aside, and in its whole storage, which the Rust's `Debug` form shows. It has no slots from the
//! capacity on: those are held to the rule that no call reads or changes them. A ring of another capacity, and a handed-in ring
//! that the Rust cannot be brought to by its own calls, is held to the documents alone; those are counted apart.

use crate::clauses::{self, Clause, Edges, MINUS_ZERO, NAN, NO_NUMBERS};
use crate::drive::{Ask, Length, Part};
use crate::judge::{self, LARGEST_RING};
use crate::lines::{self, bits, DONE, FIGURE, SETTING};
use crate::random::Random;
use sonora_ruled::saturation_protector_buffer::SaturationProtectorBuffer as Published;

/// The slots of every ring.
pub const SLOTS: usize = LARGEST_RING as usize;

/// How many figures the state of a ring has: the capacity, the place, the size, and what is stored. Where these stand.
pub const STATE: usize = STORED + SLOTS;
pub const CAPACITY: usize = 0;
pub const PLACE: usize = 1;
pub const SIZE: usize = 2;
pub const STORED: usize = 3;

/// The ring by documents 01 and 02. All 0 is what stands before a question and what a refused new one leaves: it fails.
#[derive(Clone, Copy, Debug, Default)]
pub struct Ring {
    pub capacity: u32,
    pub place: u32,
    pub size: u32,
    pub stored: [f32; SLOTS],
}

/// What the Rust's `Debug` form shows of a ring: its name and its fields' are the Rust's.
mod by_the_paper {
    #[derive(Debug)]
    #[allow(dead_code)]
    pub struct SaturationProtectorBuffer<'a> {
        pub buffer: &'a [f32],
        pub next: u32,
        pub size: u32,
    }
}

impl Ring {
    pub fn new(capacity: u32) -> Ring {
        Ring {
            capacity,
            ..Ring::default()
        }
    }

    /// The slots below the capacity.
    pub fn slots(&self) -> &[f32] {
        &self.stored[..self.capacity.min(LARGEST_RING) as usize]
    }

    /// "4 for a size outside 1 to 16, and for a state whose ring place or count doesn't fit its size": clauses of these
    /// names about the capacity, the place, the size and the storage. No push makes a slot from the capacity on an item, so what is
    /// stored there does not matter.
    pub fn clauses(&self, names: [&'static str; 4], storable: impl Fn(f32) -> bool) -> [Clause; 4] {
        let [capacity, place, size, storage] = names;
        [
            (capacity, judge::is_capacity(self.capacity)),
            (place, self.place < self.capacity),
            (size, self.size <= self.capacity),
            (storage, self.slots().iter().all(|&x| storable(x))),
        ]
    }

    fn passes(&self) -> bool {
        clauses::hold(&self.clauses(NAMES, f32::is_finite))
    }

    pub fn is_full(&self) -> bool {
        self.size == self.capacity
    }

    pub fn push(&mut self, x: f32) {
        self.stored[self.place as usize] = x;
        self.place = (self.place + 1) % self.capacity;
        self.size = (self.size + 1).min(self.capacity);
    }

    /// "Reset forgets items, not their storage."
    pub fn reset(&mut self) {
        self.place = 0;
        self.size = 0;
    }

    /// Where the oldest item stands.
    fn first(&self) -> u32 {
        if self.is_full() {
            self.place
        } else {
            0
        }
    }

    pub fn oldest(&self) -> Option<f32> {
        (self.size > 0).then(|| self.stored[self.first() as usize])
    }

    /// The items, oldest first.
    fn items(&self) -> Vec<f32> {
        (0..self.size).map(|i| self.stored[((self.first() + i) % self.capacity) as usize]).collect()
    }

    /// The ring with these figures.
    pub fn read(figures: &[u32]) -> Option<Ring> {
        let mut ring = Ring::default();
        match figures {
            [capacity, place, size, stored @ ..] if stored.len() == SLOTS => {
                (ring.capacity, ring.place, ring.size) = (*capacity, *place, *size);
                ring.stored.iter_mut().zip(stored).for_each(|(slot, &x)| *slot = f32::from_bits(x));
                Some(ring)
            }
            _ => None,
        }
    }

    pub fn figures(&self) -> Vec<u32> {
        let mut all = vec![self.capacity, self.place, self.size];
        all.extend(self.stored.map(bits));
        all
    }

    /// Whatever bits in the slots from the capacity on.
    pub fn litter(&mut self, source: &mut Random) {
        let from = self.slots().len();
        for slot in &mut self.stored[from..] {
            *slot = f32::from_bits(junk(source));
        }
    }

    /// Whether the Rust can be brought to this ring by its own calls.
    fn is_reached(&self) -> bool {
        self.passes() && self.capacity == judge::ring() && (self.is_full() || self.place == self.size)
    }
}

const NAMES: [&str; 4] = ["ring capacity", "ring place", "ring size", "ring storage"];

/// The Rust's ring with this storage, place and size, by its own calls.
fn published(ring: &Ring) -> Option<Published> {
    if !ring.is_reached() {
        return None;
    }
    let mut made = Published::default();
    for &x in ring.slots() {
        made.push_back(x);
    }
    if !ring.is_full() {
        made.reset();
    }
    for &x in &ring.stored[..ring.place as usize] {
        made.push_back(x);
    }
    Some(made)
}

/// A run of calls: both rings, and those that were put aside.
#[derive(Default)]
struct Desk {
    ring: Ring,
    aside: Ring,
    published: Option<Published>,
    published_aside: Option<Published>,
    unlike: Vec<String>,
    with_the_rust: usize,
    by_hand: usize,
    refused: usize,
    /// Accepted pushes with the Rust's ring beside, and those of them into a full ring; and the same by hand.
    pushes: [usize; 2],
    pushes_by_hand: [usize; 2],
    /// Equalities of two rings of unlike capacity, and how many of them are equal.
    unlike_capacity: [usize; 2],
}

impl Desk {
    /// Asks; the answer is the reply, the whole ring as it is then, and what each call says that only
    /// looks at it.
    fn put(&mut self, name: &str, figures: &[u32], reply: u32, to: Ask) -> bool {
        let question = lines::question(name, figures);
        self.hold(&question);
        if reply != DONE {
            self.refused += 1;
        }
        let mut all = vec![reply];
        all.extend(self.ring.figures());
        all.extend([self.ring.passes() as u32, judge::DEFAULT_RING]);
        all.extend(self.told(self.ring.capacity));
        all.extend(self.front());
        all.extend(self.told(self.ring.size));
        all.extend(self.equals());
        to(question, lines::answer(&all))
    }

    /// Holds this ring to the Rust's.
    fn hold(&mut self, question: &str) {
        let other = match &self.published {
            Some(other) => other,
            None => {
                self.by_hand += 1;
                return;
            }
        };
        self.with_the_rust += 1;
        let shown = by_the_paper::SaturationProtectorBuffer {
            buffer: self.ring.slots(),
            next: self.ring.place,
            size: self.ring.size,
        };
        if format!("{:?}", shown) != format!("{:?}", other)
            || self.ring.oldest().map(f32::to_bits) != other.front().map(f32::to_bits)
            || self.ring.size as usize != other.size()
            || self.ring.capacity as usize != other.capacity()
        {
            judge::object(&mut self.unlike, format!("after {}: {:?} and the Rust's {:?}", question, self.ring, other));
        }
    }

    /// "4 for a size outside 1 to 16": then the ring is all 0.
    fn fresh(&mut self, capacity: u32, to: Ask) -> bool {
        let good = judge::is_capacity(capacity);
        self.ring = if good { Ring::new(capacity) } else { Ring::default() };
        self.published = published(&self.ring);
        self.put("ring.new", &[capacity], if good { DONE } else { SETTING }, to)
    }

    /// The ring with these figures; none where there is no such ring.
    fn hand_in(&mut self, figures: &[u32], to: Ask) -> Option<bool> {
        self.ring = Ring::read(figures)?;
        self.published = published(&self.ring);
        Some(self.put("ring.set", figures, DONE, to))
    }

    fn set(&mut self, capacity: u32, place: u32, size: u32, stored: [u32; SLOTS], to: Ask) -> bool {
        let mut figures = vec![capacity, place, size];
        figures.extend(stored);
        self.hand_in(&figures, to).unwrap_or(true)
    }

    /// "A pushed peak is any finite number"; 4 comes before 2.
    fn push(&mut self, figure: u32, to: Ask) -> bool {
        let x = f32::from_bits(figure);
        let reply = if !self.ring.passes() {
            SETTING
        } else if !x.is_finite() {
            FIGURE
        } else {
            let counts = if self.published.is_some() { &mut self.pushes } else { &mut self.pushes_by_hand };
            counts[0] += 1;
            counts[1] += self.ring.is_full() as usize;
            self.ring.push(x);
            if let Some(other) = &mut self.published {
                other.push_back(x);
            }
            DONE
        };
        self.put("ring.push", &[figure], reply, to)
    }

    fn reset(&mut self, to: Ask) -> bool {
        let reply = if self.ring.passes() {
            self.ring.reset();
            if let Some(other) = &mut self.published {
                other.reset();
            } else {
                // From here on the Rust can be brought to it, where it is of the Rust's size.
                self.published = published(&self.ring);
            }
            DONE
        } else {
            SETTING
        };
        self.put("ring.reset", &[], reply, to)
    }

    /// What a call says that tells a number of the ring: 4 and 0 where the ring fails.
    fn told(&self, number: u32) -> [u32; 2] {
        if self.ring.passes() {
            [DONE, number]
        } else {
            [SETTING, 0]
        }
    }

    fn front(&self) -> [u32; 3] {
        if !self.ring.passes() {
            return [SETTING, 0, 0];
        }
        match self.ring.oldest() {
            Some(x) => [DONE, 1, bits(x)],
            None => [DONE, 0, 0],
        }
    }

    fn keep(&mut self, to: Ask) -> bool {
        self.aside = self.ring;
        self.published_aside = self.published.clone();
        self.put("ring.keep", &[], DONE, to)
    }

    /// "Equality is of the items, oldest first", also where the capacities are not the same.
    fn equals(&mut self) -> [u32; 2] {
        if !(self.ring.passes() && self.aside.passes()) {
            return [SETTING, 0];
        }
        let equal = self.ring.items() == self.aside.items();
        if self.ring.capacity != self.aside.capacity {
            self.unlike_capacity[0] += 1;
            self.unlike_capacity[1] += equal as usize;
        }
        if let (Some(one), Some(other)) = (&self.published, &self.published_aside) {
            if (one == other) != equal || (other == one) != equal {
                judge::object(&mut self.unlike, format!("{:?} and {:?}: equal is {} by the paper alone", one, other, equal));
            }
        }
        [DONE, equal as u32]
    }
}

/// Peaks that come again and again, so that equal items are met: finite ones first.
const POOL: [u32; 16] = [
    0x0000_0000, // 0
    0x8000_0000, // -0
    0x3f80_0000, // 1
    0xbf80_0000, // -1
    0xc2b4_9e35, // -90.309
    0xc170_0000, // -15
    0x0000_0001, // the smallest above 0
    0x8000_0001, // the largest below 0
    0x007f_ffff, // the largest below the normal ones
    0x7f7f_ffff, // the largest
    0xff7f_ffff, // the lowest
    0x7f80_0000, // infinity, and from here on nothing is finite
    0xff80_0000,
    0x7fc0_0000,
    0x7f80_0001,
    0xffff_ffff,
];
const FINITE: u32 = 11;

fn pooled(source: &mut Random) -> u32 {
    POOL[source.up_to(FINITE - 1) as usize]
}

/// What is not finite.
fn no_number(source: &mut Random) -> u32 {
    judge::one_of(&POOL[FINITE as usize..], source)
}

/// Whatever may lie in a slot from the capacity on.
fn junk(source: &mut Random) -> u32 {
    match source.up_to(3) {
        0 => source.up_to(u32::MAX),
        1 => judge::one_of(&POOL, source),
        _ => no_number(source),
    }
}

/// A figure: mostly one of the pool, at times any bits.
fn any(source: &mut Random) -> u32 {
    match source.up_to(7) {
        0 => source.up_to(u32::MAX),
        1 => judge::one_of(&POOL, source),
        _ => pooled(source),
    }
}

/// A ring that is handed in: one that the Rust can be brought to, one that it cannot, or one that
/// fails its test in its capacity, its place, its size or its storage. In most of them there is no number in
/// the slots from the capacity on.
fn handed_in(desk: &mut Desk, source: &mut Random, to: Ask) -> bool {
    let mut capacity = judge::any_capacity(source);
    let mut stored = [0; SLOTS];
    let littered = source.up_to(3) > 0;
    for (i, slot) in stored.iter_mut().enumerate() {
        *slot = if littered && i >= capacity as usize { junk(source) } else { pooled(source) };
    }
    let (mut place, mut size) = (source.up_to(capacity - 1), source.up_to(capacity));
    match source.up_to(15) {
        0 => place = capacity + source.up_to(2),
        1 => size = capacity + 1 + source.up_to(2),
        2 => stored[source.up_to(capacity - 1) as usize] = no_number(source),
        3 => (place, size) = (source.up_to(u32::MAX), source.up_to(u32::MAX)),
        // Smaller or larger: the place, the size and what is stored then fit, or do not.
        4 | 5 => capacity = 1 + source.up_to(LARGEST_RING - 1),
        6 => capacity = judge::wrong_capacity(source),
        7..=10 if size < capacity => place = size,
        11..=13 => size = capacity,
        _ => (),
    }
    desk.set(capacity, place, size, stored, to)
}

/// One random call. A ring that fails its test, or that only the paper has, is soon given up.
fn call(desk: &mut Desk, source: &mut Random, to: Ask) -> bool {
    let odds = if desk.ring.passes() { 31 } else { 3 };
    if desk.published.is_none() && source.up_to(odds) == 0 {
        return desk.fresh(judge::ring(), to);
    }
    match source.up_to(63) {
        0..=51 => desk.push(any(source), to),
        52..=54 => desk.reset(to),
        55..=59 => desk.keep(to),
        60 => {
            let capacity = judge::any_capacity(source);
            desk.fresh(capacity, to)
        }
        61 if source.up_to(1) == 0 => desk.fresh(judge::wrong_capacity(source), to),
        _ => handed_in(desk, source, to),
    }
}

/// Two rings with the same items at other places, in some cases of unlike capacity: each is filled after another number of
/// pushes. At times one item differs, or is the other zero.
fn rotated(desk: &mut Desk, source: &mut Random, to: Ask) -> bool {
    let first = judge::any_capacity(source);
    let capacities = [first, if source.up_to(2) == 0 { 1 + source.up_to(LARGEST_RING - 1) } else { first }];
    let most = capacities[0].min(capacities[1]);
    let size = if source.up_to(1) == 0 { most } else { source.up_to(most) };
    let items: Vec<u32> = (0..size).map(|_| pooled(source)).collect();
    let altered = source.up_to(2 * most) as usize;
    let mut going = true;
    for (second, capacity) in capacities.into_iter().enumerate() {
        going = going && desk.fresh(capacity, to);
        // Fewer items than fill a ring start at place 0, after a reset.
        for _ in 0..source.up_to(2 * capacity) {
            let x = pooled(source);
            going = going && desk.push(x, to);
        }
        if size < capacity {
            going = going && desk.reset(to);
        }
        for (i, &item) in items.iter().enumerate() {
            let x = if second == 1 && i == altered { item ^ 0x8000_0000 } else { item };
            going = going && desk.push(x, to);
        }
        if second == 0 {
            going = going && desk.keep(to);
        }
    }
    going
}

/// Pushed through, three times round the Rust's ring: each item comes to the front, in order.
fn through(desk: &mut Desk, source: &mut Random, to: Ask) -> bool {
    (0..3 * judge::ring()).all(|_| {
        let x = pooled(source);
        desk.push(x, to)
    })
}

/// Random calls, until there are so many more pushes with the Rust's ring beside.
fn sequence(desk: &mut Desk, source: &mut Random, pushes: usize, to: Ask) -> bool {
    let wanted = desk.pushes[0] + pushes;
    let mut going = true;
    while going && desk.pushes[0] < wanted {
        going = match source.up_to(63) {
            0 | 1 => rotated(desk, source, to),
            2 | 3 => through(desk, source, to),
            _ => call(desk, source, to),
        };
    }
    going
}

/// The edges of the clauses about a ring whose figures stand from a place on, in a state whose rings stand at some places and have
/// one capacity; with figures that may be stored and figures that may not. The clauses have these names.
pub fn add_edges(all: &mut Edges, names: [&'static str; 4], from: usize, rings: &[usize], good: &[u32], wrong: &[u32]) {
    let [capacity, place, size, storage] = names;
    let first = [LARGEST_RING, judge::DEFAULT_RING, 1];
    let sizes: Vec<u32> = first.into_iter().chain((2..LARGEST_RING).filter(|n| !first.contains(n))).collect();
    // Empty rings of a capacity, with other figures in the one that is meant.
    let mut with = |clause, inside, n: u32, changes: &[(usize, u32)]| {
        let mut some: Vec<(usize, u32)> = rings.iter().flat_map(|at| [(at + CAPACITY, n), (at + PLACE, 0), (at + SIZE, 0)]).collect();
        some.extend(changes.iter().map(|&(at, figure)| (from + at, figure)));
        all.with(clause, inside, &some);
    };
    for &n in &sizes {
        with(capacity, true, n, &[(PLACE, n - 1), (SIZE, n)]);
        with(place, true, n, &[(PLACE, n - 1)]);
        with(place, false, n, &[(PLACE, n)]);
        with(size, true, n, &[(SIZE, n)]);
        with(size, false, n, &[(SIZE, n + 1)]);
    }
    for n in judge::WRONG_CAPACITIES {
        with(capacity, false, n, &[]);
    }
    with(capacity, false, LARGEST_RING + 1, &[(PLACE, LARGEST_RING), (SIZE, LARGEST_RING + 1)]);
    // What fits the slots and not the capacity, and what fits neither.
    with(place, false, judge::DEFAULT_RING, &[(PLACE, LARGEST_RING - 1)]);
    with(size, false, judge::DEFAULT_RING, &[(SIZE, LARGEST_RING)]);
    for n in [judge::DEFAULT_RING, judge::ring()] {
        for far in [LARGEST_RING + 2, 1 << 31, u32::MAX] {
            with(place, false, n, &[(PLACE, far)]);
            with(size, false, n, &[(SIZE, far)]);
        }
    }
    // What may not be stored stands in every slot from the capacity on, and then in the last slot below it.
    for &n in &sizes {
        let capacity = n as usize;
        let littered: Vec<(usize, u32)> = (capacity..SLOTS).map(|i| (STORED + i, wrong[i % wrong.len()])).collect();
        let last = |figure| vec![(STORED + capacity - 1, figure)];
        with(storage, true, n, &[littered.clone(), vec![(PLACE, n - 1), (SIZE, n)]].concat());
        with(storage, false, n, &[littered, last(NAN)].concat());
        with(storage, false, n, &last(wrong[capacity % wrong.len()]));
    }
    for slot in 0..SLOTS {
        for &figure in good {
            with(storage, true, LARGEST_RING, &[(STORED + slot, figure)]);
        }
        for (i, &figure) in wrong.iter().enumerate() {
            // All of them in the first slot and in the last, and some in each other.
            if slot % (SLOTS - 1) == 0 || i % 4 == slot % 4 {
                with(storage, false, LARGEST_RING, &[(STORED + slot, figure)]);
            }
        }
    }
}

/// The rings at the edges of the test.
fn edges() -> Edges {
    let mut good = Ring::new(judge::ring());
    (0..good.capacity + good.capacity / 2).for_each(|i| good.push(1.0 - 2.0 * i as f32));
    let mut all = Edges::of(good.figures());
    add_edges(&mut all, NAMES, 0, &[0], &[0x7f7f_ffff, 0xff7f_ffff, MINUS_ZERO], &NO_NUMBERS);
    all
}

fn clauses_of(figures: &[u32]) -> Option<Vec<Clause>> {
    Some(Ring::read(figures)?.clauses(NAMES, f32::is_finite).to_vec())
}

/// Each ring at an edge of the test, or a few of them, with every call.
fn at_edges(desk: &mut Desk, few: bool, to: Ask) -> bool {
    let edges = edges();
    desk.unlike.extend(edges.amiss(&[], &clauses_of));
    edges.some(few).iter().all(|edge| {
        desk.hand_in(&edge.figures, to).unwrap_or(true)
            && desk.push(0x3f80_0000, to)
            && desk.push(0x7fc0_0000, to)
            && desk.reset(to)
    })
}

/// A ring of a capacity, through which 1, 2, 3 and so on are pushed, twice round: the oldest is the one that it must be after each
/// push. Then the same ring with junk in the slots from the capacity on, which stays: it equals the one without.
fn round(desk: &mut Desk, capacity: u32, source: &mut Random, to: Ask) -> bool {
    let pushed = desk.fresh(capacity, to)
        && (1..=2 * capacity + 1).all(|i| {
            let going = desk.push((i as f32).to_bits(), to);
            if desk.ring.oldest() != Some((i + 1).saturating_sub(capacity).max(1) as f32) {
                judge::object(&mut desk.unlike, format!("after {} pushes into a ring of {}: {:?}", i, capacity, desk.ring));
            }
            going
        });
    let mut figures = desk.ring.figures();
    figures.iter_mut().skip(STORED + capacity as usize).for_each(|slot| *slot = junk(source));
    pushed
        && desk.keep(to)
        && desk.hand_in(&figures, to).unwrap_or(true)
        && desk.push(0, to)
        && desk.reset(to)
        && desk.push(NAN, to)
        && desk.push(MINUS_ZERO, to)
}

/// New rings of capacities that are refused, each with the calls that then refuse.
fn refused(desk: &mut Desk, to: Ask) -> bool {
    judge::WRONG_CAPACITIES
        .iter()
        .all(|&n| desk.fresh(n, to) && desk.push(0x3f80_0000, to) && desk.push(NAN, to) && desk.reset(to))
}

/// The questions of the fixed list: document 01's examples, rings of the least, the default and the largest capacity, rings at the
/// edges of the test, and a sequence.
pub fn list(seed: u64, to: Ask) -> Vec<String> {
    let source = &mut Random::new(seed);
    let mut desk = Desk::default();
    // Before all questions there is no ring that passes.
    desk.push(0, to);
    desk.keep(to);
    desk.fresh(judge::DEFAULT_RING, to);
    for x in 1..=5 {
        desk.push((x as f32).to_bits(), to);
    }
    // A NaN in a slot that holds no item now, which one push would make an item; and in one that no push makes an item.
    for slot in [1, 4] {
        let mut stored = [0; SLOTS];
        stored[slot] = NAN;
        desk.set(judge::DEFAULT_RING, 2, 1, stored, to);
        desk.push(0, to);
    }
    refused(&mut desk, to);
    for capacity in [1, judge::DEFAULT_RING, LARGEST_RING] {
        round(&mut desk, capacity, source, to);
    }
    at_edges(&mut desk, true, to);
    sequence(&mut desk, source, 400, to);
    desk.unlike
}

/// Whole sequences of calls.
pub struct Rings {
    seed: u64,
    length: Length,
    desk: Desk,
}

impl Rings {
    pub fn new(seed: u64, length: Length) -> Rings {
        Rings {
            seed,
            length,
            desk: Desk::default(),
        }
    }
}

impl Part for Rings {
    fn name(&self) -> &'static str {
        "ring"
    }

    fn ask(&mut self, to: Ask) {
        let source = &mut Random::new(self.seed);
        let desk = &mut self.desk;
        let pushes = self.length.of(14_000, 1_000_000, 70_000);
        let _ = (self.length == Length::Round || at_edges(desk, false, to))
            && self.length != Length::States
            && (self.length == Length::Round || refused(desk, to))
            && (self.length == Length::Round || (1..=LARGEST_RING).all(|n| round(desk, n, source, to)))
            && sequence(desk, source, pushes, to);
    }

    fn clauses(&self) -> Vec<&'static str> {
        edges().names(&[], &clauses_of)
    }

    fn again(&mut self, name: &str, figures: &[u32], to: Ask) -> Option<bool> {
        let desk = &mut self.desk;
        Some(match (name, figures) {
            ("ring.new", &[capacity]) => desk.fresh(capacity, to),
            ("ring.set", state) => desk.hand_in(state, to)?,
            ("ring.push", &[x]) => desk.push(x, to),
            ("ring.reset", []) => desk.reset(to),
            ("ring.keep", []) => desk.keep(to),
            _ => return None,
        })
    }

    fn kinds(&self) -> Vec<(&'static str, usize)> {
        let desk = &self.desk;
        vec![
            ("calls with the Rust's ring beside", desk.with_the_rust),
            ("on rings that only the paper has", desk.by_hand),
            ("of all these refused", desk.refused),
            ("accepted pushes with the Rust's ring beside", desk.pushes[0]),
            ("of them into a full ring", desk.pushes[1]),
            ("accepted pushes into rings that only the paper has", desk.pushes_by_hand[0]),
            ("of them into a full ring", desk.pushes_by_hand[1]),
            ("times two rings of unlike capacity", desk.unlike_capacity[0]),
            ("of them equal", desk.unlike_capacity[1]),
        ]
    }

    fn unlike(&self) -> &[String] {
        &self.desk.unlike
    }
}
