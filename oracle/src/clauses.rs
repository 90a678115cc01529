//! Document 01's test of a handed-in state ("A state passes when ..."), clause by clause, and the states at the
//! edge of each clause: just inside and just outside of each end of its range, NaNs, infinities and zeros of both
//! signs.
//!
//! The Rust has no such test. Each part's state says here, from document 01, of each clause whether it holds, and
//! passes where all do. `amiss` looks that no clause is forgotten: for each there is a state that fails in it alone,
//! and one inside its range that passes.

use std::sync::Mutex;

/// A clause's name, and whether it holds.
pub type Clause = (&'static str, bool);

/// The clause that is left out of the test. Wrong answers are made by it, so that tests/rust/detects.sh can look
/// that the comparison tells them.
static LEFT_OUT: Mutex<Option<String>> = Mutex::new(None);

pub fn leave_out(name: &str) {
    if let Ok(mut left) = LEFT_OUT.lock() {
        *left = Some(name.to_string());
    }
}

/// Whether a state passes that has these clauses.
pub fn hold(clauses: &[Clause]) -> bool {
    let left_out = |name: &str| LEFT_OUT.lock().map_or(false, |left| left.as_deref() == Some(name));
    clauses.iter().all(|&(name, holds)| holds || left_out(name))
}

/// A state at the edge of a clause: its figures, and whether they lie inside.
#[derive(Clone)]
pub struct Edge {
    pub clause: &'static str,
    pub figures: Vec<u32>,
    pub inside: bool,
}

/// The states at the edges of a part's clauses, each a good state with some other figures.
pub struct Edges {
    pub good: Vec<u32>,
    pub all: Vec<Edge>,
}

pub const NAN: u32 = 0x7fc0_0000;
pub const MINUS_ZERO: u32 = 0x8000_0000;
const BELOW_ZERO: u32 = 0x8000_0001;
const INFINITE: u32 = 0x7f80_0000;
const MINUS_INFINITE: u32 = 0xff80_0000;

/// What no range of floats has.
pub const NO_NUMBERS: [u32; 5] = [NAN, 0x7f80_0001, 0xffff_ffff, INFINITE, MINUS_INFINITE];

/// What is not above 0.
pub const NOT_ABOVE_ZERO: [u32; 4] = [0, MINUS_ZERO, BELOW_ZERO, 0xbf80_0000];

impl Edges {
    pub fn of(good: Vec<u32>) -> Edges {
        Edges { good, all: Vec::new() }
    }

    /// The good state with other figures at some places.
    pub fn with(&mut self, clause: &'static str, inside: bool, changes: &[(usize, u32)]) {
        let mut figures = self.good.clone();
        for &(at, figure) in changes {
            figures[at] = figure;
        }
        self.all.push(Edge { clause, figures, inside });
    }

    /// The good state with one other figure, for each of some that lie inside and of some that do not.
    pub fn at(&mut self, clause: &'static str, place: usize, inside: &[u32], outside: &[u32]) {
        for (figures, is_inside) in [(inside, true), (outside, false)] {
            for &figure in figures {
                self.with(clause, is_inside, &[(place, figure)]);
            }
        }
    }

    /// The same for a float from one value to another, both inside: beside these, NaNs and infinities.
    pub fn between(&mut self, clause: &'static str, place: usize, low: f32, high: f32) {
        self.at(clause, place, &[low.to_bits(), high.to_bits()], &[below(low), above(high)]);
        self.at(clause, place, &[], &NO_NUMBERS);
    }

    /// The same for a float above 0, up to a value.
    pub fn above_zero(&mut self, clause: &'static str, place: usize, high: f32) {
        self.at(clause, place, &[1, high.to_bits()], &NOT_ABOVE_ZERO);
        self.at(clause, place, &[], &[above(high)]);
        self.at(clause, place, &[], &NO_NUMBERS);
    }

    /// The edges of a part of this one, whose figures stand from a place on.
    pub fn part(&mut self, place: usize, of: &Edges) {
        for edge in &of.all {
            let mut figures = self.good.clone();
            figures[place..place + edge.figures.len()].copy_from_slice(&edge.figures);
            self.all.push(Edge { figures, ..edge.clone() });
        }
    }

    /// All of them; or a few, for the fixed list: of each clause one that lies inside and two that do not.
    pub fn some(&self, few: bool) -> Vec<Edge> {
        let mut all: Vec<Edge> = Vec::new();
        for edge in &self.all {
            let before = all.iter().filter(|other| other.clause == edge.clause && other.inside == edge.inside).count();
            if !few || before <= !edge.inside as usize {
                all.push(edge.clone());
            }
        }
        all
    }

    /// The names of a part's clauses, but for those that others imply.
    pub fn names(&self, implied: &[&str], test: &dyn Fn(&[u32]) -> Option<Vec<Clause>>) -> Vec<&'static str> {
        let all = test(&self.good).unwrap_or_default();
        all.into_iter().map(|(name, _)| name).filter(|name| !implied.contains(name)).collect()
    }

    /// What is amiss with them, by a part's own test: a state that is to lie inside and fails, one that is to fail
    /// in a clause and does not, a clause that no state fails in alone, and one that no state lies inside of. The
    /// clauses that others imply are named.
    pub fn amiss(&self, implied: &[&str], test: &dyn Fn(&[u32]) -> Option<Vec<Clause>>) -> Vec<String> {
        let failing = |figures: &[u32]| -> Option<Vec<&'static str>> {
            Some(test(figures)?.into_iter().filter(|(_, holds)| !holds).map(|(name, _)| name).collect())
        };
        let mut all = Vec::new();
        let (mut alone, mut inside) = (Vec::new(), Vec::new());
        for edge in &self.all {
            match failing(&edge.figures) {
                None => all.push(format!("{}: no state", edge.clause)),
                Some(names) if edge.inside != names.is_empty() || !(edge.inside || names.contains(&edge.clause)) => {
                    all.push(format!("{}: {:08x?} fails in {:?}", edge.clause, edge.figures, names));
                }
                Some(_) if edge.inside => inside.push(edge.clause),
                Some(names) if names.len() == 1 => alone.push(edge.clause),
                Some(_) => {}
            }
        }
        for (name, _) in test(&self.good).unwrap_or_default() {
            if !inside.contains(&name) || !(alone.contains(&name) || implied.contains(&name)) {
                all.push(format!("{}: no state lies just inside, or none fails in it alone", name));
            }
        }
        all
    }
}

/// The float next below a value.
pub fn below(x: f32) -> u32 {
    let bits = x.to_bits();
    match bits {
        0 | MINUS_ZERO => BELOW_ZERO,
        _ if x > 0.0 => bits - 1,
        _ => bits + 1,
    }
}

/// The float next above a value.
pub fn above(x: f32) -> u32 {
    let bits = x.to_bits();
    match bits {
        0 | MINUS_ZERO => 1,
        _ if x > 0.0 => bits + 1,
        _ => bits - 1,
    }
}
