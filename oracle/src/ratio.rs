//! Decibels to a ratio: the questions `ratio X`, and what the two builds of the Rust answer.

use crate::drive::{Ask, Length, Part};
use crate::lines::{self, DONE, FIGURE};
use crate::random::Random;
use sonora_as_is::common::db_to_ratio as as_it_stands;
use sonora_ruled::common::db_to_ratio as ruled;
use sonora_ruled::rules::LARGEST_GAIN;

/// Figures whose answer is easily got wrong.
const EDGES: [u32; 26] = [
    0x0000_0000, // 0
    0x8000_0000, // -0
    0x0000_0001, // the smallest above 0
    0x8000_0001, // the largest below 0
    0x007f_ffff, // the largest below the normal ones
    0x0080_0000, // the smallest normal one
    0x3d7f_ffff, // just below 1/16
    0x3f7f_ffff, // just below 1
    0x41a0_0000, // 20
    0x4220_0000, // 40
    0x424b_ffff, // just below 51
    0x424c_0000, // 51
    0x424c_0001, // just above 51
    0xbf80_0000, // -1
    0xc24c_0000, // -51
    0x7f7f_ffff, // the largest
    0xff7f_ffff, // the lowest
    0x7f80_0000, // infinity
    0xff80_0000, // minus infinity
    0x7f80_0001, // NaNs, from here on
    0x7fc0_0000,
    0x7fff_ffff,
    0xff80_0001,
    0xffc0_0000,
    0xffff_ffff,
    0x4300_0000, // 128
];

pub fn question(bits: u32) -> String {
    lines::question("ratio", &[bits])
}

/// Whether document 01 accepts the figure: 0 to 51, a negative zero included.
fn is_accepted(x: f32) -> bool {
    (0.0..=LARGEST_GAIN).contains(&x)
}

/// What is due: the ruled build's bits with 0, or a refusal by 2.
pub fn answer(bits: u32) -> String {
    let x = f32::from_bits(bits);
    if is_accepted(x) {
        lines::answer(&[DONE, ruled(x).to_bits()])
    } else {
        lines::answer(&[FIGURE, 0])
    }
}

/// The f32 within `reach` floats of each table boundary, every j/16 from 0 to 51, on both sides.
fn near_boundaries(reach: i64) -> Vec<u32> {
    (0..=16 * 51).flat_map(|j| lines::near(j as f32 / 16.0, reach)).collect()
}

/// The questions of the fixed list.
pub fn list(seed: u64, to: Ask) {
    let mut all = EDGES.to_vec();
    all.extend(near_boundaries(0));
    for n in 1..=51u32 {
        let whole = (n as f32).to_bits();
        all.extend([whole - 1, whole + 1]);
    }
    let mut source = Random::new(seed);
    for _ in 0..200 {
        all.push(source.up_to(LARGEST_GAIN.to_bits()));
    }
    for _ in 0..50 {
        all.push(source.up_to(u32::MAX));
    }
    for bits in all {
        to(question(bits), answer(bits));
    }
}

/// By how much the rule differs from the build as it stands, over the accepted questions.
#[derive(Default)]
struct Departure {
    accepted: usize,
    equal: usize,
    worst: [(f64, f32); 3],
}

impl Departure {
    fn note(&mut self, x: f32) {
        if !is_accepted(x) {
            return;
        }
        let (r, s) = (ruled(x), as_it_stands(x));
        self.accepted += 1;
        if r.to_bits() == s.to_bits() {
            self.equal += 1;
        }
        let apart = (r as f64 - s as f64).abs();
        let places = (r.to_bits() as i64 - s.to_bits() as i64).abs() as f64;
        for (held, found) in self.worst.iter_mut().zip([apart, apart / s as f64, places]) {
            if found > held.0 {
                *held = (found, x);
            }
        }
    }
}

/// Every multiple of 2^-fine from 0 to 51, all within 8 floats of each boundary, and random ones:
/// uniform over the bit patterns from 0 to 51, and over all bit patterns. A round has the random ones alone.
pub struct Ratios {
    seed: u64,
    fine: Option<u32>,
    random: usize,
    anywhere: usize,
    asked: [usize; 4],
    departure: Departure,
}

impl Ratios {
    pub fn new(seed: u64, length: Length) -> Ratios {
        let (fine, random, anywhere) =
            length.of((Some(6), 20_000, 5_000), (Some(12), 1_000_000, 200_000), (None, 100_000, 20_000));
        Ratios {
            seed,
            fine,
            random,
            anywhere,
            asked: [0; 4],
            departure: Departure::default(),
        }
    }

    /// Asks one question of a kind; false where no more are wanted.
    fn put(&mut self, kind: usize, bits: u32, to: Ask) -> bool {
        self.asked[kind] += 1;
        self.departure.note(f32::from_bits(bits));
        to(question(bits), answer(bits))
    }
}

impl Part for Ratios {
    fn name(&self) -> &'static str {
        "ratio"
    }

    fn ask(&mut self, to: Ask) {
        let mut source = Random::new(self.seed);
        if let Some(fine) = self.fine {
            let going = (0..=51u32 << fine).all(|i| self.put(0, (i as f32 / (1u32 << fine) as f32).to_bits(), to))
                && near_boundaries(8).into_iter().all(|bits| self.put(1, bits, to));
            if !going {
                return;
            }
        }
        let _ = (0..self.random).all(|_| self.put(2, source.up_to(LARGEST_GAIN.to_bits()), to))
            && (0..self.anywhere).all(|_| self.put(3, source.up_to(u32::MAX), to));
    }

    fn again(&mut self, name: &str, figures: &[u32], to: Ask) -> Option<bool> {
        match (name, figures) {
            ("ratio", &[x]) => Some(to(question(x), answer(x))),
            _ => None,
        }
    }

    fn kinds(&self) -> Vec<(&'static str, usize)> {
        let names = ["multiples", "near boundaries", "random from 0 to 51", "random bit patterns"];
        names.into_iter().zip(self.asked).collect()
    }

    fn unlike(&self) -> &[String] {
        &[]
    }

    fn notes(&self) -> Vec<String> {
        let found = &self.departure;
        let mut all = vec![format!(
            "against the Rust as it stands: {} accepted figures, {} with the same bits; largest differences:",
            found.accepted, found.equal
        )];
        let names = [("absolute", ""), ("relative", ""), ("in the last place", " units")];
        for ((what, unit), held) in names.into_iter().zip(found.worst) {
            all.push(format!(
                "  {} {:.6e}{} at {:?} dB ({:08x})",
                what,
                held.0,
                unit,
                held.1,
                held.1.to_bits()
            ));
        }
        all
    }
}
