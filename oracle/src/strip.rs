//! The strip, in both of its versions: a reader that is written from the text of documents 01 and 02 and shares nothing
//! with the Rattle crates, and the lines that the program `strip` must print for what it reads, from the ruled Rust's chain over
//! silent frames of one channel. A gap is for the Rust's level and headroom a frame that is no speech; what it is for the
//! controller is document 02's rule.
//!
//! It goes through a strip of any length with the memory of one record.

use crate::chain::{self, ruled, Figures, LOST};
use crate::judge::{self, Settings};
use crate::lines::{DONE, FIGURE, SETTING, SHAPE};
use crate::sound;
use std::io::{self, Read, Write};

/// Document 01's numbers of a strip's own refusals.
pub const CUT: u32 = 5;
pub const LENGTH: u32 = 6;
pub const VERSION: u32 = 7;

/// The bytes of a record, with the two of its length.
pub const RECORD: usize = 22;

/// The largest threshold that a strip of version 1 can say: "Version 1 strips are still read, with T to 200 as before".
pub const LARGEST_IN_VERSION_1: u32 = 200;

/// A version of the strip: its number, the length that stands in its head, the largest threshold, and whether a record may
/// be a gap.
pub struct Version {
    pub number: u8,
    pub length: u32,
    pub largest: u32,
    pub gaps: bool,
}

/// "Version 2 of the strip has head length 25 and T in two bytes". "In a version 2 strip a record of length 0 is a gap".
pub const VERSIONS: [Version; 2] = [
    Version {
        number: 1,
        length: 24,
        largest: LARGEST_IN_VERSION_1,
        gaps: false,
    },
    Version {
        number: 2,
        length: 25,
        largest: judge::LARGEST_THRESHOLD,
        gaps: true,
    },
];

impl Version {
    /// The bytes of a head, with the two of its length.
    pub fn head(&self) -> usize {
        self.length as usize + 2
    }
}

/// What a head says.
pub struct Head {
    pub version: &'static Version,
    pub threshold: u32,
    pub samples: u32,
    pub settings: Settings,
}

/// A reading, or the number of the refusal.
type Reply<T> = Result<T, u32>;

/// As many bytes as asked, and fewer only where the strip ends.
fn take(input: &mut dyn Read, n: usize) -> io::Result<Vec<u8>> {
    let mut bytes = Vec::with_capacity(n);
    input.take(n as u64).read_to_end(&mut bytes)?;
    Ok(bytes)
}

/// "Big-endian; floats as their bits": five figures, from a place on.
fn five(bytes: &[u8], from: usize) -> Figures {
    let mut all = [0; 5];
    for (i, figure) in all.iter_mut().enumerate() {
        for &byte in &bytes[from + 4 * i..from + 4 * i + 4] {
            *figure = *figure << 8 | byte as u32;
        }
    }
    all
}

fn two(bytes: &[u8], from: usize) -> u32 {
    (bytes[from] as u32) << 8 | bytes[from + 1] as u32
}

/// "fewer than 3 bytes 5; version 7; head length 6; cut 5; then 1, 4", where "7 now means neither 1 nor 2; head length is
/// judged after the version, 24 or 25".
pub fn head(input: &mut dyn Read) -> io::Result<Reply<Head>> {
    let mut bytes = take(input, 3)?;
    if bytes.len() < 3 {
        return Ok(Err(CUT));
    }
    let version = match VERSIONS.iter().find(|version| version.number == bytes[2]) {
        Some(version) => version,
        None => return Ok(Err(VERSION)),
    };
    if two(&bytes, 0) != version.length {
        return Ok(Err(LENGTH));
    }
    bytes.extend(take(input, version.head() - 3)?);
    if bytes.len() < version.head() {
        return Ok(Err(CUT));
    }
    // T has one byte in version 1 and two in version 2; the rest is the same.
    let (threshold, rest) = match version.number {
        1 => (bytes[3] as u32, 4),
        _ => (two(&bytes, 3), 5),
    };
    let head = Head {
        version,
        threshold,
        samples: two(&bytes, rest),
        settings: Settings(five(&bytes, rest + 2)),
    };
    Ok(if !sound::is_samples(head.samples) {
        Err(SHAPE)
    } else if !(head.settings.accepted() && (1..=version.largest).contains(&threshold)) {
        Err(SETTING)
    } else {
        Ok(head)
    })
}

/// What stands at a place of a strip.
pub enum Entry {
    End,
    Gap,
    Frame(Figures),
}

/// "no byte, end; one byte 5; length 6; cut 5; then 2". "Length 0 is no longer 6 in version 2; it still is in version 1."
pub fn record(version: &Version, input: &mut dyn Read) -> io::Result<Reply<Entry>> {
    let mut bytes = take(input, 2)?;
    if bytes.is_empty() {
        return Ok(Ok(Entry::End));
    }
    if bytes.len() < 2 {
        return Ok(Err(CUT));
    }
    if version.gaps && two(&bytes, 0) == 0 {
        return Ok(Ok(Entry::Gap));
    }
    if two(&bytes, 0) != 20 {
        return Ok(Err(LENGTH));
    }
    bytes.extend(take(input, RECORD - 2)?);
    if bytes.len() < RECORD {
        return Ok(Err(CUT));
    }
    let figures = five(&bytes, 2);
    Ok(if chain::accepted(&figures) { Ok(Entry::Frame(figures)) } else { Err(FIGURE) })
}

/// "hundredths of the exact value, cut toward zero", "zero never signed". The value is a whole number
/// times a power of two, and what is left of it after a shift is cut.
pub fn hundredths(bits: u32) -> i128 {
    let (exponent, fraction) = (bits >> 23 & 0xff, bits & 0x007f_ffff);
    let (whole, power) = match exponent {
        0 => (fraction, -149),
        _ => (fraction | 0x0080_0000, exponent as i32 - 150),
    };
    let hundred = 100 * whole as i128;
    let size = match power {
        0..=60 => hundred << power,
        -126..=-1 => hundred >> -power,
        -149..=-127 => 0,
        _ => panic!("{:08x} is no figure that is printed", bits),
    };
    if bits >> 31 == 1 {
        -size
    } else {
        size
    }
}

/// What a strip came to.
#[derive(Default)]
pub struct Seen {
    pub lines: usize,
    /// Lines of the kinds N, W, P and G.
    pub kinds: [usize; 4],
    /// Gaps behind so many frames of speech in a row: T - 1, T and T + 1; and gaps behind a gap, and before all frames.
    pub gaps: [usize; 5],
    /// The record that is refused, or 0 for the head, and the reply's number.
    pub refused: Option<(usize, u32)>,
    /// The version and the threshold of a head that is not refused.
    pub head: Option<(u8, u32)>,
}

/// The kind of a gap's line.
pub const GAP: usize = 3;

/// What stands before a record: how many frames of speech in a row, whether a gap, and whether any frame.
#[derive(Default)]
struct Before {
    speech: u32,
    gap: bool,
    frames: bool,
}

impl Before {
    fn frame(&mut self, speech: bool) {
        let speech = if speech { self.speech + 1 } else { 0 };
        *self = Before {
            speech,
            gap: false,
            frames: true,
        };
    }

    fn gap(&mut self, threshold: u32, gaps: &mut [usize; 5]) {
        let after = |n: u32| self.speech > 0 && self.speech == n;
        let all = [after(threshold - 1), after(threshold), after(threshold + 1), self.gap, !self.frames];
        for (count, one) in gaps.iter_mut().zip(all) {
            *count += one as usize;
        }
        self.speech = 0;
        self.gap = true;
    }
}

/// Reads a strip, and writes what the program must print for it.
pub fn print(input: &mut dyn Read, output: &mut dyn Write) -> io::Result<Seen> {
    let mut seen = Seen::default();
    let mut number = 0;
    let reply = match head(input)? {
        Err(reply) => reply,
        Ok(head) => {
            let mut chain = ruled::Chain::new(&head.settings, head.threshold, head.samples);
            seen.head = Some((head.version.number, head.threshold));
            let mut run: u32 = 0;
            let mut before = Before::default();
            loop {
                number += 1;
                let kind = match record(head.version, input)? {
                    Ok(Entry::End) => break DONE,
                    Err(reply) => break reply,
                    Ok(Entry::Gap) => {
                        chain.gap(&LOST[number % LOST.len()]);
                        run = 0;
                        before.gap(head.threshold, &mut seen.gaps);
                        GAP
                    }
                    Ok(Entry::Frame(figures)) => {
                        chain.step(&figures, &mut [vec![0.0; head.samples as usize]]);
                        let speech = judge::is_speech(f32::from_bits(figures[0]));
                        run = if speech { (run + 1).min(head.threshold) } else { 0 };
                        before.frame(speech);
                        speech as usize + (run == head.threshold) as usize
                    }
                };
                let [level, headroom, confident, gain] =
                    chain.published().unwrap_or_else(|| panic!("the Rust's controller shows no gain"));
                writeln!(
                    output,
                    "{} {} {} {} {} {}",
                    number,
                    ["N", "W", "P", "G"][kind],
                    hundredths(level),
                    hundredths(headroom),
                    hundredths(gain),
                    confident
                )?;
                seen.lines += 1;
                seen.kinds[kind] += 1;
            }
        }
    };
    if reply != DONE {
        writeln!(output, "{} R {}", number, reply)?;
        seen.lines += 1;
        seen.refused = Some((number, reply));
    }
    output.flush()?;
    Ok(seen)
}
