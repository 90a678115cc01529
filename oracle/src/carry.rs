//! A strip carried to the other version: a converter that is written from the text of document 02 and shares nothing with the
//! Rattle crates. It leaves the bytes of the records where they are, and puts another head before them.

use crate::strip::{self, Entry, CUT, LARGEST_IN_VERSION_1, VERSION, VERSIONS};

/// "9, cannot be said in version 1".
pub const UNSAID: u32 = 9;

/// Up to version 2, or back to version 1.
#[derive(Clone, Copy, PartialEq)]
pub enum Way {
    Up,
    Back,
}

impl Way {
    pub const BOTH: [Way; 2] = [Way::Up, Way::Back];

    pub fn word(self) -> &'static str {
        match self {
            Way::Up => "up",
            Way::Back => "back",
        }
    }
}

/// The bytes of the carried strip; or the record that is refused, 0 for the head, and the reply's number.
pub type Carried = Result<Vec<u8>, (usize, u32)>;

/// "Refusals: 7 also for a strip that is not of the version the tool starts from; 9, cannot be said in version 1, after the
/// strip's own refusals". "Back is possible exactly when T is at most 200 and there is no gap."
pub fn carry(way: Way, strip: &[u8]) -> Carried {
    let from = &VERSIONS[way as usize];
    if strip.len() < 3 {
        return Err((0, CUT));
    }
    if strip[2] != from.number {
        return Err((0, VERSION));
    }
    let input = &mut &strip[..];
    let head = strip::head(input).expect("bytes can be read").map_err(|reply| (0, reply))?;
    let mut first_gap = None;
    for number in 1.. {
        match strip::record(from, input).expect("bytes can be read").map_err(|reply| (number, reply))? {
            Entry::End => break,
            Entry::Gap => first_gap = first_gap.or(Some(number)),
            Entry::Frame(_) => {}
        }
    }
    match (way, first_gap) {
        (Way::Up, _) => Ok([&[0, 25, 2, 0, strip[3]], &strip[4..]].concat()),
        (Way::Back, _) if head.threshold > LARGEST_IN_VERSION_1 => Err((0, UNSAID)),
        (Way::Back, Some(number)) => Err((number, UNSAID)),
        (Way::Back, None) => Ok([&[0, 24, 1, strip[4]], &strip[5..]].concat()),
    }
}

/// What stands on standard error: how many bytes there are, or the refusal.
pub fn told(carried: &Carried) -> String {
    match carried {
        Ok(bytes) => format!("{} bytes\n", bytes.len()),
        Err((number, reply)) => format!("{} R {}\n", number, reply),
    }
}
