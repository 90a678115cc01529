//! Answers questions that are given, line by line, as the program `replay` must: each from the state that
//! those before it left. A part answers here by the same calls that it asks with. A state that is handed in is
//! the oracle's own, written from document 01; the Rust goes along with it where it can be brought to it.

use crate::drive::{Length, Part};
use crate::lines;
use std::io::{self, BufRead, Write};

/// The answer to whatever is no question.
const NO_QUESTION: &str = "?";

/// Every part, each with its state.
pub struct Desk(Vec<Box<dyn Part>>);

impl Desk {
    /// As the program starts.
    pub fn new() -> Desk {
        Desk(crate::parts(0, Length::Round))
    }

    /// The answer that is due to a line.
    pub fn answer(&mut self, line: &str) -> String {
        let mut answer = NO_QUESTION.to_string();
        if let Some((name, figures)) = lines::read(line) {
            let of = name.split('.').next();
            if let Some(part) = self.0.iter_mut().find(|part| Some(part.name()) == of) {
                part.again(name, &figures, &mut |_, due| {
                    answer = due;
                    true
                });
            }
        }
        answer
    }

    /// Where the Rust and what the oracle has by hand do not agree.
    pub fn unlike(&self) -> Vec<&String> {
        self.0.iter().flat_map(|part| part.unlike()).collect()
    }
}

/// Answers every line. What stands behind the last line feed is cut, and is no question.
pub fn replay(input: &mut dyn BufRead, output: &mut dyn Write) -> io::Result<Vec<String>> {
    let mut desk = Desk::new();
    let mut line = Vec::new();
    while input.read_until(b'\n', &mut line)? > 0 {
        let answer = match line.split_last() {
            Some((b'\n', whole)) => std::str::from_utf8(whole).map_or(NO_QUESTION.to_string(), |text| desk.answer(text)),
            _ => NO_QUESTION.to_string(),
        };
        writeln!(output, "{}", answer)?;
        line.clear();
    }
    output.flush()?;
    Ok(desk.unlike().into_iter().cloned().collect())
}
