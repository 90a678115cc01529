//! Runs a command, gives it questions on its standard input from a thread, and compares each line that
//! it writes with the answer that is due. Neither is held in memory: the command takes
//! questions no faster than its answers are read.

use std::io::{BufRead, BufReader, BufWriter, Write};
use std::process::{Command, Stdio};
use std::sync::mpsc;

/// A question and the answer that is due, each a line without its line feed.
pub type Pair = (String, String);

/// Takes a question with its answer; false where no more are wanted.
pub type Ask<'a> = &'a mut dyn FnMut(String, String) -> bool;

/// How much a run asks.
#[derive(Clone, Copy, PartialEq)]
pub enum Length {
    /// Fixed questions, and a few random ones: enough for a test of the comparison itself.
    Brief,
    /// Fixed questions, and some random ones.
    Short,
    /// All fixed questions, and many random ones.
    Long,
    /// Random questions alone: a round of scale.rs.
    Round,
    /// The states at the edges of the test of a handed-in state alone.
    States,
}

impl Length {
    /// What goes with it.
    pub fn of<T>(self, short: T, long: T, round: T) -> T {
        match self {
            Length::Brief | Length::Short | Length::States => short,
            Length::Long => long,
            Length::Round => round,
        }
    }

    /// The same for a number of random frames.
    pub fn frames(self, short: usize, long: usize, round: usize) -> usize {
        self.of(short, long, round) / if self == Length::Brief { 10 } else { 1 }
    }
}

/// One part of document 01: its questions in order, with the answers that are due.
pub trait Part: Send {
    fn name(&self) -> &'static str;
    /// Asks all of a run's questions.
    fn ask(&mut self, to: Ask);
    /// Asks one question that is given, from the state that those before it left: what `ask` answers.
    /// None where the part has no such question.
    fn again(&mut self, name: &str, figures: &[u32], to: Ask) -> Option<bool>;
    /// The clauses of the test of its state, each of which the comparison must look at.
    fn clauses(&self) -> Vec<&'static str> {
        Vec::new()
    }
    /// How many questions of each kind were asked.
    fn kinds(&self) -> Vec<(&'static str, usize)>;
    /// Where the Rust itself and what the oracle has by hand from document 01 do not agree.
    fn unlike(&self) -> &[String];
    /// What else there is to say of the run.
    fn notes(&self) -> Vec<String> {
        Vec::new()
    }
}

/// How many differences are printed.
const SHOWN: usize = 5;

/// What a comparison found.
#[derive(Default)]
pub struct Found {
    pub compared: usize,
    pub wrong: usize,
}

/// Writes the questions until the command takes no more; answers whether it took all of them.
fn pose(ask: impl FnOnce(Ask), input: impl Write, due: mpsc::Sender<Pair>) -> bool {
    let mut input = BufWriter::with_capacity(1 << 16, input);
    let mut taken = true;
    ask(&mut |question, answer| {
        taken = writeln!(input, "{}", question).is_ok() && due.send((question, answer)).is_ok();
        taken
    });
    taken && input.flush().is_ok()
}

/// Asks the command, and shows each question with the answer that is due and the one that came, which is
/// `nothing` where none did, until no more is wanted. Answers what else is wrong, where it was not stopped:
/// answers too many, questions that were not taken, and a command that fails.
pub fn run(
    command: &[String],
    ask: impl FnOnce(Ask) + Send,
    see: &mut dyn FnMut(&str, &str, &str) -> bool,
) -> Result<Vec<String>, String> {
    let mut child = Command::new(&command[0])
        .args(&command[1..])
        .stdin(Stdio::piped())
        .stdout(Stdio::piped())
        .spawn()
        .map_err(|e| format!("cannot run {}: {}", command[0], e))?;
    let input = child.stdin.take().ok_or("no standard input")?;
    let output = child.stdout.take().ok_or("no standard output")?;
    let mut wrong = Vec::new();
    let mut going = true;
    let (sender, due) = mpsc::channel::<Pair>();
    std::thread::scope(|scope| {
        let posing = scope.spawn(move || pose(ask, input, sender));
        let mut lines = BufReader::with_capacity(1 << 16, output).lines();
        for (question, answer) in due {
            let got = match lines.next() {
                Some(Ok(line)) => line,
                _ => "nothing".to_string(),
            };
            going = see(&question, &answer, &got);
            if !going {
                break;
            }
        }
        // What is left is read also where the run was stopped, so that the command comes to its end.
        if let Some(line) = lines.next() {
            wrong.push(format!("{} answers too many, the first of them {}", 1 + lines.count(), line.unwrap_or_default()));
        }
        if !matches!(posing.join(), Ok(true)) {
            wrong.push("the command did not take all questions".to_string());
        }
    });
    let ended = child.wait().map_err(|e| e.to_string())?;
    if !ended.success() {
        wrong.push(format!("the command ended with {}", ended));
    }
    if !going {
        wrong.clear();
    }
    Ok(wrong)
}

/// Asks every question of a part, or those up to the first answer that differs. A missing answer differs, and so does one
/// too many, a command that does not take all questions, and one that fails.
pub fn differences(command: &[String], part: &mut dyn Part, first: bool) -> Result<Found, String> {
    let mut found = Found::default();
    let others = run(command, |to| part.ask(to), &mut |question, due, got| {
        found.compared += 1;
        if got != due {
            if found.wrong < SHOWN {
                println!("  differs: {} -> {}, and {} is due", question, got, due);
            }
            found.wrong += 1;
        }
        !first || found.wrong == 0
    })?;
    for why in others {
        println!("  {}", why);
        found.wrong += 1;
    }
    Ok(found)
}
