//! Makes a list of questions shorter on which a command fails, as long as it still fails on what is left, and then
//! its frames quieter. What is due to a shorter list is asked of again.rs each time, from the start.

use crate::again::Desk;
use crate::drive;
use crate::lines;
use std::time::{Duration, Instant};

/// How often the command is run at most, and for how long.
const MOST_RUNS: usize = 4000;
const LONGEST: Duration = Duration::from_secs(300);

/// What came of a list of questions.
#[derive(Default)]
pub struct Came {
    pub due: Vec<String>,
    pub got: Vec<String>,
    /// What is wrong though every answer is as it must be.
    pub others: Vec<String>,
}

/// Asks the command these questions, up to the first answer that is not as it must be.
pub fn run(command: &[String], questions: &[String]) -> Result<Came, String> {
    let mut came = Came::default();
    let ask = |to: drive::Ask| {
        let mut desk = Desk::new();
        let _ = questions.iter().all(|line| to(line.clone(), desk.answer(line)));
    };
    let others = drive::run(command, ask, &mut |_, due, got| {
        came.due.push(due.to_string());
        came.got.push(got.to_string());
        due == got
    })?;
    came.others = others;
    Ok(came)
}

impl Came {
    /// How many questions it takes for the command to fail: up to the first wrong answer, or all of them where
    /// it fails otherwise. None where it does not fail.
    fn fails(&self) -> Option<usize> {
        (self.due.last() != self.got.last() || !self.others.is_empty()).then_some(self.due.len())
    }
}

pub struct Shrinking<'a> {
    command: &'a [String],
    /// The shortest list yet on which the command fails.
    pub kept: Vec<String>,
    pub runs: usize,
    /// Whether the runs or the time were over before the end.
    pub stopped: bool,
    start: Instant,
}

impl Shrinking<'_> {
    fn goes_on(&mut self) -> bool {
        self.stopped = self.stopped || self.runs >= MOST_RUNS || self.start.elapsed() > LONGEST;
        !self.stopped
    }

    fn fails(&mut self, questions: &[String]) -> Result<Option<usize>, String> {
        self.runs += 1;
        Ok(run(self.command, questions)?.fails())
    }

    /// Keeps these questions where the command fails on them, and of them only those up to the first wrong
    /// answer where it fails on these too.
    fn keep(&mut self, mut questions: Vec<String>) -> Result<bool, String> {
        let needed = match self.fails(&questions)? {
            None => return Ok(false),
            Some(n) => n,
        };
        if needed < questions.len() && self.fails(&questions[..needed])?.is_some() {
            questions.truncate(needed);
        }
        self.kept = questions;
        Ok(true)
    }

    /// Cuts what stands before a fresh start: the last question alone, else from the last question on that
    /// makes or hands in a whole state, the one before it, the fourth from the end, the eighth and so on.
    fn start_late(&mut self) -> Result<(), String> {
        let fresh = |line: &String| {
            let name = lines::read(line).map_or("", |(name, _)| name);
            name.ends_with(".new") || name.ends_with(".set")
        };
        let mut starts: Vec<usize> = (0..self.kept.len()).filter(|&i| fresh(&self.kept[i])).collect();
        starts.push(self.kept.len() - 1);
        let mut back = 0;
        while back < starts.len() {
            let from = starts[starts.len() - 1 - back];
            if from > 0 && self.keep(self.kept[from..].to_vec())? {
                break;
            }
            back = (2 * back).max(1);
        }
        Ok(())
    }

    /// Drops so many questions in a row wherever the command still fails without them; answers whether any went.
    fn drop_runs_of(&mut self, size: usize) -> Result<bool, String> {
        let (mut at, mut any) = (0, false);
        // The last question is the one whose answer is wrong.
        while at + size < self.kept.len() && self.goes_on() {
            let mut fewer = self.kept.clone();
            fewer.drain(at..at + size);
            if self.keep(fewer)? {
                any = true;
            } else {
                at += size;
            }
        }
        Ok(any)
    }

    /// Makes the samples of a question 0 wherever the command still fails: all of them, then halves, and so on
    /// down to single ones.
    fn silence(&mut self, at: usize) -> Result<(), String> {
        let (name, mut figures) = match self.kept.get(at).and_then(|line| lines::read(line)) {
            Some((name, figures)) => (name.to_string(), figures),
            None => return Ok(()),
        };
        let before = lines::before_samples(&name).unwrap_or(figures.len());
        let mut size = figures.len() - before;
        while size > 0 {
            for from in (before..figures.len()).step_by(size) {
                let mut quieter = figures.clone();
                for sample in quieter.iter_mut().skip(from).take(size) {
                    *sample = 0;
                }
                if quieter == figures || !self.goes_on() {
                    continue;
                }
                let mut questions = self.kept.clone();
                questions[at] = lines::question(&name, &quieter);
                if self.keep(questions)? {
                    figures = quieter;
                }
                if at >= self.kept.len() {
                    return Ok(());
                }
            }
            size /= 2;
        }
        Ok(())
    }
}

/// Shrinks a list. None where the command does not fail on it.
pub fn smallest(command: &[String], questions: Vec<String>) -> Result<Option<Shrinking<'_>>, String> {
    let mut all = Shrinking {
        command,
        kept: Vec::new(),
        runs: 0,
        stopped: false,
        start: Instant::now(),
    };
    if !all.keep(questions)? {
        return Ok(None);
    }
    all.start_late()?;
    let mut size = all.kept.len() / 2;
    while size > 1 {
        all.drop_runs_of(size)?;
        size = (size / 2).min(all.kept.len() / 2);
    }
    while all.drop_runs_of(1)? {}
    for at in 0..all.kept.len() {
        all.silence(at)?;
    }
    while all.drop_runs_of(1)? {}
    Ok(Some(all))
}
