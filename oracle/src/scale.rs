//! The comparison at scale: rounds of random questions to every part, with a seed for each, until the rounds
//! or the minutes are over or an answer differs. What is counted is what was compared.

use crate::drive::{self, Length, Part};
use crate::judge;
use crate::lines;
use crate::shrink;
use std::path::PathBuf;
use std::time::{Duration, Instant};

pub enum Until {
    Minutes(u64),
    Rounds(u64),
}

pub struct Wish {
    pub seed: u64,
    pub only: Option<String>,
    pub until: Until,
    pub command: Vec<String>,
}

/// How often a running line is printed.
const NOW_AND_THEN: Duration = Duration::from_secs(20);

/// What was compared. Frames and samples are those that are accepted.
#[derive(Clone, Default)]
struct Count {
    answers: usize,
    refused: usize,
    sounding: usize,
    silent: usize,
    samples: usize,
    wrong: usize,
}

impl Count {
    fn note(&mut self, question: &str, due: &str) {
        self.answers += 1;
        if !due.starts_with("00000000") {
            self.refused += 1;
            return;
        }
        let name = question.split(' ').next().unwrap_or("");
        if let Some(before) = lines::before_samples(name) {
            self.sounding += 1;
            self.samples += (question.len() - name.len()) / 9 - before;
        } else if lines::SILENT_FRAMES.contains(&name) {
            self.silent += 1;
        }
    }

    fn add(&mut self, other: &Count) {
        self.answers += other.answers;
        self.refused += other.refused;
        self.sounding += other.sounding;
        self.silent += other.silent;
        self.samples += other.samples;
        self.wrong += other.wrong;
    }

    fn line(&self, name: &str) -> String {
        format!(
            "  {:<12}{:>16}{:>14}{:>20}{:>18}{:>18}{:>8}",
            name,
            grouped(self.answers),
            grouped(self.refused),
            grouped(self.sounding),
            grouped(self.silent),
            grouped(self.samples),
            self.wrong
        )
    }
}

/// A number with a comma before each three digits.
fn grouped(n: usize) -> String {
    let digits = n.to_string();
    let mut text = String::new();
    for (i, digit) in digits.chars().enumerate() {
        if i > 0 && (digits.len() - i) % 3 == 0 {
            text.push(',');
        }
        text.push(digit);
    }
    text
}

/// A line, cut where it is long.
fn cut(line: &str) -> String {
    match line.get(..160) {
        Some(start) if line.len() > 160 => format!("{}.. ({} characters)", start, line.len()),
        _ => line.to_string(),
    }
}

/// Says how an answer is another than the one that is due.
fn tell(question: &str, due: &str, got: &str) {
    println!("  differs: {}", cut(question));
    println!("    due: {}", cut(due));
    println!("    got: {}", cut(got));
    let mut pairs = due.split(' ').zip(got.split(' '));
    if let Some(i) = pairs.position(|(one, other)| one != other) {
        println!("    the first figure that differs is figure {} of the answer", i + 1);
    }
}

/// What a part's round came to.
enum Found {
    Nothing,
    /// The Rust and what is by hand do not agree, and the command answers as it must.
    Unlike,
    Wrong,
}

/// Asks one part for one round, up to the first answer that differs.
fn compare_part(command: &[String], part: &mut dyn Part, count: &mut Count) -> Result<Found, String> {
    let mut now = Count::default();
    let others = drive::run(command, |to| part.ask(to), &mut |question, due, got| {
        now.note(question, due);
        if got != due {
            now.wrong += 1;
            tell(question, due, got);
        }
        got == due
    })?;
    now.wrong += others.len();
    for why in &others {
        println!("  {}", why);
    }
    let mut found = if now.wrong > 0 { Found::Wrong } else { Found::Nothing };
    if !part.unlike().is_empty() {
        now.wrong += 1;
        found = if now.wrong > 1 { Found::Wrong } else { Found::Unlike };
    }
    for why in part.unlike().iter().take(5) {
        println!("  the Rust and the paper by hand do not agree: {}", why);
    }
    if now.answers == 0 {
        println!("  nothing was asked");
        now.wrong += 1;
        found = Found::Wrong;
    }
    count.add(&now);
    Ok(found)
}

/// What is kept of a failing case: the questions, what is due, and what came.
const KEPT: [&str; 3] = ["smallest.questions", "smallest.due", "smallest.got"];

/// A file beside the oracle.
fn beside(name: &str) -> Result<PathBuf, String> {
    Ok(std::env::current_exe().map_err(|e| e.to_string())?.with_file_name(name))
}

/// Writes lines beside the oracle.
fn write(name: &str, lines: &[String]) -> Result<(), String> {
    let path = beside(name)?;
    let text: String = lines.iter().map(|line| format!("{}\n", line)).collect();
    std::fs::write(&path, text).map_err(|e| format!("cannot write {}: {}", path.display(), e))?;
    println!("  kept: {}", path.display());
    Ok(())
}

/// Asks a part's round once more, up to the question that was not answered as it must be, and keeps the
/// smallest list of questions on which the command still fails.
fn keep(command: &[String], part: &mut dyn Part, asked: usize) -> Result<(), String> {
    let [questions, due, got] = KEPT;
    let (mut all, mut answers) = (Vec::new(), Vec::new());
    part.ask(&mut |question, answer| {
        all.push(question);
        answers.push(answer);
        all.len() < asked
    });
    let before = all.len();
    let found = match shrink::smallest(command, all.clone())? {
        Some(found) => found,
        None => {
            println!("  asked once more, the command does not fail on these {} questions", before);
            write(questions, &all)?;
            return write(due, &answers);
        }
    };
    let came = shrink::run(command, &found.kept)?;
    println!("  shrunk from {} to {} questions in {} runs of the command", before, found.kept.len(), found.runs);
    println!(
        "  {}",
        if found.stopped { "there it was stopped: fewer may do" } else { "no single one of these can be left out" }
    );
    if let (Some(question), Some(right), Some(wrong)) = (found.kept.last(), came.due.last(), came.got.last()) {
        if right != wrong {
            tell(question, right, wrong);
        }
    }
    for why in &came.others {
        println!("  {}", why);
    }
    write(questions, &found.kept)?;
    write(due, &came.due)?;
    write(got, &came.got)
}

/// Compares; true where nothing differs.
pub fn compare(wish: &Wish) -> bool {
    let start = Instant::now();
    let mut said = start;
    let parts = |seed| crate::wanted(seed, Length::Round, &wish.only);
    let mut counts: Vec<(&'static str, Count)> = parts(wish.seed).iter().map(|part| (part.name(), Count::default())).collect();
    let all = |counts: &[(&'static str, Count)]| {
        let mut sum = Count::default();
        counts.iter().for_each(|(_, count)| sum.add(count));
        sum
    };
    // What an earlier run kept is not taken for this one's.
    for path in KEPT.iter().flat_map(|name| beside(name)) {
        let _ = std::fs::remove_file(path);
    }
    let mut rounds = 0;
    let mut good = true;
    while good
        && match wish.until {
            Until::Rounds(n) => rounds < n,
            Until::Minutes(n) => rounds == 0 || start.elapsed().as_secs() / 60 < n,
        }
    {
        let seed = wish.seed.wrapping_add(rounds);
        rounds += 1;
        for (which, (name, count)) in counts.iter_mut().enumerate() {
            let before = count.answers;
            let found = compare_part(&wish.command, parts(seed)[which].as_mut(), count);
            if let Ok(Found::Nothing) = found {
                continue;
            }
            good = false;
            let asked = count.answers - before;
            println!("  that was in part {}, seed {}, after {} questions", name, seed, asked);
            let kept = match found {
                Ok(Found::Wrong) => keep(&wish.command, parts(seed)[which].as_mut(), asked),
                Ok(_) => {
                    println!("  the command answers as it must, so there is nothing to shrink");
                    Ok(())
                }
                Err(why) => Err(why),
            };
            if let Err(why) = kept {
                println!("  {}", why);
                count.wrong = count.wrong.max(1);
            }
            break;
        }
        if said.elapsed() > NOW_AND_THEN {
            said = Instant::now();
            let sum = all(&counts);
            eprintln!(
                "seed {}, {} seconds: {} answers, {} frames with sound and {} without, {} samples, {} differ",
                seed,
                start.elapsed().as_secs(),
                grouped(sum.answers),
                grouped(sum.sounding),
                grouped(sum.silent),
                grouped(sum.samples),
                sum.wrong
            );
        }
    }
    let sum = all(&counts);
    println!(
        "at scale, seeds {} to {}, a round with each, the Rust's ring of {}, {}, {} seconds:",
        wish.seed,
        wish.seed.wrapping_add(rounds.max(1) - 1),
        judge::ring(),
        std::env::consts::ARCH,
        start.elapsed().as_secs()
    );
    println!(
        "  {:<12}{:>16}{:>14}{:>20}{:>18}{:>18}{:>8}",
        "part", "answers", "refused", "frames with sound", "frames without", "samples", "differ"
    );
    for (name, count) in &counts {
        println!("{}", count.line(name));
    }
    println!("{}", sum.line("all"));
    good && sum.answers > 0
}
