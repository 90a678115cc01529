//! Holds the Rattle programs to the published Rust.
//!
//!   oracle list questions                 the fixed list, as the program `replay` reads it
//!   oracle list answers                   what the program must write
//!   oracle replay [--without CLAUSE]      reads questions, and prints what the program `replay` must answer; or, as a
//!                                         wrong program, what it would answer if the test of a handed-in state had
//!                                         no such clause
//!   oracle clauses PART                   the clauses of a part's test, each of which the comparison looks at
//!   oracle compare [--seed N] [--only PART] [--first] --brief|--short|--long|--states -- COMMAND..
//!                                         asks COMMAND and the Rust, and compares bit by bit; --states asks about
//!                                         the test of a handed-in state alone; with --first no part is asked
//!                                         further than an answer that differs
//!   oracle scale [--seed N] [--minutes M | --rounds R] [--only PART] -- COMMAND..
//!                                         the same at scale, in rounds of random questions with the seeds N,
//!                                         N+1 and so on, and counts them: R rounds (1), or whole rounds until
//!                                         M minutes are over, or until an answer differs. Then the questions
//!                                         up to it are shrunk and kept beside the oracle: smallest.questions,
//!                                         which COMMAND reads, with what is due and what came. Smallest is
//!                                         that no single question of them can be left out, and that samples
//!                                         which do not matter are 0; other questions may still be fewer
//!   oracle strip                          reads a strip, and prints what the program `strip` must print
//!   oracle strips [--seed N] [--count N] [--first] -- COMMAND..
//!                                         runs COMMAND on the fixed strips and on so many random ones
//!                                         (2000), and compares byte for byte; with --first no further than
//!                                         a strip that differs
//!   oracle carry up|back                  reads a strip, and writes what the program `carry` must write and tell
//!   oracle carries [--seed N] [--count N] [--first] -- COMMAND..
//!                                         runs COMMAND with the word up and with the word back on fixed strips and on so
//!                                         many random ones (2000), and compares what it writes and tells
//!   oracle recording STRIP                reads a WAV file, and writes what the program `recording` must write
//!
//! Everything runs with rings of the size of the Rust that the oracle is built over: 4, as published, or what `oracle/build --ring`
//! was asked for. So `target/oracle/ring-16/oracle strip` has what `strip --ring 16` must print. Rings, protectors and chains of other
//! sizes are asked about too, and are held to documents 01 and 02 alone. The fixed list is that of the build as published.
//!
//! A part that is added has a file of its own, with its questions and the answers that are due, and
//! its lines in `parts` and in list.rs.

mod again;
mod applier;
mod carries;
mod carry;
mod chain;
mod clauses;
mod controller;
mod curve;
mod drive;
mod estimator;
mod judge;
mod limiter;
mod lines;
mod list;
mod protector;
mod random;
mod ratio;
mod recording;
mod ring;
mod scale;
mod shrink;
mod sound;
mod speech;
mod strip;
mod strips;

use drive::{Length, Part};
use std::fs::File;
use std::io::{stdin, stdout, BufReader, BufWriter, Read, Write};
use std::process::exit;

const USAGE: &str = "usage: oracle list questions|answers
       oracle replay [--without CLAUSE]
       oracle clauses PART
       oracle compare [--seed N] [--only PART] [--first] --brief|--short|--long|--states -- COMMAND..
       oracle scale [--seed N] [--minutes M | --rounds R] [--only PART] -- COMMAND..
       oracle strip
       oracle strips [--seed N] [--count N] [--first] -- COMMAND..
       oracle carry up|back
       oracle carries [--seed N] [--count N] [--first] -- COMMAND..
       oracle recording STRIP";

fn usage() -> ! {
    eprintln!("{}", USAGE);
    exit(2);
}

struct Wish {
    seed: u64,
    only: Option<String>,
    first: bool,
    length: Length,
    command: Vec<String>,
}

fn wish(words: &[String]) -> Wish {
    let (mut seed, mut only, mut first, mut length) = (1, None, false, None);
    let mut rest = words.iter();
    while let Some(word) = rest.next() {
        match word.as_str() {
            "--seed" => match rest.next().and_then(|n| n.parse().ok()) {
                Some(n) => seed = n,
                None => usage(),
            },
            "--only" => match rest.next() {
                Some(name) => only = Some(name.clone()),
                None => usage(),
            },
            "--first" => first = true,
            "--brief" => length = Some(Length::Brief),
            "--short" => length = Some(Length::Short),
            "--long" => length = Some(Length::Long),
            "--states" => length = Some(Length::States),
            "--" => break,
            _ => usage(),
        }
    }
    let command: Vec<String> = rest.cloned().collect();
    match length {
        Some(length) if !command.is_empty() => Wish {
            seed,
            only,
            first,
            length,
            command,
        },
        _ => usage(),
    }
}

/// What `oracle scale` is asked for.
fn scale_wish(words: &[String]) -> scale::Wish {
    let (mut seed, mut only, mut until) = (1, None, None);
    let mut rest = words.iter();
    while let Some(word) = rest.next() {
        let mut number = || rest.next().and_then(|n| n.parse().ok()).unwrap_or_else(|| usage());
        match word.as_str() {
            "--seed" => seed = number(),
            "--minutes" if until.is_none() => until = Some(scale::Until::Minutes(number())),
            "--rounds" if until.is_none() => until = Some(scale::Until::Rounds(number())),
            "--only" => only = Some(rest.next().unwrap_or_else(|| usage()).clone()),
            "--" => break,
            _ => usage(),
        }
    }
    let command: Vec<String> = rest.cloned().collect();
    if command.is_empty() {
        usage();
    }
    scale::Wish {
        seed,
        only,
        until: until.unwrap_or(scale::Until::Rounds(1)),
        command,
    }
}

/// What `oracle strips` and `oracle carries` are asked for.
fn strips_wish(words: &[String]) -> strips::Wish {
    let (mut seed, mut count, mut first) = (1, 2000, false);
    let mut rest = words.iter();
    while let Some(word) = rest.next() {
        let mut number = || rest.next().and_then(|n| n.parse().ok()).unwrap_or_else(|| usage());
        match word.as_str() {
            "--seed" => seed = number(),
            "--count" => count = number() as usize,
            "--first" => first = true,
            "--" => break,
            _ => usage(),
        }
    }
    let command: Vec<String> = rest.cloned().collect();
    if command.is_empty() {
        usage();
    }
    strips::Wish {
        seed,
        count,
        first,
        command,
    }
}

/// The parts, in document 01's order.
fn parts(seed: u64, length: Length) -> Vec<Box<dyn Part>> {
    vec![
        Box::new(ratio::Ratios::new(seed, length)),
        Box::new(ring::Rings::new(seed, length)),
        Box::new(curve::Curves::new(seed, length)),
        Box::new(estimator::Estimators::new(seed, length)),
        Box::new(applier::Appliers::new(seed, length)),
        Box::new(limiter::Limiters::new(seed, length)),
        Box::new(speech::Speeches::new(seed, length)),
        Box::new(protector::Protectors::new(seed, length)),
        Box::new(controller::Controllers::new(seed, length)),
        Box::new(chain::Chains::new(seed, length)),
    ]
}

/// Compares one part, and returns how many answers differ.
fn compare_part(wish: &Wish, part: &mut dyn Part) -> usize {
    let length = match wish.length {
        Length::States => "states",
        Length::Brief => "brief",
        length => length.of("short", "long", "round"),
    };
    println!("{}, {} run, seed {}, the Rust's ring of {}, {}:", part.name(), length, wish.seed, judge::ring(), std::env::consts::ARCH);
    let found = match drive::differences(&wish.command, part, wish.first) {
        Ok(found) => found,
        Err(why) => {
            println!("  {}", why);
            return 1;
        }
    };
    let kinds: Vec<String> = part.kinds().iter().map(|(what, n)| format!("{} {}", n, what)).collect();
    println!("  {}", kinds.join(", "));
    println!("  against the ruled Rust: {} answers compared, {} differ", found.compared, found.wrong);
    for why in part.unlike().iter().take(5) {
        println!("  the Rust and the paper by hand do not agree: {}", why);
    }
    for line in part.notes() {
        println!("  {}", line);
    }
    // A part that asks nothing has compared nothing.
    found.wrong + part.unlike().len() + (found.compared == 0) as usize
}

/// The parts, or the one that is asked for.
fn wanted(seed: u64, length: Length, only: &Option<String>) -> Vec<Box<dyn Part>> {
    let mut all = parts(seed, length);
    if let Some(name) = only {
        all.retain(|part| part.name() == name);
        if all.is_empty() {
            eprintln!("oracle: no part {}", name);
            exit(2);
        }
    }
    all
}

fn compare(wish: &Wish) -> usize {
    let mut all = wanted(wish.seed, wish.length, &wish.only);
    all.retain(|part| wish.length != Length::States || !part.clauses().is_empty());
    all.iter_mut().map(|part| compare_part(wish, part.as_mut())).sum()
}

fn main() {
    let words: Vec<String> = std::env::args().skip(1).collect();
    match words.first().map(String::as_str) {
        Some("list") => {
            if judge::ring() != judge::DEFAULT_RING {
                eprintln!("oracle: the fixed list is that of a ring of {}, and here it is of {}", judge::DEFAULT_RING, judge::ring());
                exit(2);
            }
            let text = match words.get(1).map(String::as_str) {
                Some("questions") => list::questions(),
                Some("answers") => list::answers(),
                _ => usage(),
            };
            match text {
                Ok(text) => print!("{}", text),
                Err(why) => {
                    eprintln!("oracle: the Rust and the paper by hand do not agree: {}", why);
                    exit(1);
                }
            }
        }
        Some("compare") => {
            let wrong = compare(&wish(&words[1..]));
            exit(if wrong == 0 { 0 } else { 1 });
        }
        Some("scale") => {
            let good = scale::compare(&scale_wish(&words[1..]));
            exit(if good { 0 } else { 1 });
        }
        Some("clauses") if words.len() == 2 => {
            for part in wanted(1, Length::States, &Some(words[1].clone())) {
                part.clauses().iter().for_each(|name| println!("{}", name));
            }
        }
        Some("replay") if words.len() == 1 || (words.len() == 3 && words[1] == "--without") => {
            words.get(2).iter().for_each(|name| clauses::leave_out(name));
            let (mut input, mut output) = (BufReader::new(stdin()), BufWriter::new(stdout()));
            match again::replay(&mut input, &mut output) {
                Ok(unlike) if unlike.is_empty() => {}
                Ok(unlike) => {
                    eprintln!("oracle: the Rust and the paper by hand do not agree: {}", unlike[0]);
                    exit(1);
                }
                Err(why) => {
                    eprintln!("oracle: {}", why);
                    exit(1);
                }
            }
        }
        Some("strip") if words.len() == 1 => {
            let (mut input, mut output) = (BufReader::new(stdin()), BufWriter::new(stdout()));
            if let Err(why) = strip::print(&mut input, &mut output) {
                eprintln!("oracle: {}", why);
                exit(1);
            }
        }
        Some("strips") => {
            let good = strips::compare(&strips_wish(&words[1..]));
            exit(if good { 0 } else { 1 });
        }
        Some("carry") if words.len() == 2 => {
            let way = carry::Way::BOTH.into_iter().find(|way| way.word() == words[1]).unwrap_or_else(|| usage());
            let mut strip = Vec::new();
            let written = stdin().read_to_end(&mut strip).and_then(|_| {
                let carried = carry::carry(way, &strip);
                eprint!("{}", carry::told(&carried));
                stdout().write_all(&carried.unwrap_or_default())
            });
            if let Err(why) = written {
                eprintln!("oracle: {}", why);
                exit(1);
            }
        }
        Some("carries") => {
            let good = carries::compare(&strips_wish(&words[1..]));
            exit(if good { 0 } else { 1 });
        }
        Some("recording") if words.len() == 2 => {
            let (mut input, mut output) = (BufReader::new(stdin()), BufWriter::new(stdout()));
            let levelled = File::open(&words[1])
                .and_then(|strip| recording::level(&mut input, &mut BufReader::new(strip), &mut output));
            if let Err(why) = levelled {
                eprintln!("oracle: {}", why);
                exit(1);
            }
        }
        _ => usage(),
    }
}
