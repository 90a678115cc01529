//! Strips for the program `carry`: fixed ones, which are for it alone, and the random ones of strips.rs. Each is carried both
//! ways, and what the program writes and tells is compared byte for byte with what carry.rs has. What was carried is carried the
//! other way again, and has to be the first strip: by the oracle each of them, and by the program one in four.

use crate::carry::{carry, told, Way};
use crate::chain;
use crate::judge::Settings;
use crate::strip::{Version, RECORD, VERSIONS};
use crate::strips::{self, Case, Wish};
use std::fs::File;
use std::path::PathBuf;
use std::process::{Command, Stdio};
use std::sync::atomic::{AtomicUsize, Ordering};
use std::sync::Mutex;

/// Strips of version 2 in which more than one thing is in the way: a T above 200, a gap, and what the strip itself is refused
/// with, behind them or before. Records, each of which a letter stands for: s is a frame, g is a gap, f a figure that is
/// refused, l a length that is, and c a record that is cut.
fn fixed() -> Vec<Case> {
    let mut wrong = chain::GOOD;
    wrong[0] = f32::NAN.to_bits();
    let record = |letter| match letter {
        's' => strips::record(&chain::GOOD),
        'f' => strips::record(&wrong),
        'l' => vec![0, 21],
        'c' => strips::record(&chain::GOOD)[..RECORD - 1].to_vec(),
        _ => vec![0, 0],
    };
    let mut all = Vec::new();
    for threshold in [1, 2, 200, 201, 255, 256, 257, 456, 511, 512, 3000, 3001] {
        for letters in ["", "s", "g", "gs", "sg", "ssg", "sgsg", "sf", "gf", "gsf", "fg", "sgl", "sgc", "lg", "sggs"] {
            let [one, two] = &VERSIONS;
            let strip = |version: &Version| {
                let mut all = strips::head(version, threshold, 40, Settings::USUAL);
                letters.chars().for_each(|letter| all.extend(record(letter)));
                all
            };
            all.push(("more than one thing in the way", strip(two)));
            if threshold < 256 {
                all.push(("the same in version 1", strip(one)));
            }
        }
    }
    // A block that the program reads has 2,048 bytes: whole records end there, and one is cut there at each of its bytes.
    for gaps in 0..=11 {
        let mut strip = strips::head(&VERSIONS[1], 2, 40, Settings::USUAL);
        strip.extend([0, 0].repeat(gaps));
        (0..100).for_each(|_| strip.extend(strips::record(&chain::GOOD)));
        all.push(("a block's end", strip));
    }
    all
}

/// What a program writes for a strip, and what it tells. A strip is a file: the program reads it twice.
fn run(command: &[String], way: Way, strip: &[u8], path: &PathBuf) -> Result<(Vec<u8>, String), String> {
    std::fs::write(path, strip).map_err(|e| e.to_string())?;
    let input = File::open(path).map_err(|e| e.to_string())?;
    let came = Command::new(&command[0])
        .args(&command[1..])
        .arg(way.word())
        .stdin(Stdio::from(input))
        .output()
        .map_err(|e| format!("cannot run {}: {}", command[0], e))?;
    if came.status.success() {
        Ok((came.stdout, String::from_utf8_lossy(&came.stderr).into_owned()))
    } else {
        Err(format!("the command ended with {}", came.status))
    }
}

/// Why what came for a strip is not what is due: nothing, where it is.
fn unlike(command: &[String], way: Way, strip: &[u8], path: &PathBuf) -> Option<String> {
    let due = carry(way, strip);
    let bytes = due.clone().unwrap_or_default();
    match run(command, way, strip, path) {
        Err(why) => Some(why),
        Ok((_, said)) if said != told(&due) => Some(format!("{:?} is told, and {:?} is due", said, told(&due))),
        Ok((came, _)) if came != bytes => {
            let at = came.iter().zip(&bytes).take_while(|(a, b)| a == b).count();
            Some(format!("{} bytes came and {} are due, alike up to byte {}", came.len(), bytes.len(), at))
        }
        Ok(_) => None,
    }
}

/// What the comparison counts, for each way.
#[derive(Default)]
struct Tally {
    strips: usize,
    runs: usize,
    carried: [usize; 2],
    /// Refusals of a head and of a record, by number.
    refused: [[[usize; 10]; 2]; 2],
    bytes: usize,
    wrong: usize,
    first: Option<(usize, Case, Way, String)>,
}

impl Tally {
    fn refusals(&self, way: usize, of: usize) -> String {
        let all = [1, 2, 4, 5, 6, 7, 9].map(|n| (n, self.refused[way][of][n]));
        let some: Vec<String> = all.iter().filter(|(_, k)| *k > 0).map(|(n, k)| format!("{} with {}", k, n)).collect();
        some.join(", ")
    }
}

/// Runs the command both ways on the fixed strips and on so many random ones; true where every byte is as it must be.
pub fn compare(wish: &Wish) -> bool {
    println!("carry, {} random strips, seed {}, {}:", wish.count, wish.seed, std::env::consts::ARCH);
    let fixed = fixed();
    let total = fixed.len() + wish.count;
    let (next, tally) = (AtomicUsize::new(0), Mutex::new(Tally::default()));
    let work = |thread: usize| {
        let path = std::env::temp_dir().join(format!("carries-{}-{}", std::process::id(), thread));
        loop {
            let number = next.fetch_add(1, Ordering::Relaxed);
            let case = match fixed.get(number) {
                Some((what, strip)) => (*what, strip.clone()),
                None if number < total => strips::random(wish.seed, number - fixed.len()),
                None => break,
            };
            let (mut runs, mut bytes) = (0, 0);
            let mut found = Vec::new();
            for way in Way::BOTH {
                let mut why = unlike(&wish.command, way, &case.1, &path);
                let due = carry(way, &case.1);
                runs += 1;
                if let Ok(carried) = &due {
                    // And the other way again.
                    let again = Way::BOTH[1 - way as usize];
                    bytes += carried.len();
                    if carry(again, carried).as_ref() != Ok(&case.1) {
                        why = why.or(Some("the oracle does not carry it back to the first strip".to_string()));
                    }
                    if number % 4 == 0 {
                        runs += 1;
                        why = why.or_else(|| unlike(&wish.command, again, carried, &path));
                    }
                }
                found.push((way, due.err(), why));
            }
            if let Ok(mut tally) = tally.lock() {
                tally.strips += 1;
                tally.runs += runs;
                tally.bytes += bytes;
                for (way, refused, why) in found {
                    match refused {
                        None => tally.carried[way as usize] += 1,
                        Some((record, reply)) => tally.refused[way as usize][(record > 0) as usize][reply as usize] += 1,
                    }
                    if let Some(why) = why {
                        tally.wrong += 1;
                        if tally.first.as_ref().map_or(true, |first| number < first.0) {
                            tally.first = Some((number, case.clone(), way, why));
                        }
                    }
                }
                if wish.first && tally.wrong > 0 {
                    break;
                }
            }
        }
        let _ = std::fs::remove_file(&path);
    };
    std::thread::scope(|scope| {
        for thread in 0..std::thread::available_parallelism().map_or(1, |n| n.get()) {
            let work = &work;
            scope.spawn(move || work(thread));
        }
    });
    let tally = tally.into_inner().unwrap_or_default();
    println!("  {} fixed strips; {} carried up and {} back", fixed.len(), tally.carried[0], tally.carried[1]);
    for way in Way::BOTH {
        let (heads, records) = (tally.refusals(way as usize, 0), tally.refusals(way as usize, 1));
        println!("  {}: heads refused: {}; records refused: {}", way.word(), heads, records);
    }
    if let Some((number, (what, strip), way, why)) = &tally.first {
        println!("  differs: strip {} ({}), {} bytes, {}: {}", number, what, strip.len(), way.word(), why);
        if let Ok(program) = std::env::current_exe() {
            let kept = program.with_file_name("differs.strip");
            if std::fs::write(&kept, strip).is_ok() {
                println!("  kept: {}", kept.display());
            }
        }
    }
    println!(
        "  against the oracle's own converter: {} strips in {} runs, {} carried bytes, {} differ",
        tally.strips, tally.runs, tally.bytes, tally.wrong
    );
    tally.wrong == 0 && tally.strips == total
}
