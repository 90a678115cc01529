//! The fixed list: questions, and the answers that are due. The repository keeps both as the standard
//! input and output of the program `replay`, so that it can be held to them where no Rust is. Only
//! this program writes them.

use crate::drive::Pair;
use crate::lines;
use crate::{applier, chain, controller, curve, estimator, limiter, protector, ratio, ring, speech};

/// The seed of the list's random questions.
const SEED: u64 = 1;

/// Lines that are no question: each is answered ?.
const NOT_ASKED: [&str; 74] = [
    "",
    " ",
    ".",
    "?",
    "ratio",
    "ratio ",
    "ratio 4",
    "ratio 41a0000",
    "ratio 41a000000",
    "ratio 41a00000 ",
    "ratio 41a00000\r",
    " ratio 41a00000",
    "ratio  41a00000",
    "ratio\t41a00000",
    "ratio 41A00000",
    "ratio 41a0000g",
    "ratio 41a0000/",
    "ratio 41a0000:",
    "ratio 0x41a000",
    "ratio -1a00000",
    "ratio 41a00000 41a00000",
    "ratio 41a00000 41a0000",
    "Ratio 41a00000",
    "ratia 41a00000",
    "rati 41a00000",
    "ratio. 41a00000",
    "ratio.new",
    "gain 41a00000",
    "41a00000",
    "ring",
    "ring.",
    "ring.new",
    "ring.new 00000004 00000004",
    "ring.push",
    "ring.pus 3f800000",
    "ring.keep 3f800000",
    "ring.push 3f800000 3f800000",
    "ring.set 00000000 00000000 00000000 00000000 00000000",
    "curve.push 3f800000",
    "curve.level",
    "estimator",
    "estimator.level",
    "estimator.level 00000001",
    "estimator.new",
    "estimator.samples 00000028 00000028",
    "applier.apply 00000001",
    "applier.new 00000000",
    "limiter.process 00000001",
    "limiter.set 00000000",
    "speech",
    "speech.update c2200000",
    "speech.update c2200000 3f800000 3f800000",
    "speech.new 40a00000 42480000 41700000 40c00000 c2480000",
    "protector.analyze 3f800000 c1a00000",
    "protector.new 41a00000 00000002",
    "protector.new 41a00000 00000002 00000004 00000004",
    "controller.new 40a00000 42480000 41700000 40c00000 c2480000",
    "controller.process 00000001 00000028",
    "controller.process 00000001 00000028 3f800000 c2200000 00000001 c2b40000 41a00000",
    "chain",
    "chain.new 40a00000 42480000 41700000 40c00000 c2480000 00000002 00000028",
    "chain.new 40a00000 42480000 41700000 40c00000 c2480000 00000002 00000028 00000004 00000004",
    "chain.step 00000001 00000028 3f800000 c2200000 c1a00000 c2b40000",
    "chain.set",
    "chain.set 40a00000 42480000 41700000 40c00000 c2480000 00000002 00000028",
    "chain.state 00000000",
    "chain.states",
    "n1=ring.new 00000004",
    "speech.gap 00000000",
    "protector.gap 00000000",
    "controller.gap 00000000",
    "chain.gap 00000000",
    "limiter.gap",
    "ring.gap",
];

/// The questions with their answers. The last line is cut: it has no line feed.
fn list() -> Result<Vec<Pair>, String> {
    let mut all: Vec<Pair> = Vec::new();
    let mut unlike = Vec::new();
    let mut to = |question, answer| {
        all.push((question, answer));
        true
    };
    ratio::list(SEED, &mut to);
    unlike.extend(ring::list(SEED, &mut to));
    unlike.extend(curve::list(SEED, &mut to));
    unlike.extend(estimator::list(SEED, &mut to));
    unlike.extend(applier::list(SEED, &mut to));
    unlike.extend(limiter::list(SEED, &mut to));
    unlike.extend(speech::list(SEED, &mut to));
    unlike.extend(protector::list(SEED, &mut to));
    unlike.extend(controller::list(SEED, &mut to));
    unlike.extend(chain::list(SEED, &mut to));
    for line in NOT_ASKED {
        to(line.to_string(), "?".to_string());
    }
    // A state with a figure too few or too many, and one as it was when every ring had four slots.
    for (name, figures) in [("ring.set", [6, 18, 20]), ("protector.set", [22, 47, 49]), ("chain.set", [68, 93, 95])] {
        for n in figures {
            to(lines::question(name, &vec![0; n]), "?".to_string());
        }
    }
    // Too many digits or figures. Lines as long as the program's own buffer are in tests/.
    for length in [63, 64, 1000] {
        to(format!("ratio 41a00000{}", "0".repeat(length - 14)), "?".to_string());
    }
    to(format!("ratio{}", " 41a00000".repeat(100)), "?".to_string());
    to(ratio::question(0x41a0_0000), ratio::answer(0x41a0_0000));
    to(ratio::question(0x41a0_0000), "?".to_string());
    match unlike.first() {
        Some(why) => Err(why.clone()),
        None => Ok(all),
    }
}

pub fn questions() -> Result<String, String> {
    let all: Vec<String> = list()?.into_iter().map(|(q, _)| q).collect();
    Ok(all.join("\n"))
}

pub fn answers() -> Result<String, String> {
    Ok(list()?.into_iter().map(|(_, a)| a + "\n").collect())
}
