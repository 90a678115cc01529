//! Copies the published modules twice, so that each copy can be compiled as a library:
//! `as_is`, changed in nothing but an attribute's reason, which an older rustc does not read; and
//! `ruled`, where document 01's rules stand in for both power functions. The Rust has no gap. What a gap
//! does to its controller is document 02's rule, and is put behind both copies of it, since its counts are
//! private; nothing of the Rust calls it.
//!
//! The Rust's ring holds as many peaks as one of its constants says: in both copies that is what is asked for, 1 to 16, or
//! what is published.
//!
//! A text that is to be replaced and is not there exactly once ends the run: then the published
//! source is not the one that this was written for.

use std::path::Path;
use std::process::exit;
use std::{env, fs};

/// The published modules, all of them.
const MODULES: [&str; 10] = [
    "adaptive_digital_gain_controller",
    "common",
    "fixed_digital_level_estimator",
    "gain_applier",
    "interpolated_gain_curve",
    "limiter",
    "noise_level_estimator",
    "saturation_protector",
    "saturation_protector_buffer",
    "speech_level_estimator",
];

/// A module, a text that stands in it once, and what is written for it.
type Edit<'a> = (&'a str, &'a str, &'a str);

/// In both copies.
const BOTH: [Edit; 1] = [(
    "saturation_protector_buffer",
    ", reason = \"upstream logic\"",
    "",
)];

/// The ring's size, in both copies: the module, what stands before it, and the size that is published.
const RING: (&str, &str, u32) = ("common", "SATURATION_PROTECTOR_BUFFER_SIZE: usize = ", 4);

/// "Let the peak ring hold 1 to 16 entries".
const LARGEST_RING: u32 = 16;

/// In `ruled` alone: both powers.
const RULED: [Edit; 2] = [
    (
        "common",
        "10.0_f32.powf(v / 20.0)",
        "crate::rules::ratio(v)",
    ),
    (
        "limiter",
        "(1.0 - t).powf(p)",
        "crate::rules::eighth_power(1.0 - t)",
    ),
];

/// Behind a module, in both copies.
const ADDED: [(&str, &str); 1] = [(
    "adaptive_digital_gain_controller",
    "
impl AdaptiveDigitalGainController {
    /// Document 02's gap \"sets the controller's waiting count back to T, handles no samples and moves no gain\".
    pub fn gap(&mut self) {
        self.frames_to_gain_increase_allowed = self.adjacent_speech_frames_threshold;
    }
}
",
)];

fn fail(why: &str) -> ! {
    eprintln!("oracle: {}", why);
    exit(1);
}

fn read(path: &Path) -> String {
    match fs::read_to_string(path) {
        Ok(text) => text,
        Err(e) => fail(&format!("cannot read {}: {}", path.display(), e)),
    }
}

fn write(path: &Path, text: &str) {
    if let Err(e) = fs::write(path, text) {
        fail(&format!("cannot write {}: {}", path.display(), e));
    }
}

fn edited(module: &str, mut text: String, edits: &[Edit]) -> String {
    for (name, old, new) in edits {
        if *name != module {
            continue;
        }
        let times = text.matches(old).count();
        if times != 1 {
            fail(&format!(
                "{}.rs has the text `{}` {} times, and not once: this is another source than the one that the oracle was written for",
                module, old, times
            ));
        }
        text = text.replacen(old, new, 1);
    }
    text
}

/// The ring's size that is asked for. None where it is not 1 to 16.
fn ring(word: Option<&String>) -> Option<u32> {
    match word {
        None => Some(RING.2),
        Some(word) => word.parse().ok().filter(|n| (1..=LARGEST_RING).contains(n)),
    }
}

fn main() {
    let words: Vec<String> = env::args().collect();
    let size = match ring(words.get(4)) {
        Some(size) if (4..=5).contains(&words.len()) => size,
        _ => fail("usage: prepare SOURCE RULES OUT [RING], with a RING from 1 to 16"),
    };
    let [before, after] = [RING.2, size].map(|n| format!("{}{};", RING.1, n));
    let sized: [Edit; 1] = [(RING.0, &before, &after)];
    let (source, rules, out) = (Path::new(&words[1]), Path::new(&words[2]), Path::new(&words[3]));
    for build in ["as_is", "ruled"] {
        let folder = out.join(build);
        if let Err(e) = fs::create_dir_all(&folder) {
            fail(&format!("cannot make {}: {}", folder.display(), e));
        }
        let mut root = String::from("#![allow(dead_code, unused)]\n");
        for module in MODULES {
            let mut text = read(&source.join(format!("{}.rs", module)));
            text = edited(module, text, &BOTH);
            text = edited(module, text, &sized);
            if build == "ruled" {
                text = edited(module, text, &RULED);
            }
            ADDED.iter().filter(|(name, _)| *name == module).for_each(|(_, more)| text.push_str(more));
            write(&folder.join(format!("{}.rs", module)), &text);
            root.push_str(&format!("pub mod {};\n", module));
        }
        if build == "ruled" {
            write(&folder.join("rules.rs"), &read(rules));
            root.push_str("pub mod rules;\n");
        }
        write(&folder.join("lib.rs"), &root);
    }
}
