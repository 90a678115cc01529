//! The protocol of the program `replay`: a question is a name and then figures, an answer is figures,
//! the first of them the reply's number. A figure is eight lower-case hexadecimal digits.

/// Document 01's numbers of replies.
pub const DONE: u32 = 0;
pub const SHAPE: u32 = 1;
pub const FIGURE: u32 = 2;
pub const SAMPLE: u32 = 3;
pub const SETTING: u32 = 4;

/// The questions about a frame of sound, with the number of figures that stand before its samples.
const FRAMES: [(&str, usize); 5] = [
    ("estimator.level", 2),
    ("applier.apply", 2),
    ("limiter.process", 2),
    ("controller.process", 8),
    ("chain.step", 7),
];

/// The questions about a frame of which only figures are known.
pub const SILENT_FRAMES: [&str; 2] = ["speech.update", "protector.analyze"];

/// How many figures of a question stand before its samples, where it is about a frame of sound.
pub fn before_samples(name: &str) -> Option<usize> {
    FRAMES.iter().find(|(frame, _)| *frame == name).map(|&(_, before)| before)
}

/// Figures, each with one space before it.
fn put(line: &mut String, figures: &[u32]) {
    line.reserve(9 * figures.len());
    for figure in figures {
        line.push(' ');
        for place in (0..8).rev() {
            let digit = figure >> (4 * place) & 15;
            line.push(char::from_digit(digit, 16).unwrap_or('?'));
        }
    }
}

/// Figures with one space between them.
pub fn answer(figures: &[u32]) -> String {
    let mut line = String::new();
    put(&mut line, figures);
    line.split_off(line.len().min(1))
}

/// A name and figures.
pub fn question(name: &str, figures: &[u32]) -> String {
    let mut line = name.to_string();
    put(&mut line, figures);
    line
}

/// A line's name and figures. None where it is no name with figures behind it.
pub fn read(line: &str) -> Option<(&str, Vec<u32>)> {
    let mut words = line.split(' ');
    let name = words.next()?;
    let figure = |word: &str| {
        let digits = word.len() == 8 && word.bytes().all(|c| matches!(c, b'0'..=b'9' | b'a'..=b'f'));
        if digits {
            u32::from_str_radix(word, 16).ok()
        } else {
            None
        }
    };
    let figures: Option<Vec<u32>> = words.map(figure).collect();
    Some((name, figures?))
}

/// The bits of a float. The program has one NaN.
pub fn bits(x: f32) -> u32 {
    if x.is_nan() {
        0x7fc0_0000
    } else {
        x.to_bits()
    }
}

/// A number of 64 bits, the higher half first.
pub fn halves(n: u64) -> [u32; 2] {
    [(n >> 32) as u32, n as u32]
}

/// The bits within `reach` floats of a positive float, on both sides. Below 0 the floats go on with
/// the sign set.
pub fn near(x: f32, reach: i64) -> Vec<u32> {
    let middle = x.to_bits() as i64;
    (middle - reach..=middle + reach)
        .map(|at| if at >= 0 { at as u32 } else { 0x8000_0000 + (-at - 1) as u32 })
        .collect()
}
