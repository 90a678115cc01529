//! Document 01's own rules, which stand in for the platform's power function in the ruled build.
//! They are written from the document, and share nothing with the Rattle crates.

/// "gain in dB to be made a ratio: 0 to 51".
pub const LARGEST_GAIN: f32 = 51.0;

/// A (n 0 to 51) and B (k 0 to 15): "the f32 nearest to 10^(n/20) and 10^(k/320)".
struct Tables {
    whole: [f32; 52],
    sixteenth: [f32; 16],
}

/// The f32 nearest to a power of ten. The f64 power may be a unit off in its last place, so a value
/// that lies so near to the middle of two f32 that this could matter ends the run. None does.
fn nearest(exponent: f64) -> f32 {
    let exact = 10.0_f64.powf(exponent);
    let near = exact as f32;
    for other in [f32::from_bits(near.to_bits() - 1), f32::from_bits(near.to_bits() + 1)] {
        let middle = (near as f64 + other as f64) / 2.0;
        if (exact - middle).abs() <= exact * 1e-14 {
            panic!("10^{} is too near to the middle of two f32", exponent);
        }
    }
    near
}

impl Tables {
    fn new() -> Tables {
        let mut tables = Tables {
            whole: [0.0; 52],
            sixteenth: [0.0; 16],
        };
        for (n, entry) in tables.whole.iter_mut().enumerate() {
            *entry = nearest(n as f64 / 20.0);
        }
        for (k, entry) in tables.sixteenth.iter_mut().enumerate() {
            *entry = nearest(k as f64 / 320.0);
        }
        tables
    }
}

thread_local! {
    static TABLES: Tables = Tables::new();
}

/// "x = n + k/16 + f with whole n, whole k below 16, and f below 1/16, all exact. The ratio is
/// (A[n]*B[k])*(1+f*0.11512925), each operation rounded." The split is made in f64, where each step
/// of it is exact for every f32 in range.
pub fn ratio(x: f32) -> f32 {
    if !(0.0..=LARGEST_GAIN).contains(&x) {
        panic!("the rule is for 0 to 51 dB, and was asked for {}", x);
    }
    let exact = x as f64;
    let n = exact.floor();
    let k = ((exact - n) * 16.0).floor();
    let rest = exact - n - k / 16.0;
    let f = rest as f32;
    if f as f64 != rest {
        panic!("what is left of {} is no f32", x);
    }
    TABLES.with(|t| (t.whole[n as usize] * t.sixteenth[k as usize]) * (1.0 + f * 0.11512925))
}

/// "The power is three squarings, rounded each time."
pub fn eighth_power(x: f32) -> f32 {
    let second = x * x;
    let fourth = second * second;
    fourth * fourth
}
