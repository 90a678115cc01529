//! An example: a tone that rises to four times full scale, through the limiter alone. What comes out lies between -32768
//! and 32767.

use murzicanu::{Limiter, Refusal};

fn main() -> Result<(), Refusal> {
    let mut limiter = Limiter::new(480)?;
    for k in 0..10 {
        let loudness = 131072.0 * (k + 1) as f32 / 10.0;
        let mut frame: Vec<f32> = (0..480).map(|i| loudness * ((480 * k + i) as f32 * 0.05).sin()).collect();
        limiter.step(&mut frame, 1)?;
        let lowest = frame.iter().copied().fold(f32::INFINITY, f32::min);
        let highest = frame.iter().copied().fold(f32::NEG_INFINITY, f32::max);
        println!("in {loudness:8.0}, out from {lowest:8.1} to {highest:7.1}, envelope {:8.0}", limiter.level()?);
    }
    Ok(())
}
