//! An example: readings with pauses, and a cough in one pause, through the whole box.

use murzicanu::{Chain, Figures, Refusal, Settings, USUAL_RING, USUAL_THRESHOLD};

const SAMPLES: usize = 480;

fn main() -> Result<(), Refusal> {
    let mut chain = Chain::new(&Settings::default(), USUAL_THRESHOLD, SAMPLES, USUAL_RING)?;
    for k in 0..1000 {
        // A second of reading, half a second of pause; in one pause a cough of five frames.
        let reading = k % 150 < 100;
        let cough = (570..575).contains(&k);
        let loudness: f32 = if reading { 400.0 } else if cough { 12000.0 } else { 2.0 };
        let mut frame = [0.0; SAMPLES];
        for (i, x) in frame.iter_mut().enumerate() {
            *x = loudness * ((k * SAMPLES + i) as f32 * 0.03).sin();
        }
        let peak = 20.0 * (loudness / 32768.0).log10();
        let figures = Figures {
            probability: if reading || cough { 0.95 } else { 0.05 },
            rms: peak - 3.0,
            peak,
            noise: -80.0,
            envelope: -60.0,
        };
        let answer = chain.step(&figures, &mut frame, 1)?;
        if k % 100 == 99 {
            let now = chain.published()?;
            println!("{:2} s: {answer:?}, gain {:.2} dB, trusted: {}", k / 100 + 1, now.gain, now.confident);
        }
    }
    Ok(())
}
