//! The speech leveller whose behaviour is proved, for Rust.
//!
//! A [`Chain`] is the whole box: it takes a frame of 10 ms of sound with five figures that were metered of it, levels
//! the sound where it stands, and tells what the frame was. A [`Limiter`] is its last part alone. The work is done by
//! `libmurzicanu.a`, whose every function is proved to meet its contract; this crate only gives it Rust's types. What
//! is proved, among other things:
//!
//! - every sample that a chain or a limiter leaves lies between -32768 and 32767;
//! - speech of fewer frames than the threshold that a non-speech frame or a gap closes leaves no trace in anything that
//!   is published later;
//! - a refused step or gap changes nothing.
//!
//! What the proof takes for granted of the processor is what Rust does too: floats round to nearest, and the smallest are
//! not flushed to zero. A thread that was set otherwise is refused by `new`, and [`floats_ready`] asks at any time.
//!
//! ```
//! use murzicanu::{Answer, Chain, Figures, Settings, USUAL_RING, USUAL_THRESHOLD};
//!
//! let mut chain = Chain::new(&Settings::default(), USUAL_THRESHOLD, 480, USUAL_RING)?;
//! let figures = Figures { probability: 0.95, rms: -32.0, peak: -20.0, noise: -80.0, envelope: -60.0 };
//! let mut frame = [0.0_f32; 480];
//! match chain.step(&figures, &mut frame, 1)? {
//!     Answer::NonSpeech => println!("no speech"),
//!     Answer::Waiting { missing } => println!("{missing} frames of speech are missing"),
//!     Answer::Publishing { level, headroom } => println!("{level} dBFS, headroom {headroom} dB"),
//! }
//! // The next frame was lost, so what comes then is not adjacent to this one.
//! chain.gap()?;
//! # Ok::<(), murzicanu::Refusal>(())
//! ```

#![warn(missing_docs)]

use std::error::Error;
use std::fmt;

mod floats;
mod library;

pub use floats::floats_ready;

/// How many adjacent speech frames make a reading, usually. A threshold may be 1 to 3000, which is thirty seconds.
pub const USUAL_THRESHOLD: u32 = 12;

/// How many peaks a chain remembers, usually: the capacity of its rings. A capacity may be 1 to 16.
pub const USUAL_RING: u32 = 4;

/// The version of the archive's interface that this crate is written for: of its functions and its structs.
pub const VERSION: u32 = 3;

/// Why a call was refused. Nothing changed then. Where several of the first four apply, the first in the order `Shape`,
/// `Setting`, `Figure`, `Sample` is told.
#[derive(Clone, Copy, Debug, PartialEq, Eq, Hash)]
#[non_exhaustive]
pub enum Refusal {
    /// Channels not 1 to 8, samples not 40 to 480 in steps of 20, or a buffer that is not channels times samples long.
    Shape,
    /// A figure that is not a number or out of its range.
    Figure,
    /// A sample that is not a number, infinite or too large: beyond 65536 for a chain, 33554432 for a limiter.
    Sample,
    /// A setting out of its range, a threshold that is not 1 to 3000, or a ring's capacity that is not 1 to 16. From a
    /// step, a gap or a reading only in a thread that does not compute floats as it should ([`floats_ready`]).
    Setting,
    /// The archive that is linked has this version, and not [`VERSION`]. Told by `new`, which makes nothing then.
    Version(u32),
    /// The calling thread does not compute floats as the archive takes it for granted ([`floats_ready`]). Told by `new`,
    /// which makes nothing then.
    Floats,
    /// The archive answered this number, which no call of [`VERSION`] answers.
    Unknown(u32),
}

impl Refusal {
    /// The number that the archive answered: 1 shape, 2 figure, 3 sample, 4 setting. None where it was not asked,
    /// because its version is another or the thread's floats are.
    pub fn number(self) -> Option<u32> {
        match self {
            Refusal::Shape => Some(1),
            Refusal::Figure => Some(2),
            Refusal::Sample => Some(3),
            Refusal::Setting => Some(4),
            Refusal::Version(_) | Refusal::Floats => None,
            Refusal::Unknown(number) => Some(number),
        }
    }

    /// Whether the archive has the version of this crate's declarations.
    fn of_version(version: u32) -> Result<(), Refusal> {
        if version == VERSION {
            Ok(())
        } else {
            Err(Refusal::Version(version))
        }
    }

    /// Whether the archive can be called at all: by its version, then by the thread's floats.
    fn of_call() -> Result<(), Refusal> {
        // SAFETY: the function takes nothing.
        Refusal::of_version(unsafe { library::murzicanu_version() })?;
        if floats_ready() {
            Ok(())
        } else {
            Err(Refusal::Floats)
        }
    }

    fn of(reply: u32) -> Result<(), Refusal> {
        match reply {
            0 => Ok(()),
            1 => Err(Refusal::Shape),
            2 => Err(Refusal::Figure),
            3 => Err(Refusal::Sample),
            4 => Err(Refusal::Setting),
            number => Err(Refusal::Unknown(number)),
        }
    }
}

impl fmt::Display for Refusal {
    fn fmt(&self, f: &mut fmt::Formatter<'_>) -> fmt::Result {
        let (number, what) = match self {
            Refusal::Shape => (1, "the channels, the samples or the buffer's length"),
            Refusal::Figure => (2, "a figure"),
            Refusal::Sample => (3, "a sample"),
            Refusal::Setting => (4, "a setting or the state"),
            Refusal::Version(version) => {
                return write!(f, "libmurzicanu.a has version {version}, and this crate is written for {VERSION}");
            }
            Refusal::Floats => {
                return write!(f, "this thread does not compute floats as libmurzicanu.a takes it for granted");
            }
            Refusal::Unknown(number) => return write!(f, "refused with {number}, a number that this crate does not know"),
        };
        write!(f, "refused with {number}: {what} is not as it should be")
    }
}

impl Error for Refusal {}

/// What an operator sets. The default is the usual settings.
#[derive(Clone, Copy, Debug, PartialEq)]
#[repr(C)]
pub struct Settings {
    /// How far below full scale a reading is to end, 0 to 50 dB.
    pub headroom: f32,
    /// The largest gain, above 0 and up to 50 dB.
    pub largest_gain: f32,
    /// The gain to start with, 0 to 50 dB.
    pub initial_gain: f32,
    /// By how much the gain may change, 0.01 to 100 dB a second.
    pub change: f32,
    /// The loudest that noise may come out, -90 to 0 dBFS.
    pub noise: f32,
}

impl Default for Settings {
    fn default() -> Settings {
        Settings { headroom: 5.0, largest_gain: 50.0, initial_gain: 15.0, change: 6.0, noise: -50.0 }
    }
}

/// What the meters said of a frame.
#[derive(Clone, Copy, Debug, PartialEq)]
#[repr(C)]
pub struct Figures {
    /// The probability that it is speech, 0 to 1.
    pub probability: f32,
    /// Its level, above -150 and below 50 dBFS.
    pub rms: f32,
    /// Its peak, -150 to 50 dBFS.
    pub peak: f32,
    /// The level of the noise, -150 to 50 dBFS.
    pub noise: f32,
    /// The limiter's envelope, -150 to 100 dBFS.
    pub envelope: f32,
}

/// What a frame was to the chain.
#[derive(Clone, Copy, Debug, PartialEq)]
pub enum Answer {
    /// No speech.
    NonSpeech,
    /// Speech of a run that is still shorter than the threshold.
    Waiting {
        /// So many speech frames are missing.
        missing: u32,
    },
    /// Speech that counts: its level and headroom are published.
    Publishing {
        /// The level of the speech in dBFS.
        level: f32,
        /// The headroom in dB.
        headroom: f32,
    },
}

/// What a chain publishes.
#[derive(Clone, Copy, Debug, PartialEq)]
pub struct Published {
    /// The level of the speech in dBFS.
    pub level: f32,
    /// The headroom in dB.
    pub headroom: f32,
    /// The gain in dB.
    pub gain: f32,
    /// Whether the level is trusted.
    pub confident: bool,
}

/// The whole box: the level of the speech, the headroom, the gain and the limiter. It owns its state, allocates
/// nothing, and can be cloned.
#[derive(Clone)]
pub struct Chain {
    state: library::Chain,
    samples: usize,
}

impl Chain {
    /// A new chain for frames with so many samples a channel (10 ms: 480 at 48 kHz).
    ///
    /// The threshold, 1 to 3000, is how many speech frames in a row make a reading. Until a run has so many, it is
    /// [`Answer::Waiting`], and what stood before stays published: with 3000 that is thirty seconds of unbroken speech.
    ///
    /// The ring's capacity, 1 to 16, is how many peaks the chain remembers: each is the largest of 41 speech frames, and
    /// the headroom goes by the oldest. [`USUAL_RING`] is the usual one, and a larger one is for a hall that echoes, where
    /// the peak arrives late. It stays what it is as long as the chain does.
    ///
    /// # Errors
    ///
    /// [`Refusal::Version`] where the archive has another version, then [`Refusal::Floats`] where this thread does not
    /// compute floats as it should; then [`Refusal::Shape`] where no frame has so many samples, then
    /// [`Refusal::Setting`] for the settings, the threshold or the capacity.
    pub fn new(settings: &Settings, threshold: u32, samples: usize, ring_capacity: u32) -> Result<Chain, Refusal> {
        Refusal::of_call()?;
        let mut state = library::Chain::default();
        // SAFETY: both references are to whole structs in the layout that the library has.
        let reply = unsafe { library::murzicanu_chain_new(&mut state, settings, threshold, samples, ring_capacity) };
        Refusal::of(reply).map(|()| Chain { state, samples })
    }

    /// Takes a frame, channel after channel, with its figures: levels it where it stands, and tells what it was.
    ///
    /// # Errors
    ///
    /// The refusal; the chain and the frame are then as they were.
    pub fn step(&mut self, figures: &Figures, frame: &mut [f32], channels: usize) -> Result<Answer, Refusal> {
        let mut answer = library::Answer::default();
        // SAFETY: all references are to whole structs, the frame is handed on with its length, and Rust keeps them
        // apart.
        let reply = unsafe {
            library::murzicanu_chain_step(
                &mut self.state,
                figures,
                frame.as_mut_ptr(),
                frame.len(),
                channels,
                self.samples,
                &mut answer,
            )
        };
        Refusal::of(reply).map(|()| match answer.kind {
            0 => Answer::NonSpeech,
            1 => Answer::Waiting { missing: answer.missing },
            _ => Answer::Publishing { level: answer.level, headroom: answer.headroom },
        })
    }

    /// Marks a gap: time has passed that the chain has not heard, so that the frames before it and after it are not
    /// adjacent. No frame tells the chain of it, so the box has to, before the next frame:
    ///
    /// - where a frame was lost;
    /// - where the meter was frozen, so that there are no figures of its own for a frame: drop the frame's sound too, or
    ///   give figures, and do not hand in the old ones;
    /// - after a refused frame, if time was lost by it. A refused frame alone ends no run: it may be handed in again,
    ///   corrected.
    ///
    /// One call stands for any number of lost frames. It ends the run of speech as a non-speech frame does: a run shorter
    /// than the threshold is forgotten, any other is kept, and the next speech frame begins a new run. Before the gain may
    /// rise again, as many adjacent speech frames as the threshold says have to come. It has no sound and moves no gain:
    /// what is [`published`](Chain::published) stays.
    ///
    /// # Errors
    ///
    /// None where [`floats_ready`]: a chain that was made passes its test after every frame and every gap. Where it is
    /// refused, the chain is as it was.
    pub fn gap(&mut self) -> Result<(), Refusal> {
        // SAFETY: the reference is to a whole struct.
        Refusal::of(unsafe { library::murzicanu_chain_gap(&mut self.state) })
    }

    /// What the chain publishes now.
    ///
    /// # Errors
    ///
    /// None where [`floats_ready`]: a chain that was made passes its test after every frame and every gap.
    pub fn published(&self) -> Result<Published, Refusal> {
        let mut now = library::Published::default();
        // SAFETY: as above.
        let reply = unsafe { library::murzicanu_chain_read(&self.state, &mut now) };
        Refusal::of(reply).map(|()| Published {
            level: now.level,
            headroom: now.headroom,
            gain: now.gain,
            confident: now.confident == 1,
        })
    }

    /// The samples that a channel of its frames has.
    pub fn samples(&self) -> usize {
        self.samples
    }
}

/// The limiter alone: what it leaves lies between -32768 and 32767.
#[derive(Clone)]
pub struct Limiter {
    state: library::Limiter,
    samples: usize,
}

impl Limiter {
    /// A new limiter for frames with so many samples a channel.
    ///
    /// # Errors
    ///
    /// [`Refusal::Version`] where the archive has another version, then [`Refusal::Floats`] where this thread does not
    /// compute floats as it should; then [`Refusal::Shape`] where no frame has so many samples.
    pub fn new(samples: usize) -> Result<Limiter, Refusal> {
        Refusal::of_call()?;
        let mut state = library::Limiter::default();
        // SAFETY: the reference is to a whole struct in the layout that the library has.
        let reply = unsafe { library::murzicanu_limiter_new(&mut state, samples) };
        Refusal::of(reply).map(|()| Limiter { state, samples })
    }

    /// Limits a frame, channel after channel, where it stands.
    ///
    /// # Errors
    ///
    /// The refusal; the limiter and the frame are then as they were.
    pub fn step(&mut self, frame: &mut [f32], channels: usize) -> Result<(), Refusal> {
        // SAFETY: the frame is handed on with its length, and Rust keeps it apart from the state.
        let reply = unsafe {
            library::murzicanu_limiter_step(&mut self.state, frame.as_mut_ptr(), frame.len(), channels, self.samples)
        };
        Refusal::of(reply)
    }

    /// The envelope's last value, on the scale of samples.
    ///
    /// # Errors
    ///
    /// None where [`floats_ready`]: a limiter that was made passes its test after every frame.
    pub fn level(&self) -> Result<f32, Refusal> {
        let mut level = 0.0;
        // SAFETY: as above.
        let reply = unsafe { library::murzicanu_limiter_read(&self.state, &mut level) };
        Refusal::of(reply).map(|()| level)
    }
}

#[cfg(test)]
mod tests {
    use super::*;

    #[test]
    fn a_reply_that_is_not_known_is_its_own_error() {
        assert_eq!((0..5).map(Refusal::of).collect::<Vec<_>>(), [
            Ok(()),
            Err(Refusal::Shape),
            Err(Refusal::Figure),
            Err(Refusal::Sample),
            Err(Refusal::Setting)
        ]);
        assert_eq!(Refusal::of(5), Err(Refusal::Unknown(5)));
        assert_eq!(Refusal::Unknown(5).number(), Some(5));
        assert!(Refusal::Unknown(5).to_string().contains("does not know"));
    }

    #[test]
    fn another_version_is_refused() {
        assert_eq!(Refusal::of_version(VERSION), Ok(()));
        assert_eq!(Refusal::of_version(VERSION + 1), Err(Refusal::Version(VERSION + 1)));
        assert_eq!(Refusal::Version(7).number(), None);
        assert!(Refusal::Version(7).to_string().contains("version 7"));
        assert_eq!(Refusal::Floats.number(), None);
        assert!(Refusal::Floats.to_string().contains("floats"));
    }
}
