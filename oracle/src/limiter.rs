//! The limiter: whole sequences of frames with the Rust's limiter beside one that is written here from
//! document 01, over the level estimator of estimator.rs and the curve of curve.rs.
//!
//! The answers come from the one below, and after every call the Rust's must agree with it: in each
//! sample, and in its whole state, which the Rust's `Debug` form shows. A handed-in state is in most
//! cases that of a second limiter, which goes on in the Rust too; any other is held to document 01 alone,
//! and those frames are counted apart.
//!
//! The Rust as it stands goes along over the same frames, and shows how far its power function and the
//! eighth power by three squarings are apart.

use crate::clauses::{self, Clause, Edges, NOT_ABOVE_ZERO, NO_NUMBERS};
use crate::curve;
use crate::drive::{Ask, Length, Part};
use crate::estimator::{self, LARGEST};
use crate::lines::{self, bits, DONE, SETTING, SHAPE};
use crate::random::Random;
use crate::sound::{self, field, is_samples, Frame, Player, Tally};
use sonora_as_is::limiter::Limiter as AsItStands;
use sonora_ruled::limiter::Limiter as Published;
use sonora_ruled::rules::eighth_power;

/// The limiter by document 01.
#[derive(Clone, Copy)]
pub struct State {
    carried: f32,
    pub estimator: estimator::State,
    curve: curve::State,
}

impl Default for State {
    fn default() -> State {
        State {
            carried: 0.0,
            estimator: estimator::State::default(),
            curve: curve::FRESH,
        }
    }
}

impl State {
    pub fn new(samples: u32) -> State {
        State {
            carried: 1.0,
            estimator: estimator::State::new(samples),
            curve: curve::FRESH,
        }
    }

    /// "carried factor above 0, below 2".
    pub fn clauses(&self) -> Vec<Clause> {
        let mut all = vec![("limiter carried factor", 0.0 < self.carried && self.carried < 2.0)];
        all.extend(self.estimator.clauses());
        all.extend(self.curve.clauses());
        all
    }

    pub fn passes(&self) -> bool {
        clauses::hold(&self.clauses())
    }

    pub fn figures(&self) -> Vec<u32> {
        let mut all = vec![bits(self.carried)];
        all.extend(self.estimator.figures());
        all.extend(self.curve.figures());
        all
    }

    /// The state, and what each call says that only looks at it: whether it passes, and the last level.
    pub fn shown(&self) -> Vec<u32> {
        let mut all = self.figures();
        all.extend(if self.passes() { [1, DONE, bits(self.estimator.level)] } else { [0, SETTING, 0] });
        all
    }

    /// The state with these figures.
    pub fn read(figures: &[u32]) -> Option<State> {
        match figures {
            [carried, level, samples, part, curve @ ..] => Some(State {
                carried: f32::from_bits(*carried),
                estimator: estimator::State {
                    level: f32::from_bits(*level),
                    samples: *samples,
                    part: *part,
                },
                curve: curve::State::read(curve)?,
            }),
            _ => None,
        }
    }

    /// "Sample j of a sub-frame of s samples has start + ((end-start)/s)*j. If the carried factor is
    /// above the first new one, the first sub-frame uses the eighth power of 1-t, t = j/s, times the
    /// difference, plus the new one." Then the product, clipped.
    pub fn process(&mut self, channels: &mut [Vec<f32>]) {
        let levels = self.estimator.envelope(channels);
        let size = self.estimator.part as usize;
        let s = size as f32;
        let mut start = self.carried;
        for (k, level) in levels.into_iter().enumerate() {
            let end = self.curve.look_up(level);
            for j in 0..size {
                let factor = if k == 0 && start > end {
                    eighth_power(1.0 - j as f32 / s) * (start - end) + end
                } else {
                    start + ((end - start) / s) * j as f32
                };
                for channel in channels.iter_mut() {
                    let x = &mut channel[k * size + j];
                    *x = (*x * factor).clamp(-32768.0, 32767.0);
                }
            }
            start = end;
        }
        self.carried = start;
    }
}

/// Whether the Rust's limiter has this state.
pub fn is_shown(state: &State, other: &Published) -> bool {
    let text = format!("{:?}", other);
    let curve = &state.curve;
    let names = [
        "look_ups_identity_region",
        "look_ups_knee_region",
        "look_ups_limiter_region",
        "look_ups_saturation_region",
    ];
    let regions = ["Identity", "Knee", "Limiter", "Saturation"];
    estimator::is_shown(&state.estimator, &text)
        && field::<f32>(&text, "last_scaling_factor").map(f32::to_bits) == Some(state.carried.to_bits())
        && names.iter().zip(curve.counts).all(|(name, n)| field(&text, name) == Some(n))
        && field(&text, "available") == Some(curve.available)
        && field(&text, " region") == Some(regions[curve.region as usize].to_string())
        && field(&text, "region_duration_frames") == Some(curve.duration)
}

/// Where the eighth power and the power function of the Rust as it stands are farthest apart.
#[derive(Default)]
struct Departure {
    samples: usize,
    unlike: usize,
    worst: [(f64, String); 2],
}

impl Departure {
    fn note(&mut self, frame: usize, ours: &[Vec<f32>], theirs: &[Vec<f32>], state: &State) {
        for (c, (one, other)) in ours.iter().zip(theirs).enumerate() {
            for (i, (&x, &y)) in one.iter().zip(other).enumerate() {
                self.samples += 1;
                if x.to_bits() == y.to_bits() {
                    continue;
                }
                self.unlike += 1;
                let apart = (x as f64 - y as f64).abs();
                let places = (x.to_bits() as i64 - y.to_bits() as i64).abs() as f64;
                for (held, found) in self.worst.iter_mut().zip([apart, places]) {
                    if found > held.0 {
                        let place = format!(
                            "frame {}, channel {}, sample {} of {}: {:?} and {:?}",
                            frame, c, i, state.estimator.samples, x, y
                        );
                        *held = (found, place);
                    }
                }
            }
        }
    }
}

/// A limiter by document 01, with the Rust's two beside it where they go along.
struct Trio {
    state: State,
    rust: Option<(Published, AsItStands)>,
}

impl Trio {
    fn new(samples: u32) -> Trio {
        let n = samples as usize;
        Trio {
            state: State::new(samples),
            rust: Some((Published::new(n), AsItStands::new(n))),
        }
    }

    fn alone(state: State) -> Trio {
        Trio { state, rust: None }
    }
}

struct Desk {
    now: Trio,
    aside: Trio,
    unlike: Vec<String>,
    tally: Tally,
    attacks: usize,
    departure: Departure,
}

impl Desk {
    fn new() -> Desk {
        Desk {
            now: Trio::alone(State::default()),
            aside: Trio::new(480),
            unlike: Vec::new(),
            tally: Tally::default(),
            attacks: 0,
            departure: Departure::default(),
        }
    }

    /// Asks; the answer is the reply, the state, whether it passes, the last level, and the samples.
    fn put(&mut self, name: &str, figures: &[u32], reply: u32, rest: &[u32], to: Ask) -> bool {
        let state = &self.now.state;
        if let Some((other, _)) = &self.now.rust {
            if !is_shown(state, other) || other.last_audio_level().to_bits() != state.estimator.level.to_bits() {
                let ours: Vec<String> = state.figures().iter().map(|f| format!("{:08x}", f)).collect();
                self.unlike.push(format!("after {} in frame {}: the state is {}", name, self.tally.frames, ours.join(" ")));
            }
        }
        let mut all = vec![reply];
        all.extend(state.shown());
        all.extend(rest);
        to(lines::question(name, figures), lines::answer(&all))
    }

    fn call(&mut self, name: &str, figures: &[u32], reply: u32, to: Ask) -> bool {
        self.tally.others += 1;
        self.tally.call(reply);
        self.put(name, figures, reply, &[], to)
    }

    fn fresh(&mut self, samples: u32, to: Ask) -> bool {
        let reply = if is_samples(samples) {
            self.now = Trio::new(samples);
            DONE
        } else {
            self.now = Trio::alone(State::default());
            SHAPE
        };
        self.call("limiter.new", &[samples], reply, to)
    }

    /// Hands the state of the other limiter in, and puts this one aside.
    fn swap(&mut self, to: Ask) -> bool {
        std::mem::swap(&mut self.now, &mut self.aside);
        let figures = self.now.state.figures();
        self.call("limiter.set", &figures, DONE, to)
    }

    /// Hands any state in, which the Rust cannot be brought to.
    fn set(&mut self, state: State, to: Ask) -> bool {
        self.now = Trio::alone(state);
        let mut figures = state.figures();
        figures[0] = state.carried.to_bits();
        figures[1] = state.estimator.level.to_bits();
        self.call("limiter.set", &figures, DONE, to)
    }

    fn change(&mut self, samples: u32, to: Ask) -> bool {
        let reply = if !is_samples(samples) {
            SHAPE
        } else if !self.now.state.passes() {
            SETTING
        } else {
            self.now.state.estimator.samples = samples;
            self.now.state.estimator.part = samples / 20;
            if let Some((one, other)) = &mut self.now.rust {
                one.set_samples_per_channel(samples as usize);
                other.set_samples_per_channel(samples as usize);
            }
            DONE
        };
        self.call("limiter.samples", &[samples], reply, to)
    }

    /// "Reset clears only the envelope state: the carried factor and counts stay."
    fn reset(&mut self, to: Ask) -> bool {
        let reply = if self.now.state.passes() {
            self.now.state.estimator.level = 0.0;
            if let Some((one, other)) = &mut self.now.rust {
                one.reset();
                other.reset();
            }
            DONE
        } else {
            SETTING
        };
        self.call("limiter.reset", &[], reply, to)
    }
}

fn any_carried(source: &mut Random) -> u32 {
    match source.up_to(15) {
        0 => [0x0000_0000, 0x8000_0000, 0x4000_0000, 0xbf80_0000, 0x7fc0_0000, 0x7f80_0000][source.up_to(5) as usize],
        1 => 0x3fff_ffff,
        2 => 0x0000_0001,
        3 => 0x3f80_0000,
        _ => source.up_to(0x3fff_fffe) + 1,
    }
}

impl Player for Desk {
    fn tally(&mut self) -> &mut Tally {
        &mut self.tally
    }

    fn object(&mut self, why: Vec<String>) {
        self.unlike.extend(why);
    }

    fn bound(&self) -> f32 {
        LARGEST
    }

    fn set_to(&self) -> Option<u32> {
        Some(self.now.state.estimator.samples)
    }

    fn passes(&self) -> bool {
        self.now.state.passes()
    }

    fn renew(&mut self, samples: u32, _: &mut Random, to: Ask) -> bool {
        self.fresh(samples, to)
    }

    fn play(&mut self, frame: &Frame, to: Ask) -> bool {
        let before = self.now.state;
        let reply = frame.reply(frame.samples == before.estimator.samples, before.passes(), LARGEST);
        let mut samples = frame.untouched();
        if reply == DONE {
            let mut ours = frame.sound();
            self.now.state.process(&mut ours);
            samples = sound::flat(&ours);
            if let Some((one, other)) = &mut self.now.rust {
                let (mut ruled, mut as_is) = (frame.sound(), frame.sound());
                one.process(&mut ruled.iter_mut().map(|c| c.as_mut_slice()).collect::<Vec<_>>());
                other.process(&mut as_is.iter_mut().map(|c| c.as_mut_slice()).collect::<Vec<_>>());
                if sound::flat(&ruled) != samples {
                    self.unlike.push(format!("the samples of frame {}", self.tally.frames));
                }
                self.departure.note(self.tally.frames, &ruled, &as_is, &before);
            }
            // The first new factor is below the carried one: seen by a limiter of one level.
            let mut first = before;
            let level = first.estimator.envelope(&frame.sound())[0];
            self.attacks += (first.curve.look_up(level) < before.carried) as usize;
        }
        self.tally.frame(frame, reply, self.now.rust.is_some());
        self.put("limiter.process", &frame.figures(), reply, &samples, to)
    }

    fn other(&mut self, source: &mut Random, to: Ask) -> bool {
        match source.up_to(31) {
            0..=7 => self.reset(to),
            8 => self.change([0, 20, 50, 500, u32::MAX][source.up_to(4) as usize], to),
            9..=16 => self.change(sound::any_samples(source), to),
            17 => self.fresh([0, 20, 50, 500, 39][source.up_to(4) as usize], to),
            18..=26 => self.swap(to),
            _ => {
                let [samples, part] = estimator::any_set(source);
                let state = State {
                    carried: f32::from_bits(any_carried(source)),
                    estimator: estimator::State {
                        level: f32::from_bits(estimator::any_level(source)),
                        samples,
                        part,
                    },
                    curve: curve::any_state(source),
                };
                self.set(state, to)
            }
        }
    }

    fn edges(&self) -> Edges {
        edges()
    }

    fn amiss(&self) -> Vec<String> {
        edges().amiss(&[], &clauses_of)
    }

    fn at_edge(&mut self, figures: &[u32], to: Ask) -> Option<bool> {
        let state = State::read(figures)?;
        Some(self.set(state, to))
    }

    fn refuse(&mut self, to: Ask) -> bool {
        self.reset(to) && self.change(80, to) && self.change(50, to)
    }
}

/// The states at the edges of the test.
pub fn edges() -> Edges {
    let (estimator, curve) = (estimator::edges(), curve::edges());
    let mut good = vec![1.0_f32.to_bits()];
    good.extend(&estimator.good);
    good.extend(&curve.good);
    let mut all = Edges::of(good);
    all.at("limiter carried factor", 0, &[1, 0x3fff_ffff], &NOT_ABOVE_ZERO);
    all.at("limiter carried factor", 0, &[], &[0x4000_0000, 0x4000_0001]);
    all.at("limiter carried factor", 0, &[], &NO_NUMBERS);
    all.part(1, &estimator);
    all.part(1 + estimator.good.len(), &curve);
    all
}

fn clauses_of(figures: &[u32]) -> Option<Vec<Clause>> {
    Some(State::read(figures)?.clauses())
}

/// The questions of the fixed list.
pub fn list(seed: u64, to: Ask) -> Vec<String> {
    let mut desk = Desk::new();
    sound::list(&mut desk, seed, to);
    desk.unlike
}

pub struct Limiters {
    seed: u64,
    length: Length,
    desk: Desk,
}

impl Limiters {
    pub fn new(seed: u64, length: Length) -> Limiters {
        Limiters {
            seed,
            length,
            desk: Desk::new(),
        }
    }
}

impl Part for Limiters {
    fn name(&self) -> &'static str {
        "limiter"
    }

    fn ask(&mut self, to: Ask) {
        let samples = self.length.of(500_000, 12_000_000, 2_000_000);
        sound::run(&mut self.desk, self.seed, self.length, samples, to);
    }

    fn again(&mut self, name: &str, figures: &[u32], to: Ask) -> Option<bool> {
        let desk = &mut self.desk;
        Some(match (name, figures) {
            ("limiter.new", &[samples]) => desk.fresh(samples, to),
            ("limiter.set", state) => desk.set(State::read(state)?, to),
            ("limiter.samples", &[samples]) => desk.change(samples, to),
            ("limiter.reset", []) => desk.reset(to),
            ("limiter.process", frame) => desk.play(&Frame::read(frame)?, to),
            _ => return None,
        })
    }

    fn clauses(&self) -> Vec<&'static str> {
        edges().names(&[], &clauses_of)
    }

    fn kinds(&self) -> Vec<(&'static str, usize)> {
        self.desk.tally.kinds()
    }

    fn unlike(&self) -> &[String] {
        &self.desk.unlike
    }

    fn notes(&self) -> Vec<String> {
        let found = &self.desk.departure;
        let mut all = vec![
            self.desk.tally.note(),
            format!("of the frames {} begin with an attack, by the eighth power", self.desk.attacks),
            format!(
                "against the Rust as it stands, which calls the power function: {} samples, {} with other bits; largest differences:",
                found.samples, found.unlike
            ),
        ];
        for (what, held) in ["absolute", "units in the last place"].iter().zip(&found.worst) {
            all.push(format!("  {:.6e} {} in {}", held.0, what, held.1));
        }
        all
    }
}
