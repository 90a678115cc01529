//! The chain: the four published modules in document 01's order, over whole services of readings, coughs
//! and pauses, beside the four states of this oracle, written from document 01. Compared are every published figure,
//! every sample, and, where it is asked for, the whole state; after every frame the Rust's four must have these states.
//!
//! Each service is asked about twice: as it is, and with every frame of its coughs replaced by one that is
//! no speech. A cough is a run of speech frames that is shorter than the threshold and closed by a frame
//! that is no speech, or by a gap. What is published and every sample must be the same in both: document 01's third
//! demand, tried on the running code. Between the frames as they are there are refused ones here and there, and none
//! in the second run: so a refused frame is not counted, does not end a run and leaves no trace. About half of the services
//! have gaps. The Rust has none: its level and headroom get a frame that is no speech, and what its controller does is document
//! 02's rule; a gap must not change what is published.
//!
//! The services run with rings of the Rust's size; a few have rings of another, and these run by documents 01 and 02 alone. Some are as
//! long as it takes to go round the ring, and their peaks are near enough to their speech for each to move the headroom.
//!
//! Any state can be handed in. One that fails document 01's test is refused with 4, and then stands as it came; one
//! that passes goes on by document 01 alone, and those frames are counted apart.
//!
//! The Rust as it stands goes along, and shows how far the two power functions bring whole chains apart.

use crate::applier::LARGEST;
use crate::clauses::{self, Clause, Edges, MINUS_ZERO};
use crate::drive::{Ask, Length, Part};
use crate::judge::{self, Departure, Settings, ENVELOPE, LEVEL, RMS};
use crate::lines::{self, bits, DONE, FIGURE, SAMPLE, SETTING, SHAPE};
use crate::random::Random;
use crate::sound::{self, Frame};
use crate::{controller, limiter, protector, speech};

/// The headroom that a chain starts with.
const INITIAL: f32 = 20.0;

/// A frame's figures: probability, rms, peak, noise, envelope.
pub type Figures = [u32; 5];

pub const GOOD: Figures = [0x3f80_0000, 0xc220_0000, 0xc1a0_0000, 0xc2b4_0000, 0xc2b4_0000];

/// Frames that are no speech, for the Rust in the place of a gap: with figures at the ends of their ranges, and others.
pub const LOST: [Figures; 4] = [
    [0, 0xc270_0000, 0xc270_0000, 0xc2b4_0000, 0xc2b4_0000],
    [0x3f73_3332, 0x4247_ffff, 0x4248_0000, 0x4248_0000, 0x42c8_0000],
    [0x8000_0000, 0xc315_ffff, 0xc316_0000, 0xc316_0000, 0xc316_0000],
    [0x3f00_0000, 0x8000_0000, 0, 0, 0x8000_0000],
];

pub fn accepted(figures: &Figures) -> bool {
    let [p, rms, peak, noise, envelope] = figures.map(f32::from_bits);
    let within = |x: f32, low: f32, high: f32| low <= x && x <= high;
    within(p, 0.0, 1.0)
        && -150.0 < rms
        && rms < 50.0
        && within(peak, -150.0, 50.0)
        && within(noise, -150.0, 50.0)
        && within(envelope, -150.0, 100.0)
}

/// What is published: the bits of level and headroom, whether the level is trusted, the bits of the gain.
pub type Published = [u32; 4];

/// The four modules of one build, as one.
macro_rules! chain {
    ($name:ident, $build:ident) => {
        pub mod $name {
            use super::{Figures, Published, INITIAL};
            use crate::judge::Settings;
            use crate::lines::bits;
            use crate::sound::field;
            use $build::adaptive_digital_gain_controller::{AdaptiveDigitalGainController, FrameInfo};
            use $build::limiter::Limiter;
            use $build::saturation_protector::SaturationProtector;
            use $build::speech_level_estimator::{AdaptiveDigitalConfig, SpeechLevelEstimator};

            pub struct Chain {
                pub level: SpeechLevelEstimator,
                pub protector: SaturationProtector,
                pub controller: AdaptiveDigitalGainController,
                pub limiter: Limiter,
            }

            fn config(settings: &Settings) -> AdaptiveDigitalConfig {
                AdaptiveDigitalConfig {
                    headroom_db: settings.at(0),
                    max_gain_db: settings.at(1),
                    initial_gain_db: settings.at(2),
                    max_gain_change_db_per_second: settings.at(3),
                    max_output_noise_level_dbfs: settings.at(4),
                }
            }

            impl Chain {
                pub fn new(settings: &Settings, threshold: u32, samples: u32) -> Chain {
                    let t = threshold as i32;
                    Chain {
                        level: SpeechLevelEstimator::new(&config(settings), t),
                        protector: SaturationProtector::new(INITIAL, t),
                        controller: AdaptiveDigitalGainController::new(config(settings), t),
                        limiter: Limiter::new(samples as usize),
                    }
                }

                /// "Protector and controller take this same frame's published level, the controller its
                /// headroom too."
                pub fn step(&mut self, figures: &Figures, sound: &mut [Vec<f32>]) {
                    let [p, rms, peak, noise, envelope] = figures.map(f32::from_bits);
                    self.level.update(rms, p);
                    let level = self.level.level_dbfs();
                    self.protector.analyze(p, peak, level);
                    let known = FrameInfo {
                        speech_probability: p,
                        speech_level_dbfs: level,
                        speech_level_reliable: self.level.is_confident(),
                        noise_rms_dbfs: noise,
                        headroom_db: self.protector.headroom_db(),
                        limiter_envelope_dbfs: envelope,
                    };
                    let mut channels: Vec<&mut [f32]> = sound.iter_mut().map(|c| c.as_mut_slice()).collect();
                    self.controller.process(&known, &mut channels);
                    self.limiter.process(&mut channels);
                }

                /// A gap "ends the run as a non-speech frame does": the two that have a run get such a frame, whose
                /// figures do not matter. It "sets the controller's waiting count back to T, handles no samples and
                /// moves no gain".
                pub fn gap(&mut self, figures: &Figures) {
                    let [p, rms, peak, ..] = figures.map(f32::from_bits);
                    let Chain { level, protector, controller, .. } = self;
                    level.update(rms, p);
                    protector.analyze(p, peak, level.level_dbfs());
                    controller.gap();
                }

                /// What is published. The gain is private, and the Rust's `Debug` form shows it.
                pub fn published(&self) -> Option<Published> {
                    let gain: f32 = field(&format!("{:?}", self.controller), "last_gain_db")?;
                    Some([
                        bits(self.level.level_dbfs()),
                        bits(self.protector.headroom_db()),
                        self.level.is_confident() as u32,
                        bits(gain),
                    ])
                }
            }
        }
    };
}

chain!(ruled, sonora_ruled);
chain!(as_is, sonora_as_is);

/// The chain by document 01: the states of its four parts.
#[derive(Clone, Copy, Default)]
struct State {
    speech: speech::State,
    protector: protector::State,
    controller: controller::State,
    limiter: limiter::State,
}

/// Where the figures of the parts stand in those of a chain, behind the limiter's, and those of the settings and thresholds.
const SPEECH: usize = 16;
const PROTECTOR: usize = SPEECH + 16;
const CONTROLLER: usize = PROTECTOR + 48;
const STATE: usize = CONTROLLER + 14;
const SETTINGS: [usize; 2] = [SPEECH, CONTROLLER + 5];
const THRESHOLDS: [usize; 3] = [SPEECH + 5, PROTECTOR + 1, CONTROLLER + 10];
/// The starting level, by the speech level's settings, and the change in a frame, by the controller's.
const STARTING: usize = SPEECH + 6;
const CHANGE: usize = CONTROLLER + 11;

/// The clauses that the others imply: the thresholds are alike, and so are the settings but for the sign of a zero;
/// the initial headroom is 20.
const IMPLIED: [&str; 8] = [
    "speech threshold",
    "protector threshold",
    "controller threshold",
    "speech largest gain",
    "controller largest gain",
    "speech change per second",
    "controller change per second",
    "protector initial headroom",
];

/// The clauses about the settings, which are alike.
const ALIKE: [&str; 5] = [
    "chain headroom setting",
    "chain largest gain",
    "chain initial gain",
    "chain change per second",
    "chain output noise",
];

impl State {
    /// "The chain takes it beside the strip's settings": the ring's size.
    fn new(settings: Settings, threshold: u32, samples: u32, capacity: u32) -> State {
        State {
            speech: speech::State::new(settings, threshold),
            protector: protector::State::new(INITIAL, threshold, capacity),
            controller: controller::State::new(settings, threshold),
            limiter: limiter::State::new(samples),
        }
    }

    /// "a chain's parts alike in T and settings, initial headroom 20".
    fn clauses(&self) -> Vec<Clause> {
        let mut all = self.speech.clauses();
        all.extend(self.protector.clauses());
        all.extend(self.controller.clauses());
        all.extend(self.limiter.clauses());
        let t = self.speech.threshold;
        all.push(("chain threshold of the protector", t == self.protector.threshold));
        all.push(("chain threshold of the controller", t == self.controller.threshold));
        for (i, name) in ALIKE.into_iter().enumerate() {
            all.push((name, self.speech.settings.at(i) == self.controller.settings.at(i)));
        }
        all.push(("chain initial headroom", self.protector.initial == INITIAL));
        all
    }

    fn passes(&self) -> bool {
        clauses::hold(&self.clauses())
    }

    fn figures(&self) -> Vec<u32> {
        let mut all = self.limiter.figures();
        all.extend(self.speech.figures());
        all.extend(self.protector.figures());
        all.extend(self.controller.figures());
        all
    }

    /// The state with these figures.
    fn read(figures: &[u32]) -> Option<State> {
        if figures.len() != STATE {
            return None;
        }
        Some(State {
            limiter: limiter::State::read(&figures[..SPEECH])?,
            speech: speech::State::read(&figures[SPEECH..PROTECTOR])?,
            protector: protector::State::read(&figures[PROTECTOR..CONTROLLER])?,
            controller: controller::State::read(&figures[CONTROLLER..])?,
        })
    }

    /// "Protector and controller take this same frame's published level, the controller its headroom too." Answers
    /// what the frame was, "P carries the level and headroom, a W how many frames are missing"; and what the protector does.
    fn step(&mut self, figures: &Figures, channels: &mut [Vec<f32>]) -> Option<([u32; 4], Option<bool>)> {
        let [p, rms, peak, ..] = figures.map(f32::from_bits);
        self.speech.update(rms, p);
        let level = self.speech.level;
        let pushed = self.protector.analyze(p, peak, level);
        let known = [figures[0], bits(level), self.speech.confident as u32, figures[3], bits(self.protector.headroom), figures[4]];
        self.controller.process(&controller::Info(known), channels)?;
        self.limiter.process(channels);
        let case = match (judge::is_speech(p), self.speech.threshold - self.speech.count) {
            (false, _) => [0; 4],
            (true, 0) => [2, 0, bits(level), bits(self.protector.headroom)],
            (true, missing) => [1, missing, 0, 0],
        };
        Some((case, pushed))
    }

    /// A gap: "Demands 2 and 3 read a gap as a non-speech frame without sound or gain step".
    fn gap(&mut self) {
        self.speech.gap();
        self.protector.gap();
        self.controller.gap();
    }

    fn published(&self) -> Published {
        [bits(self.speech.level), bits(self.protector.headroom), self.speech.confident as u32, bits(self.controller.gain)]
    }
}

/// The states at the edges of the test. A part's edge stands in a chain whose other parts are alike; and then come the
/// chain's own.
fn edges() -> Edges {
    let parts = [limiter::edges(), speech::edges(), protector::edges(), controller::edges()];
    let mut all = Edges::of(parts.iter().flat_map(|part| part.good.clone()).collect());
    for (at, part) in [0, SPEECH, PROTECTOR, CONTROLLER].into_iter().zip(&parts) {
        let mut some = Edges::of(all.good.clone());
        some.part(at, part);
        for mut edge in some.all {
            alike(at, &mut edge.figures);
            // What is in range for a protector alone is not for a chain.
            if edge.inside && edge.clause == "protector initial headroom" {
                continue;
            }
            all.all.push(edge);
        }
    }
    // A negative zero in the settings of one part: they are alike, and one fails.
    for (i, names) in [
        (0, ["speech headroom setting", "controller headroom setting"]),
        (2, ["speech initial gain", "controller initial gain"]),
        (4, ["speech output noise", "controller output noise"]),
    ] {
        let mut settings = Settings::USUAL;
        settings.0[i] = 0;
        let starting = bits(speech::starting(&settings));
        for (name, signs) in [(names[0], [MINUS_ZERO, 0]), (names[1], [0, MINUS_ZERO])] {
            let [one, other] = SETTINGS.map(|at| at + i);
            all.with(name, false, &[(one, signs[0]), (other, signs[1]), (STARTING, starting)]);
            all.with(name, true, &[(one, 0), (other, 0), (STARTING, starting)]);
        }
    }
    // Each threshold beside the other two.
    for (t, name) in [(1, "chain threshold of the protector"), (2, "chain threshold of the controller")] {
        all.at(name, THRESHOLDS[t], &[3], &[2, 4, 1, 200, judge::LARGEST_THRESHOLD]);
    }
    all.at("chain threshold of the protector", THRESHOLDS[0], &[], &[2, 4]);
    // Each setting of the controller beside the speech level's, and the other way round, by one place.
    for (i, name) in ALIKE.into_iter().enumerate() {
        let usual = Settings::USUAL.at(i);
        let near = match i {
            1 => [clauses::below(usual), 1.0_f32.to_bits()],
            _ => [clauses::below(usual), clauses::above(usual)],
        };
        all.at(name, SETTINGS[0] + i, &[usual.to_bits()], &[]);
        for figure in near {
            let mut settings = Settings::USUAL;
            settings.0[i] = figure;
            all.with(name, false, &[(SETTINGS[1] + i, figure), (CHANGE, bits(controller::change(&settings)))]);
            all.with(name, false, &[(SETTINGS[0] + i, figure), (STARTING, bits(speech::starting(&settings)))]);
        }
    }
    let initial = [clauses::below(INITIAL), clauses::above(INITIAL), 1, 100.0_f32.to_bits()];
    all.at("chain initial headroom", PROTECTOR, &[INITIAL.to_bits()], &initial);
    all.at("protector initial headroom", PROTECTOR, &[INITIAL.to_bits()], &[]);
    // What no clause speaks of: the applier's samples need not be the chain's, nor the two run counts the same.
    all.with("applier samples", true, &[(CONTROLLER + 3, 480), (CONTROLLER + 4, (1.0_f32 / 480.0).to_bits())]);
    all.with("speech count", true, &[(SPEECH + 15, 2), (PROTECTOR + 2, 1)]);
    all
}

/// Makes the parts alike to the one that stands at a place, in threshold and settings.
fn alike(at: usize, figures: &mut [u32]) {
    let threshold = match at {
        PROTECTOR => figures[THRESHOLDS[1]],
        CONTROLLER => figures[THRESHOLDS[2]],
        _ => figures[THRESHOLDS[0]],
    };
    for place in THRESHOLDS {
        figures[place] = threshold;
    }
    let from = SETTINGS[(at == CONTROLLER) as usize];
    let mut settings = Settings::USUAL;
    settings.0.copy_from_slice(&figures[from..from + 5]);
    for place in SETTINGS {
        figures[place..place + 5].copy_from_slice(&settings.0);
    }
    if at == CONTROLLER {
        figures[STARTING] = bits(speech::starting(&settings));
    } else {
        figures[CHANGE] = bits(controller::change(&settings));
    }
}

fn clauses_of(figures: &[u32]) -> Option<Vec<Clause>> {
    Some(State::read(figures)?.clauses())
}

/// A reading or a cough, with the pause that closes it: how many frames of speech and of pause, what
/// their rms, peak, noise and envelope are drawn near to, and whether rms and peak stay there.
#[derive(Clone, Copy)]
pub struct Passage {
    pub cough: bool,
    pub length: u32,
    pub pause: u32,
    middles: [f32; 4],
    stays: bool,
}

impl Passage {
    pub fn any(threshold: u32, source: &mut Random) -> Passage {
        let cough = threshold > 1 && source.up_to(2) > 0;
        let length = match source.up_to(3) {
            0 if cough => threshold - 1,
            _ if cough => 1 + source.up_to(threshold - 2),
            0 => threshold,
            1 => threshold + 1,
            _ => threshold + source.up_to(60),
        };
        Passage::of(length, threshold, source)
    }

    /// One of so many frames.
    pub fn of(length: u32, threshold: u32, source: &mut Random) -> Passage {
        let pause = if source.up_to(3) == 0 { 1 + source.up_to(20) } else { 1 };
        let middles = [
            RMS.middle(source),
            LEVEL.middle(source),
            -100.0 * judge::fraction(source),
            if source.up_to(2) == 0 { 20.0 * judge::fraction(source) - 2.0 } else { -90.0 },
        ];
        Passage {
            cough: length < threshold,
            length,
            pause,
            middles,
            stays: false,
        }
    }

    /// One of so many frames whose peaks lie above the speech by about what the headroom can be, and by more or less than those of
    /// others: so each peak that is the oldest moves the headroom in its own way.
    pub fn near(length: u32, threshold: u32, source: &mut Random) -> Passage {
        let mut passage = Passage::of(length, threshold, source);
        passage.middles[0] = -41.0;
        passage.middles[1] = -31.0 + 16.0 * judge::fraction(source);
        passage.stays = true;
        passage
    }

    /// Readings, each with a cough behind it, until the readings have so many frames of speech.
    pub fn many_near(threshold: u32, frames: u32, source: &mut Random) -> Vec<Passage> {
        let (mut all, mut speech) = (Vec::new(), 0);
        while speech < frames {
            let length = threshold + source.up_to(120);
            speech += length;
            all.push(Passage::near(length, threshold, source));
            if threshold > 1 {
                all.push(Passage::near(threshold - 1, threshold, source));
            }
        }
        all
    }

    /// The same with so many frames of speech and of pause.
    fn with(self, length: u32, pause: u32, threshold: u32) -> Passage {
        Passage {
            cough: length < threshold,
            length,
            pause,
            ..self
        }
    }

    /// The figures of one of its frames.
    pub fn figures(&self, speech: bool, source: &mut Random) -> Figures {
        let mut all = [
            judge::probability(speech, source),
            RMS.any(self.middles[0], source),
            LEVEL.any(self.middles[1], source),
            LEVEL.any(self.middles[2], source),
            ENVELOPE.any(self.middles[3], source),
        ];
        if self.stays {
            all[1] = (self.middles[0] + 2.0 * judge::fraction(source)).to_bits();
            all[2] = (self.middles[1] + judge::fraction(source)).to_bits();
        }
        all
    }
}

/// A frame of a service, whether it belongs to a cough, and how many gaps are behind it.
struct Step {
    figures: Figures,
    frame: Frame,
    cough: bool,
    gaps: u32,
}

/// What comes out of a frame: what is published, and the samples.
type Outcome = (Published, Vec<u32>);

struct Both {
    ruled: ruled::Chain,
    as_is: as_is::Chain,
}

impl Both {
    /// Whether the Rust's four have these states, and then how many zeros of the other sign were let through.
    fn is_shown(&self, state: &State) -> Option<usize> {
        let rust = &self.ruled;
        let controller = judge::values(&format!("{:?}", rust.controller), &controller::NAMES);
        let same = speech::is_shown(&state.speech, &rust.level)
            && controller.as_ref() == Some(&state.controller.figures())
            && limiter::is_shown(&state.limiter, &rust.limiter)
            && rust.published() == Some(state.published());
        protector::is_shown(&state.protector, &rust.protector).filter(|_| same)
    }
}

#[derive(Default)]
struct Desk {
    state: State,
    /// The Rust's two, where they go along.
    rust: Option<Both>,
    unlike: Vec<String>,
    departures: [Departure; 4],
    /// Frames of services as they are, and without their coughs; frames changed, coughs, readings.
    frames: [usize; 2],
    changed: usize,
    coughs: usize,
    readings: usize,
    samples: usize,
    refused: [usize; 5],
    others: usize,
    /// Refused frames in services, states at the edges, accepted frames by document 01 alone, states handed in anew in
    /// services, and zeros that were let through.
    between: usize,
    at_edges: usize,
    by_hand: usize,
    again: usize,
    zeros: usize,
    /// Frames of services with a threshold above 200 as they are, and first faster steps that no T up to 200 allows.
    long: [usize; 2],
    /// Gaps that are not refused, and of them those that close a cough.
    gaps: [usize; 2],
    /// Frames that push with the Rust beside, and those of them into a full ring.
    pushes: [usize; 2],
}

impl Desk {
    /// Asks; the answer is the reply, whether the chain passes, what the frame was, what is published, and
    /// the samples.
    fn put(&mut self, name: &str, figures: &[u32], reply: u32, case: [u32; 4], rest: &[u32], to: Ask) -> bool {
        self.put_behind(&[], name, figures, reply, case, rest, to)
    }

    /// The same, with figures behind the reply.
    fn put_behind(&mut self, ahead: &[u32], name: &str, figures: &[u32], reply: u32, case: [u32; 4], rest: &[u32], to: Ask) -> bool {
        let passes = self.state.passes();
        if let Some(both) = &self.rust {
            match both.is_shown(&self.state) {
                Some(zeros) => self.zeros += zeros,
                None => {
                    let why = format!("after {} in frame {}: {:08x?}", name, self.frames[0] + self.frames[1], self.state.figures());
                    judge::object(&mut self.unlike, why);
                }
            }
        }
        let mut all = vec![reply];
        all.extend(ahead);
        all.push(passes as u32);
        all.extend(case);
        all.extend(if passes { self.state.published() } else { [0; 4] });
        all.extend(rest);
        self.refused[reply as usize] += 1;
        to(lines::question(name, figures), lines::answer(&all))
    }

    /// A new chain with rings of the Rust's size.
    fn fresh(&mut self, settings: Settings, threshold: u32, samples: u32, to: Ask) -> bool {
        self.fresh_with(settings, threshold, samples, judge::ring(), to)
    }

    /// One with rings of any size, which is a setting. The Rust goes along where it has such rings.
    fn fresh_with(&mut self, settings: Settings, threshold: u32, samples: u32, capacity: u32, to: Ask) -> bool {
        let reply = if !sound::is_samples(samples) {
            SHAPE
        } else if !(settings.accepted() && judge::is_threshold(threshold) && judge::is_capacity(capacity)) {
            SETTING
        } else {
            DONE
        };
        self.state = if reply == DONE { State::new(settings, threshold, samples, capacity) } else { State::default() };
        self.rust = (reply == DONE && capacity == judge::ring()).then(|| Both {
            ruled: ruled::Chain::new(&settings, threshold, samples),
            as_is: as_is::Chain::new(&settings, threshold, samples),
        });
        self.others += 1;
        let mut figures = settings.0.to_vec();
        figures.extend([threshold, samples, capacity]);
        self.put("chain.new", &figures, reply, [0; 4], &[], to)
    }

    /// Hands a state in, by its figures.
    fn set(&mut self, figures: &[u32], to: Ask) -> Option<bool> {
        self.state = State::read(figures)?;
        self.rust = None;
        self.others += 1;
        Some(self.put("chain.set", figures, DONE, [0; 4], &[], to))
    }

    /// Hands the state in that there is, every second time with any bits in the slots of the rings that the Rust does not have: the Rust
    /// goes on.
    fn set_again(&mut self, to: Ask) -> bool {
        self.others += 1;
        self.again += 1;
        if self.again % 2 == 0 {
            self.state.protector.litter(&mut Random::new(self.again as u64));
        }
        let figures = self.state.figures();
        self.put("chain.set", &figures, DONE, [0; 4], &[], to)
    }

    /// Asks for what is shown of each part, and for what the calls say that only look at the chain.
    fn look(&mut self, to: Ask) -> bool {
        self.others += 1;
        let state = self.state;
        let ahead = [state.limiter.shown(), state.speech.shown(), state.protector.shown(), state.controller.shown()].concat();
        let rest = if state.passes() { [DONE, DONE, state.limiter.estimator.samples] } else { [SETTING, SETTING, 0] };
        self.put_behind(&ahead, "chain.state", &[], DONE, [0; 4], &rest, to)
    }

    /// "Refuses only with 4, for a state that fails its test." From a new chain it changes nothing that is published.
    fn gap(&mut self, to: Ask) -> bool {
        self.others += 1;
        let before = self.state.published();
        let reply = if self.state.passes() {
            let count = self.state.speech.count;
            self.gaps[0] += 1;
            self.gaps[1] += (0 < count && count < self.state.speech.threshold) as usize;
            self.state.gap();
            DONE
        } else {
            SETTING
        };
        if let Some(both) = &mut self.rust {
            let lost = &LOST[self.gaps[0] % LOST.len()];
            both.ruled.gap(lost);
            both.as_is.gap(lost);
            if self.state.published() != before {
                judge::object(&mut self.unlike, format!("a gap published: {:08x?}", self.state.figures()));
            }
        }
        self.put("chain.gap", &[], reply, [0; 4], &[], to)
    }

    fn gaps(&mut self, count: u32, to: Ask) -> bool {
        (0..count).all(|_| self.gap(to))
    }

    /// In the order 1, 4, 2, 3. The frame is held to the samples that stand in the state, also where it fails.
    fn reply(&self, figures: &Figures, frame: &Frame) -> u32 {
        let set = self.state.limiter.estimator.samples == frame.samples;
        match frame.reply(set, self.state.passes(), LARGEST) {
            DONE | SAMPLE if !accepted(figures) => FIGURE,
            other => other,
        }
    }

    fn step(&mut self, figures: &Figures, frame: &Frame, to: Ask) -> Option<Outcome> {
        let reply = self.reply(figures, frame);
        let mut samples = frame.untouched();
        let mut case = [0; 4];
        let mut outcome = None;
        if reply == DONE {
            let mut sound = frame.sound();
            match self.state.step(figures, &mut sound) {
                Some((what, pushed)) => {
                    case = what;
                    self.pushes[0] += (self.rust.is_some() && pushed.is_some()) as usize;
                    self.pushes[1] += (self.rust.is_some() && pushed == Some(true)) as usize;
                }
                None => judge::object(&mut self.unlike, "no applier in a chain".to_string()),
            }
            samples = sound::flat(&sound);
            let ours = self.state.published();
            self.by_hand += self.rust.is_none() as usize;
            if let Some(both) = &mut self.rust {
                let (mut here, mut there) = (frame.sound(), frame.sound());
                both.ruled.step(figures, &mut here);
                both.as_is.step(figures, &mut there);
                let theirs = both.as_is.published().unwrap_or_default();
                let number = self.frames[0] + self.frames[1];
                if sound::flat(&here) != samples {
                    judge::object(&mut self.unlike, format!("the samples of frame {}", number));
                }
                let place = || format!("frame {}", number);
                for (found, at) in self.departures.iter_mut().zip([0, 1, 3]) {
                    found.note(f32::from_bits(ours[at]), f32::from_bits(theirs[at]), place);
                }
                for (x, y) in here.iter().flatten().zip(there.iter().flatten()) {
                    self.departures[3].note(*x, *y, place);
                }
            }
            outcome = Some((ours, samples.clone()));
        }
        self.samples += samples.len();
        let mut asked = vec![frame.channels, frame.samples];
        asked.extend(figures);
        asked.extend(&frame.data);
        self.put("chain.step", &asked, reply, case, &samples, to).then_some(())?;
        Some(outcome.unwrap_or(([0; 4], Vec::new())))
    }

    /// A service with rings of the Rust's size, as it is and without its coughs. What comes out must be the same.
    fn service(&mut self, settings: Settings, threshold: u32, samples: u32, steps: &[Step], source: &mut Random, to: Ask) -> bool {
        self.service_with(judge::ring(), settings, threshold, samples, steps, source, to)
    }

    /// The same with rings of any size.
    fn service_with(&mut self, capacity: u32, settings: Settings, threshold: u32, samples: u32, steps: &[Step], source: &mut Random, to: Ask) -> bool {
        if !self.fresh_with(settings, threshold, samples, capacity, to) {
            return false;
        }
        let mut outcomes = Vec::new();
        for step in steps {
            // Refused frames, the state, and the state handed in as it stands: nothing of it changes what follows.
            let going = match source.up_to(63) {
                0 | 1 => self.refused_frame(&step.figures, &step.frame, source, to),
                2 => self.look(to),
                3 => self.set_again(to),
                _ => true,
            };
            if !going {
                return false;
            }
            match self.step(&step.figures, &step.frame, to) {
                None => return false,
                Some(outcome) => outcomes.push(outcome),
            }
            self.frames[0] += 1;
            if !self.gaps(step.gaps, to) {
                return false;
            }
        }
        if !self.fresh_with(settings, threshold, samples, capacity, to) {
            return false;
        }
        for (i, (step, before)) in steps.iter().zip(&outcomes).enumerate() {
            let mut figures = step.figures;
            if step.cough {
                figures[0] = judge::probability(false, source);
                figures[1] = RMS.any(-60.0, source);
                figures[2] = LEVEL.any(-60.0, source);
                self.changed += 1;
            }
            match self.step(&figures, &step.frame, to) {
                None => return false,
                Some(after) if after == *before => {}
                Some(_) => judge::object(&mut self.unlike, format!("a cough left a trace in frame {} of a service with threshold {}", i, threshold)),
            }
            self.frames[1] += 1;
            if !self.gaps(step.gaps, to) {
                return false;
            }
        }
        true
    }

    /// A frame that is refused in the middle of a service, speech or not: for its shape, a figure or a sample.
    fn refused_frame(&mut self, figures: &Figures, frame: &Frame, source: &mut Random, to: Ask) -> bool {
        self.between += 1;
        let (mut figures, mut frame) = (*figures, frame.clone());
        figures[0] = judge::probability(source.up_to(1) == 1, source);
        let which = source.up_to(3);
        if which < 2 {
            let i = source.up_to(4) as usize;
            figures[i] = judge::one_of([judge::PROBABILITY, RMS, LEVEL, LEVEL, ENVELOPE][i].wrong, source);
        }
        if which > 0 {
            let some = sound::damaged(&frame, LARGEST);
            frame = some[source.up_to(some.len() as u32 - 1) as usize].clone();
        }
        let reply = self.reply(&figures, &frame);
        if reply == DONE {
            judge::object(&mut self.unlike, "a frame that is to be refused is not".to_string());
        }
        self.step(&figures, &frame, to).is_some()
    }

    /// The states at the edges of the test, each with a good frame, one with a wrong figure and a wrong sample, one of a
    /// wrong length, a gap, and what it is then; or a few of them, each with a good frame and a gap.
    fn at_edges(&mut self, few: bool, source: &mut Random, to: Ask) -> bool {
        let edges = edges();
        self.unlike.extend(edges.amiss(&IMPLIED, &clauses_of));
        edges.some(few).iter().all(|edge| {
            self.at_edges += 1;
            let going = self.set(&edge.figures, to).unwrap_or(true);
            let samples = Some(self.state.limiter.estimator.samples).filter(|&n| sound::is_samples(n)).unwrap_or(40);
            let good = sound::frame(2, 1, samples, LARGEST, source);
            let mut wrong = good.clone();
            wrong.data[0] = 0x7fc0_0000;
            let mut short = wrong.clone();
            short.data.pop();
            let mut figures = GOOD;
            figures[1] = 0x7fc0_0000;
            let going = going && self.step(&GOOD, &good, to).is_some();
            if few {
                return going && self.look(to) && self.gap(to);
            }
            going
                && self.step(&figures, &wrong, to).is_some()
                && self.step(&figures, &short, to).is_some()
                && self.gap(to)
                && self.look(to)
        })
    }

    /// Readings, coughs and pauses, about so many frames, closed by a pause.
    fn steps(&mut self, threshold: u32, channels: u32, samples: u32, frames: usize, source: &mut Random) -> Vec<Step> {
        let mut all = Vec::new();
        while all.len() < frames {
            let passage = Passage::any(threshold, source);
            self.add_steps(&passage, channels, samples, source, &mut all);
        }
        all
    }

    /// The same with gaps.
    fn steps_with_gaps(&mut self, threshold: u32, channels: u32, samples: u32, frames: usize, source: &mut Random) -> Vec<Step> {
        let mut all = Vec::new();
        while all.len() < frames {
            let passage = Passage::any(threshold, source);
            self.add_broken_steps(&passage, threshold, channels, samples, source, &mut all);
        }
        all
    }

    /// A reading or a cough with gaps in some: one or two at its end in the place of the pause, one behind the pause, or one in
    /// the midst of it, so that there are two of them.
    fn add_broken_steps(&mut self, passage: &Passage, threshold: u32, channels: u32, samples: u32, source: &mut Random, all: &mut Vec<Step>) {
        let (length, pause) = (passage.length, passage.pause);
        let parts = match source.up_to(7) {
            0 | 1 => vec![(length, 0, 1)],
            2 => vec![(length, 0, 2)],
            3 => vec![(length, pause, 1)],
            4 | 5 if length > 1 => {
                let first = 1 + source.up_to(length - 2);
                vec![(first, 0, 1), (length - first, pause, 0)]
            }
            _ => vec![(length, pause, 0)],
        };
        for (length, pause, gaps) in parts {
            self.add_steps(&passage.with(length, pause, threshold), channels, samples, source, all);
            all.iter_mut().rev().take(1).for_each(|last| last.gaps = gaps);
        }
    }

    fn add_steps(&mut self, passage: &Passage, channels: u32, samples: u32, source: &mut Random, all: &mut Vec<Step>) {
        if passage.cough {
            self.coughs += 1;
        } else {
            self.readings += 1;
        }
        for i in 0..passage.length + passage.pause {
            let speech = i < passage.length;
            let figures = passage.figures(speech, source);
            let frame = sound::frame(source.up_to(9) as usize, channels, samples, LARGEST, source);
            all.push(Step {
                figures,
                frame,
                cough: passage.cough && speech,
                gaps: 0,
            });
        }
    }

    /// A service of readings and coughs of these lengths.
    fn long_service(&mut self, threshold: u32, channels: u32, samples: u32, lengths: &[u32], source: &mut Random, to: Ask) -> bool {
        let mut steps = Vec::new();
        for &length in lengths {
            let passage = Passage::of(length, threshold, source);
            self.add_steps(&passage, channels, samples, source, &mut steps);
        }
        self.long[0] += steps.len();
        let settings = Settings::any(source);
        self.service(settings, threshold, samples, &steps, source, to)
    }

    /// A service of one channel that fills the ring of the Rust's size and then goes round it several times.
    fn round_service(&mut self, threshold: u32, source: &mut Random, to: Ask) -> bool {
        let mut steps = Vec::new();
        for passage in Passage::many_near(threshold, judge::frames_of_rounds(), source) {
            self.add_steps(&passage, 1, 40, source, &mut steps);
        }
        let full = self.pushes[1];
        let going = self.service(Settings::USUAL, threshold, 40, &steps, source, to);
        if going && self.pushes[1] - full < 2 * judge::rounds() as usize {
            judge::object(&mut self.unlike, format!("T {}: {} pushes into a full ring", threshold, self.pushes[1] - full));
        }
        going
    }

    /// A cough and a reading over which there is far to go from the initial gain, with a change per second: in the reading's
    /// T-th frame the gain makes its first faster step, and not before.
    fn faster(&mut self, threshold: u32, change: f32, source: &mut Random, to: Ask) -> bool {
        let mut settings = Settings::USUAL;
        settings.0[2] = 0;
        settings.0[3] = change.to_bits();
        let frame = sound::frame(2, 1, 40, LARGEST, source);
        let quiet = [1.0_f32, -80.0, -60.0, -150.0, -150.0].map(f32::to_bits);
        let pause = [0.0_f32, -80.0, -60.0, -150.0, -150.0].map(f32::to_bits);
        let step = |figures: Figures, cough: bool| Step {
            figures,
            frame: frame.clone(),
            cough,
            gaps: 0,
        };
        let mut steps: Vec<Step> = (1..threshold).map(|_| step(quiet, true)).collect();
        steps.push(step(pause, false));
        steps.extend((0..threshold).map(|_| step(quiet, false)));
        self.coughs += 1;
        self.readings += 1;
        self.long[0] += steps.len();
        if !self.service(settings, threshold, 40, &steps, source, to) {
            return false;
        }
        let gain = self.state.controller.gain;
        if !(gain > 200.5 * change / 100.0) {
            judge::object(&mut self.unlike, format!("T {}, {} dB a second: a first step to {} dB", threshold, change, gain));
        }
        self.long[1] += 1;
        true
    }

    /// One frame of speech fewer than a threshold, a gap, and as many frames again: nothing is published. Without the gap it is.
    fn broken(&mut self, threshold: u32, source: &mut Random, to: Ask) -> bool {
        let frame = sound::frame(2, 1, 40, LARGEST, source);
        let quiet = [1.0_f32, -80.0, -60.0, -150.0, -150.0].map(f32::to_bits);
        [1, 0].iter().all(|&gaps| {
            let mut going = self.fresh(Settings::USUAL, threshold, 40, to);
            let before = self.state.published();
            for behind in [gaps, 0] {
                going = going && (1..threshold).all(|_| self.step(&quiet, &frame, to).is_some()) && self.gaps(behind, to);
            }
            if (self.state.published() == before) != (gaps == 1) {
                judge::object(&mut self.unlike, format!("T {}: two runs that are one short, with {} gaps between", threshold, gaps));
            }
            going
        })
    }

    /// The last frames of a reading at the largest threshold, from the state that those before them brought about, which is
    /// handed in: three short of it. The frames before it go through the Rust too. Each letter is a frame of speech, s, one that
    /// is none, n, or a gap, g: ssssn is W with 2 missing and with 1, P twice, and N.
    fn near_threshold(&mut self, letters: &str, source: &mut Random, to: Ask) -> bool {
        let most = judge::LARGEST_THRESHOLD;
        let frame = sound::frame(2, 1, 40, LARGEST, source);
        let passage = Passage::of(most, most, source);
        let mut going = self.fresh(Settings::USUAL, most, 40, to);
        for _ in 0..most - 3 {
            let figures = passage.figures(true, source);
            if self.state.step(&figures, &mut frame.sound()).is_none() {
                judge::object(&mut self.unlike, "no applier in a chain".to_string());
            }
            if let Some(both) = &mut self.rust {
                both.ruled.step(&figures, &mut frame.sound());
                both.as_is.step(&figures, &mut frame.sound());
            }
        }
        going = going && self.set_again(to);
        for letter in letters.chars() {
            going = going
                && match letter {
                    'g' => self.gap(to),
                    _ => self.step(&passage.figures(letter == 's', source), &frame, to).is_some(),
                };
        }
        going && self.look(to)
    }

    /// Services with thresholds above 200: the longest runs of a short comparison, and as many frames of others as asked.
    fn long_services(&mut self, frames: usize, source: &mut Random, to: Ask) -> bool {
        let most = judge::LARGEST_THRESHOLD;
        let wanted = self.frames[0] + frames;
        let mut going = self.long_service(most, 1, 40, &[most - 1, most, 1, most + 1, most - 1, most + 700], source, to)
            && self.long_service(most, 1, 480, &[most - 1, most + 1], source, to)
            && self.long_service(most, 8, 40, &[7, most], source, to)
            && self.long_service(1500, 1, 40, &[1499, 1500, 1501], source, to)
            && [0.01, 0.5, 6.0].iter().all(|&change| self.faster(most, change, source, to))
            && ["ssssn", "ssgssgn", "sssgssn", "ssssggn"].iter().all(|letters| self.near_threshold(letters, source, to))
            && self.broken(201, source, to);
        while going && self.frames[0] < wanted {
            going = self.any_long_service(source, to);
        }
        going
    }

    /// Four runs of any threshold above 200: one short of it, at it, one past it, and any; with gaps in some.
    fn any_long_service(&mut self, source: &mut Random, to: Ask) -> bool {
        let threshold = 201 + source.up_to(judge::LARGEST_THRESHOLD - 201);
        let any = 1 + source.up_to(2 * threshold);
        let mut steps = Vec::new();
        for length in [threshold - 1, threshold, threshold + 1, any] {
            let passage = Passage::of(length, threshold, source);
            self.add_broken_steps(&passage, threshold, 1, 40, source, &mut steps);
        }
        self.long[0] += steps.len();
        let settings = Settings::any(source);
        self.service(settings, threshold, 40, &steps, source, to)
    }

    /// Calls that are refused, and a good one between: nothing changes.
    fn damaged(&mut self, source: &mut Random, to: Ask) -> bool {
        let wrong = Settings::wrong();
        let good = sound::frame(2, 1, 40, LARGEST, source);
        let mut going = wrong.into_iter().step_by(4).all(|settings| self.fresh(settings, 2, 40, to))
            && judge::WRONG_THRESHOLDS.iter().all(|&t| self.fresh(Settings::USUAL, t, 40, to))
            && self.step(&GOOD, &good, to).is_some()
            && [0, 20, 50, 500].iter().all(|&n| self.fresh(Settings::USUAL, judge::LARGEST_THRESHOLD + 1, n, to))
            && judge::GOOD_THRESHOLDS.iter().all(|&t| self.fresh(Settings::USUAL, t, 40, to))
            && judge::WRONG_CAPACITIES.iter().all(|&n| self.fresh_with(Settings::USUAL, 2, 40, n, to))
            && self.step(&GOOD, &good, to).is_some()
            && [0, 50].iter().all(|&n| self.fresh_with(Settings::USUAL, 2, n, judge::LARGEST_RING + 1, to))
            && self.fresh_with(Settings::USUAL, 0, 40, 0, to)
            && (1..=judge::LARGEST_RING).all(|n| self.fresh_with(Settings::USUAL, 2, 40, n, to) && self.step(&GOOD, &good, to).is_some())
            && self.look(to)
            && self.fresh(Settings::USUAL, 2, 40, to);
        for frame in sound::damaged(&good, LARGEST) {
            going = going && self.step(&GOOD, &frame, to).is_some();
        }
        let mut bad = good.clone();
        bad.data[39] = 0x7fc0_0000;
        for (i, range) in [judge::PROBABILITY, RMS, LEVEL, LEVEL, ENVELOPE].iter().enumerate() {
            for &b in range.wrong {
                let mut figures = GOOD;
                figures[i] = b;
                // 2 before 3.
                going = going && self.step(&figures, &bad, to).is_some();
            }
            going = going && self.step(&GOOD, &good, to).is_some();
        }
        let other = sound::frame(2, 1, 60, LARGEST, source);
        going && self.step(&GOOD, &other, to).is_some() && self.step(&GOOD, &good, to).is_some()
    }
}

/// The questions of the fixed list.
pub fn list(seed: u64, to: Ask) -> Vec<String> {
    let source = &mut Random::new(seed);
    let mut desk = Desk::default();
    desk.damaged(source, to);
    desk.at_edges(true, source, to);
    for (threshold, channels, samples, frames) in [(1, 1, 40, 6), (2, 1, 40, 20), (3, 2, 40, 20)] {
        let steps = desk.steps(threshold, channels, samples, frames, source);
        let steps = &steps[..steps.len().min(60)];
        let closed = steps.iter().rposition(|s| !s.cough).map_or(0, |i| i + 1);
        desk.service(Settings::USUAL, threshold, samples, &steps[..closed], source, to);
    }
    desk.near_threshold("ssssn", source, to);
    // With gaps.
    desk.broken(2, source, to);
    desk.broken(3, source, to);
    for (threshold, channels) in [(2, 1), (3, 2)] {
        let steps = desk.steps_with_gaps(threshold, channels, 40, 25, source);
        let steps = &steps[..25];
        let closed = steps.iter().rposition(|s| !s.cough || s.gaps > 0).map_or(0, |i| i + 1);
        desk.service(Settings::USUAL, threshold, 40, &steps[..closed], source, to);
        desk.look(to);
    }
    desk.near_threshold("ssgsgn", source, to);
    desk.near_threshold("ssssgs", source, to);
    desk.unlike
}

pub struct Chains {
    seed: u64,
    length: Length,
    desk: Desk,
}

impl Chains {
    pub fn new(seed: u64, length: Length) -> Chains {
        Chains {
            seed,
            length,
            desk: Desk::default(),
        }
    }
}

impl Part for Chains {
    fn name(&self) -> &'static str {
        "chain"
    }

    fn ask(&mut self, to: Ask) {
        let source = &mut Random::new(self.seed);
        let desk = &mut self.desk;
        let mut going = self.length == Length::Round
            || (desk.damaged(source, to) && desk.at_edges(false, &mut Random::new(self.seed), to));
        if self.length == Length::States {
            return;
        }
        going = going
            && (self.length == Length::Round
                || ([2, 3, 12, 40].iter().all(|&t| desk.broken(t, source, to))
                    && [1, 12, 60].iter().all(|&t| desk.round_service(t, source, to))));
        let wanted = desk.frames[0] + self.length.frames(10_000, 1_000_000, 80_000);
        while going && desk.frames[0] < wanted {
            let threshold = judge::short_threshold(source);
            let (channels, samples) = match source.up_to(63) {
                0 => (1 + source.up_to(7), 40),
                1 => (1, sound::any_samples(source)),
                2 if source.up_to(7) == 0 => (1 + source.up_to(7), sound::any_samples(source)),
                _ => (1, 40),
            };
            let most = 400 / channels / (samples / 40) + 40;
            let steps = if source.up_to(1) == 0 {
                desk.steps_with_gaps(threshold, channels, samples, most as usize, source)
            } else {
                desk.steps(threshold, channels, samples, most as usize, source)
            };
            let (settings, capacity) = (Settings::any(source), judge::any_capacity(source));
            going = desk.service_with(capacity, settings, threshold, samples, &steps, source, to)
                && (self.length != Length::Round || source.up_to(15) > 0 || desk.damaged(source, to));
        }
        let _ = going
            && match self.length {
                Length::Short => desk.long_services(0, source, to),
                Length::Long => desk.long_services(300_000, source, to),
                Length::Round => desk.any_long_service(source, to),
                Length::Brief | Length::States => true,
            };
    }

    fn again(&mut self, name: &str, figures: &[u32], to: Ask) -> Option<bool> {
        let desk = &mut self.desk;
        Some(match (name, figures) {
            ("chain.new", all) => match Settings::read(all)? {
                (settings, &[threshold, samples, capacity]) => desk.fresh_with(settings, threshold, samples, capacity, to),
                _ => return None,
            },
            ("chain.set", state) => desk.set(state, to)?,
            ("chain.state", []) => desk.look(to),
            ("chain.gap", []) => desk.gap(to),
            ("chain.step", [channels, samples, p, rms, peak, noise, envelope, data @ ..]) => {
                let frame = Frame::read(&[&[*channels, *samples][..], data].concat())?;
                desk.step(&[*p, *rms, *peak, *noise, *envelope], &frame, to).is_some()
            }
            _ => return None,
        })
    }

    fn clauses(&self) -> Vec<&'static str> {
        edges().names(&IMPLIED, &clauses_of)
    }

    fn kinds(&self) -> Vec<(&'static str, usize)> {
        let desk = &self.desk;
        vec![
            ("samples", desk.samples),
            ("frames of services as they are", desk.frames[0]),
            ("frames of the same without their coughs", desk.frames[1]),
            ("frames changed", desk.changed),
            ("coughs", desk.coughs),
            ("readings", desk.readings),
            ("refused with 1", desk.refused[SHAPE as usize]),
            ("with 4", desk.refused[SETTING as usize]),
            ("with 2", desk.refused[FIGURE as usize]),
            ("with 3", desk.refused[SAMPLE as usize]),
            ("calls without a frame", desk.others),
            ("of them gaps that are not refused", desk.gaps[0]),
            ("of these gaps that close a cough", desk.gaps[1]),
            ("refused frames in services", desk.between),
            ("states handed in anew in services", desk.again),
            ("states at the edges of the test", desk.at_edges),
            ("accepted frames by the paper alone", desk.by_hand),
            ("frames of services as they are with T above 200", desk.long[0]),
            ("first faster steps above 200 changes of a frame", desk.long[1]),
            ("pushes with the Rust beside", desk.pushes[0]),
            ("of them into a full ring", desk.pushes[1]),
        ]
    }

    fn unlike(&self) -> &[String] {
        &self.desk.unlike
    }

    fn notes(&self) -> Vec<String> {
        let names = ["the level", "the headroom", "the gain in dB", "the samples"];
        let zeros = format!("zeros of unlike sign that the Rust has otherwise, and that were let through: {}", self.desk.zeros);
        let departures = self.desk.departures.iter().zip(names).map(|(found, what)| found.line(what));
        std::iter::once(zeros).chain(departures).collect()
    }
}
