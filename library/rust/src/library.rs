//! What `libmurzicanu.a` has, as library/include/murzicanu.h declares it for C.

use crate::{Figures, Settings};
use std::mem::{align_of, size_of};

#[derive(Clone, Copy, Default)]
#[repr(C)]
struct SettingsKept {
    headroom: f32,
    largest_gain: f32,
    initial_gain: f32,
    change: f32,
    noise: f32,
}

#[derive(Clone, Copy, Default)]
#[repr(C)]
struct Average {
    left: u32,
    sum: f32,
    weight: f32,
}

#[derive(Clone, Copy, Default)]
#[repr(C)]
struct SpeechLevel {
    settings: SettingsKept,
    threshold: u32,
    initial: f32,
    preliminary: Average,
    reliable: Average,
    level: f32,
    confident: u32,
    count: u32,
}

#[derive(Clone, Copy, Default)]
#[repr(C)]
struct Ring {
    stored: [f32; 16],
    capacity: u32,
    place: u32,
    size: u32,
}

#[derive(Clone, Copy, Default)]
#[repr(C)]
struct Peaks {
    headroom: f32,
    ring: Ring,
    largest: f32,
    elapsed: u32,
}

#[derive(Clone, Copy, Default)]
#[repr(C)]
struct Protector {
    initial: f32,
    threshold: u32,
    count: u32,
    headroom: f32,
    preliminary: Peaks,
    reliable: Peaks,
}

#[derive(Clone, Copy, Default)]
#[repr(C)]
struct Applier {
    clip: u32,
    last: f32,
    current: f32,
    samples: i32,
    inverse: f32,
}

#[derive(Clone, Copy, Default)]
#[repr(C)]
struct Controller {
    applier: Applier,
    settings: SettingsKept,
    threshold: u32,
    change: f32,
    waiting: u32,
    gain: f32,
}

#[derive(Clone, Copy, Default)]
#[repr(C)]
struct Envelope {
    level: f32,
    samples: u32,
    part: u32,
}

#[derive(Clone, Copy, Default)]
#[repr(C)]
struct Curve {
    identity: u64,
    knee: u64,
    limiter: u64,
    saturation: u64,
    available: u32,
    region: u32,
    duration: i64,
}

#[derive(Clone, Copy, Default)]
#[repr(C)]
pub struct Limiter {
    estimator: Envelope,
    carried: f32,
    curve: Curve,
}

#[derive(Clone, Copy, Default)]
#[repr(C)]
pub struct Chain {
    estimator: SpeechLevel,
    protector: Protector,
    controller: Controller,
    limiter: Limiter,
}

#[derive(Default)]
#[repr(C)]
pub struct Answer {
    pub kind: u32,
    pub missing: u32,
    pub level: f32,
    pub headroom: f32,
}

#[derive(Default)]
#[repr(C)]
pub struct Published {
    pub level: f32,
    pub headroom: f32,
    pub gain: f32,
    pub confident: u32,
}

// The layout that the archive has: the size of each struct is the sum of its fields' sizes, so that each field stands
// where the ones before it end, and no byte is left between them.
const _: () = {
    assert!(size_of::<usize>() == 8 && align_of::<Chain>() == 8 && align_of::<Limiter>() == 8);
    assert!(size_of::<Settings>() == 5 * 4 && size_of::<SettingsKept>() == 5 * 4 && size_of::<Figures>() == 5 * 4);
    assert!(size_of::<Answer>() == 4 * 4 && size_of::<Published>() == 4 * 4);
    assert!(size_of::<Average>() == 3 * 4);
    assert!(size_of::<SpeechLevel>() == 20 + 2 * 4 + 2 * 12 + 3 * 4);
    assert!(size_of::<Ring>() == 16 * 4 + 3 * 4);
    assert!(size_of::<Peaks>() == 4 + 76 + 2 * 4);
    assert!(size_of::<Protector>() == 4 * 4 + 2 * 88);
    assert!(size_of::<Applier>() == 5 * 4);
    assert!(size_of::<Controller>() == 20 + 20 + 4 * 4);
    assert!(size_of::<Envelope>() == 3 * 4);
    assert!(size_of::<Curve>() == 4 * 8 + 2 * 4 + 8);
    assert!(size_of::<Limiter>() == 12 + 4 + 48);
    assert!(size_of::<Chain>() == 64 + 192 + 56 + 64);
};

extern "C" {
    pub fn murzicanu_version() -> u32;
    pub fn murzicanu_chain_new(
        chain: *mut Chain,
        settings: *const Settings,
        threshold: u32,
        samples: usize,
        ring_capacity: u32,
    ) -> u32;
    pub fn murzicanu_chain_step(
        chain: *mut Chain,
        figures: *const Figures,
        frame: *mut f32,
        length: usize,
        channels: usize,
        samples: usize,
        answer: *mut Answer,
    ) -> u32;
    pub fn murzicanu_chain_gap(chain: *mut Chain) -> u32;
    pub fn murzicanu_chain_read(chain: *const Chain, published: *mut Published) -> u32;
    pub fn murzicanu_limiter_new(limiter: *mut Limiter, samples: usize) -> u32;
    pub fn murzicanu_limiter_step(
        limiter: *mut Limiter,
        frame: *mut f32,
        length: usize,
        channels: usize,
        samples: usize,
    ) -> u32;
    pub fn murzicanu_limiter_read(limiter: *const Limiter, level: *mut f32) -> u32;
}
