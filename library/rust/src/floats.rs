//! How the thread computes floats: what murzicanu_floats_ready is in library/include/murzicanu.h.

use std::ptr;

/// The same number, of which the compiler knows nothing: so the processor computes with it.
fn unknown(x: f32) -> f32 {
    // SAFETY: the reference is to a float.
    unsafe { ptr::read_volatile(&x) }
}

/// Whether the calling thread computes floats as the archive takes it for granted: rounded to nearest, ties to even, with
/// the smallest (subnormal) numbers kept.
///
/// A thread may be set otherwise, by its host or by code in another language: many audio hosts flush the smallest
/// numbers to zero (FTZ, DAZ). `new` asks this of the thread that calls it; a chain or a limiter that another thread
/// steps, or one that was set otherwise since, is for the caller to ask. Nothing that is proved holds where it says no.
pub fn floats_ready() -> bool {
    let one = unknown(1.0);
    // Half the step from 1 to the next float, and one and a half.
    let (half, more) = (unknown(f32::EPSILON * 0.5), unknown(f32::EPSILON * 1.5));
    // The least that is not subnormal, and the least of all.
    let (normal, least) = (unknown(f32::MIN_POSITIVE), unknown(f32::from_bits(1)));
    // Ties: half a step goes back to 1, one and a half go on to the second float, and so below 0.
    let second = 1.0 + 2.0 * f32::EPSILON;
    unknown(one + half) <= 1.0
        && unknown(one + more) >= second
        && unknown(-one - half) >= -1.0
        && unknown(-one - more) <= -second
        // A subnormal result and a subnormal operand.
        && unknown(normal * 0.5) > 0.0
        && unknown(least * 8388608.0) > 0.0
}
