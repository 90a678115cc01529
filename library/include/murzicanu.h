/* Murzicanu: the speech leveller whose behaviour is proved, for C and C++.
 *
 * Link with libmurzicanu.a (library/build makes it, for x86-64). It needs memset and memcpy at most, which every C
 * library has, and nothing else.
 *
 * You own all memory. A chain or a limiter is a plain struct that you may keep anywhere, copy, save and restore; every
 * byte of it belongs to a field. Nothing is allocated, nothing that changes is global, no call blocks, and every call
 * ends. Calls on different structs may run at the same time; calls on the same struct may not.
 *
 * Every function but murzicanu_version answers a number: MURZICANU_DONE, or why it refused. A refused step stores
 * nothing in the state or the frame, and its answer is all 0. A refused gap stores nothing either. A refused `new` makes
 * the struct all 0, which every call refuses, and a refused `read` tells 0.
 *
 * A state is tested at each call. One that fails is not used: a step answers MURZICANU_SHAPE where the shape is wrong or
 * the samples are not those that stand in the state, as in a struct of zeros, and otherwise MURZICANU_SETTING; a gap and
 * a read answer MURZICANU_SETTING. The test knows the range of each field and no more: a state that was damaged so that it
 * still passes is used like any other, and what is proved holds of it.
 *
 * What a call owes of you is what C cannot check: pointers that are not null, are aligned for their type and point to
 * the whole struct, or to as many samples as you say; and no two of them to the same memory.
 *
 * And the calling thread has to compute floats as the proof has it, which is what C does by default: rounded to
 * nearest, ties to even, with the smallest (subnormal) numbers kept, and no operation traps. On x86-64 that stands in a
 * register, MXCSR, and a thread may have changed it: many audio hosts flush the smallest numbers to zero (FTZ, DAZ), and
 * a program that gcc links with -ffast-math does so from its start. No call notices, and nothing that is proved holds
 * then: samples come out with other bits, and a chain that was made with one rounding may be refused with 4 under
 * another. murzicanu_floats_ready() below asks the processor; where it says 0, set the register back around every call.
 *
 * A frame is 10 ms of sound: channel after channel (not interleaved), each with the same number of samples, on the
 * scale of 16-bit samples, where full scale is 32768. What comes out lies between -32768 and 32767: that is proved.
 */
#ifndef MURZICANU_H
#define MURZICANU_H

#include <stddef.h>
#include <stdint.h>

#ifdef __cplusplus
extern "C" {
#endif

/* The version of this header: of the functions and of the structs. murzicanu_version() tells that of the archive; where
 * the two differ, the structs may differ too, so compare them before the first call. A struct that was saved under another
 * version is none of this one. In version 1 there was no murzicanu_chain_gap; before version 3 murzicanu_chain_new took no
 * capacity, and each ring of a chain had four slots. */
#define MURZICANU_VERSION 3u

/* What every other function answers. Where several apply, the first in the order 1, 4, 2, 3 is told. */
#define MURZICANU_DONE 0u
/* Channels not 1 to 8, samples not 40 to 480 in steps of 20 or not those the state was made for, or a buffer that is
 * not channels times samples long. */
#define MURZICANU_SHAPE 1u
/* A figure that is not a number or out of its range. */
#define MURZICANU_FIGURE 2u
/* A sample that is not a number, infinite or too large: beyond 65536 for a chain, 33554432 for a limiter. */
#define MURZICANU_SAMPLE 3u
/* A setting out of its range, a threshold that is not 1 to 3000, a ring's capacity that is not 1 to 16, or a state that
 * fails its test. */
#define MURZICANU_SETTING 4u

/* What an operator sets. */
typedef struct {
    float headroom;      /* how far below full scale a reading is to end, 0 to 50 dB */
    float largest_gain;  /* above 0, up to 50 dB */
    float initial_gain;  /* 0 to 50 dB */
    float change;        /* by how much the gain may change, 0.01 to 100 dB a second */
    float noise;         /* the loudest that noise may come out, -90 to 0 dBFS */
} murzicanu_settings;

/* The usual settings: murzicanu_settings s = MURZICANU_USUAL_SETTINGS; */
#define MURZICANU_USUAL_SETTINGS {5.0f, 50.0f, 15.0f, 6.0f, -50.0f}

/* How many adjacent speech frames make a reading, usually. A threshold may be 1 to 3000, which is thirty seconds. */
#define MURZICANU_USUAL_THRESHOLD 12u

/* How many peaks a chain remembers, usually: the capacity of its rings. A capacity may be 1 to 16. */
#define MURZICANU_USUAL_RING 4u

/* What your meters said of a frame. */
typedef struct {
    float probability; /* that it is speech, 0 to 1 */
    float rms;         /* its level, above -150 and below 50 dBFS */
    float peak;        /* its peak, -150 to 50 dBFS */
    float noise;       /* the level of the noise, -150 to 50 dBFS */
    float envelope;    /* the limiter's envelope, -150 to 100 dBFS */
} murzicanu_figures;

/* What a frame was. What does not belong to the kind is 0. */
typedef struct {
    uint32_t kind;    /* 0 no speech, 1 speech that still waits to count, 2 speech that counts */
    uint32_t missing; /* kind 1: so many speech frames are missing */
    float level;      /* kind 2: the level of the speech in dBFS */
    float headroom;   /* kind 2: the headroom in dB */
} murzicanu_answer;

#define MURZICANU_NO_SPEECH 0u
#define MURZICANU_WAITING 1u
#define MURZICANU_PUBLISHING 2u

/* What a chain publishes, after any frame or gap. */
typedef struct {
    float level;        /* of the speech, dBFS */
    float headroom;     /* dB */
    float gain;         /* dB */
    uint32_t confident; /* 1 where the level is trusted, otherwise 0 */
} murzicanu_published;

/* ---- The states. Their fields are there so that you can own them; read what is published by the calls below. No struct
 * has a hole: that is asserted after the last of them. */

typedef struct {
    uint32_t left;
    float sum;
    float weight;
} murzicanu_average;

typedef struct {
    murzicanu_settings settings;
    uint32_t threshold;
    float initial;
    murzicanu_average preliminary;
    murzicanu_average reliable;
    float level;
    uint32_t confident; /* 0 or 1 */
    uint32_t count;
} murzicanu_speech_level;

/* The recent peaks. No call looks at a slot from the capacity on: it may hold anything, also what is no number, and goes
 * along where a ring is copied. The two rings of a chain have one capacity; a chain whose two differ fails its test. */
typedef struct {
    float stored[16];
    uint32_t capacity; /* 1 to 16 */
    uint32_t place;    /* where the next peak goes, below the capacity */
    uint32_t size;     /* how many peaks there are, up to the capacity */
} murzicanu_ring;

typedef struct {
    float headroom;
    murzicanu_ring ring;
    float largest;
    uint32_t elapsed;
} murzicanu_peaks;

typedef struct {
    float initial;
    uint32_t threshold;
    uint32_t count;
    float headroom;
    murzicanu_peaks preliminary;
    murzicanu_peaks reliable;
} murzicanu_protector;

typedef struct {
    uint32_t clip; /* 0 or 1 */
    float last;
    float current;
    int32_t samples;
    float inverse;
} murzicanu_applier;

typedef struct {
    murzicanu_applier applier;
    murzicanu_settings settings;
    uint32_t threshold;
    float change;
    uint32_t waiting;
    float gain;
} murzicanu_controller;

typedef struct {
    float level;
    uint32_t samples;
    uint32_t part;
} murzicanu_envelope;

typedef struct {
    uint64_t identity;
    uint64_t knee;
    uint64_t limiter;
    uint64_t saturation;
    uint32_t available; /* 0 or 1 */
    uint32_t region;
    int64_t duration;
} murzicanu_curve;

/* The limiter alone. */
typedef struct {
    murzicanu_envelope estimator;
    float carried;
    murzicanu_curve curve;
} murzicanu_limiter;

/* The whole box. */
typedef struct {
    murzicanu_speech_level estimator;
    murzicanu_protector protector;
    murzicanu_controller controller;
    murzicanu_limiter limiter;
} murzicanu_chain;

/* ---- The layout that the archive has. A compiler that lays a struct out in another way stops here. */

#if defined(__cplusplus) && __cplusplus >= 201103L
#define MURZICANU_LAID_OUT(name, test) static_assert(test, #name)
#elif defined(__STDC_VERSION__) && __STDC_VERSION__ >= 201112L
#define MURZICANU_LAID_OUT(name, test) _Static_assert(test, #name)
#else
#define MURZICANU_LAID_OUT(name, test) typedef char murzicanu_laid_out_##name[(test) ? 1 : -1]
#endif

MURZICANU_LAID_OUT(float_is_32_bits, sizeof(float) == 4);
MURZICANU_LAID_OUT(size_is_64_bits, sizeof(size_t) == 8);
MURZICANU_LAID_OUT(settings_size, sizeof(murzicanu_settings) == 20);
MURZICANU_LAID_OUT(figures_size, sizeof(murzicanu_figures) == 20);
MURZICANU_LAID_OUT(answer_size, sizeof(murzicanu_answer) == 16);
MURZICANU_LAID_OUT(published_size, sizeof(murzicanu_published) == 16);
MURZICANU_LAID_OUT(average_size, sizeof(murzicanu_average) == 12);
MURZICANU_LAID_OUT(speech_level_size, sizeof(murzicanu_speech_level) == 64);
MURZICANU_LAID_OUT(ring_size, sizeof(murzicanu_ring) == 76);
MURZICANU_LAID_OUT(peaks_size, sizeof(murzicanu_peaks) == 88);
MURZICANU_LAID_OUT(protector_size, sizeof(murzicanu_protector) == 192);
MURZICANU_LAID_OUT(applier_size, sizeof(murzicanu_applier) == 20);
MURZICANU_LAID_OUT(controller_size, sizeof(murzicanu_controller) == 56);
MURZICANU_LAID_OUT(envelope_size, sizeof(murzicanu_envelope) == 12);
MURZICANU_LAID_OUT(curve_size, sizeof(murzicanu_curve) == 48);
MURZICANU_LAID_OUT(limiter_size, sizeof(murzicanu_limiter) == 64);
MURZICANU_LAID_OUT(chain_size, sizeof(murzicanu_chain) == 376);
MURZICANU_LAID_OUT(capacity_place, offsetof(murzicanu_ring, capacity) == 64);
MURZICANU_LAID_OUT(place_place, offsetof(murzicanu_ring, place) == 68);
MURZICANU_LAID_OUT(size_place, offsetof(murzicanu_ring, size) == 72);
MURZICANU_LAID_OUT(ring_place, offsetof(murzicanu_peaks, ring) == 4);
MURZICANU_LAID_OUT(preliminary_place, offsetof(murzicanu_protector, preliminary) == 16);
MURZICANU_LAID_OUT(reliable_place, offsetof(murzicanu_protector, reliable) == 104);
MURZICANU_LAID_OUT(carried_place, offsetof(murzicanu_limiter, carried) == 12);
MURZICANU_LAID_OUT(curve_place, offsetof(murzicanu_limiter, curve) == 16);
MURZICANU_LAID_OUT(duration_place, offsetof(murzicanu_curve, duration) == 40);
MURZICANU_LAID_OUT(protector_place, offsetof(murzicanu_chain, protector) == 64);
MURZICANU_LAID_OUT(controller_place, offsetof(murzicanu_chain, controller) == 256);
MURZICANU_LAID_OUT(limiter_place, offsetof(murzicanu_chain, limiter) == 312);

/* The version of the archive: MURZICANU_VERSION where it fits this header. */
uint32_t murzicanu_version(void);

/* Whether the calling thread computes floats as every call takes it for granted: 1, or 0 where it does not. Ask in each
 * thread that calls the library, before its first call and after whatever may have changed it. This is no function of
 * the archive. Its numbers are volatile, so that the processor computes and not the compiler, whatever is optimised;
 * only with -mfpmath=387 it would ask another part of the processor than the one that the archive uses. */
static inline int murzicanu_floats_ready(void) {
    volatile float one = 1.0f;
    volatile float half = 5.9604644775390625e-8f;    /* 2 to the -24, half the step from 1 to the next float */
    volatile float more = 1.78813934326171875e-7f;   /* three times that, one and a half steps */
    volatile float normal = 1.1754943508222875e-38f; /* 2 to the -126, the least that is not subnormal */
    volatile float least = 1.401298464324817e-45f;   /* 2 to the -149, the least of all */
    /* Ties: half a step goes back to 1, one and a half go on to the second float, and so below 0. */
    volatile float back = one + half, on = one + more, below = -one - half, beyond = -one - more;
    /* A subnormal result and a subnormal operand. */
    volatile float result = normal * 0.5f, operand = least * 8388608.0f;
    return back <= 1.0f && on >= 1.0000002384185791015625f && below >= -1.0f && beyond <= -1.0000002384185791015625f &&
           result > 0.0f && operand > 0.0f;
}

/* ---- The whole box: level of the speech, headroom, gain, limiter. */

/* Makes a new chain for frames with so many samples a channel (10 ms: 480 at 48 kHz). The threshold, 1 to 3000, is how
 * many speech frames in a row make a reading: until a run has so many, what stood before stays published. A speech run of
 * fewer frames that a non-speech frame or a gap closes leaves no trace in what is published later.
 *
 * The ring's capacity, 1 to 16, is how many peaks the chain remembers: each is the largest of 41 speech frames, and the
 * headroom goes by the oldest. MURZICANU_USUAL_RING is the usual one, and a larger one is for a hall that echoes, where the
 * peak arrives late. No call changes it.
 *
 * Refused with 1 for the samples, then with 4 for the settings, the threshold or the capacity; the chain is then all 0, and
 * every call refuses it. */
uint32_t murzicanu_chain_new(murzicanu_chain *chain, const murzicanu_settings *settings, uint32_t threshold,
                             size_t samples, uint32_t ring_capacity);

/* Levels a frame where it stands, and tells what it was. `length` is the number of floats at `frame`, and has to be
 * channels times samples. Refused with 1, 4, 2 or 3; nothing is then stored in the chain or the frame, and the answer
 * is all 0. */
uint32_t murzicanu_chain_step(murzicanu_chain *chain, const murzicanu_figures *figures, float *frame, size_t length,
                              size_t channels, size_t samples, murzicanu_answer *answer);

/* Marks a gap: time has passed that the chain has not heard, so that the frames before it and after it are not adjacent.
 * No frame tells the chain of it, so your box has to, before the next frame:
 *
 * - where a frame was lost;
 * - where the meter was frozen, so that there are no figures of its own for a frame: drop the frame's sound too, or give
 *   figures, and do not hand in the old ones;
 * - after a refused frame, if time was lost by it. A refused frame alone ends no run: you may hand it in again, corrected.
 *
 * One call stands for any number of lost frames. It ends the run of speech as a non-speech frame does: a run shorter than
 * the threshold is forgotten, any other is kept, and the next speech frame begins a new run. Before the gain may rise
 * again, as many adjacent speech frames as the threshold says have to come. It has no sound and moves no gain: level,
 * headroom and gain stay as they were published, and so does the confidence of a chain that murzicanu_chain_new made.
 * Refused with 4; nothing is then stored in the chain. */
uint32_t murzicanu_chain_gap(murzicanu_chain *chain);

/* Reads what a chain publishes. Refused with 4, and then all is 0. */
uint32_t murzicanu_chain_read(const murzicanu_chain *chain, murzicanu_published *published);

/* ---- The limiter alone. */

/* Makes a new limiter for frames with so many samples a channel. Refused with 1; the limiter is then all 0, and every
 * call refuses it. */
uint32_t murzicanu_limiter_new(murzicanu_limiter *limiter, size_t samples);

/* Limits a frame where it stands. Refused with 1, 4 or 3; nothing is then stored in the limiter or the frame. */
uint32_t murzicanu_limiter_step(murzicanu_limiter *limiter, float *frame, size_t length, size_t channels,
                                size_t samples);

/* Reads the envelope's last value, on the scale of samples. Refused with 4, and then it is 0. */
uint32_t murzicanu_limiter_read(const murzicanu_limiter *limiter, float *level);

#ifdef __cplusplus
}
#endif

#endif
