/* Tests of the library from C. The first argument is a strip, the second the lines that are due for it.
 *
 * Each check prints 'ok NAME' or 'not ok NAME'. */
#include <math.h>
#include <stdio.h>
#include <stdlib.h>
#include <string.h>
#include <xmmintrin.h>

#include "murzicanu.h"

static int failures;

static void check(int good, const char *name) {
    printf("%s the library from C: %s\n", good ? "ok" : "not ok", name);
    failures += !good;
}

static uint32_t big(const unsigned char *at, int bytes) {
    uint32_t n = 0;
    for (int i = 0; i < bytes; i++)
        n = n << 8 | at[i];
    return n;
}

static float real(const unsigned char *at) {
    uint32_t bits = big(at, 4);
    float x;
    memcpy(&x, &bits, 4);
    return x;
}

/* A new chain with the usual ring, which the tests have where the ring is not what they are about. */
static uint32_t new_chain(murzicanu_chain *chain, const murzicanu_settings *settings, uint32_t threshold, size_t samples) {
    return murzicanu_chain_new(chain, settings, threshold, samples, MURZICANU_USUAL_RING);
}

/* Hundredths of a figure, cut toward zero; a double holds them exactly. */
static long hundredths(float x) { return (long)((double)x * 100.0); }

/* A service run through the library over silent frames, each line as the program `strip` prints it. A strip of version 1
 * has its threshold in one byte, and one of version 2 in two; there a record of length 0 is a gap. */
static void service(const char *strip, const char *lines) {
    FILE *in = fopen(strip, "rb"), *due = fopen(lines, "r");
    unsigned char head[27], record[22];
    int version = in && due && fread(head, 1, 3, in) == 3 ? head[2] : 0;
    if ((version != 1 && version != 2) || fread(head + 3, 1, 22 + version, in) != 22u + version) {
        check(0, "the example service can be read");
        return;
    }
    const unsigned char *rest = head + 3 + version;
    size_t samples = big(rest, 2);
    murzicanu_settings settings = {real(rest + 2), real(rest + 6), real(rest + 10), real(rest + 14), real(rest + 18)};
    murzicanu_chain chain;
    check(new_chain(&chain, &settings, big(head + 3, version), samples) == MURZICANU_DONE, "a new chain");
    int same = 1, count = 0;
    while (fread(record, 1, 2, in) == 2) {
        float frame[480] = {0};
        murzicanu_answer answer = {0, 0, 0, 0};
        murzicanu_published now = {0, 0, 0, 0};
        char made[128] = "", line[128] = "", kind = 'G';
        uint32_t reply;
        if (version == 2 && big(record, 2) == 0) {
            reply = murzicanu_chain_gap(&chain);
        } else {
            if (fread(record + 2, 1, 20, in) != 20) {
                same = 0;
                break;
            }
            murzicanu_figures figures = {real(record + 2), real(record + 6), real(record + 10), real(record + 14), real(record + 18)};
            reply = murzicanu_chain_step(&chain, &figures, frame, samples, 1, samples, &answer);
            kind = answer.kind < 3 ? "NWP"[answer.kind] : '?';
        }
        if (reply == MURZICANU_DONE && murzicanu_chain_read(&chain, &now) == MURZICANU_DONE)
            snprintf(made, sizeof made, "%d %c %ld %ld %ld %u\n", count + 1, kind, hundredths(now.level),
                     hundredths(now.headroom), hundredths(now.gain), now.confident);
        same = same && fgets(line, sizeof line, due) && strcmp(made, line) == 0;
        if (answer.kind == MURZICANU_PUBLISHING)
            same = same && answer.level == now.level && answer.headroom == now.headroom && answer.missing == 0;
        else
            same = same && answer.level == 0 && answer.headroom == 0 &&
                   (answer.kind == MURZICANU_WAITING) == (answer.missing > 0);
        count++;
    }
    check(same && count > 0, "each record of the example service has its line");
    fclose(in);
    fclose(due);
}

static int unchanged(const void *a, const void *b, size_t n) { return memcmp(a, b, n) == 0; }

static int all_0(const void *at, size_t n) {
    const unsigned char *bytes = at;
    int good = 1;
    for (size_t i = 0; i < n; i++)
        good = good && bytes[i] == 0;
    return good;
}

/* A random number, the same in every run: xorshift. */
static uint32_t drawn(void) {
    static uint32_t x = 2463534242u;
    x ^= x << 13;
    x ^= x >> 17;
    x ^= x << 5;
    return x;
}

enum { SAMPLES = 160, CHANNELS = 2, LENGTH = CHANNELS * SAMPLES };

static const murzicanu_figures SPEECH = {0.95f, -20.0f, -12.0f, -80.0f, -60.0f};

static void tone(float *frame, int k) {
    for (int i = 0; i < LENGTH; i++)
        frame[i] = 20000.0f * sinf((float)(i % SAMPLES + SAMPLES * k) * 0.05f * (float)(1 + i / SAMPLES));
}

/* What a call may write over is first filled with a pattern. Where a call is refused, every byte of the state and of
 * the frame has to be the one that was there, and every byte of the answer 0. */
static int chain_refused(murzicanu_chain *chain, const murzicanu_figures *figures, float *frame, size_t length,
                         size_t channels, size_t samples, uint32_t *reply) {
    murzicanu_chain before;
    float sound[LENGTH];
    murzicanu_answer answer;
    memcpy(&before, chain, sizeof before);
    memcpy(sound, frame, sizeof sound);
    memset(&answer, 0xAA, sizeof answer);
    *reply = murzicanu_chain_step(chain, figures, frame, length, channels, samples, &answer);
    return *reply != MURZICANU_DONE && unchanged(chain, &before, sizeof before) &&
           unchanged(frame, sound, sizeof sound) && all_0(&answer, sizeof answer);
}

/* A gap that is refused with 4, and changes no byte. */
static int gap_refused(murzicanu_chain *chain) {
    murzicanu_chain before;
    memcpy(&before, chain, sizeof before);
    return murzicanu_chain_gap(chain) == MURZICANU_SETTING && unchanged(chain, &before, sizeof before);
}

static int limiter_refused(murzicanu_limiter *limiter, float *frame, size_t length, size_t channels, size_t samples,
                           uint32_t *reply) {
    murzicanu_limiter before;
    float sound[LENGTH];
    memcpy(&before, limiter, sizeof before);
    memcpy(sound, frame, sizeof sound);
    *reply = murzicanu_limiter_step(limiter, frame, length, channels, samples);
    return *reply != MURZICANU_DONE && unchanged(limiter, &before, sizeof before) &&
           unchanged(frame, sound, sizeof sound);
}

/* A chain and a limiter that were made over a pattern and have heard some frames. */
static int made(murzicanu_chain *chain, murzicanu_limiter *limiter, int pattern, int frames) {
    murzicanu_settings settings = MURZICANU_USUAL_SETTINGS;
    memset(chain, pattern, sizeof *chain);
    memset(limiter, pattern, sizeof *limiter);
    int good = new_chain(chain, &settings, 12, SAMPLES) == MURZICANU_DONE &&
               murzicanu_limiter_new(limiter, SAMPLES) == MURZICANU_DONE;
    for (int k = 0; k < frames; k++) {
        float frame[LENGTH];
        murzicanu_answer answer;
        tone(frame, k);
        good = good && murzicanu_chain_step(chain, &SPEECH, frame, LENGTH, CHANNELS, SAMPLES, &answer) == MURZICANU_DONE;
        tone(frame, k);
        good = good && murzicanu_limiter_step(limiter, frame, LENGTH, CHANNELS, SAMPLES) == MURZICANU_DONE;
    }
    return good;
}

/* Every byte of a state is the same, whatever stood in its memory before. */
static void determined(void) {
    murzicanu_settings settings = MURZICANU_USUAL_SETTINGS, wrong = settings;
    murzicanu_chain a, b;
    murzicanu_limiter c, d;
    int same = 1;
    for (int frames = 0; frames <= 100; frames += 50)
        same = same && made(&a, &c, 0xAA, frames) && made(&b, &d, 0x55, frames) && unchanged(&a, &b, sizeof a) &&
               unchanged(&c, &d, sizeof c);
    check(same, "every byte of a chain and a limiter is determined, new and after 50 and 100 frames");
    murzicanu_published now, later;
    float level, after;
    memset(&now, 0xAA, sizeof now);
    memset(&later, 0x55, sizeof later);
    memset(&level, 0xAA, sizeof level);
    memset(&after, 0x55, sizeof after);
    check(murzicanu_chain_read(&a, &now) == MURZICANU_DONE && murzicanu_chain_read(&a, &later) == MURZICANU_DONE &&
              unchanged(&now, &later, sizeof now) && murzicanu_limiter_read(&c, &level) == MURZICANU_DONE &&
              murzicanu_limiter_read(&c, &after) == MURZICANU_DONE && unchanged(&level, &after, sizeof level),
          "and so is every byte of what is read");
    check(unchanged(&a, &b, sizeof a) && unchanged(&c, &d, sizeof c), "and reading changes no byte of them");
    wrong.noise = -0.0f;
    memset(&a, 0xAA, sizeof a);
    int none = new_chain(&a, &settings, 12, 441) == MURZICANU_SHAPE && all_0(&a, sizeof a);
    memset(&a, 0xAA, sizeof a);
    none = none && new_chain(&a, &wrong, 12, SAMPLES) == MURZICANU_SETTING && all_0(&a, sizeof a);
    memset(&a, 0xAA, sizeof a);
    none = none && new_chain(&a, &settings, 0, SAMPLES) == MURZICANU_SETTING && all_0(&a, sizeof a);
    memset(&c, 0xAA, sizeof c);
    none = none && murzicanu_limiter_new(&c, 500) == MURZICANU_SHAPE && all_0(&c, sizeof c);
    check(none, "every byte of a chain and a limiter that are refused as new is 0");
}

/* Each kind of refusal, byte for byte. */
static void refused(void) {
    murzicanu_chain chain, other;
    murzicanu_limiter limiter, bad;
    murzicanu_figures figures = SPEECH;
    murzicanu_published now;
    float frame[LENGTH], level;
    uint32_t reply;
    check(made(&chain, &limiter, 0xAA, 20), "a chain and a limiter over memory filled with 0xAA");
    tone(frame, 20);
    check(chain_refused(&chain, &SPEECH, frame, LENGTH, 3, SAMPLES, &reply) && reply == MURZICANU_SHAPE,
          "a chain's refusal with 1 changes no byte");
    figures.peak = NAN;
    check(chain_refused(&chain, &figures, frame, LENGTH, CHANNELS, SAMPLES, &reply) && reply == MURZICANU_FIGURE,
          "a chain's refusal with 2 changes no byte");
    frame[LENGTH - 1] = 70000.0f;
    check(chain_refused(&chain, &SPEECH, frame, LENGTH, CHANNELS, SAMPLES, &reply) && reply == MURZICANU_SAMPLE,
          "a chain's refusal with 3 changes no byte");
    tone(frame, 20);
    memcpy(&other, &chain, sizeof other);
    other.protector.reliable.ring.place = 4;
    int good = chain_refused(&other, &SPEECH, frame, LENGTH, CHANNELS, SAMPLES, &reply) && reply == MURZICANU_SETTING;
    other = chain;
    other.limiter.estimator.part += 0x10000u;
    good = good && chain_refused(&other, &SPEECH, frame, LENGTH, CHANNELS, SAMPLES, &reply) && reply == MURZICANU_SETTING;
    other = chain;
    other.controller.applier.clip = 0xAAAAAAAAu;
    good = good && chain_refused(&other, &SPEECH, frame, LENGTH, CHANNELS, SAMPLES, &reply) && reply == MURZICANU_SETTING;
    check(good, "a chain's refusal with 4 changes no byte");
    memset(&now, 0xAA, sizeof now);
    memcpy(&chain, &other, sizeof chain);
    check(murzicanu_chain_read(&chain, &now) == MURZICANU_SETTING && all_0(&now, sizeof now) &&
              unchanged(&chain, &other, sizeof chain),
          "a chain whose reading is refused keeps every byte, and tells 0 in every byte");
    memset(&chain, 0, sizeof chain);
    good = chain_refused(&chain, &SPEECH, frame, LENGTH, CHANNELS, SAMPLES, &reply) && reply == MURZICANU_SHAPE;
    memset(&chain, 0xAA, sizeof chain);
    good = good && chain_refused(&chain, &SPEECH, frame, LENGTH, CHANNELS, SAMPLES, &reply) && reply == MURZICANU_SHAPE;
    chain.limiter.estimator.samples = SAMPLES;
    good = good && chain_refused(&chain, &SPEECH, frame, LENGTH, CHANNELS, SAMPLES, &reply) && reply == MURZICANU_SETTING;
    check(good, "a chain that was never made is refused with 1 where its samples differ, otherwise with 4");

    check(limiter_refused(&limiter, frame, LENGTH - 1, CHANNELS, SAMPLES, &reply) && reply == MURZICANU_SHAPE,
          "a limiter's refusal with 1 changes no byte");
    frame[0] = INFINITY;
    check(limiter_refused(&limiter, frame, LENGTH, CHANNELS, SAMPLES, &reply) && reply == MURZICANU_SAMPLE,
          "a limiter's refusal with 3 changes no byte");
    tone(frame, 20);
    bad = limiter;
    bad.carried = 2.0f;
    good = limiter_refused(&bad, frame, LENGTH, CHANNELS, SAMPLES, &reply) && reply == MURZICANU_SETTING;
    bad = limiter;
    bad.curve.available = 0x55555555u;
    good = good && limiter_refused(&bad, frame, LENGTH, CHANNELS, SAMPLES, &reply) && reply == MURZICANU_SETTING;
    check(good, "a limiter's refusal with 4 changes no byte");
    memset(&level, 0xAA, sizeof level);
    memcpy(&limiter, &bad, sizeof limiter);
    check(murzicanu_limiter_read(&limiter, &level) == MURZICANU_SETTING && all_0(&level, sizeof level) &&
              unchanged(&limiter, &bad, sizeof limiter),
          "a limiter whose reading is refused keeps every byte, and tells 0 in every byte");
}

/* Ten thousand refused calls of every kind, each with other inputs. */
static void many(void) {
    const float wrong[] = {NAN, INFINITY, -INFINITY, 1.0e30f, -151.0f, 101.0f};
    murzicanu_chain chain, damaged, first;
    murzicanu_limiter limiter, cracked, second;
    float frame[LENGTH], sound[LENGTH];
    int seen[5] = {0}, good = made(&chain, &limiter, 0xAA, 20), calls = 0;
    memcpy(&first, &chain, sizeof first);
    memcpy(&second, &limiter, sizeof second);
    tone(sound, 20);
    memcpy(frame, sound, sizeof frame);
    while (good && calls < 10000) {
        murzicanu_figures figures = SPEECH;
        float *const fields[] = {&figures.probability, &figures.rms, &figures.peak, &figures.noise, &figures.envelope};
        size_t length = LENGTH, channels = CHANNELS, samples = SAMPLES, place = drawn() % LENGTH;
        uint32_t reply = 0, kind = 1 + drawn() % 4, due = kind;
        memcpy(&damaged, &chain, sizeof damaged);
        memcpy(&cracked, &limiter, sizeof cracked);
        if (kind == 1) {
            switch (drawn() % 3) {
            case 0: channels = drawn() % 2 ? drawn() : 3 + drawn() % 9; break;
            case 1: samples = drawn() % 2 ? drawn() : 40 + 20 * (drawn() % 6); break;
            default: length = drawn() % LENGTH; break;
            }
        } else if (kind == 2) {
            *fields[drawn() % 5] = wrong[drawn() % 6];
        } else if (kind == 3) {
            frame[place] = wrong[drawn() % 4];
        } else {
            /* Some byte of the state is another one; one that still passes its test is damaged again. */
            murzicanu_published now;
            float level;
            while (murzicanu_chain_read(&damaged, &now) == MURZICANU_DONE)
                ((unsigned char *)&damaged)[drawn() % sizeof damaged] ^= (unsigned char)(1 + drawn() % 255);
            while (murzicanu_limiter_read(&cracked, &level) == MURZICANU_DONE)
                ((unsigned char *)&cracked)[drawn() % sizeof cracked] ^= (unsigned char)(1 + drawn() % 255);
        }
        good = chain_refused(kind == 4 ? &damaged : &chain, &figures, frame, length, channels, samples, &reply);
        /* A state whose samples were damaged differs in shape. */
        if (kind == 4 && damaged.limiter.estimator.samples != SAMPLES)
            due = MURZICANU_SHAPE;
        good = good && reply == due;
        if (kind == 4)
            good = good && gap_refused(&damaged);
        seen[reply < 5 ? reply : 0]++;
        calls++;
        if (kind != 2) {
            good = good && limiter_refused(kind == 4 ? &cracked : &limiter, frame, length, channels, samples, &reply);
            due = kind == 4 && cracked.estimator.samples != SAMPLES ? MURZICANU_SHAPE : kind;
            good = good && reply == due;
            calls++;
        }
        frame[place] = sound[place];
    }
    check(good && seen[1] > 1000 && seen[2] > 1000 && seen[3] > 1000 && seen[4] > 1000,
          "ten thousand refused calls, each with its number, change no byte of the state or the frame");
    check(unchanged(&chain, &first, sizeof chain) && unchanged(&limiter, &second, sizeof limiter) &&
              unchanged(frame, sound, sizeof frame),
          "and after them the chain, the limiter and the frame are those of before, byte for byte");
}

/* Frames of silence with these figures through a chain: how many of them are of each kind, and whether each that waits
 * tells one frame less than the one before it. */
static int heard(murzicanu_chain *chain, murzicanu_figures figures, int frames, int *kinds) {
    int good = 1;
    uint32_t missing = 0;
    for (int k = 0; k < frames; k++) {
        float frame[40] = {0};
        murzicanu_answer answer = {0, 0, 0, 0};
        good = good && murzicanu_chain_step(chain, &figures, frame, 40, 1, 40, &answer) == MURZICANU_DONE && answer.kind < 3;
        kinds[good ? answer.kind : 0]++;
        good = good && (missing == 0 || answer.missing == missing - 1);
        missing = answer.missing;
    }
    return good;
}

/* The longest threshold: thirty seconds of speech, and until then what stood before is published. */
static void longest(void) {
    murzicanu_settings settings = MURZICANU_USUAL_SETTINGS;
    const murzicanu_figures quiet = {1.0f, -60.0f, -50.0f, -90.0f, -60.0f}, pause = {0.0f, -70.0f, -60.0f, -90.0f, -60.0f};
    murzicanu_chain chain, other;
    murzicanu_published before, now;
    int kinds[3] = {0}, pauses[3] = {0};
    settings.change = 1.0f;
    check(new_chain(&chain, &settings, 3000, 40) == MURZICANU_DONE, "a new chain with threshold 3000");
    int good = murzicanu_chain_read(&chain, &before) == MURZICANU_DONE;
    good = good && heard(&chain, quiet, 2999, kinds) && kinds[MURZICANU_WAITING] == 2999;
    good = good && murzicanu_chain_read(&chain, &now) == MURZICANU_DONE && unchanged(&before, &now, sizeof now);
    check(good && now.gain == 15.0f, "with threshold 3000, 2999 speech frames wait, and what is published stands");
    good = heard(&chain, quiet, 1, kinds) && kinds[MURZICANU_PUBLISHING] == 1 &&
           murzicanu_chain_read(&chain, &now) == MURZICANU_DONE;
    check(good && now.level < before.level && now.confident == 1, "and the 3000th publishes a level that is trusted");
    /* At one dB a second the gain may rise by 30 dB after thirty seconds; the target lies between, so it is reached. */
    check(good && now.gain > 30.0f && now.gain < 45.0f, "the first step up is that of 3000 frames");
    settings.change = 0.5f;
    good = new_chain(&chain, &settings, 3000, 40) == MURZICANU_DONE && heard(&chain, quiet, 3000, kinds) &&
           murzicanu_chain_read(&chain, &now) == MURZICANU_DONE && fabsf(now.gain - 30.0f) < 0.001f;
    good = good && heard(&chain, quiet, 1, kinds) && murzicanu_chain_read(&chain, &now) == MURZICANU_DONE;
    check(good && fabsf(now.gain - 30.005f) < 0.001f, "at half a dB a second it is 15 dB, and the next one 0.005 dB");

    good = new_chain(&chain, &settings, 3000, 40) == MURZICANU_DONE &&
           new_chain(&other, &settings, 3000, 40) == MURZICANU_DONE && heard(&chain, quiet, 2999, kinds) &&
           heard(&chain, pause, 1, kinds) && heard(&other, pause, 3000, pauses);
    check(good && pauses[MURZICANU_NO_SPEECH] == 3000 && unchanged(&chain, &other, sizeof chain),
          "a run of 2999 frames that a pause ends leaves no byte in the chain");
}

/* What a gap is refused for: a state that fails its test, and nothing else. */
static void gaps_refused(void) {
    murzicanu_chain chain, other;
    murzicanu_limiter limiter;
    int good = 1;
    check(made(&chain, &limiter, 0xAA, 20), "a chain over memory filled with 0xAA, for its gaps");
    for (int pattern = 0; pattern < 256; pattern++) {
        memset(&other, pattern, sizeof other);
        good = good && gap_refused(&other);
    }
    check(good, "a gap of a chain that was never made is refused with 4 and changes no byte, whatever stands there");
    murzicanu_speech_level *const level = &other.estimator;
    murzicanu_protector *const peaks = &other.protector;
    murzicanu_controller *const gain = &other.controller;
    murzicanu_limiter *const limits = &other.limiter;
    uint32_t *const numbers[] = {&level->threshold, &level->preliminary.left, &level->confident, &level->count,
                                 &peaks->threshold, &peaks->preliminary.ring.capacity, &peaks->reliable.ring.capacity,
                                 &peaks->reliable.ring.place, &peaks->reliable.ring.size,
                                 &gain->applier.clip, &gain->threshold, &gain->waiting, &limits->estimator.samples,
                                 &limits->estimator.part, &limits->curve.available, &limits->curve.region};
    float *const reals[] = {&level->settings.headroom, &level->level, &level->reliable.sum, &peaks->initial,
                            &peaks->headroom, &peaks->preliminary.headroom, &gain->applier.current, &gain->change,
                            &gain->gain, &limits->estimator.level, &limits->carried};
    good = 1;
    for (size_t i = 0; i < sizeof numbers / sizeof *numbers; i++) {
        memcpy(&other, &chain, sizeof other);
        *numbers[i] = 0xAAAAAAAAu;
        good = good && gap_refused(&other);
    }
    for (size_t i = 0; i < sizeof reals / sizeof *reals; i++) {
        memcpy(&other, &chain, sizeof other);
        *reals[i] = NAN;
        good = good && gap_refused(&other);
    }
    check(good, "a gap of a damaged chain is refused with 4 and changes no byte, for each of 27 fields");
    murzicanu_settings settings = MURZICANU_USUAL_SETTINGS;
    good = new_chain(&other, &settings, 0, SAMPLES) == MURZICANU_SETTING && gap_refused(&other);
    check(good, "so is one of a chain that was refused as new");
    check(murzicanu_chain_gap(&chain) == MURZICANU_DONE, "and the chain that was made takes it");
}

/* Gaps are where adjacent frames end. */
static void gaps(void) {
    const murzicanu_figures pause = {0.05f, -70.0f, -60.0f, -80.0f, -60.0f};
    const uint32_t thresholds[] = {2, 12, 200, 3000};
    murzicanu_settings settings = MURZICANU_USUAL_SETTINGS;
    murzicanu_chain chain, other, before;
    murzicanu_limiter limiter;
    murzicanu_published first, now;
    for (int t = 0; t < 4; t++) {
        int run = (int)thresholds[t] - 1, with[3] = {0}, without[3] = {0};
        char name[96];
        int good = new_chain(&chain, &settings, thresholds[t], 40) == MURZICANU_DONE;
        other = chain;
        good = good && murzicanu_chain_read(&chain, &first) == MURZICANU_DONE && heard(&chain, SPEECH, run, with) &&
               murzicanu_chain_gap(&chain) == MURZICANU_DONE && heard(&chain, SPEECH, run, with) &&
               murzicanu_chain_read(&chain, &now) == MURZICANU_DONE;
        good = good && with[MURZICANU_WAITING] == 2 * run && with[MURZICANU_PUBLISHING] == 0 &&
               unchanged(&now, &first, sizeof now);
        snprintf(name, sizeof name, "with threshold %u a run of %d, a gap and a run of %d never publish", thresholds[t], run, run);
        check(good, name);
        good = heard(&other, SPEECH, run, without) && heard(&other, SPEECH, run, without);
        check(good && without[MURZICANU_WAITING] == run && without[MURZICANU_PUBLISHING] == run, "and without the gap they do");
    }

    /* A new chain, one in a short run and one in a long run: what they publish stays. */
    int good = 1;
    for (int frames = 0; frames <= 30; frames++) {
        good = good && made(&chain, &limiter, 0xAA, frames) && murzicanu_chain_read(&chain, &first) == MURZICANU_DONE;
        before = chain;
        good = good && murzicanu_chain_gap(&chain) == MURZICANU_DONE &&
               murzicanu_chain_read(&chain, &now) == MURZICANU_DONE && unchanged(&now, &first, sizeof now) &&
               unchanged(&chain.limiter, &before.limiter, sizeof chain.limiter) &&
               unchanged(&chain.controller.applier, &before.controller.applier, sizeof chain.controller.applier) &&
               (frames > 0) == !unchanged(&chain, &before, sizeof chain);
        other = chain;
        good = good && murzicanu_chain_gap(&chain) == MURZICANU_DONE && unchanged(&chain, &other, sizeof chain);
    }
    check(good, "a gap after 0 to 30 speech frames moves no published figure, no limiter and no ramp, and a second one no byte");

    /* The same service twice, once with gaps in its pauses, directly after a pause's frame. */
    int count = 0;
    good = new_chain(&chain, &settings, 12, SAMPLES) == MURZICANU_DONE &&
           new_chain(&other, &settings, 12, SAMPLES) == MURZICANU_DONE &&
           murzicanu_chain_gap(&chain) == MURZICANU_DONE;
    for (int k = 0; k < 400; k++) {
        int speaks = k % 100 < 70;
        const murzicanu_figures *figures = speaks ? &SPEECH : &pause;
        float frame[LENGTH], sound[LENGTH];
        murzicanu_answer answer, same;
        tone(frame, k);
        memcpy(sound, frame, sizeof sound);
        good = good &&
               murzicanu_chain_step(&chain, figures, frame, LENGTH, CHANNELS, SAMPLES, &answer) == MURZICANU_DONE &&
               murzicanu_chain_step(&other, figures, sound, LENGTH, CHANNELS, SAMPLES, &same) == MURZICANU_DONE;
        for (int i = 0; !speaks && i < 1 + k % 3; i++, count++)
            good = good && murzicanu_chain_gap(&chain) == MURZICANU_DONE;
        good = good && unchanged(frame, sound, sizeof frame) && unchanged(&answer, &same, sizeof answer) &&
               unchanged(&chain, &other, sizeof chain);
    }
    check(good && count > 200, "gaps in pauses change no sample, no answer and no byte of the chain");
}

/* A step, a gap and a reading of a chain that fails its test: each is refused with 4, and none changes a byte. */
static int fails(murzicanu_chain *chain) {
    murzicanu_chain before;
    murzicanu_published now;
    float frame[LENGTH];
    uint32_t reply;
    memcpy(&before, chain, sizeof before);
    memset(&now, 0xAA, sizeof now);
    tone(frame, 0);
    return chain_refused(chain, &SPEECH, frame, LENGTH, CHANNELS, SAMPLES, &reply) && reply == MURZICANU_SETTING &&
           gap_refused(chain) && murzicanu_chain_read(chain, &now) == MURZICANU_SETTING && all_0(&now, sizeof now) &&
           unchanged(chain, &before, sizeof before);
}

/* Puts these capacities into the two rings of a chain. */
static void set_rings(murzicanu_chain *chain, uint32_t preliminary, uint32_t reliable) {
    chain->protector.preliminary.ring.capacity = preliminary;
    chain->protector.reliable.ring.capacity = reliable;
}

/* At which frame of speech, counted from 1, two chains first answer differently that differ in their rings alone: 0 where
 * none of so many frames does, and -1 where a call is refused. Each 41 frames have another peak than the 41 before them. */
static int apart(uint32_t one, uint32_t other, int frames) {
    murzicanu_settings settings = MURZICANU_USUAL_SETTINGS;
    murzicanu_chain first, second;
    if (murzicanu_chain_new(&first, &settings, 1, 40, one) != MURZICANU_DONE ||
        murzicanu_chain_new(&second, &settings, 1, 40, other) != MURZICANU_DONE)
        return -1;
    for (int k = 1; k <= frames; k++) {
        murzicanu_figures figures = {1.0f, -28.0f, -6.0f - (float)((k - 1) / 41 % 2), -80.0f, -60.0f};
        float frame[40] = {0}, sound[40] = {0};
        murzicanu_answer answer, same;
        if (murzicanu_chain_step(&first, &figures, frame, 40, 1, 40, &answer) != MURZICANU_DONE ||
            murzicanu_chain_step(&second, &figures, sound, 40, 1, 40, &same) != MURZICANU_DONE)
            return -1;
        if (!unchanged(&answer, &same, sizeof answer))
            return k;
    }
    return 0;
}

/* The ring's capacity: 1 to 16, one for both rings of a chain, and what stands in the slots from it on does not matter. */
static void rings(void) {
    const uint32_t wrong[] = {0, 17, 65536 + 4, UINT32_MAX};
    murzicanu_settings settings = MURZICANU_USUAL_SETTINGS;
    murzicanu_chain chain, other, twin;
    murzicanu_limiter limiter;
    for (int i = 0; i < 4; i++) {
        char name[96];
        snprintf(name, sizeof name, "a ring's capacity of %u is refused with 4, and every byte of the chain is 0", wrong[i]);
        memset(&chain, 0xAA, sizeof chain);
        check(murzicanu_chain_new(&chain, &settings, 12, SAMPLES, wrong[i]) == MURZICANU_SETTING && all_0(&chain, sizeof chain),
              name);
    }
    memset(&chain, 0xAA, sizeof chain);
    check(murzicanu_chain_new(&chain, &settings, 12, 441, 17) == MURZICANU_SHAPE && all_0(&chain, sizeof chain),
          "where the samples are none as well, it is refused with 1");
    int good = 1;
    for (uint32_t n = 1; n <= 16; n++) {
        memset(&chain, 0xAA, sizeof chain);
        memset(&other, 0x55, sizeof other);
        good = good && murzicanu_chain_new(&chain, &settings, 12, SAMPLES, n) == MURZICANU_DONE &&
               murzicanu_chain_new(&other, &settings, 12, SAMPLES, n) == MURZICANU_DONE &&
               unchanged(&chain, &other, sizeof chain) && chain.protector.preliminary.ring.capacity == n &&
               chain.protector.reliable.ring.capacity == n && murzicanu_chain_gap(&chain) == MURZICANU_DONE;
    }
    check(good, "a ring's capacity of 1 to 16 is taken, both rings have it, and every byte of the chain is determined");

    /* In a ring of 4 that has heard 20 frames each of these capacities has its place, its size and its slots, so that only
     * the two that differ are refused. */
    good = made(&chain, &limiter, 0xAA, 20);
    int taken = good;
    for (uint32_t n = 1; n <= 16; n++) {
        other = chain;
        set_rings(&other, n, n);
        taken = taken && murzicanu_chain_gap(&other) == MURZICANU_DONE;
        for (uint32_t m = 1; m <= 16; m++) {
            other = chain;
            set_rings(&other, n, m);
            good = good && (n == m || fails(&other));
        }
    }
    check(good, "a chain whose two rings differ in capacity is refused with 4 and changes no byte, in each of 240 ways");
    check(taken, "and where both are changed alike, it is taken");
    good = 1;
    for (int i = 0; i < 4; i++) {
        other = chain;
        set_rings(&other, wrong[i], wrong[i]);
        good = good && fails(&other);
    }
    other = chain;
    other.protector.preliminary.ring.place = 4;
    good = good && fails(&other);
    other = chain;
    other.protector.preliminary.ring.size = 5;
    good = good && fails(&other);
    check(good, "one whose rings have a capacity that is none, or a place or a size beyond it, is refused with 4");

    /* Numbers and none, quiet and signalling, in every slot that is not the ring's: a service with pauses and gaps, once over
     * them and once over the zeros of a new chain. */
    const uint32_t sizes[] = {1, 4, 9, 15, 16};
    const murzicanu_figures pause = {0.05f, -70.0f, -60.0f, -80.0f, -60.0f};
    int inside = 1;
    good = 1;
    for (int s = 0; s < 5; s++) {
        uint32_t n = sizes[s];
        size_t left = (16 - n) * sizeof(float);
        good = good && murzicanu_chain_new(&chain, &settings, 12, SAMPLES, n) == MURZICANU_DONE;
        other = chain;
        murzicanu_ring *const first = &other.protector.preliminary.ring, *const second = &other.protector.reliable.ring;
        for (uint32_t i = n; i < 16; i++) {
            const uint32_t bits[] = {0x7FC00000u + i, 0xFFFFFFFFu, 0x7F800000u, 0x7F800001u + i, 0xCAFEF00Du};
            memcpy(&first->stored[i], &bits[i % 5], 4);
            memcpy(&second->stored[i], &bits[i % 5], 4);
        }
        twin = other;
        for (int k = 0; k < 400; k++) {
            const murzicanu_figures *figures = k % 100 < 90 ? &SPEECH : &pause;
            float frame[LENGTH], sound[LENGTH];
            murzicanu_answer answer, same;
            tone(frame, k);
            memcpy(sound, frame, sizeof sound);
            good = good &&
                   murzicanu_chain_step(&chain, figures, frame, LENGTH, CHANNELS, SAMPLES, &answer) == MURZICANU_DONE &&
                   murzicanu_chain_step(&other, figures, sound, LENGTH, CHANNELS, SAMPLES, &same) == MURZICANU_DONE &&
                   unchanged(frame, sound, sizeof frame) && unchanged(&answer, &same, sizeof answer);
            if (k % 130 == 129)
                good = good && murzicanu_chain_gap(&chain) == MURZICANU_DONE && murzicanu_chain_gap(&other) == MURZICANU_DONE;
        }
        good = good && first->capacity == n && second->capacity == n && second->size > 0 &&
               unchanged(first->stored + n, twin.protector.preliminary.ring.stored + n, left) &&
               unchanged(second->stored + n, twin.protector.reliable.ring.stored + n, left);
        memset(first->stored + n, 0, left);
        memset(second->stored + n, 0, left);
        good = good && unchanged(&chain, &other, sizeof chain);
        first->stored[n - 1] = NAN;
        inside = inside && fails(&other);
        other = chain;
        second->stored[n - 1] = NAN;
        inside = inside && fails(&other);
    }
    check(good, "what stands in the slots from the capacity on, also what is no number, stays, and changes nothing else");
    check(inside, "what is no number in the last slot below the capacity is refused with 4, in either ring");

    /* The ring of n drops its oldest peak at its push n + 1, in frame 41 (n + 1); one of 16 still has it. */
    good = apart(4, 4, 700) == 0 && apart(16, 16, 700) == 0;
    for (int n = 1; n < 16; n++)
        good = good && apart(n, 16, 700) == 41 * (n + 1);
    check(apart(4, 16, 204) == 0 && apart(4, 16, 205) == 205,
          "rings of 4 and of 16 answer alike for 204 frames of speech, and differ in the frame that drops the oldest peak of 4");
    check(good, "a ring of n and one of 16 first differ in frame 41 (n + 1), for each n below 16");
}

/* The register MXCSR: how the processor rounds, and what it does with the smallest numbers. */
enum { DEFAULT = 0x1F80, ROUND_DOWN = 0x3F80, ROUND_UP = 0x5F80, ROUND_TO_ZERO = 0x7F80, FTZ = 0x9F80, DAZ = 0x1FC0 };

/* What the header's check says of a thread whose register is this. */
static int ready(unsigned registered) {
    unsigned kept = _mm_getcsr();
    _mm_setcsr(registered);
    int answer = murzicanu_floats_ready();
    _mm_setcsr(kept);
    return answer;
}

/* The floats of the thread: what the check says of them, and that a call depends on them. */
static void floats(void) {
    check(murzicanu_floats_ready() == 1 && ready(DEFAULT) == 1, "floats as they are by default are ready");
    check(ready(ROUND_UP) == 0, "floats that are rounded up are not ready");
    check(ready(ROUND_DOWN) == 0, "floats that are rounded down are not ready");
    check(ready(ROUND_TO_ZERO) == 0, "floats that are rounded to zero are not ready");
    check(ready(FTZ) == 0, "floats of which a subnormal result is made zero are not ready");
    check(ready(DAZ) == 0, "floats of which a subnormal operand is taken for zero are not ready");
    check(murzicanu_floats_ready() == 1, "and after that they are ready again");

    murzicanu_settings settings = MURZICANU_USUAL_SETTINGS;
    murzicanu_chain chain;
    murzicanu_published now;
    murzicanu_answer answer;
    float frame[LENGTH];
    tone(frame, 0);
    int good = new_chain(&chain, &settings, 12, SAMPLES) == MURZICANU_DONE;
    _mm_setcsr(ROUND_UP);
    int told = murzicanu_floats_ready() == 0;
    uint32_t read = murzicanu_chain_read(&chain, &now);
    uint32_t stepped = murzicanu_chain_step(&chain, &SPEECH, frame, LENGTH, CHANNELS, SAMPLES, &answer);
    uint32_t marked = murzicanu_chain_gap(&chain);
    _mm_setcsr(DEFAULT);
    check(good && told && read == MURZICANU_SETTING && stepped == MURZICANU_SETTING && marked == MURZICANU_SETTING,
          "a chain just made is refused with 4 where the thread rounds up");
    check(murzicanu_chain_step(&chain, &SPEECH, frame, LENGTH, CHANNELS, SAMPLES, &answer) == MURZICANU_DONE,
          "and taken again where it rounds to nearest");

    /* A frame of subnormal samples through a limiter, whose gain is 1 there. */
    float kept[SAMPLES], flushed[SAMPLES];
    uint32_t replies = 0;
    for (int pass = 0; pass < 2; pass++) {
        murzicanu_limiter limiter;
        float *sound = pass ? flushed : kept;
        for (int i = 0; i < SAMPLES; i++)
            sound[i] = 1.0e-40f;
        _mm_setcsr(pass ? FTZ : DEFAULT);
        replies |= murzicanu_limiter_new(&limiter, SAMPLES) | murzicanu_limiter_step(&limiter, sound, SAMPLES, 1, SAMPLES);
        _mm_setcsr(DEFAULT);
    }
    check(replies == MURZICANU_DONE && !all_0(kept, sizeof kept) && all_0(flushed, sizeof flushed),
          "the smallest samples come out as zero where the thread flushes them, and no call notices");
}

int main(int argc, char **argv) {
    if (argc != 3) {
        fprintf(stderr, "test-c: wants a strip and the lines that are due for it\n");
        return 2;
    }
    check(murzicanu_version() == MURZICANU_VERSION, "the header and the archive have the same version");
    service(argv[1], argv[2]);
    determined();
    refused();
    many();
    longest();
    gaps_refused();
    gaps();
    rings();
    floats();

    murzicanu_settings settings = MURZICANU_USUAL_SETTINGS, wrong = settings;
    murzicanu_chain chain, before, zero;
    memset(&zero, 0, sizeof zero);
    wrong.change = NAN;
    check(new_chain(&chain, &settings, 12, 441) == MURZICANU_SHAPE, "441 samples are refused with 1");
    check(new_chain(&chain, &wrong, 12, 480) == MURZICANU_SETTING, "a setting that is no number is refused with 4");
    const uint32_t thresholds[] = {0, 3001, 65536 + 12, UINT32_MAX};
    for (int t = 0; t < 4; t++) {
        char name[64];
        snprintf(name, sizeof name, "a threshold of %u is refused with 4", thresholds[t]);
        check(new_chain(&chain, &settings, thresholds[t], 480) == MURZICANU_SETTING, name);
    }

    /* Eight channels, loud enough for the limiter. */
    murzicanu_figures figures = {0.95f, -20.0f, -12.0f, -80.0f, -60.0f};
    murzicanu_answer answer;
    static float frame[8 * 480], copy[8 * 480];
    check(new_chain(&chain, &settings, 1, 480) == MURZICANU_DONE, "a new chain with threshold 1");
    int inside = 1, done = 1;
    for (int k = 0; k < 200; k++) {
        for (int i = 0; i < 8 * 480; i++)
            frame[i] = 30000.0f * sinf((float)(i % 480 + 480 * k) * 0.05f * (float)(1 + i / 480));
        done = done && murzicanu_chain_step(&chain, &figures, frame, 8 * 480, 8, 480, &answer) == MURZICANU_DONE;
        for (int i = 0; i < 8 * 480; i++)
            inside = inside && frame[i] >= -32768.0f && frame[i] <= 32767.0f;
    }
    check(done && answer.kind == MURZICANU_PUBLISHING, "two hundred loud frames of eight channels");
    check(inside, "every sample of them lies between -32768 and 32767");

    before = chain;
    memcpy(copy, frame, sizeof frame);
    copy[17] = frame[17] = NAN;
    check(murzicanu_chain_step(&chain, &figures, frame, 8 * 480, 8, 480, &answer) == MURZICANU_SAMPLE, "a sample that is no number is refused with 3");
    check(answer.kind == 0 && answer.missing == 0 && answer.level == 0 && answer.headroom == 0, "and the answer is all 0");
    copy[17] = frame[17] = 0.0f;
    check(murzicanu_chain_step(&chain, &figures, frame, 8 * 480, 7, 480, &answer) == MURZICANU_SHAPE, "seven channels in the buffer of eight are refused with 1");
    figures.rms = 60.0f;
    check(murzicanu_chain_step(&chain, &figures, frame, 8 * 480, 8, 480, &answer) == MURZICANU_FIGURE, "an rms of 60 is refused with 2");
    figures.rms = -20.0f;
    check(unchanged(&chain, &before, sizeof chain) && unchanged(frame, copy, sizeof frame),
          "a refused step changes neither the chain nor the frame");

    /* A flag that is none. */
    uint32_t *const flags[] = {&chain.estimator.confident, &chain.controller.applier.clip, &chain.limiter.curve.available};
    const char *const names[] = {"confident", "clip", "available"};
    for (int f = 0; f < 3; f++) {
        uint32_t kept = *flags[f];
        murzicanu_published now;
        char name[96];
        *flags[f] = 2;
        snprintf(name, sizeof name, "a state whose flag '%s' is 2 is refused with 4, and keeps it", names[f]);
        check(murzicanu_chain_step(&chain, &figures, frame, 8 * 480, 8, 480, &answer) == MURZICANU_SETTING && *flags[f] == 2 &&
                  murzicanu_chain_read(&chain, &now) == MURZICANU_SETTING && now.gain == 0,
              name);
        *flags[f] = kept;
    }
    check(murzicanu_chain_step(&zero, &figures, frame, 8 * 480, 8, 480, &answer) == MURZICANU_SHAPE, "a chain of zeros is refused");
    check(murzicanu_chain_step(&chain, &figures, frame, 8 * 480, 8, 480, &answer) == MURZICANU_DONE, "the chain goes on after all refusals");

    murzicanu_limiter limiter;
    float level = -1.0f, rises[480];
    check(murzicanu_limiter_new(&limiter, 39) == MURZICANU_SHAPE, "a limiter for 39 samples is refused with 1");
    check(murzicanu_limiter_new(&limiter, 480) == MURZICANU_DONE, "a new limiter");
    for (int i = 0; i < 480; i++)
        rises[i] = (float)i * 1000.0f;
    inside = murzicanu_limiter_step(&limiter, rises, 480, 1, 480) == MURZICANU_DONE;
    for (int i = 0; i < 480; i++)
        inside = inside && rises[i] >= -32768.0f && rises[i] <= 32767.0f;
    check(inside, "a frame far beyond full scale is limited");
    check(murzicanu_limiter_read(&limiter, &level) == MURZICANU_DONE && fabsf(level - 479000.0f) < 1.0f, "the limiter's level is that of the frame's peak");
    limiter.curve.available = 7;
    check(murzicanu_limiter_read(&limiter, &level) == MURZICANU_SETTING && level == 0, "a limiter whose flag is 7 is refused with 4");
    check(murzicanu_limiter_step(&limiter, rises, 480, 1, 480) == MURZICANU_SETTING, "and its step too");
    return failures != 0;
}
