/* An example: ten seconds of a quiet tone that is metered as a reading, levelled, with a cough in it.
 *
 * It prints what the chain publishes each second. `library/build` compiles and runs it. */
#include <math.h>
#include <stdio.h>

#include "murzicanu.h"

#define SAMPLES 480

int main(void) {
    if (murzicanu_version() != MURZICANU_VERSION) {
        fprintf(stderr, "the archive has version %u, and the header %u\n", murzicanu_version(), MURZICANU_VERSION);
        return 1;
    }
    if (!murzicanu_floats_ready()) {
        fprintf(stderr, "this thread does not compute floats as the library takes for granted\n");
        return 1;
    }
    murzicanu_settings settings = MURZICANU_USUAL_SETTINGS;
    murzicanu_chain chain;
    uint32_t reply = murzicanu_chain_new(&chain, &settings, MURZICANU_USUAL_THRESHOLD, SAMPLES, MURZICANU_USUAL_RING);
    if (reply != MURZICANU_DONE) {
        fprintf(stderr, "a new chain is refused with %u\n", reply);
        return 1;
    }
    for (int k = 0; k < 1000; k++) {
        /* A second of reading, half a second of pause; in one pause a cough of five frames. */
        int reading = k % 150 < 100, cough = k >= 570 && k < 575;
        float loudness = reading ? 400.0f : cough ? 12000.0f : 2.0f, frame[SAMPLES];
        for (int i = 0; i < SAMPLES; i++)
            frame[i] = loudness * sinf((float)(k * SAMPLES + i) * 0.03f);
        float peak = 20.0f * log10f(loudness / 32768.0f);
        murzicanu_figures figures = {
            .probability = reading || cough ? 0.95f : 0.05f,
            .rms = peak - 3.0f,
            .peak = peak,
            .noise = -80.0f,
            .envelope = -60.0f,
        };
        murzicanu_answer answer;
        reply = murzicanu_chain_step(&chain, &figures, frame, SAMPLES, 1, SAMPLES, &answer);
        if (reply != MURZICANU_DONE) {
            fprintf(stderr, "frame %d is refused with %u\n", k, reply);
            return 1;
        }
        if (k % 100 == 99) {
            murzicanu_published now;
            if (murzicanu_chain_read(&chain, &now) != MURZICANU_DONE)
                return 1;
            printf("%2d s: level %.2f dBFS, headroom %.2f dB, gain %.2f dB, %s\n", k / 100 + 1, now.level, now.headroom,
                   now.gain, now.confident ? "trusted" : "not yet trusted");
        }
    }
    return 0;
}
