// What descent.c and descent_part.c share. A sample has three numbers and the value that a plane should have there; the weights of
// the plane are one for each number and one that stands alone, in fixed point with 16 binary places.
#ifndef DESCENT_H
#define DESCENT_H
#include "faasm.h"

enum { WEIGHTS, SAMPLES };  // the places of the grants

enum { INPUTS = 3, PLACES = 16, MOST_SAMPLES = 64 };

struct sample {
    int8_t x[INPUTS];
    int8_t value;
};

// How far the plane of these weights is above the sample's value there, in fixed point. The weights are read from shared state.
static inline int32_t error_at(const volatile int32_t *weights, const struct sample *sample) {
    int32_t sum = weights[INPUTS] - sample->value * (1 << PLACES);
    for (uint32_t i = 0; i < INPUTS; i++) sum += weights[i] * sample->x[i];
    return sum;
}

static inline uint32_t read_samples(struct sample samples[MOST_SAMPLES]) {
    uint32_t size = faasm_state_size(SAMPLES);
    faasm_read_state(SAMPLES, 0, samples, size);
    return size / sizeof(struct sample);
}

#endif
