// One round over a part of the samples: part i of n, where i and n stand in its input. It pulls the weights into its host's replica,
// changes them there sample by sample, and pushes them. There is no lock: another call of its host may change a weight between its
// load and its store, and the last push of a round counts for weights that two hosts have changed. The descent bears both.
#include "descent.h"

// The step is 1/64 of the gradient.
enum { STEP = 6 };

static struct sample samples[MOST_SAMPLES];

int main(void) {
    uint32_t part[2];
    faasm_read_input(0, part, sizeof part);
    uint32_t count = read_samples(samples);
    faasm_pull_state(WEIGHTS);
    volatile int32_t *weights = FAASM_STATE(volatile int32_t, WEIGHTS);
    for (uint32_t i = part[0]; i < count; i += part[1]) {
        int32_t error = error_at(weights, &samples[i]) >> STEP;
        for (uint32_t j = 0; j < INPUTS; j++) weights[j] -= error * samples[i].x[j];
        weights[INPUTS] -= error;
    }
    faasm_push_state(WEIGHTS);
    return 0;
}
