// Stochastic gradient descent: fits a plane to the samples of its second key, with the weights in its first. Each round calls four
// children, which go over a quarter of the samples each and change the shared weights without a lock. Then it prints the loss: the
// mean of the squared errors. Returns the last loss in thousandths.
#include "descent.h"

enum { GO_OVER_PART };

enum { ROUNDS = 12, CHILDREN = 4 };

static struct sample samples[MOST_SAMPLES];

// The mean of the squared errors, in thousandths.
static uint32_t loss(const volatile int32_t *weights, uint32_t count) {
    uint64_t sum = 0;
    for (uint32_t i = 0; i < count; i++) {
        int64_t error = error_at(weights, &samples[i]);
        sum += (uint64_t)(error * error) >> PLACES;
    }
    return (uint32_t)((sum * 1000 / count) >> PLACES);
}

static bool go_round(void) {
    uint32_t children[CHILDREN];
    for (uint32_t i = 0; i < CHILDREN; i++) {
        uint32_t part[2] = {i, CHILDREN};
        children[i] = faasm_chain_call(GO_OVER_PART, part, sizeof part);
    }
    bool done = true;
    for (uint32_t i = 0; i < CHILDREN; i++) done &= faasm_await(children[i]).status == FAASM_DONE;
    return done;
}

static void print_loss(uint32_t round, uint32_t thousandths) {
    faasm_print("round ");
    faasm_print_unsigned(round);
    faasm_print(" loss ");
    faasm_print_unsigned(thousandths / 1000);
    faasm_print(thousandths % 1000 < 10 ? ".00" : thousandths % 1000 < 100 ? ".0" : ".");
    faasm_print_unsigned(thousandths % 1000);
    faasm_print("\n");
}

int main(void) {
    uint32_t count = read_samples(samples);
    const volatile int32_t *weights = FAASM_STATE(const volatile int32_t, WEIGHTS);
    uint32_t thousandths = loss(weights, count);
    print_loss(0, thousandths);
    for (uint32_t round = 1; round <= ROUNDS; round++) {
        if (!go_round()) return -1;
        faasm_pull_state(WEIGHTS);
        thousandths = loss(weights, count);
        print_loss(round, thousandths);
    }
    return (int)thousandths;
}
