// Adds the number in its input, or 1 without input, to the number in its first key, and returns what stood there before. The lock on
// the global value makes it one step for all hosts.
#include "faasm.h"

enum { TALLY };  // the places of the grants

int main(void) {
    uint32_t step = 1;
    faasm_input(&step, sizeof step);
    FAASM_LOCK_GLOBAL_WRITE(TALLY);  // until main returns
    faasm_pull_state(TALLY);
    uint32_t *tally = FAASM_STATE(uint32_t, TALLY);
    uint32_t before = *tally;
    *tally = before + step;
    faasm_push_state(TALLY);
    return (int)before;
}
