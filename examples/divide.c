// Divides the first number of its input by the second, adds the quotient to the sum in its first key under a lock, and returns it.
// Where the second is 0 the division traps while it holds the lock: the call ends, its lock is released, and the sum stays.
#include "faasm.h"

enum { SUM };

// In C a division by zero means nothing, so that a compiler may leave it out; this one is the instruction's, which traps.
static int32_t quotient(int32_t number, int32_t by) {
    volatile int32_t divisor = by;
    return number / divisor;
}

int main(void) {
    int32_t numbers[2];
    faasm_read_input(0, numbers, sizeof numbers);
    FAASM_LOCK_GLOBAL_WRITE(SUM);
    faasm_pull_state(SUM);
    int32_t result = quotient(numbers[0], numbers[1]);
    *FAASM_STATE(int32_t, SUM) += result;
    faasm_push_state(SUM);
    return result;
}
