// Answers from a big table that `init` makes once: the prime numbers below 65,536. Each call starts from the snapshot in which the
// table stands already. The input is a number n; returns the n-th prime, counted from 1, or 0 where the table has none.
#include "faasm.h"

enum { BELOW = 65536, MOST = 6542 };

static uint8_t is_composite[BELOW];
static uint16_t primes[MOST];

void init(void) {
    uint32_t count = 0;
    for (uint32_t n = 2; n < BELOW; n++) {
        if (is_composite[n]) continue;
        primes[count++] = (uint16_t)n;
        for (uint32_t m = n * 2; m < BELOW; m += n) is_composite[m] = 1;
    }
}

int main(void) {
    uint32_t n = 0;
    faasm_input(&n, sizeof n);
    return n >= 1 && n <= MOST ? primes[n - 1] : 0;
}
