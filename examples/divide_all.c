// Calls divide for each of three pairs and prints how each call ended: one of them traps, and this call and the others go on.
// Returns how many were done.
#include "faasm.h"

enum { DIVIDE };

enum { PAIRS = 3 };

static const int32_t pairs[PAIRS][2] = {{84, 2}, {1, 0}, {-91, 7}};

static const char *const names[] = {"done", "trap", "out of fuel", "broken", "no memory"};

int main(void) {
    uint32_t children[PAIRS];
    for (uint32_t i = 0; i < PAIRS; i++) children[i] = faasm_chain_call(DIVIDE, pairs[i], sizeof pairs[i]);
    int done = 0;
    for (uint32_t i = 0; i < PAIRS; i++) {
        struct faasm_outcome outcome = faasm_await(children[i]);
        faasm_print_signed(pairs[i][0]);
        faasm_print(" / ");
        faasm_print_signed(pairs[i][1]);
        faasm_print(": ");
        faasm_print(names[outcome.status]);
        if (outcome.status == FAASM_DONE) {
            faasm_print(" ");
            faasm_print_signed(outcome.result);
            done++;
        }
        faasm_print("\n");
    }
    return done;
}
