// The product of two square matrices, by eight calls of matrix_rows at once, each of which makes two rows. The factors are its
// first two keys, numbers of 8 bits by rows; the product is the third, numbers of 32 bits by rows. Prints the first row, and returns
// the sum of the diagonal.
#include "faasm.h"

enum { ONE, OTHER, PRODUCT };

enum { MAKE_ROWS };

enum { SIZE = 16, CHILDREN = 8 };

int main(void) {
    uint32_t children[CHILDREN];
    for (uint32_t i = 0; i < CHILDREN; i++) {
        uint32_t first = i * (SIZE / CHILDREN);
        children[i] = faasm_chain_call(MAKE_ROWS, &first, sizeof first);
    }
    for (uint32_t i = 0; i < CHILDREN; i++) {
        if (faasm_await(children[i]).status != FAASM_DONE) return -1;
    }
    // The rows were pushed from the hosts of the children.
    faasm_pull_state(PRODUCT);
    const int32_t *product = FAASM_STATE(const int32_t, PRODUCT);
    int32_t sum = 0;
    for (uint32_t i = 0; i < SIZE; i++) {
        sum += product[i * SIZE + i];
        faasm_print_signed(product[i]);
        faasm_print(i + 1 < SIZE ? " " : "\n");
    }
    return sum;
}
