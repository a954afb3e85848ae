// Two rows of a product of matrices, as matrix.c has it; the number of the first row is its input.
#include "faasm.h"

enum { ONE, OTHER, PRODUCT };

enum { SIZE = 16, ROWS = 2 };

static int8_t one[ROWS][SIZE], other[SIZE][SIZE];
static int32_t product[ROWS][SIZE];

int main(void) {
    uint32_t first = 0;
    faasm_read_input(0, &first, sizeof first);
    faasm_read_state(ONE, first * SIZE, one, sizeof one);
    faasm_read_state(OTHER, 0, other, sizeof other);
    for (uint32_t row = 0; row < ROWS; row++) {
        for (uint32_t column = 0; column < SIZE; column++) {
            int32_t sum = 0;
            for (uint32_t i = 0; i < SIZE; i++) sum += one[row][i] * other[i][column];
            product[row][column] = sum;
        }
    }
    // Only its own rows are pushed, so what other children push stays.
    uint32_t off = first * SIZE * sizeof(int32_t);
    faasm_set_state(PRODUCT, off, product, sizeof product);
    faasm_push_state_offset(PRODUCT, off, sizeof product);
    return 0;
}
