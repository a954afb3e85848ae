// Counts the words between two places of the text in its first key, which stand in its input as two numbers, and appends one record
// for each different word to its second key. Returns how many words there are.
#include "words.h"

enum { MOST_BYTES = 4096 };

static char text[MOST_BYTES];
static struct counts counts;

int main(void) {
    uint32_t range[2];
    faasm_read_input(0, range, sizeof range);
    uint32_t size = range[1] - range[0];
    if (size > MOST_BYTES) __builtin_trap();
    // One copy of the part: each load from mapped state would be an operation on it.
    faasm_read_state(TEXT, range[0], text, size);
    uint32_t words = 0;
    for (uint32_t at = 0; at < size;) {
        struct count one = {{0}, 1};
        uint32_t length = 0;
        for (; at < size && is_letter(text[at]); at++, length++) {
            if (length < LETTERS) one.word[length] = (char)(text[at] | 0x20);
        }
        if (length == 0) {
            at++;
            continue;
        }
        add(&counts, &one);
        words++;
    }
    // All its records in one step, so that no other child's stand between them.
    faasm_append_state(RESULTS, counts.list, counts.used * sizeof(struct count));
    return (int)words;
}
