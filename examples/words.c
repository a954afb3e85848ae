// Counts how often each word stands in the text of its first key. It cuts the text into parts, calls words_part for each, which
// append what they count to the second key, adds that up and prints each word that stands there more than once. Returns the
// number of all words.
#include "words.h"

enum { COUNT_PART };  // the place of its callable function

enum { PARTS = 4 };

struct part {
    uint32_t from, to;
};

// Calls one child for each part; a part ends between two words. They may run at once, on other hosts too.
static uint32_t call_parts(const char *text, uint32_t size, uint32_t children[PARTS]) {
    uint32_t from = 0, calls = 0;
    for (uint32_t i = 1; i <= PARTS; i++) {
        uint32_t to = i == PARTS ? size : size / PARTS * i;
        while (to < size && is_letter(text[to])) to++;
        if (to <= from) continue;
        struct part part = {from, to};
        children[calls++] = faasm_chain_call(COUNT_PART, &part, sizeof part);
        from = to;
    }
    return calls;
}

// Reads what the children have appended, and adds it up.
static void add_results(struct counts *counts) {
    uint32_t end = faasm_state_used(RESULTS);
    faasm_pull_state_offset(RESULTS, 0, end);
    for (uint32_t off = 0; off < end; off += sizeof(struct count)) {
        struct count one;
        faasm_read_state(RESULTS, off, &one, sizeof one);
        add(counts, &one);
    }
}

static void print_count(const struct count *count) {
    uint32_t length = 0;
    while (length < LETTERS && count->word[length]) length++;
    faasm_write_output(count->word, length);
    faasm_print(" ");
    faasm_print_unsigned(count->times);
    faasm_print("\n");
}

// Sorts by letters, so that the order doesn't hang on which child appended first.
static void sort(struct counts *counts) {
    for (uint32_t i = 1; i < counts->used; i++) {
        struct count one = counts->list[i];
        uint32_t at = i;
        for (; at > 0 && memcmp(counts->list[at - 1].word, one.word, LETTERS) > 0; at--) counts->list[at] = counts->list[at - 1];
        counts->list[at] = one;
    }
}

static struct counts counts;

int main(void) {
    uint32_t children[PARTS];
    uint32_t calls = call_parts(FAASM_STATE(const char, TEXT), faasm_state_size(TEXT), children);
    uint32_t words = 0;
    for (uint32_t i = 0; i < calls; i++) {
        struct faasm_outcome outcome = faasm_await(children[i]);
        if (outcome.status != FAASM_DONE) return -1;
        words += (uint32_t)outcome.result;
    }
    add_results(&counts);
    sort(&counts);
    for (uint32_t i = 0; i < counts.used; i++) {
        if (counts.list[i].times > 1) print_count(&counts.list[i]);
    }
    return (int)words;
}
