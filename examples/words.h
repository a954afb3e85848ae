// What words.c and words_part.c share: the places of their grants, a record of the results, and counting.
#ifndef WORDS_H
#define WORDS_H
#include "faasm.h"

enum { TEXT, RESULTS };

enum { LETTERS = 12, MOST_WORDS = 64 };

// How often one word stands in one part of the text. Words of more letters are cut.
struct count {
    char word[LETTERS];  // lower case, zero behind its letters
    uint32_t times;
};

struct counts {
    uint32_t used;
    struct count list[MOST_WORDS];
};

static inline bool is_letter(char c) { return (c >= 'a' && c <= 'z') || (c >= 'A' && c <= 'Z'); }

// Adds so many of one word, at the end where it is new. Without room for a new word it traps.
static inline void add(struct counts *counts, const struct count *more) {
    for (uint32_t i = 0; i < counts->used; i++) {
        if (memcmp(counts->list[i].word, more->word, LETTERS) == 0) {
            counts->list[i].times += more->times;
            return;
        }
    }
    if (counts->used == MOST_WORDS) __builtin_trap();
    counts->list[counts->used++] = *more;
}

#endif
