/*
 * The words after a program's name: decimal numbers. A word that is none or is
 * out of its range, and one too many, is said on standard error, and ends the
 * program with 2.
 */
#ifndef WORDS_H
#define WORDS_H

#include <stdint.h>

struct words {
    const char *program;
    int count; /* as main has them */
    char **arguments;
    int next;
};

struct words words_of(const char *program, int count, char **arguments);

/* The next word, of which `name` is said in a message; if there is none,
   `otherwise`. */
uint64_t next_number(struct words *words, const char *name, uint64_t least, uint64_t most,
                     uint64_t otherwise);

void no_more_words(const struct words *words);

#endif
