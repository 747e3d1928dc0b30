#include "words.h"

#include <inttypes.h>
#include <stdbool.h>
#include <stdio.h>
#include <stdlib.h>

struct words words_of(const char *program, int count, char **arguments)
{
    return (struct words){program, count, arguments, 1};
}

/* False if the word is not digits alone, or is over 64 bits. */
static bool read_number(const char *word, uint64_t *number)
{
    *number = 0;
    for (const char *at = word; *at != 0; at++) {
        if (*at < '0' || *at > '9')
            return false;
        uint64_t digit = (uint64_t)(*at - '0');
        if (*number > (UINT64_MAX - digit) / 10)
            return false;
        *number = 10 * *number + digit;
    }
    return *word != 0;
}

uint64_t next_number(struct words *words, const char *name, uint64_t least, uint64_t most,
                     uint64_t otherwise)
{
    uint64_t number;
    if (words->next >= words->count)
        return otherwise;
    const char *word = words->arguments[words->next++];
    if (!read_number(word, &number) || number < least || number > most) {
        fprintf(stderr, "%s: %s must be a decimal number from %" PRIu64 " to %" PRIu64
                ", not '%s'\n", words->program, name, least, most, word);
        exit(2);
    }
    return number;
}

void no_more_words(const struct words *words)
{
    if (words->next >= words->count)
        return;
    fprintf(stderr, "%s: one word too many: '%s'\n", words->program,
            words->arguments[words->next]);
    exit(2);
}
