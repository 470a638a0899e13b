/* Words of the command line as numbers, and output that is noticed where it fails. Status of every example: 0 done, 1 refused, 2 misuse or a file
 * that fails. */
#ifndef WORDS_H
#define WORDS_H

#include <stdbool.h>
#include <stdint.h>
#include <stdio.h>
#include <stdlib.h>
#include <string.h>

enum { DONE = 0, REFUSED = 1, MISUSE = 2 };

/* Says what is wrong with a word, and ends. */
static inline void misuse(const char *word, const char *what) {
    fprintf(stderr, "%s: %s\n", word, what);
    exit(MISUSE);
}

/* The number of the decimal digits from `text` up to `end`, at most `most`; whether there is one. */
static inline bool digits(const char *text, const char *end, uint64_t most, uint64_t *value) {
    uint64_t x = 0;
    if (text == end) return false;
    for (; text < end; text++) {
        if (*text < '0' || *text > '9') return false;
        uint64_t digit = (uint64_t)(*text - '0');
        if (x > (most - digit) / 10) return false;
        x = 10 * x + digit;
    }
    *value = x;
    return true;
}

/* A word that is a number. */
static inline uint64_t number(const char *word, uint64_t most, const char *what) {
    uint64_t value;
    if (!digits(word, word + strlen(word), most, &value)) misuse(word, what);
    return value;
}

/* Writes bytes to standard output, all of them, or ends. */
static inline void put(const void *bytes, size_t count) {
    if (fwrite(bytes, 1, count, stdout) != count || fflush(stdout) != 0) {
        perror("standard output");
        exit(MISUSE);
    }
}

/* Reads standard input up to `room` bytes; how many. */
static inline size_t get(uint8_t *bytes, size_t room) {
    size_t count = fread(bytes, 1, room, stdin);
    if (ferror(stdin)) {
        perror("standard input");
        exit(MISUSE);
    }
    return count;
}

#endif
