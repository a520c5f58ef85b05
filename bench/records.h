/* What the programs that call the writer or the check of labels share: the words of standard input, and processor time. */
#ifndef RECORDS_H
#define RECORDS_H

#include <stdint.h>
#include <stdio.h>
#include <stdlib.h>
#include <time.h>

static uint64_t *words;
static size_t words_n;

static void read_words(void) {
    size_t room = 1 << 16, got;
    words = malloc(room * sizeof *words);
    while (words != NULL && (got = fread(words + words_n, sizeof *words, room - words_n, stdin)) > 0) {
        words_n += got;
        if (words_n == room) words = realloc(words, (room *= 2) * sizeof *words);
    }
    if (words == NULL) exit(2);
}

static double now(void) {
    struct timespec t;
    clock_gettime(CLOCK_THREAD_CPUTIME_ID, &t);
    return t.tv_sec + t.tv_nsec / 1e9;
}

#endif
