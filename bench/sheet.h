/* Reads sheets of tokens in the notation of compare/driver.c: all of them one behind the other, and where each begins. */
#ifndef SHEET_H
#define SHEET_H

#include <stdint.h>
#include <stdio.h>
#include <stdlib.h>
#include <string.h>

enum { MOST_WORDS = 1 << 23, MOST_PARTS = 1 << 18 };

static uint64_t words[MOST_WORDS];
static size_t words_n;
static size_t begins[MOST_PARTS + 1];
static size_t parts_n;
static char names[MOST_PARTS][48];

static void read_sheets(void) {
    char line[256];
    while (fgets(line, sizeof line, stdin) != NULL) {
        unsigned long long kind, newline, value;
        if (strncmp(line, "sheet", 5) == 0 && parts_n < MOST_PARTS) {
            line[strcspn(line, "\n")] = 0;
            snprintf(names[parts_n], sizeof names[0], "%.47s", line);
            begins[parts_n++] = words_n;
        } else if (sscanf(line, "token=%llu newline=%llu value=%llu", &kind, &newline, &value) == 3 && words_n < MOST_WORDS) {
            words[words_n++] = kind + 256 * newline;
            words[words_n++] = value;
        } else {
            fprintf(stderr, "a line that is no token, or too many: %s", line);
            exit(2);
        }
    }
    begins[parts_n] = words_n;
}

#endif
