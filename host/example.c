/* Reads the sheet `a + 1; begin continue end` to its end, prints every answer, checks the labels of each tree and writes it back as canonical tokens. Compiles as C99 and as
 * C++11. */
#include <inttypes.h>
#include <stdio.h>
#include <string.h>
#include "leatherlava.h"

enum { TOKENS = 8, STORE = 16 * TOKENS, OUTPUT = 3 * STORE };

/* The name a, which this host has as number 7; +; the integer 1; a semicolon; begin continue end; EOF. The first and the last stand first on their lines. */
static const uint64_t sheet[2 * TOKENS] = {69 + 256, 7, 11, 0, 71, 1, 8, 0, 56, 0, 62, 0, 68, 0, 75 + 256, 0};
static uint64_t store[STORE];
static uint64_t output[OUTPUT];

static void print_records(uint64_t nodes) {
    printf("tree of %" PRIu64 " nodes\n", nodes);
    for (size_t i = 0; i < nodes; i++) {
        uint64_t first = store[2 * i];
        printf("  kind %" PRIu64 ", children %" PRIu64 ", value %" PRIu64 "\n", first % 256, first / 256, store[2 * i + 1]);
    }
}

/* The tree's records stand at the front of the store. */
static void check_labels(uint64_t nodes) {
    struct leatherlava_labels labels = leatherlava_check_labels(store, 2 * (size_t)nodes);
    if (labels.number == 0)
        puts("no label leads nowhere");
    else
        printf("labels: number %" PRIu64 ", record %" PRIu64 "\n", labels.number, labels.record_number);
}

static void write_back(uint64_t nodes) {
    size_t records_n = 2 * (size_t)nodes;
    struct leatherlava_answer answer = leatherlava_write_stmt(store, records_n, output, 3 * records_n);
    if (answer.variant != LEATHERLAVA_TOKENS) {
        printf("not written: number %" PRIu64 "\n", answer.number);
        return;
    }
    printf("written as %" PRIu64 " tokens\n", answer.number);
    for (size_t i = 0; i < answer.number; i++)
        printf("  kind %" PRIu64 ", newline %" PRIu64 ", value %" PRIu64 "\n", output[2 * i] % 256, output[2 * i] / 256, output[2 * i + 1]);
}

int main(void) {
    struct leatherlava_reader reader;
    struct leatherlava_answer answer;
    memset(&reader, 0, sizeof reader);
    do {
        size_t unread = TOKENS - reader.position;
        answer = leatherlava_next(&reader, sheet, 2 * TOKENS, store, 16 * unread);
        if (answer.variant == LEATHERLAVA_TREE) {
            print_records(answer.number);
            check_labels(answer.number);
            write_back(answer.number);
        } else if (answer.variant == LEATHERLAVA_ERROR) {
            printf("error %" PRIu64 "\n", answer.number);
        }
    } while (answer.variant == LEATHERLAVA_TREE || answer.variant == LEATHERLAVA_ERROR);
    if (answer.variant != LEATHERLAVA_END) {
        printf("stopped or refused, number %" PRIu64 "\n", answer.number);
        return 1;
    }
    puts("end");
    return 0;
}
