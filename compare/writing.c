/* Runs the proved writer over cases from stdin and prints what it leaves; all in words of 64 bits as the machine holds them.
 *
 * A case is the number of words of the records, the number of words of the output, then the records. Its answer is the variant, the number,
 * what went wrong beside them (0: nothing) and every word of the output. The output is lent filled with words that are not zero, with a
 * guard before and behind it. */
#include <stdio.h>
#include <stdlib.h>
#include <string.h>
#include "leatherlava.h"

#define RUBBISH UINT64_C(11400714819323198485)

enum { BEFORE_THE_OUTPUT = 1, PAST_THE_OUTPUT = 2, RECORDS_CHANGED = 4 };

static uint64_t *words(size_t count) {
    uint64_t *room = malloc((count + 1) * sizeof *room);
    if (room == NULL) exit(2);
    return room;
}

static void put(const uint64_t *from, size_t count) {
    if (fwrite(from, sizeof *from, count, stdout) != count) exit(2);
}

/* an odd multiple of i + 1, so that it is zero nowhere */
static uint64_t rubbish(size_t i) {
    return RUBBISH * (i + 1);
}

/* one call; lent has a word more than the output on each side */
static void run(const uint64_t *records, size_t records_n, const uint64_t *kept, uint64_t *lent, size_t output_n) {
    uint64_t *output = lent + 1;
    for (size_t i = 0; i < output_n + 2; i++) lent[i] = rubbish(i);
    struct leatherlava_answer answer = leatherlava_write_stmt(records, records_n, output, output_n);
    uint64_t wrong = 0;
    if (lent[0] != rubbish(0)) wrong |= BEFORE_THE_OUTPUT;
    if (output[output_n] != rubbish(output_n + 1)) wrong |= PAST_THE_OUTPUT;
    if (memcmp(records, kept, records_n * sizeof *records) != 0) wrong |= RECORDS_CHANGED;
    put((uint64_t[]){answer.variant, answer.number, wrong}, 3);
    put(output, output_n);
}

int main(void) {
    uint64_t sizes[2];
    while (fread(sizes, sizeof sizes[0], 2, stdin) == 2) {
        uint64_t *records = words(sizes[0]), *kept = words(sizes[0]), *lent = words(sizes[1] + 2);
        if (fread(records, sizeof *records, sizes[0], stdin) != sizes[0]) return 2;
        memcpy(kept, records, sizes[0] * sizeof *kept);
        run(records, sizes[0], kept, lent, sizes[1]);
        free(records);
        free(kept);
        free(lent);
    }
    return ferror(stdin) || fflush(stdout) != 0 ? 2 : 0;
}
