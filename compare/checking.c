/* Runs the proved check of labels over cases from stdin and prints its answers; all in words of 64 bits as the machine holds them.
 *
 * A case is the number of words of the records, then the records. Its answer is the number, the record number and what went wrong beside them (0: nothing). The
 * records are lent with a guard before and behind them. */
#include <stdio.h>
#include <stdlib.h>
#include <string.h>
#include "leatherlava.h"

#define GUARD UINT64_C(11400714819323198485)

enum { BEFORE_THE_RECORDS = 1, PAST_THE_RECORDS = 2, RECORDS_CHANGED = 4 };

static uint64_t *words(size_t count) {
    uint64_t *room = malloc(count * sizeof *room);
    if (room == NULL) exit(2);
    return room;
}

/* one call; lent has a word more than the records on each side, and kept is what it was */
static int run(uint64_t *lent, const uint64_t *kept, size_t records_n) {
    struct leatherlava_labels answer = leatherlava_check_labels(lent + 1, records_n);
    uint64_t wrong = 0;
    if (lent[0] != kept[0]) wrong |= BEFORE_THE_RECORDS;
    if (lent[records_n + 1] != kept[records_n + 1]) wrong |= PAST_THE_RECORDS;
    if (memcmp(lent + 1, kept + 1, records_n * sizeof *lent) != 0) wrong |= RECORDS_CHANGED;
    uint64_t printed[3] = {answer.number, answer.record_number, wrong};
    return fwrite(printed, sizeof printed, 1, stdout) == 1;
}

int main(void) {
    uint64_t records_n;
    while (fread(&records_n, sizeof records_n, 1, stdin) == 1) {
        uint64_t *lent = words(records_n + 2), *kept = words(records_n + 2);
        lent[0] = lent[records_n + 1] = GUARD;
        if (fread(lent + 1, sizeof *lent, records_n, stdin) != records_n) return 2;
        memcpy(kept, lent, (records_n + 2) * sizeof *kept);
        if (!run(lent, kept, records_n)) return 2;
        free(lent);
        free(kept);
    }
    return ferror(stdin) || fflush(stdout) != 0 ? 2 : 0;
}
