/* reader WAY REPEATS < SHEETS: the processor time that the proved reader takes for the sheets one behind the other.
 *   whole   one sheet, and the same store at every call, 16 words for each token of the sheet
 *   unread  one sheet, and at every call the least store that is not refused, 16 words for each unread token
 *   parts   each part a sheet of its own, with the least store
 *   zeros   no reading: the stores of `unread` set to zero once for each call of `unread`
 * Prints what was answered, the words of all stores handed in, and the least time of the repeats in seconds. */
#include <time.h>
#include "leatherlava.h"
#include "sheet.h"

enum { SHARE = 16, MOST_CALLS = 1 << 20 };

struct count { size_t trees, errors, others; uint64_t nodes, stored; };

static uint64_t *store;
static size_t stores[MOST_CALLS];
static size_t calls_n;

static double now(void) {
    struct timespec t;
    clock_gettime(CLOCK_THREAD_CPUTIME_ID, &t);
    return (double)t.tv_sec + 1e-9 * (double)t.tv_nsec;
}

/* one sheet to its end or stop; fixed: the store's words, 0 for the least */
static void read_sheet(const uint64_t *sheet, size_t sheet_n, size_t fixed, struct count *count) {
    struct leatherlava_reader reader = {0};
    struct leatherlava_answer answer;
    do {
        size_t store_n = fixed > 0 ? fixed : SHARE * (sheet_n / 2 - reader.position);
        answer = leatherlava_next(&reader, sheet, sheet_n, store, store_n);
        if (calls_n < MOST_CALLS) stores[calls_n++] = store_n;
        count->stored += store_n;
        if (answer.variant == LEATHERLAVA_TREE) {
            count->trees++;
            count->nodes += answer.number;
        } else if (answer.variant == LEATHERLAVA_ERROR) count->errors++;
        else if (answer.variant != LEATHERLAVA_END) count->others++;
    } while (answer.variant == LEATHERLAVA_TREE || answer.variant == LEATHERLAVA_ERROR);
}

static struct count run(const char *way) {
    struct count count = {0};
    calls_n = 0;
    if (strcmp(way, "parts") == 0) {
        for (size_t i = 0; i < parts_n; i++) read_sheet(words + begins[i], begins[i + 1] - begins[i], 0, &count);
    } else read_sheet(words, words_n, strcmp(way, "whole") == 0 ? SHARE * words_n / 2 : 0, &count);
    return count;
}

static void zero_stores(void) {
    for (size_t i = 0; i < calls_n; i++) {
        memset(store, 0, stores[i] * sizeof *store);
        __asm__ volatile("" : : "r"(store) : "memory");
    }
}

int main(int argc, char **argv) {
    if (argc != 3) return 2;
    read_sheets();
    store = malloc((SHARE * words_n / 2 + 1) * sizeof *store);
    if (store == NULL) return 2;
    struct count count = run(argv[1]);
    double least = 0;
    for (int i = 0; i < atoi(argv[2]); i++) {
        double begun = now();
        if (strcmp(argv[1], "zeros") == 0) zero_stores();
        else count = run(argv[1]);
        double took = now() - begun;
        if (i == 0 || took < least) least = took;
    }
    printf("trees=%zu errors=%zu others=%zu nodes=%llu stored=%llu seconds=%.9f\n", count.trees, count.errors, count.others,
           (unsigned long long)count.nodes, (unsigned long long)count.stored, least);
    return 0;
}
