/* Reads one statement from the tokens on standard input, for bench/patterns: prints the answer's variant and number. */
#include "leatherlava.h"
#include "records.h"

int main(void) {
    struct leatherlava_reader reader = {0};
    read_words();
    size_t store_n = 8 * words_n;
    uint64_t *store = calloc(store_n, sizeof *store);
    if (store == NULL) return 2;
    struct leatherlava_answer answer = leatherlava_next(&reader, words, words_n, store, store_n);
    printf("%llu %llu\n", (unsigned long long)answer.variant, (unsigned long long)answer.number);
    return 0;
}
