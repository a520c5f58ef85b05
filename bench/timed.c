/* timed CALLS < STATEMENTS: the processor time that the proved writer takes for statements one behind the other, each into an output that its tokens
 * fill. A statement is the number of its words, and its words. Compiled with BEFORE it calls a second library of the writer, too, in turn with the
 * first; compiled with LABELS the check of labels in turn with the writer. Prints the tokens of each statement, and for each function the median
 * of CALLS times in seconds, the check before the writer. */
#define _GNU_SOURCE
#include "leatherlava.h"
#include "records.h"

enum { MOST_STATEMENTS = 1 << 18 };

typedef struct leatherlava_answer timed(const uint64_t *, size_t, uint64_t *, size_t);
struct statement { const uint64_t *records; size_t records_n, tokens; };

#if defined(BEFORE)
timed leatherlava_write_before;
static timed *const functions[] = {leatherlava_write_stmt, leatherlava_write_before};
#elif defined(LABELS)
/* The check, called as the writer is; it has no output. */
static struct leatherlava_answer check(const uint64_t *records, size_t records_n, uint64_t *unused, size_t unused_n) {
    (void)unused, (void)unused_n;
    return (struct leatherlava_answer){LEATHERLAVA_REFUSED, leatherlava_check_labels(records, records_n).number};
}
static timed *const functions[] = {check, leatherlava_write_stmt};
#else
static timed *const functions[] = {leatherlava_write_stmt};
#endif
enum { FUNCTIONS = sizeof functions / sizeof *functions };

static struct statement statements[MOST_STATEMENTS];
static size_t statements_n;
static uint64_t *output;
static double *seconds[FUNCTIONS];

/* Takes the words apart and finds the tokens of each statement. An output of three words for each word of the records is never too short. */
static void read_statements(void) {
    read_words();
    output = malloc((3 * words_n + 1) * sizeof *output);
    if (output == NULL) exit(2);
    for (size_t i = 0; i < words_n; i += 1 + words[i]) {
        if (statements_n == MOST_STATEMENTS || words_n - i <= words[i]) exit(2);
        struct statement *next = &statements[statements_n++];
        next->records = words + i + 1;
        next->records_n = words[i];
        struct leatherlava_answer answer = leatherlava_write_stmt(next->records, next->records_n, output, 3 * next->records_n);
        if (answer.variant != LEATHERLAVA_TOKENS) {
            fprintf(stderr, "statement %zu is not written\n", statements_n);
            exit(1);
        }
        next->tokens = answer.number;
        printf("%zu ", next->tokens);
    }
}

static double time_all(timed *function) {
    double begun = now();
    for (size_t i = 0; i < statements_n; i++) function(statements[i].records, statements[i].records_n, output, 2 * statements[i].tokens);
    return now() - begun;
}

static int order(const void *x, const void *y) {
    double a = *(const double *)x, b = *(const double *)y;
    return (a > b) - (a < b);
}

int main(int argc, char **argv) {
    if (argc != 2) return 2;
    size_t calls = strtoul(argv[1], NULL, 10);
    if (calls == 0) return 2;
    read_statements();
    printf("\n");
    for (size_t k = 0; k < FUNCTIONS; k++)
        if ((seconds[k] = malloc(calls * sizeof *seconds[k])) == NULL) return 2;
    for (size_t i = 0; i < calls; i++)
        for (size_t k = 0; k < FUNCTIONS; k++) seconds[k][i] = time_all(functions[k]);
    for (size_t k = 0; k < FUNCTIONS; k++) {
        qsort(seconds[k], calls, sizeof *seconds[k], order);
        printf("%.9f ", seconds[k][calls / 2]);
    }
    printf("\n");
    return 0;
}
