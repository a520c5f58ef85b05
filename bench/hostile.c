/* hostile OUTPUT < RECORDS: calls the proved writer on a thread with the stack that hosts are told to give, which was painted before, and an
 * output of OUTPUT words that are not 0. Prints the answer, whether the words behind the tokens are 0, the call's processor time and the stack
 * in bytes, from the frame that calls down to the lowest word that is not as painted. A call that needs more stack ends the process. */
#define _GNU_SOURCE
#include "leatherlava.h"
#include "painted.h"
#include "records.h"

static uint64_t *output;
static size_t output_n;
static double seconds;
static struct leatherlava_answer answer;

static void *call(void *unused) {
    top = (uintptr_t)__builtin_frame_address(0);
    double begun = now();
    answer = leatherlava_write_stmt(words, words_n, output, output_n);
    seconds = now() - begun;
    return unused;
}

static int rest_is_zero(void) {
    for (size_t i = answer.variant == LEATHERLAVA_TOKENS ? 2 * answer.number : 0; i < output_n; i++)
        if (output[i] != 0) return 0;
    return 1;
}

int main(int argc, char **argv) {
    static const char *const variants[] = {"tree", "error", "end", "stopped", "refused", "tokens"};
    if (argc != 2) return 2;
    output_n = strtoul(argv[1], NULL, 10);
    read_words();
    output = malloc((output_n + 1) * sizeof *output);
    if (output == NULL) return 2;
    for (size_t i = 0; i < output_n; i++) output[i] = PAINT;
    size_t bytes = stack_used(make_stack(LEATHERLAVA_WRITER_STACK), LEATHERLAVA_WRITER_STACK, call);
    printf("answer=%s number=%llu zeros=%d seconds=%.9f stack=%zu\n", variants[answer.variant], (unsigned long long)answer.number,
           rest_is_zero(), seconds, bytes);
    return 0;
}
