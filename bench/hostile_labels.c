/* hostile_labels < RECORDS: calls the proved check of labels on a thread with the stack that hosts are told to give, which was painted before. Prints
 * the answer's two numbers, the call's processor time and the stack in bytes, from the frame that calls down to the lowest word that is not as
 * painted. A call that needs more stack ends the process. */
#define _GNU_SOURCE
#include "leatherlava.h"
#include "painted.h"
#include "records.h"

static double seconds;
static struct leatherlava_labels answer;

static void *call(void *unused) {
    top = (uintptr_t)__builtin_frame_address(0);
    double begun = now();
    answer = leatherlava_check_labels(words, words_n);
    seconds = now() - begun;
    return unused;
}

int main(void) {
    read_words();
    size_t bytes = stack_used(make_stack(LEATHERLAVA_LABELS_STACK), LEATHERLAVA_LABELS_STACK, call);
    printf("number=%llu record=%llu seconds=%.9f stack=%zu given=%d\n", (unsigned long long)answer.number,
           (unsigned long long)answer.record_number, seconds, bytes, LEATHERLAVA_LABELS_STACK);
    return 0;
}
