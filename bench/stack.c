/* stack < SHEETS: for each sheet its last answer and the deepest stack that a call of the proved reader used on it, in bytes. The calls
 * run on a thread whose stack was painted; the depth is from the frame that calls down to the lowest word that is not as painted. The exit
 * status is 1 if that is more than hosts are told to give. */
#define _GNU_SOURCE
#include "leatherlava.h"
#include "painted.h"
#include "sheet.h"

enum { SHARE = 16, STACK_BYTES = 1 << 21 };

static uint64_t *store;
static size_t part;
static struct leatherlava_answer answer;

static void *read_part(void *unused) {
    struct leatherlava_reader reader = {0};
    const uint64_t *sheet = words + begins[part];
    size_t sheet_n = begins[part + 1] - begins[part];
    top = (uintptr_t)__builtin_frame_address(0);
    do {
        answer = leatherlava_next(&reader, sheet, sheet_n, store, SHARE * (sheet_n / 2 - reader.position));
    } while (answer.variant == LEATHERLAVA_TREE || answer.variant == LEATHERLAVA_ERROR);
    return unused;
}

int main(void) {
    static const char *const variants[] = {"tree", "error", "end", "stopped", "refused"};
    int status = 0;
    read_sheets();
    store = malloc((SHARE * words_n / 2 + 1) * sizeof *store);
    if (store == NULL) return 2;
    uint64_t *stack = make_stack(STACK_BYTES);
    for (part = 0; part < parts_n; part++) {
        size_t bytes = stack_used(stack, STACK_BYTES, read_part);
        printf("%s | answer=%s number=%llu bytes=%zu\n", names[part], variants[answer.variant], (unsigned long long)answer.number, bytes);
        if (bytes > LEATHERLAVA_READER_STACK) {
            fprintf(stderr, "%s: more stack than host/leatherlava.h says\n", names[part]);
            status = 1;
        }
    }
    return status;
}
