/* Reads sheets of tokens and prints the answers of the proved reader as `oracle --state` prints those of the published parser.
 *
 * Input: a line `sheet ...` begins a sheet, lines `token=K newline=N value=V` are its tokens. Output: the same `sheet` line, then for
 * every answer up to an end or a stop the listing of document 01 and a line `state position=P waiting=W N N ...`.
 * Each call gets a store of exactly 16 words for each unread token, filled with rubbish, with a guard word behind it. What must
 * hold beside the answer is tested here, and a line in capitals is printed where it does not. */
#include <stdio.h>
#include <stdlib.h>
#include <string.h>
#include "leatherlava.h"

/* MOST_TOKENS are read; sheets of up to ROOM_TOKENS can be handed in, to see what a longer one is answered */
enum { SHARE = 16, MOST_TOKENS = 65536, ROOM_TOKENS = 2 * MOST_TOKENS, QUEUE = 96, LINE = 256 };
#define RUBBISH UINT64_C(11400714819323198485)

static const char *const NAMES[] = {
    "Absent", "List", "Expression", "Loop", "WhileLoop", "ForLoop", "Assert", "StmtList", "Continue", "Break", "Return",
    "Primary", "UnaryOp", "BinaryOp", "Assignment", "Unpack", "Tuple", "Table", "IfExpr", "Block", "FunctionDef",
    "TableItem", "ExprBlock", "ConditionalBranch", "SignatureDef", "ParamDef", "DefaultDef", "FieldAttribute", "FieldIndex",
    "Nil", "EmptyTuple", "Identifier", "BooleanLiteral", "IntegerLiteral", "FloatLiteral", "StringLiteral", "Group",
    "Attribute", "Index", "Invoke", "InvokeTable",
    "IdentifierPattern", "AttributePattern", "IndexPattern", "TuplePattern", "Pack", "Modifier",
};
enum { KINDS = sizeof NAMES / sizeof NAMES[0] };

static uint64_t tokens[2 * ROOM_TOKENS];
static uint64_t *store;

static void rubbish(size_t words) {
    for (size_t i = 0; i <= words; i++) store[i] = RUBBISH;
}

/* the store is zero from a word on, and the guard behind it is as it was */
static void test_rest(size_t from, size_t words) {
    for (size_t i = from; i < words; i++) {
        if (store[i] != 0) {
            puts("STORE-REST");
            break;
        }
    }
    if (store[words] != RUBBISH) puts("PAST-THE-STORE");
}

static int same(const struct leatherlava_reader *a, const struct leatherlava_reader *b) {
    return a->position == b->position && a->waiting == b->waiting && a->stopped == b->stopped &&
           memcmp(a->errors, b->errors, sizeof a->errors) == 0;
}

/* What a call with a store too short is answered, and the reader that it leaves, by document 01's order at a call: the length of the sheet, then a
 * waiting error, then the store. The reader is one that calls leave, and not stopped. */
static struct leatherlava_answer short_answer(struct leatherlava_reader *reader, size_t words_n) {
    if (words_n > 2 * MOST_TOKENS) {
        memset(reader->errors, 0, sizeof reader->errors);
        reader->waiting = 0;
        reader->stopped = 60;
        return (struct leatherlava_answer){LEATHERLAVA_STOPPED, 60};
    }
    if (reader->waiting > 0) {
        uint64_t first = reader->errors[0];
        memmove(reader->errors, reader->errors + 1, (QUEUE - 1) * sizeof *reader->errors);
        reader->errors[QUEUE - 1] = 0;
        reader->waiting--;
        return (struct leatherlava_answer){LEATHERLAVA_ERROR, first};
    }
    return (struct leatherlava_answer){LEATHERLAVA_REFUSED, 63};
}

/* one word less than is asked for: the answer and the reader that are due, and the store zero */
static void test_short(const struct leatherlava_reader *reader, size_t words_n, size_t need) {
    struct leatherlava_reader kept = *reader, due = *reader;
    struct leatherlava_answer expected = short_answer(&due, words_n);
    rubbish(need - 1);
    struct leatherlava_answer answer = leatherlava_next(&kept, tokens, words_n, store, need - 1);
    if (answer.variant != expected.variant || answer.number != expected.number) puts("SHORT-STORE-ANSWER");
    if (!same(&kept, &due)) puts("SHORT-STORE-READER");
    test_rest(0, need - 1);
}

/* a stopped reader answers its number again, as given; on a sheet that is too long that is 60, and the sheet's length gives it */
static void test_stopped(const struct leatherlava_reader *reader, size_t words_n, uint64_t number) {
    struct leatherlava_reader kept = *reader;
    if (reader->stopped != number) puts("NOT-STOPPED");
    rubbish(2);
    struct leatherlava_answer answer = leatherlava_next(&kept, tokens, words_n, store, 2);
    if (answer.variant != LEATHERLAVA_STOPPED || answer.number != number || !same(&kept, reader)) puts("NOT-STOPPED-AGAIN");
    test_rest(0, 2);
}

static void print_tree(uint64_t nodes) {
    printf("answer=tree nodes=%llu\n", (unsigned long long)nodes);
    for (uint64_t i = 0; i < nodes; i++) {
        uint64_t word = store[2 * i];
        const char *name = word % 256 < KINDS ? NAMES[word % 256] : "NO-KIND";
        printf("kind=%s kids=%llu value=%llu\n", name, (unsigned long long)(word / 256), (unsigned long long)store[2 * i + 1]);
    }
}

static void print_answer(struct leatherlava_answer answer) {
    static const char *const numbered[] = {"", "error", "", "stopped", "refused"};
    if (answer.variant == LEATHERLAVA_TREE) print_tree(answer.number);
    else if (answer.variant == LEATHERLAVA_END && answer.number == 0) puts("answer=end");
    else if (answer.variant <= LEATHERLAVA_REFUSED)
        printf("answer=%s number=%llu\n", numbered[answer.variant], (unsigned long long)answer.number);
    else puts("NO-VARIANT");
}

static void print_state(const struct leatherlava_reader *reader) {
    printf("state position=%zu waiting=%zu", reader->position, reader->waiting);
    for (size_t i = 0; i < QUEUE; i++) {
        if (i < reader->waiting) printf(" %llu", (unsigned long long)reader->errors[i]);
        else if (reader->errors[i] != 0) fputs(" QUEUE-REST", stdout);
    }
    putchar('\n');
}

static void read_sheet(size_t words_n) {
    struct leatherlava_reader reader = {0};
    struct leatherlava_answer answer;
    do {
        size_t need = SHARE * (words_n / 2 - reader.position);
        if (need > 0) test_short(&reader, words_n, need);
        rubbish(need);
        answer = leatherlava_next(&reader, tokens, words_n, store, need);
        print_answer(answer);
        test_rest(answer.variant == LEATHERLAVA_TREE ? 2 * answer.number : 0, need);
        print_state(&reader);
        if (answer.variant == LEATHERLAVA_STOPPED) test_stopped(&reader, words_n, answer.number);
        else if (reader.stopped != 0) puts("STOPPED");
    } while (answer.variant == LEATHERLAVA_TREE || answer.variant == LEATHERLAVA_ERROR);
}

int main(void) {
    char line[LINE];
    size_t words_n = 0;
    int begun = 0;
    store = malloc((SHARE * (size_t)ROOM_TOKENS + 4) * sizeof *store);
    if (store == NULL) return 2;
    while (fgets(line, sizeof line, stdin) != NULL) {
        unsigned long long kind, newline, value;
        if (strncmp(line, "sheet", 5) == 0) {
            if (begun) read_sheet(words_n);
            begun = 1;
            words_n = 0;
            fputs(line, stdout);
        } else if (sscanf(line, "token=%llu newline=%llu value=%llu", &kind, &newline, &value) == 3 && words_n < 2 * ROOM_TOKENS) {
            tokens[words_n++] = kind + 256 * newline;
            tokens[words_n++] = value;
        } else {
            fprintf(stderr, "driver: a line that is no token, or too many: %s", line);
            return 2;
        }
    }
    if (begun) read_sheet(words_n);
    return 0;
}
