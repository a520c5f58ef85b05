/* The proved statement reader, the proved writer of canonical tokens and the proved check of labels, for C and C++. Link target/staticlib/libparser.a for the reader,
 * target/staticlib/libwriter.a for the writer and target/staticlib/liblabels.a for the check: `host/libraries` writes them.
 * README.md beside this file says how.
 *
 * Units: a word has 64 bits. An argument whose name ends in _n counts the words behind the pointer before it. A token is two words (docs/TOKENS.md);
 * a record, one for each node of a tree, is two words, too (docs/TREE.md).
 *
 * What the host owes, and nothing checks: every pointer is valid, aligned and not null; a count is that of the words behind its
 * pointer; what a call is lent does not overlap; nobody else writes it during a call; the stack is large enough (enum leatherlava_stack
 * below). Beyond that every input has an answer: a reader that no call leaves, a sheet of odd length, a short store or records of no tree
 * are answered, not forbidden. */
#ifndef LEATHERLAVA_H
#define LEATHERLAVA_H

#include <stddef.h>
#include <stdint.h>

#ifdef __cplusplus
extern "C" {
#endif

/* The stack to give a call, in bytes below the frame that calls. It does not grow with a sheet or a tree: a reading is at most 37 deep and then stops with 62, and so
 * does the writing; the check does not recurse. The deepest that was found takes 130,728 bytes in the reader, 198,200 in the writer and 52,472 in the check, of these libraries, for x86-64; it is
 * measured, not proved (docs/BENCHMARK.md, docs/WRITER.md, docs/LABELS.md). Built for another machine they have other frames: measure them there. */
enum leatherlava_stack {
    LEATHERLAVA_READER_STACK = 256 * 1024,
    LEATHERLAVA_WRITER_STACK = 320 * 1024,
    LEATHERLAVA_LABELS_STACK = 64 * 1024
};

/* A reader is fresh with every field 0. Each call takes it as the call before left it. */
struct leatherlava_reader {
    size_t position;     /* of the first unread token, in tokens */
    size_t waiting;      /* how many errors wait: those already met, each of which one of the next calls answers, before anything more is read */
    uint64_t errors[96]; /* the numbers of the waiting errors, the oldest first, and 0 behind them */
    uint64_t stopped;    /* the number of the stop that ended the reading, which every further call on the sheet answers again; 0: none */
};

enum leatherlava_variant {
    LEATHERLAVA_TREE,    /* the reader: a statement's tree is in the store */
    LEATHERLAVA_ERROR,   /* the reader: an error; the next call goes on */
    LEATHERLAVA_END,     /* the reader: no statement is left */
    LEATHERLAVA_STOPPED, /* the reader: a limit or a bad record, and the reading is over; the writer: the limit of depth */
    LEATHERLAVA_REFUSED, /* both: what was handed in is not taken; a reader is as it was */
    LEATHERLAVA_TOKENS   /* the writer: the tokens are in the output */
};

/* An answer: its variant and a number. The number of a tree is its nodes, so its records are 2 * number words; that of tokens is how many were
 * written, so they are 2 * number words; that of the end is 0; that of an error, a stop or a refusal is its own (docs/NUMBERS.md). */
struct leatherlava_answer {
    uint64_t variant;
    uint64_t number;
};

/* The reader, its fields one by one: leatherlava_next below passes them. errors points to 96 words. */
struct leatherlava_answer leatherlava_next_stmt(size_t *position, size_t *waiting, uint64_t *errors, uint64_t *stopped,
                                                const uint64_t *tokens, size_t tokens_n, uint64_t *store, size_t store_n);

/* Writes the canonical tokens of the statement whose records these are, and zeros behind them. A refusal or a stop leaves zeros alone.
 *
 * records_n is 2 * number of a tree that was read. The output has to hold two words for each token of the statement, its Semicolon included; if it
 * does not, the answer is a refusal 66. How many tokens there are is not known before the call, but there are at most three for each record
 * (docs/WRITER.md, section 1): with output_n = 3 * records_n no answer is 66. */
struct leatherlava_answer leatherlava_write_stmt(const uint64_t *records, size_t records_n, uint64_t *output, size_t output_n);

/* What the check of labels answers: number 0 where nothing is wrong, else the number of the refusal (docs/NUMBERS.md) and the number, from 0, of the record that it is
 * for: 67 or 68 and the first break or continue that leads nowhere, with a label or without; or 65 and 0. */
struct leatherlava_labels {
    uint64_t number;
    uint64_t record_number;
};

/* Whether each break and continue of the statement whose records these are has round it what it leaves or goes on with (docs/LABELS.md). records_n is 2 * number of a
 * tree that was read; the record number i is the words records[2 * i] and records[2 * i + 1]. */
struct leatherlava_labels leatherlava_check_labels(const uint64_t *records, size_t records_n);

/* Reads the next statement of a sheet. tokens_n is two words for each token, at most 65,536 tokens. store_n is at least 16 words for each unread token, so
 * 16 * (tokens_n / 2 - position); a shorter store is answered with a refusal 63, unless a waiting error is answered, which needs no store. */
static inline struct leatherlava_answer leatherlava_next(struct leatherlava_reader *reader, const uint64_t *tokens, size_t tokens_n,
                                                         uint64_t *store, size_t store_n) {
    return leatherlava_next_stmt(&reader->position, &reader->waiting, reader->errors, &reader->stopped,
                                 tokens, tokens_n, store, store_n);
}

#ifdef __cplusplus
}
#endif

#endif
