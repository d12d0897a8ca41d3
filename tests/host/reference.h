/* What the hosts that cut the power share: calls as records, made at random; the reference map, which is fed with the
   calls and their replies; and a recovery that is held to it. */
#ifndef REFERENCE_H
#define REFERENCE_H

#include "store.h"

#include <stdbool.h>

enum { SLOTS, WORDS, CLOCK, PREFIX };           /* the first words of an image */
enum { KIND, EPOCH, UID, BOARD, HEADER_WORDS }; /* the words of a header */
enum { DELETE = 3 };                            /* the kind of a header that is no payload */
enum { JOBS = 1, QUEUE = 2 };                   /* the two boards */
enum { MOST_SLOTS = 96, MOST_WORDS = 9, MOST_VALUE = MOST_WORDS - 1, MOST_THREADS = 4 };
enum { MOST_IMAGE = PREFIX + (HEADER_WORDS + MOST_WORDS) * MOST_SLOTS };
enum { MOST_NOTES = 70 + MOST_THREADS + 3 * MOST_SLOTS };
enum { MOST_CHANGES = 5 }; /* in a list */

/* A store of these sizes, its memory still to be set. */
struct store store_of(uint32_t slots, uint32_t words, uint32_t threads);
size_t header_at(size_t slot);
size_t contents_at(const struct store *s, size_t slot);

/* ---- Random numbers, the same ones for the same seed ---- */

uint32_t below(uint64_t *random, uint32_t bound);
void junk(uint64_t *random, uint32_t *words, size_t count);

/* ---- Calls ---- */

enum call_kind {
    CALL_BEGIN, CALL_END, CALL_NEW, CALL_SET, CALL_DELETE, CALL_BATCH, CALL_APPEND, CALL_TAKE, CALL_READ,
    CALL_READ_REFUSAL, CALL_LOOK, CALL_LOOK_REFUSAL, CALL_ADVANCE, CALL_SYNC, CALL_WRITE_BACK, CALL_RECOVER, CALL_KINDS
};

extern const char *const call_names[CALL_KINDS];

struct call {
    enum call_kind kind;
    uint32_t thread, key, value[MOST_WORDS];
    size_t value_words, position;
    uint32_t list[MOST_CHANGES * (1 + MOST_WORDS)]; /* of a batch */
    size_t list_words, change_words;
};

/* A call of a kind chosen by weight, with arguments that are mostly proper. Words are written back several in a row. */
struct call choose_call(uint64_t *random, const struct store *s, const uint32_t weights[CALL_KINDS],
                        const struct call *previous);
uint64_t make_call(const struct store *s, const struct call *call);

/* ---- The reference map ---- */

enum { MOST_ENTRIES = 2 * MOST_SLOTS };

struct entry {
    uint32_t board, key, value[MOST_VALUE];
};

/* Jobs and queue entries by board and key, smallest first. */
struct jobs {
    size_t count;
    struct entry entries[MOST_ENTRIES];
};

struct change {
    enum call_kind kind;
    uint32_t epoch, key, value[MOST_VALUE];
};

/* The plain board of 01's demand 3. */
struct reference {
    uint32_t clock, open[MOST_THREADS + 1]; /* the epoch of each thread's open operation, 0 for none */
    struct jobs start;
    struct change *row;
    size_t changes, room;
    size_t synced;    /* so many of the changes are older than the last sync that replied */
    uint64_t batched; /* changes of lists, in all runs */
};

/* A new run, from these jobs. */
void restart(struct reference *r, const struct jobs *start, uint32_t clock);
void replied(struct reference *r, const struct call *call, uint64_t reply);
/* The jobs and queue entries that a cut at this clock has to leave. */
void due_at(const struct reference *r, uint32_t clock, struct jobs *due);

/* ---- What a cut left ---- */

/* Headers of the image with some words 0 and others not. */
size_t torn_headers(const struct store *s, const uint32_t *image);
/* What is wrong with `after`, to which recovery has brought `image`; NULL if it holds what is due and nothing else. */
const char *wrong_after(const struct store *s, const uint32_t *image, const uint32_t *after, const struct jobs *due);
/* Recovers a copy of `image`. The same answer. */
const char *wrong_recovery(const struct store *s, const uint32_t *image, const struct jobs *due, uint64_t *random);
/* The image's words and the jobs due, for a message. */
void print_image(const struct store *s, const uint32_t *image, const struct jobs *due);

#endif
