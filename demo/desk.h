/* The dispatch desk: a board, the queue of hand-overs on it, a log of every change made to them, and two days of work. */
#ifndef DESK_H
#define DESK_H

#include "../bench/byhand.h"

#include <stdbool.h>

enum { WORDS = 4, VALUE_WORDS = WORDS - 1, THREADS = 2, FIRST_KEY = 1001, MOST_JOBS = 8192 };
enum { CLOCK = 2, FIRST_WORD = 3 }; /* of an image: the clock, and the first word of a header */
enum { COURIER, ADDRESS, DUE };   /* the words of a job's value */
enum { PARCEL, GIVER, RECEIVER }; /* and of a hand-over's */
enum { LEAST_WAITING = 3, MOST_WAITING = 12 };
enum { MINUTES_OF_EPOCH = 5 };

/* The library, and the rules by hand in C with one of them broken (early.c). */
extern const struct calls library, early;

/* One change, as the desk's log has it. The key of a hand-over is its order number. */
struct change {
    enum { OPENED, MOVED, CLOSED, APPENDED, TAKEN } kind;
    uint32_t key, value[VALUE_WORDS], epoch;
    int minute;
};

/* What the desk knows of a job: open or not, and its value. Jobs are numbered in the order they came in. */
struct job {
    bool open;
    uint32_t value[VALUE_WORDS];
};

/* A parcel that is to change bags, and all that wait, the first of them first. Where a rule is broken more can wait than
   ever did at one time. */
struct hand_over {
    uint32_t order, value[VALUE_WORDS];
};

struct queue {
    uint32_t count;
    struct hand_over waiting[2 * MOST_WAITING];
};

struct desk {
    const struct calls *calls;
    uint32_t slots;
    size_t image, notes; /* lengths in words */
    uint32_t *working, *persistent, *transient;
    struct change *log;
    size_t changes, most_changes;
    uint32_t jobs;           /* how many were ever opened */
    uint64_t random, memory; /* chance at the desk, and in what the memory copies: one day is the same on any memory */
    int minute;
    bool syncs;           /* a sync follows each delivery */
    uint64_t stores, cut; /* made so far; the one after which the power fails, 0 for never */
    uint64_t late;        /* stores since the work of this minute was done */
    uint64_t busy_from;   /* the first store once the board is as full as it gets */
    bool dark;
    void (*after_store)(struct desk *);
    void *told;
};

#define STORE_OF(d) (d)->working, (d)->image, (d)->persistent, (d)->image, (d)->transient, (d)->notes

/* Ends the program: no call of the demonstration should decline. */
void stop(const char *what, uint64_t answer);

void *block(size_t bytes);

/* The next number below the bound. */
uint32_t below(uint64_t *random, uint32_t bound);

void open_desk(struct desk *d, const struct calls *calls, uint32_t slots, uint64_t seed, uint64_t cut);
void close_desk(struct desk *d);

/* A day of so many jobs or stops. */
typedef void day(struct desk *d, uint32_t size);
void first_day(struct desk *d, uint32_t jobs);
void second_day(struct desk *d, uint32_t stops);

/* The slots for so many jobs open at once: room for the versions and anti-payloads of a few epochs besides. */
uint32_t slots_for(uint32_t open);

/* The jobs as the log up to an epoch has them. */
void replay(const struct desk *d, uint32_t epoch, struct job *jobs);

/* The hand-overs that wait as the log up to an epoch has them: an append joins at the back, a take takes the front. */
void replay_queue(const struct desk *d, uint32_t epoch, struct queue *queue);

/* The last change of a job, and of a hand-over, in the log, or NULL. */
const struct change *last_change(const struct desk *d, uint32_t key);
const struct change *last_hand_over(const struct desk *d, uint32_t order);

#endif
