/* Power cuts: what the library's recovery makes of the lasting image alone, held against the desk's log. */
#ifndef CUTS_H
#define CUTS_H

#include "desk.h"

#include <time.h>

/* The jobs and the queue before the cut, after recovery, and as they are due by the log. */
struct outcome {
    struct job before[MOST_JOBS], after[MOST_JOBS], due[MOST_JOBS];
    struct queue queue_before, queue_after, queue_due;
    uint32_t next_order; /* what an append after recovery is given */
    bool queue_wrong;    /* the queue is not as every older change left it, or the next number does not go on from it */
    uint32_t clock, calls, open_before, open_after;
    uint32_t lost;     /* changes of the last two epochs */
    uint32_t wrong;    /* jobs that are not as every older change left them */
    uint32_t closed;   /* jobs closed before the last two epochs */
    uint32_t returned; /* of these: open again */
    uint32_t recent;   /* jobs closed in the last two epochs */
    uint32_t undone;   /* of these: open again */
};

bool same_job(const struct job *a, const struct job *b);

/* The place of a hand-over in a queue, or NULL. */
const struct hand_over *find_order(const struct queue *queue, uint32_t order);

/* The jobs and the queue as the desk's board shows them now. */
void before_cut(const struct desk *d, struct outcome *o);

/* The power is cut now: of a copy of the lasting image alone, the library's recovery makes a board. */
void recover(const struct desk *d, struct outcome *o);

/* How many stores a day makes without a cut, and the first once the board is as full as it gets. */
uint64_t stores_of(day *play, const struct calls *calls, uint32_t size, uint32_t slots, uint64_t seed,
                   uint64_t *busy_from);

/* A moment of the second day: a minute, and how many stores were made since its work was done. */
struct moment {
    int minute;
    uint64_t late;
};

/* Where the broken rule brings most jobs back: at the first clock, from a cut that chance chooses on, at which it brings
   any; from the morning on where none is left after that cut. */
struct worst {
    struct outcome o, tried;
    struct moment moment;
    uint64_t from;
};
void find_worst(struct worst *worst, uint32_t stops, uint64_t seed);

/* Plays the second day up to this moment, where the power fails, or to the last store of its minute where there are
   fewer. The desk is left open. */
void play_until(struct desk *d, const struct calls *calls, bool syncs, uint32_t stops, uint64_t seed,
                struct moment moment);

/* What every cut of a day came to: one after each store, and one within it where it is of more than a word. */
struct tally {
    struct outcome o;
    uint32_t *last; /* the lasting image before the store */
    uint64_t random;
    uint64_t cuts, within, stores, recovered, wrong_cuts, queue_wrong_cuts, returned_cuts;
    uint32_t most_lost, most_returned;
    time_t said;
};

/* Plays a day and recovers after every single store of it, and within it. The tally is good until the next call. */
const struct tally *count_day(day *play, const struct calls *calls, uint32_t size, uint32_t slots, uint64_t seed);

#endif
