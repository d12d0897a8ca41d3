/* The power fails after a store, or within it. The lasting image is all that is left; recovery makes a board of it again,
   and the desk's log says what that board has to hold. */

#include "cuts.h"

#include <inttypes.h>
#include <stdio.h>
#include <stdlib.h>
#include <string.h>

bool same_job(const struct job *a, const struct job *b)
{
    return a->open == b->open && (!a->open || memcmp(a->value, b->value, sizeof a->value) == 0);
}

/* The jobs as a board shows them, read one by one, and how many are open. */
static uint32_t read_jobs(const struct calls *calls, STORE, uint32_t count, struct job *jobs)
{
    uint32_t open = 0;
    memset(jobs, 0, MOST_JOBS * sizeof *jobs);
    for (uint32_t i = 0; i < count; i++) {
        uint64_t at = calls->read(working, working_words, persistent, persistent_words, transient, transient_words, 1,
                                  FIRST_KEY + i);
        if (at >= BOARD_REFUSED)
            continue;
        jobs[i].open = true;
        memcpy(jobs[i].value, working + at, sizeof jobs[i].value);
        open++;
    }
    return open;
}

const struct hand_over *find_order(const struct queue *queue, uint32_t order)
{
    for (uint32_t i = 0; i < queue->count; i++)
        if (queue->waiting[i].order == order)
            return &queue->waiting[i];
    return NULL;
}

/* The queue as a board shows it, taken from the front until nothing waits; then what the next append is given. */
static uint32_t read_queue(const struct calls *calls, STORE, struct queue *queue)
{
#define ITS working, working_words, persistent, persistent_words, transient, transient_words, 0
    const uint32_t value[VALUE_WORDS] = {0};
    uint64_t answer = calls->begin(ITS), at;
    memset(queue, 0, sizeof *queue);
    while (answer == 0 && (at = calls->look(ITS)) < BOARD_REFUSED && queue->count < 2 * MOST_WAITING) {
        struct hand_over *last = &queue->waiting[queue->count++];
        last->order = working[at - 1];
        memcpy(last->value, working + at, sizeof last->value);
        answer = calls->take(ITS);
    }
    if (answer != 0)
        stop("begin or take", answer);
    answer = calls->append(ITS, value, VALUE_WORDS);
    return answer < BOARD_REFUSED ? (uint32_t)answer : 0;
#undef ITS
}

static bool same_queue(const struct queue *a, const struct queue *b)
{
    return a->count == b->count && memcmp(a->waiting, b->waiting, a->count * sizeof *a->waiting) == 0;
}

static uint32_t *copy(const uint32_t *words, size_t count)
{
    return memcpy(block(count * sizeof *words), words, count * sizeof *words);
}

void before_cut(const struct desk *d, struct outcome *o)
{
    uint32_t *working = copy(d->working, d->image), *persistent = copy(d->persistent, d->image),
             *transient = copy(d->transient, d->notes);
    o->open_before = read_jobs(d->calls, STORE_OF(d), d->jobs, o->before);
    read_queue(d->calls, working, d->image, persistent, d->image, transient, d->notes, &o->queue_before);
    free(working);
    free(persistent);
    free(transient);
}

/* What is lost, and what is not as the log has it. */
static void hold_against_log(const struct desk *d, struct outcome *o)
{
    replay(d, o->clock - 2, o->due);
    replay_queue(d, o->clock - 2, &o->queue_due);
    uint32_t last = o->queue_due.count > 0 ? o->queue_due.waiting[o->queue_due.count - 1].order : 0;
    o->queue_wrong = !same_queue(&o->queue_after, &o->queue_due) || o->next_order != last + 1;
    o->wrong = 0;
    for (uint32_t i = 0; i < d->jobs; i++)
        o->wrong += !same_job(&o->after[i], &o->due[i]);
}

/* The closed jobs, and which are open again. */
static void count_closed(const struct desk *d, struct outcome *o)
{
    o->lost = o->closed = o->returned = o->recent = o->undone = 0;
    for (const struct change *change = d->log; change < d->log + d->changes; change++) {
        bool late = change->epoch > o->clock - 2, closed = change->kind == CLOSED;
        bool again = closed && o->after[change->key - FIRST_KEY].open;
        o->lost += late;
        o->closed += closed && !late;
        o->returned += again && !late;
        o->recent += closed && late;
        o->undone += again && late;
    }
}

/* Recovers a copy of a lasting image. */
static void recover_image(const struct desk *d, const uint32_t *image, struct outcome *o)
{
    uint32_t *working = block(d->image * 4), *persistent = copy(image, d->image), *transient = block(d->notes * 4);
    memset(working, 0xA5, d->image * 4);
    memset(transient, 0xA5, d->notes * 4);
    o->clock = persistent[CLOCK];
    uint64_t answer;
    o->calls = 0;
    do {
        answer = board_recover(working, d->image, persistent, d->image, transient, d->notes);
        o->calls++;
    } while (answer == BOARD_WENT_ON);
    if (answer != BOARD_DONE)
        stop("recover", answer);
    o->open_after = read_jobs(&library, working, d->image, persistent, d->image, transient, d->notes, d->jobs, o->after);
    o->next_order = read_queue(&library, working, d->image, persistent, d->image, transient, d->notes, &o->queue_after);
    free(working);
    free(persistent);
    free(transient);
    hold_against_log(d, o);
    count_closed(d, o);
}

void recover(const struct desk *d, struct outcome *o) { recover_image(d, d->persistent, o); }

uint64_t stores_of(day *play, const struct calls *calls, uint32_t size, uint32_t slots, uint64_t seed,
                   uint64_t *busy_from)
{
    struct desk d;
    open_desk(&d, calls, slots, seed, 0);
    play(&d, size);
    uint64_t stores = d.stores;
    *busy_from = d.busy_from;
    close_desk(&d);
    return stores;
}

/* ---- One moment of the second day ---- */

static void keep_worst(struct desk *d)
{
    struct worst *worst = d->told;
    if (d->stores < worst->from)
        return;
    if (worst->o.returned > 0 && d->persistent[CLOCK] != worst->o.clock) {
        d->dark = true;
        return;
    }
    recover(d, &worst->tried);
    if (worst->tried.returned > worst->o.returned) {
        worst->o = worst->tried;
        worst->moment = (struct moment){d->minute, d->late};
    }
}

/* Tries every store from this one on. */
static void try_from(struct worst *worst, uint32_t stops, uint64_t seed, uint64_t from)
{
    struct desk d;
    worst->from = from;
    open_desk(&d, &early, slots_for(stops / 3), seed, 0);
    d.after_store = keep_worst;
    d.told = worst;
    second_day(&d, stops);
    close_desk(&d);
}

void find_worst(struct worst *worst, uint32_t stops, uint64_t seed)
{
    uint64_t busy, all = stores_of(second_day, &early, stops, slots_for(stops / 3), seed, &busy), choice = seed ^ 2;
    below(&choice, 2);
    worst->o.returned = 0;
    try_from(worst, stops, seed, busy + below(&choice, (uint32_t)(all - busy + 1)));
    if (worst->o.returned == 0)
        try_from(worst, stops, seed, 1);
}

/* The last store of a moment. */
struct reached {
    struct moment moment;
    uint64_t store;
};

static void note_moment(struct desk *d)
{
    struct reached *reached = d->told;
    if (d->minute == reached->moment.minute && d->late <= reached->moment.late)
        reached->store = d->stores;
    d->dark = d->minute > reached->moment.minute;
}

void play_until(struct desk *d, const struct calls *calls, bool syncs, uint32_t stops, uint64_t seed,
                struct moment moment)
{
    struct reached reached = {moment, 0};
    open_desk(d, calls, slots_for(stops / 3), seed, 0);
    d->syncs = syncs;
    d->after_store = note_moment;
    d->told = &reached;
    second_day(d, stops);
    close_desk(d);
    open_desk(d, calls, slots_for(stops / 3), seed, reached.store);
    d->syncs = syncs;
    second_day(d, stops);
}

/* ---- Every cut of a day ---- */

static void count_cut(const struct desk *d, const uint32_t *image, struct tally *t)
{
    recover_image(d, image, &t->o);
    t->cuts++;
    t->recovered += t->o.calls;
    t->wrong_cuts += t->o.wrong > 0;
    t->queue_wrong_cuts += t->o.queue_wrong;
    t->returned_cuts += t->o.returned > 0;
    if (t->o.lost > t->most_lost)
        t->most_lost = t->o.lost;
    if (t->o.returned > t->most_returned)
        t->most_returned = t->o.returned;
}

/* The cut falls within the store that was made last: of its words some arrived, some did not. A store of one word is
   whole, and so is one of which chance lets every word arrive, or none. */
static void count_cut_within(const struct desk *d, struct tally *t)
{
    uint32_t *image = copy(t->last, d->image);
    size_t arrived = 0, missing = 0;
    for (size_t i = 0; i < d->image; i++) {
        if (t->last[i] == d->persistent[i])
            continue;
        if (below(&t->random, 2) == 0) {
            missing++;
        } else {
            image[i] = d->persistent[i];
            arrived++;
        }
    }
    if (arrived > 0 && missing > 0) {
        t->within++;
        count_cut(d, image, t);
    }
    free(image);
}

static void count_store(struct desk *d)
{
    struct tally *t = d->told;
    count_cut_within(d, t);
    count_cut(d, d->persistent, t);
    memcpy(t->last, d->persistent, d->image * sizeof *t->last);
    if (time(NULL) >= t->said + 5) {
        t->said = time(NULL);
        fprintf(stderr, "  ... %" PRIu64 " of about %" PRIu64 " stores\n", d->stores, t->stores);
    }
}

const struct tally *count_day(day *play, const struct calls *calls, uint32_t size, uint32_t slots, uint64_t seed)
{
    static struct tally t;
    struct desk d;
    memset(&t, 0, sizeof t);
    t.said = time(NULL);
    uint64_t from;
    t.stores = stores_of(play, calls, size, slots, seed, &from);
    t.random = seed;
    open_desk(&d, calls, slots, seed, 0);
    t.last = copy(d.persistent, d.image);
    d.after_store = count_store;
    d.told = &t;
    play(&d, size);
    close_desk(&d);
    free(t.last);
    return &t;
}
