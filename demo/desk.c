/* The desk's day: jobs are opened, moved and closed, parcels are handed over in order, an advance goes on in between, and
   the memory copies single words by itself. */

#include "desk.h"

#include <stdio.h>
#include <stdlib.h>
#include <string.h>

enum { DELIVERIES = 3 }; /* in a minute of the second day */

const struct calls library = CALLS(board);

void stop(const char *what, uint64_t answer)
{
    uint32_t refusal = answer < BOARD_REFUSED ? (uint32_t)answer : board_refusal_of(answer);
    fprintf(stderr, "demo: %s: %s\n", what, board_refusal_text(refusal));
    exit(2);
}

void *block(size_t bytes)
{
    void *start = malloc(bytes);
    if (start == NULL) {
        fprintf(stderr, "demo: no memory\n");
        exit(2);
    }
    return start;
}

uint32_t below(uint64_t *random, uint32_t bound)
{
    *random = *random * UINT64_C(6364136223846793005) + UINT64_C(1442695040888963407);
    return (uint32_t)((*random >> 33) % bound);
}

void open_desk(struct desk *d, const struct calls *calls, uint32_t slots, uint64_t seed, uint64_t cut)
{
    memset(d, 0, sizeof *d);
    d->calls = calls;
    d->slots = slots;
    d->image = board_image_words(slots, WORDS);
    d->notes = board_transient_words(slots, THREADS);
    if (d->image == 0 || d->notes == 0)
        stop("a board of this size", BOARD_SIZES);
    d->working = block(d->image * sizeof(uint32_t));
    d->persistent = block(d->image * sizeof(uint32_t));
    d->transient = block(d->notes * sizeof(uint32_t));
    d->random = d->memory = seed;
    d->cut = cut;
    uint32_t refusal = calls->format(STORE_OF(d), slots, WORDS);
    if (refusal != 0)
        stop("format", refusal);
}

void close_desk(struct desk *d)
{
    free(d->working);
    free(d->persistent);
    free(d->transient);
    free(d->log);
}

static void stored(struct desk *d)
{
    d->stores++;
    d->late++;
    if (d->after_store != NULL)
        d->after_store(d);
    if (d->stores == d->cut)
        d->dark = true;
}

/* So many lines of an advance, or to its end. */
static void advance(struct desk *d, int lines)
{
    while (!d->dark && lines-- != 0) {
        uint64_t answer = d->calls->advance(STORE_OF(d));
        if (answer >= BOARD_REFUSED)
            stop("advance", answer);
        stored(d);
        if (answer == BOARD_TICKED)
            return;
    }
}

/* The memory copies a word by itself, most often one that has changed. */
static void write_back(struct desk *d)
{
    if (d->dark)
        return;
    size_t position;
    int tries = 100;
    do
        position = FIRST_WORD + below(&d->memory, (uint32_t)d->image - FIRST_WORD);
    while (d->working[position] == d->persistent[position] && --tries > 0);
    uint32_t refusal = d->calls->write_back(STORE_OF(d), position);
    if (refusal != 0)
        stop("write-back", refusal);
    stored(d);
}

static void note(struct desk *d, int kind, uint32_t key, const uint32_t *value)
{
    if (d->changes == d->most_changes) {
        d->most_changes = 2 * d->most_changes + 64;
        d->log = realloc(d->log, d->most_changes * sizeof *d->log);
        if (d->log == NULL)
            stop("no memory for the log", BOARD_FULL);
    }
    struct change *change = &d->log[d->changes++];
    *change = (struct change){.kind = kind, .key = key, .epoch = d->working[CLOCK], .minute = d->minute};
    if (value != NULL)
        memcpy(change->value, value, sizeof change->value);
}

static void open_job(struct desk *d)
{
    uint32_t key = FIRST_KEY + d->jobs++;
    uint32_t value[VALUE_WORDS] = {1 + below(&d->random, 12), 1 + below(&d->random, 899),
                                   (uint32_t)d->minute + 30 + below(&d->random, 90)};
    uint32_t refusal = d->calls->new(STORE_OF(d), 0, key, value, VALUE_WORDS);
    if (refusal != 0)
        stop("new", refusal);
    note(d, OPENED, key, value);
}

/* A courier reports: another courier takes the job over, or it is due at another time. */
static void move_job(struct desk *d, uint32_t key)
{
    uint64_t at = d->calls->read(STORE_OF(d), 0, key);
    if (at >= BOARD_REFUSED)
        stop("read", at);
    uint32_t value[VALUE_WORDS];
    memcpy(value, d->working + at, sizeof value);
    if (below(&d->random, 2) == 0)
        value[COURIER] = 1 + below(&d->random, 12);
    value[DUE] += 1 + below(&d->random, 20);
    uint32_t refusal = d->calls->set(STORE_OF(d), 0, key, value, VALUE_WORDS);
    if (refusal != 0)
        stop("set", refusal);
    note(d, MOVED, key, value);
}

static void close_job(struct desk *d, uint32_t key)
{
    uint32_t refusal = d->calls->delete(STORE_OF(d), 0, key);
    if (refusal != 0)
        stop("delete", refusal);
    note(d, CLOSED, key, NULL);
}

/* Two couriers will meet: the parcel of an open job is to change bags, after those that wait already. */
static void append(struct desk *d, uint32_t key)
{
    uint64_t at = d->calls->read(STORE_OF(d), 0, key);
    if (at >= BOARD_REFUSED)
        stop("read", at);
    uint32_t giver = d->working[at + COURIER];
    const uint32_t value[VALUE_WORDS] = {key, giver, 1 + (giver + below(&d->random, 11)) % 12};
    uint64_t order = d->calls->append(STORE_OF(d), 0, value, VALUE_WORDS);
    if (order >= BOARD_REFUSED)
        stop("append", order);
    note(d, APPENDED, (uint32_t)order, value);
}

/* The couriers meet: the parcel that has waited longest changes bags. Where its job is still open the job has another
   courier from now on, by the same operation. */
static void take(struct desk *d)
{
    uint64_t at = d->calls->look(STORE_OF(d), 0);
    if (at >= BOARD_REFUSED)
        stop("look", at);
    uint32_t order = d->working[at - 1], hand_over[VALUE_WORDS], value[VALUE_WORDS];
    memcpy(hand_over, d->working + at, sizeof hand_over);
    uint32_t refusal = d->calls->take(STORE_OF(d), 0);
    if (refusal != 0)
        stop("take", refusal);
    note(d, TAKEN, order, hand_over);
    at = d->calls->read(STORE_OF(d), 0, hand_over[PARCEL]);
    if (at >= BOARD_REFUSED)
        return;
    memcpy(value, d->working + at, sizeof value);
    value[COURIER] = hand_over[RECEIVER];
    refusal = d->calls->set(STORE_OF(d), 0, hand_over[PARCEL], value, VALUE_WORDS);
    if (refusal != 0)
        stop("set", refusal);
    note(d, MOVED, hand_over[PARCEL], value);
}

/* Couriers agree to meet in one minute of three, and do meet in one of three; a few hand-overs always wait. */
static void hand_over(struct desk *d, uint32_t key)
{
    static struct queue queue;
    replay_queue(d, UINT32_MAX, &queue);
    if (below(&d->random, 3) == 0 && queue.count < MOST_WAITING)
        append(d, key);
    if (below(&d->random, 3) == 0 && queue.count > LEAST_WAITING)
        take(d);
}

static void begin(struct desk *d)
{
    uint32_t refusal = d->calls->begin(STORE_OF(d), 0);
    if (refusal != 0)
        stop("begin", refusal);
}

static void end(struct desk *d)
{
    uint32_t refusal = d->calls->end(STORE_OF(d), 0);
    if (refusal != 0)
        stop("end", refusal);
}

/* A minute passes. An advance is begun in the middle of each epoch and ends with it. */
static void pass_minute(struct desk *d)
{
    d->late = 0;
    for (uint32_t words = below(&d->random, 3); words > 0; words--)
        write_back(d);
    if (d->minute % MINUTES_OF_EPOCH == 2)
        advance(d, 8);
    if (d->minute % MINUTES_OF_EPOCH == MINUTES_OF_EPOCH - 1)
        advance(d, -1);
    if (!d->dark)
        d->minute++;
}

void replay(const struct desk *d, uint32_t epoch, struct job *jobs)
{
    memset(jobs, 0, MOST_JOBS * sizeof *jobs);
    for (const struct change *change = d->log; change < d->log + d->changes; change++) {
        if (change->epoch > epoch || change->kind > CLOSED)
            continue;
        struct job *job = &jobs[change->key - FIRST_KEY];
        job->open = change->kind != CLOSED;
        if (job->open)
            memcpy(job->value, change->value, sizeof job->value);
    }
}

void replay_queue(const struct desk *d, uint32_t epoch, struct queue *queue)
{
    queue->count = 0;
    for (const struct change *change = d->log; change < d->log + d->changes; change++) {
        if (change->epoch > epoch || change->kind < APPENDED)
            continue;
        if (change->kind == APPENDED) {
            struct hand_over *last = &queue->waiting[queue->count++];
            last->order = change->key;
            memcpy(last->value, change->value, sizeof last->value);
        } else if (queue->count > 0) {
            memmove(queue->waiting, queue->waiting + 1, --queue->count * sizeof *queue->waiting);
        }
    }
}

/* An open job; which one is left to chance. */
static uint32_t some_job(struct desk *d, bool oldest)
{
    static struct job jobs[MOST_JOBS];
    replay(d, UINT32_MAX, jobs);
    uint32_t at = oldest ? 0 : below(&d->random, d->jobs);
    while (!jobs[at].open)
        at = (at + 1) % d->jobs;
    return FIRST_KEY + at;
}

/* The morning: so many jobs come in, a few each minute. */
static void open_jobs(struct desk *d, uint32_t jobs, uint32_t each_minute)
{
    while (!d->dark && d->jobs < jobs) {
        begin(d);
        open_job(d);
        end(d);
        if (d->jobs % each_minute == 0)
            pass_minute(d);
    }
    d->busy_from = d->stores + 1;
}

/* Jobs are opened until so many are open; then they are moved, cancelled and replaced. */
void first_day(struct desk *d, uint32_t jobs)
{
    open_jobs(d, jobs, 3);
    for (uint32_t minutes = jobs * 2 / 3; !d->dark && minutes > 0; minutes--) {
        begin(d);
        move_job(d, some_job(d, false));
        if (below(&d->random, 3) == 0) {
            close_job(d, some_job(d, false));
            open_job(d);
        } else {
            move_job(d, some_job(d, false));
        }
        hand_over(d, some_job(d, false));
        end(d);
        pass_minute(d);
    }
    advance(d, -1);
}

/* A job is delivered, and a new stop comes in, until all are known. */
static void deliver(struct desk *d, uint32_t stops)
{
    begin(d);
    close_job(d, some_job(d, below(&d->random, 2) == 0));
    if (d->jobs < stops)
        open_job(d);
    end(d);
    if (!d->syncs)
        return;
    uint64_t lines = d->calls->sync(STORE_OF(d));
    if (lines >= BOARD_REFUSED)
        stop("sync", lines);
    d->stores += lines;
}

static void busy_minute(struct desk *d, uint32_t stops)
{
    for (int i = 0; i < DELIVERIES; i++)
        deliver(d, stops);
    begin(d);
    if (below(&d->random, 2) == 0)
        move_job(d, some_job(d, false));
    hand_over(d, some_job(d, false));
    end(d);
    pass_minute(d);
}

/* A third of the stops is known in the morning. A job is left in the end. */
void second_day(struct desk *d, uint32_t stops)
{
    open_jobs(d, stops / 3, DELIVERIES);
    for (uint32_t left = stops; !d->dark && left > DELIVERIES; left -= DELIVERIES)
        busy_minute(d, stops);
    advance(d, -1);
}

uint32_t slots_for(uint32_t open) { return open + 160; }

const struct change *last_change(const struct desk *d, uint32_t key)
{
    const struct change *change = d->log + d->changes;
    while (change > d->log)
        if ((--change)->key == key && change->kind <= CLOSED)
            return change;
    return NULL;
}

const struct change *last_hand_over(const struct desk *d, uint32_t order)
{
    const struct change *change = d->log + d->changes;
    while (change > d->log)
        if ((--change)->key == order && change->kind >= APPENDED)
            return change;
    return NULL;
}
