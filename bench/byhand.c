/* The rules of the board written by hand in C, with every check that the library makes, by one who would not prove
   anything: what the library's speed is measured against. The library uses nothing of this file. */

#include "byhand.h"

#include <stdbool.h>
#include <string.h>
#ifdef __SSE2__
#include <emmintrin.h>
#endif

/* A DELETE of epoch e is freed by the advance from e + ANTI_PAYLOAD_WAIT. With 2 it goes in the same advance as the
   payload that it covers, and a cut between the two brings a deleted job back: demo/early.c shows that. */
#ifndef ANTI_PAYLOAD_WAIT
#define ANTI_PAYLOAD_WAIT 3
#endif

enum { FREE, ALLOC, UPDATE, DELETE };
enum { KIND, EPOCH, UID, BOARD, HEADER_WORDS, HEADER_BYTES = 4 * HEADER_WORDS };
enum { JOBS = 1, QUEUE = 2 }; /* the two boards */
enum { SLOTS, WORDS, CLOCK, PREFIX };
enum { BITS = 32, LIST_WORDS = 32 }; /* of a word, and of a waiting list */
enum { NOTED_SLOTS, LAST_TAKEN, NEXT_UID, NEXT_ORDER, PHASE, PLACE_SLOT, LISTS, NOTES = LISTS + 2 * LIST_WORDS };
enum { IDLE, RECLAIMING, CONTENTS, HEADER, TICK };
enum { MOST_SLOTS = 1024, MOST_WORDS = 9, MOST_THREADS = 16 };
#define LARGEST UINT32_C(4000000000)
#define NONE SIZE_MAX
/* Put into the calls, which gcc -O2 does not do by itself: where nothing walks the table they are 5 to 20 % faster. */
#define INLINE static inline __attribute__((always_inline))

/* A store that passed the check at a call's entry. */
struct board {
    size_t slots, words, threads;
    uint32_t clock;
    uint32_t *working, *persistent, *notes;
    uint32_t *headers, *contents;       /* of working */
    uint32_t *open, *retired, *index; /* of the notes */
};

/* A header with any word 0 counts as free, and so does one of a kind above 3. The kind, which decides most often, is
   asked first. */
static bool rest_whole(const uint32_t *header) { return header[EPOCH] != 0 && header[UID] != 0 && header[BOARD] != 0; }
static bool filled(const uint32_t *header) { return header[KIND] - 1 < DELETE && rest_whole(header); }
static bool payload(const uint32_t *header) { return header[KIND] - 1 < UPDATE && rest_whole(header); }
static size_t image_words(size_t slots, size_t words) { return PREFIX + (HEADER_WORDS + words) * slots; }
static size_t contents_at(size_t slots) { return PREFIX + HEADER_WORDS * slots; }

static bool sizes_ok(uint32_t slots, uint32_t words)
{
    return slots >= 2 && slots <= MOST_SLOTS && words >= 2 && words <= MOST_WORDS;
}

static bool image_ok(const uint32_t *image, size_t length)
{
    return length >= PREFIX && sizes_ok(image[SLOTS], image[WORDS]) &&
           length == image_words(image[SLOTS], image[WORDS]);
}

static bool notes_length_ok(size_t length, size_t slots)
{
    return length > NOTES + 3 * slots && length <= NOTES + 3 * slots + MOST_THREADS;
}

static bool clock_ok(uint32_t clock) { return clock >= 2 && clock <= LARGEST; }

/* Refusals 1 and 2, and where everything stands. An image as long as working that says the same sizes has its shape. */
INLINE uint32_t enter(struct board *b, READ_STORE)
{
    if (!image_ok(working, working_words) || persistent_words != working_words ||
        persistent[SLOTS] != working[SLOTS] || persistent[WORDS] != working[WORDS])
        return BOARD_SIZES;
    size_t slots = working[SLOTS];
    if (!notes_length_ok(transient_words, slots) || transient[NOTED_SLOTS] != slots ||
        transient[LAST_TAKEN] >= slots || transient[PLACE_SLOT] >= slots || transient[NEXT_UID] - 1 > LARGEST ||
        transient[NEXT_ORDER] - 1 > LARGEST)
        return BOARD_SIZES;
    uint32_t clock = working[CLOCK];
    if (!clock_ok(clock) || persistent[CLOCK] != clock)
        return BOARD_CLOCK;
    size_t threads = transient_words - NOTES - 3 * slots;
    for (size_t i = 0; i < threads; i++) {
        uint32_t epoch = transient[NOTES + i];
        if (epoch != 0 && epoch != clock && epoch != clock - 1)
            return BOARD_CLOCK;
    }
    b->slots = slots;
    b->words = working[WORDS];
    b->threads = threads;
    b->clock = clock;
    b->working = (uint32_t *)working;
    b->persistent = (uint32_t *)persistent;
    b->notes = (uint32_t *)transient;
    b->headers = b->working + PREFIX;
    b->contents = b->working + contents_at(slots);
    b->open = b->notes + NOTES;
    b->retired = b->open + threads;
    b->index = b->retired + slots;
    return 0;
}

#define ENTER(b) enter(&b, working, working_words, persistent, persistent_words, transient, transient_words)

/* ---- The waiting lists: a bit for each slot, for the even epochs, then for the odd ones ---- */

static uint32_t *waiting(const struct board *b, uint32_t epoch) { return b->notes + LISTS + (epoch % 2) * LIST_WORDS; }

INLINE void wait(const struct board *b, uint32_t epoch, size_t slot)
{
    waiting(b, epoch)[slot / BITS] |= UINT32_C(1) << slot % BITS;
}

/* The first slot that waits from one on, or a number that is none. */
static size_t next_waiting(const struct board *b, uint32_t epoch, size_t slot)
{
    const uint32_t *list = waiting(b, epoch);
    for (; slot < b->slots; slot = (slot | (BITS - 1)) + 1) {
        uint32_t rest = list[slot / BITS] >> slot % BITS;
        if (rest != 0)
            return slot + (size_t)__builtin_ctz(rest);
    }
    return slot;
}

/* ---- The index: the filled slots by board and key. It stands last, N buckets and a link for each slot; from a bucket a
   chain goes up the slots. A word is one more than the slot that it leads to, and one that is not above the word before
   it, or is above N, ends the chain ---- */

static uint32_t *buckets(const struct board *b) { return b->index; }
static uint32_t *links(const struct board *b) { return b->index + b->slots; }

/* The bucket of a name, one of as many as there are slots. */
INLINE size_t hash(uint32_t board, uint32_t key, size_t slots)
{
    uint32_t x = key * UINT32_C(23208431) + board * UINT32_C(2246822519);
    return (uint64_t)((x + (x >> 13)) * UINT32_C(2654435769)) * slots >> 32;
}

INLINE uint32_t *bucket(const struct board *b, uint32_t board, uint32_t key)
{
    return buckets(b) + hash(board, key, b->slots);
}

/* The word of a chain that leads past the slots below this one. */
INLINE uint32_t *place(uint32_t *bucket, uint32_t *links, size_t slot)
{
    uint32_t *at = bucket;
    for (uint32_t last = 0, word; (word = *at) > last && word <= slot; last = word)
        at = links + word - 1;
    return at;
}

/* A slot that is filled joins the chain of its name; one that is freed leaves it. */
INLINE void join(const struct board *b, uint32_t *bucket, size_t slot)
{
    uint32_t *link = links(b), *at = place(bucket, link, slot);
    link[slot] = *at;
    *at = (uint32_t)slot + 1;
}

INLINE void leave(const struct board *b, uint32_t *bucket, size_t slot)
{
    uint32_t *link = links(b), next = link[slot];
    *place(bucket, link, slot) = next > slot + 1 ? next : 0;
}

uint32_t BYHAND(format)(STORE, uint32_t slots, uint32_t words)
{
    if (!sizes_ok(slots, words) || working_words != image_words(slots, words) || persistent_words != working_words ||
        !notes_length_ok(transient_words, slots))
        return BOARD_SIZES;
    memset(working, 0, working_words * sizeof *working);
    working[SLOTS] = slots;
    working[WORDS] = words;
    working[CLOCK] = 2;
    memcpy(persistent, working, working_words * sizeof *working);
    memset(transient, 0, transient_words * sizeof *transient);
    transient[NOTED_SLOTS] = slots;
    transient[LAST_TAKEN] = slots - 1;
    transient[NEXT_UID] = 1;
    transient[NEXT_ORDER] = 1;
    return 0;
}

uint32_t BYHAND(begin)(NOTES_STORE, uint32_t thread)
{
    struct board b;
    uint32_t refusal = ENTER(b);
    if (refusal != 0)
        return refusal;
    if (thread >= b.threads)
        return BOARD_NO_THREAD;
    if (b.open[thread] != 0)
        return BOARD_ALREADY_OPEN;
    b.open[thread] = b.clock;
    return 0;
}

uint32_t BYHAND(end)(NOTES_STORE, uint32_t thread)
{
    struct board b;
    uint32_t refusal = ENTER(b);
    if (refusal != 0)
        return refusal;
    if (thread >= b.threads)
        return BOARD_NO_THREAD;
    if (b.open[thread] == 0)
        return BOARD_NOT_OPEN;
    b.open[thread] = 0;
    return 0;
}

/* Refusal 9, else 0 and the lowest live slot of the job's key, or NONE. */
INLINE uint32_t look_up(const struct board *b, const uint32_t *bucket, uint32_t key, uint32_t epoch, size_t *live)
{
    const uint32_t *link = links(b);
    size_t slots = b->slots, words = b->words, lowest = NONE;
    for (size_t last = 0, word = *bucket; word > last && word <= slots; last = word, word = link[word - 1]) {
        size_t s = word - 1;
        const uint32_t *header = b->headers + HEADER_WORDS * s;
        if (b->contents[words * s] != key || header[BOARD] != JOBS || !filled(header))
            continue;
        if (header[EPOCH] > epoch)
            return BOARD_NEWER;
        if (lowest == NONE && header[KIND] != DELETE && b->retired[s] == 0)
            lowest = s;
    }
    *live = lowest;
    return 0;
}

/* The lowest live slot of the job's key, or NONE. */
INLINE size_t find_live(const struct board *b, const uint32_t *bucket, uint32_t key)
{
    const uint32_t *link = links(b);
    size_t slots = b->slots, words = b->words;
    for (size_t last = 0, word = *bucket; word > last && word <= slots; last = word, word = link[word - 1]) {
        size_t s = word - 1;
        const uint32_t *header = b->headers + HEADER_WORDS * s;
        if (b->contents[words * s] == key && header[BOARD] == JOBS && payload(header) && b->retired[s] == 0)
            return s;
    }
    return NONE;
}

/* Refusals 1, 2, 5 and 7, and the caller's epoch. */
INLINE uint32_t enter_open(struct board *b, READ_STORE, uint32_t thread, uint32_t *epoch)
{
    uint32_t refusal = enter(b, working, working_words, persistent, persistent_words, transient, transient_words);
    if (refusal != 0)
        return refusal;
    if (thread >= b->threads)
        return BOARD_NO_THREAD;
    *epoch = b->open[thread];
    return *epoch == 0 ? BOARD_NOT_OPEN : 0;
}

#define ENTER_OPEN(b, thread, epoch) enter_open(&b, working, working_words, persistent, persistent_words, transient, \
                                                transient_words, thread, &epoch)

/* The first free slot after the last one taken, if so many are free; else NONE. */
INLINE size_t room(const struct board *b, size_t needed)
{
    size_t first = NONE, s = b->notes[LAST_TAKEN];
    for (size_t k = 0; k < b->slots; k++) {
        s = s + 1 < b->slots ? s + 1 : 0;
        if (filled(b->headers + HEADER_WORDS * s))
            continue;
        if (first == NONE)
            first = s;
        if (--needed == 0)
            return first;
    }
    return NONE;
}

/* A free slot is taken, by a name of that bucket; a value of NULL is zeros. */
INLINE void fill(const struct board *b, uint32_t *bucket, size_t slot, const uint32_t header[HEADER_WORDS],
                 uint32_t key, const uint32_t *value)
{
    uint32_t *contents = b->contents + b->words * slot;
    memcpy(b->headers + HEADER_WORDS * slot, header, HEADER_WORDS * sizeof *header);
    contents[0] = key;
    for (size_t i = 1; i < b->words; i++)
        contents[i] = value != NULL ? value[i - 1] : 0;
    b->notes[LAST_TAKEN] = (uint32_t)slot;
    b->retired[slot] = 0;
    wait(b, header[EPOCH], slot);
    join(b, bucket, slot);
}

/* The slot has this value: word by word, which is less than a call of memcmp for so few. */
INLINE bool holds(const struct board *b, size_t slot, const uint32_t *value)
{
    const uint32_t *held = b->contents + b->words * slot + 1;
    for (size_t i = 0; i < b->words - 1; i++)
        if (held[i] != value[i])
            return false;
    return true;
}

/* New, set and delete of a key in an operation of that epoch. */
static uint32_t make(const struct board *b, uint32_t epoch, uint32_t key, const uint32_t *value)
{
    size_t live;
    uint32_t *chain = bucket(b, JOBS, key);
    uint32_t refusal = look_up(b, chain, key, epoch, &live);
    if (refusal != 0)
        return refusal;
    if (live != NONE)
        return BOARD_JOB_EXISTS;
    uint32_t uid = b->notes[NEXT_UID];
    if (uid > LARGEST)
        return BOARD_NO_UID;
    size_t slot = room(b, 2);
    if (slot == NONE)
        return BOARD_FULL;
    fill(b, chain, slot, (uint32_t[]){ALLOC, epoch, uid, JOBS}, key, value);
    b->notes[NEXT_UID] = uid + 1;
    return 0;
}

static uint32_t replace(const struct board *b, uint32_t epoch, uint32_t key, const uint32_t *value)
{
    size_t live;
    uint32_t *chain = bucket(b, JOBS, key);
    uint32_t refusal = look_up(b, chain, key, epoch, &live);
    if (refusal != 0)
        return refusal;
    if (live == NONE)
        return BOARD_NO_JOB;
    const uint32_t *header = b->headers + HEADER_WORDS * live;
    if (header[EPOCH] == epoch) {
        memcpy(b->contents + b->words * live + 1, value, (b->words - 1) * sizeof *value);
        wait(b, epoch, live);
        return 0;
    }
    size_t slot = room(b, 2);
    if (slot == NONE)
        return holds(b, live, value) ? 0 : BOARD_FULL;
    fill(b, chain, slot, (uint32_t[]){UPDATE, epoch, header[UID], JOBS}, key, value);
    b->retired[live] = epoch;
    return 0;
}

/* A live payload, on the chain of that bucket, goes: freed at once, turned into a DELETE, or covered by one. */
INLINE uint32_t end_payload(const struct board *b, uint32_t *bucket, size_t live, uint32_t epoch)
{
    uint32_t *header = b->headers + HEADER_WORDS * live;
    if (header[EPOCH] == epoch) {
        if (header[KIND] == ALLOC) {
            memset(header, 0, HEADER_WORDS * sizeof *header);
            leave(b, bucket, live);
        } else {
            header[KIND] = DELETE;
        }
        wait(b, epoch, live);
        return 0;
    }
    size_t slot = room(b, 1);
    if (slot == NONE)
        return BOARD_FULL;
    fill(b, bucket, slot, (uint32_t[]){DELETE, epoch, header[UID], header[BOARD]}, b->contents[b->words * live], NULL);
    b->retired[live] = epoch;
    return 0;
}

static uint32_t discard(const struct board *b, uint32_t epoch, uint32_t key)
{
    size_t live;
    uint32_t *chain = bucket(b, JOBS, key);
    uint32_t refusal = look_up(b, chain, key, epoch, &live);
    if (refusal != 0)
        return refusal;
    return live == NONE ? BOARD_NO_JOB : end_payload(b, chain, live, epoch);
}

uint32_t BYHAND(new)(CHANGE_STORE, uint32_t thread, uint32_t key, const uint32_t *value, size_t value_words)
{
    struct board b;
    uint32_t epoch, refusal = ENTER_OPEN(b, thread, epoch);
    if (refusal != 0)
        return refusal;
    return key == 0 || value_words != b.words - 1 ? BOARD_BAD_ARGUMENT : make(&b, epoch, key, value);
}

uint32_t BYHAND(set)(CHANGE_STORE, uint32_t thread, uint32_t key, const uint32_t *value, size_t value_words)
{
    struct board b;
    uint32_t epoch, refusal = ENTER_OPEN(b, thread, epoch);
    if (refusal != 0)
        return refusal;
    return key == 0 || value_words != b.words - 1 ? BOARD_BAD_ARGUMENT : replace(&b, epoch, key, value);
}

uint32_t BYHAND(delete)(CHANGE_STORE, uint32_t thread, uint32_t key)
{
    struct board b;
    uint32_t epoch, refusal = ENTER_OPEN(b, thread, epoch);
    if (refusal != 0)
        return refusal;
    return key == 0 ? BOARD_BAD_ARGUMENT : discard(&b, epoch, key);
}

/* A change of a list: kind, key and value. */
static uint32_t change(const struct board *b, uint32_t epoch, const uint32_t *c)
{
    if (c[1] == 0)
        return BOARD_BAD_ARGUMENT;
    switch (c[0]) {
    case BOARD_NEW: return make(b, epoch, c[1], c + 2);
    case BOARD_SET: return replace(b, epoch, c[1], c + 2);
    case BOARD_DELETE: return discard(b, epoch, c[1]);
    default: return BOARD_BAD_ARGUMENT;
    }
}

uint64_t BYHAND(batch)(CHANGE_STORE, uint32_t thread, const uint32_t *changes, size_t changes_words)
{
    struct board b;
    uint32_t epoch, refusal = ENTER_OPEN(b, thread, epoch);
    if (refusal != 0)
        return BOARD_REFUSED * refusal;
    size_t words = b.words + 1;
    if (changes_words > BOARD_MOST_CHANGES * words || changes_words % words != 0)
        return BOARD_REFUSED * BOARD_BAD_ARGUMENT;
    uint64_t accepted = 0;
    for (const uint32_t *c = changes; c < changes + changes_words; c += words) {
        refusal = change(&b, epoch, c);
        if (refusal != 0)
            return BOARD_REFUSED * refusal + accepted;
        accepted++;
    }
    return accepted;
}

uint64_t BYHAND(read)(READ_STORE, uint32_t thread, uint32_t key)
{
    struct board b;
    uint32_t refusal = ENTER(b);
    if (refusal != 0)
        return BOARD_REFUSED + refusal;
    if (thread >= b.threads)
        return BOARD_REFUSED + BOARD_NO_THREAD;
    if (key == 0)
        return BOARD_REFUSED + BOARD_BAD_ARGUMENT;
    size_t live;
    const uint32_t *chain = bucket(&b, JOBS, key);
    if (b.open[thread] == 0)
        live = find_live(&b, chain, key);
    else if (look_up(&b, chain, key, b.open[thread], &live) != 0)
        return BOARD_REFUSED + BOARD_NEWER;
    return live == NONE ? BOARD_REFUSED + BOARD_NO_JOB : contents_at(b.slots) + b.words * live + 1;
}

/* Refusal 9 of the queue calls: any slot of the queue that is of a later epoch. */
static bool queue_newer(const struct board *b, uint32_t epoch)
{
    for (const uint32_t *header = b->headers; header < b->headers + HEADER_WORDS * b->slots; header += HEADER_WORDS)
        if (header[EPOCH] > epoch && header[BOARD] == QUEUE && filled(header))
            return true;
    return false;
}

/* Refusals 9 and 17, else 0 and the live entry with the smallest order number: one walk for all. */
static uint32_t find_front(const struct board *b, uint32_t epoch, size_t *front)
{
    uint64_t least = UINT64_MAX;
    size_t words = b->words, first = 0;
    const uint32_t *header = b->headers, *end = header + HEADER_WORDS * b->slots, *order = b->contents;
    for (; header < end; header += HEADER_WORDS, order += words) {
        if (header[BOARD] != QUEUE)
            continue;
        if (header[EPOCH] > epoch && filled(header))
            return BOARD_NEWER;
        size_t s = (size_t)(header - b->headers) / HEADER_WORDS;
        if (*order < least && payload(header) && b->retired[s] == 0) {
            least = *order;
            first = s;
        }
    }
    *front = first;
    return least == UINT64_MAX ? BOARD_EMPTY : 0;
}

uint64_t BYHAND(append)(CHANGE_STORE, uint32_t thread, const uint32_t *value, size_t value_words)
{
    struct board b;
    uint32_t epoch;
    uint32_t refusal = ENTER_OPEN(b, thread, epoch);
    if (refusal != 0)
        return BOARD_REFUSED + refusal;
    if (value_words != b.words - 1)
        return BOARD_REFUSED + BOARD_BAD_ARGUMENT;
    if (queue_newer(&b, epoch))
        return BOARD_REFUSED + BOARD_NEWER;
    uint32_t uid = b.notes[NEXT_UID], order = b.notes[NEXT_ORDER];
    if (uid > LARGEST || order > LARGEST)
        return BOARD_REFUSED + BOARD_NO_UID;
    size_t slot = room(&b, 2);
    if (slot == NONE)
        return BOARD_REFUSED + BOARD_FULL;
    fill(&b, bucket(&b, QUEUE, order), slot, (uint32_t[]){ALLOC, epoch, uid, QUEUE}, order, value);
    b.notes[NEXT_UID] = uid + 1;
    b.notes[NEXT_ORDER] = order + 1;
    return order;
}

uint32_t BYHAND(take)(CHANGE_STORE, uint32_t thread)
{
    struct board b;
    uint32_t epoch;
    size_t front = 0;
    uint32_t refusal = ENTER_OPEN(b, thread, epoch);
    if (refusal == 0)
        refusal = find_front(&b, epoch, &front);
    if (refusal != 0)
        return refusal;
    return end_payload(&b, bucket(&b, QUEUE, b.contents[b.words * front]), front, epoch);
}

uint64_t BYHAND(look)(READ_STORE, uint32_t thread)
{
    struct board b;
    size_t front = 0;
    uint32_t refusal = ENTER(b);
    if (refusal != 0)
        return BOARD_REFUSED + refusal;
    if (thread >= b.threads)
        return BOARD_REFUSED + BOARD_NO_THREAD;
    uint32_t epoch = b.open[thread] != 0 ? b.open[thread] : UINT32_MAX; /* with none open no slot is newer */
    refusal = find_front(&b, epoch, &front);
    return refusal != 0 ? BOARD_REFUSED + refusal : contents_at(b.slots) + b.words * front + 1;
}

static void store_line(const struct board *b, size_t at, size_t words)
{
    memcpy(b->persistent + at, b->working + at, words * sizeof *b->working);
}

static void store_contents(const struct board *b, size_t slot)
{
    store_line(b, contents_at(b->slots) + b->words * slot, b->words);
}

static void store_header(const struct board *b, size_t slot)
{
    store_line(b, PREFIX + HEADER_WORDS * slot, HEADER_WORDS);
}

static void set_place(const struct board *b, uint32_t phase, size_t slot)
{
    b->notes[PHASE] = phase;
    b->notes[PLACE_SLOT] = (uint32_t)slot;
}

/* On to the slot after this one, or to the next phase. */
static void pass(const struct board *b, size_t slot, uint32_t phase, uint32_t next_phase)
{
    if (slot + 1 < b->slots)
        set_place(b, phase, slot + 1);
    else
        set_place(b, next_phase, 0);
}

static bool anti_due(const uint32_t *header, uint32_t clock)
{
    return (uint64_t)header[EPOCH] + ANTI_PAYLOAD_WAIT == clock && rest_whole(header);
}

static bool due(const struct board *b, size_t slot)
{
    const uint32_t *header = b->headers + HEADER_WORDS * slot;
    uint32_t clock = b->clock, then = clock - 2; /* a retirement of 0 is none */
    return header[KIND] == DELETE ? anti_due(header, clock) : b->retired[slot] == then && then != 0 && payload(header);
}

/* Whether none of sixteen slots can be due: retired two epochs ago, or a DELETE. Of the notes four are looked at in one
   instruction, which gcc -O2 does not do by itself. */
enum { GROUP = 16 };

INLINE bool any_retired(const uint32_t *retired, uint32_t then)
{
#ifdef __SSE2__
    __m128i wanted = _mm_set1_epi32((int)then), any = _mm_setzero_si128();
#pragma GCC unroll 4
    for (size_t j = 0; j < GROUP; j += 4)
        any = _mm_or_si128(any, _mm_cmpeq_epi32(wanted, _mm_loadu_si128((const __m128i *)(retired + j))));
    return _mm_movemask_epi8(any) != 0;
#else
    bool any = false;
    for (size_t j = 0; j < GROUP; j++)
        any |= retired[j] == then;
    return any;
#endif
}

INLINE bool group_stays(const uint32_t *header, const uint32_t *retired, uint32_t then)
{
    if (any_retired(retired, then))
        return false;
#pragma GCC unroll 16
    for (size_t j = 0; j < GROUP; j++)
        if (header[HEADER_WORDS * j + KIND] == DELETE)
            return false;
    return true;
}

/* The first slot to reclaim from one on, or the number of slots. */
static size_t next_due(const struct board *b, size_t slot)
{
    const uint32_t *headers = b->headers, *retired = b->retired;
    uint32_t then = b->clock - 2;
    size_t slots = b->slots;
    while (slot < slots) {
        if (slot + GROUP <= slots && group_stays(headers + HEADER_WORDS * slot, retired + slot, then)) {
            slot += GROUP;
            continue;
        }
        for (size_t end = slots - slot < GROUP ? slots : slot + GROUP; slot < end; slot++)
            if (due(b, slot))
                return slot;
    }
    return slot;
}

static bool underway(const struct board *b) { return b->notes[PHASE] - 1 < TICK; }

/* One lasting line: 1 when it was the clock. */
static uint64_t step(const struct board *b)
{
    uint32_t phase = underway(b) ? b->notes[PHASE] : RECLAIMING;
    size_t slot = underway(b) ? b->notes[PLACE_SLOT] : 0;
    if (phase == RECLAIMING) {
        slot = next_due(b, slot);
        if (slot < b->slots) {
            uint32_t *header = b->headers + HEADER_WORDS * slot;
            leave(b, bucket(b, header[BOARD], b->contents[b->words * slot]), slot);
            memset(header, 0, HEADER_WORDS * sizeof *header);
            store_header(b, slot);
            b->retired[slot] = 0;
            pass(b, slot, RECLAIMING, CONTENTS);
            return 0;
        }
        phase = CONTENTS;
        slot = 0;
    }
    if (phase == CONTENTS) {
        slot = next_waiting(b, b->clock - 1, slot);
        if (slot < b->slots) {
            store_contents(b, slot);
            set_place(b, HEADER, slot);
            return 0;
        }
    } else if (phase == HEADER) {
        store_header(b, slot);
        pass(b, slot, CONTENTS, TICK);
        return 0;
    }
    b->working[CLOCK] = b->clock + 1; /* working first, as in freeing */
    b->persistent[CLOCK] = b->clock + 1;
    memset(waiting(b, b->clock - 1), 0, LIST_WORDS * sizeof *b->notes);
    set_place(b, IDLE, 0);
    return 1;
}

uint64_t BYHAND(advance)(STORE)
{
    struct board b;
    uint32_t refusal = ENTER(b);
    if (refusal != 0)
        return BOARD_REFUSED + refusal;
    if (!underway(&b))
        for (size_t i = 0; i < b.threads; i++)
            if (b.open[i] == b.clock - 1)
                return BOARD_REFUSED + BOARD_STILL_OPEN;
    if (b.clock == LARGEST)
        return BOARD_REFUSED + BOARD_LAST_EPOCH;
    return step(&b);
}

uint64_t BYHAND(sync)(STORE)
{
    struct board b;
    uint32_t refusal = ENTER(b);
    if (refusal != 0)
        return BOARD_REFUSED + refusal;
    for (size_t i = 0; i < b.threads; i++)
        if (b.open[i] != 0)
            return BOARD_REFUSED + BOARD_STILL_OPEN;
    if (b.clock > LARGEST - 2)
        return BOARD_REFUSED + BOARD_LAST_EPOCH;
    uint64_t lines = 0;
    for (uint32_t last = b.clock + 2; b.clock < last; lines++)
        b.clock += (uint32_t)step(&b);
    return lines;
}

uint32_t BYHAND(write_back)(WORD_STORE, size_t position)
{
    struct board b;
    uint32_t refusal = ENTER(b);
    if (refusal != 0)
        return refusal;
    if (position < PREFIX || position >= working_words)
        return BOARD_NO_WORD;
    persistent[position] = working[position];
    return 0;
}

/* ---- Recovery: slots are listed by a hash of their uid or key, so that those of one spot alone are compared ---- */

/* The last slot listed at each spot, and for each slot the one listed before it, or END. */
struct lists {
    int shift;
    uint16_t last[MOST_SLOTS], before[MOST_SLOTS];
};
#define END UINT16_MAX

/* As many spots as there are slots, or the next power of two. */
static void start_lists(struct lists *l, size_t slots)
{
    l->shift = __builtin_clz((uint32_t)slots - 1);
    memset(l->last, 0xff, sizeof *l->last << (32 - l->shift));
}

static size_t spot(const struct lists *l, uint32_t number) { return number * UINT32_C(2654435769) >> l->shift; }

static void list(struct lists *l, size_t at, size_t slot)
{
    l->before[slot] = l->last[at];
    l->last[at] = (uint16_t)slot;
}

/* A slot's mark is its kind where it is kept and not beaten, FREE where it is four zeros, else STALE: to be freed. */
enum { STALE = DELETE + 1, MARKS };

/* An image as bytes, lowest first, as this machine has its words, and what is found of it. */
struct judged {
    const uint8_t *headers, *contents;
    size_t slots, words;
    uint8_t mark[MOST_SLOTS];
    size_t first[MARKS]; /* slot of each mark, or NONE */
    uint32_t uid, order; /* the largest of the survivors */
    size_t jobs;         /* of the survivors */
};

static bool survives(uint8_t mark) { return mark - 1u < UPDATE; }

static uint32_t word(const uint8_t *bytes, size_t at)
{
    uint32_t w;
    memcpy(&w, bytes + at * sizeof w, sizeof w);
    return w;
}

static void lose(struct judged *j, size_t slot)
{
    if (survives(j->mark[slot]))
        j->mark[slot] = STALE;
}

/* A kept slot against those of its uid that are listed: whether one has its epoch. */
static bool same_version(struct judged *j, const struct lists *uids, size_t at, size_t slot, uint32_t uid,
                         uint32_t epoch)
{
    bool same = false;
    for (size_t t = uids->last[at]; t != END; t = uids->before[t]) {
        const uint8_t *other = j->headers + HEADER_BYTES * t;
        if (word(other, UID) != uid)
            continue;
        if (word(other, EPOCH) == epoch)
            same = true;
        else
            lose(j, word(other, EPOCH) < epoch ? t : slot);
    }
    return same;
}

/* Marks the slots: refusal 3 for a header with a word out of range and none 0, else 4 for two of one uid and epoch. */
static uint32_t judge_headers(struct judged *j, uint32_t clock)
{
    struct lists uids;
    uint32_t refusal = 0, kept_epochs = clock > 3 ? clock - 3 : 0; /* from 2 to clock - 2 */
    size_t slots = j->slots;
    const uint8_t *header = j->headers;
    start_lists(&uids, slots);
    for (size_t s = 0; s < slots; s++, header += HEADER_BYTES) {
        uint32_t kind = word(header, KIND), epoch = word(header, EPOCH), uid = word(header, UID),
                 board = word(header, BOARD);
        bool in_range = kind - 1 < DELETE && uid - 1 < LARGEST && board - 1 < QUEUE;
        if (in_range && epoch - 2 < kept_epochs) {
            size_t at = spot(&uids, uid);
            j->mark[s] = (uint8_t)kind;
            if (uids.last[at] != END && same_version(j, &uids, at, s, uid, epoch))
                refusal = BOARD_DUPLICATE;
            list(&uids, at, s);
        } else if ((in_range && epoch - 2 <= clock - 2) || kind == 0 || epoch == 0 || uid == 0 || board == 0) {
            j->mark[s] = (kind | epoch | uid | board) == 0 ? FREE : STALE;
        } else {
            return BOARD_BAD_SLOT;
        }
    }
    return refusal;
}

static bool same_name(const struct judged *j, const struct lists *keys, size_t at, uint32_t board, uint32_t key)
{
    for (size_t t = keys->last[at]; t != END; t = keys->before[t])
        if (word(j->contents, j->words * t) == key && word(j->headers + HEADER_BYTES * t, BOARD) == board)
            return true;
    return false;
}

/* Goes through the marks: refusal 3 for a survivor's key, else 4 for two of one name. */
static uint32_t judge_keys(struct judged *j)
{
    struct lists keys;
    uint32_t refusal = 0, top = 0, order = 0;
    size_t slots = j->slots, words = j->words, jobs = 0;
    const uint8_t *header = j->headers, *contents = j->contents;
    memset(j->first, 0xff, sizeof j->first);
    start_lists(&keys, slots);
    for (size_t s = 0; s < slots; s++, header += HEADER_BYTES, contents += words * sizeof(uint32_t)) {
        if (!survives(j->mark[s])) {
            if (j->first[j->mark[s]] == NONE)
                j->first[j->mark[s]] = s;
            continue;
        }
        uint32_t uid = word(header, UID), board = word(header, BOARD), key = word(contents, 0), number = key;
        if (key == 0 || (board == QUEUE && key > LARGEST))
            return BOARD_BAD_SLOT;
        if (board == QUEUE) {
            order = key > order ? key : order;
            number = ~key; /* other spots than the jobs' */
        } else {
            jobs++;
        }
        top = uid > top ? uid : top;
        size_t at = spot(&keys, number);
        if (keys.last[at] != END && same_name(j, &keys, at, board, key))
            refusal = BOARD_DUPLICATE;
        list(&keys, at, s);
    }
    j->uid = top;
    j->order = order;
    j->jobs = jobs;
    return refusal;
}

/* Refusals 2 to 4 of an image whose sizes are right. */
static uint32_t judge(struct judged *j, const uint8_t *image)
{
    uint32_t clock = word(image, CLOCK);
    if (!clock_ok(clock))
        return BOARD_CLOCK;
    j->slots = word(image, SLOTS);
    j->words = word(image, WORDS);
    j->headers = image + PREFIX * sizeof(uint32_t);
    j->contents = image + contents_at(j->slots) * sizeof(uint32_t);
    uint32_t versions = judge_headers(j, clock);
    if (versions == BOARD_BAD_SLOT)
        return versions;
    uint32_t names = judge_keys(j);
    return names != 0 ? names : versions;
}

/* The index of an image with nothing to free, over zeros: the highest slot first, so that each goes to the bucket. */
static void index_survivors(const struct judged *j, const uint32_t *image, uint32_t *buckets)
{
    size_t slots = j->slots, words = j->words;
    const uint32_t *boards = image + PREFIX + BOARD, *keys = image + contents_at(slots);
    uint32_t *links = buckets + slots;
    for (size_t s = slots; s-- > 0;) {
        if (j->mark[s] == FREE)
            continue;
        uint32_t *bucket = buckets + hash(boards[HEADER_WORDS * s], keys[words * s], slots);
        links[s] = *bucket;
        *bucket = (uint32_t)s + 1;
    }
}

uint64_t BYHAND(recover)(STORE)
{
    struct judged j;
    if (!image_ok(persistent, persistent_words) || working_words != persistent_words ||
        !notes_length_ok(transient_words, persistent[SLOTS]))
        return BOARD_REFUSED + BOARD_SIZES;
    uint32_t refusal = judge(&j, (const uint8_t *)persistent);
    if (refusal != 0)
        return BOARD_REFUSED + refusal;
    size_t freed = j.first[STALE] != NONE ? j.first[STALE] : j.first[DELETE];
    if (freed != NONE) {
        memset(persistent + PREFIX + HEADER_WORDS * freed, 0, HEADER_WORDS * sizeof *persistent);
        return BOARD_WENT_ON;
    }
    memcpy(working, persistent, persistent_words * sizeof *working);
    memset(transient, 0, transient_words * sizeof *transient);
    transient[NOTED_SLOTS] = persistent[SLOTS];
    transient[LAST_TAKEN] = persistent[SLOTS] - 1;
    transient[NEXT_UID] = j.uid + 1;
    transient[NEXT_ORDER] = j.order + 1;
    index_survivors(&j, persistent, transient + transient_words - 2 * j.slots);
    return BOARD_DONE;
}

uint64_t BYHAND(survivors)(const uint8_t *image, size_t bytes)
{
    struct judged j;
    if (bytes % sizeof(uint32_t) != 0 || bytes / sizeof(uint32_t) < PREFIX ||
        !sizes_ok(word(image, SLOTS), word(image, WORDS)) ||
        bytes / sizeof(uint32_t) != image_words(word(image, SLOTS), word(image, WORDS)))
        return BOARD_REFUSED + BOARD_SIZES;
    uint32_t refusal = judge(&j, image);
    return refusal != 0 ? BOARD_REFUSED + refusal : j.jobs;
}
