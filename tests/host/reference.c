#include "reference.h"

#include <stdio.h>
#include <stdlib.h>
#include <string.h>

struct store store_of(uint32_t slots, uint32_t words, uint32_t threads)
{
    return (struct store){.slots = slots, .words = words, .threads = threads,
                          .image = board_image_words(slots, words), .notes = board_transient_words(slots, threads)};
}

size_t header_at(size_t slot) { return PREFIX + HEADER_WORDS * slot; }
size_t contents_at(const struct store *s, size_t slot) { return header_at(s->slots) + s->words * slot; }

/* ---- Random numbers ---- */

/* splitmix64 */
static uint64_t next(uint64_t *random)
{
    uint64_t z = *random += UINT64_C(0x9E3779B97F4A7C15);
    z = (z ^ (z >> 30)) * UINT64_C(0xBF58476D1CE4E5B9);
    z = (z ^ (z >> 27)) * UINT64_C(0x94D049BB133111EB);
    return z ^ (z >> 31);
}

uint32_t below(uint64_t *random, uint32_t bound) { return (uint32_t)((next(random) >> 32) * bound >> 32); }

void junk(uint64_t *random, uint32_t *words, size_t count)
{
    for (size_t i = 0; i < count; i++)
        words[i] = (uint32_t)next(random);
}

/* ---- Calls ---- */

const char *const call_names[CALL_KINDS] = {
    "begin", "end", "new", "set", "delete", "batch", "append", "take", "read", "read_refusal", "look", "look_refusal",
    "advance", "sync", "write_back", "recover",
};

static enum call_kind choose_kind(uint64_t *random, const uint32_t weights[CALL_KINDS])
{
    uint32_t all = 0, kind = 0;
    for (size_t i = 0; i < CALL_KINDS; i++)
        all += weights[i];
    uint32_t at = below(random, all);
    while (at >= weights[kind])
        at -= weights[kind++];
    return (enum call_kind)kind;
}

/* The next word that differs in persistent, or this one. */
static size_t differing(const struct store *s, size_t from)
{
    for (size_t i = 0; i < s->image; i++) {
        size_t at = (from + i) % s->image;
        if (s->working[at] != s->persistent[at])
            return at;
    }
    return from;
}

/* A word of the image, often one of the first of a header, most often one that differs. */
static size_t choose_position(uint64_t *random, const struct store *s)
{
    size_t from = below(random, 2) == 0 ? below(random, (uint32_t)s->image + 1) : header_at(below(random, s->slots));
    return below(random, 8) == 0 ? from : differing(s, from);
}

/* Whether there will be a job of this key after so many words of the list, should they be accepted. */
static bool will_be_there(const struct store *s, const struct call *call, size_t words, uint32_t key)
{
    bool there = board_read_refusal(STORE(s), call->thread, key) == 0;
    for (size_t i = 0; i < words; i += call->change_words)
        if (call->list[i + 1] == key)
            there = call->list[i] != BOARD_DELETE;
    return there;
}

/* Now and then the value of the job of this key, where there is one. */
static void same_again(uint64_t *random, const struct store *s, uint32_t thread, uint32_t key, uint32_t *value)
{
    uint64_t at = board_read(STORE(s), thread, key);
    if (below(random, 3) == 0 && at < BOARD_REFUSED)
        memcpy(value, s->working + at, (s->words - 1) * sizeof *value);
}

/* A few changes, often two of one job, most of them such that they are accepted on this store. An improper list has an
   unknown kind or is not of whole changes. */
static void choose_list(uint64_t *random, const struct store *s, struct call *call, bool improper)
{
    size_t changes = below(random, MOST_CHANGES + 1);
    call->change_words = 1 + s->words;
    call->list_words = changes * call->change_words;
    for (size_t i = 0; i < call->list_words; i += call->change_words) {
        uint32_t *change = call->list + i;
        bool again = i > 0 && below(random, 2) == 0;
        junk(random, change, call->change_words);
        change[1] = again ? call->list[i - call->change_words + 1] : 1 + below(random, s->slots);
        change[0] = will_be_there(s, call, i, change[1]) ? BOARD_SET + below(random, 2) : BOARD_NEW;
        if (below(random, 8) == 0)
            change[0] = BOARD_NEW + below(random, 3);
        if (change[0] == BOARD_SET)
            same_again(random, s, call->thread, change[1], change + 2);
    }
    if (improper && changes > 0 && below(random, 2) == 0)
        call->list[below(random, (uint32_t)changes) * call->change_words] = below(random, 2) == 0 ? 0 : 4;
    else if (improper && changes > 0)
        call->list_words--;
}

struct call choose_call(uint64_t *random, const struct store *s, const uint32_t weights[CALL_KINDS],
                        const struct call *previous)
{
    if (previous->kind == CALL_WRITE_BACK && below(random, 5) > 0)
        return (struct call){.kind = CALL_WRITE_BACK, .position = differing(s, previous->position + 1)};
    bool improper = below(random, 40) == 0;
    struct call call = {.kind = choose_kind(random, weights), .value_words = s->words - 1};
    call.thread = improper ? below(random, s->threads + 1) : below(random, s->threads);
    call.key = improper ? below(random, s->slots) : 1 + below(random, s->slots);
    if (improper)
        call.value_words = below(random, s->words + 1);
    for (size_t i = 0; i < call.value_words; i++)
        call.value[i] = below(random, 4) == 0 ? 0 : (uint32_t)next(random);
    if (call.kind == CALL_SET && !improper)
        same_again(random, s, call.thread, call.key, call.value);
    if (call.kind == CALL_WRITE_BACK)
        call.position = choose_position(random, s);
    if (call.kind == CALL_BATCH)
        choose_list(random, s, &call, improper);
    return call;
}

uint64_t make_call(const struct store *s, const struct call *c)
{
    switch (c->kind) {
    case CALL_BEGIN: return board_begin(STORE(s), c->thread);
    case CALL_END: return board_end(STORE(s), c->thread);
    case CALL_NEW: return board_new(STORE(s), c->thread, c->key, c->value, c->value_words);
    case CALL_SET: return board_set(STORE(s), c->thread, c->key, c->value, c->value_words);
    case CALL_DELETE: return board_delete(STORE(s), c->thread, c->key);
    case CALL_BATCH: return board_batch(STORE(s), c->thread, c->list, c->list_words);
    case CALL_READ: return board_read(STORE(s), c->thread, c->key);
    case CALL_READ_REFUSAL: return board_read_refusal(STORE(s), c->thread, c->key);
    case CALL_APPEND: return board_append(STORE(s), c->thread, c->value, c->value_words);
    case CALL_TAKE: return board_take(STORE(s), c->thread);
    case CALL_LOOK: return board_look(STORE(s), c->thread);
    case CALL_LOOK_REFUSAL: return board_look_refusal(STORE(s), c->thread);
    case CALL_ADVANCE: return board_advance(STORE(s));
    case CALL_SYNC: return board_sync(STORE(s));
    case CALL_WRITE_BACK: return board_write_back(STORE(s), c->position);
    default: return board_recover(STORE(s));
    }
}

/* ---- The reference map ---- */

/* Where the entry stands, or would stand. */
static size_t place_of(const struct jobs *jobs, uint32_t board, uint32_t key)
{
    size_t at = 0;
    while (at < jobs->count && (jobs->entries[at].board < board ||
                                (jobs->entries[at].board == board && jobs->entries[at].key < key)))
        at++;
    return at;
}

static bool stands(const struct jobs *jobs, size_t at, uint32_t board, uint32_t key)
{
    return at < jobs->count && jobs->entries[at].board == board && jobs->entries[at].key == key;
}

static void put(struct jobs *jobs, uint32_t board, uint32_t key, const uint32_t *value, size_t words)
{
    size_t at = place_of(jobs, board, key);
    struct entry *entry = jobs->entries + at;
    if (!stands(jobs, at, board, key)) {
        if (jobs->count == MOST_ENTRIES) {
            printf("more jobs than a board has slots\n");
            exit(2);
        }
        memmove(entry + 1, entry, (jobs->count++ - at) * sizeof *entry);
    }
    *entry = (struct entry){.board = board, .key = key};
    memcpy(entry->value, value, words * sizeof *value);
}

static void take_away(struct jobs *jobs, size_t at)
{
    memmove(jobs->entries + at, jobs->entries + at + 1, (--jobs->count - at) * sizeof *jobs->entries);
}

void restart(struct reference *r, const struct jobs *start, uint32_t clock)
{
    r->start = *start;
    r->clock = clock;
    memset(r->open, 0, sizeof r->open);
    r->changes = r->synced = 0;
}

static void add(struct reference *r, const struct call *call, uint32_t key)
{
    if (r->changes == r->room) {
        r->room = 2 * r->room + 64;
        r->row = realloc(r->row, r->room * sizeof *r->row);
        if (r->row == NULL)
            exit(2);
    }
    struct change *change = r->row + r->changes++;
    *change = (struct change){.kind = call->kind, .epoch = r->open[call->thread], .key = key};
    memcpy(change->value, call->value, sizeof change->value);
}

/* Each accepted change of a list, as a call of its own. */
static void add_list(struct reference *r, const struct call *call, size_t accepted)
{
    static const enum call_kind kinds[] = {[BOARD_NEW] = CALL_NEW, [BOARD_SET] = CALL_SET, [BOARD_DELETE] = CALL_DELETE};
    for (size_t i = 0; i < accepted; i++) {
        const uint32_t *change = call->list + i * call->change_words;
        if ((i + 1) * call->change_words > call->list_words || change[0] < BOARD_NEW || change[0] > BOARD_DELETE) {
            printf("change %zu of a list is accepted, and there is none or it is of an unknown kind\n", i);
            exit(1);
        }
        struct call alone = {.kind = kinds[change[0]], .thread = call->thread};
        memcpy(alone.value, change + 2, (call->change_words - 2) * sizeof *change);
        add(r, &alone, change[1]);
        r->batched++;
    }
}

void replied(struct reference *r, const struct call *call, uint64_t reply)
{
    switch (call->kind) {
    case CALL_BEGIN:
        if (reply == 0)
            r->open[call->thread] = r->clock;
        break;
    case CALL_END:
        if (reply == 0)
            r->open[call->thread] = 0;
        break;
    case CALL_NEW: case CALL_SET: case CALL_DELETE: case CALL_TAKE:
        if (reply == 0)
            add(r, call, call->key);
        break;
    case CALL_BATCH:
        add_list(r, call, BOARD_BATCH_ACCEPTED(reply));
        break;
    case CALL_APPEND:
        if (reply < BOARD_REFUSED)
            add(r, call, (uint32_t)reply);
        break;
    case CALL_ADVANCE:
        r->clock += reply == BOARD_TICKED;
        break;
    case CALL_SYNC:
        if (reply < BOARD_REFUSED) {
            r->clock += 2;
            r->synced = r->changes;
        }
        break;
    default:
        break;
    }
}

static void apply(struct jobs *jobs, const struct change *change)
{
    uint32_t board = change->kind == CALL_APPEND || change->kind == CALL_TAKE ? QUEUE : JOBS;
    if (change->kind != CALL_DELETE && change->kind != CALL_TAKE) {
        put(jobs, board, change->key, change->value, MOST_VALUE);
        return;
    }
    /* a take takes the entry with the smallest order number */
    size_t at = place_of(jobs, board, change->kind == CALL_TAKE ? 0 : change->key);
    if (at < jobs->count && (change->kind == CALL_TAKE || stands(jobs, at, board, change->key)))
        take_away(jobs, at);
}

void due_at(const struct reference *r, uint32_t clock, struct jobs *due)
{
    *due = r->start;
    for (const struct change *change = r->row; change < r->row + r->changes; change++)
        if ((uint64_t)change->epoch + 2 <= clock)
            apply(due, change);
}

/* ---- What a cut left ---- */

static size_t zero_words(const uint32_t *header)
{
    size_t zero = 0;
    for (size_t i = 0; i < HEADER_WORDS; i++)
        zero += header[i] == 0;
    return zero;
}

size_t torn_headers(const struct store *s, const uint32_t *image)
{
    size_t torn = 0;
    for (size_t slot = 0; slot < s->slots; slot++) {
        size_t zero = zero_words(image + header_at(slot));
        torn += zero > 0 && zero < HEADER_WORDS;
    }
    return torn;
}

static bool kept(const uint32_t *header, uint32_t clock)
{
    return zero_words(header) == 0 && (uint64_t)header[EPOCH] + 2 <= clock;
}

static bool survives(const struct store *s, const uint32_t *image, size_t slot)
{
    const uint32_t *mine = image + header_at(slot);
    if (!kept(mine, image[CLOCK]) || mine[KIND] == DELETE)
        return false;
    for (size_t i = 0; i < s->slots; i++) {
        const uint32_t *other = image + header_at(i);
        if (kept(other, image[CLOCK]) && other[UID] == mine[UID] && other[EPOCH] > mine[EPOCH])
            return false;
    }
    return true;
}

const char *wrong_after(const struct store *s, const uint32_t *image, const uint32_t *after, const struct jobs *due)
{
    struct jobs found = {0};
    size_t contents = contents_at(s, 0), surviving = 0, jobs = 0;
    if (memcmp(after, image, PREFIX * sizeof *image) != 0)
        return "recovery changed a size or the clock";
    if (memcmp(after + contents, image + contents, (s->image - contents) * sizeof *image) != 0)
        return "recovery changed contents";
    for (size_t slot = 0; slot < s->slots; slot++) {
        const uint32_t *header = after + header_at(slot);
        if (!survives(s, after, slot)) {
            if (zero_words(header) < HEADER_WORDS)
                return "recovery left a header that is neither free nor of a survivor";
            continue;
        }
        surviving++;
        jobs += header[BOARD] == JOBS;
        put(&found, header[BOARD], after[contents_at(s, slot)], after + contents_at(s, slot) + 1, s->words - 1);
    }
    if (found.count != surviving)
        return "a key survives twice";
    if (found.count != due->count || memcmp(found.entries, due->entries, found.count * sizeof *found.entries) != 0)
        return "the jobs and queue entries are not those of the operations up to the clock - 2";
    if (board_survivors((const uint8_t *)image, 4 * s->image) != jobs)
        return "board_survivors of the image counts other jobs";
    return NULL;
}

const char *wrong_recovery(const struct store *s, const uint32_t *image, const struct jobs *due, uint64_t *random)
{
    static uint32_t working[MOST_IMAGE], persistent[MOST_IMAGE], transient[MOST_NOTES];
    uint64_t reply = BOARD_WENT_ON;
    memcpy(persistent, image, s->image * sizeof *image);
    for (size_t went_on = 0; reply == BOARD_WENT_ON; went_on++) {
        if (went_on > s->slots)
            return "recovery goes on more often than there are slots";
        junk(random, working, s->image);
        junk(random, transient, s->notes);
        reply = board_recover(working, s->image, persistent, s->image, transient, s->notes);
    }
    if (reply != BOARD_DONE)
        return board_refusal_text(board_refusal_of(reply));
    if (memcmp(working, persistent, s->image * sizeof *working) != 0)
        return "working is no copy of persistent";
    return wrong_after(s, image, persistent, due);
}

static void print_words(const char *what, const uint32_t *words, size_t count)
{
    printf("%s", what);
    for (size_t i = 0; i < count; i++)
        printf(" %u", (unsigned)words[i]);
    printf("\n");
}

void print_image(const struct store *s, const uint32_t *image, const struct jobs *due)
{
    print_words("image", image, PREFIX);
    for (size_t slot = 0; slot < s->slots; slot++) {
        print_words("header", image + header_at(slot), HEADER_WORDS);
        print_words("contents", image + contents_at(s, slot), s->words);
    }
    for (const struct entry *entry = due->entries; entry < due->entries + due->count; entry++) {
        print_words(entry->board == JOBS ? "due: job" : "due: queue entry", &entry->key, 1);
        print_words("    value", entry->value, s->words - 1);
    }
}
