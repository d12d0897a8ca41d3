/* The library against the same rules by hand in C (byhand.c). Each call is made by both on equal stores, and replies
   and every word they left are compared while it runs.
   Usage: bench --quick          comparisons alone, a few of each
          bench --times          the same, timed: a line for each call and size
          bench --counts         once each, between callgrind's marks: run it under callgrind */

#include "measure.h"
#include "byhand.h"

#include <inttypes.h>
#include <stdbool.h>
#include <stdio.h>
#include <stdlib.h>
#include <string.h>
#include <valgrind/callgrind.h>

enum { WORDS = 4, VALUE_WORDS = WORDS - 1, MOST_VALUE = 8, THREADS = 4, MOST_COPIES = 64, MOST_ROUNDS = 400 };
enum { FIRST_WORD = 3 }; /* of an image: the first of a header */

static const struct calls sides[] = {CALLS(board), CALLS(byhand)};
static const char *const side_names[] = {"library", "C"};

/* A store, and the key and thread that the measured call takes. */
struct bed {
    uint32_t slots, words, key, thread;
    size_t image, notes;
    uint32_t *working, *persistent, *transient;
};

#define BED(b) (b)->working, (b)->image, (b)->persistent, (b)->image, (b)->transient, (b)->notes

static const uint32_t value[MOST_VALUE] = {7, 212, 555, 1, 2, 3, 4, 5}, other_value[VALUE_WORDS] = {8, 213, 0};

static void fail(const char *what)
{
    fprintf(stderr, "bench: %s\n", what);
    exit(1);
}

static void accepted(uint32_t refusal)
{
    if (refusal != 0)
        fail(board_refusal_text(refusal));
}

static struct bed new_bed_of(uint32_t slots, uint32_t words)
{
    struct bed b = {.slots = slots, .words = words, .image = board_image_words(slots, words),
                    .notes = board_transient_words(slots, THREADS)};
    b.working = malloc((2 * b.image + b.notes) * sizeof *b.working);
    if (b.working == NULL)
        fail("no memory");
    b.persistent = b.working + b.image;
    b.transient = b.persistent + b.image;
    return b;
}

static struct bed new_bed(uint32_t slots) { return new_bed_of(slots, WORDS); }

static void copy_bed(struct bed *to, const struct bed *from)
{
    memcpy(to->working, from->working, (2 * from->image + from->notes) * sizeof *to->working);
}

static bool same_bed(const struct bed *a, const struct bed *b)
{
    return memcmp(a->working, b->working, (2 * a->image + a->notes) * sizeof *a->working) == 0;
}

/* ---- Stores to measure on. Jobs are numbered from 1, and so are entries of the queue ---- */

static void sync_bed(struct bed *b)
{
    if (board_sync(BED(b)) >= BOARD_REFUSED)
        fail("sync declined");
}

static void format_bed(struct bed *b) { accepted(board_format(BED(b), b->slots, b->words)); }
static void begin(struct bed *b) { accepted(board_begin(BED(b), 0)); }
static void end(struct bed *b) { accepted(board_end(BED(b), 0)); }

static void new_jobs(struct bed *b, uint32_t first, uint32_t count)
{
    for (uint32_t key = first; key < first + count; key++)
        accepted(board_new(BED(b), 0, key, value, b->words - 1));
}

/* So many jobs of an old epoch. */
static void old_jobs(struct bed *b, uint32_t count)
{
    format_bed(b);
    begin(b);
    new_jobs(b, 1, count);
    end(b);
    sync_bed(b);
}

static void half_full(struct bed *b) { old_jobs(b, b->slots / 2); }

static void half_full_open(struct bed *b)
{
    half_full(b);
    begin(b);
}

/* A quarter of the slots hold jobs and a quarter entries of the queue, in turn, of an old epoch. */
static void half_queue(struct bed *b)
{
    format_bed(b);
    begin(b);
    for (uint32_t number = 1; number <= b->slots / 4; number++) {
        new_jobs(b, number, 1);
        if (board_append(BED(b), 0, value, VALUE_WORDS) != number)
            fail("append declined");
    }
    end(b);
    sync_bed(b);
}

static void half_queue_open(struct bed *b)
{
    half_queue(b);
    begin(b);
}

/* A round: forty changes, or what a small board has room for. */
enum { ROUND = 40 };
static uint32_t round_list[ROUND][1 + WORDS];
static uint32_t round_changes;

/* The board that it meets is half full; its changes are of so many kinds in turn, new first. */
static void round_of(struct bed *b, uint32_t kinds)
{
    half_full_open(b);
    round_changes = b->slots / 2 - 2 < ROUND ? b->slots / 2 - 2 : ROUND;
    for (uint32_t i = 0; i < round_changes; i++) {
        uint32_t kind = BOARD_NEW + i % kinds;
        memcpy(round_list[i], (uint32_t[]){kind, i + 1 + (kind == BOARD_NEW ? b->slots : 0)}, 2 * sizeof kind);
        memcpy(round_list[i] + 2, other_value, sizeof other_value);
    }
}

static void round_of_new(struct bed *b) { round_of(b, 1); }
static void round_of_all(struct bed *b) { round_of(b, 3); }

/* Half the slots hold jobs of the open operation's epoch. */
static void young(struct bed *b)
{
    format_bed(b);
    begin(b);
    new_jobs(b, 1, b->slots / 2);
}

/* A quarter of the slots hold jobs, and some epochs of work have passed, each with a sixteenth of sets, of deletes and
   of new jobs. */
static void at_work(struct bed *b)
{
    uint32_t part = b->slots / 16, next = b->slots / 4 + 1;
    old_jobs(b, b->slots / 4);
    for (uint32_t epoch = 0; epoch < 5; epoch++) {
        begin(b);
        for (uint32_t i = 0; i < part; i++) {
            accepted(board_set(BED(b), 0, next - 1 - i, other_value, VALUE_WORDS));
            accepted(board_delete(BED(b), 0, 1 + epoch * part + i));
        }
        new_jobs(b, next, part);
        next += part;
        end(b);
        if (epoch < 4)
            while (board_advance(BED(b)) == BOARD_STORED)
                ;
    }
}

static void advance_bed(struct bed *b, uint64_t reply)
{
    if (board_advance(BED(b)) != reply)
        fail("an advance has another reply than the measure is made for");
}

/* An advance is underway: the first slot of the waiting list is stored, and the contents of the second are next. */
static void contents_next(struct bed *b)
{
    format_bed(b);
    begin(b);
    new_jobs(b, 1, b->slots / 2);
    end(b);
    advance_bed(b, BOARD_TICKED);
    advance_bed(b, BOARD_STORED);
    advance_bed(b, BOARD_STORED);
}

/* .. and its header is. */
static void header_next(struct bed *b)
{
    contents_next(b);
    advance_bed(b, BOARD_STORED);
}

/* Half the slots hold jobs, and changes are made durable one by one. */
static void settled(struct bed *b)
{
    half_full(b);
    for (uint32_t key = 1; key <= 4; key++) {
        begin(b);
        accepted(board_set(BED(b), 0, key, other_value, VALUE_WORDS));
        end(b);
        sync_bed(b);
    }
}

/* Every slot that can hold a job holds one, of an old epoch. */
static void full(struct bed *b) { old_jobs(b, b->slots - 1); }

/* The same after a cut that left a young version in one slot of eight. */
static void full_cut(struct bed *b)
{
    uint32_t young_ones = b->slots / 8;
    old_jobs(b, b->slots - young_ones - 1);
    begin(b);
    for (uint32_t key = 1; key <= young_ones; key++)
        accepted(board_set(BED(b), 0, key, other_value, VALUE_WORDS));
    for (size_t position = FIRST_WORD; position < b->image; position++)
        accepted(board_write_back(BED(b), position));
}

/* As after full, with an operation open: no job has room for a new version. */
static void full_open(struct bed *b)
{
    full(b);
    begin(b);
}

/* ---- What is measured. A reply is a number that both sides must agree in ---- */

static uint64_t do_new(const struct calls *c, struct bed *b)
{
    return c->new(BED(b), b->thread, b->slots + b->key, value, VALUE_WORDS);
}

static uint64_t do_set(const struct calls *c, struct bed *b)
{
    return c->set(BED(b), b->thread, b->key, other_value, VALUE_WORDS);
}

static uint64_t do_set_same(const struct calls *c, struct bed *b)
{
    return c->set(BED(b), b->thread, b->key, value, VALUE_WORDS);
}

static uint64_t do_delete(const struct calls *c, struct bed *b) { return c->delete(BED(b), b->thread, b->key); }
static uint64_t do_read(const struct calls *c, struct bed *b) { return c->read(BED(b), 1, b->key); }
static uint64_t do_read_odd(const struct calls *c, struct bed *b) { return c->read(BED(b), 1, 2 * b->key - 1); }
static uint64_t do_read_absent(const struct calls *c, struct bed *b) { return c->read(BED(b), 1, b->slots + b->key); }

/* The changes of a round, by a call each; the answer is that of a batch. */
static uint64_t do_calls(const struct calls *c, struct bed *b)
{
    for (uint32_t i = 0; i < round_changes; i++) {
        const uint32_t *change = round_list[i];
        uint32_t refusal = change[0] == BOARD_NEW   ? c->new(BED(b), 0, change[1], change + 2, VALUE_WORDS)
                           : change[0] == BOARD_SET ? c->set(BED(b), 0, change[1], change + 2, VALUE_WORDS)
                                                    : c->delete(BED(b), 0, change[1]);
        if (refusal != 0)
            return BOARD_REFUSED * refusal + i;
    }
    return round_changes;
}

static uint64_t do_batch(const struct calls *c, struct bed *b)
{
    return c->batch(BED(b), b->thread, *round_list, round_changes * (1 + WORDS));
}

static uint64_t do_append(const struct calls *c, struct bed *b)
{
    return c->append(BED(b), b->thread, value, VALUE_WORDS);
}

static uint64_t do_take(const struct calls *c, struct bed *b) { return c->take(BED(b), b->thread); }
static uint64_t do_look(const struct calls *c, struct bed *b) { return c->look(BED(b), 1); }

static uint64_t do_advance(const struct calls *c, struct bed *b)
{
    uint64_t lines = 1;
    while (c->advance(BED(b)) == BOARD_STORED)
        lines++;
    return lines;
}

static uint64_t do_step(const struct calls *c, struct bed *b) { return c->advance(BED(b)); }
static uint64_t do_sync(const struct calls *c, struct bed *b) { return c->sync(BED(b)); }

static uint64_t do_durable(const struct calls *c, struct bed *b)
{
    uint64_t refused = c->begin(BED(b), 0);
    refused += c->set(BED(b), 0, b->key, other_value, VALUE_WORDS);
    refused += c->end(BED(b), 0);
    return refused * 1000000 + c->sync(BED(b));
}

static uint64_t do_recover(const struct calls *c, struct bed *b)
{
    uint64_t calls = 1, answer;
    while ((answer = c->recover(BED(b))) == BOARD_WENT_ON)
        calls++;
    return answer == BOARD_DONE ? calls : answer;
}

static uint64_t do_survivors(const struct calls *c, struct bed *b)
{
    return c->survivors((const uint8_t *)b->persistent, b->image * sizeof *b->persistent);
}

static const struct measure {
    const char *name;
    void (*prepare)(struct bed *);
    uint64_t (*run)(const struct calls *, struct bed *);
    bool per_reply;  /* the cost is for each line or call that the reply counts */
    uint64_t wanted; /* the reply, where it is the same at every size */
    uint32_t words;  /* W, where it is not WORDS */
} measures[] = {
    {"new", half_full_open, do_new, false, 0, 0},
    {"set in place", young, do_set, false, 0, 0},
    {"set by a new version", half_full_open, do_set, false, 0, 0},
    {"set to the same value, no room", full_open, do_set_same, false, 0, 0},
    {"set to another value, no room", full_open, do_set, false, BOARD_FULL, 0},
    {"delete", half_full_open, do_delete, false, 0, 0},
    {"40 new, a call each, per change", round_of_new, do_calls, true, UINT64_MAX, 0},
    {"40 new, one batch, per change", round_of_new, do_batch, true, UINT64_MAX, 0},
    {"40 changes, a call each, per change", round_of_all, do_calls, true, UINT64_MAX, 0},
    {"40 changes, one batch, per change", round_of_all, do_batch, true, UINT64_MAX, 0},
    {"read, present", half_full, do_read, false, UINT64_MAX, 0},
    {"read, absent", half_full, do_read_absent, false, BOARD_REFUSED + BOARD_NO_JOB, 0},
    {"read, board full", full, do_read_odd, false, UINT64_MAX, 0},
    {"append", half_queue_open, do_append, false, UINT64_MAX, 0},
    {"take", half_queue_open, do_take, false, 0, 0},
    {"look", half_queue, do_look, false, UINT64_MAX, 0},
    {"advance, per line", at_work, do_advance, true, UINT64_MAX, 0},
    {"advance that stores contents, W 2", contents_next, do_step, false, BOARD_STORED, 2},
    {"advance that stores contents, W 4", contents_next, do_step, false, BOARD_STORED, 4},
    {"advance that stores contents, W 9", contents_next, do_step, false, BOARD_STORED, 9},
    {"advance that stores a header", header_next, do_step, false, BOARD_STORED, 0},
    {"sync, per line", at_work, do_sync, true, UINT64_MAX, 0},
    {"durable change", settled, do_durable, false, UINT64_MAX, 0},
    {"recovery, nothing to free", full, do_recover, false, 1, 0},
    {"recovery, 1 slot in 8 to free", full_cut, do_recover, false, UINT64_MAX, 0},
    {"board_survivors", full, do_survivors, false, UINT64_MAX, 0},
};
enum { MEASURES = sizeof measures / sizeof *measures };
static const uint32_t sizes[] = {16, 128, 1024};
enum { SIZES = sizeof sizes / sizeof *sizes };

/* A job that is there, other ones for other copies. */
static uint32_t key_of_copy(uint32_t slots, int copy) { return 1 + (uint32_t)copy * (slots / 16 + 1) % (slots / 2); }

/* One side's calls on all copies, and how long they took. */
static double run_side(const struct measure *m, int side, struct bed *beds, int copies, uint64_t *replies)
{
    double start = seconds();
    for (int i = 0; i < copies; i++)
        replies[i] = m->run(&sides[side], &beds[i]);
    return seconds() - start;
}

static void compare(const struct measure *m, const struct bed *library, const struct bed *c, uint64_t reply,
                    uint64_t c_reply)
{
    bool expected = m->wanted == UINT64_MAX ? reply < BOARD_REFUSED : reply == m->wanted;
    if (reply == c_reply && expected && same_bed(library, c))
        return;
    fprintf(stderr, "bench: %s at %" PRIu32 " slots: the library replies %" PRIu64 ", C %" PRIu64 "%s%s\n", m->name,
            library->slots, reply, c_reply, expected ? "" : ", which is not what is measured",
            same_bed(library, c) ? "" : "; they leave different words");
    exit(1);
}

static double per_unit(const struct measure *m, double cost, const uint64_t *replies, int copies)
{
    uint64_t units = 0;
    for (int i = 0; i < copies; i++)
        units += m->per_reply ? replies[i] : 1;
    return cost / (double)units;
}

/* Rounds of both sides in turn on fresh copies: the medians of each side's cost and of their ratio. */
static uint64_t measure(const struct measure *m, uint32_t slots, bool timed)
{
    static double cost[2][MOST_ROUNDS], ratio[MOST_ROUNDS];
    uint32_t words = m->words == 0 ? WORDS : m->words;
    struct bed base = new_bed_of(slots, words), beds[2][MOST_COPIES];
    uint64_t replies[2][MOST_COPIES];
    int copies = slots <= 16 ? 64 : slots <= 128 ? 16 : 4, rounds = 0;
    if (slots == 1024 && m->prepare == full_cut)
        copies = 1;
    m->prepare(&base);
    for (int side = 0; side < 2; side++)
        for (int i = 0; i < copies; i++) {
            beds[side][i] = new_bed_of(slots, words);
            beds[side][i].key = key_of_copy(slots, i);
        }
    double start = seconds(), limit = timed ? 1.0 : 0;
    int least = timed ? 15 : 2;
    while (rounds < least || (seconds() - start < limit && rounds < MOST_ROUNDS)) {
        double took[2];
        for (int turn = 0; turn < 2; turn++) {
            int side = (rounds + turn) % 2;
            for (int i = 0; i < copies; i++)
                copy_bed(&beds[side][i], &base);
            took[side] = run_side(m, side, beds[side], copies, replies[side]);
        }
        for (int i = 0; i < copies; i++)
            compare(m, &beds[0][i], &beds[1][i], replies[0][i], replies[1][i]);
        for (int side = 0; side < 2; side++)
            cost[side][rounds] = per_unit(m, took[side], replies[side], copies);
        ratio[rounds] = took[0] / took[1];
        rounds++;
    }
    if (timed)
        printf("time\t%s\t%" PRIu32 "\t%.1f\t%.1f\t%.3f\t%d\n", m->name, slots, 1e9 * median(cost[0], rounds),
               1e9 * median(cost[1], rounds), median(ratio, rounds), rounds);
    for (int side = 0; side < 2; side++)
        for (int i = 0; i < copies; i++)
            free(beds[side][i].working);
    free(base.working);
    return (uint64_t)rounds * (uint64_t)copies;
}

/* ---- Recovery of random images, some of them damaged: what the measured stores never show ---- */

static uint32_t below(uint32_t limit)
{
    static uint64_t state = 20261116;
    state = state * UINT64_C(6364136223846793005) + UINT64_C(1442695040888963407);
    return (uint32_t)((state >> 32) * limit >> 32);
}

/* Mostly one of few small numbers, now and then 0 or a number about the largest. */
static uint32_t number(uint32_t small)
{
    uint32_t choice = below(200);
    return choice == 0 ? 0 : choice == 1 ? UINT32_C(3999999999) + below(3) : 1 + below(small);
}

static void random_image(struct bed *b)
{
    uint32_t clock = 2 + below(8), *header = b->persistent + FIRST_WORD, *contents = header + 4 * b->slots;
    memset(b->working, 0x55, (2 * b->image + b->notes) * sizeof *b->working);
    memcpy(b->persistent, (uint32_t[]){b->slots, WORDS, clock}, FIRST_WORD * sizeof clock);
    for (uint32_t s = 0; s < b->slots; s++, header += 4, contents += WORDS) {
        bool empty = below(3) == 0;
        header[0] = empty ? 0 : below(200) == 0 ? 4 * below(2) : 1 + below(3);
        header[1] = empty ? 0 : below(200) == 0 ? (clock + 1) * below(2) : 2 + below(clock - 1);
        header[2] = empty ? 0 : number(3 * b->slots);
        header[3] = empty ? 0 : below(200) == 0 ? 3 * below(2) : 1 + below(2);
        contents[0] = number(3 * b->slots);
    }
}

/* Both sides count the survivors and recover to the end: the answer. */
static uint64_t compare_image(struct bed beds[2])
{
    static const struct measure recovery = {"recovery of a random image", NULL, do_recover, false, UINT64_MAX, 0};
    uint64_t replies[2];
    random_image(&beds[0]);
    copy_bed(&beds[1], &beds[0]);
    if (do_survivors(&sides[0], &beds[0]) != do_survivors(&sides[1], &beds[1]))
        fail("the library and C count other survivors in a random image");
    for (int side = 0; side < 2; side++)
        replies[side] = do_recover(&sides[side], &beds[side]);
    if (replies[0] != replies[1] || !same_bed(&beds[0], &beds[1]))
        compare(&recovery, &beds[0], &beds[1], replies[0], replies[1]);
    return replies[0];
}

static void compare_images(void)
{
    int accepted = 0, bad = 0, duplicate = 0;
    for (uint32_t slots = 2; slots <= 40; slots++) {
        struct bed beds[2] = {new_bed(slots), new_bed(slots)};
        for (int i = 0; i < 500; i++) {
            uint64_t answer = compare_image(beds);
            accepted += answer < BOARD_REFUSED;
            bad += answer == BOARD_REFUSED + BOARD_BAD_SLOT;
            duplicate += answer == BOARD_REFUSED + BOARD_DUPLICATE;
        }
        free(beds[0].working);
        free(beds[1].working);
    }
    if (accepted < 1000 || bad < 1000 || duplicate < 1000)
        fail("an answer came up less than 1000 times in the random images");
    printf("random images: %d accepted, %d with a bad slot, %d with a duplicate\n", accepted, bad, duplicate);
}

/* ---- Random runs on small boards, with damage to the index in every other: what measured stores never show ---- */

static uint64_t do_begin(const struct calls *c, struct bed *b) { return c->begin(BED(b), b->thread); }
static uint64_t do_end(const struct calls *c, struct bed *b) { return c->end(BED(b), b->thread); }

static uint64_t do_make(const struct calls *c, struct bed *b)
{
    return c->new(BED(b), b->thread, b->key, value, VALUE_WORDS);
}

/* Some call, or a recovery, by both sides with the same arguments. */
static void compare_call(struct bed beds[2])
{
    static uint64_t (*const some[])(const struct calls *, struct bed *) = {
        do_begin, do_begin, do_end, do_end, do_make, do_make, do_set, do_set_same, do_delete, do_delete, do_read, do_append,
        do_take, do_look, do_step, do_step, do_step, do_step, do_batch, do_sync};
    struct measure call = {"a call of a random run", NULL, some[below(sizeof some / sizeof *some)], false, UINT64_MAX, 0};
    uint32_t keys = beds[0].slots, key = 1 + below(keys), thread = below(3);
    uint64_t replies[2];
    if (below(100) == 0)
        call.run = do_recover;
    round_changes = below(7);
    for (uint32_t i = 0; i < round_changes; i++)
        memcpy(round_list[i], (uint32_t[]){BOARD_NEW + below(3), 1 + below(keys)}, 2 * sizeof key);
    for (int side = 0; side < 2; side++) {
        beds[side].key = key;
        beds[side].thread = thread;
        replies[side] = call.run(&sides[side], &beds[side]);
    }
    if (replies[0] != replies[1] || !same_bed(&beds[0], &beds[1]))
        compare(&call, &beds[0], &beds[1], replies[0], replies[1]);
}

static void compare_runs(void)
{
    int calls = 0, damaged = 0;
    for (uint32_t slots = 2; slots <= 40; slots++)
        for (int damage = 0; damage < 2; damage++) {
            struct bed beds[2] = {new_bed(slots), new_bed(slots)};
            format_bed(&beds[0]);
            copy_bed(&beds[1], &beds[0]);
            for (int i = 0; i < 2000; i++, calls++) {
                if (damage && below(10) == 0) {
                    size_t at = beds[0].notes - 1 - below(2 * slots); /* the index stands last */
                    beds[0].transient[at] = beds[1].transient[at] = below(slots + 3);
                    damaged++;
                }
                compare_call(beds);
            }
            free(beds[0].working);
            free(beds[1].working);
        }
    printf("random runs: %d calls, the index damaged before %d of them\n", calls, damaged);
}

/* Each side on sixteen copies, its instructions dumped under a name of their own. */
static void count(const struct measure *m, uint32_t slots)
{
    char name[128];
    uint32_t words = m->words == 0 ? WORDS : m->words;
    struct bed base = new_bed_of(slots, words), bed = new_bed_of(slots, words);
    int copies = slots == 1024 && m->prepare == full_cut ? 1 : 16;
    m->prepare(&base);
    for (int side = 0; side < 2; side++) {
        const struct calls *c = &sides[side];
        uint64_t units = 0;
        for (int i = 0; i < copies; i++) {
            copy_bed(&bed, &base);
            bed.key = key_of_copy(slots, i);
            CALLGRIND_TOGGLE_COLLECT;
            uint64_t reply = m->run(c, &bed);
            CALLGRIND_TOGGLE_COLLECT;
            units += m->per_reply ? reply : 1;
        }
        snprintf(name, sizeof name, "%s|%" PRIu32 "|%s|%" PRIu64, m->name, slots, side_names[side], units);
        CALLGRIND_DUMP_STATS_AT(name);
    }
    free(base.working);
    free(bed.working);
}

int main(int arguments, char **argument)
{
    const char *mode = arguments == 2 ? argument[1] : "";
    bool quick = strcmp(mode, "--quick") == 0, times = strcmp(mode, "--times") == 0;
    if (!quick && !times && strcmp(mode, "--counts") != 0) {
        fprintf(stderr, "usage: bench --quick | --times | --counts\n");
        return 2;
    }
    uint64_t compared = 0;
    for (int i = 0; i < MEASURES; i++)
        for (int size = 0; size < SIZES; size++) {
            if (!quick)
                fprintf(stderr, "  %d of %d: %s, %" PRIu32 " slots\n", i * SIZES + size + 1, MEASURES * SIZES,
                        measures[i].name, sizes[size]);
            if (quick || times)
                compared += measure(&measures[i], sizes[size], times);
            else
                count(&measures[i], sizes[size]);
            fflush(stdout);
        }
    if (quick) {
        compare_images();
        compare_runs();
        printf("%d calls at %d sizes, %" PRIu64 " comparisons, library and C agree\n", MEASURES, SIZES, compared);
    }
    return 0;
}
