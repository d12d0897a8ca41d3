/* A full board through the header: every slot holds a job, and there is no room for a new version of any. To set a job to
   the value it has is accepted and changes nothing, so that a server may go on with what it does every day.
   Usage: full */

#include "board.h"
#include "checks.h"
#include "store.h"

enum { PREFIX = 3, HEADER_WORDS = 4, ALLOC = 1, JOBS = 1, EPOCH = 3, CLOCK = 9, MOST_VALUE = 8 };

static uint32_t word_of(uint32_t key, uint32_t word)
{
    return 100 * key + word;
}

static const uint32_t *value_of(const struct store *s, uint32_t key)
{
    static uint32_t value[MOST_VALUE];
    for (uint32_t i = 0; i + 1 < s->words; i++)
        value[i] = word_of(key, i);
    return value;
}

/* Job number `key` in the slot before that number, as an earlier day left it. */
static void put_job(const struct store *s, uint32_t key)
{
    const uint32_t header[HEADER_WORDS] = {ALLOC, EPOCH, key, JOBS};
    uint32_t *contents = s->persistent + PREFIX + HEADER_WORDS * s->slots + (size_t)s->words * (key - 1);
    memcpy(s->persistent + PREFIX + HEADER_WORDS * (key - 1), header, sizeof header);
    contents[0] = key;
    memcpy(contents + 1, value_of(s, key), (s->words - 1) * sizeof *contents);
}

/* Recovered with so many survivors, in the slots from 0 on; an operation of thread 0 is open. */
static struct store recovered(uint32_t slots, uint32_t words, uint32_t jobs)
{
    struct store s = new_store(slots, words, 2);
    s.persistent[2] = CLOCK;
    for (uint32_t key = 1; key <= jobs; key++)
        put_job(&s, key);
    power_cut(&s);
    same("recover", board_recover(STORE(&s)), BOARD_DONE);
    same("the survivors", board_survivors((const uint8_t *)s.persistent, s.image * sizeof *s.persistent), jobs);
    same("begin", board_begin(STORE(&s), 0), 0);
    return s;
}

/* ---- The store as it was ---- */

static uint32_t *copy_of(const struct store *s)
{
    uint32_t *all = block(2 * s->image + s->notes);
    memcpy(all, s->working, s->image * sizeof *all);
    memcpy(all + s->image, s->persistent, s->image * sizeof *all);
    memcpy(all + 2 * s->image, s->transient, s->notes * sizeof *all);
    return all;
}

/* The words of both images and of the notes that differ from the copy, which is freed. */
static size_t differing_from(uint32_t *copy, const struct store *s)
{
    uint32_t *now = copy_of(s);
    size_t count = 0;
    for (size_t i = 0; i < 2 * s->image + s->notes; i++)
        count += now[i] != copy[i];
    free(now);
    free(copy);
    return count;
}

static uint32_t set(const struct store *s, uint32_t key, const uint32_t *value)
{
    return board_set(STORE(s), 0, key, value, s->words - 1);
}

/* ---- What a full board takes ---- */

/* No other value, not even one that differs in a single bit of one word. */
static void other_values(const struct store *s, uint32_t key)
{
    for (uint32_t i = 0; i + 1 < s->words; i++) {
        uint32_t value[MOST_VALUE];
        memcpy(value, value_of(s, key), (s->words - 1) * sizeof *value);
        value[i] ^= 0x80000000u;
        same("set to another value", set(s, key, value), BOARD_FULL);
    }
}

static void full(uint32_t slots, uint32_t words)
{
    struct store s = recovered(slots, words, slots);
    uint32_t *before = copy_of(&s);
    same("new", board_new(STORE(&s), 0, slots + 1, value_of(&s, 1), words - 1), BOARD_FULL);
    for (uint32_t key = 1; key <= slots; key++) {
        same("set to the value it has", set(&s, key, value_of(&s, key)), 0);
        same("delete", board_delete(STORE(&s), 0, key), BOARD_FULL);
        other_values(&s, key);
    }
    same("a short value", board_set(STORE(&s), 0, 1, value_of(&s, 1), words - 2), BOARD_BAD_ARGUMENT);
    same("the value of another job", set(&s, 1, value_of(&s, 2)), BOARD_FULL);
    same("set of no job", set(&s, slots + 1, value_of(&s, 1)), BOARD_NO_JOB);
    same("words that changed", differing_from(before, &s), 0);
    free_store(&s);
}

/* In a list: it counts, and the next change is tried. */
static void in_a_list(void)
{
    enum { WORDS = 3 };
    struct store s = recovered(3, WORDS, 3);
    uint32_t *before = copy_of(&s);
    uint32_t list[3][1 + WORDS] = {{BOARD_SET, 1, 100, 101}, {BOARD_SET, 3, 300, 301}, {BOARD_SET, 2, 200, 200}};
    uint64_t answer = board_batch(STORE(&s), 0, list[0], sizeof list / sizeof list[0][0]);
    same("sets accepted", BOARD_BATCH_ACCEPTED(answer), 2);
    same("what ended the list", BOARD_BATCH_REFUSAL(answer), BOARD_FULL);
    list[2][3] = 201;
    same("a list of the values that are there", board_batch(STORE(&s), 0, list[0], sizeof list / sizeof list[0][0]), 3);
    same("words that changed", differing_from(before, &s), 0);
    free_store(&s);
}

/* One slot free is no room either; with two the same value takes one, as any does. */
static void with_slots_free(void)
{
    enum { SLOTS = 5, WORDS = 4 };
    for (uint32_t free_slots = 1; free_slots <= 2; free_slots++) {
        struct store s = recovered(SLOTS, WORDS, SLOTS - free_slots);
        uint32_t *before = copy_of(&s);
        uint64_t at = board_read(STORE(&s), 0, 1);
        same("set to the value it has", set(&s, 1, value_of(&s, 1)), 0);
        same("whether words changed", differing_from(before, &s) > 0, free_slots == 2);
        same("whether it stands elsewhere", board_read(STORE(&s), 0, 1) != at, free_slots == 2);
        same("delete of another job", board_delete(STORE(&s), 0, 2), 0);
        free_store(&s);
    }
}

/* After a cut the value is there, whether the operation was written back or not. */
static void after_a_cut(void)
{
    enum { SLOTS = 4, WORDS = 2 };
    for (int synced = 0; synced < 2; synced++) {
        struct store s = recovered(SLOTS, WORDS, SLOTS);
        same("set to the value it has", set(&s, 2, value_of(&s, 2)), 0);
        same("end", board_end(STORE(&s), 0), 0);
        if (synced)
            same("a sync with nothing to store but the clock", board_sync(STORE(&s)), 2);
        power_cut(&s);
        same("recover", board_recover(STORE(&s)), BOARD_DONE);
        for (uint32_t key = 1; key <= SLOTS; key++) {
            uint64_t at = board_read(STORE(&s), 0, key);
            same("the value after a cut", at < s.image ? s.working[at] : 0, word_of(key, 0));
        }
        free_store(&s);
    }
}

int main(void)
{
    for (uint32_t words = 2; words <= 9; words++)
        for (uint32_t slots = 2; slots <= 4; slots++)
            full(slots, words);
    full(1024, 9);
    in_a_list();
    with_slots_free();
    after_a_cut();
    printf("%zu answers, %zu wrong\n", calls, failed);
    return failed > 0;
}
