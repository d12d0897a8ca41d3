/* An index that damage has filled with any words: each call returns, touches nothing beside what is lent, gives refusals 1
   to 8 as ever, and no call on jobs stores into persistent. Recovery makes it anew, whatever it held.
   Usage: index SEED ROUNDS */

#define _GNU_SOURCE

#include "store.h"

#include <unistd.h>

enum { SLOTS = 16, WORDS = 3, THREADS = 2, VALUE_WORDS = WORDS - 1, JOBS = 8, INDEX = 70 + THREADS + SLOTS };
enum { PREFIX = 3, CONTENTS = PREFIX + 4 * SLOTS, SECONDS = 120 };

static const uint32_t value[VALUE_WORDS] = {31, 32}, other[VALUE_WORDS] = {41, 42};
static uint64_t state;

/* splitmix64 */
static uint32_t any_word(void)
{
    uint64_t word = state += UINT64_C(0x9E3779B97F4A7C15);
    word = (word ^ word >> 30) * UINT64_C(0xBF58476D1CE4E5B9);
    word = (word ^ word >> 27) * UINT64_C(0x94D049BB133111EB);
    return (uint32_t)(word >> 32);
}

/* Links to any slot, to the first one and past the last one, and words that are none. */
static void damage(uint32_t *transient)
{
    const uint32_t sort = any_word() % 4, one = any_word() % (SLOTS + 2);
    for (uint32_t i = 0; i < 2 * SLOTS; i++) {
        const uint32_t words[] = {any_word() % (SLOTS + 2), one, any_word(), i % SLOTS + any_word() % 3};
        transient[INDEX + i] = words[sort];
    }
}

/* Jobs 1 to 8 of epoch 2, kept in both images; 1 and 2 changed in epoch 4, a job and an entry of epoch 4, and an open
   operation of thread 0. */
static struct store used(void)
{
    struct store s = new_store(SLOTS, WORDS, THREADS);
    same("begin", board_begin(STORE(&s), 0), 0);
    for (uint32_t key = 1; key <= JOBS; key++)
        same("new", board_new(STORE(&s), 0, key, value, VALUE_WORDS), 0);
    same("end", board_end(STORE(&s), 0), 0);
    same("sync", board_sync(STORE(&s)), 2 + 2 * JOBS);
    same("begin", board_begin(STORE(&s), 0), 0);
    same("set", board_set(STORE(&s), 0, 1, other, VALUE_WORDS), 0);
    same("delete", board_delete(STORE(&s), 0, 2), 0);
    same("new", board_new(STORE(&s), 0, JOBS + 1, value, VALUE_WORDS), 0);
    same("append", board_append(STORE(&s), 0, value, VALUE_WORDS), 1);
    return s;
}

static void copy_store(struct store *to, const struct store *from)
{
    memcpy(to->working, from->working, from->image * sizeof *to->working);
    memcpy(to->persistent, from->persistent, from->image * sizeof *to->persistent);
    memcpy(to->transient, from->transient, from->notes * sizeof *to->transient);
}

static void nothing_lasting(const struct store *s, const struct store *start, const char *what)
{
    same(what, memcmp(s->persistent, start->persistent, s->image * sizeof *s->persistent) == 0, 1);
}

/* Whether it is 0 or one of the refusals from 9 on, which an index may change. */
static uint64_t not_1_to_8(uint32_t refusal) { return refusal == 0 || refusal > BOARD_BAD_ARGUMENT; }

/* Refused before anything is looked up. */
static void refused(struct store *s)
{
    const uint32_t list[] = {BOARD_NEW, 0, 31, 32};
    same("new of no thread", board_new(STORE(s), THREADS, 1, value, VALUE_WORDS), BOARD_NO_THREAD);
    same("set of no operation", board_set(STORE(s), 1, 1, value, VALUE_WORDS), BOARD_NOT_OPEN);
    same("delete of key 0", board_delete(STORE(s), 0, 0), BOARD_BAD_ARGUMENT);
    same("read of key 0", board_read_refusal(STORE(s), 1, 0), BOARD_BAD_ARGUMENT);
    same("a list of key 0", board_batch(STORE(s), 0, list, 1 + WORDS), BOARD_REFUSED * BOARD_BAD_ARGUMENT);
}

/* All that look something up, on each key. */
static void looked_up(struct store *s, const struct store *start)
{
    for (uint32_t key = 1; key <= JOBS + 2; key++) {
        const uint32_t list[] = {BOARD_NEW, key, 31, 32, BOARD_SET, key, 41, 42, BOARD_DELETE, key, 0, 0};
        same("read", not_1_to_8(board_refusal_of(board_read(STORE(s), 0, key))), 1);
        same("read of thread 1", not_1_to_8(board_read_refusal(STORE(s), 1, key)), 1);
        same("set", not_1_to_8(board_set(STORE(s), 0, key, other, VALUE_WORDS)), 1);
        same("delete", not_1_to_8(board_delete(STORE(s), 0, key)), 1);
        same("new", not_1_to_8(board_new(STORE(s), 0, key, value, VALUE_WORDS)), 1);
        same("batch", not_1_to_8(BOARD_BATCH_REFUSAL(board_batch(STORE(s), 0, list, 3 * (1 + WORDS)))), 1);
    }
    nothing_lasting(s, start, "calls on jobs store nothing");
}

/* These walk the table, and change the index alone. */
static void walked(struct store *s, const struct store *start)
{
    const uint64_t front = CONTENTS + WORDS * (JOBS + 3) + 1;
    copy_store(s, start);
    damage(s->transient);
    same("look", board_look(STORE(s), 0), front);
    same("append", board_append(STORE(s), 0, value, VALUE_WORDS), 2);
    same("take", board_take(STORE(s), 0), 0);
    same("the new front", board_look(STORE(s), 0), front + WORDS);
    nothing_lasting(s, start, "calls on the queue store nothing");
    same("end", board_end(STORE(s), 0), 0);
    for (int ticks = 0; ticks < 5;) {
        uint64_t reply = board_advance(STORE(s));
        same("advance", reply <= BOARD_TICKED, 1);
        ticks += reply == BOARD_TICKED;
    }
    same("the clock", s->persistent[2], 9);
}

/* A cut at the start, with any words in the index, finds jobs 1 to 8 as they were. */
static void recovered(struct store *s, const struct store *start)
{
    copy_store(s, start);
    damage(s->transient);
    while (board_recover(STORE(s)) == BOARD_WENT_ON)
        calls++;
    for (uint32_t key = 1; key <= JOBS; key++)
        same("read after recovery", board_read(STORE(s), 0, key), CONTENTS + WORDS * (key - 1) + 1);
    same("an absent key", board_read_refusal(STORE(s), 0, JOBS + 1), BOARD_NO_JOB);
}

int main(int argc, char **argv)
{
    if (argc != 3)
        return fprintf(stderr, "usage: index SEED ROUNDS\n"), 2;
    const unsigned long rounds = strtoul(argv[2], NULL, 10);
    struct store start = used(), s = new_store(SLOTS, WORDS, THREADS);
    state = strtoul(argv[1], NULL, 10);
    alarm(SECONDS); /* ends the program where a call does not return */
    for (unsigned long round = 0; round < rounds; round++) {
        copy_store(&s, &start);
        damage(s.transient);
        refused(&s);
        looked_up(&s, &start);
        walked(&s, &start);
        recovered(&s, &start);
    }
    free_store(&start);
    free_store(&s);
    printf("%lu damaged indexes, %zu answers, %zu wrong, seed %s\n", rounds, calls, failed, argv[1]);
    return failed > 0;
}
