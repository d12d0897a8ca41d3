/* One call for a whole round, through the header: a list equals its changes made one by one, each refusal of a list and of
   a change, what stands after one, and what a power cut leaves. Every list is lent in a block of just its length.
   Usage: batch */

#include "store.h"

enum { SLOTS = 96, WORDS = 4, THREADS = 2, VALUE_WORDS = WORDS - 1, CHANGE_WORDS = WORDS + 1 };
enum { OLDER = 10, STOPS = 40, NEXT_UID = 2 }; /* jobs of an older epoch, keys 1 to 10; a round; a place in the notes */
#define LAST_NUMBER UINT32_C(4000000000)

struct change {
    uint32_t kind, key, value[VALUE_WORDS];
};

_Static_assert(sizeof(struct change) == CHANGE_WORDS * sizeof(uint32_t), "a change is W + 1 words");
_Static_assert(BOARD_NEW == 1 && BOARD_SET == 2 && BOARD_DELETE == 3 && BOARD_MOST_CHANGES == 64, "the header's numbers");
_Static_assert(BOARD_BATCH_ACCEPTED(13 * BOARD_REFUSED + 64) == 64 && BOARD_BATCH_REFUSAL(13 * BOARD_REFUSED + 64) == 13,
               "the header's two halves");

/* The answer of so many accepted changes and this refusal. */
static uint64_t answer_of(uint32_t accepted, uint32_t refusal)
{
    return ((uint64_t)refusal << 32) + accepted;
}

/* A change of a job, its value made of both numbers. */
static struct change change(uint32_t kind, uint32_t key)
{
    return (struct change){kind, key, {key, 10 * kind, 0}};
}

/* The list in memory of its own, which the call has to leave as it is. */
static uint64_t batch(const struct store *s, uint32_t thread, const void *list, size_t words)
{
    uint32_t *lent = block(words);
    memcpy(lent, list, words * sizeof *lent);
    uint64_t answer = board_batch(STORE(s), thread, lent, words);
    same("the list after the call", memcmp(lent, list, words * sizeof *lent) == 0, 1);
    free(lent);
    return answer;
}

/* The same by calls of their own, up to the first that declines. */
static uint64_t one_by_one(const struct store *s, uint32_t thread, const struct change *list, uint32_t count)
{
    for (uint32_t i = 0; i < count; i++) {
        const struct change *c = list + i;
        uint32_t refusal = BOARD_BAD_ARGUMENT;
        if (c->kind == BOARD_NEW)
            refusal = board_new(STORE(s), thread, c->key, c->value, VALUE_WORDS);
        if (c->kind == BOARD_SET)
            refusal = board_set(STORE(s), thread, c->key, c->value, VALUE_WORDS);
        if (c->kind == BOARD_DELETE)
            refusal = board_delete(STORE(s), thread, c->key);
        if (refusal != 0)
            return answer_of(i, refusal);
    }
    return answer_of(count, 0);
}

static void copy_store(struct store *to, const struct store *from)
{
    memcpy(to->working, from->working, from->image * sizeof *to->working);
    memcpy(to->persistent, from->persistent, from->image * sizeof *to->persistent);
    memcpy(to->transient, from->transient, from->notes * sizeof *to->transient);
}

static void alike(const char *what, const struct store *a, const struct store *b)
{
    same(what, memcmp(a->working, b->working, a->image * sizeof *a->working) == 0, 1);
    same(what, memcmp(a->persistent, b->persistent, a->image * sizeof *a->persistent) == 0, 1);
    same(what, memcmp(a->transient, b->transient, a->notes * sizeof *a->transient) == 0, 1);
}

/* The list of thread 0 comes to this, and so do its changes one by one on another store. Both are left as they were. */
static void comes_to(const char *what, struct store *s, const struct change *list, uint32_t count, uint64_t wanted)
{
    struct store before = new_store(s->slots, WORDS, THREADS), other = new_store(s->slots, WORDS, THREADS);
    copy_store(&before, s);
    copy_store(&other, s);
    same(what, batch(s, 0, list, count * CHANGE_WORDS), wanted);
    same("its changes one by one", one_by_one(&other, 0, list, count), wanted);
    alike(what, s, &other);
    if (BOARD_BATCH_ACCEPTED(wanted) == 0)
        alike("a list with none accepted changes nothing", s, &before);
    copy_store(s, &before);
    free_store(&before);
    free_store(&other);
}

/* The whole list is refused, and nothing is changed. */
static void declines(const char *what, const struct store *s, uint32_t thread, const void *list, size_t words,
                     uint32_t refusal)
{
    struct store before = blocks(s->slots, WORDS, THREADS, s->image);
    copy_store(&before, s);
    same(what, batch(s, thread, list, words), answer_of(0, refusal));
    alike("a refused list changes nothing", s, &before);
    free_store(&before);
}

static void tick(const struct store *s)
{
    uint64_t answer;
    do
        answer = board_advance(STORE(s));
    while (answer == BOARD_STORED);
    same("the end of an advance", answer, BOARD_TICKED);
}

/* Jobs 1 to 10 of epoch 2, and an operation of thread 0 open in epoch 3. */
static struct store with_older_jobs(uint32_t slots)
{
    struct store s = new_store(slots, WORDS, THREADS);
    struct change list[OLDER];
    for (uint32_t i = 0; i < OLDER; i++)
        list[i] = change(BOARD_NEW, 1 + i);
    same("begin in epoch 2", board_begin(STORE(&s), 0), 0);
    same("the first jobs", batch(&s, 0, list, OLDER * CHANGE_WORDS), OLDER);
    same("end", board_end(STORE(&s), 0), 0);
    tick(&s);
    same("begin in epoch 3", board_begin(STORE(&s), 0), 0);
    return s;
}

/* A job has the value that this kind of change gave it, or is not there where the kind is a delete. */
static void job_is(const struct store *s, uint32_t key, uint32_t kind)
{
    const struct change wanted = change(kind, key);
    uint64_t at = board_read(STORE(s), 0, key);
    if (kind == BOARD_DELETE)
        same("a job deleted", at, BOARD_REFUSED + BOARD_NO_JOB);
    else if (at + VALUE_WORDS <= s->image)
        same("a job's value", memcmp(s->working + at, wanted.value, sizeof wanted.value) == 0, 1);
    else
        same("where a job's value stands", at, 0);
}

static void cut_and_recovered(struct store *s)
{
    uint64_t answer = BOARD_WENT_ON;
    power_cut(s);
    for (uint32_t i = 0; i <= s->slots && answer == BOARD_WENT_ON; i++)
        answer = board_recover(STORE(s));
    same("recovery", answer, BOARD_DONE);
}

/* Forty stops: five jobs set, five deleted, thirty made. One call does what forty do; sync makes it lasting. */
static void a_round(void)
{
    struct store s = with_older_jobs(SLOTS), other = with_older_jobs(SLOTS);
    struct change list[STOPS];
    for (uint32_t i = 0; i < STOPS; i++)
        list[i] = change(i < 5 ? BOARD_SET : i < OLDER ? BOARD_DELETE : BOARD_NEW, 1 + i);
    same("a round in one call", batch(&s, 0, list, STOPS * CHANGE_WORDS), STOPS);
    same("a round in forty", one_by_one(&other, 0, list, STOPS), STOPS);
    alike("the round in one call and in forty", &s, &other);
    same("end", board_end(STORE(&s), 0), 0);

    tick(&s);
    memcpy(other.persistent, s.persistent, s.image * sizeof *s.persistent);
    cut_and_recovered(&other);
    for (uint32_t key = 1; key <= OLDER; key++)
        job_is(&other, key, BOARD_NEW);
    job_is(&other, STOPS, BOARD_DELETE);

    same("a sync is accepted", board_sync(STORE(&s)) < BOARD_REFUSED, 1);
    cut_and_recovered(&s);
    for (uint32_t i = 0; i < STOPS; i++)
        job_is(&s, list[i].key, list[i].kind);
    same("the survivors", board_survivors((const uint8_t *)s.persistent, 4 * s.image), STOPS - 5);
    free_store(&s);
    free_store(&other);
}

/* What is judged before the list, the empty one too, and before any 8. */
static void judged_first(void)
{
    struct store s = with_older_jobs(SLOTS);
    struct change list[BOARD_MOST_CHANGES + 1];
    const size_t lengths[] = {0, 1, CHANGE_WORDS, CHANGE_WORDS + 1, (BOARD_MOST_CHANGES + 1) * CHANGE_WORDS};
    for (uint32_t i = 0; i <= BOARD_MOST_CHANGES; i++)
        list[i] = change(BOARD_NEW, 11 + i);
    for (size_t i = 0; i < sizeof lengths / sizeof *lengths; i++) {
        declines("a list of no thread", &s, THREADS, list, lengths[i], BOARD_NO_THREAD);
        declines("a list without an operation", &s, 1, list, lengths[i], BOARD_NOT_OPEN);
        s.working[2]++;
        declines("a list where the clocks differ", &s, 0, list, lengths[i], BOARD_CLOCK);
        s.working[2]--;
        s.transient[NEXT_UID] = 0;
        declines("a list where the notes are out of range", &s, 0, list, lengths[i], BOARD_SIZES);
        s.transient[NEXT_UID] = OLDER + 1;
    }
    comes_to("the empty list", &s, list, 0, 0);
    comes_to("one change", &s, list, 1, 1);
    free_store(&s);
}

/* 64 changes and no more, and only whole ones: none is tried where the length is wrong. */
static void lengths_of_a_list(void)
{
    struct store s = with_older_jobs(SLOTS);
    struct change list[2 * BOARD_MOST_CHANGES];
    for (uint32_t i = 0; i < 2 * BOARD_MOST_CHANGES; i++)
        list[i] = change(BOARD_NEW, 11 + i);
    comes_to("63 changes", &s, list, BOARD_MOST_CHANGES - 1, BOARD_MOST_CHANGES - 1);
    comes_to("64 changes", &s, list, BOARD_MOST_CHANGES, BOARD_MOST_CHANGES);
    for (size_t more = 1; more <= BOARD_MOST_CHANGES; more += BOARD_MOST_CHANGES - 1)
        declines("more than 64", &s, 0, list, (BOARD_MOST_CHANGES + more) * CHANGE_WORDS, BOARD_BAD_ARGUMENT);
    for (size_t part = 1; part < CHANGE_WORDS; part++) {
        declines("a part of a change", &s, 0, list, part, BOARD_BAD_ARGUMENT);
        declines("a change and a part", &s, 0, list, CHANGE_WORDS + part, BOARD_BAD_ARGUMENT);
        declines("64 changes and a part", &s, 0, list, BOARD_MOST_CHANGES * CHANGE_WORDS + part, BOARD_BAD_ARGUMENT);
    }
    free_store(&s);
}

/* A change is refused as the first of three, in the middle and as the last: those before it stand. */
static void ends_with(const char *what, struct store *s, struct change refused, uint32_t refusal)
{
    const struct change first = change(BOARD_NEW, 21), second = change(BOARD_SET, 1);
    comes_to(what, s, (struct change[]){refused, first, second}, 3, answer_of(0, refusal));
    comes_to(what, s, (struct change[]){first, refused, second}, 3, answer_of(1, refusal));
    comes_to(what, s, (struct change[]){first, second, refused}, 3, answer_of(2, refusal));
}

static void refusals_of_a_change(void)
{
    const uint32_t unknown[] = {0, 4, UINT32_C(1) << 31, UINT32_MAX}, keys[] = {0, 1, 2, 9, 99};
    struct store s = with_older_jobs(SLOTS);
    tick(&s);
    same("begin in epoch 4", board_begin(STORE(&s), 1), 0);
    same("delete 9, of which the older operation hears", board_delete(STORE(&s), 1, 9), 0);
    for (size_t i = 0; i < sizeof unknown / sizeof *unknown; i++)
        for (size_t k = 0; k < sizeof keys / sizeof *keys; k++)
            ends_with("an unknown kind", &s, change(unknown[i], keys[k]), BOARD_BAD_ARGUMENT);
    for (uint32_t kind = BOARD_NEW; kind <= BOARD_DELETE; kind++) {
        ends_with("key 0", &s, change(kind, 0), BOARD_BAD_ARGUMENT);
        ends_with("a job that a later epoch has changed", &s, change(kind, 9), BOARD_NEWER);
    }
    ends_with("a set of no job", &s, change(BOARD_SET, 99), BOARD_NO_JOB);
    ends_with("a delete of no job", &s, change(BOARD_DELETE, 99), BOARD_NO_JOB);
    ends_with("a new job that is there", &s, change(BOARD_NEW, 2), BOARD_JOB_EXISTS);

    const struct change news[] = {change(BOARD_NEW, 21), change(BOARD_NEW, 22), change(BOARD_DELETE, 1)};
    s.transient[NEXT_UID] = LAST_NUMBER;
    comes_to("the last uid", &s, news, 3, answer_of(1, BOARD_NO_UID));
    s.transient[NEXT_UID] = LAST_NUMBER + 1;
    comes_to("no uid", &s, news, 3, answer_of(0, BOARD_NO_UID));
    free_store(&s);
}

/* Of 16 slots ten are taken, and a new job needs two free ones: five can be made. A delete of an older one needs one. */
static void full(void)
{
    struct store s = with_older_jobs(16);
    struct change list[STOPS];
    for (uint32_t i = 0; i < STOPS; i++)
        list[i] = change(BOARD_NEW, 11 + i);
    comes_to("a board that a list fills", &s, list, STOPS, answer_of(5, BOARD_FULL));
    list[5] = change(BOARD_DELETE, 1);
    comes_to("a delete on a full board", &s, list, STOPS, answer_of(6, BOARD_FULL));
    free_store(&s);
}

/* Each change finds what those before it have left. A delete does not look at its value. */
static void one_after_another(void)
{
    struct store s = with_older_jobs(SLOTS);
    const struct change made[] = {change(BOARD_NEW, 21), change(BOARD_SET, 21), change(BOARD_DELETE, 21), change(BOARD_NEW, 21)};
    const struct change again[] = {change(BOARD_DELETE, 1), change(BOARD_NEW, 1), change(BOARD_SET, 1), change(BOARD_DELETE, 1)};
    const struct change twice[] = {change(BOARD_DELETE, 1), change(BOARD_DELETE, 1), change(BOARD_NEW, 21)};
    comes_to("made, set, deleted and made", &s, made, 4, 4);
    comes_to("deleted, made, set and deleted", &s, again, 4, 4);
    comes_to("deleted twice", &s, twice, 3, answer_of(1, BOARD_NO_JOB));
    comes_to("made twice", &s, (struct change[]){made[0], made[0], made[1]}, 3, answer_of(1, BOARD_JOB_EXISTS));
    comes_to("a delete with any value", &s, &(struct change){BOARD_DELETE, 1, {UINT32_MAX, 0, 7}}, 1, 1);
    free_store(&s);
}

/* A list that is ended in the middle: a power cut keeps what was accepted, with its operation. */
static void accepted_changes_stand(void)
{
    struct store s = with_older_jobs(SLOTS);
    const struct change list[] = {change(BOARD_SET, 1), change(BOARD_NEW, 21), change(BOARD_NEW, 2), change(BOARD_DELETE, 3)};
    same("a list ended in the middle", batch(&s, 0, list, 4 * CHANGE_WORDS), answer_of(2, BOARD_JOB_EXISTS));
    same("end", board_end(STORE(&s), 0), 0);
    same("a sync is accepted", board_sync(STORE(&s)) < BOARD_REFUSED, 1);
    cut_and_recovered(&s);
    job_is(&s, 1, BOARD_SET);
    job_is(&s, 21, BOARD_NEW);
    job_is(&s, 2, BOARD_NEW);
    job_is(&s, 3, BOARD_NEW);
    same("the survivors", board_survivors((const uint8_t *)s.persistent, 4 * s.image), OLDER + 1);
    free_store(&s);
}

int main(void)
{
    a_round();
    judged_first();
    lengths_of_a_list();
    refusals_of_a_change();
    full();
    one_after_another();
    accepted_changes_stand();
    printf("%zu answers, %zu wrong\n", calls, failed);
    return failed > 0;
}
