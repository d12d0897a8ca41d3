/* The hand-over queue through the header: append, look and take, order numbers across a sync and a power cut, the words
   of the headers, and what is refused.
   Usage: queue */

#include "store.h"

enum { SLOTS = 8, WORDS = 3, THREADS = 2, VALUE_WORDS = WORDS - 1, PREFIX = 3, HEADER_WORDS = 4 };
enum { FREE, ALLOC, UPDATE, DELETE };
enum { JOBS = 1, QUEUE = 2 };
enum { NEXT_UID = 2, NEXT_ORDER = 3 }; /* places in the notes */
#define LAST_NUMBER UINT64_C(4000000000)

_Static_assert(BOARD_EMPTY == 17, "the header's refusal of an empty queue");

static size_t contents_at(const struct store *s, size_t slot)
{
    return PREFIX + HEADER_WORDS * s->slots + WORDS * slot;
}

/* An entry's value is its number and ten times that. */
static uint64_t append(struct store *s, uint32_t thread, uint32_t number)
{
    const uint32_t value[VALUE_WORDS] = {number, 10 * number};
    return board_append(STORE(s), thread, value, VALUE_WORDS);
}

/* The words of a slot's header: kind, epoch, uid, board. */
static void header_is(const char *what, const uint32_t *image, size_t slot, const uint32_t wanted[HEADER_WORDS])
{
    for (size_t i = 0; i < HEADER_WORDS; i++)
        same(what, image[PREFIX + HEADER_WORDS * slot + i], wanted[i]);
}

/* A look shows this entry: its order number stands before its value. */
static void front_is(const char *what, const struct store *s, uint32_t thread, uint32_t order, uint32_t number)
{
    uint64_t at = board_look(STORE(s), thread);
    same(what, at > 0 && at + VALUE_WORDS <= s->image, 1);
    if (at == 0 || at + VALUE_WORDS > s->image)
        return;
    same("the order number", s->working[at - 1], order);
    same("the value's first word", s->working[at], number);
    same("its second word", s->working[at + 1], 10 * number);
    same("the refusal of that look", board_look_refusal(STORE(s), thread), 0);
}

static void no_front(const char *what, const struct store *s, uint32_t thread, uint32_t refusal)
{
    same(what, board_look(STORE(s), thread), BOARD_REFUSED + refusal);
    same("the refusal of that look", board_look_refusal(STORE(s), thread), refusal);
}

/* The power is cut and comes back: only the persistent image is left. */
static void cut_and_recovered(struct store *s)
{
    power_cut(s);
    uint64_t reply = BOARD_WENT_ON;
    for (uint32_t calls = 0; calls <= s->slots && reply == BOARD_WENT_ON; calls++)
        reply = board_recover(STORE(s));
    same("recovery", reply, BOARD_DONE);
}

static void first_in_first_out(void)
{
    struct store s = new_store(SLOTS, WORDS, THREADS);
    no_front("a look at an empty queue", &s, 0, BOARD_EMPTY);
    same("begin", board_begin(STORE(&s), 0), 0);
    same("a take from an empty queue", board_take(STORE(&s), 0), BOARD_EMPTY);
    for (uint32_t number = 1; number <= 3; number++)
        same("append", append(&s, 0, 70 + number), number);
    header_is("an entry's header", s.working, 1, (uint32_t[]){ALLOC, 2, 2, QUEUE});
    for (uint32_t number = 1; number <= 3; number++) {
        front_is("the front", &s, number % THREADS, number, 70 + number);
        same("take", board_take(STORE(&s), 0), 0);
    }
    header_is("a header freed at once", s.working, 1, (uint32_t[]){FREE, 0, 0, 0});
    no_front("a look after the last take", &s, 0, BOARD_EMPTY);
    same("append again", append(&s, 0, 74), 4);
    same("end", board_end(STORE(&s), 0), 0);
    free_store(&s);
}

/* Entries 1 and 2, made lasting; the clock is 4 then. */
static struct store two_entries(void)
{
    struct store s = new_store(SLOTS, WORDS, THREADS);
    same("begin in epoch 2", board_begin(STORE(&s), 0), 0);
    same("entry 1", append(&s, 0, 71), 1);
    same("entry 2", append(&s, 0, 72), 2);
    same("end", board_end(STORE(&s), 0), 0);
    same("sync", board_sync(STORE(&s)), 6);
    return s;
}

/* What a cut leaves, and which numbers come after it. */
static void numbers_across_cuts(void)
{
    struct store s = two_entries();
    header_is("the header made lasting", s.persistent, 1, (uint32_t[]){ALLOC, 2, 2, QUEUE});
    same("the order number made lasting", s.persistent[contents_at(&s, 1)], 2);
    same("the jobs that the server counts", board_survivors((const uint8_t *)s.persistent, 4 * s.image), 0);

    same("begin in epoch 4", board_begin(STORE(&s), 0), 0);
    same("take", board_take(STORE(&s), 0), 0);
    header_is("the DELETE's header", s.working, 2, (uint32_t[]){DELETE, 4, 1, QUEUE});
    same("its order number", s.working[contents_at(&s, 2)], 1);
    same("its first value word", s.working[contents_at(&s, 2) + 1], 0);
    same("its second value word", s.working[contents_at(&s, 2) + 2], 0);
    same("append", append(&s, 0, 73), 3);
    front_is("the front before the cut", &s, 0, 2, 72);
    cut_and_recovered(&s);
    front_is("the front after it", &s, 0, 1, 71);

    same("begin again", board_begin(STORE(&s), 0), 0);
    same("a lost number is given again", append(&s, 0, 74), 3);
    same("take again", board_take(STORE(&s), 0), 0);
    same("end again", board_end(STORE(&s), 0), 0);
    same("sync again", board_sync(STORE(&s)), 6);
    cut_and_recovered(&s);
    front_is("the front after the second cut", &s, 0, 2, 72);
    same("the next order number", s.transient[NEXT_ORDER], 4);
    free_store(&s);
}

/* Entries 1 and 2 are old, A is open in epoch 4, B takes entry 1 in epoch 5. A must not get entry 2: a cut at clock 6
   keeps what A did and not what B did, and would show entry 1 without 2. */
static void older_operation_waits(void)
{
    struct store s = two_entries();
    same("A begins", board_begin(STORE(&s), 0), 0);
    same("a tick", board_advance(STORE(&s)), BOARD_TICKED);
    same("B begins", board_begin(STORE(&s), 1), 0);
    same("B takes", board_take(STORE(&s), 1), 0);
    front_is("what B sees", &s, 1, 2, 72);
    same("A's take", board_take(STORE(&s), 0), BOARD_NEWER);
    same("A's append", append(&s, 0, 73), BOARD_REFUSED + BOARD_NEWER);
    no_front("A's look", &s, 0, BOARD_NEWER);
    same("A ends", board_end(STORE(&s), 0), 0);
    front_is("what A sees without an operation", &s, 0, 2, 72);
    same("A begins again", board_begin(STORE(&s), 0), 0);
    same("A takes", board_take(STORE(&s), 0), 0);
    no_front("nothing is left", &s, 1, BOARD_EMPTY);
    free_store(&s);
}

/* One entry and one job fill a board of three: append and new need two free slots, take one. */
static void full_board(void)
{
    const uint32_t value[VALUE_WORDS] = {1, 2};
    struct store s = new_store(3, WORDS, THREADS);
    same("begin", board_begin(STORE(&s), 0), 0);
    same("append", append(&s, 0, 71), 1);
    same("a job of the entry's key", board_new(STORE(&s), 0, 1, value, VALUE_WORDS), 0);
    header_is("the job's header", s.working, 1, (uint32_t[]){ALLOC, 2, 2, JOBS});
    same("append on a full board", append(&s, 0, 72), BOARD_REFUSED + BOARD_FULL);
    same("new on a full board", board_new(STORE(&s), 0, 2, value, VALUE_WORDS), BOARD_FULL);
    same("end", board_end(STORE(&s), 0), 0);
    same("a tick", board_advance(STORE(&s)), BOARD_TICKED);
    same("begin in the next epoch", board_begin(STORE(&s), 0), 0);
    same("take", board_take(STORE(&s), 0), 0);
    same("the job is there", board_read_refusal(STORE(&s), 0, 1), 0);
    same("the job cannot go now", board_delete(STORE(&s), 0, 1), BOARD_FULL);
    free_store(&s);
}

static void refusals(void)
{
    const uint32_t value[WORDS] = {1, 2, 3};
    struct store s = new_store(SLOTS, WORDS, THREADS);
    same("append of no thread", append(&s, THREADS, 71), BOARD_REFUSED + BOARD_NO_THREAD);
    same("take of no thread", board_take(STORE(&s), THREADS), BOARD_NO_THREAD);
    no_front("look of no thread", &s, THREADS, BOARD_NO_THREAD);
    same("append outside an operation", append(&s, 0, 71), BOARD_REFUSED + BOARD_NOT_OPEN);
    same("take outside an operation", board_take(STORE(&s), 0), BOARD_NOT_OPEN);
    same("begin", board_begin(STORE(&s), 0), 0);
    same("a short value", board_append(STORE(&s), 0, value, VALUE_WORDS - 1), BOARD_REFUSED + BOARD_BAD_ARGUMENT);
    same("a long value", board_append(STORE(&s), 0, value, VALUE_WORDS + 1), BOARD_REFUSED + BOARD_BAD_ARGUMENT);

    s.transient[NEXT_ORDER] = (uint32_t)LAST_NUMBER;
    same("the last order number", append(&s, 0, 71), LAST_NUMBER);
    same("append after it", append(&s, 0, 72), BOARD_REFUSED + BOARD_NO_UID);
    same("new after it", board_new(STORE(&s), 0, 7, value, VALUE_WORDS), 0);
    s.transient[NEXT_ORDER] = 1;
    s.transient[NEXT_UID] = (uint32_t)LAST_NUMBER + 1;
    same("append without a uid", append(&s, 0, 72), BOARD_REFUSED + BOARD_NO_UID);
    s.transient[NEXT_UID] = 3;
    same("no refused append has used a number", append(&s, 0, 72), 1);
    free_store(&s);
}

int main(void)
{
    first_in_first_out();
    numbers_across_cuts();
    older_operation_waits();
    full_board();
    refusals();
    printf("%zu answers, %zu wrong\n", calls, failed);
    return failed > 0;
}
