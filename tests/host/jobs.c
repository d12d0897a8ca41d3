/* The calls on jobs through the header: what a dispatch server does with one board, and what it is refused.
   Usage: jobs */

#include "board.h"
#include "checks.h"

enum { SLOTS = 3, WORDS = 4, THREADS = 2, VALUE_WORDS = WORDS - 1, PREFIX = 3, HEADER_WORDS = 4 };
enum { FREE, ALLOC, UPDATE, DELETE };
enum { JOBS = 1 }; /* the board of jobs */

_Static_assert(BOARD_NO_THREAD == 5 && BOARD_ALREADY_OPEN == 6 && BOARD_NOT_OPEN == 7 && BOARD_BAD_ARGUMENT == 8 &&
                   BOARD_NEWER == 9 && BOARD_NO_JOB == 10 && BOARD_JOB_EXISTS == 11 && BOARD_NO_UID == 12 &&
                   BOARD_FULL == 13 && BOARD_STILL_OPEN == 14 && BOARD_LAST_EPOCH == 15 && BOARD_NO_WORD == 16 &&
                   BOARD_EMPTY == 17,
               "the header's refusals");
_Static_assert(BOARD_STORED == 0 && BOARD_TICKED == 1, "the header's replies");

/* The words of a slot's header: kind, epoch, uid, board. */
static void header_is(const char *what, const uint32_t *image, size_t slot, uint32_t kind, uint32_t epoch, uint32_t uid,
                      uint32_t board)
{
    const uint32_t wanted[HEADER_WORDS] = {kind, epoch, uid, board};
    for (size_t i = 0; i < HEADER_WORDS; i++)
        same(what, image[PREFIX + HEADER_WORDS * slot + i], wanted[i]);
}

/* A new job has the board of jobs; a set and a delete carry it; a free header is all zeros. */
static void boards(void)
{
    enum { ROOMY = 6 };
    const size_t n = board_image_words(ROOMY, WORDS), tn = board_transient_words(ROOMY, THREADS);
    uint32_t *w = block(n), *p = block(n), *t = block(tn);
    const uint32_t value[VALUE_WORDS] = {31, 32, 33};
    same("format", board_format(w, n, p, n, t, tn, ROOMY, WORDS), 0);
    header_is("a header after format", p, ROOMY - 1, FREE, 0, 0, 0);
    same("begin in epoch 2", board_begin(w, n, p, n, t, tn, 0), 0);
    same("new 7", board_new(w, n, p, n, t, tn, 0, 7, value, VALUE_WORDS), 0);
    same("new 8", board_new(w, n, p, n, t, tn, 0, 8, value, VALUE_WORDS), 0);
    same("new 9", board_new(w, n, p, n, t, tn, 0, 9, value, VALUE_WORDS), 0);
    header_is("a new job's header", w, 2, ALLOC, 2, 3, JOBS);
    same("delete 9", board_delete(w, n, p, n, t, tn, 0, 9), 0);
    header_is("a header freed at once", w, 2, FREE, 0, 0, 0);
    same("set 7 in place", board_set(w, n, p, n, t, tn, 0, 7, value, VALUE_WORDS), 0);
    header_is("the header after a set in place", w, 0, ALLOC, 2, 1, JOBS);
    same("end", board_end(w, n, p, n, t, tn, 0), 0);
    same("sync", board_sync(w, n, p, n, t, tn), 8);
    header_is("the header made lasting", p, 1, ALLOC, 2, 2, JOBS);

    same("begin in epoch 4", board_begin(w, n, p, n, t, tn, 0), 0);
    same("set 7 by a new version", board_set(w, n, p, n, t, tn, 0, 7, value, VALUE_WORDS), 0);
    header_is("the new version's header", w, 3, UPDATE, 4, 1, JOBS);
    same("delete 8, which is older", board_delete(w, n, p, n, t, tn, 0, 8), 0);
    header_is("the DELETE's header", w, 4, DELETE, 4, 2, JOBS);
    same("delete 7, which has a new version", board_delete(w, n, p, n, t, tn, 0, 7), 0);
    header_is("the header turned into a DELETE", w, 3, DELETE, 4, 1, JOBS);
    for (size_t i = 0; i < HEADER_WORDS; i++)
        same("a word written back", board_write_back(w, n, p, n, t, tn, PREFIX + HEADER_WORDS * 4 + i), 0);
    header_is("what the memory wrote back", p, 4, DELETE, 4, 2, JOBS);

    free(w);
    free(p);
    free(t);
}

int main(void)
{
    boards();
    const size_t n = board_image_words(SLOTS, WORDS), tn = board_transient_words(SLOTS, THREADS);
    same("the length of an image", n, PREFIX + HEADER_WORDS * SLOTS + WORDS * SLOTS);
    same("the length of the notes", tn, 70 + THREADS + 3 * SLOTS);
    uint32_t *w = block(n), *p = block(n), *t = block(tn);
    const uint32_t first[VALUE_WORDS] = {11, 12, 13}, second[VALUE_WORDS] = {21, 0, 23};

    same("a call before format", board_begin(w, n, p, n, t, tn, 0), BOARD_SIZES);
    same("format", board_format(w, n, p, n, t, tn, SLOTS, WORDS), 0);
    same("format with a wrong length", board_format(w, n - 1, p, n, t, tn, SLOTS, WORDS), BOARD_SIZES);

    uint32_t *fresh = block(n);
    memcpy(fresh, p, n * sizeof *p);
    same("new outside an operation", board_new(w, n, p, n, t, tn, 0, 7, first, VALUE_WORDS), BOARD_NOT_OPEN);
    same("begin", board_begin(w, n, p, n, t, tn, 0), 0);
    same("begin again", board_begin(w, n, p, n, t, tn, 0), BOARD_ALREADY_OPEN);
    same("begin of no thread", board_begin(w, n, p, n, t, tn, THREADS), BOARD_NO_THREAD);
    same("new", board_new(w, n, p, n, t, tn, 0, 7, first, VALUE_WORDS), 0);
    same("new again", board_new(w, n, p, n, t, tn, 0, 7, second, VALUE_WORDS), BOARD_JOB_EXISTS);
    same("new with a short value", board_new(w, n, p, n, t, tn, 0, 8, second, VALUE_WORDS - 1), BOARD_BAD_ARGUMENT);
    same("a second job", board_new(w, n, p, n, t, tn, 0, 8, second, VALUE_WORDS), 0);
    same("a third job", board_new(w, n, p, n, t, tn, 0, 9, second, VALUE_WORDS), BOARD_FULL);

    uint64_t at = board_read(w, n, p, n, t, tn, 1, 7);
    same("where the value stands", at, PREFIX + HEADER_WORDS * SLOTS + 1);
    same("read, its refusal", board_read_refusal(w, n, p, n, t, tn, 1, 7), 0);
    if (at + VALUE_WORDS <= n)
        same("the value that is read", (uint64_t)memcmp(w + at, first, sizeof first), 0);
    same("set", board_set(w, n, p, n, t, tn, 0, 7, second, VALUE_WORDS), 0);
    same("the place after set", board_read(w, n, p, n, t, tn, 1, 7), at);
    if (at + VALUE_WORDS <= n)
        same("the value after set", (uint64_t)memcmp(w + at, second, sizeof second), 0);

    same("delete", board_delete(w, n, p, n, t, tn, 0, 7), 0);
    same("delete again", board_delete(w, n, p, n, t, tn, 0, 7), BOARD_NO_JOB);
    same("read of no job", board_read(w, n, p, n, t, tn, 0, 7), BOARD_REFUSED + BOARD_NO_JOB);
    same("its refusal", board_read_refusal(w, n, p, n, t, tn, 0, 7), BOARD_NO_JOB);
    same("end", board_end(w, n, p, n, t, tn, 0), 0);
    same("end again", board_end(w, n, p, n, t, tn, 0), BOARD_NOT_OPEN);
    same("the persistent image", (uint64_t)memcmp(p, fresh, n * sizeof *p), 0);

    same("a word past the end", board_write_back(w, n, p, n, t, tn, n), BOARD_NO_WORD);
    same("sync of one job made and one made and deleted", board_sync(w, n, p, n, t, tn), 6);
    same("the clock", board_clock((const uint8_t *)p, n * sizeof *p), 4);
    same("the survivors", board_survivors((const uint8_t *)p, n * sizeof *p), 1);
    same("advance", board_advance(w, n, p, n, t, tn), BOARD_TICKED);
    same("recover", board_recover(w, n, p, n, t, tn), BOARD_DONE);
    at = board_read(w, n, p, n, t, tn, 0, 8);
    if (at + VALUE_WORDS <= n)
        same("the value recovered", (uint64_t)memcmp(w + at, second, sizeof second), 0);
    else
        same("where the value recovered stands", at, 0);

    free(fresh);
    free(w);
    free(p);
    free(t);
    printf("%zu answers, %zu wrong\n", calls, failed);
    return failed > 0;
}
