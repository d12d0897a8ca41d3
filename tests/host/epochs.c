/* How a job becomes lasting, through the header: by advance calls, by sync, and what a power cut leaves, also one
   within a store.
   Usage: epochs */

#include "store.h"

enum { SLOTS = 8, WORDS = 3, THREADS = 2, VALUE_WORDS = WORDS - 1, PREFIX = 3, KEY = 7 };
enum { KIND, EPOCH, UID, BOARD, HEADER_WORDS };
enum { CONTENTS = PREFIX + HEADER_WORDS * SLOTS, MOST_WORDS = 9, MOST_IMAGE = CONTENTS + MOST_WORDS * SLOTS };

_Static_assert(BOARD_STILL_OPEN == 14 && BOARD_LAST_EPOCH == 15 && BOARD_NO_WORD == 16, "the header's refusals");
_Static_assert(BOARD_STORED == 0 && BOARD_TICKED == 1, "what an advance call did");

static const uint32_t value[VALUE_WORDS] = {31, 32};

/* What persistent was. */
static uint32_t last[CONTENTS + WORDS * SLOTS];

static void keep(const struct store *s) { memcpy(last, s->persistent, sizeof last); }
static void as_kept(const char *what, const struct store *s) { same(what, !!memcmp(s->persistent, last, sizeof last), 0); }

static uint64_t survivors(const struct store *s) { return board_survivors((const uint8_t *)s->persistent, 4 * s->image); }

/* One job, line by line. */
static void made_lasting(struct store *s)
{
    same("a sync where nothing changed", board_sync(STORE(s)), 2);
    same("the clock after it", s->persistent[2], 4);
    same("begin", board_begin(STORE(s), 0), 0);
    same("new", board_new(STORE(s), 0, KEY, value, VALUE_WORDS), 0);
    same("a sync with an operation open", board_sync(STORE(s)), BOARD_REFUSED + BOARD_STILL_OPEN);
    same("an advance", board_advance(STORE(s)), BOARD_TICKED);
    same("the next with the operation open", board_advance(STORE(s)), BOARD_REFUSED + BOARD_STILL_OPEN);
    same("end", board_end(STORE(s), 0), 0);

    same("the job's contents", board_advance(STORE(s)), BOARD_STORED);
    same("the key in persistent", s->persistent[CONTENTS], KEY);
    same("its header is not there yet", s->persistent[PREFIX + KIND], 0);
    same("the job's header", board_advance(STORE(s)), BOARD_STORED);
    same("the kind in persistent", s->persistent[PREFIX + KIND], 1);
    same("the board in persistent", s->persistent[PREFIX + BOARD], 1);
    same("the survivors before the tick", survivors(s), 0);
    same("the clock", board_advance(STORE(s)), BOARD_TICKED);
    same("the survivors after it", survivors(s), 1);
}

/* The power is cut after its delete, which is of the clock's epoch and is lost; the job is not. */
static void delete_lost(struct store *s)
{
    const size_t anti = PREFIX + HEADER_WORDS;
    same("begin, to delete", board_begin(STORE(s), 1), 0);
    same("delete", board_delete(STORE(s), 1, KEY), 0);
    same("end of it", board_end(STORE(s), 1), 0);
    for (size_t i = 0; i < HEADER_WORDS; i++)
        same("a word of the DELETE's header written back", board_write_back(STORE(s), anti + i), 0);
    same("the kind there", s->persistent[anti + KIND], 3);
    same("the board there", s->persistent[anti + BOARD], 1);

    power_cut(s);
    same("recovery frees the DELETE", board_recover(STORE(s)), BOARD_WENT_ON);
    same("recovery", board_recover(STORE(s)), BOARD_DONE);
    uint64_t at = board_read(STORE(s), 0, KEY);
    same("where the job stands", at, CONTENTS + 1);
    if (at + VALUE_WORDS <= s->image)
        same("its value", !!memcmp(s->working + at, value, sizeof value), 0);
}

static void deleted_and_the_end(struct store *s)
{
    same("begin again", board_begin(STORE(s), 0), 0);
    same("delete again", board_delete(STORE(s), 0, KEY), 0);
    same("end again", board_end(STORE(s), 0), 0);
    same("the lines of a sync", board_sync(STORE(s)), 4);
    same("the survivors after the sync", survivors(s), 0);

    s->working[2] = s->persistent[2] = 4000000000;
    same("an advance at the last epoch", board_advance(STORE(s)), BOARD_REFUSED + BOARD_LAST_EPOCH);
    same("a sync at the last epoch", board_sync(STORE(s)), BOARD_REFUSED + BOARD_LAST_EPOCH);
}

/* One word is copied, and only where it is one of a header or of contents. */
static void words_written_back(struct store *s)
{
    const size_t n = s->image, outside[] = {0, 1, 2, n, n + 1, ((size_t)1 << 32) + PREFIX, SIZE_MAX};
    const size_t inside[] = {PREFIX, PREFIX + HEADER_WORDS, CONTENTS, n - 1};
    for (size_t i = PREFIX; i < n; i++)
        s->working[i] = 1000 + (uint32_t)i;
    keep(s);
    for (size_t i = 0; i < sizeof outside / sizeof *outside; i++)
        same("no word of a slot", board_write_back(STORE(s), outside[i]), BOARD_NO_WORD);
    as_kept("no word is copied then", s);
    for (size_t i = 0; i < sizeof inside / sizeof *inside; i++) {
        same("a word of a slot", board_write_back(STORE(s), inside[i]), 0);
        last[inside[i]] = s->working[inside[i]];
        as_kept("that word alone is copied", s);
    }
}

/* A cut within the store of a header, for each way in which some of its words, and not all, have arrived: what is left
   counts as free, and one recover call zeroes it. */
static void header_torn(struct store *s)
{
    uint32_t whole[HEADER_WORDS];
    same("begin", board_begin(STORE(s), 0), 0);
    same("new", board_new(STORE(s), 0, KEY, value, VALUE_WORDS), 0);
    same("end", board_end(STORE(s), 0), 0);
    same("the clock is 3", board_advance(STORE(s)), BOARD_TICKED);
    same("the contents", board_advance(STORE(s)), BOARD_STORED);
    keep(s);
    same("the header", board_advance(STORE(s)), BOARD_STORED);
    memcpy(whole, s->persistent + PREFIX, sizeof whole);
    for (unsigned arrived = 1; arrived < (1 << HEADER_WORDS) - 1; arrived++) {
        for (size_t i = 0; i < HEADER_WORDS; i++)
            s->persistent[PREFIX + i] = arrived >> i & 1 ? whole[i] : 0;
        same("the image is accepted", board_clock((const uint8_t *)s->persistent, 4 * s->image), 3);
        power_cut(s);
        same("recovery zeroes what is left", board_recover(STORE(s)), BOARD_WENT_ON);
        as_kept("as before the store", s);
        same("recovery", board_recover(STORE(s)), BOARD_DONE);
        same("the job is not there", board_read_refusal(STORE(s), 0, KEY), BOARD_NO_JOB);
    }
}

/* A header with a word out of range is refused where all four words are there, and counts as free where one is 0. */
static void header_out_of_range(struct store *s)
{
    memcpy(s->persistent + PREFIX, (uint32_t[HEADER_WORDS]){4, 2, 2, 1}, HEADER_WORDS * sizeof *s->persistent);
    same("kind 4", board_recover(STORE(s)), BOARD_REFUSED + BOARD_BAD_SLOT);
    s->persistent[PREFIX + BOARD] = 0;
    same("kind 4 without a board", board_recover(STORE(s)), BOARD_WENT_ON);
    same("it is zeroed", s->persistent[PREFIX + KIND], 0);
}

/* An advance call stores the line from `at` on: it is as in working then, and every other word of both images as it was. */
static void line_stored(const char *what, const struct store *s, size_t at, size_t words)
{
    uint32_t working[MOST_IMAGE], expected[MOST_IMAGE];
    memcpy(working, s->working, s->image * sizeof *working);
    memcpy(expected, s->persistent, s->image * sizeof *expected);
    memcpy(expected + at, working + at, words * sizeof *expected);
    same("the line is not there before", !memcmp(expected, s->persistent, s->image * sizeof *expected), 0);
    same(what, board_advance(STORE(s)), BOARD_STORED);
    same("the line, and no other word", !!memcmp(s->persistent, expected, s->image * sizeof *expected), 0);
    same("working stays", !!memcmp(s->working, working, s->image * sizeof *working), 0);
}

/* Contents and headers of each width, with words of their own in every slot of both images. */
static void lines_of_every_width(void)
{
    enum { JOBS = 3 };
    for (uint32_t words = 2; words <= MOST_WORDS; words++) {
        struct store s = new_store(SLOTS, words, THREADS);
        const uint32_t long_value[MOST_WORDS - 1] = {11, 12, 13, 14, 15, 16, 17, 18};
        for (size_t i = CONTENTS; i < s.image; i++) {
            s.working[i] = 1000 + (uint32_t)i;
            s.persistent[i] = 2000 + (uint32_t)i;
        }
        same("begin", board_begin(STORE(&s), 0), 0);
        for (uint32_t key = 1; key <= JOBS; key++)
            same("new", board_new(STORE(&s), 0, key, long_value, words - 1), 0);
        same("end", board_end(STORE(&s), 0), 0);
        same("the clock is 3", board_advance(STORE(&s)), BOARD_TICKED);
        for (size_t slot = 0; slot < JOBS; slot++) {
            line_stored("contents", &s, CONTENTS + words * slot, words);
            line_stored("a header", &s, PREFIX + HEADER_WORDS * slot, HEADER_WORDS);
        }
        same("the clock is 4", board_advance(STORE(&s)), BOARD_TICKED);
        same("the survivors", survivors(&s), JOBS);
        free_store(&s);
    }
}

int main(void)
{
    struct store s = new_store(SLOTS, WORDS, THREADS);
    made_lasting(&s);
    delete_lost(&s);
    deleted_and_the_end(&s);
    free_store(&s);
    s = new_store(SLOTS, WORDS, THREADS);
    words_written_back(&s);
    free_store(&s);
    s = new_store(SLOTS, WORDS, THREADS);
    header_torn(&s);
    header_out_of_range(&s);
    free_store(&s);
    lines_of_every_width();
    printf("%zu answers, %zu wrong\n", calls, failed);
    return failed > 0;
}
