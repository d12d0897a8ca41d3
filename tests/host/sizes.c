/* Stores of other sizes, through the header. Notes of other sizes that are just as long, with 3 slots and 6 threads as
   with 4 slots and 1 thread, and notes with a next uid or order number out of range: every call but format and recover
   declines and changes nothing. Images of the old layout, three words a header, and notes of a wrong length, as they were
   without an index: every call does.
   Usage: sizes */

#include "store.h"

#include <stdbool.h>

enum { WORDS = 3, VALUE_WORDS = WORDS - 1, KEY = 7, PREFIX = 3, OLD_HEADER_WORDS = 3 };
enum { NEXT_UID = 2, NEXT_ORDER = 3 }; /* places in the notes */

static const uint32_t value[VALUE_WORDS] = {41, 42};

static void copy_store(struct store *to, const struct store *from)
{
    memcpy(to->working, from->working, from->image * sizeof *to->working);
    memcpy(to->persistent, from->persistent, from->image * sizeof *to->persistent);
    memcpy(to->transient, from->transient, from->notes * sizeof *to->transient);
}

static bool same_store(const struct store *a, const struct store *b)
{
    return memcmp(a->working, b->working, a->image * sizeof *a->working) == 0 &&
           memcmp(a->persistent, b->persistent, a->image * sizeof *a->persistent) == 0 &&
           memcmp(a->transient, b->transient, a->notes * sizeof *a->transient) == 0;
}

/* Each call on the store as it was. */
static void each_declines(struct store *s, const struct store *before)
{
    const uint64_t wide = BOARD_REFUSED + BOARD_SIZES, none_accepted = BOARD_REFUSED * BOARD_SIZES;
    const uint32_t changes[] = {BOARD_NEW, KEY + 1, 41, 42, BOARD_DELETE, KEY, 0, 0};
#define DECLINES(call, wanted)                                       \
    do {                                                             \
        same(#call, call, wanted);                                   \
        same(#call " changes nothing", same_store(s, before), true); \
        copy_store(s, before);                                       \
    } while (0)
    DECLINES(board_begin(STORE(s), 0), BOARD_SIZES);
    DECLINES(board_end(STORE(s), 0), BOARD_SIZES);
    DECLINES(board_new(STORE(s), 0, KEY + 1, value, VALUE_WORDS), BOARD_SIZES);
    DECLINES(board_set(STORE(s), 0, KEY, value, VALUE_WORDS), BOARD_SIZES);
    DECLINES(board_delete(STORE(s), 0, KEY), BOARD_SIZES);
    DECLINES(board_batch(STORE(s), 0, changes, 2 * (1 + WORDS)), none_accepted);
    DECLINES(board_batch(STORE(s), 0, changes, 0), none_accepted);
    DECLINES(board_read(STORE(s), 0, KEY), wide);
    DECLINES(board_read_refusal(STORE(s), 0, KEY), BOARD_SIZES);
    DECLINES(board_append(STORE(s), 0, value, VALUE_WORDS), wide);
    DECLINES(board_take(STORE(s), 0), BOARD_SIZES);
    DECLINES(board_look(STORE(s), 0), wide);
    DECLINES(board_look_refusal(STORE(s), 0), BOARD_SIZES);
    DECLINES(board_advance(STORE(s)), wide);
    DECLINES(board_sync(STORE(s)), wide);
    DECLINES(board_write_back(STORE(s), 0), BOARD_SIZES);
#undef DECLINES
}

/* Format and recover too. */
static void every_call_declines(struct store *s, const struct store *before)
{
    each_declines(s, before);
    same("recover", board_recover(STORE(s)), BOARD_REFUSED + BOARD_SIZES);
    same("recover changes nothing", same_store(s, before), true);
    same("format", board_format(STORE(s), s->slots, s->words), BOARD_SIZES);
    same("format changes nothing", same_store(s, before), true);
}

static void first_job(struct store *s)
{
    same("begin", board_begin(STORE(s), 0), 0);
    same("new", board_new(STORE(s), 0, KEY, value, VALUE_WORDS), 0);
}

/* The notes are those of the other store as format left them or, where it is used, as its first job did. */
static void with_notes_of(uint32_t slots, uint32_t threads, uint32_t other_slots, uint32_t other_threads, bool used)
{
    struct store s = new_store(slots, WORDS, threads), other = new_store(other_slots, WORDS, other_threads);
    struct store before = new_store(slots, WORDS, threads);
    first_job(&s);
    if (used) {
        first_job(&other);
        same("end", board_end(STORE(&other), 0), 0);
    }
    same("the length of the other notes", other.notes, s.notes);
    memcpy(s.transient, other.transient, s.notes * sizeof *s.transient);
    copy_store(&before, &s);
    each_declines(&s, &before);

    same("recover", board_recover(STORE(&s)), BOARD_DONE);
    same("begin after it", board_begin(STORE(&s), 0), 0);
    copy_store(&s, &before);
    same("format once more", board_format(STORE(&s), slots, WORDS), 0);
    same("begin after that", board_begin(STORE(&s), 0), 0);
    free_store(&s);
    free_store(&other);
    free_store(&before);
}

/* A note that is 1 in a fresh store, the next uid or the next order number, put out of its range at either end. */
static void with_note_out_of_range(size_t note)
{
    const uint32_t outside[] = {0, 4000000002, UINT32_MAX};
    struct store s = new_store(4, WORDS, 2), before = new_store(4, WORDS, 2);
    first_job(&s);
    for (size_t i = 0; i < sizeof outside / sizeof *outside; i++) {
        s.transient[note] = outside[i];
        copy_store(&before, &s);
        each_declines(&s, &before);
    }
    s.transient[note] = 4000000001;
    same("end with the last number used up", board_end(STORE(&s), 0), 0);
    free_store(&s);
    free_store(&before);
}

/* An image as the old library left it: one job, made in epoch 2, at clock 4. */
static void old_image(uint32_t *image, uint32_t slots)
{
    const uint32_t start[] = {slots, WORDS, 4, 1, 2, 1};
    const size_t contents = PREFIX + OLD_HEADER_WORDS * slots;
    memset(image, 0, (contents + WORDS * slots) * sizeof *image);
    memcpy(image, start, sizeof start);
    image[contents] = KEY;
    memcpy(image + contents + 1, value, sizeof value);
}

/* Both images are of the old layout and as long as they were; the notes are those of a new store. */
static void of_the_old_layout(uint32_t slots)
{
    const uint64_t wide = BOARD_REFUSED + BOARD_SIZES;
    const size_t image = PREFIX + (OLD_HEADER_WORDS + WORDS) * slots;
    struct store fresh = new_store(slots, WORDS, 1), s = blocks(slots, WORDS, 1, image), before = blocks(slots, WORDS, 1, image);
    old_image(s.working, slots);
    old_image(s.persistent, slots);
    memcpy(s.transient, fresh.transient, s.notes * sizeof *s.transient);
    copy_store(&before, &s);
    every_call_declines(&s, &before);
    same("the clock", board_clock((const uint8_t *)s.persistent, s.image * sizeof *s.persistent), wide);
    same("the survivors", board_survivors((const uint8_t *)s.persistent, s.image * sizeof *s.persistent), wide);
    free_store(&fresh);
    free_store(&s);
    free_store(&before);
}

/* All is in order but the length of the notes. */
static void with_notes_as_long_as(uint32_t slots, uint32_t threads, size_t notes)
{
    struct store s = new_store(slots, WORDS, threads), before = new_store(slots, WORDS, threads);
    uint32_t *const kept = s.transient;
    first_job(&s);
    s.transient = block(notes);
    memcpy(s.transient, kept, (notes < s.notes ? notes : s.notes) * sizeof *kept);
    free(before.transient);
    before.transient = block(notes);
    s.notes = before.notes = notes;
    copy_store(&before, &s);
    every_call_declines(&s, &before);
    free(kept);
    free_store(&s);
    free_store(&before);
}

/* Without an index, with half of one, a word short of one thread, and a word more than 16 threads need. */
static void with_wrong_lengths(uint32_t slots, uint32_t threads)
{
    with_notes_as_long_as(slots, threads, 70 + threads + slots);
    with_notes_as_long_as(slots, threads, 70 + threads + 2 * slots);
    with_notes_as_long_as(slots, threads, 70 + 3 * slots);
    with_notes_as_long_as(slots, threads, 70 + 16 + 3 * slots + 1);
}

int main(void)
{
    with_wrong_lengths(2, 1);
    with_wrong_lengths(16, 4);
    with_wrong_lengths(1024, 16);
    of_the_old_layout(2);
    of_the_old_layout(5);
    of_the_old_layout(1024);
    with_note_out_of_range(NEXT_UID);
    with_note_out_of_range(NEXT_ORDER);
    for (int used = 0; used < 2; used++) {
        with_notes_of(3, 4, 4, 1, used);
        with_notes_of(4, 1, 3, 4, used);
    }
    printf("%zu answers, %zu wrong\n", calls, failed);
    return failed > 0;
}
