/* What the header defines itself: the refusals in English, the version, and the calls on a store as one argument. And
   what it says of readers: they write nothing into what is lent.
   Usage: header [texts], which prints the refusals in English */

#define _GNU_SOURCE

#include "store.h"

#include <sys/mman.h>

enum { SLOTS = 6, WORDS = 3, THREADS = 2, VALUE_WORDS = WORDS - 1, KEY = 7, CONTENTS = 3 + 4 * SLOTS };

_Static_assert(BOARD_VERSION_MAJOR < 100 && BOARD_VERSION_MINOR < 100 && BOARD_VERSION_PATCH < 100, "two digits each");

static const uint32_t value[VALUE_WORDS] = {31, 32}, other[VALUE_WORDS] = {41, 42};

/* Every refusal has a text of its own, and the numbers beyond have one together. */
static void texts(void)
{
    same("the text of no refusal", (uint64_t)strcmp(board_refusal_text(BOARD_EMPTY + 1), board_refusal_text(UINT32_MAX)), 0);
    for (uint32_t one = 0; one <= BOARD_EMPTY + 1; one++) {
        const char *text = board_refusal_text(one);
        same("an empty text", text[0] == 0, 0);
        for (uint32_t two = 0; two < one; two++)
            same("a text given twice", strcmp(text, board_refusal_text(two)) == 0, 0);
        same("the refusal of a wide answer", board_refusal_of(BOARD_REFUSED + one), one);
    }
}

/* What is no refusal: a step, a count of lines, an order number, a position. */
static void accepted_answers(void)
{
    const uint64_t answers[] = {BOARD_STORED, BOARD_TICKED, BOARD_WENT_ON, BOARD_DONE, 4, 17, BOARD_REFUSED - 1};
    for (size_t i = 0; i < sizeof answers / sizeof *answers; i++)
        same("the refusal of an answer that is none", board_refusal_of(answers[i]), 0);
}

/* A batch answers two numbers. */
static void halves_of_a_batch(void)
{
    for (uint32_t refusal = 0; refusal <= BOARD_EMPTY; refusal++)
        for (uint32_t accepted = 0; accepted <= BOARD_MOST_CHANGES; accepted++) {
            uint64_t answer = (uint64_t)refusal << 32 | accepted;
            same("the changes accepted", BOARD_BATCH_ACCEPTED(answer), accepted);
            same("the refusal that ended them", BOARD_BATCH_REFUSAL(answer), refusal);
        }
    same("the macros on a sum", BOARD_BATCH_ACCEPTED(BOARD_REFUSED + 2) + BOARD_BATCH_REFUSAL(BOARD_REFUSED + 2), 3);
}

static struct board_store one_argument(const struct store *s)
{
    return (struct board_store){.working = s->working, .persistent = s->persistent, .transient = s->transient,
                                .image_words = s->image, .transient_words = s->notes};
}

static void alike(const char *what, const struct store *a, const struct store *b)
{
    same(what, memcmp(a->working, b->working, a->image * sizeof *a->working) == 0, 1);
    same(what, memcmp(a->persistent, b->persistent, a->image * sizeof *a->persistent) == 0, 1);
    same(what, memcmp(a->transient, b->transient, a->notes * sizeof *a->transient) == 0, 1);
}

/* The calls in both ways, each on a store of its own: the same answers, the same words. */
static void as_one_argument(void)
{
    struct store a = blocks(SLOTS, WORDS, THREADS, board_image_words(SLOTS, WORDS)), b = blocks(SLOTS, WORDS, THREADS, a.image);
    const struct board_store store = one_argument(&a);
    const uint32_t changes[][1 + WORDS] = {{BOARD_NEW, KEY + 2, 51, 52}, {BOARD_SET, KEY + 2, 61, 62}, {BOARD_DELETE, KEY + 2},
                                           {BOARD_DELETE + 1, KEY}, {BOARD_DELETE, KEY}};
#define BOTH(name, wanted, ...)                                                     \
    do {                                                                            \
        same("board_store_" #name, board_store_##name(&store __VA_ARGS__), wanted); \
        same("board_" #name, board_##name(STORE(&b) __VA_ARGS__), wanted);          \
        alike("the words after " #name, &a, &b);                                    \
    } while (0)
#define WITH , /* before the first argument that is no block */
    BOTH(format, 0, WITH SLOTS, WORDS);
    BOTH(begin, 0, WITH 1);
    BOTH(new, 0, WITH 1, KEY, value, VALUE_WORDS);
    BOTH(set, 0, WITH 1, KEY, other, VALUE_WORDS);
    BOTH(read, CONTENTS + 1, WITH 1, KEY);
    same("the value read", (uint64_t)memcmp(board_store_value(&store, CONTENTS + 1), other, sizeof other), 0);
    BOTH(read_refusal, BOARD_NO_JOB, WITH 1, KEY + 1);
    BOTH(append, 1, WITH 1, value, VALUE_WORDS);
    BOTH(look, CONTENTS + WORDS + 1, WITH 1);
    BOTH(look_refusal, BOARD_NO_THREAD, WITH THREADS);
    BOTH(write_back, 0, WITH CONTENTS + 1);
    BOTH(take, 0, WITH 1);
    BOTH(new, 0, WITH 1, KEY + 1, value, VALUE_WORDS);
    BOTH(delete, 0, WITH 1, KEY + 1);
    BOTH(batch, BOARD_BAD_ARGUMENT * BOARD_REFUSED + 3, WITH 1, *changes, sizeof changes / sizeof **changes);
    BOTH(batch, BOARD_NO_THREAD * BOARD_REFUSED, WITH THREADS, *changes, 0);
    BOTH(end, 0, WITH 1);
    BOTH(advance, BOARD_TICKED);
    BOTH(sync, 10);
    power_cut(&a);
    power_cut(&b);
    BOTH(recover, BOARD_DONE);
#undef WITH
#undef BOTH
    free_store(&a);
    free_store(&b);
}

/* The store in memory that cannot be written: a reader that stored there would end the program. */
static void readers(void)
{
    struct store s = new_store(SLOTS, WORDS, THREADS);
    const size_t room = 4096, bytes = s.image * sizeof *s.working;
    same("begin", board_begin(STORE(&s), 0), 0);
    same("new", board_new(STORE(&s), 0, KEY, value, VALUE_WORDS), 0);
    same("append", board_append(STORE(&s), 0, value, VALUE_WORDS), 1);
    char *pages = mmap(NULL, 3 * room, PROT_READ | PROT_WRITE, MAP_PRIVATE | MAP_ANONYMOUS, -1, 0);
    if (pages == MAP_FAILED)
        exit(2);
    memcpy(pages, s.working, bytes);
    memcpy(pages + room, s.persistent, bytes);
    memcpy(pages + 2 * room, s.transient, s.notes * sizeof *s.transient);
    const struct board_store store = {(uint32_t *)pages, (uint32_t *)(pages + room), (uint32_t *)(pages + 2 * room), s.image,
                                      s.notes};
    same("mprotect", (uint64_t)mprotect(pages, 3 * room, PROT_READ), 0);
    same("read", board_store_read(&store, 0, KEY), CONTENTS + 1);
    same("its refusal", board_store_read_refusal(&store, 0, KEY), 0);
    same("look", board_store_look(&store, 0), CONTENTS + WORDS + 1);
    same("its refusal", board_store_look_refusal(&store, 0), 0);
    same("the clock", board_clock((const uint8_t *)store.persistent, bytes), 2);
    same("the survivors", board_survivors((const uint8_t *)store.persistent, bytes), 0);
    munmap(pages, 3 * room);
    free_store(&s);
}

int main(int argc, char **argv)
{
    if (argc == 2 && strcmp(argv[1], "texts") == 0) {
        for (uint32_t one = 0; one <= BOARD_EMPTY + 1; one++)
            printf("%u %s\n", (unsigned)one, board_refusal_text(one));
        return 0;
    }
    texts();
    accepted_answers();
    halves_of_a_batch();
    same("the library's version", board_version(), BOARD_VERSION);
    as_one_argument();
    readers();
    printf("%zu answers, %zu wrong\n", calls, failed);
    return failed > 0;
}
