/* Puts every case of a file to the library and compares its answers, and every word it left, with the file's.
   The file's layout is told where it is written, in simulator/src/bin/cases.rs.
   Usage: questions FILE */

#include "board.h"

#include <inttypes.h>
#include <stdio.h>
#include <stdlib.h>
#include <string.h>

#define REFUSED UINT64_C(4294967296)
#define LAST_REFUSAL 4

_Static_assert(BOARD_REFUSED == REFUSED && BOARD_WENT_ON == 0 && BOARD_DONE == 1, "the header's replies");
_Static_assert(BOARD_SIZES == 1 && BOARD_CLOCK == 2 && BOARD_BAD_SLOT == 3 && BOARD_DUPLICATE == LAST_REFUSAL,
               "the header's refusals");

struct file {
    uint32_t *words;
    size_t length;
    size_t place;
};

static struct {
    size_t cases, calls, went_on, done, refused[LAST_REFUSAL + 1], failed;
} counts;

/* The smallest case that failed: its size in words, and what was wrong. */
static size_t smallest_size;
static char *smallest_text;

static void stop(const char *why)
{
    fprintf(stderr, "questions: %s\n", why);
    exit(2);
}

/* A block of exactly this size, so that a checker of memory sees any access beside it. */
static void *block(size_t bytes)
{
    void *start = malloc(bytes > 0 ? bytes : 1);
    if (start == NULL)
        stop("no memory");
    return start;
}

static struct file read_file(const char *name)
{
    struct file file = {NULL, 0, 0};
    FILE *stream = fopen(name, "rb");
    if (stream == NULL || fseek(stream, 0, SEEK_END) != 0)
        stop("cannot open the file of cases");
    long bytes = ftell(stream);
    if (bytes < 0 || bytes % 4 != 0)
        stop("the file of cases is not made of whole words");
    rewind(stream);
    file.length = (size_t)bytes / 4;
    file.words = block((size_t)bytes);
    for (size_t place = 0; place < file.length; place++) {
        unsigned char four[4];
        if (fread(four, 1, 4, stream) != 4)
            stop("cannot read the file of cases");
        file.words[place] = four[0] | (uint32_t)four[1] << 8 | (uint32_t)four[2] << 16 | (uint32_t)four[3] << 24;
    }
    fclose(stream);
    return file;
}

static const uint32_t *next_words(struct file *file, size_t count)
{
    if (count > file->length - file->place)
        stop("the file of cases is too short");
    file->place += count;
    return file->words + file->place - count;
}

static uint32_t next_word(struct file *file)
{
    return *next_words(file, 1);
}

static uint64_t next_wide(struct file *file)
{
    const uint32_t *words = next_words(file, 2);
    return words[0] | (uint64_t)words[1] << 32;
}

/* Any words, other ones at each call. */
static void fill_with_junk(uint32_t *words, size_t length)
{
    static uint32_t state = 1;
    for (size_t place = 0; place < length; place++) {
        state = state * 1664525 + 1013904223;
        words[place] = state & 0x10000 ? state >> 28 : state;
    }
}

static void print_words(FILE *stream, const char *name, const uint32_t *words, size_t length)
{
    fprintf(stream, "  %s:", name);
    for (size_t place = 0; place < length; place++)
        fprintf(stream, " %" PRIu32, words[place]);
    fputc('\n', stream);
}

/* Counts a failure and opens a text about it, or gives NULL when a smaller case has failed before. */
static FILE *failure(size_t size)
{
    static size_t text_length;
    counts.failed++;
    if (smallest_text != NULL && size >= smallest_size)
        return NULL;
    free(smallest_text);
    smallest_size = size;
    FILE *stream = open_memstream(&smallest_text, &text_length);
    if (stream == NULL)
        stop("no memory");
    return stream;
}

static void count_reply(uint64_t reply)
{
    counts.calls++;
    if (reply > REFUSED && reply <= REFUSED + LAST_REFUSAL)
        counts.refused[reply - REFUSED]++;
}

static void check_answer(const char *call, uint64_t wanted, uint64_t answer, const uint8_t *image, size_t bytes)
{
    count_reply(answer);
    if (answer == wanted)
        return;
    FILE *stream = failure(bytes / 4);
    if (stream == NULL)
        return;
    fprintf(stream, "%s answers %" PRIu64 ", wanted %" PRIu64 "\n  bytes:", call, answer, wanted);
    for (size_t place = 0; place < bytes; place++)
        fprintf(stream, " %d", image[place]);
    fputc('\n', stream);
    fclose(stream);
}

/* Both questions, with the bytes at an odd address: they need not stand where a word could. */
static void ask(struct file *file)
{
    size_t bytes = next_word(file);
    const uint32_t *words = next_words(file, (bytes + 3) / 4);
    uint8_t *odd = block(bytes + 1);
    for (size_t place = 0; place < bytes; place++)
        odd[place + 1] = (uint8_t)(words[place / 4] >> 8 * (place % 4));
    check_answer("board_clock", next_wide(file), board_clock(odd + 1, bytes), odd + 1, bytes);
    check_answer("board_survivors", next_wide(file), board_survivors(odd + 1, bytes), odd + 1, bytes);
    free(odd);
}

enum { WORKING, PERSISTENT, TRANSIENT, SLICES };

/* A store as it is lent to the library, as it was before the call, and as it has to be after it. */
struct store {
    size_t length[SLICES];
    uint32_t *now[SLICES];
    uint32_t *before[SLICES];
    const uint32_t *wanted[SLICES];
};

static const char *const slice_names[SLICES] = {"working", "persistent", "transient"};

static void report_recovery(const struct store *store, uint64_t wanted, uint64_t reply)
{
    FILE *stream = failure(store->length[WORKING] + store->length[PERSISTENT] + store->length[TRANSIENT]);
    if (stream == NULL)
        return;
    fprintf(stream, "board_recover replies %" PRIu64 ", wanted %" PRIu64 "\n", reply, wanted);
    for (int slice = 0; slice < SLICES; slice++) {
        fprintf(stream, " %s, %zu words\n", slice_names[slice], store->length[slice]);
        print_words(stream, "before", store->before[slice], store->length[slice]);
        print_words(stream, "wanted", store->wanted[slice], store->length[slice]);
        print_words(stream, "after ", store->now[slice], store->length[slice]);
    }
    fclose(stream);
}

/* One recover call, junk in working and transient before it. */
static void recover_once(struct file *file, struct store *store)
{
    fill_with_junk(store->now[WORKING], store->length[WORKING]);
    fill_with_junk(store->now[TRANSIENT], store->length[TRANSIENT]);
    for (int slice = 0; slice < SLICES; slice++) {
        memcpy(store->before[slice], store->now[slice], 4 * store->length[slice]);
        store->wanted[slice] = store->before[slice];
    }
    uint64_t wanted = next_wide(file);
    store->wanted[PERSISTENT] = next_words(file, store->length[PERSISTENT]);
    if (next_word(file) == 1) {
        store->wanted[WORKING] = next_words(file, store->length[WORKING]);
        store->wanted[TRANSIENT] = next_words(file, store->length[TRANSIENT]);
    }
    uint64_t reply = board_recover(store->now[WORKING], store->length[WORKING], store->now[PERSISTENT],
                                   store->length[PERSISTENT], store->now[TRANSIENT], store->length[TRANSIENT]);
    count_reply(reply);
    counts.went_on += reply == 0;
    counts.done += reply == 1;
    int differs = reply != wanted;
    for (int slice = 0; slice < SLICES; slice++)
        differs |= memcmp(store->now[slice], store->wanted[slice], 4 * store->length[slice]) != 0;
    if (differs)
        report_recovery(store, wanted, reply);
}

/* Recover calls as many as the case has; each goes on from what the file says the last one left. */
static void recover(struct file *file)
{
    struct store store;
    for (int slice = 0; slice < SLICES; slice++) {
        store.length[slice] = next_word(file);
        store.now[slice] = block(4 * store.length[slice]);
        store.before[slice] = block(4 * store.length[slice]);
    }
    const uint32_t *persistent = next_words(file, store.length[PERSISTENT]);
    for (uint32_t left = next_word(file); left > 0; left--) {
        memcpy(store.now[PERSISTENT], persistent, 4 * store.length[PERSISTENT]);
        recover_once(file, &store);
        persistent = store.wanted[PERSISTENT];
    }
    for (int slice = 0; slice < SLICES; slice++) {
        free(store.now[slice]);
        free(store.before[slice]);
    }
}

static int report(uint64_t seed)
{
    int every_reply_seen = counts.went_on > 0 && counts.done > 0;
    for (int refusal = 1; refusal <= LAST_REFUSAL; refusal++)
        every_reply_seen &= counts.refused[refusal] > 0;
    printf("%zu cases, %zu calls, refused 1: %zu 2: %zu 3: %zu 4: %zu, went on %zu, done %zu, seed %" PRIu64 "\n",
           counts.cases, counts.calls, counts.refused[1], counts.refused[2], counts.refused[3], counts.refused[4],
           counts.went_on, counts.done, seed);
    if (!every_reply_seen)
        printf("some reply was never given\n");
    if (counts.failed > 0)
        printf("%zu calls differ, the smallest:\n%s", counts.failed, smallest_text);
    free(smallest_text);
    return counts.failed > 0 || !every_reply_seen;
}

int main(int count, char **arguments)
{
    if (count != 2)
        stop("usage: questions FILE");
    struct file file = read_file(arguments[1]);
    uint64_t seed = next_wide(&file);
    for (uint32_t left = next_word(&file); left > 0; left--) {
        counts.cases++;
        switch (next_word(&file)) {
        case 1:
            ask(&file);
            break;
        case 2:
            recover(&file);
            break;
        default:
            stop("the file of cases has an unknown kind of case");
        }
    }
    if (file.place != file.length)
        stop("the file of cases is too long");
    free(file.words);
    return report(seed);
}
