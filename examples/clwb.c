/* The job of courier.c, on persistent memory that is mapped into the program (a file system mounted with dax). A line is
   made durable without a call of the system: its cache lines are written back (CLWB), and a fence waits for them (SFENCE).
   Usage: clwb FILE, one that courier has made */

#define _GNU_SOURCE

#include "board.h"

#include <cpuid.h>
#include <errno.h>
#include <fcntl.h>
#include <immintrin.h>
#include <stdio.h>
#include <stdlib.h>
#include <string.h>
#include <sys/mman.h>
#include <sys/stat.h>
#include <unistd.h>

enum { SLOTS = 128, WORDS = 4, THREADS = 1, JOB = 1001, CACHE_LINE = 64 };
enum { CLOCK = 2, HEADERS = 3, CONTENTS = HEADERS + 4 * SLOTS }; /* where they stand in an image */

static void must(const char *what, int held)
{
    if (!held) {
        fprintf(stderr, "clwb: %s: %s\n", what, strerror(errno));
        exit(1);
    }
}

static void accepted(const char *what, uint32_t refusal)
{
    if (refusal != 0) {
        fprintf(stderr, "clwb: %s: %s\n", what, board_refusal_text(refusal));
        exit(1);
    }
}

static int has_clwb(void)
{
    unsigned a, b, c, d;
    return __get_cpuid_count(7, 0, &a, &b, &c, &d) && (b & bit_CLWB) != 0;
}

/* These words are durable when it returns. They need not start with a cache line: a header can lie across two. */
__attribute__((target("clwb"))) static void flush(uint32_t *start, size_t words)
{
    char *end = (char *)(start + words), *line = (char *)start - (uintptr_t)start % CACHE_LINE;
    for (; line < end; line += CACHE_LINE)
        _mm_clwb(line);
    _mm_sfence();
}

/* Each call frees one header at most, and does not say which. */
static void recover(const struct board_store *store)
{
    uint64_t answer;
    flush(store->persistent, store->image_words); /* what a killed run stored last may still be in the caches */
    while ((answer = board_store_recover(store)) == BOARD_WENT_ON)
        flush(store->persistent + HEADERS, CONTENTS - HEADERS);
    accepted("board_recover", board_refusal_of(answer));
}

static uint32_t move_on(const struct board_store *store)
{
    uint32_t value[WORDS - 1];
    uint64_t at = board_store_read(store, 0, JOB);
    accepted("board_read", board_refusal_of(at));
    memcpy(value, board_store_value(store, at), sizeof value);
    value[2]++;
    accepted("board_begin", board_store_begin(store, 0));
    accepted("board_set", board_store_set(store, 0, JOB, value, WORDS - 1));
    accepted("board_end", board_store_end(store, 0));
    return value[2];
}

/* A tick has stored the clock, any other step a header or contents. */
static void make_lasting(const struct board_store *store)
{
    for (int ticks = 0; ticks < 2;) {
        uint64_t answer = board_store_advance(store);
        accepted("board_advance", board_refusal_of(answer));
        if (answer == BOARD_TICKED)
            flush(store->persistent + CLOCK, 1);
        else
            flush(store->persistent + HEADERS, store->image_words - HEADERS);
        ticks += answer == BOARD_TICKED;
    }
}

/* With MAP_SYNC what is flushed is durable, the file's own records too. Where the file is no such memory it says so. */
static uint32_t *map_file(const char *path, size_t bytes)
{
    struct stat status;
    int file = open(path, O_RDWR);
    must(path, file >= 0 && fstat(file, &status) == 0);
    if (status.st_size != (off_t)bytes) {
        fprintf(stderr, "clwb: %s has %lld bytes, and not %zu\n", path, (long long)status.st_size, bytes);
        exit(1);
    }
    uint32_t *start = mmap(NULL, bytes, PROT_READ | PROT_WRITE, MAP_SHARED_VALIDATE | MAP_SYNC, file, 0);
    if (start == MAP_FAILED && errno == EOPNOTSUPP) {
        printf("%s is not mapped from persistent memory: a kill is survived, a power cut is not\n", path);
        start = mmap(NULL, bytes, PROT_READ | PROT_WRITE, MAP_SHARED, file, 0);
    }
    must("mmap", start != MAP_FAILED);
    return start;
}

int main(int argc, char **argv)
{
    struct board_store store = {.image_words = board_image_words(SLOTS, WORDS),
                                .transient_words = board_transient_words(SLOTS, THREADS)};
    if (argc != 2 || !has_clwb()) {
        printf(argc != 2 ? "usage: clwb FILE\n" : "this processor has no CLWB\n");
        return argc != 2 ? 2 : 0;
    }
    store.persistent = map_file(argv[1], store.image_words * sizeof *store.persistent);
    store.working = malloc(store.image_words * sizeof *store.working);
    store.transient = malloc(store.transient_words * sizeof *store.transient);
    must("malloc", store.working != NULL && store.transient != NULL);
    recover(&store);
    uint32_t stop = move_on(&store);
    make_lasting(&store);
    must("stdout", printf("job %d is at stop %u\n", JOB, (unsigned)stop) > 0 && fflush(stdout) == 0);
    return 0;
}
