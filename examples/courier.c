/* A job that moves on by one stop each time the program runs. A file stands in for lasting memory: a power cut or a
   kill at any moment, also while the file is made, takes back nothing that was printed.
   Usage: courier, in the directory that has jobs.board or is to have it */

#include "board.h"

#include <errno.h>
#include <fcntl.h>
#include <stdio.h>
#include <stdlib.h>
#include <string.h>
#include <sys/file.h>
#include <sys/mman.h>
#include <sys/stat.h>
#include <unistd.h>

enum { SLOTS = 128, WORDS = 4, THREADS = 1, JOB = 1001 };

static const char name[] = "jobs.board", unfinished[] = "jobs.board.new";

/* Ends the program where a call of the system fails. */
static void must(const char *what, int held)
{
    if (!held) {
        fprintf(stderr, "courier: %s: %s\n", what, strerror(errno));
        exit(1);
    }
}

/* Ends it where a call on the board declines. */
static void accepted(const char *what, uint32_t refusal)
{
    if (refusal != 0) {
        fprintf(stderr, "courier: %s: %s\n", what, board_refusal_text(refusal));
        exit(1);
    }
}

/* ---- The heart of it ---- */

static void flush(const struct board_store *store)
{
    size_t bytes = store->image_words * sizeof *store->persistent;
    must("msync", msync(store->persistent, bytes, MS_SYNC) == 0);
}

/* The last run was cut or killed, or came to its end: it is the same thing. */
static void recover(const struct board_store *store)
{
    uint64_t answer;
    flush(store); /* what a killed run stored last may not be durable yet */
    while ((answer = board_store_recover(store)) == BOARD_WENT_ON)
        flush(store);
    accepted("board_recover", board_refusal_of(answer));
}

/* Moves the job on by one stop, or opens it at the first. The answer is the stop. */
static uint32_t move_on(const struct board_store *store)
{
    uint32_t value[WORDS - 1] = {7, 212, 1}; /* courier, address, stop */
    uint64_t at = board_store_read(store, 0, JOB);
    accepted("board_begin", board_store_begin(store, 0));
    if (at < BOARD_REFUSED) {
        value[2] = board_store_value(store, at)[2] + 1;
        accepted("board_set", board_store_set(store, 0, JOB, value, WORDS - 1));
    } else {
        accepted("board_new", board_store_new(store, 0, JOB, value, WORDS - 1));
    }
    accepted("board_end", board_store_end(store, 0));
    return value[2];
}

/* Two ticks on, what was done before is safe. Each call stores one line, which is flushed before the next. */
static void make_lasting(const struct board_store *store)
{
    for (int ticks = 0; ticks < 2;) {
        uint64_t answer = board_store_advance(store);
        accepted("board_advance", board_refusal_of(answer));
        flush(store);
        ticks += answer == BOARD_TICKED;
    }
}

/* ---- The memory ---- */

static uint32_t *block(size_t words)
{
    uint32_t *start = malloc(words * sizeof *start);
    must("malloc", start != NULL);
    return start;
}

static void write_all(int file, const void *bytes, size_t count)
{
    for (size_t done = 0; done < count;) {
        ssize_t written = write(file, (const char *)bytes + done, count - done);
        must("write", written > 0);
        done += (size_t)written;
    }
}

/* Makes the file under another name and renames it when it is whole and durable. What a run left that was killed
   here is written over. */
static void make_file(const struct board_store *store)
{
    struct board_store fresh = *store;
    fresh.persistent = block(fresh.image_words);
    accepted("board_format", board_store_format(&fresh, SLOTS, WORDS));
    int file = open(unfinished, O_WRONLY | O_CREAT | O_TRUNC, 0600);
    must("open jobs.board.new", file >= 0);
    write_all(file, fresh.persistent, fresh.image_words * sizeof *fresh.persistent);
    must("fsync jobs.board.new", fsync(file) == 0);
    must("close jobs.board.new", close(file) == 0);
    must("rename jobs.board.new", rename(unfinished, name) == 0);
    free(fresh.persistent);
}

/* A file of another size is of other SLOTS or WORDS, or of an older layout: it is left as it is. */
static uint32_t *map_file(int file, size_t bytes)
{
    struct stat status;
    must("fstat jobs.board", fstat(file, &status) == 0);
    if (status.st_size != (off_t)bytes) {
        fprintf(stderr, "courier: jobs.board has %lld bytes, and not %zu\n", (long long)status.st_size, bytes);
        exit(1);
    }
    uint32_t *start = mmap(NULL, bytes, PROT_READ | PROT_WRITE, MAP_SHARED, file, 0);
    must("mmap jobs.board", start != MAP_FAILED);
    return start;
}

/* The store, with its file found or made. */
static struct board_store open_store(void)
{
    struct board_store store = {.image_words = board_image_words(SLOTS, WORDS),
                                .transient_words = board_transient_words(SLOTS, THREADS)};
    store.working = block(store.image_words);
    store.transient = block(store.transient_words);
    int directory = open(".", O_RDONLY | O_DIRECTORY);
    must("open the directory", directory >= 0);
    must("flock the directory", flock(directory, LOCK_EX | LOCK_NB) == 0); /* one courier at a time */
    int file = open(name, O_RDWR);
    if (file < 0 && errno == ENOENT) {
        make_file(&store);
        file = open(name, O_RDWR);
    }
    must("open jobs.board", file >= 0);
    must("fsync the directory", fsync(directory) == 0); /* each time: a run may have been killed after its rename */
    store.persistent = map_file(file, store.image_words * sizeof *store.persistent);
    return store;
}

int main(void)
{
    struct board_store store = open_store();
    recover(&store);
    uint32_t stop = move_on(&store);
    make_lasting(&store);
    must("stdout", printf("job %d is at stop %u\n", JOB, (unsigned)stop) > 0 && fflush(stdout) == 0);
    return 0;
}
