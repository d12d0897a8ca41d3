/* A host on a mapped file that is killed at any moment, within a call or within recovery, and goes on from the file.
   Its killer has chosen the calls and reads the replies in memory that both share, so it knows what has to be there.
   Usage: killed DIRECTORY SEED KILLS */

#define _GNU_SOURCE

#include "reference.h"

#include <errno.h>
#include <fcntl.h>
#include <signal.h>
#include <stdatomic.h>
#include <stdio.h>
#include <stdlib.h>
#include <string.h>
#include <sys/mman.h>
#include <sys/wait.h>
#include <time.h>
#include <unistd.h>

enum { CALLS = 1 << 15, LIVES_PER_BOARD = 25, FEWEST_SLOTS = 2, FEWEST_WORDS = 2 };
enum { LEAST_SHARE = 20 }; /* one kill in so many at least falls within a call that stores */

/* What killer and host share. A life makes the calls in turn, from its own first one. */
struct log {
    struct call calls[CALLS];
    uint64_t replies[CALLS];
    _Atomic uint32_t within, ended; /* within: the kind of the call underway, or CALL_KINDS */
    char wrong[120];
};

struct killer {
    char path[4096];
    struct log *log;
    struct store store;          /* persistent: the file, mapped by the killer too */
    uint64_t random, seed, life;
    uint64_t junk;               /* other random numbers: how many are asked for depends on where kills fall */
    uint32_t first, nanoseconds; /* the life's first call, and when it is killed, from the start of recovery */
    bool written_back;           /* on this board the memory copies words by itself */
    struct reference reference;
    uint64_t calls, changes, kept, torn[2], kills[CALL_KINDS + 1]; /* kills by call, then between calls */
};

static void stop(const char *what)
{
    perror(what);
    exit(2);
}

static uint32_t *map_file(const char *path, size_t words)
{
    int file = open(path, O_RDWR | O_CREAT, 0600);
    if (file < 0 || ftruncate(file, (off_t)(words * sizeof(uint32_t))) != 0)
        stop(path);
    uint32_t *start = mmap(NULL, words * sizeof *start, PROT_READ | PROT_WRITE, MAP_SHARED, file, 0);
    if (start == MAP_FAILED)
        stop("mmap");
    close(file);
    return start;
}

/* ---- The host ---- */

/* A call, and in the log that it is underway. */
static uint64_t logged(struct log *log, const struct store *s, const struct call *call)
{
    atomic_store_explicit(&log->within, call->kind, memory_order_release);
    return make_call(s, call);
}

/* Recovers the file, and says what is wrong with it. */
static const char *recover(const struct killer *k, const struct store *s)
{
    const struct call call = {.kind = CALL_RECOVER};
    uint32_t found[MOST_IMAGE];
    uint64_t reply = BOARD_WENT_ON;
    memcpy(found, s->persistent, s->image * sizeof *found);
    for (size_t went_on = 0; reply == BOARD_WENT_ON; went_on++) {
        if (went_on > s->slots)
            return "recovery goes on more often than there are slots";
        reply = logged(k->log, s, &call);
        atomic_store_explicit(&k->log->within, CALL_KINDS, memory_order_release);
    }
    if (reply != BOARD_DONE)
        return board_refusal_text(board_refusal_of(reply));
    if (memcmp(s->working, s->persistent, s->image * sizeof *found) != 0)
        return "working is no copy of persistent";
    return wrong_after(s, found, s->persistent, &k->reference.start);
}

/* A timer of the kernel sends the signal, since the killer itself might not get a processor in time. */
static void kill_me_after(uint32_t nanoseconds)
{
    struct sigevent event = {.sigev_notify = SIGEV_SIGNAL, .sigev_signo = SIGKILL};
    const struct itimerspec when = {.it_value.tv_nsec = nanoseconds};
    timer_t timer;
    if (timer_create(CLOCK_MONOTONIC, &event, &timer) != 0 || timer_settime(timer, 0, &when, NULL) != 0)
        stop("timer");
}

/* One life of the host: it ends by a signal. */
static void live(const struct killer *k)
{
    static uint32_t working[MOST_IMAGE], transient[MOST_NOTES];
    struct log *log = k->log;
    struct store s = k->store;
    uint64_t random = k->junk;
    s.persistent = map_file(k->path, s.image);
    s.working = working;
    s.transient = transient;
    junk(&random, working, s.image);
    junk(&random, transient, s.notes);
    kill_me_after(k->nanoseconds);
    const char *wrong = recover(k, &s);
    if (wrong != NULL) {
        strncpy(log->wrong, wrong, sizeof log->wrong - 1);
        _exit(1);
    }
    for (uint32_t i = 0; i < CALLS; i++) {
        log->replies[i] = logged(log, &s, &log->calls[(k->first + i) % CALLS]);
        atomic_store_explicit(&log->ended, i + 1, memory_order_release);
        atomic_store_explicit(&log->within, CALL_KINDS, memory_order_release);
    }
    for (;;)
        pause();
}

/* ---- Its killer ---- */

static void stop_wrong(const struct killer *k, const char *what, const struct jobs *due)
{
    const struct log *log = k->log;
    const char *within = log->within < CALL_KINDS ? call_names[log->within] : "no call";
    printf("%s: life %llu, %u calls ended, killed within %s; ", what, (unsigned long long)k->life, (unsigned)log->ended,
           within);
    printf("%u slots, %u words, seed %llu\n", (unsigned)k->store.slots, (unsigned)k->store.words,
           (unsigned long long)k->seed);
    print_image(&k->store, k->store.persistent, due);
    exit(1);
}

/* A fresh board in the file, and calls for its lives. */
static void new_board(struct killer *k)
{
    const uint32_t weights[CALL_KINDS] = {
        [CALL_BEGIN] = 20, [CALL_END] = 20, [CALL_NEW] = 12, [CALL_SET] = 12, [CALL_DELETE] = 12, [CALL_BATCH] = 6,
        [CALL_READ] = 2, [CALL_READ_REFUSAL] = 1, [CALL_APPEND] = 8, [CALL_TAKE] = 8, [CALL_LOOK] = 2,
        [CALL_LOOK_REFUSAL] = 1, [CALL_ADVANCE] = 60, [CALL_SYNC] = 4, [CALL_WRITE_BACK] = k->written_back ? 4 : 0,
    };
    static const uint32_t ranges[] = {3, 8, 20, 50, MOST_SLOTS - FEWEST_SLOTS + 1};
    static uint32_t working[MOST_IMAGE], transient[MOST_NOTES];
    struct store *s = &k->store;
    if (s->persistent != NULL)
        munmap(s->persistent, s->image * sizeof *s->persistent);
    uint32_t range = ranges[below(&k->random, sizeof ranges / sizeof *ranges)];
    *s = store_of(FEWEST_SLOTS + below(&k->random, range),
                  FEWEST_WORDS + below(&k->random, MOST_WORDS - FEWEST_WORDS + 1), 1 + below(&k->random, MOST_THREADS));
    s->persistent = map_file(k->path, s->image);
    s->working = working;
    s->transient = transient;
    if (board_format(STORE(s), s->slots, s->words) != 0) {
        printf("format declines\n");
        exit(1);
    }
    restart(&k->reference, &(struct jobs){0}, s->persistent[CLOCK]);
    struct call call = {.kind = CALL_BEGIN};
    for (size_t i = 0; i < CALLS; i++)
        k->log->calls[i] = call = choose_call(&k->random, s, weights, &call);
}

/* Starts the host, which is killed within some microseconds. */
static void kill_one(struct killer *k)
{
    static const uint32_t microseconds[] = {20, 100, 400, 1600};
    struct log *log = k->log;
    int status;
    k->first = below(&k->random, CALLS);
    uint32_t range = microseconds[below(&k->random, sizeof microseconds / sizeof *microseconds)];
    k->nanoseconds = 1 + below(&k->random, 1000 * range);
    log->ended = 0;
    log->within = CALL_KINDS;
    pid_t host = fork();
    if (host == 0)
        live(k);
    if (host < 0)
        stop("fork");
    while (waitpid(host, &status, 0) != host)
        if (errno != EINTR)
            stop("waitpid");
    if (log->wrong[0] != 0)
        stop_wrong(k, log->wrong, &k->reference.start);
    if (!WIFSIGNALED(status) || WTERMSIG(status) != SIGKILL)
        stop_wrong(k, "the host ended by itself", &k->reference.start);
}

/* Holds the file as it was found to the calls of the life that ended, and starts the reference map from there. */
static void hold(struct killer *k)
{
    struct reference *r = &k->reference;
    const struct log *log = k->log;
    uint32_t clock = k->store.persistent[CLOCK], ended = log->ended, within = log->within, ticks = 0;
    struct jobs due;
    for (uint32_t i = 0; i < ended; i++)
        replied(r, &log->calls[(k->first + i) % CALLS], log->replies[i]);
    due_at(r, clock, &due);
    if (within == CALL_ADVANCE || within == CALL_SYNC)
        ticks = within == CALL_ADVANCE ? 1 : 2;
    if (clock < r->clock || clock > r->clock + ticks)
        stop_wrong(k, "the clock is not the plain board's", &due);
    for (size_t i = 0; i < r->changes; i++) {
        bool kept = (uint64_t)r->row[i].epoch + 2 <= clock;
        if (i < r->synced && !kept)
            stop_wrong(k, "a sync replied, and a cut can still take an earlier change", &due);
        k->kept += kept;
    }
    const char *wrong = wrong_recovery(&k->store, k->store.persistent, &due, &k->junk);
    if (wrong != NULL)
        stop_wrong(k, wrong, &due);
    k->calls += ended;
    k->changes += r->changes;
    k->torn[k->written_back] += torn_headers(&k->store, k->store.persistent) > 0;
    k->kills[within]++;
    restart(r, &due, clock);
}

static int report(const struct killer *k, uint64_t kills)
{
    uint64_t storing = k->kills[CALL_ADVANCE] + k->kills[CALL_SYNC] + k->kills[CALL_RECOVER];
    printf("killed within");
    for (size_t i = 0; i < CALL_KINDS; i++)
        printf(" %s %llu,", call_names[i], (unsigned long long)k->kills[i]);
    printf(" no call %llu\n", (unsigned long long)k->kills[CALL_KINDS]);
    printf("%llu changes, %llu of them in lists, %llu kept; torn headers in %llu files, and in %llu where no word was "
           "written back\n", (unsigned long long)k->changes, (unsigned long long)k->reference.batched,
           (unsigned long long)k->kept, (unsigned long long)k->torn[true], (unsigned long long)k->torn[false]);
    if (k->reference.batched < kills / LEAST_SHARE) {
        printf("too few changes in lists\n");
        return 1;
    }
    if (storing < kills / LEAST_SHARE || k->kept == 0 || k->kept == k->changes) {
        printf("too few kills within advance, sync and recover, or none that took a change or left one\n");
        return 1;
    }
    printf("%llu kills, %llu of them within advance, sync or recover; %llu calls, seed %llu\n",
           (unsigned long long)kills, (unsigned long long)storing, (unsigned long long)k->calls,
           (unsigned long long)k->seed);
    return 0;
}

int main(int argc, char **argv)
{
    static struct killer k;
    if (argc != 4) {
        printf("usage: killed DIRECTORY SEED KILLS\n");
        return 2;
    }
    snprintf(k.path, sizeof k.path, "%s/killed.board", argv[1]);
    k.seed = k.random = k.junk = strtoull(argv[2], NULL, 10);
    uint64_t kills = strtoull(argv[3], NULL, 10);
    k.log = mmap(NULL, sizeof *k.log, PROT_READ | PROT_WRITE, MAP_SHARED | MAP_ANONYMOUS, -1, 0);
    if (k.log == MAP_FAILED)
        stop("mmap");
    for (k.life = 0; k.life < kills; k.life++) {
        if (k.life % LIVES_PER_BOARD == 0) {
            k.written_back = !k.written_back;
            new_board(&k);
        }
        kill_one(&k);
        hold(&k);
    }
    unlink(k.path);
    return report(&k, kills);
}
