/* How many slots a read compares, counted from outside: each read is made under valgrind's lackey, which names every address
   that is loaded, and a slot counts once where any word of its header or contents in working was. On a fresh board of
   1,024 slots given jobs 1 to 1,000 no read may compare more than LIMIT slots, 8 if not said; other sets of 1,000 keys are
   counted too, and told.
   Usage: lookups DIRECTORY [LIMIT], for a file of stores there. It starts itself under valgrind as lookups reads FILE. */

#define _GNU_SOURCE

#include "store.h"

#include <fcntl.h>
#include <inttypes.h>
#include <signal.h>
#include <stdbool.h>
#include <sys/mman.h>
#include <sys/wait.h>
#include <unistd.h>

enum { SLOTS = 1024, WORDS = 4, THREADS = 4, VALUE_WORDS = WORDS - 1, JOBS = 1000, ABSENT = 100, OPEN_THREAD = 1 };
enum { PREFIX = 3, HEADERS = 4 * SLOTS, CONTENTS = PREFIX + HEADERS, IMAGE = CONTENTS + WORDS * SLOTS };

/* Steps of 1, 2, 4, .. 2^22, of which 2^10 is the number of buckets; then steps of a prime; then any keys. */
enum { POWERS = 23, PRIME_STEPS = POWERS, ANY_KEYS, SETS };
enum { PRIME = 1021, SEED = 20261115 };

/* Where the traced process has its working image, and the words that it stores to around a read. */
#define WORKING_AT UINT64_C(0x200000000)
#define MARKS_AT UINT64_C(0x210000000)
enum { READ_BEGINS, READ_ENDS, SET_ENDS, MARKS };

static void die(const char *what)
{
    perror(what);
    exit(2);
}

static uint32_t step_of(size_t set) { return set == PRIME_STEPS ? (uint32_t)PRIME : UINT32_C(1) << set; }

/* A read by a thread with an open operation compares all slots that have to do with the key, as one of them may be newer.
   Keys of the first set, and some that are absent there, are read by a thread without one too. */
static uint32_t first_thread(size_t set) { return set == 0 ? 0 : OPEN_THREAD; }
static uint32_t absent_keys(size_t set) { return set == 0 ? ABSENT : 0; }
static size_t reads_of_jobs(size_t set) { return (OPEN_THREAD + 1 - first_thread(set)) * JOBS; }
static size_t reads_of_all(size_t set) { return (OPEN_THREAD + 1 - first_thread(set)) * (JOBS + absent_keys(set)); }

/* The keys of a set, and those after them that are absent; no key comes twice. */
static void keys_of(size_t set, uint32_t *keys)
{
    uint32_t any = SEED; /* xorshift */
    for (uint32_t i = 0; i < JOBS + ABSENT; i++) {
        any ^= any << 13;
        any ^= any >> 17;
        any ^= any << 5;
        keys[i] = set == ANY_KEYS ? any : 1 + i * step_of(set);
    }
}

/* ---- The stores, made without a trace */

static void filled(struct store *s, const uint32_t *keys)
{
    const uint32_t value[VALUE_WORDS] = {7, 8, 9};
    same("format", board_format(STORE(s), SLOTS, WORDS), 0);
    same("begin", board_begin(STORE(s), 0), 0);
    for (size_t i = 0; i < JOBS; i++)
        same("new", board_new(STORE(s), 0, keys[i], value, VALUE_WORDS), 0);
    same("end", board_end(STORE(s), 0), 0);
    same("begin", board_begin(STORE(s), OPEN_THREAD), 0);
}

static void fill(const char *file)
{
    struct store s = new_store(SLOTS, WORDS, THREADS);
    uint32_t keys[JOBS + ABSENT];
    FILE *to = fopen(file, "wb");
    if (to == NULL)
        die(file);
    for (size_t set = 0; set < SETS; set++) {
        keys_of(set, keys);
        filled(&s, keys);
        if (fwrite(s.working, sizeof *s.working, s.image, to) != s.image ||
            fwrite(s.persistent, sizeof *s.persistent, s.image, to) != s.image ||
            fwrite(s.transient, sizeof *s.transient, s.notes, to) != s.notes)
            die(file);
    }
    if (fclose(to) != 0)
        die(file);
    free_store(&s);
}

/* ---- The reads, which are traced */

static void *at(uint64_t address, size_t bytes)
{
    void *there = mmap((void *)(uintptr_t)address, bytes, PROT_READ | PROT_WRITE, MAP_PRIVATE | MAP_ANONYMOUS, -1, 0);
    if ((uintptr_t)there != address)
        die("mmap");
    return there;
}

static void get(int from, uint32_t *words, size_t count)
{
    if (read(from, words, count * sizeof *words) != (ssize_t)(count * sizeof *words))
        die("read");
}

static volatile uint32_t *marks;

/* The job of that key stands in slot i, or there is none. */
static bool one_read(const struct store *s, uint32_t thread, uint32_t key, size_t i)
{
    marks[READ_BEGINS] = 1;
    uint64_t answer = board_read(STORE(s), thread, key);
    marks[READ_ENDS] = 1;
    return answer == (i < JOBS ? CONTENTS + WORDS * i + 1 : BOARD_REFUSED + BOARD_NO_JOB);
}

/* The jobs first, then the absent keys. */
static bool all_reads(const struct store *s, size_t set)
{
    uint32_t keys[JOBS + ABSENT];
    bool right = true;
    keys_of(set, keys);
    for (size_t i = 0; i < JOBS + absent_keys(set); i++)
        for (uint32_t thread = first_thread(set); thread <= OPEN_THREAD; thread++)
            right = one_read(s, thread, keys[i], i) && right;
    marks[SET_ENDS] = 1;
    return right;
}

static int reads(const char *file)
{
    struct store s = blocks(SLOTS, WORDS, THREADS, IMAGE);
    int from = open(file, O_RDONLY);
    bool right = from >= 0;
    free(s.working);
    s.working = at(WORKING_AT, IMAGE * sizeof *s.working);
    marks = at(MARKS_AT, MARKS * sizeof *marks);
    for (size_t set = 0; set < SETS; set++) {
        get(from, s.working, s.image);
        get(from, s.persistent, s.image);
        get(from, s.transient, s.notes);
        right = all_reads(&s, set) && right;
    }
    return right ? 0 : 1;
}

/* ---- The trace, counted */

static FILE *traced(const char *self, const char *file, pid_t *child)
{
    int ends[2];
    if (pipe(ends) != 0 || (*child = fork()) < 0)
        die("fork");
    if (*child == 0) {
        char log[30];
        snprintf(log, sizeof log, "--log-fd=%d", ends[1]);
        close(ends[0]);
        execlp("valgrind", "valgrind", "--tool=lackey", "--trace-mem=yes", "--basic-counts=no", log, self, "reads", file,
               (char *)NULL);
        die("valgrind");
    }
    close(ends[1]);
    return fdopen(ends[0], "r");
}

/* The slot that a word of working belongs to, SLOTS for the sizes and the clock. */
static size_t slot_of(size_t word)
{
    if (word < PREFIX)
        return SLOTS;
    return word < CONTENTS ? (word - PREFIX) / 4 : (word - CONTENTS) / WORDS;
}

/* The slots that the read underway has compared, and what the reads of this set came to. */
static struct {
    bool met[SLOTS];
    size_t met_count, reads, most, sum, of_none;
} count;

static size_t most_of_first, most_of_any;

static void loaded(uint64_t address, uint64_t bytes)
{
    for (uint64_t byte = address; byte < address + bytes; byte++) {
        if (byte < WORKING_AT || byte >= WORKING_AT + 4 * IMAGE)
            continue;
        size_t slot = slot_of((byte - WORKING_AT) / 4);
        if (slot < SLOTS && !count.met[slot]) {
            count.met[slot] = true;
            count.met_count++;
        }
    }
}

/* A job that was read has been compared: a trace without that does not show what is loaded. */
static void read_ends(size_t set)
{
    count.of_none += count.reads < reads_of_jobs(set) && count.met_count == 0;
    count.reads++;
    count.sum += count.met_count;
    count.most = count.met_count > count.most ? count.met_count : count.most;
}

static void set_ends(size_t set, size_t limit)
{
    if (set == ANY_KEYS)
        printf("any keys");
    else
        printf("keys from 1 in steps of %u", step_of(set));
    printf(": a read compares %zu slots at most, %.2f on average\n", count.most, (double)count.sum / (double)count.reads);
    same("the reads in the trace", count.reads, reads_of_all(set));
    same("reads of a job that compare no slot", count.of_none, 0);
    most_of_any = count.most > most_of_any ? count.most : most_of_any;
    if (set == 0) {
        most_of_first = count.most;
        same("slots above the limit", count.most > limit ? count.most - limit : 0, 0);
    }
}

static size_t counted(FILE *trace, size_t limit)
{
    char line[200], kind;
    uint64_t address, bytes;
    size_t set = 0;
    while (fgets(line, sizeof line, trace) != NULL) {
        if (line[0] != ' ' || sscanf(line, " %c %" SCNx64 ",%" SCNu64, &kind, &address, &bytes) != 3)
            continue; /* an instruction, or a word of valgrind's */
        if (kind == 'L' || kind == 'M')
            loaded(address, bytes);
        if (kind == 'L' || address < MARKS_AT || address >= MARKS_AT + 4 * MARKS)
            continue;
        if (address == MARKS_AT + 4 * READ_BEGINS) {
            memset(count.met, 0, sizeof count.met);
            count.met_count = 0;
        } else if (address == MARKS_AT + 4 * READ_ENDS) {
            read_ends(set);
        } else {
            set_ends(set++, limit);
            memset(&count, 0, sizeof count);
            if (failed > 0)
                break; /* the trace of a walk is long */
        }
    }
    return set;
}

int main(int argc, char **argv)
{
    char file[4096];
    pid_t child;
    int status;
    if (argc == 3 && strcmp(argv[1], "reads") == 0)
        return reads(argv[2]);
    if (argc < 2 || argc > 3)
        return fprintf(stderr, "usage: lookups DIRECTORY [LIMIT]\n"), 2;
    snprintf(file, sizeof file, "%s/lookups.stores", argv[1]);
    fill(file);
    FILE *trace = traced(argv[0], file, &child);
    const size_t sets = counted(trace, argc == 3 ? strtoul(argv[2], NULL, 10) : 8);
    if (failed > 0)
        kill(child, SIGKILL);
    if (waitpid(child, &status, 0) != child)
        die("waitpid");
    if (failed == 0) {
        same("sets in the trace", sets, SETS);
        same("the end of the traced reads, 0 where all of their answers are right", (uint64_t)status, 0);
    }
    unlink(file);
    printf("a read of keys 1 to %d compares %zu slots at most, of %d such sets %zu, %zu answers, %zu wrong\n", JOBS,
           most_of_first, SETS, most_of_any, calls, failed);
    return failed > 0;
}
