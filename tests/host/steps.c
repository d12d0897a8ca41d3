/* A host whose power is cut after every machine instruction that stores into persistent, within a line's store and
   within recovery too, and between the words of a line in any order. Every image that this leaves is recovered and held
   to the reference map.

   The calls are made by a tracee that may not write to the page of persistent. An instruction that stores there faults;
   the tracer then lets it write, steps over this one instruction and looks at what it did. Some calls are stepped
   through from end to end instead, which shows that nothing is stored unseen.
   Usage: steps SEED CALLS */

#define _GNU_SOURCE

#include "reference.h"

#include <signal.h>
#include <stdio.h>
#include <stdlib.h>
#include <string.h>
#include <sys/mman.h>
#include <sys/ptrace.h>
#include <sys/syscall.h>
#include <sys/user.h>
#include <sys/wait.h>
#include <unistd.h>

#ifndef __x86_64__
#error "the registers and instructions are those of x86-64"
#endif

enum { FEWEST_SLOTS = 2, STEPPED_SLOTS = 6, FEWEST_WORDS = 2, STEPPED_THREADS = 3, CUTS_PER_BOARD = 8 };
enum { LEAST = 100 }; /* of each kind of store */
enum { ALL_MIXES_UP_TO = 4, SOME_MIXES = 24 }; /* up to so many changed words: all mixes; else so many */
enum { CALL_CUT = 100, MIX_CUT = 500, RECOVERY_CUT = 8, IDLE_CUT = 150 }; /* a run is cut at one image in so many */
enum { STEPPED_SHARE = 32, ENDLESS = 1000000 }; /* one call in so many is stepped through; steps that are too many */
enum { PAGE = 4096 };
#define NONE SIZE_MAX

enum counted {
    CONTENTS, HEADER, FREED, TICK, RECOVERY_FREED, WRITTEN_BACK, MIXED, TORN, CUT_IN_CALL, CUT_IN_MIX, CUT_IN_RECOVERY,
    CUT_BETWEEN, SAVED_AGAIN, COUNTED
};

static const char *const counted_names[COUNTED] = {
    "contents", "headers", "freed headers", "clocks", "headers freed by recovery", "words written back",
    "mixes of a line's words", "images with a torn header", "runs cut within a call", "runs cut within a mix",
    "recoveries cut", "runs cut between calls", "values saved again without room",
};

/* What tracer and tracee share. */
struct shared {
    volatile uint32_t within; /* the tracee is in a call */
    struct call call;
    volatile uint64_t reply; /* is there when `within` is 0 again */
    struct store store;
    uint32_t memory[MOST_IMAGE + MOST_NOTES + 8];
    _Alignas(PAGE) uint32_t lasting[PAGE / sizeof(uint32_t)]; /* a page of its own, for persistent */
};

_Static_assert(4 * (4 + PREFIX + (HEADER_WORDS + MOST_WORDS) * STEPPED_SLOTS) <= PAGE, "persistent fits the page");

/* The tracer's view of the call underway, and what it has counted. */
struct tracer {
    struct shared *m;
    pid_t tracee;
    uint64_t random, seed;
    struct reference reference;
    uint32_t last[MOST_IMAGE];        /* persistent after the last instruction */
    uint32_t line_before[MOST_IMAGE]; /* persistent before the line's store underway */
    uint32_t line_working[MOST_IMAGE];
    size_t line, lines;               /* the line whose store is underway, or NONE; lines in this call */
    uint32_t changes[MOST_IMAGE];     /* of each word in this call */
    size_t stepped, stores, ticks;    /* in this call: instructions stepped over, those that stored, clocks stored */
    bool cut;
    uint32_t cut_image[MOST_IMAGE];
    uint64_t calls, calls_stepped, instructions, storing, recovered, counts[COUNTED];
};

/* ---- The tracee ---- */

/* Here the tracer makes the tracee do a system call. */
extern const char system_call[], __executable_start[];
__asm__(".text\nsystem_call: syscall\nint3\n");

static void make_calls(struct shared *m)
{
    if (ptrace(PTRACE_TRACEME, 0, NULL, NULL) != 0)
        _exit(2);
    for (;;) {
        __asm__ volatile("int3" ::: "memory"); /* the tracer writes the next call here */
        m->within = 1;
        m->reply = make_call(&m->store, &m->call);
        m->within = 0;
    }
}

/* ---- The tracer ---- */

static void stop_wrong(const struct tracer *t, const char *what, size_t position, const uint32_t *image)
{
    const struct store *s = &t->m->store;
    struct user_regs_struct registers;
    struct jobs due;
    printf("%s: call %llu, %s, step %zu", what, (unsigned long long)t->calls, call_names[t->m->call.kind], t->stepped);
    if (ptrace(PTRACE_GETREGS, t->tracee, NULL, &registers) == 0)
        printf(", before the instruction at %llx", registers.rip - (unsigned long long)(uintptr_t)__executable_start);
    if (position != NONE)
        printf(", word %zu", position);
    printf("; %u slots, %u words, seed %llu\n", (unsigned)s->slots, (unsigned)s->words, (unsigned long long)t->seed);
    due_at(&t->reference, image[CLOCK], &due);
    print_image(s, image, &due);
    exit(1);
}

static void traced(long answer)
{
    if (answer < 0) {
        perror("ptrace");
        exit(2);
    }
}

/* Lets the tracee go on. True where a store into persistent faults, false at a step or a mark. */
static bool faults(const struct tracer *t, int request)
{
    int status;
    siginfo_t signal;
    traced(ptrace(request, t->tracee, NULL, NULL));
    traced(waitpid(t->tracee, &status, 0));
    if (WIFSTOPPED(status) && WSTOPSIG(status) == SIGTRAP)
        return false;
    if (!WIFSTOPPED(status) || WSTOPSIG(status) != SIGSEGV)
        stop_wrong(t, "the tracee ended, or got a signal", NONE, t->m->store.persistent);
    traced(ptrace(PTRACE_GETSIGINFO, t->tracee, NULL, &signal));
    if ((uintptr_t)signal.si_addr - (uintptr_t)t->m->lasting >= PAGE)
        stop_wrong(t, "an access to memory that was not lent", NONE, t->m->store.persistent);
    return true;
}

/* What the tracee may do with the page of persistent. */
static void protect(const struct tracer *t, int protection)
{
    struct user_regs_struct before, registers;
    traced(ptrace(PTRACE_GETREGS, t->tracee, NULL, &before));
    registers = before;
    registers.rip = (uintptr_t)system_call;
    registers.rax = SYS_mprotect;
    registers.rdi = (uintptr_t)t->m->lasting;
    registers.rsi = PAGE;
    registers.rdx = (unsigned long long)protection;
    traced(ptrace(PTRACE_SETREGS, t->tracee, NULL, &registers));
    faults(t, PTRACE_CONT);
    traced(ptrace(PTRACE_GETREGS, t->tracee, NULL, &registers));
    traced((long)registers.rax);
    traced(ptrace(PTRACE_SETREGS, t->tracee, NULL, &before));
}

static bool may_store(enum call_kind kind)
{
    return kind == CALL_ADVANCE || kind == CALL_SYNC || kind == CALL_WRITE_BACK || kind == CALL_RECOVER;
}

/* The line of a word: the clock, then headers, then contents; NONE for the sizes. */
static size_t line_of(const struct store *s, size_t position)
{
    if (position < PREFIX)
        return position == CLOCK ? 0 : NONE;
    if (position < contents_at(s, 0))
        return 1 + (position - PREFIX) / HEADER_WORDS;
    return 1 + s->slots + (position - contents_at(s, 0)) / s->words;
}

/* The power is cut with this image. Now and then the run is cut here. */
static void cut_here(struct tracer *t, const uint32_t *image, enum counted sort)
{
    const struct store *s = &t->m->store;
    bool recovering = t->m->call.kind == CALL_RECOVER;
    uint32_t chance = recovering ? RECOVERY_CUT : sort == CUT_IN_MIX ? MIX_CUT : CALL_CUT;
    struct jobs due;
    due_at(&t->reference, image[CLOCK], &due);
    const char *wrong = wrong_recovery(s, image, &due, &t->random);
    if (wrong != NULL)
        stop_wrong(t, wrong, NONE, image);
    t->recovered++;
    t->counts[TORN] += torn_headers(s, image) > 0;
    if (!t->cut && below(&t->random, chance) == 0) {
        t->cut = true;
        memcpy(t->cut_image, image, s->image * sizeof *image);
        t->counts[recovering ? CUT_IN_RECOVERY : sort]++;
    }
}

/* The line's words in another order: some are as before its store, some as after it. */
static void cut_within_line(struct tracer *t)
{
    const struct store *s = &t->m->store;
    size_t changed[MOST_WORDS], count = 0;
    uint32_t mix[MOST_IMAGE];
    for (size_t i = 0; i < s->image; i++)
        if (t->line_before[i] != t->last[i])
            changed[count++] = i;
    uint32_t all = UINT32_C(1) << count, tried = count <= ALL_MIXES_UP_TO ? all : SOME_MIXES;
    for (uint32_t i = 0; i < tried; i++) {
        uint32_t stored = count <= ALL_MIXES_UP_TO ? i : below(&t->random, all);
        if (stored == 0 || stored == all - 1)
            continue;
        memcpy(mix, t->line_before, s->image * sizeof *mix);
        for (size_t k = 0; k < count; k++)
            if (stored >> k & 1)
                mix[changed[k]] = t->last[changed[k]];
        t->counts[MIXED]++;
        cut_here(t, mix, CUT_IN_MIX);
    }
}

/* The store of a line is over: persistent has it as working has, or as zeros where recovery freed it. */
static void leave_line(struct tracer *t)
{
    const struct store *s = &t->m->store;
    if (t->line == NONE)
        return;
    for (size_t i = 0; i < s->image && t->m->call.kind != CALL_WRITE_BACK; i++)
        if (line_of(s, i) == t->line && t->last[i] != (t->m->call.kind == CALL_RECOVER ? 0 : s->working[i]))
            stop_wrong(t, "the line is not stored whole", i, t->last);
    cut_within_line(t);
    t->line = NONE;
}

static void enter_line(struct tracer *t, size_t position)
{
    const struct store *s = &t->m->store;
    size_t line = line_of(s, position);
    if (line == NONE)
        stop_wrong(t, "a size of the image changed", position, s->persistent);
    if (line == t->line) {
        if (memcmp(t->line_working, s->working, s->image * sizeof *s->working) != 0)
            stop_wrong(t, "working changed within the line's store", position, s->persistent);
        return;
    }
    if (t->lines++ > 0 && t->m->call.kind != CALL_SYNC)
        stop_wrong(t, "a second line changed in one call", position, s->persistent);
    leave_line(t);
    memcpy(t->line_before, t->last, s->image * sizeof *t->last);
    memcpy(t->line_working, s->working, s->image * sizeof *s->working);
    t->line = line;
}

static void check_word(struct tracer *t, size_t position)
{
    const struct store *s = &t->m->store;
    enum call_kind kind = t->m->call.kind;
    uint32_t now = s->persistent[position];
    if (line_of(s, position) != t->line)
        stop_wrong(t, "one instruction changed two lines", position, s->persistent);
    if (kind == CALL_RECOVER && (now != 0 || t->line == 0 || t->line > s->slots))
        stop_wrong(t, "recovery stored something other than a freed header", position, s->persistent);
    if (kind != CALL_RECOVER && now != s->working[position])
        stop_wrong(t, "persistent changed before working", position, s->persistent);
    if (kind == CALL_WRITE_BACK && position != t->m->call.position)
        stop_wrong(t, "another word was written back", position, s->persistent);
    if (position == CLOCK && now != t->last[CLOCK] + 1)
        stop_wrong(t, "the clock did not go up by one", position, s->persistent);
}

static enum counted sort_of(const struct tracer *t, size_t position)
{
    const struct store *s = &t->m->store;
    if (t->m->call.kind == CALL_RECOVER)
        return RECOVERY_FREED;
    if (t->m->call.kind == CALL_WRITE_BACK)
        return WRITTEN_BACK;
    if (position == CLOCK)
        return TICK;
    if (position >= contents_at(s, 0))
        return CONTENTS;
    return s->persistent[position] == 0 ? FREED : HEADER;
}

/* An instruction has changed persistent. */
static void stored(struct tracer *t)
{
    const struct store *s = &t->m->store;
    size_t first = NONE;
    for (size_t i = 0; i < s->image; i++) {
        if (s->persistent[i] == t->last[i])
            continue;
        if (++t->changes[i] > (i == CLOCK && t->m->call.kind == CALL_SYNC ? 2 : 1))
            stop_wrong(t, "a word changed twice in one call", i, s->persistent);
        if (first == NONE) {
            first = i;
            enter_line(t, i);
        }
        check_word(t, i);
    }
    t->storing++;
    t->counts[sort_of(t, first)]++;
    t->ticks += first == CLOCK;
    memcpy(t->last, s->persistent, s->image * sizeof *t->last);
    cut_here(t, t->last, CUT_IN_CALL);
    if (first == CLOCK)
        leave_line(t); /* in a sync it may come next again */
}

/* What the reply says of the stores. */
static void check_reply(const struct tracer *t)
{
    const struct store *s = &t->m->store;
    enum call_kind kind = t->m->call.kind;
    uint64_t reply = t->m->reply;
    size_t ticks = 0;
    if (kind == CALL_ADVANCE)
        ticks = reply == BOARD_TICKED;
    if (kind == CALL_SYNC)
        ticks = reply < BOARD_REFUSED ? 2 : 0;
    if (t->ticks != ticks)
        stop_wrong(t, "the reply does not fit the clock", CLOCK, s->persistent);
    if (kind == CALL_RECOVER && reply > BOARD_DONE)
        stop_wrong(t, board_refusal_text(board_refusal_of(reply)), NONE, s->persistent);
    if (kind == CALL_RECOVER && (t->stores > 0) != (reply == BOARD_WENT_ON))
        stop_wrong(t, "recovery went on without a store, or stored and was done", NONE, s->persistent);
    if ((kind == CALL_WRITE_BACK ? reply > 0 : reply >= BOARD_REFUSED) && t->stores > 0)
        stop_wrong(t, "a call that declined stored into persistent", NONE, s->persistent);
    if (!may_store(kind) && t->stores > 0)
        stop_wrong(t, "a call stored into persistent that stores nothing there", NONE, s->persistent);
}

/* Steps over one instruction, which has faulted or may do anything. */
static void step(struct tracer *t, bool faulted)
{
    const struct store *s = &t->m->store;
    faults(t, PTRACE_SINGLESTEP);
    bool changed = memcmp(t->last, s->persistent, s->image * sizeof *t->last) != 0;
    t->instructions++;
    t->stores += faulted || changed;
    if (++t->stepped == ENDLESS)
        stop_wrong(t, "the call does not return", NONE, s->persistent);
    if (changed)
        stored(t);
}

/* Each instruction of the call. */
static void step_through(struct tracer *t)
{
    protect(t, PROT_READ | PROT_WRITE);
    while (!t->m->within)
        step(t, false);
    while (t->m->within)
        step(t, false);
    faults(t, PTRACE_CONT);
    protect(t, PROT_READ);
    t->calls_stepped++;
}

/* Each instruction of the call that stores into persistent. */
static void step_stores(struct tracer *t)
{
    while (faults(t, PTRACE_CONT)) {
        protect(t, PROT_READ | PROT_WRITE);
        step(t, true);
        protect(t, PROT_READ);
    }
}

static void follow(struct tracer *t, const struct call *call)
{
    const struct store *s = &t->m->store;
    t->m->call = *call;
    memcpy(t->last, s->persistent, s->image * sizeof *t->last);
    memset(t->changes, 0, sizeof t->changes);
    t->line = NONE;
    t->lines = t->stepped = t->stores = t->ticks = 0;
    t->calls++;
    if (below(&t->random, STEPPED_SHARE) == 0)
        step_through(t);
    else
        step_stores(t);
    if (memcmp(t->last, s->persistent, s->image * sizeof *t->last) != 0)
        stop_wrong(t, "persistent changed unseen", NONE, s->persistent);
    leave_line(t);
    check_reply(t);
    replied(&t->reference, call, t->m->reply);
}

/* ---- Runs ---- */

/* Recovery of the image of a cut, with cuts within its calls. */
static void recover(struct tracer *t)
{
    const struct store *s = &t->m->store;
    const struct call call = {.kind = CALL_RECOVER};
    struct jobs due;
    uint32_t found[MOST_IMAGE];
    due_at(&t->reference, t->cut_image[CLOCK], &due);
    restart(&t->reference, &due, t->cut_image[CLOCK]);
    memcpy(found, t->cut_image, sizeof found);
    t->m->reply = BOARD_WENT_ON;
    for (size_t went_on = 0; t->cut || t->m->reply == BOARD_WENT_ON; went_on++) {
        if (t->cut) {
            memcpy(s->persistent, t->cut_image, s->image * sizeof *s->persistent);
            t->cut = false;
            went_on = 0;
        }
        if (went_on > s->slots)
            stop_wrong(t, "recovery goes on more often than there are slots", NONE, s->persistent);
        junk(&t->random, s->working, s->image);
        junk(&t->random, s->transient, s->notes);
        follow(t, &call);
    }
    if (memcmp(s->working, s->persistent, s->image * sizeof *s->working) != 0)
        stop_wrong(t, "working is no copy of persistent", NONE, s->persistent);
    const char *wrong = wrong_after(s, found, s->persistent, &due);
    if (wrong != NULL)
        stop_wrong(t, wrong, NONE, s->persistent);
}

/* A fresh board. Its blocks begin at any word, so that stores of several words are not always aligned. */
static void new_board(struct tracer *t)
{
    struct shared *m = t->m;
    struct store *s = &m->store;
    *s = store_of(FEWEST_SLOTS + below(&t->random, STEPPED_SLOTS - FEWEST_SLOTS + 1),
                  FEWEST_WORDS + below(&t->random, MOST_WORDS - FEWEST_WORDS + 1),
                  1 + below(&t->random, STEPPED_THREADS));
    s->working = m->memory + below(&t->random, 4);
    s->transient = s->working + s->image + below(&t->random, 4);
    s->persistent = m->lasting + below(&t->random, 4);
    if (board_format(STORE(s), s->slots, s->words) != 0) {
        printf("format declines\n");
        exit(1);
    }
    restart(&t->reference, &(struct jobs){0}, s->persistent[CLOCK]);
}

static size_t free_slots(const struct store *s)
{
    size_t count = 0;
    for (size_t slot = 0; slot < s->slots; slot++)
        count += s->working[header_at(slot)] == 0;
    return count;
}

/* A set of an older job to the value it has, without room for a new version: accepted, with nothing changed. */
static bool saves_again(const struct tracer *t, const struct call *call)
{
    const struct store *s = &t->m->store;
    uint64_t at = call->kind == CALL_SET ? board_read(STORE(s), call->thread, call->key) : BOARD_REFUSED;
    if (at >= BOARD_REFUSED || call->value_words != s->words - 1 || free_slots(s) >= 2)
        return false;
    uint32_t label = s->working[header_at((at - contents_at(s, 0)) / s->words) + 1], open = t->reference.open[call->thread];
    return open != 0 && open != label && memcmp(s->working + at, call->value, call->value_words * sizeof *call->value) == 0;
}

/* The thread whose operation holds up an advance, or a sync; NONE if none does. */
static size_t holding(const struct tracer *t, enum call_kind kind)
{
    const struct reference *r = &t->reference;
    for (size_t i = 0; i < t->m->store.threads; i++)
        if (r->open[i] != 0 && (kind == CALL_SYNC || r->open[i] != r->clock))
            return i;
    return NONE;
}

/* Turns a call that would be refused or change nothing into one that leads on. */
static void turn(const struct tracer *t, struct call *call)
{
    const struct store *s = &t->m->store;
    bool is_open = t->reference.open[call->thread] != 0;
    bool job = board_read_refusal(STORE(s), call->thread, call->key) == 0;
    if (call->kind == CALL_TAKE && board_look_refusal(STORE(s), call->thread) == BOARD_EMPTY)
        call->kind = CALL_APPEND;
    if (call->kind == CALL_NEW && job)
        call->kind = CALL_SET;
    if ((call->kind == CALL_SET || call->kind == CALL_DELETE) && !job)
        call->kind = CALL_NEW;
    bool takes_two = call->kind == CALL_NEW || call->kind == CALL_SET || call->kind == CALL_BATCH || call->kind == CALL_APPEND;
    if (takes_two && free_slots(s) < 2 && !saves_again(t, call))
        call->kind = job && free_slots(s) > 0 ? CALL_DELETE : CALL_ADVANCE;
    if (call->kind >= CALL_NEW && call->kind <= CALL_TAKE && !is_open)
        call->kind = CALL_BEGIN;
    if ((call->kind == CALL_ADVANCE || call->kind == CALL_SYNC) && holding(t, call->kind) != NONE) {
        call->thread = (uint32_t)holding(t, call->kind);
        call->kind = CALL_END;
    }
}

/* Calls until a cut. */
static void run(struct tracer *t)
{
    static const uint32_t weights[CALL_KINDS] = {
        [CALL_BEGIN] = 1, [CALL_END] = 1, [CALL_NEW] = 30, [CALL_SET] = 30, [CALL_DELETE] = 24, [CALL_BATCH] = 30,
        [CALL_READ] = 1, [CALL_READ_REFUSAL] = 1, [CALL_APPEND] = 18, [CALL_TAKE] = 18, [CALL_LOOK] = 1, [CALL_LOOK_REFUSAL] = 1,
        [CALL_ADVANCE] = 25, [CALL_SYNC] = 3, [CALL_WRITE_BACK] = 5,
    };
    const struct store *s = &t->m->store;
    struct call call = {.kind = CALL_BEGIN};
    while (!t->cut) {
        call = choose_call(&t->random, s, weights, &call);
        if (below(&t->random, 8) > 0)
            turn(t, &call);
        bool again = saves_again(t, &call);
        follow(t, &call);
        if (again && !t->cut && t->m->reply != 0)
            stop_wrong(t, "the value that a job has is refused", NONE, s->persistent);
        t->counts[SAVED_AGAIN] += again && !t->cut;
        if (!t->cut && below(&t->random, IDLE_CUT) == 0) {
            t->cut = true;
            memcpy(t->cut_image, s->persistent, s->image * sizeof *s->persistent);
            t->counts[CUT_BETWEEN]++;
        }
    }
}

static void start_tracee(struct tracer *t)
{
    int status;
    t->m = mmap(NULL, sizeof *t->m, PROT_READ | PROT_WRITE, MAP_SHARED | MAP_ANONYMOUS, -1, 0);
    t->tracee = t->m == MAP_FAILED ? -1 : fork();
    if (t->tracee == 0)
        make_calls(t->m);
    if (t->tracee < 0) {
        perror("mmap or fork");
        exit(2);
    }
    traced(waitpid(t->tracee, &status, 0));
    traced(ptrace(PTRACE_SETOPTIONS, t->tracee, NULL, PTRACE_O_EXITKILL));
    protect(t, PROT_READ);
}

static int report(const struct tracer *t)
{
    int failed = 0;
    for (size_t i = 0; i < COUNTED; i++) {
        printf("%s: %llu\n", counted_names[i], (unsigned long long)t->counts[i]);
        if (t->counts[i] < (i < CUT_IN_CALL ? LEAST : 1)) {
            printf("which is too few\n");
            failed = 1;
        }
    }
    printf("changes of lists: %llu\n", (unsigned long long)t->reference.batched);
    if (t->reference.batched < LEAST) {
        printf("which is too few\n");
        failed = 1;
    }
    printf("%llu calls, %llu stepped through; %llu instructions stepped, %llu of them changed persistent; "
           "%llu images recovered, seed %llu\n", (unsigned long long)t->calls, (unsigned long long)t->calls_stepped,
           (unsigned long long)t->instructions, (unsigned long long)t->storing, (unsigned long long)t->recovered,
           (unsigned long long)t->seed);
    return failed;
}

int main(int argc, char **argv)
{
    static struct tracer t;
    if (argc != 3) {
        printf("usage: steps SEED CALLS\n");
        return 2;
    }
    t.seed = t.random = strtoull(argv[1], NULL, 10);
    uint64_t calls = strtoull(argv[2], NULL, 10);
    start_tracee(&t);
    while (t.calls < calls) {
        new_board(&t);
        for (size_t cuts = 0; cuts < CUTS_PER_BOARD && t.calls < calls; cuts++) {
            run(&t);
            recover(&t);
        }
    }
    return report(&t);
}
