/* How much stack each call takes: it is made on a painted stack, and what it has written over shows how far down it went.
   What the caller puts there for it is counted too.
   Usage: stack SEED CALLS */

#define _GNU_SOURCE

#include "reference.h"

#include <ucontext.h>

enum { FORMAT = CALL_KINDS, CLOCK_OF, SURVIVORS, IMAGE_WORDS, TRANSIENT_WORDS, VERSION, ALL_CALLS };
enum { STACK_WORDS = 1 << 14, FEWEST_CALLS = 20 };
enum { MOST = 512, MOST_OF_BATCH = 1024, MOST_OF_CHECKS = 24 * 1024 }; /* what board.h says, in bytes */
#define PAINT UINT64_C(0xA5C3A5C3A5C3A5C3)

static const char *const other_names[] = {"format", "clock", "survivors", "image_words", "transient_words", "version"};

static uint64_t stack[STACK_WORDS];
static ucontext_t here, there;
static const char *top;
static size_t deepest[ALL_CALLS], made[ALL_CALLS]; /* made: those that were accepted */

/* The call to make, and its answer. */
static const struct store *store;
static struct call call;
static unsigned kind;
static uint64_t answer;

static void make(void)
{
    const uint8_t *image = (const uint8_t *)store->persistent;
    top = __builtin_frame_address(0);
    switch (kind) {
    case FORMAT: answer = board_format(STORE(store), store->slots, store->words); break;
    case CLOCK_OF: answer = board_clock(image, 4 * store->image); break;
    case SURVIVORS: answer = board_survivors(image, 4 * store->image); break;
    case IMAGE_WORDS: answer = board_image_words(store->slots, store->words); break;
    case TRANSIENT_WORDS: answer = board_transient_words(store->slots, store->threads); break;
    case VERSION: answer = board_version(); break;
    default: answer = make_call(store, &call);
    }
}

static void make_on_painted_stack(void)
{
    for (size_t i = 0; i < STACK_WORDS; i++)
        stack[i] = PAINT;
    getcontext(&there);
    there.uc_stack.ss_sp = stack;
    there.uc_stack.ss_size = sizeof stack;
    there.uc_link = &here;
    makecontext(&there, make, 0);
    swapcontext(&here, &there);
}

/* Whether the call was accepted: it goes further down then. */
static bool accepted(void)
{
    if (kind == CALL_BATCH)
        return BOARD_BATCH_ACCEPTED(answer) > 0;
    bool wide = kind == CALL_READ || kind == CALL_APPEND || kind == CALL_LOOK || kind == CALL_ADVANCE || kind == CALL_SYNC ||
                kind == CALL_RECOVER || kind > FORMAT;
    return wide ? answer < BOARD_REFUSED : answer == 0;
}

static uint64_t measured(unsigned which)
{
    size_t lowest = 0;
    kind = which;
    make_on_painted_stack();
    while (stack[lowest] == PAINT)
        lowest++;
    size_t depth = (size_t)(top - (const char *)&stack[lowest]);
    made[kind] += accepted();
    if (depth > deepest[kind])
        deepest[kind] = depth;
    return answer;
}

static void others(void)
{
    for (unsigned other = CLOCK_OF; other < ALL_CALLS; other++)
        same(other_names[other - FORMAT], measured(other) < BOARD_REFUSED, true);
}

static void recovered(void)
{
    call.kind = CALL_RECOVER;
    for (uint32_t i = 0; i <= store->slots && measured(CALL_RECOVER) == BOARD_WENT_ON; i++)
        ;
    same("the end of recovery", answer, BOARD_DONE);
}

/* A run of calls that mostly are accepted. */
static void run(struct store *s, uint64_t *random, uint64_t calls_wanted)
{
    const uint32_t weights[CALL_KINDS] = {
        [CALL_BEGIN] = 20, [CALL_END] = 20, [CALL_NEW] = 24, [CALL_SET] = 12, [CALL_DELETE] = 12, [CALL_BATCH] = 8,
        [CALL_READ] = 4, [CALL_READ_REFUSAL] = 4, [CALL_APPEND] = 12, [CALL_TAKE] = 8, [CALL_LOOK] = 4, [CALL_LOOK_REFUSAL] = 4,
        [CALL_ADVANCE] = 80, [CALL_SYNC] = 4, [CALL_WRITE_BACK] = 4,
    };
    store = s;
    measured(FORMAT);
    for (uint64_t i = 0; i < calls_wanted; i++) {
        call = choose_call(random, s, weights, &call);
        measured(call.kind);
        if (i % 100 == 0) {
            others();
            recovered();
        }
    }
}

/* Prints what each call takes; the answer is how many take more than board.h says. */
static int told(void)
{
    int wrong = 0;
    for (unsigned which = 0; which < ALL_CALLS; which++) {
        const char *name = which < CALL_KINDS ? call_names[which] : other_names[which - FORMAT];
        bool checks = which == CALL_RECOVER || which == CLOCK_OF || which == SURVIVORS;
        size_t most = checks ? MOST_OF_CHECKS : which == CALL_BATCH ? MOST_OF_BATCH : MOST;
        bool enough = made[which] >= FEWEST_CALLS || which == FORMAT, more = deepest[which] > most;
        printf("%s %zu bytes, %zu accepted%s%s\n", name, deepest[which], made[which], more ? ": more than board.h says" : "",
               enough ? "" : ": too few calls");
        wrong += more || !enough;
    }
    return wrong;
}

int main(int argc, char **argv)
{
    if (argc != 3) {
        printf("usage: stack SEED CALLS\n");
        return 2;
    }
    uint64_t seed = strtoull(argv[1], NULL, 10), random = seed, calls_wanted = strtoull(argv[2], NULL, 10);
    struct store largest = new_store(1024, 9, 16), smallest = new_store(2, 2, 1);
    same("recover", board_recover(STORE(&smallest)), BOARD_DONE); /* so memcpy and memset are found: that takes stack too */
    run(&smallest, &random, calls_wanted);
    run(&largest, &random, calls_wanted);
    int wrong = told() + (int)failed;
    free_store(&largest);
    free_store(&smallest);
    printf("%llu calls of each size, %d wrong, seed %llu\n", (unsigned long long)calls_wanted, wrong, (unsigned long long)seed);
    return wrong > 0;
}
