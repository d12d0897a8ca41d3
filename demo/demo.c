/* Two days at a dispatch desk, in memory. The power fails at one store into the lasting image; that image is all that
   is left, and the library's recovery makes a board of it again. This file tells what came of it.
   Usage: demo [--seed NUMBER] [--cuts one|all] [--jobs NUMBER] [--stops NUMBER] */

#include "cuts.h"

#include <inttypes.h>
#include <stdio.h>
#include <stdlib.h>
#include <string.h>

enum { SHOWN_SAME = 3, SHOWN_OTHER = 12, MORNING = 7 * 60 };
enum { SEED = 41 }; /* on its second day the broken rule brings nine jobs back, as many as a customer had */

static int failures;

static const char *hour(int minute)
{
    static char text[8][16];
    static int next;
    next = (next + 1) % 8;
    snprintf(text[next], sizeof text[next], "%02d:%02d", (MORNING + minute) / 60 % 24, (MORNING + minute) % 60);
    return text[next];
}

static const char *verdict(bool fine)
{
    failures += !fine;
    return fine ? "ok" : "WRONG";
}

static void print_job(const struct job *job, uint32_t key)
{
    if (job->open)
        printf("  %5" PRIu32 " %8" PRIu32 " %8" PRIu32 "   %s", key, job->value[COURIER], job->value[ADDRESS],
               hour((int)job->value[DUE]));
    else
        printf("  %5s %8s %8s   %5s", "-", "-", "-", "-");
}

/* A few of the jobs that are the same before and after. */
static void print_same(const struct desk *d, const struct outcome *o)
{
    uint32_t same = 0;
    for (uint32_t i = 0; i < d->jobs; i++) {
        if (!o->before[i].open || !same_job(&o->before[i], &o->after[i]) || ++same > SHOWN_SAME)
            continue;
        print_job(&o->before[i], FIRST_KEY + i);
        printf("  ");
        print_job(&o->after[i], FIRST_KEY + i);
        printf("   the same\n");
    }
    if (same > SHOWN_SAME)
        printf("    ... and %" PRIu32 " more that are the same on both sides\n", same - SHOWN_SAME);
}

/* Those that are not. */
static void print_other(const struct desk *d, const struct outcome *o)
{
    static const char *const was[] = {"opened", "changed", "cancelled"};
    uint32_t other = 0;
    for (uint32_t i = 0; i < d->jobs; i++) {
        if (same_job(&o->before[i], &o->after[i]) || ++other > SHOWN_OTHER)
            continue;
        const struct change *change = last_change(d, FIRST_KEY + i);
        print_job(&o->before[i], FIRST_KEY + i);
        printf("  ");
        print_job(&o->after[i], FIRST_KEY + i);
        printf("   %s %s, lost\n", was[change->kind], hour(change->minute));
    }
    if (other > SHOWN_OTHER)
        printf("    ... and %" PRIu32 " more that differ\n", other - SHOWN_OTHER);
}

static void side_by_side(const struct desk *d, const struct outcome *o)
{
    printf("\n  %-34s  %s\n", "BEFORE THE CUT", "AFTER RECOVERY");
    printf("  %5s %8s %8s   %5s     %5s %8s %8s   %5s\n", "job", "courier", "address", "due", "job", "courier",
           "address", "due");
    print_same(d, o);
    print_other(d, o);
}

static void print_hand_over(const struct hand_over *one)
{
    if (one != NULL)
        printf("  %5" PRIu32 " %8" PRIu32 " %8" PRIu32 " %7" PRIu32, one->order, one->value[PARCEL], one->value[GIVER],
               one->value[RECEIVER]);
    else
        printf("  %5s %8s %8s %7s", "-", "-", "-", "-");
}

/* The queue before and after side by side, in order: what was taken in the last two epochs waits again, what was appended
   then is gone. No order number is above the number of changes. */
static void queues_side_by_side(const struct desk *d, const struct outcome *o)
{
    printf("\n  THE QUEUE OF HAND-OVERS, the first of them first\n");
    printf("  %5s %8s %8s %7s     %5s %8s %8s %7s\n", "no.", "parcel", "from", "to", "no.", "parcel", "from", "to");
    for (uint32_t order = 1; order <= d->changes; order++) {
        const struct hand_over *before = find_order(&o->queue_before, order);
        const struct hand_over *after = find_order(&o->queue_after, order);
        if (before == NULL && after == NULL)
            continue;
        const struct change *change = last_hand_over(d, order);
        print_hand_over(before);
        printf("  ");
        print_hand_over(after);
        if (before != NULL && after != NULL)
            printf("   the same\n");
        else
            printf("   %s %s, lost\n", change->kind == TAKEN ? "taken" : "appended", hour(change->minute));
    }
}

static void print_cut(const struct desk *d, uint64_t all)
{
    printf("The power fails at %s, right after store %" PRIu64 " of the day's %" PRIu64 "; the clock is %" PRIu32
           ".\n", hour(d->minute), d->stores, all, d->persistent[CLOCK]);
}

/* What was lost and what is there. */
static void print_account(const struct desk *d, const struct outcome *o)
{
    int first = -1;
    for (const struct change *change = d->log; change < d->log + d->changes && first < 0; change++)
        if (change->epoch > o->clock - 2)
            first = change->minute;
    printf("\n  recovery took %" PRIu32 " calls and cleared %" PRIu32 " headers\n", o->calls, o->calls - 1);
    if (o->lost > 0)
        printf("  lost: the %" PRIu32 " changes made since %s, those of the last two epochs\n", o->lost, hour(first));
    else
        printf("  lost: nothing\n");
    printf("  kept: all %zu changes made before, each job just as they left it: %s\n", d->changes - o->lost,
           verdict(o->wrong == 0));
    printf("  waiting: %" PRIu32 " hand-overs in the order in which they came, and the next is no. %" PRIu32 ": %s\n",
           o->queue_after.count, o->next_order, verdict(!o->queue_wrong));
}

static void show_first_day(uint32_t jobs, uint64_t seed)
{
    static struct outcome o;
    struct desk d;
    uint64_t from, all = stores_of(first_day, &library, jobs, slots_for(jobs), seed, &from), choice = seed ^ 1;
    below(&choice, 2);
    open_desk(&d, &library, slots_for(jobs), seed, from + below(&choice, (uint32_t)(all - from + 1)));
    first_day(&d, jobs);
    before_cut(&d, &o);
    recover(&d, &o);
    printf("FIRST DAY: %" PRIu32 " jobs are open before the cut, %" PRIu32 " after recovery; an epoch is %d minutes\n",
           o.open_before, o.open_after, MINUTES_OF_EPOCH);
    print_cut(&d, all);
    side_by_side(&d, &o);
    queues_side_by_side(&d, &o);
    print_account(&d, &o);
    close_desk(&d);
}

/* ---- The second day, kept in three ways ---- */

enum { LIBRARY, SYNCED, BROKEN, WAYS };

static void print_row(const char *what, const uint32_t counts[WAYS])
{
    printf("  %-38s %11" PRIu32 " %15" PRIu32 " %15" PRIu32 "\n", what, counts[LIBRARY], counts[SYNCED], counts[BROKEN]);
}

#define ROW(what, count) \
    print_row(what, (const uint32_t[]){o[LIBRARY].count, o[SYNCED].count, o[BROKEN].count})

static void print_ways(const struct outcome o[WAYS])
{
    printf("\n  %-38s %11s %15s %15s\n", "", "the library", "with a sync", "one rule");
    printf("  %-38s %11s %15s %15s\n", "", "", "each delivery", "broken");
    ROW("delivered before the last two epochs", closed);
    ROW("  of these open again", returned);
    ROW("delivered in the last two epochs", recent);
    ROW("  of these open again", undone);
}

/* The deliveries of the last two epochs, by job number. */
static void print_undone(const struct desk *d, const struct outcome *o)
{
    uint32_t shown = 0;
    printf("\n  the library undoes the %" PRIu32 " deliveries of the last two epochs, and no older one: %s", o->recent,
           verdict(o->returned == 0));
    for (const struct change *change = d->log; change < d->log + d->changes; change++)
        if (change->kind == CLOSED && change->epoch > o->clock - 2)
            printf("%s %" PRIu32 "%s", shown++ % 10 == 0 ? "\n   " : "", change->key,
                   o->after[change->key - FIRST_KEY].open ? "" : "*");
    printf("%s\n", o->undone < o->recent ? "\n    (* came in during these epochs too, and is gone)" : "");
}

/* Older deliveries that are undone. */
static void print_returned(const struct desk *d, const struct outcome *o)
{
    printf("  with one rule broken (early.c frees an anti-payload one epoch early) %" PRIu32 " older ones are undone too:\n",
           o->returned);
    if (o->returned == 0)
        printf("    the contrast shows nothing: %s\n", verdict(false));
    for (const struct change *change = d->log; change < d->log + d->changes; change++)
        if (change->kind == CLOSED && change->epoch <= o->clock - 2 && o->after[change->key - FIRST_KEY].open)
            printf("    job %" PRIu32 ", delivered %s in epoch %" PRIu32 "\n", change->key, hour(change->minute),
                   change->epoch);
}

static void print_second_day(const struct desk d[WAYS], const struct outcome o[WAYS], uint32_t stops, bool same_time)
{
    printf("\nSECOND DAY: %" PRIu32 " stops, %" PRIu32 " of them delivered, %" PRIu32 " open\n", stops,
           o[LIBRARY].closed + o[LIBRARY].recent, o[LIBRARY].open_before);
    printf("The power fails at %s, in the middle of an advance; the clock is %" PRIu32 ".\n", hour(d[LIBRARY].minute),
           o[LIBRARY].clock);
    printf("The same day up to the same minute, kept three ways: %s\n", verdict(same_time));
    print_ways(o);
    print_undone(&d[LIBRARY], &o[LIBRARY]);
    printf("  with a sync after each delivery none is undone: %s\n",
           verdict(o[SYNCED].undone + o[SYNCED].recent + o[SYNCED].returned == 0));
    print_returned(&d[BROKEN], &o[BROKEN]);
    print_account(&d[LIBRARY], &o[LIBRARY]);
}

/* Whether all were cut in one minute and, but for the syncs, at one clock. */
static bool play_three_ways(struct desk d[WAYS], struct outcome o[WAYS], uint32_t stops, uint64_t seed)
{
    static struct worst worst;
    bool same = true;
    find_worst(&worst, stops, seed);
    for (int way = LIBRARY; way < WAYS; way++) {
        play_until(&d[way], way == BROKEN ? &early : &library, way == SYNCED, stops, seed, worst.moment);
        before_cut(&d[way], &o[way]);
        recover(&d[way], &o[way]);
        same = same && d[way].minute == worst.moment.minute && (way == SYNCED || o[way].clock == worst.o.clock);
    }
    return same;
}

static void show_second_day(uint32_t stops, uint64_t seed)
{
    static struct outcome o[WAYS];
    struct desk d[WAYS];
    bool same = play_three_ways(d, o, stops, seed);
    print_second_day(d, o, stops, same);
    for (int way = LIBRARY; way < WAYS; way++)
        close_desk(&d[way]);
}

static void print_tally(const char *day, uint32_t size, const char *of, const struct tally *t)
{
    printf("%s, %" PRIu32 " %s: %" PRIu64 " cuts, %" PRIu64 " of them within the store of a line, %" PRIu64
           " recover calls\n", day, size, of, t->cuts, t->within, t->recovered);
}

static void every_cut(uint32_t jobs, uint32_t stops, uint64_t seed)
{
    const struct tally *t = count_day(first_day, &library, jobs, slots_for(jobs), seed);
    print_tally("FIRST DAY", jobs, "jobs", t);
    printf("  everything older than two epochs is there at %" PRIu64 " of %" PRIu64 " cuts: %s\n",
           t->cuts - t->wrong_cuts, t->cuts, verdict(t->wrong_cuts == 0));
    printf("  the queue of hand-overs is in order at %" PRIu64 " of %" PRIu64 " cuts: %s\n",
           t->cuts - t->queue_wrong_cuts, t->cuts, verdict(t->queue_wrong_cuts == 0));
    printf("  the most changes lost at one cut: %" PRIu32 "\n\n", t->most_lost);

    t = count_day(second_day, &library, stops, slots_for(stops / 3), seed);
    print_tally("SECOND DAY", stops, "stops", t);
    printf("  everything older than two epochs is there at %" PRIu64 " of %" PRIu64 " cuts: %s\n",
           t->cuts - t->wrong_cuts, t->cuts, verdict(t->wrong_cuts == 0));
    printf("  the queue of hand-overs is in order at %" PRIu64 " of %" PRIu64 " cuts: %s\n",
           t->cuts - t->queue_wrong_cuts, t->cuts, verdict(t->queue_wrong_cuts == 0));
    printf("  a job delivered before the last two epochs came back at %" PRIu64 " cuts: %s\n\n",
           t->returned_cuts, verdict(t->returned_cuts == 0));

    t = count_day(second_day, &early, stops, slots_for(stops / 3), seed);
    printf("THE SAME DAY WITH ONE RULE BROKEN: anti-payloads are freed one epoch early\n");
    printf("  a job delivered before the last two epochs came back at %" PRIu64 " of %" PRIu64 " cuts, up to %" PRIu32 " at one\n",
           t->returned_cuts, t->cuts, t->most_returned);
    if (t->returned_cuts == 0)
        printf("  the contrast shows nothing: %s\n", verdict(false));
}

static uint64_t number(const char *text, uint64_t least, uint64_t most)
{
    char *rest;
    unsigned long long value = text == NULL ? 0 : strtoull(text, &rest, 10);
    if (text == NULL || *text == '\0' || *rest != '\0' || value < least || value > most) {
        fprintf(stderr, "demo: a number from %" PRIu64 " to %" PRIu64 " is wanted\n", least, most);
        exit(2);
    }
    return value;
}

int main(int count, char **arguments)
{
    uint64_t seed = SEED;
    uint32_t jobs = 180, stops = 300;
    bool all = false;
    for (int i = 1; i < count; i += 2) {
        const char *name = arguments[i], *value = i + 1 < count ? arguments[i + 1] : NULL;
        if (strcmp(name, "--seed") == 0) {
            seed = number(value, 0, UINT64_MAX);
        } else if (strcmp(name, "--jobs") == 0) {
            jobs = (uint32_t)number(value, 12, 600);
        } else if (strcmp(name, "--stops") == 0) {
            stops = (uint32_t)number(value, 120, 1800); /* with fewer the broken rule may bring no job back */
        } else if (strcmp(name, "--cuts") == 0 && value != NULL && strcmp(value, "all") == 0) {
            all = true;
        } else if (strcmp(name, "--cuts") == 0 && value != NULL && strcmp(value, "one") == 0) {
            all = false;
        } else {
            fprintf(stderr, "usage: demo [--seed NUMBER] [--cuts one|all] [--jobs NUMBER] [--stops NUMBER]\n");
            return 2;
        }
    }
    printf("Two days at the desk, seed %" PRIu64 "; another seed gives two other days\n\n", seed);
    if (all) {
        every_cut(jobs, stops, seed);
    } else {
        show_first_day(jobs, seed);
        show_second_day(stops, seed);
    }
    printf("\n%s\n", failures == 0 ? "Every check holds." : "A CHECK FAILED.");
    return failures > 0;
}
