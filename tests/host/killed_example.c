/* Kills examples/courier.c at random moments, also while it makes its file. It has to start again each time, and may never
   print a stop that is not above the last one printed. Where its disk is slow fewer kills are enough, some of each sort.
   Usage: killed_example PROGRAM DIRECTORY SEED KILLS */

#define _GNU_SOURCE

#include "reference.h"

#include <signal.h>
#include <sys/wait.h>
#include <time.h>
#include <unistd.h>

enum { LIVES_PER_FILE = 4, FIRST_WAIT = 2000000, LONGEST_WAIT = 900000000 }; /* waits in nanoseconds */
enum { FEWEST = 5, SECONDS = 20 }; /* so many kills of each sort at least; and then so many seconds at most */

static const char file[] = "jobs.board", unfinished[] = "jobs.board.new";

/* Where a kill fell, as far as the files and what was printed tell. */
enum { BEFORE_A_FILE, WITHIN_ITS_MAKING, AFTER_ITS_RENAME, ON_A_FILE, AFTER_PRINTING, SORTS };
static const char *const sorts[SORTS] = {"before there was a file", "while it was made", "after its rename",
                                         "on a file that was there", "after it had printed"};

static struct {
    const char *program;
    uint64_t random, seed, runs;
    uint32_t longest[2];          /* the longest wait before a kill, in a run that makes its file and in one that finds it */
    unsigned last, since;         /* the last stop printed, and the runs since then */
    uint64_t kills[SORTS], kept, lost;
} k;

static void stop_wrong(const char *what)
{
    printf("run %llu: %s; the last stop printed is %u, %u runs ago; seed %llu\n", (unsigned long long)k.runs, what, k.last,
           k.since, (unsigned long long)k.seed);
    exit(1);
}

/* Runs the program, kills it after so many nanoseconds if there are any, and gives its status and what it printed. */
static int run(uint32_t nanoseconds, char *printed, size_t room)
{
    const struct timespec wait = {.tv_nsec = nanoseconds};
    int pair[2], status;
    size_t length = 0;
    pid_t program = pipe(pair) == 0 ? fork() : -1;
    if (program == 0) {
        dup2(pair[1], STDOUT_FILENO);
        close(pair[0]);
        execl(k.program, k.program, (char *)NULL);
        _exit(127);
    }
    if (program < 0)
        stop_wrong("no process");
    close(pair[1]);
    if (nanoseconds > 0) {
        nanosleep(&wait, NULL);
        kill(program, SIGKILL);
    }
    for (ssize_t got = 1; got > 0 && length < room - 1; length += (size_t)got)
        got = read(pair[0], printed + length, room - 1 - length);
    printed[length] = 0;
    close(pair[0]);
    if (waitpid(program, &status, 0) != program)
        stop_wrong("waitpid");
    return status;
}

/* A stop was printed: it is above the last one, by no more than the runs since then. */
static void hold(const char *printed)
{
    unsigned stop = 0;
    char end = 0;
    if (sscanf(printed, "job 1001 is at stop %u%c", &stop, &end) != 2 || end != '\n')
        stop_wrong(printed);
    if (stop <= k.last)
        stop_wrong("it went back behind what it printed");
    if (stop > k.last + k.since)
        stop_wrong("it went on by more stops than it ran");
    k.kept += stop - k.last - 1;
    k.lost += k.last + k.since - stop;
    k.last = stop;
    k.since = 0;
}

static int sort_of_kill(bool there, const char *printed)
{
    if (printed[0] != 0)
        return AFTER_PRINTING;
    if (there)
        return ON_A_FILE;
    if (access(file, F_OK) == 0)
        return AFTER_ITS_RENAME;
    return access(unfinished, F_OK) == 0 ? WITHIN_ITS_MAKING : BEFORE_A_FILE;
}

/* One run, killed or not. The answer is whether it was. */
static bool live(uint32_t nanoseconds)
{
    char printed[200];
    bool there = access(file, F_OK) == 0;
    k.runs++;
    k.since++;
    int status = run(nanoseconds, printed, sizeof printed);
    bool killed = WIFSIGNALED(status) && WTERMSIG(status) == SIGKILL;
    if (!killed && (!WIFEXITED(status) || WEXITSTATUS(status) != 0 || printed[0] == 0))
        stop_wrong("it did not start again");
    if (killed)
        k.kills[sort_of_kill(there, printed)]++;
    if (printed[0] != 0)
        hold(printed);
    return killed;
}

static void remove_file(void)
{
    unlink(file);
    k.last = k.since = 0;
}

/* A run that may be killed. So many kills come too late that a run is about as long as two thirds of the longest wait. */
static bool hunted(uint32_t *longest)
{
    bool killed = live(1 + below(&k.random, *longest));
    if (!killed)
        *longest -= *longest / 32;
    else if (*longest < LONGEST_WAIT)
        *longest += *longest / 64;
    return killed;
}

/* Few runs are killed between what they print and their end: that sort need not come up. */
static bool some_of_each(void)
{
    bool some = k.kept >= FEWEST && k.lost >= FEWEST;
    for (int sort = 0; sort < AFTER_PRINTING; sort++)
        some = some && k.kills[sort] >= FEWEST;
    return some;
}

static int report(uint64_t kills)
{
    for (int sort = 0; sort < SORTS; sort++)
        printf("killed %s: %llu\n", sorts[sort], (unsigned long long)k.kills[sort]);
    printf("of runs killed before they printed %llu moved the job on, %llu did not\n", (unsigned long long)k.kept,
           (unsigned long long)k.lost);
    if (!some_of_each())
        printf("too few kills of a sort\n");
    printf("%llu kills in %llu runs, seed %llu\n", (unsigned long long)kills, (unsigned long long)k.runs,
           (unsigned long long)k.seed);
    return !some_of_each();
}

int main(int argc, char **argv)
{
    if (argc != 5 || chdir(argv[2]) != 0) {
        printf("usage: killed_example PROGRAM DIRECTORY SEED KILLS\n");
        return 2;
    }
    k.program = argv[1];
    k.seed = k.random = strtoull(argv[3], NULL, 10);
    uint64_t kills = strtoull(argv[4], NULL, 10), killed = 0;
    k.longest[false] = k.longest[true] = FIRST_WAIT;
    for (time_t start = time(NULL); killed < kills && (time(NULL) - start < SECONDS || !some_of_each());) {
        if (below(&k.random, LIVES_PER_FILE) == 0)
            remove_file();
        if (below(&k.random, 3) == 0)
            live(0);
        else
            killed += hunted(&k.longest[access(file, F_OK) == 0]);
    }
    live(0);
    remove_file();
    return report(killed);
}
