/* Stands between a program and the calls that it makes of the system, when it is linked with --wrap for each.
   INTERRUPT=NAME:K   the K-th call of that name fails, with "Input/output error"
   INTERRUPT=kill:K   SIGKILL instead of the K-th of all
   CALLS=FILE         the names of the calls made, a line each; and those of board_recover and board_advance */

#define _GNU_SOURCE

#include <errno.h>
#include <fcntl.h>
#include <signal.h>
#include <stdarg.h>
#include <stdint.h>
#include <stdio.h>
#include <stdlib.h>
#include <string.h>
#include <sys/types.h>
#include <unistd.h>

struct stat;

static void note(const char *name)
{
    const char *path = getenv("CALLS");
    FILE *file = path == NULL ? NULL : fopen(path, "a");
    if (file == NULL)
        return;
    fprintf(file, "%s\n", name);
    fclose(file);
}

/* Whether this call is the one to fail; where it is the one to be killed in, there is no answer. */
static int fails(const char *name)
{
    static long of_name, of_all;
    const char *interrupt = getenv("INTERRUPT"), *number = interrupt == NULL ? NULL : strchr(interrupt, ':');
    note(name);
    if (number == NULL)
        return 0;
    size_t length = (size_t)(number - interrupt);
    if (length == strlen("kill") && strncmp(interrupt, "kill", length) == 0 && ++of_all == atol(number + 1))
        kill(getpid(), SIGKILL);
    if (length != strlen(name) || strncmp(interrupt, name, length) != 0 || ++of_name != atol(number + 1))
        return 0;
    errno = EIO;
    return 1;
}

#define WRAPPED(answer, name, failure, parameters, arguments)    \
    answer __real_##name parameters;                             \
    answer __wrap_##name parameters;                             \
    answer __wrap_##name parameters { return fails(#name) ? failure : __real_##name arguments; }

WRAPPED(int, flock, -1, (int file, int operation), (file, operation))
WRAPPED(ssize_t, write, -1, (int file, const void *bytes, size_t count), (file, bytes, count))
WRAPPED(int, fsync, -1, (int file), (file))
WRAPPED(int, close, -1, (int file), (file))
WRAPPED(int, rename, -1, (const char *from, const char *to), (from, to))
WRAPPED(int, fstat, -1, (int file, struct stat *status), (file, status))
WRAPPED(void *, mmap, (void *)-1, (void *start, size_t bytes, int protection, int flags, int file, off_t at),
        (start, bytes, protection, flags, file, at))
WRAPPED(int, msync, -1, (void *start, size_t bytes, int flags), (start, bytes, flags))

int __real_open(const char *path, int flags, ...);
int __wrap_open(const char *path, int flags, ...);
int __wrap_open(const char *path, int flags, ...)
{
    va_list rest;
    va_start(rest, flags);
    mode_t mode = (flags & O_CREAT) != 0 ? va_arg(rest, mode_t) : 0;
    va_end(rest);
    return fails("open") ? -1 : __real_open(path, flags, mode);
}

/* The two calls on a store that the system has to make durable. */
#define NOTED(name)                                                                                               \
    uint64_t __real_##name(uint32_t *w, size_t wn, uint32_t *p, size_t pn, uint32_t *t, size_t tn);               \
    uint64_t __wrap_##name(uint32_t *w, size_t wn, uint32_t *p, size_t pn, uint32_t *t, size_t tn);               \
    uint64_t __wrap_##name(uint32_t *w, size_t wn, uint32_t *p, size_t pn, uint32_t *t, size_t tn)                \
    {                                                                                                             \
        note(#name);                                                                                              \
        return __real_##name(w, wn, p, pn, t, tn);                                                                \
    }

NOTED(board_recover)
NOTED(board_advance)
