/* What the hosts share: answers compared and counted, and blocks of memory with nothing beside them. */
#ifndef CHECKS_H
#define CHECKS_H

#include <stdint.h>
#include <stdio.h>
#include <stdlib.h>
#include <string.h>

static size_t calls, failed;

static void same(const char *what, uint64_t found, uint64_t wanted)
{
    calls++;
    if (found != wanted) {
        failed++;
        printf("%s: %llu, wanted %llu\n", what, (unsigned long long)found, (unsigned long long)wanted);
    }
}

/* A block of exactly this many words, so that a checker of memory sees any access beside it. */
static uint32_t *block(size_t words)
{
    uint32_t *start = malloc(words * sizeof *start);
    if (start == NULL)
        exit(2);
    memset(start, 0xA5, words * sizeof *start);
    return start;
}

#endif
