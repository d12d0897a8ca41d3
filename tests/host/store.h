/* A store of the hosts: its sizes, and its three blocks of memory. */
#ifndef STORE_H
#define STORE_H

#include "board.h"
#include "checks.h"

struct store {
    uint32_t slots, words, threads;
    size_t image, notes; /* in words */
    uint32_t *working, *persistent, *transient;
};

#define STORE(s) (s)->working, (s)->image, (s)->persistent, (s)->image, (s)->transient, (s)->notes

/* Blocks for these sizes, their words still to be set; the images may have another length than their sizes ask. */
static inline struct store blocks(uint32_t slots, uint32_t words, uint32_t threads, size_t image)
{
    struct store s = {slots, words, threads, image, board_transient_words(slots, threads), NULL, NULL, NULL};
    s.working = block(s.image);
    s.persistent = block(s.image);
    s.transient = block(s.notes);
    return s;
}

static inline struct store new_store(uint32_t slots, uint32_t words, uint32_t threads)
{
    struct store s = blocks(slots, words, threads, board_image_words(slots, words));
    same("format", board_format(STORE(&s), slots, words), 0);
    return s;
}

static inline void free_store(struct store *s)
{
    free(s->working);
    free(s->persistent);
    free(s->transient);
}

/* The power is cut: what was in ordinary memory is gone. */
static inline void power_cut(struct store *s)
{
    memset(s->working, 0x5A, s->image * sizeof *s->working);
    memset(s->transient, 0x5A, s->notes * sizeof *s->transient);
}

#endif
