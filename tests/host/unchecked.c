/* No answer is looked at here: the compiler has to warn of each line. It is compiled and not run. */

#include "board.h"

void unchecked(const struct board_store *store, const uint32_t *value, const uint8_t *image, size_t n);

#define BLOCKS store->working, n, store->persistent, n, store->transient, n

void unchecked(const struct board_store *store, const uint32_t *value, const uint8_t *image, size_t n)
{
    board_format(BLOCKS, 2, 2);
    board_begin(BLOCKS, 0);
    board_end(BLOCKS, 0);
    board_new(BLOCKS, 0, 1, value, n);
    board_set(BLOCKS, 0, 1, value, n);
    board_delete(BLOCKS, 0, 1);
    board_batch(BLOCKS, 0, value, n);
    board_read(BLOCKS, 0, 1);
    board_read_refusal(BLOCKS, 0, 1);
    board_append(BLOCKS, 0, value, n);
    board_take(BLOCKS, 0);
    board_look(BLOCKS, 0);
    board_look_refusal(BLOCKS, 0);
    board_advance(BLOCKS);
    board_sync(BLOCKS);
    board_write_back(BLOCKS, n);
    board_recover(BLOCKS);
    board_clock(image, n);
    board_survivors(image, n);
    board_store_format(store, 2, 2);
    board_store_begin(store, 0);
    board_store_end(store, 0);
    board_store_new(store, 0, 1, value, n);
    board_store_set(store, 0, 1, value, n);
    board_store_delete(store, 0, 1);
    board_store_batch(store, 0, value, n);
    board_store_read(store, 0, 1);
    board_store_read_refusal(store, 0, 1);
    board_store_append(store, 0, value, n);
    board_store_take(store, 0);
    board_store_look(store, 0);
    board_store_look_refusal(store, 0);
    board_store_advance(store);
    board_store_sync(store);
    board_store_write_back(store, n);
    board_store_recover(store);
}
