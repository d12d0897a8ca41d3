/* The calls of board.h once more, under another name: BYHAND(new) is byhand_new unless the includer says otherwise. */
#ifndef BYHAND_H
#define BYHAND_H

#include "board.h"

#ifndef BYHAND
#define BYHAND(name) byhand_##name
#endif

#define STORE uint32_t *working, size_t working_words, uint32_t *persistent, size_t persistent_words, \
              uint32_t *transient, size_t transient_words
#define READ_STORE const uint32_t *working, size_t working_words, const uint32_t *persistent, \
                   size_t persistent_words, const uint32_t *transient, size_t transient_words
#define NOTES_STORE const uint32_t *working, size_t working_words, const uint32_t *persistent, \
                    size_t persistent_words, uint32_t *transient, size_t transient_words
#define CHANGE_STORE uint32_t *working, size_t working_words, const uint32_t *persistent, size_t persistent_words, \
                     uint32_t *transient, size_t transient_words
#define WORD_STORE const uint32_t *working, size_t working_words, uint32_t *persistent, size_t persistent_words, \
                   const uint32_t *transient, size_t transient_words

uint32_t BYHAND(format)(STORE, uint32_t slots, uint32_t words);
uint32_t BYHAND(begin)(NOTES_STORE, uint32_t thread);
uint32_t BYHAND(end)(NOTES_STORE, uint32_t thread);
uint32_t BYHAND(new)(CHANGE_STORE, uint32_t thread, uint32_t key, const uint32_t *value, size_t value_words);
uint32_t BYHAND(set)(CHANGE_STORE, uint32_t thread, uint32_t key, const uint32_t *value, size_t value_words);
uint32_t BYHAND(delete)(CHANGE_STORE, uint32_t thread, uint32_t key);
uint64_t BYHAND(batch)(CHANGE_STORE, uint32_t thread, const uint32_t *changes, size_t changes_words);
uint64_t BYHAND(read)(READ_STORE, uint32_t thread, uint32_t key);
uint64_t BYHAND(append)(CHANGE_STORE, uint32_t thread, const uint32_t *value, size_t value_words);
uint32_t BYHAND(take)(CHANGE_STORE, uint32_t thread);
uint64_t BYHAND(look)(READ_STORE, uint32_t thread);
uint64_t BYHAND(advance)(STORE);
uint64_t BYHAND(sync)(STORE);
uint32_t BYHAND(write_back)(WORD_STORE, size_t position);
uint64_t BYHAND(recover)(STORE);
uint64_t BYHAND(survivors)(const uint8_t *image, size_t bytes);

/* All calls of one version of the rules, so that a program can run on either. */
struct calls {
    uint32_t (*format)(STORE, uint32_t slots, uint32_t words);
    uint32_t (*begin)(NOTES_STORE, uint32_t thread);
    uint32_t (*end)(NOTES_STORE, uint32_t thread);
    uint32_t (*new)(CHANGE_STORE, uint32_t thread, uint32_t key, const uint32_t *value, size_t value_words);
    uint32_t (*set)(CHANGE_STORE, uint32_t thread, uint32_t key, const uint32_t *value, size_t value_words);
    uint32_t (*delete)(CHANGE_STORE, uint32_t thread, uint32_t key);
    uint64_t (*batch)(CHANGE_STORE, uint32_t thread, const uint32_t *changes, size_t changes_words);
    uint64_t (*read)(READ_STORE, uint32_t thread, uint32_t key);
    uint64_t (*append)(CHANGE_STORE, uint32_t thread, const uint32_t *value, size_t value_words);
    uint32_t (*take)(CHANGE_STORE, uint32_t thread);
    uint64_t (*look)(READ_STORE, uint32_t thread);
    uint64_t (*advance)(STORE);
    uint64_t (*sync)(STORE);
    uint32_t (*write_back)(WORD_STORE, size_t position);
    uint64_t (*recover)(STORE);
    uint64_t (*survivors)(const uint8_t *image, size_t bytes);
};

#define CALLS(of) {of##_format, of##_begin, of##_end, of##_new, of##_set, of##_delete, of##_batch, of##_read, \
                   of##_append, of##_take, of##_look, of##_advance, of##_sync, of##_write_back, of##_recover, \
                   of##_survivors}

#endif
