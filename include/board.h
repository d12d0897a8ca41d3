/* The epoch-kept board: a crash-safe store of courier jobs, with a queue of hand-overs beside them, in
 * memory that you lend it.
 *
 * THE STORE is three blocks of 32-bit words that you own:
 *
 *   working     the image that calls read and change; ordinary memory;
 *   persistent  the image that survives a power cut, of the same layout and length;
 *   transient   the store's notes; ordinary memory.
 *
 * An image of N slots (2 to 1,024) with W words of contents each (2 to 9) has 3 + 4N + WN words:
 * N, W, the clock, then N headers (kind, epoch, uid, board), then N contents (key, W - 1 value
 * words). The smallest has 15 words, the largest 13,315, which are 53,260 bytes. The notes of T
 * threads (1 to 16) have 70 + T + 3N words and begin with N; T is what their length leaves.
 * board_image_words and board_transient_words work the lengths out.
 *
 * The notes also hold an index of the filled slots by board and key, so that a call on a job looks at a
 * few slots and not at all of them, however large the board is. Those on the queue still go over all.
 * The calls keep it right by themselves, and board_recover builds it anew. No refusal judges it: if you
 * write into it, a call on a job may miss what is there, and then decline with a wrong number from 9 to
 * 13, or accept what it should not, such as a job for the second time, which recovery refuses. Refusals
 * 1 to 8 stay right all the same, every call returns, and none touches anything but the three blocks.
 *
 * A header with any of its four words 0 counts as free, for every call and every question, whatever
 * the others are. A slot is freed by storing four zeros; other words in a free header are what is left
 * of a store that a power cut fell into, and recovery zeroes them.
 *
 * The board word says what a slot holds: 1 is a job, 2 an entry of the queue. Each board has keys of
 * its own. You never pass it: new and append write it, set, delete and take carry it on, the calls on
 * jobs look at no slot of the queue, those on the queue at none of a job, and an image with another in
 * a header of four nonzero words is refused by recover and by the questions (BOARD_BAD_SLOT). The slots
 * are shared: a queue that has filled the board leaves no room for a job, and the other way round.
 *
 * An older layout had headers of three words, without the board. Every call refuses an image of it
 * (BOARD_SIZES), as it is N words shorter than its N and W ask for. There is no conversion: empty
 * the board with the old library, and make it anew with board_format. The length is all that tells
 * the two apart, so hand over the one that the image has: do not lengthen an old file first. An image
 * with headers of four words from before the queue is as one of today whose queue is empty.
 *
 * The three belong together: a call refuses images that differ in N or W, and notes of another N
 * (BOARD_SIZES). It cannot tell the notes of another store with the same N from the right ones.
 * Format and recover judge only the lengths of what they fill, not the words that stand there.
 *
 * A JOB is a key other than 0 and a value of W - 1 words. Jobs are changed within an operation:
 * begin, then any new, set and delete, one by one or up to 64 in one call (board_batch), then end.
 * The clock counts epochs, and an operation belongs to the epoch in which it began. board_advance and
 * board_sync move the clock. A power cut at clock c keeps every operation of an epoch up to c - 2,
 * whole, and nothing of any later one; so an operation is safe once the clock has ticked twice since
 * it began.
 *
 * THE QUEUE is first in, first out: board_append puts a value of W - 1 words at the back, board_look
 * shows the front and board_take takes it away. Append and take are changes within an operation, as
 * those of jobs are, and the same cuts keep or lose them. Append answers the entry's order number,
 * which is its key: 1 first, and one more with each append. The front is the entry with the smallest.
 * After a power cut each entry that is left has the number that its append was given, and numbers go
 * on one above the largest left, from 1 if none is. So until a cut no number is given twice; after
 * it, that of an entry which is gone, taken or lost, can be.
 *
 * What a cut leaves is a queue too: each take that it keeps took the first of the entries that the
 * kept operations before it had left. For that, a queue call within an operation is refused once an
 * operation of a later epoch has appended or taken (BOARD_NEWER): end, begin again, and repeat it.
 *
 * WHO MAY CALL WHEN. A call that changes a store is made alone: with several threads of the machine,
 * hold a lock of your own around it. board_read, board_look, their refusals and the questions to an
 * image write nothing into memory that you lent, and the library has no memory of its own. So any
 * number of these may run at once, as long as none that changes the store does: a lock for many readers
 * or one writer serves, held until the words read are used. Calls on different stores need no lock.
 * "Thread" below is a number from 0 to T - 1 that holds one open operation; operations of different
 * threads may interleave freely. From a power cut until board_recover answers BOARD_DONE nothing but
 * board_recover is called on a store; between calls nobody else writes into the three blocks.
 *
 * WHAT HAS TO BE FLUSHED BEFORE WHAT. Only format, advance, sync, write_back and recover store into
 * persistent. A line is one slot's header, one slot's contents, or the clock word. An advance call
 * stores one line, a recover call one at most. The memory under persistent has to do two things:
 *
 *   - take an aligned 32-bit word whole or not at all (memory that takes eight aligned bytes whole
 *     does). The words of one line may become durable in any order, and the power may fail between
 *     any two of them;
 *   - keep the lines in their order: all words of a line are durable before any word of the next one.
 *
 * Three ways to have the second:
 *
 *   - the machine does it: stores become durable in the order they are made, and the program does
 *     nothing for it (the caches are in the power-fail domain, or persistent is battery-backed
 *     memory). Nothing to flush, use board_sync;
 *   - you do it: use board_advance, and flush persistent after each call, before the next one that
 *     stores into it; in recovery likewise after each board_recover. board_sync stores many lines in
 *     one call: do not use it then;
 *   - only the process can fail, and not the machine: what it stored into a shared mapping of a file
 *     stays when it is killed, between whichever two words. Nothing to flush.
 *
 * Which line a call stored: an advance that goes on, one slot's contents or header; one that ticks,
 * the clock, word 2; a recover that goes on, one slot's header. A host that does not look flushes the
 * image. Format stores the whole image. Begin, end and the calls on jobs and on the queue store nothing
 * there, and are followed by no flush.
 *
 * AFTER A POWER CUT, or when the process was killed, working and transient are lost and may hold
 * anything. Map persistent again, allocate the other two with the same sizes, and call board_recover
 * until it answers BOARD_DONE. A host that flushes does so once before the first of these calls: what a
 * killed process stored last may not be durable yet.
 *
 * WHAT YOU LEND. Every length below is in words, except that of an image's bytes. A call accepts any
 * lengths and any words: it refuses what is not a store, and a refusal changes nothing (in a batch what
 * was accepted before it stands). The pointers must be valid for their lengths. Blocks, values and
 * lists of changes are aligned as uint32_t, to 4 bytes; an image's bytes may stand at any address. The
 * three blocks must not overlap, and a value or a list that you hand over must not overlap them: copy
 * what board_read or board_look shows before you hand it back. A call keeps no pointer, allocates
 * nothing and always returns. On the stack board_recover, board_survivors and board_clock take at most
 * 24 KB (24,576 bytes), board_batch at most 1 KB (1,024 bytes), every other call at most 512 bytes.
 */
#ifndef BOARD_H
#define BOARD_H

#include <stddef.h>
#include <stdint.h>

/* The version of this header. */
#define BOARD_VERSION_MAJOR 0
#define BOARD_VERSION_MINOR 9
#define BOARD_VERSION_PATCH 0
#define BOARD_VERSION (BOARD_VERSION_MAJOR * 10000 + BOARD_VERSION_MINOR * 100 + BOARD_VERSION_PATCH)

/* Before a call whose answer can be a refusal: the compiler warns where it is not looked at. */
#ifndef BOARD_MUST_CHECK
#ifdef __GNUC__
#define BOARD_MUST_CHECK __attribute__((warn_unused_result))
#else
#define BOARD_MUST_CHECK
#endif
#endif

/* Before what the header defines and the library exports too, for hosts in other languages. */
#ifndef BOARD_INLINE
#define BOARD_INLINE static inline
#endif

#ifdef __cplusplus
extern "C" {
#endif

/* The version of the library that is linked, as BOARD_VERSION. */
uint32_t board_version(void);

/* Why a call declines. A call that declines for several reasons gives the lowest number, with
 * BOARD_EMPTY in the place of BOARD_NO_JOB. Any call on a store but format can give BOARD_SIZES and
 * BOARD_CLOCK; the others are named at the calls. */
enum board_refusal {
    BOARD_SIZES = 1,         /* N, W or T out of range, a length that does not fit them, images or notes
                                of different sizes, or notes with a slot, a next uid or a next order
                                number out of range */
    BOARD_CLOCK = 2,         /* the clock is not between 2 and 4,000,000,000, the images' clocks differ,
                                or an operation is open in neither the clock's epoch nor the one before */
    BOARD_BAD_SLOT = 3,      /* a header of four nonzero words with one out of range, such as another board
                                than 1 and 2; a surviving job or queue entry with key 0, or a surviving
                                queue entry with key above 4,000,000,000 */
    BOARD_DUPLICATE = 4,     /* two kept slots of one uid and epoch, or two surviving jobs or two surviving
                                queue entries of one key */
    BOARD_NO_THREAD = 5,     /* the thread number is not below T */
    BOARD_ALREADY_OPEN = 6,  /* the thread has an operation open */
    BOARD_NOT_OPEN = 7,      /* the thread has no operation open */
    BOARD_BAD_ARGUMENT = 8,  /* key 0, or a value that is not W - 1 words long; for a batch also a list of
                                the wrong length and, in its turn, a change of an unknown kind */
    BOARD_NEWER = 9,         /* an operation of a later epoch has changed this job or, for a queue call,
                                the queue: end, begin again, and repeat the call in the new operation */
    BOARD_NO_JOB = 10,       /* no live job of that key */
    BOARD_JOB_EXISTS = 11,   /* a live job of that key */
    BOARD_NO_UID = 12,       /* no uid or order number is left to give */
    BOARD_FULL = 13,         /* too few free slots */
    BOARD_STILL_OPEN = 14,   /* an operation must end first: for an advance that begins one open in the
                                epoch before the clock's, for a sync any */
    BOARD_LAST_EPOCH = 15,   /* the clock cannot go up by one (advance) or by two (sync) */
    BOARD_NO_WORD = 16,      /* the position is of no word in a header or in contents */
    BOARD_EMPTY = 17         /* the queue is empty */
};

/* A 64-bit answer of BOARD_REFUSED or more is a refusal: BOARD_REFUSED plus its number. Not so that of
 * board_batch, which has two macros of its own. */
#define BOARD_REFUSED UINT64_C(4294967296)

/* The refusal's number in a 64-bit answer of the other calls, 0 where it is none. */
static inline uint32_t board_refusal_of(uint64_t answer)
{
    return answer < BOARD_REFUSED ? 0 : (uint32_t)(answer - BOARD_REFUSED);
}

/* A refusal's number in English; 0 is "accepted". It takes the number alone: a 32-bit answer, or
 * board_refusal_of a 64-bit one. A position, a count of lines or BOARD_TICKED is no such number. */
BOARD_INLINE const char *board_refusal_text(uint32_t refusal)
{
    switch (refusal) {
    case 0: return "accepted";
    case BOARD_SIZES: return "the sizes are out of range, or images, notes and lengths do not agree";
    case BOARD_CLOCK: return "the clock is out of range, or clocks and open operations do not agree";
    case BOARD_BAD_SLOT: return "a slot of the image is damaged";
    case BOARD_DUPLICATE: return "a job or a queue entry stands twice in the image";
    case BOARD_NO_THREAD: return "there is no thread of that number";
    case BOARD_ALREADY_OPEN: return "the thread has an operation open";
    case BOARD_NOT_OPEN: return "the thread has no operation open";
    case BOARD_BAD_ARGUMENT: return "the key is 0, a length is wrong, or a change is of an unknown kind";
    case BOARD_NEWER: return "a later epoch has changed this job, or the queue";
    case BOARD_NO_JOB: return "there is no job of that key";
    case BOARD_JOB_EXISTS: return "there is a job of that key already";
    case BOARD_NO_UID: return "no uid or order number is left";
    case BOARD_FULL: return "the board is full";
    case BOARD_STILL_OPEN: return "an operation is still open";
    case BOARD_LAST_EPOCH: return "the clock has reached its end";
    case BOARD_NO_WORD: return "there is no word of a header or of contents at that position";
    case BOARD_EMPTY: return "the queue is empty";
    default: return "no refusal has this number";
    }
}

/* ---- Making a store ---- */

/* The words to allocate for an image of N slots of W words of contents, 3 + 4N + WN, and for the notes
 * of T threads, 70 + T + 3N; 0 where a size is out of range. */
size_t board_image_words(uint32_t slots, uint32_t words);
size_t board_transient_words(uint32_t slots, uint32_t threads);

/* Makes a fresh store of these sizes, whatever the memory holds: clock 2, no job, an empty queue. It
 * answers 0, or BOARD_SIZES and changes nothing. Flush the persistent image before you use the store. A
 * power cut while it is made is not covered: a file is made under another name, flushed, and renamed
 * (examples/courier.c). */
BOARD_MUST_CHECK
uint32_t board_format(uint32_t *working, size_t working_words,
                      uint32_t *persistent, size_t persistent_words,
                      uint32_t *transient, size_t transient_words,
                      uint32_t slots, uint32_t words);

/* ---- Calls on jobs. 0 for accepted, else the number of the refusal ---- */

/* Opens an operation of the thread in the clock's epoch.
 * Refusals: BOARD_NO_THREAD, BOARD_ALREADY_OPEN. */
BOARD_MUST_CHECK
uint32_t board_begin(const uint32_t *working, size_t working_words,
                     const uint32_t *persistent, size_t persistent_words,
                     uint32_t *transient, size_t transient_words, uint32_t thread);

/* Closes it. Keep operations short: one left open in the epoch before the clock's holds the clock.
 * Refusals: BOARD_NO_THREAD, BOARD_NOT_OPEN. */
BOARD_MUST_CHECK
uint32_t board_end(const uint32_t *working, size_t working_words,
                   const uint32_t *persistent, size_t persistent_words,
                   uint32_t *transient, size_t transient_words, uint32_t thread);

/* Makes a job. It needs two free slots, so that a full board can still be emptied. value_words is
 * W - 1.
 * Refusals: BOARD_NO_THREAD, BOARD_NOT_OPEN, BOARD_BAD_ARGUMENT, BOARD_NEWER, BOARD_JOB_EXISTS,
 * BOARD_NO_UID, BOARD_FULL. */
BOARD_MUST_CHECK
uint32_t board_new(uint32_t *working, size_t working_words,
                   const uint32_t *persistent, size_t persistent_words,
                   uint32_t *transient, size_t transient_words,
                   uint32_t thread, uint32_t key, const uint32_t *value, size_t value_words);

/* Gives a live job another value. A job last changed in an earlier epoch takes a new slot, and then
 * two must be free; the old one becomes free again a few epochs later. Where fewer are free, the value
 * that the job has is accepted all the same, and no word of the store changes: a job can be saved again on
 * a full board. After a power cut it counts as any accepted change does.
 * Refusals: BOARD_NO_THREAD, BOARD_NOT_OPEN, BOARD_BAD_ARGUMENT, BOARD_NEWER, BOARD_NO_JOB, BOARD_FULL (for
 * another value than the job has). */
BOARD_MUST_CHECK
uint32_t board_set(uint32_t *working, size_t working_words,
                   const uint32_t *persistent, size_t persistent_words,
                   uint32_t *transient, size_t transient_words,
                   uint32_t thread, uint32_t key, const uint32_t *value, size_t value_words);

/* Ends a live job. For one last changed in an earlier epoch it needs one free slot.
 * Refusals: BOARD_NO_THREAD, BOARD_NOT_OPEN, BOARD_BAD_ARGUMENT (key 0), BOARD_NEWER, BOARD_NO_JOB,
 * BOARD_FULL. */
BOARD_MUST_CHECK
uint32_t board_delete(uint32_t *working, size_t working_words,
                      const uint32_t *persistent, size_t persistent_words,
                      uint32_t *transient, size_t transient_words,
                      uint32_t thread, uint32_t key);

/* The kinds of a change in a list. */
enum board_change {
    BOARD_NEW = 1,
    BOARD_SET = 2,
    BOARD_DELETE = 3
};

/* A list holds at most so many changes. */
#define BOARD_MOST_CHANGES 64

/* What board_batch answers: how many changes were accepted, from the first on, and the refusal that ended
 * it, 0 where there was none. */
#define BOARD_BATCH_ACCEPTED(answer) ((uint32_t)((answer) % BOARD_REFUSED))
#define BOARD_BATCH_REFUSAL(answer) ((uint32_t)((answer) / BOARD_REFUSED))

/* Makes the changes of a list, one by one and in order, as board_new, board_set and board_delete of the
 * same thread would, up to the first that declines. Each change is W + 1 words: its kind, the key and
 * W - 1 value words, which a delete has too but does not look at. changes_words is the length of the
 * whole list, a multiple of W + 1. An empty list is accepted with 0.
 *
 * What was accepted before a refusal stands: the changes are part of the open operation, and a power cut
 * keeps or loses them with it. A call that refuses with none accepted changes nothing.
 *
 *     uint32_t changes[2][1 + WORDS] = {{BOARD_NEW, 17, 4, 20}, {BOARD_DELETE, 12}};
 *     uint64_t answer = board_batch(w, wn, p, pn, t, tn, thread, *changes, 2 * (1 + WORDS));
 *     uint32_t refusal = BOARD_BATCH_REFUSAL(answer);
 *     if (refusal != 0)
 *         complain(BOARD_BATCH_ACCEPTED(answer), board_refusal_text(refusal));
 *
 * Refusals of the whole list, with none accepted: BOARD_NO_THREAD, BOARD_NOT_OPEN, BOARD_BAD_ARGUMENT
 * (more than 64 changes, or a length that is no multiple of W + 1). Of a change, in its turn: those of its
 * own call, and BOARD_BAD_ARGUMENT for an unknown kind. */
BOARD_MUST_CHECK
uint64_t board_batch(uint32_t *working, size_t working_words,
                     const uint32_t *persistent, size_t persistent_words,
                     uint32_t *transient, size_t transient_words,
                     uint32_t thread, const uint32_t *changes, size_t changes_words);

/* Where in working the value of a live job starts, W - 1 words long, or BOARD_REFUSED plus the
 * refusal. It needs no open operation, and nothing is changed. The words stay as they are until the
 * next call that changes the store.
 *
 *     uint64_t at = board_read(w, wn, p, pn, t, tn, thread, key);
 *     if (at < BOARD_REFUSED)
 *         use(w + at, words - 1);
 *
 * Refusals: BOARD_NO_THREAD, BOARD_BAD_ARGUMENT (key 0), BOARD_NEWER (only with an operation open),
 * BOARD_NO_JOB. */
BOARD_MUST_CHECK
uint64_t board_read(const uint32_t *working, size_t working_words,
                    const uint32_t *persistent, size_t persistent_words,
                    const uint32_t *transient, size_t transient_words,
                    uint32_t thread, uint32_t key);

/* The refusal of board_read with the same arguments, 0 for none. */
BOARD_MUST_CHECK
uint32_t board_read_refusal(const uint32_t *working, size_t working_words,
                            const uint32_t *persistent, size_t persistent_words,
                            const uint32_t *transient, size_t transient_words,
                            uint32_t thread, uint32_t key);

/* ---- The queue ---- */

/* Puts a value at the back. It needs two free slots, so that a full board can still be emptied.
 * value_words is W - 1. It answers the entry's order number, from 1 to 4,000,000,000, or BOARD_REFUSED
 * plus the refusal, which uses up no number.
 * Refusals: BOARD_NO_THREAD, BOARD_NOT_OPEN, BOARD_BAD_ARGUMENT (the value's length), BOARD_NEWER,
 * BOARD_NO_UID, BOARD_FULL. */
BOARD_MUST_CHECK
uint64_t board_append(uint32_t *working, size_t working_words,
                      const uint32_t *persistent, size_t persistent_words,
                      uint32_t *transient, size_t transient_words,
                      uint32_t thread, const uint32_t *value, size_t value_words);

/* Takes the front away. For an entry appended in an earlier epoch it needs one free slot. It answers 0
 * or the refusal, and not what it took: that is what board_look shows the same thread just before.
 *
 *     uint64_t at = board_look(w, wn, p, pn, t, tn, thread);
 *     if (at < BOARD_REFUSED) {
 *         memcpy(parcel, w + at, (words - 1) * sizeof *w);
 *         if (board_take(w, wn, p, pn, t, tn, thread) == 0)
 *             use(parcel);
 *     }
 *
 * Refusals: BOARD_NO_THREAD, BOARD_NOT_OPEN, BOARD_NEWER, BOARD_EMPTY, BOARD_FULL. */
BOARD_MUST_CHECK
uint32_t board_take(uint32_t *working, size_t working_words,
                    const uint32_t *persistent, size_t persistent_words,
                    uint32_t *transient, size_t transient_words,
                    uint32_t thread);

/* Where in working the value of the front starts, W - 1 words long, or BOARD_REFUSED plus the refusal.
 * The word before it is the entry's order number. Like board_read it needs no open operation and
 * changes nothing, and the words stay as they are until the next call that changes the store.
 * Refusals: BOARD_NO_THREAD, BOARD_NEWER (only with an operation open), BOARD_EMPTY. */
BOARD_MUST_CHECK
uint64_t board_look(const uint32_t *working, size_t working_words,
                    const uint32_t *persistent, size_t persistent_words,
                    const uint32_t *transient, size_t transient_words,
                    uint32_t thread);

/* The refusal of board_look with the same arguments, 0 for none. */
BOARD_MUST_CHECK
uint32_t board_look_refusal(const uint32_t *working, size_t working_words,
                            const uint32_t *persistent, size_t persistent_words,
                            const uint32_t *transient, size_t transient_words,
                            uint32_t thread);

/* ---- Moving the clock ---- */

/* What one advance call did. */
enum board_step {
    BOARD_STORED = 0, /* it stored one line of persistent; the advance is not over */
    BOARD_TICKED = 1  /* the line was the clock, which is one higher now: this advance is over */
};

/* One step of an advance: it stores exactly one line of persistent, from the place that the last one
 * reached. It frees, one by one, the slots that nothing needs any more; then stores the contents and
 * the header of each slot changed in the epoch before the clock's; then raises the clock in both
 * images. Between the steps any other call may be made. Call it from a timer, a few lines or a tick
 * at a time. It answers BOARD_STORED, BOARD_TICKED, or BOARD_REFUSED plus the refusal.
 * Refusals: BOARD_STILL_OPEN (at the start of an advance: an operation is open in the epoch before
 * the clock's), BOARD_LAST_EPOCH. */
BOARD_MUST_CHECK
uint64_t board_advance(uint32_t *working, size_t working_words,
                       uint32_t *persistent, size_t persistent_words,
                       uint32_t *transient, size_t transient_words);

/* Advance calls until two have ticked (one underway counts): every operation ended before is now safe
 * from a power cut. It answers the number of lines stored, two where nothing had changed and
 * 2 (3N + 1) at most, or BOARD_REFUSED plus the refusal. Only for memory that makes lines durable in
 * their order by itself (see above).
 * Refusals: BOARD_STILL_OPEN (any operation is open), BOARD_LAST_EPOCH. */
BOARD_MUST_CHECK
uint64_t board_sync(uint32_t *working, size_t working_words,
                    uint32_t *persistent, size_t persistent_words,
                    uint32_t *transient, size_t transient_words);

/* Copies one word of the image from working to persistent: its position counts from 0, and words 0 to
 * 2, the sizes and the clock, are not copied. No server needs it. It stands for what a cache does by
 * itself at any moment, and is harmless between any two calls; tests use it to show that. It answers 0
 * or the refusal.
 * Refusals: BOARD_NO_WORD (a position below 3, or not below the image's length). */
BOARD_MUST_CHECK
uint32_t board_write_back(const uint32_t *working, size_t working_words,
                          uint32_t *persistent, size_t persistent_words,
                          const uint32_t *transient, size_t transient_words,
                          size_t position);

/* ---- After a power cut ---- */

/* What one recover call did. */
enum board_recovery {
    BOARD_WENT_ON = 0, /* it freed one header of the persistent image: call again */
    BOARD_DONE = 1     /* nothing was left to free: the store is ready */
};

/* One step of recovery, after a power cut. What working and transient hold does not matter; only
 * their lengths are judged. Each call checks the persistent image and stores into one header of it
 * at most, four zeros; flush that header before you call again. Call until BOARD_DONE: at most N calls
 * answer BOARD_WENT_ON before it, cuts in between or not. Only that last call fills working and
 * transient. A power cut between these calls, or in one before, within or after its store, does no
 * harm: begin again. An image that is accepted once is accepted to the end.
 *
 *     uint64_t r;
 *     while ((r = board_recover(w, wn, p, pn, t, tn)) == BOARD_WENT_ON)
 *         flush(p);
 *     if (r != BOARD_DONE)
 *         complain(board_refusal_text(board_refusal_of(r)));
 *
 * Refusals: BOARD_SIZES, BOARD_CLOCK, BOARD_BAD_SLOT, BOARD_DUPLICATE. */
BOARD_MUST_CHECK
uint64_t board_recover(uint32_t *working, size_t working_words,
                       uint32_t *persistent, size_t persistent_words,
                       uint32_t *transient, size_t transient_words);

/* ---- Questions to an image ---- */

/* The clock of an image, given as bytes: four to a word, lowest first. Nothing is changed, and the
 * image need not be aligned. Refusals as for board_recover, judged on the image alone. */
BOARD_MUST_CHECK
uint64_t board_clock(const uint8_t *image, size_t bytes);

/* How many jobs recovery of this image would give; queue entries are not counted. Otherwise as
 * board_clock. */
BOARD_MUST_CHECK
uint64_t board_survivors(const uint8_t *image, size_t bytes);

/* ---- A store as one argument ---- */

/* The three blocks. working and persistent are image_words long. */
struct board_store {
    uint32_t *working, *persistent, *transient;
    size_t image_words, transient_words;
};

#define BOARD_BLOCKS(store)                                                                \
    (store)->working, (store)->image_words, (store)->persistent, (store)->image_words,     \
        (store)->transient, (store)->transient_words

/* What board_read or board_look has found: the value that starts at this position of working. */
static inline const uint32_t *board_store_value(const struct board_store *store, uint64_t at)
{
    return store->working + at;
}

/* board_store_X is board_X on these blocks. */
BOARD_MUST_CHECK
static inline uint32_t board_store_format(const struct board_store *store,
                                          uint32_t slots, uint32_t words)
{
    return board_format(BOARD_BLOCKS(store), slots, words);
}

BOARD_MUST_CHECK
static inline uint32_t board_store_begin(const struct board_store *store, uint32_t thread)
{
    return board_begin(BOARD_BLOCKS(store), thread);
}

BOARD_MUST_CHECK
static inline uint32_t board_store_end(const struct board_store *store, uint32_t thread)
{
    return board_end(BOARD_BLOCKS(store), thread);
}

BOARD_MUST_CHECK
static inline uint32_t board_store_new(const struct board_store *store,
                                       uint32_t thread, uint32_t key, const uint32_t *value, size_t value_words)
{
    return board_new(BOARD_BLOCKS(store), thread, key, value, value_words);
}

BOARD_MUST_CHECK
static inline uint32_t board_store_set(const struct board_store *store,
                                       uint32_t thread, uint32_t key, const uint32_t *value, size_t value_words)
{
    return board_set(BOARD_BLOCKS(store), thread, key, value, value_words);
}

BOARD_MUST_CHECK
static inline uint32_t board_store_delete(const struct board_store *store,
                                          uint32_t thread, uint32_t key)
{
    return board_delete(BOARD_BLOCKS(store), thread, key);
}

BOARD_MUST_CHECK
static inline uint64_t board_store_batch(const struct board_store *store,
                                         uint32_t thread, const uint32_t *changes, size_t changes_words)
{
    return board_batch(BOARD_BLOCKS(store), thread, changes, changes_words);
}

BOARD_MUST_CHECK
static inline uint64_t board_store_read(const struct board_store *store, uint32_t thread, uint32_t key)
{
    return board_read(BOARD_BLOCKS(store), thread, key);
}

BOARD_MUST_CHECK
static inline uint32_t board_store_read_refusal(const struct board_store *store,
                                                uint32_t thread, uint32_t key)
{
    return board_read_refusal(BOARD_BLOCKS(store), thread, key);
}

BOARD_MUST_CHECK
static inline uint64_t board_store_append(const struct board_store *store,
                                          uint32_t thread, const uint32_t *value, size_t value_words)
{
    return board_append(BOARD_BLOCKS(store), thread, value, value_words);
}

BOARD_MUST_CHECK
static inline uint32_t board_store_take(const struct board_store *store, uint32_t thread)
{
    return board_take(BOARD_BLOCKS(store), thread);
}

BOARD_MUST_CHECK
static inline uint64_t board_store_look(const struct board_store *store, uint32_t thread)
{
    return board_look(BOARD_BLOCKS(store), thread);
}

BOARD_MUST_CHECK
static inline uint32_t board_store_look_refusal(const struct board_store *store, uint32_t thread)
{
    return board_look_refusal(BOARD_BLOCKS(store), thread);
}

BOARD_MUST_CHECK
static inline uint64_t board_store_advance(const struct board_store *store)
{
    return board_advance(BOARD_BLOCKS(store));
}

BOARD_MUST_CHECK
static inline uint64_t board_store_sync(const struct board_store *store)
{
    return board_sync(BOARD_BLOCKS(store));
}

BOARD_MUST_CHECK
static inline uint32_t board_store_write_back(const struct board_store *store, size_t position)
{
    return board_write_back(BOARD_BLOCKS(store), position);
}

BOARD_MUST_CHECK
static inline uint64_t board_store_recover(const struct board_store *store)
{
    return board_recover(BOARD_BLOCKS(store));
}

#undef BOARD_BLOCKS

#ifdef __cplusplus
}
#endif

#endif
