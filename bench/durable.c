/* Changes made durable, one at a time and 40 together: the board against SQLite and LMDB, on a memory-backed file
   system and on the one that this program stands on; and reads, in memory. Each makes the same changes durable and
   holds the same jobs at the end.
   Usage: durable --quick | --times */

#include "board.h"
#include "measure.h"

#include <fcntl.h>
#include <inttypes.h>
#include <libgen.h>
#include <limits.h>
#include <lmdb.h>
#include <sqlite3.h>
#include <stdbool.h>
#include <stdio.h>
#include <stdlib.h>
#include <string.h>
#include <sys/mman.h>
#include <sys/stat.h>
#include <sys/vfs.h>
#include <unistd.h>

enum { WORDS = 4, VALUE_WORDS = WORDS - 1, THREADS = 1, ROUNDS = 25, CHANGES = 60, TOGETHER = 40, READS = 2048 };
enum { NEW, SET, DELETE, BATCH, KINDS };
static const char *const kind_names[KINDS] = {"new", "set", "delete", "40 sets together"};

/* What can be done with each of them. A change, or a batch, is durable when it returns. */
struct keeper {
    const char *name;
    void (*open)(uint32_t slots);
    void (*change)(int kind, uint32_t key, const uint32_t *value);
    void (*batch)(int kind, uint32_t first, uint32_t count, uint32_t change); /* jobs from first on */
    bool (*read)(uint32_t key, uint32_t *value);
    void (*close)(void);
};

static char directory[PATH_MAX];

static void fail(const char *who, const char *what)
{
    fprintf(stderr, "durable: %s: %s\n", who, what);
    exit(1);
}

static const char *path(const char *name)
{
    static char text[PATH_MAX + 16];
    snprintf(text, sizeof text, "%s/%s", directory, name);
    return text;
}

static void some_value(uint32_t *value, uint32_t key, uint32_t change)
{
    for (uint32_t i = 0; i < VALUE_WORDS; i++)
        value[i] = key * 31 + change * 7 + i;
}

/* ---- The board, in memory that keeps the order of its stores, or in a file with a flush after each line ---- */

static struct {
    uint32_t *working, *persistent, *transient;
    size_t image, notes;
} board;

#define BOARD board.working, board.image, board.persistent, board.image, board.transient, board.notes

static void accepted(uint32_t refusal)
{
    if (refusal != 0)
        fail("board", board_refusal_text(refusal));
}

static void allocate(uint32_t slots)
{
    board.image = board_image_words(slots, WORDS);
    board.notes = board_transient_words(slots, THREADS);
    board.working = malloc(board.image * 4);
    board.transient = malloc(board.notes * 4);
}

static void memory_open(uint32_t slots)
{
    allocate(slots);
    board.persistent = malloc(board.image * 4);
    accepted(board_format(BOARD, slots, WORDS));
}

static void memory_close(void)
{
    free(board.working);
    free(board.persistent);
    free(board.transient);
}

static void file_open(uint32_t slots)
{
    allocate(slots);
    int file = open(path("board"), O_RDWR | O_CREAT | O_TRUNC, 0600);
    if (file < 0 || ftruncate(file, (off_t)board.image * 4) != 0)
        fail("board", "no file");
    board.persistent = mmap(NULL, board.image * 4, PROT_READ | PROT_WRITE, MAP_SHARED, file, 0);
    if (board.persistent == MAP_FAILED)
        fail("board", "no mapping");
    close(file);
    accepted(board_format(BOARD, slots, WORDS));
}

static void file_close(void)
{
    munmap(board.persistent, board.image * 4);
    free(board.working);
    free(board.transient);
}

static void operation(int kind, uint32_t key, const uint32_t *value)
{
    accepted(board_begin(BOARD, 0));
    switch (kind) {
    case NEW: accepted(board_new(BOARD, 0, key, value, VALUE_WORDS)); break;
    case SET: accepted(board_set(BOARD, 0, key, value, VALUE_WORDS)); break;
    default: accepted(board_delete(BOARD, 0, key));
    }
    accepted(board_end(BOARD, 0));
}

static void operations(int kind, uint32_t first, uint32_t count, uint32_t change)
{
    uint32_t value[VALUE_WORDS];
    for (uint32_t key = first; key < first + count; key++) {
        some_value(value, key, change);
        operation(kind, key, value);
    }
}

static void memory_sync(void)
{
    if (board_sync(BOARD) >= BOARD_REFUSED)
        fail("board", "sync declined");
}

static void memory_change(int kind, uint32_t key, const uint32_t *value)
{
    operation(kind, key, value);
    memory_sync();
}

static void memory_batch(int kind, uint32_t first, uint32_t count, uint32_t change)
{
    operations(kind, first, count, change);
    memory_sync();
}

static void file_sync(void)
{
    for (int ticks = 0; ticks < 2;) {
        uint64_t answer = board_advance(BOARD);
        if (answer >= BOARD_REFUSED || msync(board.persistent, board.image * 4, MS_SYNC) != 0)
            fail("board", "advance declined or the flush failed");
        ticks += answer == BOARD_TICKED;
    }
}

static void file_change(int kind, uint32_t key, const uint32_t *value)
{
    operation(kind, key, value);
    file_sync();
}

/* The jobs that a round begins with are not timed, and are flushed at once. */
static void file_batch(int kind, uint32_t first, uint32_t count, uint32_t change)
{
    operations(kind, first, count, change);
    if (kind == SET) {
        file_sync();
        return;
    }
    memory_sync();
    if (msync(board.persistent, board.image * 4, MS_SYNC) != 0)
        fail("board", "the flush failed");
}

static bool board_has(uint32_t key, uint32_t *value)
{
    uint64_t at = board_read(BOARD, 0, key);
    if (at < BOARD_REFUSED)
        memcpy(value, board.working + at, VALUE_WORDS * 4);
    return at < BOARD_REFUSED;
}

/* ---- SQLite: a write-ahead log, flushed at every commit; with locks, or for one process alone ---- */

static sqlite3 *db;
enum { SELECT = BATCH, BEGIN, COMMIT, STATEMENTS };
static sqlite3_stmt *statements[STATEMENTS];

static void sqlite_run(const char *text)
{
    if (sqlite3_exec(db, text, NULL, NULL, NULL) != SQLITE_OK)
        fail("sqlite", sqlite3_errmsg(db));
}

static void sqlite_start(const char *locking)
{
    static const char *const texts[STATEMENTS] = {
        "INSERT INTO job VALUES (?4, ?1, ?2, ?3)", "UPDATE job SET a = ?1, b = ?2, c = ?3 WHERE key = ?4",
        "DELETE FROM job WHERE key = ?4", "SELECT a, b, c FROM job WHERE key = ?4", "BEGIN", "COMMIT"};
    unlink(path("sqlite"));
    unlink(path("sqlite-wal"));
    unlink(path("sqlite-shm"));
    if (sqlite3_open(path("sqlite"), &db) != SQLITE_OK)
        fail("sqlite", sqlite3_errmsg(db));
    sqlite_run(locking);
    sqlite_run("PRAGMA journal_mode = WAL; PRAGMA synchronous = FULL;"
               "CREATE TABLE job (key INTEGER PRIMARY KEY, a INTEGER, b INTEGER, c INTEGER)");
    for (int i = 0; i < STATEMENTS; i++)
        if (sqlite3_prepare_v2(db, texts[i], -1, &statements[i], NULL) != SQLITE_OK)
            fail("sqlite", sqlite3_errmsg(db));
}

static void sqlite_open(uint32_t slots)
{
    (void)slots;
    sqlite_start("PRAGMA locking_mode = NORMAL");
}

static void sqlite_open_alone(uint32_t slots)
{
    (void)slots;
    sqlite_start("PRAGMA locking_mode = EXCLUSIVE");
}

static void sqlite_change(int kind, uint32_t key, const uint32_t *value)
{
    sqlite3_stmt *statement = statements[kind];
    sqlite3_bind_int64(statement, 4, key);
    for (int i = 0; kind != DELETE && i < VALUE_WORDS; i++)
        sqlite3_bind_int64(statement, i + 1, value[i]);
    if (sqlite3_step(statement) != SQLITE_DONE || sqlite3_changes(db) != 1)
        fail("sqlite", sqlite3_errmsg(db));
    sqlite3_reset(statement);
}

static void sqlite_step(int statement)
{
    if (sqlite3_step(statements[statement]) != SQLITE_DONE)
        fail("sqlite", sqlite3_errmsg(db));
    sqlite3_reset(statements[statement]);
}

static void sqlite_batch(int kind, uint32_t first, uint32_t count, uint32_t change)
{
    uint32_t value[VALUE_WORDS];
    sqlite_step(BEGIN);
    for (uint32_t key = first; key < first + count; key++) {
        some_value(value, key, change);
        sqlite_change(kind, key, value);
    }
    sqlite_step(COMMIT);
}

static bool sqlite_has(uint32_t key, uint32_t *value)
{
    sqlite3_stmt *statement = statements[SELECT];
    sqlite3_bind_int64(statement, 4, key);
    bool found = sqlite3_step(statement) == SQLITE_ROW;
    for (int i = 0; found && i < VALUE_WORDS; i++)
        value[i] = (uint32_t)sqlite3_column_int64(statement, i);
    sqlite3_reset(statement);
    return found;
}

static void sqlite_close(void)
{
    for (int i = 0; i < STATEMENTS; i++)
        sqlite3_finalize(statements[i]);
    sqlite3_close(db);
}

/* ---- LMDB: flushed at every commit; as it comes, or with its pages changed in the mapping ---- */

static MDB_env *env;
static MDB_dbi dbi;
static MDB_txn *reader;

static void lmdb(int result)
{
    if (result != 0)
        fail("lmdb", mdb_strerror(result));
}

static void lmdb_start(unsigned flags)
{
    MDB_txn *txn;
    unlink(path("lmdb"));
    unlink(path("lmdb-lock"));
    lmdb(mdb_env_create(&env));
    lmdb(mdb_env_set_mapsize(env, 1 << 24));
    lmdb(mdb_env_open(env, path("lmdb"), MDB_NOSUBDIR | flags, 0600));
    lmdb(mdb_txn_begin(env, NULL, 0, &txn));
    lmdb(mdb_dbi_open(txn, NULL, MDB_INTEGERKEY, &dbi));
    lmdb(mdb_txn_commit(txn));
    lmdb(mdb_txn_begin(env, NULL, MDB_RDONLY, &reader));
    mdb_txn_reset(reader);
}

static void lmdb_open(uint32_t slots)
{
    (void)slots;
    lmdb_start(0);
}

static void lmdb_open_mapped(uint32_t slots)
{
    (void)slots;
    lmdb_start(MDB_WRITEMAP);
}

static void lmdb_put(MDB_txn *txn, int kind, uint32_t key, const uint32_t *value)
{
    MDB_val name = {sizeof key, &key}, data = {VALUE_WORDS * 4, (void *)value};
    if (kind == DELETE)
        lmdb(mdb_del(txn, dbi, &name, NULL));
    else
        lmdb(mdb_put(txn, dbi, &name, &data, kind == NEW ? MDB_NOOVERWRITE : 0));
}

static void lmdb_change(int kind, uint32_t key, const uint32_t *value)
{
    MDB_txn *txn;
    lmdb(mdb_txn_begin(env, NULL, 0, &txn));
    lmdb_put(txn, kind, key, value);
    lmdb(mdb_txn_commit(txn));
}

static void lmdb_batch(int kind, uint32_t first, uint32_t count, uint32_t change)
{
    MDB_txn *txn;
    uint32_t value[VALUE_WORDS];
    lmdb(mdb_txn_begin(env, NULL, 0, &txn));
    for (uint32_t key = first; key < first + count; key++) {
        some_value(value, key, change);
        lmdb_put(txn, kind, key, value);
    }
    lmdb(mdb_txn_commit(txn));
}

static bool lmdb_get(MDB_txn *txn, uint32_t key, uint32_t *value)
{
    MDB_val name = {sizeof key, &key}, data;
    int result = mdb_get(txn, dbi, &name, &data);
    if (result == 0)
        memcpy(value, data.mv_data, VALUE_WORDS * 4);
    else if (result != MDB_NOTFOUND)
        lmdb(result);
    return result == 0;
}

/* By one read-only transaction, which is renewed for each read. */
static bool lmdb_has(uint32_t key, uint32_t *value)
{
    lmdb(mdb_txn_renew(reader));
    bool found = lmdb_get(reader, key, value);
    mdb_txn_reset(reader);
    return found;
}

/* By a new one for each read; a thread has one at a time, and the other is reset. */
static bool lmdb_has_anew(uint32_t key, uint32_t *value)
{
    MDB_txn *txn;
    lmdb(mdb_txn_begin(env, NULL, MDB_RDONLY, &txn));
    bool found = lmdb_get(txn, key, value);
    mdb_txn_abort(txn);
    return found;
}

static void lmdb_close(void)
{
    mdb_txn_abort(reader);
    mdb_env_close(env);
}

static const struct keeper keepers[] = {
    {"board", memory_open, memory_change, memory_batch, board_has, memory_close},
    {"board, flushed by lines", file_open, file_change, file_batch, board_has, file_close},
    {"SQLite", sqlite_open, sqlite_change, sqlite_batch, sqlite_has, sqlite_close},
    {"SQLite, EXCLUSIVE", sqlite_open_alone, sqlite_change, sqlite_batch, sqlite_has, sqlite_close},
    {"LMDB", lmdb_open, lmdb_change, lmdb_batch, lmdb_has, lmdb_close},
    {"LMDB, WRITEMAP", lmdb_open_mapped, lmdb_change, lmdb_batch, lmdb_has, lmdb_close},
};
enum { KEEPERS = sizeof keepers / sizeof *keepers };

/* Where the files are, and how much is tried there. A board in memory alone is no matter of a disk. */
static const struct place {
    const char *name;
    int first; /* of the keepers */
    int rounds, changes;
    uint32_t sizes[4]; /* in slots; 0 ends them */
} memory = {"memory", 0, ROUNDS, CHANGES, {16, 128, 1024}}, disk = {"disk", 1, 5, 12, {128}};

static double took[KINDS][CHANGES];

/* New, set and delete of a job beside those that stay, timed. */
static void change_once(const struct keeper *keeper, uint32_t jobs, int i)
{
    uint32_t value[VALUE_WORDS], key = jobs + 1 + (uint32_t)i, old = 1 + (uint32_t)i * (jobs / 8 + 1) % jobs;
    some_value(value, key, 1);
    double start = seconds();
    keeper->change(NEW, key, value);
    double made = seconds();
    some_value(value, old, 2 + (uint32_t)i);
    double ready = seconds();
    keeper->change(SET, old, value);
    double set = seconds();
    bool found = keeper->read(old, value);
    double read = seconds();
    keeper->change(DELETE, key, NULL);
    double deleted = seconds();
    took[NEW][i] = made - start;
    took[SET][i] = set - ready;
    took[DELETE][i] = deleted - read;
    if (!found || value[1] != old * 31 + (2 + (uint32_t)i) * 7 + 1)
        fail(keeper->name, "a value that is not the one set");
}

/* A batch of sets, timed. */
static void change_together(const struct keeper *keeper, uint32_t jobs, int i)
{
    uint32_t first = 1 + (uint32_t)i * TOGETHER % (jobs - TOGETHER + 1);
    double start = seconds();
    keeper->batch(SET, first, TOGETHER, 2 + (uint32_t)i);
    took[BATCH][i] = seconds() - start;
}

/* What is left, summed up. */
static uint64_t held(const struct keeper *keeper, uint32_t keys)
{
    uint64_t sum = 0;
    uint32_t value[VALUE_WORDS];
    for (uint32_t key = 1; key <= keys; key++)
        if (keeper->read(key, value))
            sum = ((sum * 1000003 + key) * 31 + value[0]) * 31 + value[1] + value[2];
    return sum;
}

/* So many changes beside so many jobs that are there, and what is held at the end. */
static uint64_t round_of(const struct keeper *keeper, uint32_t slots, uint32_t jobs, int changes,
                         void (*change)(const struct keeper *, uint32_t, int))
{
    keeper->open(slots);
    keeper->batch(NEW, 1, jobs, 0);
    for (int i = 0; i < changes; i++)
        change(keeper, jobs, i);
    uint64_t sum = held(keeper, jobs + (uint32_t)changes);
    keeper->close();
    return sum;
}

/* Single changes on a board half full; batches, which leave as many old versions, on one with 5 jobs in 16 slots. */
static uint64_t rounds_of(const struct place *p, const struct keeper *keeper, uint32_t slots, double cost[KINDS])
{
    int batches = p->changes / 4;
    uint64_t sum = round_of(keeper, slots, slots / 2, p->changes, change_once);
    for (int kind = 0; kind < BATCH; kind++)
        cost[kind] = median(took[kind], p->changes);
    if (slots * 5 / 16 < TOGETHER)
        return sum;
    sum = sum * 31 + round_of(keeper, slots, slots * 5 / 16, batches, change_together);
    cost[BATCH] = median(took[BATCH], batches);
    return sum;
}

static void compare(const struct place *p, uint32_t slots, bool timed)
{
    static double cost[KEEPERS][KINDS][ROUNDS];
    int rounds = timed ? p->rounds : 1, several = KEEPERS - p->first;
    for (int round = 0; round < rounds; round++) {
        uint64_t left[KEEPERS];
        for (int turn = 0; turn < several; turn++) {
            int k = p->first + (round + turn) % several;
            double one[KINDS] = {0};
            left[k] = rounds_of(p, &keepers[k], slots, one);
            for (int kind = 0; kind < KINDS; kind++)
                cost[k][kind][round] = one[kind];
        }
        for (int k = p->first + 1; k < KEEPERS; k++)
            if (left[k] != left[p->first])
                fail(keepers[k].name, "it does not hold the jobs that the board holds");
    }
    for (int kind = 0; timed && kind < KINDS; kind++) {
        printf("durable\t%s\t%s\t%" PRIu32, p->name, kind_names[kind], slots);
        for (int k = 0; k < KEEPERS; k++)
            printf("\t%.0f", k < p->first ? 0 : 1e9 * median(cost[k][kind], rounds));
        printf("\n");
    }
}

/* ---- Reads alone ---- */

static const struct reader {
    const struct keeper *keeper;
    bool (*read)(uint32_t key, uint32_t *value);
} readers[] = {
    {&keepers[0], board_has}, {&keepers[2], sqlite_has}, {&keepers[3], sqlite_has},
    {&keepers[4], lmdb_has},  {&keepers[4], lmdb_has_anew},
};
enum { READERS = sizeof readers / sizeof *readers };

/* The time of a read: jobs in turn, each far from the one before it, the value copied out. */
static double time_reads(const struct reader *r, uint32_t jobs)
{
    uint32_t value[VALUE_WORDS] = {0}, key = 0, sum = 0, expected = 0;
    double start = seconds();
    for (int i = 0; i < READS; i++) {
        key += jobs / 2 + 1;
        key -= key > jobs ? jobs : 0;
        if (!r->read(key, value))
            fail(r->keeper->name, "it does not hold a job that was made");
        sum += value[0];
        expected += key * 31;
    }
    double took = seconds() - start;
    if (sum != expected)
        fail(r->keeper->name, "a value that is not the one made");
    return took / READS;
}

static void compare_reads(uint32_t slots, bool timed)
{
    static double cost[READERS][ROUNDS];
    int rounds = timed ? ROUNDS : 1;
    for (int round = 0; round < rounds; round++)
        for (int turn = 0; turn < READERS; turn++) {
            int r = (round + turn) % READERS;
            readers[r].keeper->open(slots);
            readers[r].keeper->batch(NEW, 1, slots / 2, 0);
            time_reads(&readers[r], slots / 2);
            cost[r][round] = time_reads(&readers[r], slots / 2);
            readers[r].keeper->close();
        }
    if (!timed)
        return;
    printf("read\t%" PRIu32, slots);
    for (int r = 0; r < READERS; r++)
        printf("\t%.1f", 1e9 * median(cost[r], rounds));
    printf("\n");
}

/* A directory of its own for the files. */
static void make_directory(const char *where)
{
    snprintf(directory, sizeof directory, "%s/board-bench.XXXXXX", where);
    if (mkdtemp(directory) == NULL)
        fail(directory, "cannot be made");
}

static void remove_directory(void)
{
    static const char *const files[] = {"board", "sqlite", "sqlite-wal", "sqlite-shm", "lmdb", "lmdb-lock"};
    for (size_t i = 0; i < sizeof files / sizeof *files; i++)
        unlink(path(files[i]));
    rmdir(directory);
}

static void compare_at(const struct place *p, const char *where, bool timed)
{
    make_directory(where);
    for (const uint32_t *slots = p->sizes; *slots != 0; slots++) {
        if (timed)
            fprintf(stderr, "  %s, %" PRIu32 " slots\n", p->name, *slots);
        compare(p, *slots, timed);
        if (p == &memory)
            compare_reads(*slots, timed);
        fflush(stdout);
    }
    remove_directory();
}

int main(int arguments, char **argument)
{
    const char *mode = arguments == 2 ? argument[1] : "";
    bool timed = strcmp(mode, "--times") == 0;
    if (!timed && strcmp(mode, "--quick") != 0) {
        fprintf(stderr, "usage: durable --quick | --times\n");
        return 2;
    }
    struct statfs system;
    const long memory_backed = 0x01021994; /* tmpfs */
    if (statfs("/dev/shm", &system) != 0 || system.f_type != memory_backed)
        fail("/dev/shm", "this is not a memory-backed file system");
    if (timed)
        printf("about\tSQLite %s, LMDB %d.%d.%d\n", sqlite3_libversion(), MDB_VERSION_MAJOR, MDB_VERSION_MINOR,
               MDB_VERSION_PATCH);
    compare_at(&memory, "/dev/shm", timed);
    compare_at(&disk, dirname(argument[0]), timed);
    if (!timed)
        printf("board, SQLite and LMDB hold the same jobs after the same changes, and read the same values\n");
    return 0;
}
