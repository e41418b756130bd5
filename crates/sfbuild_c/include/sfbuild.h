/* sfbuild: builds indexes of a table while transactions write it. Version 0.1.0. docs/C.md shows how it is called and
 * linked.
 *
 * A table lives in memory behind one `sfbuild`, with its transactions, its indexes and the build that may be running.
 * There is no global state: any number of tables may be open, each used by one call at a time, from whatever thread.
 * Threads that share a table take a mutex of the program's around each call on it. No call waits, starts a thread or
 * touches a file. Memory comes from malloc, realloc and free.
 *
 * Proved, for whatever list of calls: no call reads or writes beyond what is described here, each call returns and does
 * and answers what its definition says, and an index that becomes ready has one pair, key and address, of each row that
 * stands, and no other; and a table may go from one thread to another between two calls. Only tested is that the pieces
 * of sfbuild_step bring a build to its end, that MEMORY isn't answered where there is memory, and that sfbuild_close
 * frees all. Not proved is what stands in C: the helpers in this file, and that its declarations fit the library.
 * (docs/C.md, docs/PROMISES.md.)
 * What the program has to keep, since nothing can check it:
 *
 * - Pointers aren't null, point to what they are said to, and not into one another. Lengths are true. A pointer to
 *   no bytes isn't null either, except where a helper says that it may be.
 * - An `sfbuild` is all zero before it is opened, and only the library writes it. It may be moved, but not copied
 *   with both copies used.
 * - No call is made from a signal handler, or in a child that forked off a process with threads.
 */
#ifndef SFBUILD_H
#define SFBUILD_H

#include <stdbool.h>
#include <stddef.h>
#include <stdint.h>
#include <string.h>

#ifdef __cplusplus
extern "C" {
#endif

/* Limits. */
#define SFBUILD_COLUMNS_MAX 12     /* columns of a table */
#define SFBUILD_TEXT_MAX 100       /* bytes of a text */
#define SFBUILD_ROW_MAX 1224       /* bytes of a row */
#define SFBUILD_PAGES_MAX 65536    /* pages of a table */
#define SFBUILD_KEY_COLUMNS_MAX 4  /* columns of an index */
#define SFBUILD_KEY_MAX 812        /* bytes of a key */
#define SFBUILD_CELLS_MAX 408      /* bytes of the cells of a key, as a row */
#define SFBUILD_BUILD_MAX 8        /* indexes of a build */
#define SFBUILD_INDEXES_MAX 80     /* bytes of these */
#define SFBUILD_READY_MAX 32       /* ready indexes of a table */
#define SFBUILD_QUOTA_MAX 1024     /* pages of a worker for an index */

/* What a call answers. From 10 on it is the number of a refusal: the first cause that holds, in the order in which
 * the call lists them. A call that doesn't answer DONE writes through none of its pointers but the table's, except that
 * ROOM writes `*length`; one that is refused changes nothing but `cause`, except where its refusal says otherwise. Each
 * call of a table that isn't open answers SFBUILD_CLOSED, and each call that takes memory SFBUILD_MEMORY where there is
 * none, and nothing else refuses it. But some memory is taken before the last cause is asked for: for the bytes of a row
 * or of indexes once they are read; at a start also for its spools; at a switch for what it decides, once a build runs;
 * and MEMORY may come before ROOM and END. */
enum {
    SFBUILD_DONE = 0,
    SFBUILD_CLOSED = 1,         /* the table isn't open */
    SFBUILD_OPENED = 2,         /* it is open already */
    SFBUILD_END = 3,            /* there is no further pair */
    SFBUILD_ROOM = 4,           /* the buffer is too small; the length that is wanted was written */

    SFBUILD_BAD_COLUMN = 10,    /* a column isn't there or named twice, there are too few or too many, or bytes are of none */
    SFBUILD_TEXT_TOO_LONG = 11, /* a text of a row has more than SFBUILD_TEXT_MAX bytes */
    SFBUILD_ROW_SHAPE = 12,     /* the bytes spell no row of the table, or a text isn't UTF-8 */
    SFBUILD_TABLE_FULL = 20,    /* no page takes the row, and the table may have no more */
    SFBUILD_NO_SUCH_ROW = 21,   /* no row stands there */
    SFBUILD_ROW_HELD = 22,      /* another open transaction wrote it */
    SFBUILD_PAGE_FULL = 23,     /* the row's page has no room for the longer row */
    SFBUILD_NO_SUCH_TXN = 24,   /* no such transaction is open */
    SFBUILD_TOO_MANY_TXNS = 25, /* 64 are open */
    SFBUILD_TXN_ENDING = 26,    /* the transaction is being undone */
    SFBUILD_FENCED = 27,        /* no transaction may begin until the build has decided or is given up */
    SFBUILD_DUPLICATE = 30,     /* a unique ready index has the key at another row */
    SFBUILD_KEY_HELD = 31,      /* an open transaction took the key from a unique ready index, and may bring it back */
    SFBUILD_BUILD_RUNNING = 40, /* a build runs already */
    SFBUILD_NO_BUILD = 41,      /* no build runs */
    SFBUILD_BAD_RANGES = 42,    /* the ranges are none or more than 256 */
    SFBUILD_BAD_COUNT = 43,     /* a number is out of its limits, or names nothing */
    SFBUILD_SPOOL_NOT_EMPTY = 44, /* no call answers it: the spools are the library's */
    SFBUILD_RANGE_DONE = 45,    /* each page of the range is copied */
    SFBUILD_RING_FULL = 46,     /* four copies wait for the worker */
    SFBUILD_NOT_SCANNED = 47,   /* a page isn't copied yet */
    SFBUILD_NOT_LOADED = 48,    /* the pairs of an index aren't in order yet */
    SFBUILD_BEHIND = 49,        /* more than 1,024 changes are left to apply */
    SFBUILD_BUSY = 50,          /* open transactions have writes that stand, and an index of the build is unique */
    SFBUILD_NO_PAGE = 51,       /* the quota of a spool is used up: the build is spoiled */
    SFBUILD_NOT_SEALED = 54,    /* a worker has something left to seal */
    SFBUILD_MEMORY = 60         /* no memory */
};

/* The address of a row. It never changes as long as the row stands. */
typedef struct {
    uint32_t page;
    uint16_t slot;
} sfbuild_rid;

/* What the newest refusal says beside its number: zero where it says nothing. */
typedef struct {
    size_t index;    /* 30, 31: the ready index; 48: the index of the build */
    uint64_t number; /* 22, 31: the transaction; 47: the range; 49: changes left; 50: transactions; 54: the worker */
    sfbuild_rid rid; /* 30: the row that has the key */
} sfbuild_cause;

/* A table; all zero it is closed. `cause` is there to be read, the rest is the library's. */
typedef struct {
    void *at;
    bool opened;
    sfbuild_cause cause;
} sfbuild;

/* The kinds of columns: whole numbers of 64 bits, texts in UTF-8, true or false. Each cell may be null. */
enum { SFBUILD_INT = 1, SFBUILD_TEXT = 2, SFBUILD_FLAG = 3 };

/* Opens a table with a column of each of `columns` kinds (1 to 12), of up to `slots_a_page` rows on a page of 4,096
 * bytes (1 to 255) and `pages` pages. OPENED; BAD_COLUMN; BAD_COUNT. */
uint8_t sfbuild_open(sfbuild *table, const uint8_t *kinds, size_t columns, uint8_t slots_a_page, uint32_t pages);

/* Gives all back that the table has, with its rows, its indexes and a build that runs. It takes no memory, and may be
 * opened again. CLOSED. */
uint8_t sfbuild_close(sfbuild *table);

/* ---- Transactions. Reads see rows as they stand, those of open transactions among them. ---- */

/* A transaction begins, and `*txn` is its number. FENCED; TOO_MANY_TXNS. */
uint8_t sfbuild_begin(sfbuild *table, uint64_t *txn);

/* Inserts the row that the bytes spell, and tells its address. TEXT_TOO_LONG or ROW_SHAPE of bytes that spell no row;
 * NO_SUCH_TXN; TXN_ENDING; TABLE_FULL; then DUPLICATE or KEY_HELD, of the lowest unique ready index that refuses its
 * key. */
uint8_t sfbuild_insert(sfbuild *table, uint64_t txn, const uint8_t *row, size_t length, sfbuild_rid *at);

/* Puts another row at the address. TEXT_TOO_LONG or ROW_SHAPE of bytes that spell no row; NO_SUCH_TXN; TXN_ENDING;
 * ROW_HELD; NO_SUCH_ROW; PAGE_FULL; then DUPLICATE or KEY_HELD, of the lowest unique ready index that refuses a key
 * that the address hadn't. */
uint8_t sfbuild_update(sfbuild *table, uint64_t txn, sfbuild_rid at, const uint8_t *row, size_t length);

/* Takes the row away. NO_SUCH_TXN; TXN_ENDING; ROW_HELD; NO_SUCH_ROW. */
uint8_t sfbuild_delete(sfbuild *table, uint64_t txn, sfbuild_rid at);

/* The transaction ends, and its rows stay. NO_SUCH_TXN; TXN_ENDING. After MEMORY it is as open as it was, and can be
 * asked again. */
uint8_t sfbuild_commit(sfbuild *table, uint64_t txn);

/* Undoes the newest write of the transaction that stands, and tells how many are left; with none left it has ended.
 * From the first undo on it can only be undone further. NO_SUCH_TXN. After MEMORY it can be asked again. */
uint8_t sfbuild_undo(sfbuild *table, uint64_t txn, size_t *left);

/* Writes the bytes of the row that stands there, and their number. NO_SUCH_ROW; ROOM, where they are more than
 * `room`. */
uint8_t sfbuild_get(sfbuild *table, sfbuild_rid at, uint8_t *row, size_t room, size_t *length);

/* How many pages the table has, numbered from 0. The rows of a page are at the slots from 0 to `slots_a_page` - 1,
 * with gaps. */
uint8_t sfbuild_pages(sfbuild *table, uint32_t *pages);

/* ---- A build. Between any two of its steps transactions may write. ---- */

/* A build starts, of the 1 to 8 indexes that the bytes spell (sfbuild_put_index), by 1 to 16 `workers` over 1 to 256
 * `ranges` of pages, which share the table's pages out evenly. `quota` is how many pages of 4,096 bytes each worker
 * has for the sorted pairs of each index, to SFBUILD_QUOTA_MAX: all of them, workers times indexes times quota, are
 * taken here, 4,248 bytes a page. With a quota of 0 the first digest or seal that wants a page answers NO_PAGE.
 * sfbuild_step gives range r to the worker r modulo `workers`: with fewer ranges than workers some have nothing to do.
 * `*pages` is how many pages of the table the build reads. BUILD_RUNNING; BAD_COLUMN of bytes that aren't those of
 * indexes of the table; BAD_COUNT, also of no index, or where more than 32 would be ready with these; BAD_RANGES. */
uint8_t sfbuild_start(sfbuild *table, const uint8_t *indexes, size_t length, size_t workers, size_t ranges, size_t quota,
                      uint32_t *pages);

/* Does the next piece of the build: copies a page and takes the keys of it, or seals a worker, or puts the pairs of
 * an index in order, or catches up: applies of each index as many changes as were written since the last piece that
 * did, and `most` more (0 counts as 1), or all; the first such piece applies `most`. Where no more than 1,024 of all
 * indexes together are left then, it applies these too and switches. So `most` fewer wait of each index behind each
 * such piece, however much is written between two of them, and its time goes with what was. `*ready` tells whether it
 * switched: then the build has ended, and sfbuild_verdict tells of each index. NO_BUILD; NO_PAGE; BUSY. What a refused
 * piece did before stays done. After BUSY it can be asked again: the build waits for transactions to end. Where MEMORY
 * or NO_PAGE spoiled the build, each piece answers so from then on: give it up by sfbuild_abandon. (MEMORY of a copy,
 * of changes or of a switch spoils nothing.) */
uint8_t sfbuild_step(sfbuild *table, size_t most, bool *ready);

/* The pieces one by one, for a program that wants them in an order of its own. A digest, a seal or a load that
 * answers MEMORY or NO_PAGE spoils the build: then scan, digest, seal, load, apply and switch answer this again,
 * right behind NO_BUILD and BAD_COUNT. */

/* Copies the next page of the range for the worker, and tells which. NO_BUILD; BAD_COUNT; RANGE_DONE; RING_FULL. */
uint8_t sfbuild_scan(sfbuild *table, size_t range, size_t worker, uint32_t *page);

/* Makes the pairs of the next copy that waits for the worker; `*images` tells whether one did, 0 or 1. NO_BUILD;
 * BAD_COUNT; NO_PAGE. */
uint8_t sfbuild_digest(sfbuild *table, size_t worker, size_t *images);

/* Makes the pairs of all copies that wait for the worker, tells how many these were, and closes its run of each
 * index. NO_BUILD; BAD_COUNT; NO_PAGE. */
uint8_t sfbuild_seal(sfbuild *table, size_t worker, size_t *images);

/* Puts the pairs of an index of the build in order, and tells how many there are, or 0 where they were in order
 * already. NO_BUILD; BAD_COUNT; NOT_SCANNED; NOT_SEALED. */
uint8_t sfbuild_load(sfbuild *table, size_t index, size_t *pairs);

/* Moves changes of the index, at most `most`, into its ring, which has room for 256, and tells how many. NO_BUILD;
 * BAD_COUNT. */
uint8_t sfbuild_feed(sfbuild *table, size_t index, size_t most, size_t *entries);

/* Applies changes that wait in the ring, at most `most`, and tells how many. NO_BUILD; BAD_COUNT; NOT_LOADED. Those
 * that were applied before MEMORY stay applied. */
uint8_t sfbuild_apply(sfbuild *table, size_t index, size_t most, size_t *entries);

/* From now on no transaction begins, until a switch decides or the build is given up. Those that are open may write
 * on; once they have ended nothing changes until then. A program may ask for it at any time of a build. NO_BUILD. */
uint8_t sfbuild_fence(sfbuild *table);

/* Applies the changes that are left, decides, and ends the build: `*indexes` is how many it had. NO_BUILD;
 * NOT_SCANNED; NOT_LOADED; BEHIND; BUSY, where an index is unique. Changes that were applied before MEMORY stay
 * applied, and it can be asked again. */
uint8_t sfbuild_switch(sfbuild *table, size_t *indexes);

/* Gives the build up, and the fence with it. NO_BUILD. */
uint8_t sfbuild_abandon(sfbuild *table);

/* What the newest switch decided of an index of its build. Where `ready`, it is ready index `number` of the table,
 * for as long as the table is open. Else it is unique, rows shared a key, and nothing of the index is left: of the
 * first such key in the order of the index `first` and `second` are the two least addresses. What isn't named here is
 * 0. */
typedef struct {
    bool ready;
    size_t number;
    sfbuild_rid first;
    sfbuild_rid second;
} sfbuild_verdict_of;

/* Tells it of index `index` of the build, from 0. Of a refused one the cells of the shared key are written as the
 * bytes of a row of the key's columns, of a ready one no bytes. BAD_COUNT; ROOM, and then
 * the verdict isn't told either: SFBUILD_CELLS_MAX bytes are always enough. */
uint8_t sfbuild_verdict(sfbuild *table, size_t index, sfbuild_verdict_of *verdict, uint8_t *cells, size_t room,
                        size_t *length);

/* How far the build is; all zero where none runs. */
typedef struct {
    bool running;
    uint32_t pages, scanned; /* pages that the build reads, and has copied */
    size_t indexes, loaded;  /* its indexes, and those whose pairs are in order */
    size_t waiting;          /* changes of all its indexes that weren't fed yet */
} sfbuild_progress_of;

uint8_t sfbuild_progress(sfbuild *table, sfbuild_progress_of *progress);

/* ---- Ready indexes. Each follows every write and every undo. Its pairs are in the order of the bytes of their
 * keys, those of one key by page, then by slot. ---- */

/* How many there are, numbered from 0. */
uint8_t sfbuild_ready(sfbuild *table, size_t *indexes);

/* Writes the bytes of the key that the ready index has of a row: of its first `columns` columns (1 to all), so that
 * they begin each key with these cells. The bytes are those of a whole row; cells of columns that the key doesn't
 * take may be null. TEXT_TOO_LONG or ROW_SHAPE of bytes that spell no row; BAD_COUNT; ROOM. */
uint8_t sfbuild_key(sfbuild *table, size_t index, size_t columns, const uint8_t *row, size_t row_length, uint8_t *key,
                    size_t room, size_t *length);

/* Finds the first pair of the ready index that isn't before (key, rid) or, with `past`, the first behind it, and
 * writes it over `key`, `*length` and `*rid`. The bytes need not be a whole key; none are before all. `room` is what
 * `key` has room for, best SFBUILD_KEY_MAX. BAD_COUNT, also of more bytes than `room` or SFBUILD_KEY_MAX; END; ROOM,
 * behind which `*length` is what the key needs: set it back before the call is made again. */
uint8_t sfbuild_next(sfbuild *table, size_t index, bool past, uint8_t *key, size_t room, size_t *length,
                     sfbuild_rid *rid);

/* ---- The bytes of a row: its cells, one after the other. ----
 *
 * null 00 · int 01 and 8 bytes, the highest first, two's complement · text 01, its length in one byte, its bytes ·
 * flag 01 and 00 or 01
 *
 * Each helper puts a cell behind the `*length` bytes that are there. A buffer of SFBUILD_ROW_MAX bytes has room for
 * SFBUILD_COLUMNS_MAX cells. */

static inline void sfbuild_put_null(uint8_t *row, size_t *length)
{
    row[(*length)++] = 0;
}

static inline void sfbuild_put_int(uint8_t *row, size_t *length, int64_t number)
{
    row[(*length)++] = 1;
    for (int shift = 56; shift >= 0; shift -= 8)
        row[(*length)++] = (uint8_t)((uint64_t)number >> shift);
}

/* TEXT_TOO_LONG, and nothing is put, where the text has more than SFBUILD_TEXT_MAX bytes. That it is UTF-8 is looked
 * at by the call that gets the row. */
static inline uint8_t sfbuild_put_text(uint8_t *row, size_t *length, const char *text, size_t bytes)
{
    if (bytes > SFBUILD_TEXT_MAX)
        return SFBUILD_TEXT_TOO_LONG;
    row[(*length)++] = 1;
    row[(*length)++] = (uint8_t)bytes;
    if (bytes > 0)
        memcpy(row + *length, text, bytes);
    *length += bytes;
    return SFBUILD_DONE;
}

static inline void sfbuild_put_flag(uint8_t *row, size_t *length, bool flag)
{
    row[(*length)++] = 1;
    row[(*length)++] = flag;
}

/* A cell of a row that is read. `text` points into the bytes of the row, and has no end mark. */
typedef struct {
    bool null;
    int64_t number;
    const char *text;
    size_t bytes;
    bool flag;
} sfbuild_cell;

/* Reads the cell of that kind whose bytes begin at `*at`, and moves `*at` behind it. False where none does. */
static inline bool sfbuild_read(const uint8_t *row, size_t length, size_t *at, uint8_t kind, sfbuild_cell *cell)
{
    const uint8_t *bytes = row + *at;
    size_t left = *at < length ? length - *at : 0;
    size_t size = kind == SFBUILD_INT ? 9 : 2;
    sfbuild_cell none = {true, 0, NULL, 0, false};
    *cell = none;
    if (left >= 1 && bytes[0] == 0) {
        *at += 1;
        return true;
    }
    if (left < size || bytes[0] != 1)
        return false;
    if (kind == SFBUILD_TEXT)
        size += bytes[1];
    if (left < size)
        return false;
    cell->null = false;
    if (kind == SFBUILD_INT) {
        uint64_t number = 0;
        for (size_t place = 1; place < 9; place++)
            number = number << 8 | bytes[place];
        cell->number = (int64_t)number;
    } else if (kind == SFBUILD_TEXT) {
        cell->text = (const char *)bytes + 2;
        cell->bytes = bytes[1];
    } else {
        cell->flag = bytes[1] != 0;
    }
    *at += size;
    return true;
}

/* ---- The bytes of indexes that are to be built: for each whether it is unique, how many columns it has, and for
 * each of these its number and whether it descends. ---- */

/* Puts an index behind those that are there; SFBUILD_INDEXES_MAX bytes have room for SFBUILD_BUILD_MAX. `descending`
 * has a flag for each column, or is NULL where all ascend. BAD_COLUMN, and nothing is put, where there are more than
 * 4 columns or one is numbered above 255. */
static inline uint8_t sfbuild_put_index(uint8_t *indexes, size_t *length, bool unique, const size_t *columns,
                                        const bool *descending, size_t count)
{
    if (count > SFBUILD_KEY_COLUMNS_MAX)
        return SFBUILD_BAD_COLUMN;
    for (size_t place = 0; place < count; place++)
        if (columns[place] > 255)
            return SFBUILD_BAD_COLUMN;
    indexes[(*length)++] = unique;
    indexes[(*length)++] = (uint8_t)count;
    for (size_t place = 0; place < count; place++) {
        indexes[(*length)++] = (uint8_t)columns[place];
        indexes[(*length)++] = descending != NULL && descending[place];
    }
    return SFBUILD_DONE;
}

/* ---- A range of a ready index, read pair by pair. ---- */

/* Where the reading is: behind the pair of `key` and `rid` (`past`), or before all pairs that aren't before this.
 * Writes between two readings are no harm: it goes on from there. */
typedef struct {
    size_t index;
    uint8_t key[SFBUILD_KEY_MAX];
    size_t length;
    sfbuild_rid rid;
    bool past;
} sfbuild_cursor;

/* Begins at the first pair whose key isn't before these bytes, at most SFBUILD_KEY_MAX; with none, where `key` may
 * be NULL, at the first of all. */
static inline void sfbuild_cursor_from(sfbuild_cursor *cursor, size_t index, const uint8_t *key, size_t length)
{
    sfbuild_rid first = {0, 0};
    cursor->index = index;
    cursor->length = length;
    cursor->rid = first;
    cursor->past = false;
    if (length > 0)
        memcpy(cursor->key, key, length);
}

/* Goes to the next pair whose key is before the bytes `high`, or to the next one where these are NULL, and leaves it
 * in `key`, `length` and `rid`. END where there is none; what sfbuild_next answers. Behind END at a bound the cursor is
 * past the first pair beyond it: begin anew for another range. */
static inline uint8_t sfbuild_cursor_next(sfbuild *table, sfbuild_cursor *cursor, const uint8_t *high,
                                          size_t high_length)
{
    size_t length = cursor->length;
    uint8_t told =
        sfbuild_next(table, cursor->index, cursor->past, cursor->key, SFBUILD_KEY_MAX, &length, &cursor->rid);
    if (told != SFBUILD_DONE)
        return told;
    cursor->length = length;
    cursor->past = true;
    if (high == NULL)
        return SFBUILD_DONE;
    int order = memcmp(cursor->key, high, length < high_length ? length : high_length);
    return order < 0 || (order == 0 && length < high_length) ? SFBUILD_DONE : SFBUILD_END;
}

/* Makes of bytes that begin keys the least bytes that are above all these keys: the bound `high` of a range up to and
 * with these. False where there are none above, since all bytes are FF (or there are none): then the range goes to
 * the end. */
static inline bool sfbuild_key_above(uint8_t *key, size_t *length)
{
    while (*length > 0 && key[*length - 1] == 255)
        *length -= 1;
    if (*length == 0)
        return false;
    key[*length - 1] += 1;
    return true;
}

#ifdef __cplusplus
}
#endif

#endif
