/* What the files of the extension share. */
#ifndef TABLE_H
#define TABLE_H
#include <sqlite3ext.h>
#include "sfbuild.h"

/* The names from here on are the extension's alone. */
#pragma GCC visibility push(hidden)
SQLITE_EXTENSION_INIT3

enum { SLOTS = 255, CHANGES_A_PIECE = 64, PAGES_A_WORKER = 400, WORKERS_MAX = 16 };

/* An index: the numbers of its columns, and what it is on in words. */
typedef struct {
    bool unique;
    int count;
    size_t column[SFBUILD_KEY_COLUMNS_MAX];
    bool descending[SFBUILD_KEY_COLUMNS_MAX];
    char *on;
} index_of;

/* A write of the open transaction, and the row that was there before it. */
typedef struct {
    enum { INSERTED, UPDATED, DELETED } what;
    sfbuild_rid at;
    uint8_t *was;
    size_t length;
} change;

/* A table. It stays for as long as the connection knows it, also where SQLite forgets its schema and reads it again. */
typedef struct store {
    struct store *next;
    char *schema, *name;
    sfbuild table;
    int columns;
    uint8_t kinds[SFBUILD_COLUMNS_MAX];
    char *names[SFBUILD_COLUMNS_MAX];

    /* The transaction: none, open, or to be ended as soon as there is memory for that. */
    enum { NONE, OPEN, COMMITS, UNDOES } state;
    uint64_t txn;
    bool spoiled; /* a part couldn't be taken back: it can only be rolled back as a whole */
    change *changes;
    size_t count, room;
    size_t *marks; /* of each savepoint, how many changes there were */
    int marked, marks_room;

    /* The ready indexes by their numbers, the one that is being built, and what was said at the end of the newest build. */
    index_of ready[SFBUILD_READY_MAX], wanted;
    bool building, waits;
    char *said;
} store;

/* The tables of a connection. */
typedef struct { store *first; } tables;

/* What SQLite has of a table. */
typedef struct { sqlite3_vtab base; sqlite3 *db; tables *all; store *store; } vtab;

static inline sqlite3_int64 rowid_of(sfbuild_rid at)
{
    return (sqlite3_int64)at.page * 65536 + at.slot;
}

/* No row has a negative rowid, or one beyond the pages. */
static inline sfbuild_rid rid_of(sqlite3_int64 rowid)
{
    bool is_rid = rowid >= 0 && rowid < (sqlite3_int64)SFBUILD_PAGES_MAX * 65536;
    sfbuild_rid at = {is_rid ? (uint32_t)(rowid / 65536) : SFBUILD_PAGES_MAX, is_rid ? (uint16_t)(rowid % 65536) : 0};
    return at;
}

/* ---- transaction.c ---- */

uint8_t settle(store *s);
uint8_t open_transaction(store *s);
uint8_t write_row(store *s, int what, sfbuild_rid *at, const uint8_t *row, size_t length);
uint8_t take_back(store *s, size_t mark);
void forget_changes(store *s);

/* ---- building.c ---- */

bool do_piece(store *s);
void end_build(store *s, char *said);

/* ---- tables.c ---- */

store *find_table(tables *all, const char *schema, const char *name);
int make_table(tables *all, int argc, const char *const *argv, store **made, char **error);
void forget_table(tables *all, store *s);
void forget_tables(void *all);
int read_word(const char **text, const char **begin);
bool is_word(const char *begin, int length, const char *wanted);

/* ---- writing.c ---- */

int fails(sqlite3_vtab *base, int code, char *message);
int answer_of(vtab *v, uint8_t told);
bool is_whole(sqlite3_value *value, int64_t *number);
int x_update(sqlite3_vtab *base, int argc, sqlite3_value **argv, sqlite3_int64 *rowid);
int x_begin(sqlite3_vtab *base);
int x_sync(sqlite3_vtab *base);
int x_commit(sqlite3_vtab *base);
int x_rollback(sqlite3_vtab *base);
int x_savepoint(sqlite3_vtab *base, int number);
int x_release(sqlite3_vtab *base, int number);
int x_rollback_to(sqlite3_vtab *base, int number);

/* ---- reading.c ---- */

int x_best_index(sqlite3_vtab *base, sqlite3_index_info *info);
int x_open(sqlite3_vtab *base, sqlite3_vtab_cursor **answer);
int x_close(sqlite3_vtab_cursor *base);
int x_filter(sqlite3_vtab_cursor *base, int plan_number, const char *words, int argc, sqlite3_value **argv);
int x_next(sqlite3_vtab_cursor *base);
int x_eof(sqlite3_vtab_cursor *base);
int x_column(sqlite3_vtab_cursor *base, sqlite3_context *context, int column);
int x_rowid(sqlite3_vtab_cursor *base, sqlite3_int64 *rowid);

/* ---- functions.c ---- */

void f_index(sqlite3_context *context, int argc, sqlite3_value **argv);
void f_step(sqlite3_context *context, int argc, sqlite3_value **argv);
void f_progress(sqlite3_context *context, int argc, sqlite3_value **argv);
void f_abandon(sqlite3_context *context, int argc, sqlite3_value **argv);

#pragma GCC visibility pop

#endif
