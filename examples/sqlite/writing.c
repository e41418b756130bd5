/* What SQLite asks of a table that is written: rows, transactions, savepoints. */
#include "table.h"

int fails(sqlite3_vtab *base, int code, char *message)
{
    sqlite3_free(base->zErrMsg);
    base->zErrMsg = message;
    return code;
}

/* What SQLite is told of what a call answered. */
int answer_of(vtab *v, uint8_t told)
{
    const store *s = v->store;
    const sfbuild_cause *cause = &s->table.cause;
    switch (told) {
    case SFBUILD_DONE:
        return SQLITE_OK;
    case SFBUILD_MEMORY:
        return SQLITE_NOMEM;
    case SFBUILD_DUPLICATE:
        return fails(&v->base, SQLITE_CONSTRAINT, sqlite3_mprintf("UNIQUE constraint failed: the index on %s has the key already, of row %lld",
                                                                   s->ready[cause->index].on, rowid_of(cause->rid)));
    case SFBUILD_TABLE_FULL:
        return fails(&v->base, SQLITE_FULL, sqlite3_mprintf("%s is full", s->name));
    case SFBUILD_ROW_SHAPE:
        return fails(&v->base, SQLITE_MISMATCH, sqlite3_mprintf("a text for %s isn't UTF-8", s->name));
    default:
        return fails(&v->base, SQLITE_ERROR, sqlite3_mprintf("%s: refused, %d", s->name, told));
    }
}

/* A number that is a whole one, as SQLite sees it: also a text that spells one, and 5.0. */
bool is_whole(sqlite3_value *value, int64_t *number)
{
    int type = sqlite3_value_numeric_type(value);
    double real = type == SQLITE_FLOAT ? sqlite3_value_double(value) : 0;
    *number = type == SQLITE_INTEGER ? sqlite3_value_int64(value) : 0;
    if (type != SQLITE_FLOAT || real < -9223372036854775808.0 || real >= 9223372036854775808.0)
        return type == SQLITE_INTEGER;
    *number = (int64_t)real;
    return (double)*number == real;
}

/* The bytes of the row that a statement gives. */
static int row_of(vtab *v, sqlite3_value **values, uint8_t *row, size_t *length)
{
    const store *s = v->store;
    *length = 0;
    for (int column = 0; column < s->columns; column++) {
        sqlite3_value *value = values[column];
        const char *name = s->names[column];
        int64_t number;
        if (sqlite3_value_type(value) == SQLITE_NULL) {
            sfbuild_put_null(row, length);
        } else if (s->kinds[column] == SFBUILD_TEXT) {
            if (sqlite3_value_type(value) == SQLITE_BLOB)
                return fails(&v->base, SQLITE_MISMATCH, sqlite3_mprintf("column %s takes texts", name));
            const char *text = (const char *)sqlite3_value_text(value);
            if (text == NULL)
                return SQLITE_NOMEM;
            if (sfbuild_put_text(row, length, text, (size_t)sqlite3_value_bytes(value)) != SFBUILD_DONE)
                return fails(&v->base, SQLITE_TOOBIG, sqlite3_mprintf("column %s takes texts of up to %d bytes", name, SFBUILD_TEXT_MAX));
        } else if (!is_whole(value, &number)) {
            return fails(&v->base, SQLITE_MISMATCH, sqlite3_mprintf("column %s takes whole numbers", name));
        } else if (s->kinds[column] == SFBUILD_INT) {
            sfbuild_put_int(row, length, number);
        } else if (number == 0 || number == 1) {
            sfbuild_put_flag(row, length, number == 1);
        } else {
            return fails(&v->base, SQLITE_MISMATCH, sqlite3_mprintf("column %s takes 0 and 1", name));
        }
    }
    return SQLITE_OK;
}

/* Puts the row in, or in place of the one at the address. Where its page has no room for it, it moves. */
static uint8_t put_row(store *s, bool is_new, sfbuild_rid *at, const uint8_t *row, size_t length)
{
    uint8_t told = write_row(s, is_new ? INSERTED : UPDATED, at, row, length);
    if (told != SFBUILD_PAGE_FULL)
        return told;
    told = write_row(s, DELETED, at, NULL, 0);
    return told == SFBUILD_DONE ? write_row(s, INSERTED, at, row, length) : told;
}

/* By OR REPLACE the rows that have the key give way. */
static uint8_t replace_row(vtab *v, bool is_new, sfbuild_rid *at, const uint8_t *row, size_t length)
{
    store *s = v->store;
    for (;;) {
        size_t mark = s->count;
        uint8_t told = put_row(s, is_new, at, row, length);
        if (told != SFBUILD_DUPLICATE || sqlite3_vtab_on_conflict(v->db) != SQLITE_REPLACE)
            return told;
        sfbuild_rid other = s->table.cause.rid;
        /* Of a row that was to move only the half was done. */
        is_new |= s->count > mark;
        if ((told = write_row(s, DELETED, &other, NULL, 0)) != SFBUILD_DONE)
            return told;
    }
}

/* One row of a statement: it is done whole, or not at all. */
int x_update(sqlite3_vtab *base, int argc, sqlite3_value **argv, sqlite3_int64 *rowid)
{
    vtab *v = (vtab *)base;
    store *s = v->store;
    bool is_new = sqlite3_value_type(argv[0]) == SQLITE_NULL;
    sfbuild_rid at = rid_of(is_new ? 0 : sqlite3_value_int64(argv[0]));
    uint8_t row[SFBUILD_ROW_MAX], told;
    size_t length = 0, mark = s->count;
    if (s->spoiled)
        return fails(base, SQLITE_ERROR, sqlite3_mprintf("the transaction has to be rolled back: there was no memory to take a part of it back"));
    if (argc > 1 && (is_new ? sqlite3_value_type(argv[1]) != SQLITE_NULL : sqlite3_value_int64(argv[1]) != sqlite3_value_int64(argv[0])))
        return fails(base, SQLITE_ERROR, sqlite3_mprintf("a row of %s can't choose its rowid", s->name));
    if (argc > 1) {
        int spelled = row_of(v, argv + 2, row, &length);
        if (spelled != SQLITE_OK)
            return spelled;
    }
    if ((told = open_transaction(s)) != SFBUILD_DONE)
        return answer_of(v, told);
    told = argc == 1 ? write_row(s, DELETED, &at, NULL, 0) : replace_row(v, is_new, &at, row, length);
    /* OR REPLACE may have taken away a row that the statement found before. */
    if (told == SFBUILD_NO_SUCH_ROW && s->count == mark)
        return SQLITE_OK;
    if (told != SFBUILD_DONE) {
        int code = answer_of(v, told);
        return take_back(s, mark) == SFBUILD_DONE ? code : SQLITE_NOMEM;
    }
    if (is_new && argc > 1)
        *rowid = rowid_of(at);
    do_piece(s);
    return SQLITE_OK;
}

/* The transaction of the table begins with its first write. */
int x_begin(sqlite3_vtab *base)
{
    vtab *v = (vtab *)base;
    return answer_of(v, settle(v->store));
}

/* What comes of this is answered; what comes of a commit isn't. */
int x_sync(sqlite3_vtab *base)
{
    vtab *v = (vtab *)base;
    return v->store->spoiled ? fails(base, SQLITE_ERROR, sqlite3_mprintf("the transaction has to be rolled back")) : SQLITE_OK;
}

int x_commit(sqlite3_vtab *base)
{
    store *s = ((vtab *)base)->store;
    if (s->state == OPEN)
        s->state = COMMITS;
    settle(s);
    forget_changes(s);
    do_piece(s);
    return SQLITE_OK;
}

int x_rollback(sqlite3_vtab *base)
{
    store *s = ((vtab *)base)->store;
    if (s->state == OPEN)
        s->state = UNDOES;
    settle(s);
    forget_changes(s);
    do_piece(s);
    return SQLITE_OK;
}

/* Savepoints are numbered from 0, and -1 is the one that began the transaction. SQLite sets one around a statement too, of which each row is an `x_update`.
 * Those that were set before the table was written are told by a later one. */
int x_savepoint(sqlite3_vtab *base, int number)
{
    store *s = ((vtab *)base)->store;
    if (number >= s->marks_room) {
        size_t *more = sqlite3_realloc64(s->marks, ((size_t)number + 16) * sizeof *more);
        if (more == NULL)
            return SQLITE_NOMEM;
        s->marks = more;
        s->marks_room = number + 16;
    }
    if (s->marked > number)
        s->marked = number;
    while (s->marked <= number)
        s->marks[s->marked++] = s->count;
    return SQLITE_OK;
}

int x_release(sqlite3_vtab *base, int number)
{
    store *s = ((vtab *)base)->store;
    if (s->marked > number)
        s->marked = number < 0 ? 0 : number;
    return SQLITE_OK;
}

int x_rollback_to(sqlite3_vtab *base, int number)
{
    store *s = ((vtab *)base)->store;
    if (s->marked <= number)
        return SQLITE_OK;
    s->marked = number + 1;
    return take_back(s, number < 0 ? 0 : s->marks[number]) == SFBUILD_DONE ? SQLITE_OK : SQLITE_NOMEM;
}
