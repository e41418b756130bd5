/* Tables of sfbuild in SQLite, as virtual tables: README.md beside this file says how they are used and what they don't offer.
 * This is plain C and unproved; what is proved are the calls of sfbuild.h and what lies below. SQLite makes one call at a time on what a connection has. */
#include "table.h"
SQLITE_EXTENSION_INIT1

/* Tells SQLite the columns of a table. */
static int declare(sqlite3 *db, tables *all, store *s, sqlite3_vtab **answer)
{
    sqlite3_str *text = sqlite3_str_new(db);
    sqlite3_str_appendall(text, "CREATE TABLE x(");
    for (int column = 0; column < s->columns; column++)
        sqlite3_str_appendf(text, "%s\"%w\" %s", column > 0 ? ", " : "", s->names[column],
                            s->kinds[column] == SFBUILD_INT ? "INTEGER" : s->kinds[column] == SFBUILD_TEXT ? "TEXT" : "BOOLEAN");
    sqlite3_str_appendall(text, ")");
    char *sql = sqlite3_str_finish(text);
    vtab *v = sqlite3_malloc64(sizeof *v);
    int told = sql == NULL || v == NULL ? SQLITE_NOMEM : sqlite3_declare_vtab(db, sql);
    sqlite3_free(sql);
    if (told != SQLITE_OK) {
        sqlite3_free(v);
        return told;
    }
    memset(v, 0, sizeof *v);
    v->db = db;
    v->all = all;
    v->store = s;
    *answer = &v->base;
    return sqlite3_vtab_config(db, SQLITE_VTAB_CONSTRAINT_SUPPORT, 1);
}

static int x_connect(sqlite3 *db, void *all, int argc, const char *const *argv, sqlite3_vtab **answer, char **error)
{
    store *s = find_table(all, argv[1], argv[2]);
    int told = s == NULL ? make_table(all, argc, argv, &s, error) : SQLITE_OK;
    return told == SQLITE_OK ? declare(db, all, s, answer) : told;
}

static int x_create(sqlite3 *db, void *all, int argc, const char *const *argv, sqlite3_vtab **answer, char **error)
{
    /* One of that name is left where its making was rolled back. */
    store *old = find_table(all, argv[1], argv[2]);
    if (old != NULL)
        forget_table(all, old);
    return x_connect(db, all, argc, argv, answer, error);
}

static int x_disconnect(sqlite3_vtab *base)
{
    sqlite3_free(base);
    return SQLITE_OK;
}

/* The rows couldn't come back by a rollback: so a table isn't dropped within a transaction. */
static int x_destroy(sqlite3_vtab *base)
{
    vtab *v = (vtab *)base;
    if (!sqlite3_get_autocommit(v->db))
        return SQLITE_LOCKED;
    forget_table(v->all, v->store);
    return x_disconnect(base);
}

static sqlite3_module module = {
    .iVersion = 2,
    .xCreate = x_create,
    .xConnect = x_connect,
    .xBestIndex = x_best_index,
    .xDisconnect = x_disconnect,
    .xDestroy = x_destroy,
    .xOpen = x_open,
    .xClose = x_close,
    .xFilter = x_filter,
    .xNext = x_next,
    .xEof = x_eof,
    .xColumn = x_column,
    .xRowid = x_rowid,
    .xUpdate = x_update,
    .xBegin = x_begin,
    .xSync = x_sync,
    .xCommit = x_commit,
    .xRollback = x_rollback,
    .xSavepoint = x_savepoint,
    .xRelease = x_release,
    .xRollbackTo = x_rollback_to,
};

int sqlite3_sfbuildsqlite_init(sqlite3 *db, char **error, const sqlite3_api_routines *api)
{
    static const struct { const char *name; int arguments; void (*call)(sqlite3_context *, int, sqlite3_value **); } functions[] = {
        {"sfbuild_index", 2, f_index}, {"sfbuild_index", 3, f_index}, {"sfbuild_step", 2, f_step}, {"sfbuild_progress", 1, f_progress},
        {"sfbuild_abandon", 1, f_abandon},
    };
    SQLITE_EXTENSION_INIT2(api);
    tables *all = sqlite3_malloc64(sizeof *all);
    (void)error;
    if (all == NULL)
        return SQLITE_NOMEM;
    all->first = NULL;
    int told = sqlite3_create_module_v2(db, "sfbuild", &module, all, forget_tables);
    for (size_t place = 0; place < sizeof functions / sizeof functions[0] && told == SQLITE_OK; place++)
        told = sqlite3_create_function_v2(db, functions[place].name, functions[place].arguments, SQLITE_UTF8 | SQLITE_DIRECTONLY, all,
                                          functions[place].call, NULL, NULL, NULL);
    return told;
}
