/* The functions of SQL: a build is started, brought on, looked at and given up. */
#include "table.h"

static void refuse(sqlite3_context *context, char *message)
{
    sqlite3_result_error(context, message == NULL ? "no memory" : message, -1);
    sqlite3_free(message);
}

/* The table that the first argument names, as t or schema.t, with no transaction that is to end. */
static store *table_of(sqlite3_context *context, sqlite3_value **argv)
{
    const char *name = (const char *)sqlite3_value_text(argv[0]), *dot = name == NULL ? NULL : strchr(name, '.');
    char *schema = dot == NULL ? NULL : sqlite3_mprintf("%.*s", (int)(dot - name), name);
    store *s = name == NULL ? NULL : find_table(sqlite3_user_data(context), schema, dot == NULL ? name : dot + 1);
    sqlite3_free(schema);
    if (s == NULL)
        refuse(context, sqlite3_mprintf("there is no table %s of sfbuild", name == NULL ? "NULL" : name));
    else if (settle(s) != SFBUILD_DONE)
        sqlite3_result_error_nomem(context);
    else
        return s;
    return NULL;
}

/* How far the build is, or what became of the newest one. */
static void tell_progress(sqlite3_context *context, store *s)
{
    sfbuild_progress_of p;
    char *text;
    if (!s->building) {
        sqlite3_result_text(context, s->said == NULL ? "no build" : s->said, -1, SQLITE_TRANSIENT);
        return;
    }
    if (sfbuild_progress(&s->table, &p) != SFBUILD_DONE)
        memset(&p, 0, sizeof p);
    text = sqlite3_mprintf("building the index on %s: %u of %u pages copied%s, changes left: %lld%s", s->wanted.on, p.scanned, p.pages,
                           p.loaded == p.indexes ? ", in order" : "", (long long)p.waiting, s->waits ? ", waits for the transaction to end" : "");
    if (text == NULL)
        sqlite3_result_error_nomem(context);
    else
        sqlite3_result_text(context, text, -1, sqlite3_free);
}

/* Reads columns, as `a, b desc`, into what is wanted. */
static bool read_index(const store *s, const char *text, index_of *wanted)
{
    for (;;) {
        const char *begin;
        int length = read_word(&text, &begin), column = 0;
        while (column < s->columns && !is_word(begin, length, s->names[column]))
            column++;
        if (column == s->columns || wanted->count == SFBUILD_KEY_COLUMNS_MAX)
            return false;
        wanted->column[wanted->count] = (size_t)column;
        length = read_word(&text, &begin);
        wanted->descending[wanted->count++] = is_word(begin, length, "desc");
        if (length > 0 && !is_word(begin, length, "desc") && !is_word(begin, length, "asc"))
            return false;
        read_word(&text, &begin);
        if (*text == 0)
            return true;
        if (*text++ != ',')
            return false;
    }
}

static char *on_columns(const store *s, const index_of *index)
{
    sqlite3_str *text = sqlite3_str_new(NULL);
    for (int place = 0; place < index->count; place++)
        sqlite3_str_appendf(text, "%s%s%s", place > 0 ? ", " : "", s->names[index->column[place]], index->descending[place] ? " desc" : "");
    return sqlite3_str_finish(text);
}

/* sfbuild_index(table, columns [, 'unique']): a build starts. */
void f_index(sqlite3_context *context, int argc, sqlite3_value **argv)
{
    store *s = table_of(context, argv);
    const char *columns = (const char *)sqlite3_value_text(argv[1]), *unique = argc > 2 ? (const char *)sqlite3_value_text(argv[2]) : NULL;
    index_of wanted = {0};
    uint8_t indexes[SFBUILD_INDEXES_MAX], told;
    size_t length = 0, workers;
    uint32_t pages = 0;
    if (s == NULL)
        return;
    wanted.unique = unique != NULL && is_word(unique, (int)strlen(unique), "unique");
    if (columns == NULL || !read_index(s, columns, &wanted) || (argc > 2 && !wanted.unique)) {
        refuse(context, sqlite3_mprintf("an index is on 1 to 4 columns of %s, as 'a, b desc', and maybe 'unique'", s->name));
        return;
    }
    sfbuild_pages(&s->table, &pages);
    workers = 1 + pages / PAGES_A_WORKER < WORKERS_MAX ? 1 + pages / PAGES_A_WORKER : WORKERS_MAX;
    sfbuild_put_index(indexes, &length, wanted.unique, wanted.column, wanted.descending, (size_t)wanted.count);
    wanted.on = on_columns(s, &wanted);
    told = wanted.on == NULL ? SFBUILD_MEMORY : sfbuild_start(&s->table, indexes, length, workers, workers, SFBUILD_QUOTA_MAX, &pages);
    if (told != SFBUILD_DONE) {
        sqlite3_free(wanted.on);
        refuse(context, told == SFBUILD_BUILD_RUNNING ? sqlite3_mprintf("a build of %s runs already", s->name)
                        : told == SFBUILD_BAD_COLUMN  ? sqlite3_mprintf("a column is named twice")
                        : told == SFBUILD_BAD_COUNT   ? sqlite3_mprintf("%s has %d indexes already", s->name, SFBUILD_READY_MAX)
                                                      : sqlite3_mprintf("the build is refused, %d", told));
        return;
    }
    s->wanted = wanted;
    s->building = true;
    s->waits = false;
    tell_progress(context, s);
}

/* sfbuild_step(table, count): so many pieces of the build, or fewer, where it ends or waits. */
void f_step(sqlite3_context *context, int argc, sqlite3_value **argv)
{
    store *s = table_of(context, argv);
    (void)argc;
    if (s == NULL)
        return;
    for (sqlite3_int64 left = sqlite3_value_int64(argv[1]); left > 0 && do_piece(s); left--)
        ;
    tell_progress(context, s);
}

void f_progress(sqlite3_context *context, int argc, sqlite3_value **argv)
{
    store *s = table_of(context, argv);
    (void)argc;
    if (s != NULL)
        tell_progress(context, s);
}

/* sfbuild_abandon(table): the build is given up. */
void f_abandon(sqlite3_context *context, int argc, sqlite3_value **argv)
{
    store *s = table_of(context, argv);
    (void)argc;
    if (s == NULL)
        return;
    if (sfbuild_abandon(&s->table) == SFBUILD_DONE)
        end_build(s, sqlite3_mprintf("given up: the index on %s", s->wanted.on));
    tell_progress(context, s);
}
