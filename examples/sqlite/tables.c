/* The tables of a connection: made, found and forgotten. */
#include "table.h"

void forget_table(tables *all, store *s)
{
    store **link = &all->first;
    while (*link != NULL && *link != s)
        link = &(*link)->next;
    if (*link == s)
        *link = s->next;
    sfbuild_close(&s->table);
    forget_changes(s);
    for (int column = 0; column < s->columns; column++)
        sqlite3_free(s->names[column]);
    for (int index = 0; index < SFBUILD_READY_MAX; index++)
        sqlite3_free(s->ready[index].on);
    sqlite3_free(s->wanted.on);
    sqlite3_free(s->changes);
    sqlite3_free(s->marks);
    sqlite3_free(s->said);
    sqlite3_free(s->schema);
    sqlite3_free(s->name);
    sqlite3_free(s);
}

void forget_tables(void *all)
{
    while (((tables *)all)->first != NULL)
        forget_table(all, ((tables *)all)->first);
    sqlite3_free(all);
}

/* The table of a name, in a schema or, where that is NULL, in the one that was made last. */
store *find_table(tables *all, const char *schema, const char *name)
{
    store *s = all->first;
    while (s != NULL && (sqlite3_stricmp(s->name, name) != 0 || (schema != NULL && sqlite3_stricmp(s->schema, schema) != 0)))
        s = s->next;
    return s;
}

static bool is_of_name(char c)
{
    return (c >= 'a' && c <= 'z') || (c >= 'A' && c <= 'Z') || (c >= '0' && c <= '9') || c == '_';
}

/* The word with which a text begins, behind spaces; the text goes on behind it. */
int read_word(const char **text, const char **begin)
{
    const char *at = *text;
    while (*at == ' ' || *at == '\t' || *at == '\n' || *at == '\r')
        at++;
    *begin = at;
    while (is_of_name(*at))
        at++;
    *text = at;
    return (int)(at - *begin);
}

bool is_word(const char *begin, int length, const char *wanted)
{
    return (size_t)length == strlen(wanted) && sqlite3_strnicmp(begin, wanted, length) == 0;
}

/* Reads `name int`, `name text` or `name flag`. */
static bool read_column(store *s, const char *text)
{
    const char *name, *kind, *rest;
    int length = read_word(&text, &name), kind_length = read_word(&text, &kind);
    uint8_t found = is_word(kind, kind_length, "int") ? SFBUILD_INT : is_word(kind, kind_length, "text") ? SFBUILD_TEXT : SFBUILD_FLAG;
    if (s->columns == SFBUILD_COLUMNS_MAX || length == 0 || (found == SFBUILD_FLAG && !is_word(kind, kind_length, "flag")))
        return false;
    if (read_word(&text, &rest) != 0 || *text != 0)
        return false;
    s->kinds[s->columns] = found;
    s->names[s->columns] = sqlite3_mprintf("%.*s", length, name);
    return s->names[s->columns++] != NULL;
}

/* Makes an empty table of the columns that the statement tells. */
int make_table(tables *all, int argc, const char *const *argv, store **made, char **error)
{
    store *s = sqlite3_malloc64(sizeof *s);
    if (s == NULL)
        return SQLITE_NOMEM;
    memset(s, 0, sizeof *s);
    s->next = all->first;
    all->first = s;
    s->schema = sqlite3_mprintf("%s", argv[1]);
    s->name = sqlite3_mprintf("%s", argv[2]);
    for (int argument = 3; argument < argc; argument++)
        if (!read_column(s, argv[argument])) {
            *error = sqlite3_mprintf("sfbuild: \"%s\" is no column (as name text, of int, text and flag), or is one of more than 12", argv[argument]);
            forget_table(all, s);
            return SQLITE_ERROR;
        }
    uint8_t told = sfbuild_open(&s->table, s->kinds, (size_t)s->columns, SLOTS, SFBUILD_PAGES_MAX);
    if (told != SFBUILD_DONE || s->schema == NULL || s->name == NULL) {
        *error = told == SFBUILD_BAD_COLUMN ? sqlite3_mprintf("sfbuild: a table has 1 to 12 columns") : NULL;
        forget_table(all, s);
        return told == SFBUILD_BAD_COLUMN ? SQLITE_ERROR : SQLITE_NOMEM;
    }
    *made = s;
    return SQLITE_OK;
}
