/* The build of an index, piece by piece, and what becomes of it. */
#include "table.h"

static void put_cell(sqlite3_str *text, const sfbuild_cell *cell, uint8_t kind)
{
    if (cell->null)
        sqlite3_str_appendall(text, "NULL");
    else if (kind == SFBUILD_TEXT)
        sqlite3_str_appendf(text, "'%.*q'", (int)cell->bytes, cell->text);
    else
        sqlite3_str_appendf(text, "%lld", kind == SFBUILD_INT ? (long long)cell->number : (long long)cell->flag);
}

/* The build has ended, and this is said of it from now on. */
void end_build(store *s, char *said)
{
    sqlite3_free(s->said);
    sqlite3_free(s->wanted.on);
    s->said = said;
    s->wanted.on = NULL;
    s->building = s->waits = false;
}

/* Which rows share which key of the index that is refused. */
static char *why_refused(const store *s, const sfbuild_verdict_of *verdict, const uint8_t *cells, size_t length)
{
    sqlite3_str *text = sqlite3_str_new(NULL);
    size_t at = 0;
    sqlite3_str_appendf(text, "refused: the index on %s, since rows %lld and %lld share the key (", s->wanted.on, rowid_of(verdict->first),
                        rowid_of(verdict->second));
    for (int place = 0; place < s->wanted.count; place++) {
        sfbuild_cell cell;
        uint8_t kind = s->kinds[s->wanted.column[place]];
        if (sfbuild_read(cells, length, &at, kind, &cell)) {
            sqlite3_str_appendall(text, place > 0 ? ", " : "");
            put_cell(text, &cell, kind);
        }
    }
    sqlite3_str_appendall(text, ")");
    return sqlite3_str_finish(text);
}

/* The build has switched: its index is ready, or refused for two rows with one key. */
static void decide(store *s)
{
    sfbuild_verdict_of verdict;
    uint8_t cells[SFBUILD_CELLS_MAX];
    size_t length;
    uint8_t told = sfbuild_verdict(&s->table, 0, &verdict, cells, sizeof cells, &length);
    if (told == SFBUILD_DONE && verdict.ready) {
        s->ready[verdict.number] = s->wanted;
        s->wanted.on = NULL;
        end_build(s, sqlite3_mprintf("ready: the index on %s", s->ready[verdict.number].on));
    } else if (told == SFBUILD_DONE) {
        end_build(s, why_refused(s, &verdict, cells, length));
    } else {
        /* Only a refused one takes memory to be told of. */
        end_build(s, sqlite3_mprintf("refused: the index on %s", s->wanted.on));
    }
}

/* Does the next piece of the build, and answers whether it goes on. One that is refused for anything but BUSY, as for want of memory, is given up: what is
 * said of it then tells why. */
bool do_piece(store *s)
{
    bool ready = false;
    uint8_t told;
    if (!s->building)
        return false;
    told = sfbuild_step(&s->table, CHANGES_A_PIECE, &ready);
    s->waits = told == SFBUILD_BUSY;
    if (told == SFBUILD_DONE && ready) {
        decide(s);
    } else if (told != SFBUILD_DONE && told != SFBUILD_BUSY) {
        sfbuild_abandon(&s->table);
        end_build(s, sqlite3_mprintf("given up: the index on %s, refused, %d", s->wanted.on, told));
    }
    return s->building && !s->waits;
}
