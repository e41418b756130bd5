/* What SQLite asks of a table that is read: how a query is answered, and its rows. */
#include "table.h"

/* A query that reads rows. */
typedef struct {
    sqlite3_vtab_cursor base;
    enum { SCAN, ONE, RANGE } how;
    bool ended;
    uint32_t slot;          /* of a scan: the next slot of page rid.page */
    sfbuild_cursor range;   /* of a range: where it is, and the bytes that its keys are before */
    uint8_t high[SFBUILD_KEY_MAX];
    size_t high_length;
    bool bounded;
    sfbuild_rid rid;        /* the row */
    uint8_t row[SFBUILD_ROW_MAX];
    size_t length;
} cursor;

/* How a query is answered is one number: the index plus 1, which of its columns are to equal Null where the value is, whether there is a bound below and above,
 * and how many columns are to equal a value. 0 is a scan. */
enum { BY_ROWID = -1, EQUALS = 7, LOW = 8, HIGH = 16, NULLS = 256, INDEX = 65536 };

typedef struct { int number, arguments; double rows; bool ordered; int argument[2 + SFBUILD_KEY_COLUMNS_MAX]; } plan;

/* What kind of a bound a constraint is: that something equals a value, is above or below it, or none that an index serves. */
static char bound_of(int op)
{
    switch (op) {
    case SQLITE_INDEX_CONSTRAINT_EQ:
    case SQLITE_INDEX_CONSTRAINT_IS:
    case SQLITE_INDEX_CONSTRAINT_ISNULL:
        return '=';
    case SQLITE_INDEX_CONSTRAINT_GT:
    case SQLITE_INDEX_CONSTRAINT_GE:
        return '>';
    case SQLITE_INDEX_CONSTRAINT_LT:
    case SQLITE_INDEX_CONSTRAINT_LE:
        return '<';
    default:
        return ' ';
    }
}

/* The place of a constraint of that kind on a column, or -1. */
static int constraint_on(sqlite3_index_info *info, int column, char bound)
{
    for (int place = 0; place < info->nConstraint; place++)
        if (info->aConstraint[place].usable && info->aConstraint[place].iColumn == column && bound_of(info->aConstraint[place].op) == bound
            && sqlite3_stricmp(sqlite3_vtab_collation(info, place), "BINARY") == 0)
            return place;
    return -1;
}

/* Whether the rows come in the order of the query: by the first columns of the index, of which a number that is told may be left out. */
static bool is_in_order(const store *s, const index_of *index, int equals, const sqlite3_index_info *info)
{
    int place = 0;
    for (int term = 0; term < info->nOrderBy; term++) {
        int column = info->aOrderBy[term].iColumn;
        while (place < equals && (int)index->column[place] != column && s->kinds[index->column[place]] != SFBUILD_TEXT)
            place++;
        if (place == index->count || (int)index->column[place] != column || index->descending[place] != (info->aOrderBy[term].desc != 0))
            return false;
        place++;
    }
    return info->nOrderBy > 0;
}

static plan plan_by(const store *s, int number, double rows, sqlite3_index_info *info)
{
    const index_of *index = &s->ready[number];
    plan p = {(number + 1) * INDEX, 0, rows, false, {0}};
    int place = 0, at;
    for (; place < index->count && (at = constraint_on(info, (int)index->column[place], '=')) >= 0; place++) {
        p.argument[p.arguments++] = at;
        p.number += 1 + (info->aConstraint[at].op == SQLITE_INDEX_CONSTRAINT_EQ ? 0 : NULLS << place);
        p.rows = index->unique && place + 1 == index->count ? 1 : p.rows / 10;
    }
    p.ordered = is_in_order(s, index, place, info);
    if (place == index->count)
        return p;
    if ((at = constraint_on(info, (int)index->column[place], '>')) >= 0) {
        p.argument[p.arguments++] = at;
        p.number |= LOW;
        p.rows /= 3;
    }
    if ((at = constraint_on(info, (int)index->column[place], '<')) >= 0) {
        p.argument[p.arguments++] = at;
        p.number |= HIGH;
        p.rows /= 3;
    }
    return p;
}

/* What EXPLAIN QUERY PLAN shows. */
static char *plan_in_words(const store *s, const plan *p)
{
    const index_of *index = &s->ready[p->number / INDEX - 1];
    sqlite3_str *text = sqlite3_str_new(NULL);
    int equals = p->number & EQUALS;
    sqlite3_str_appendf(text, "%s:", index->on);
    for (int place = 0; place < equals; place++)
        sqlite3_str_appendf(text, " %s=?", s->names[index->column[place]]);
    if (p->number & LOW)
        sqlite3_str_appendf(text, " %s>?", s->names[index->column[equals]]);
    if (p->number & HIGH)
        sqlite3_str_appendf(text, " %s<?", s->names[index->column[equals]]);
    if (p->ordered)
        sqlite3_str_appendall(text, " in order");
    return sqlite3_str_finish(text);
}

int x_best_index(sqlite3_vtab *base, sqlite3_index_info *info)
{
    vtab *v = (vtab *)base;
    store *s = v->store;
    uint32_t pages = 0;
    size_t ready = 0;
    sfbuild_pages(&s->table, &pages);
    sfbuild_ready(&s->table, &ready);
    double rows = 64.0 * pages + 10;
    plan best = {0, 0, rows, false, {0}};
    double cost = rows;
    int rowid = constraint_on(info, -1, '=');
    if (rowid >= 0 && info->aConstraint[rowid].op == SQLITE_INDEX_CONSTRAINT_EQ) {
        plan by_rowid = {BY_ROWID, 1, 1, false, {rowid}};
        best = by_rowid;
        cost = 1;
    }
    for (int number = 0; number < (int)ready; number++) {
        plan p = plan_by(s, number, rows, info);
        /* A row by an index costs two look-ups. The order that a query wants saves a sort. */
        double its = 2 * p.rows + (p.ordered || info->nOrderBy == 0 ? 5 : 5 + 3 * p.rows);
        if ((p.arguments > 0 || p.ordered) && its < cost + (best.number >= 0 && info->nOrderBy > 0 && !best.ordered ? 3 * best.rows : 0)) {
            best = p;
            cost = its;
        }
    }
    for (int place = 0; place < best.arguments; place++)
        info->aConstraintUsage[best.argument[place]].argvIndex = place + 1;
    info->idxNum = best.number;
    info->estimatedCost = cost;
    info->estimatedRows = (sqlite3_int64)best.rows + 1;
    info->orderByConsumed = best.ordered;
    if (best.number == BY_ROWID)
        info->idxFlags = SQLITE_INDEX_SCAN_UNIQUE;
    if (best.number == 0 || best.number == BY_ROWID)
        return SQLITE_OK;
    info->idxStr = plan_in_words(s, &best);
    info->needToFreeIdxStr = 1;
    return info->idxStr == NULL ? SQLITE_NOMEM : SQLITE_OK;
}

int x_open(sqlite3_vtab *base, sqlite3_vtab_cursor **answer)
{
    cursor *c = sqlite3_malloc64(sizeof *c);
    (void)base;
    if (c == NULL)
        return SQLITE_NOMEM;
    memset(c, 0, sizeof *c);
    *answer = &c->base;
    return SQLITE_OK;
}

int x_close(sqlite3_vtab_cursor *base)
{
    sqlite3_free(base);
    return SQLITE_OK;
}

/* What a value in a query is for a column: one of its cells, something that no cell equals, or neither is known. SQLite compares each row itself, so a range may be
 * wider than what was asked for. */
typedef enum { A_CELL, NO_CELL, OPEN_CELL } sense;

static sense cell_of(uint8_t kind, sqlite3_value *value, bool is_bound, sfbuild_cell *cell)
{
    int type = sqlite3_value_type(value);
    memset(cell, 0, sizeof *cell);
    if (kind == SFBUILD_TEXT) {
        if (type != SQLITE_TEXT || (cell->text = (const char *)sqlite3_value_text(value)) == NULL)
            return OPEN_CELL;
        cell->bytes = (size_t)sqlite3_value_bytes(value);
        return cell->bytes <= SFBUILD_TEXT_MAX ? A_CELL : OPEN_CELL;
    }
    if (is_bound && kind == SFBUILD_FLAG)
        return OPEN_CELL;
    if (is_whole(value, &cell->number)) {
        cell->flag = cell->number == 1;
        return kind == SFBUILD_INT || cell->number == 0 || cell->number == 1 ? A_CELL : NO_CELL;
    }
    if (!is_bound)
        return NO_CELL;
    /* The whole number beside a broken one is a bound as well. */
    double real = sqlite3_value_numeric_type(value) == SQLITE_FLOAT ? sqlite3_value_double(value) : 1e300;
    cell->number = real > -9e18 && real < 9e18 ? (int64_t)real : 0;
    return real > -9e18 && real < 9e18 ? A_CELL : OPEN_CELL;
}

/* The bytes of the key that an index has of these cells in its first columns. */
static uint8_t key_of(store *s, size_t number, const sfbuild_cell *cells, size_t count, uint8_t *key, size_t *length)
{
    const index_of *index = &s->ready[number];
    uint8_t row[SFBUILD_ROW_MAX];
    size_t row_length = 0;
    for (int column = 0; column < s->columns; column++) {
        const sfbuild_cell *cell = NULL;
        for (size_t place = 0; place < count; place++)
            if ((int)index->column[place] == column)
                cell = &cells[place];
        if (cell == NULL || cell->null)
            sfbuild_put_null(row, &row_length);
        else if (s->kinds[column] == SFBUILD_INT)
            sfbuild_put_int(row, &row_length, cell->number);
        else if (s->kinds[column] == SFBUILD_TEXT)
            sfbuild_put_text(row, &row_length, cell->text, cell->bytes);
        else
            sfbuild_put_flag(row, &row_length, cell->flag);
    }
    return sfbuild_key(&s->table, number, count, row, row_length, key, SFBUILD_KEY_MAX, length);
}

/* The range of the index that a plan and its values are about. Where a value is no cell, fewer columns count. */
static uint8_t find_range(store *s, cursor *c, int plan_number, sqlite3_value **values)
{
    size_t number = (size_t)(plan_number / INDEX - 1), count = 0, wanted = (size_t)(plan_number & EQUALS), length = 0;
    const index_of *index = &s->ready[number];
    sfbuild_cell cells[SFBUILD_KEY_COLUMNS_MAX];
    uint8_t key[SFBUILD_KEY_MAX], told = SFBUILD_DONE;
    for (; count < wanted; count++) {
        bool is_null = sqlite3_value_type(values[count]) == SQLITE_NULL;
        sense is = is_null ? A_CELL : cell_of(s->kinds[index->column[count]], values[count], false, &cells[count]);
        if (is_null) {
            memset(&cells[count], 0, sizeof cells[count]);
            cells[count].null = true;
        }
        c->ended |= is == NO_CELL || (is_null && !(plan_number & NULLS << count));
        if (is != A_CELL)
            break;
    }
    if (c->ended)
        return SFBUILD_DONE;
    if (count > 0 && (told = key_of(s, number, cells, count, key, &length)) == SFBUILD_ROW_SHAPE)
        count = length = 0; /* no text in UTF-8: the whole index is looked through */
    else if (told != SFBUILD_DONE)
        return told;
    sfbuild_cursor_from(&c->range, number, key, length);
    memcpy(c->high, key, length);
    c->high_length = length;
    c->bounded = sfbuild_key_above(c->high, &c->high_length);
    if (count < wanted || wanted == (size_t)index->count)
        return SFBUILD_DONE;
    for (int bound = LOW; bound <= HIGH; bound *= 2) {
        if (!(plan_number & bound) || cell_of(s->kinds[index->column[count]], values[wanted++], true, &cells[count]) != A_CELL)
            continue;
        if ((told = key_of(s, number, cells, count + 1, key, &length)) == SFBUILD_ROW_SHAPE)
            continue;
        if (told != SFBUILD_DONE)
            return told;
        /* In a column that descends what is above stands in front. */
        if ((bound == LOW) != index->descending[count]) {
            sfbuild_cursor_from(&c->range, number, key, length);
        } else if (sfbuild_key_above(key, &length)) {
            memcpy(c->high, key, length);
            c->high_length = length;
            c->bounded = true;
        }
    }
    return SFBUILD_DONE;
}

/* The next row of a scan. */
static uint8_t scan_on(store *s, cursor *c)
{
    uint32_t pages = 0;
    uint8_t told = sfbuild_pages(&s->table, &pages);
    for (; told == SFBUILD_DONE && c->rid.page < pages; c->rid.page++, c->slot = 0)
        while (c->slot < SLOTS) {
            c->rid.slot = (uint16_t)c->slot++;
            told = sfbuild_get(&s->table, c->rid, c->row, sizeof c->row, &c->length);
            if (told != SFBUILD_NO_SUCH_ROW)
                return told;
            told = SFBUILD_DONE;
        }
    return told == SFBUILD_DONE ? SFBUILD_END : told;
}

int x_next(sqlite3_vtab_cursor *base)
{
    cursor *c = (cursor *)base;
    vtab *v = (vtab *)base->pVtab;
    store *s = v->store;
    uint8_t told = SFBUILD_END;
    if (c->how == SCAN) {
        told = scan_on(s, c);
    } else if (c->how == RANGE) {
        told = sfbuild_cursor_next(&s->table, &c->range, c->bounded ? c->high : NULL, c->high_length);
        c->rid = c->range.rid;
        if (told == SFBUILD_DONE)
            told = sfbuild_get(&s->table, c->rid, c->row, sizeof c->row, &c->length);
    }
    c->ended = told == SFBUILD_END;
    return c->ended ? SQLITE_OK : answer_of(v, told);
}

int x_filter(sqlite3_vtab_cursor *base, int plan_number, const char *words, int argc, sqlite3_value **argv)
{
    cursor *c = (cursor *)base;
    vtab *v = (vtab *)base->pVtab;
    int64_t rowid;
    uint8_t told = settle(v->store);
    (void)words;
    (void)argc;
    c->ended = false;
    c->slot = 0;
    c->rid.page = 0;
    c->how = plan_number == 0 ? SCAN : plan_number == BY_ROWID ? ONE : RANGE;
    if (told == SFBUILD_DONE && c->how == RANGE)
        told = find_range(v->store, c, plan_number, argv);
    if (told != SFBUILD_DONE || c->ended)
        return answer_of(v, told);
    if (c->how != ONE)
        return x_next(base);
    c->rid = rid_of(is_whole(argv[0], &rowid) ? rowid : -1);
    told = sfbuild_get(&v->store->table, c->rid, c->row, sizeof c->row, &c->length);
    c->ended = told == SFBUILD_NO_SUCH_ROW;
    return c->ended ? SQLITE_OK : answer_of(v, told);
}

int x_eof(sqlite3_vtab_cursor *base)
{
    return ((cursor *)base)->ended;
}

int x_column(sqlite3_vtab_cursor *base, sqlite3_context *context, int column)
{
    const cursor *c = (cursor *)base;
    const store *s = ((vtab *)base->pVtab)->store;
    sfbuild_cell cell = {0};
    size_t at = 0;
    for (int place = 0; place <= column; place++)
        if (!sfbuild_read(c->row, c->length, &at, s->kinds[place], &cell))
            return SQLITE_INTERNAL;
    if (cell.null)
        sqlite3_result_null(context);
    else if (s->kinds[column] == SFBUILD_TEXT)
        sqlite3_result_text(context, cell.text, (int)cell.bytes, SQLITE_TRANSIENT);
    else
        sqlite3_result_int64(context, s->kinds[column] == SFBUILD_INT ? cell.number : cell.flag);
    return SQLITE_OK;
}

int x_rowid(sqlite3_vtab_cursor *base, sqlite3_int64 *rowid)
{
    *rowid = rowid_of(((cursor *)base)->rid);
    return SQLITE_OK;
}
