/* Builds an index by the calls of its single events, in an order of the program's own, where sfbuild_step would choose the next one.
 *
 *     gcc -I include examples/c/events.c lib/libsfbuild_c.a -o /tmp/events && /tmp/events     in a release; events.out has what is printed
 *
 * Two workers are dealt the pages of three ranges by turns, the last range first, and a row is inserted behind each page. A call that comes too early is
 * refused, says what is missing, and changes nothing. */
#include "sfbuild.h"
#include <stdio.h>

#define ROWS 96
#define RANGES 3
#define WORKERS 2
#define TRY(call) do { uint8_t answer_ = (call); if (answer_ != SFBUILD_DONE) return answer_; } while (0)

static sfbuild table; /* all zero: closed */
static size_t rows;

/* Inserts a row by a transaction of its own. */
static uint8_t insert(int64_t number)
{
    uint8_t row[SFBUILD_ROW_MAX];
    size_t length = 0;
    uint64_t txn;
    sfbuild_rid at;
    sfbuild_put_int(row, &length, number);
    TRY(sfbuild_begin(&table, &txn));
    TRY(sfbuild_insert(&table, txn, row, length, &at));
    rows++;
    return sfbuild_commit(&table, txn);
}

/* Prints how a call was refused that came too early. Any other answer is handed on. */
static uint8_t tell_refusal(const char *call, uint8_t told, uint8_t awaited, const char *of)
{
    if (told != awaited)
        return told == SFBUILD_DONE ? SFBUILD_END : told;
    printf("%s: %d, %s %d\n", call, told, of, told == SFBUILD_NOT_LOADED ? (int)table.cause.index : (int)table.cause.number);
    return SFBUILD_DONE;
}

/* Copies all pages, and digests each copy at once. */
static uint8_t scan(void)
{
    bool is_done[RANGES] = {false};
    int copied = 0, digested = 0;
    size_t images, left = RANGES;
    uint32_t page;
    for (size_t turn = 0; left > 0; turn++) {
        size_t range = RANGES - 1 - turn % RANGES, worker = turn % WORKERS;
        if (is_done[range])
            continue;
        uint8_t told = sfbuild_scan(&table, range, worker, &page);
        if (told == SFBUILD_RANGE_DONE) {
            is_done[range] = true;
            left--;
            continue;
        }
        TRY(told);
        copied++;
        TRY(sfbuild_digest(&table, worker, &images));
        digested += (int)images;
        TRY(insert(ROWS + (int64_t)turn));
    }
    printf("pages copied: %d, digested: %d\n", copied, digested);
    return SFBUILD_DONE;
}

/* Seals the workers, and puts the pairs in order. */
static uint8_t load(void)
{
    size_t images, indexes, pairs;
    TRY(tell_refusal("a load before the workers are sealed", sfbuild_load(&table, 0, &pairs), SFBUILD_NOT_SEALED, "worker"));
    for (size_t worker = 0; worker < WORKERS; worker++)
        TRY(sfbuild_seal(&table, worker, &images));
    TRY(tell_refusal("a switch before the load", sfbuild_switch(&table, &indexes), SFBUILD_NOT_LOADED, "index"));
    TRY(sfbuild_load(&table, 0, &pairs));
    printf("pairs of the copies: %d\n", (int)pairs);
    return SFBUILD_DONE;
}

/* Applies all changes but the newest, which is left to the switch. */
static uint8_t catch_up(void)
{
    size_t fed = 0, applied = 0, changes = 0;
    do {
        TRY(sfbuild_feed(&table, 0, 5, &fed));
        TRY(sfbuild_apply(&table, 0, 5, &applied));
        changes += applied;
    } while (fed > 0);
    printf("changes applied: %d\n", (int)changes);
    return insert(-1);
}

static uint8_t build(void)
{
    uint8_t indexes[SFBUILD_INDEXES_MAX], cells[SFBUILD_CELLS_MAX];
    size_t length = 0, pairs, decided;
    uint32_t pages;
    sfbuild_verdict_of verdict;
    TRY(sfbuild_put_index(indexes, &length, true, (size_t[]){0}, NULL, 1));
    TRY(sfbuild_start(&table, indexes, length, WORKERS, RANGES, 16, &pages));
    TRY(tell_refusal("a load before the pages are copied", sfbuild_load(&table, 0, &pairs), SFBUILD_NOT_SCANNED, "range"));
    TRY(scan());
    TRY(load());
    TRY(catch_up());
    TRY(sfbuild_switch(&table, &decided));
    TRY(sfbuild_verdict(&table, 0, &verdict, cells, sizeof cells, &length));
    printf("indexes decided: %d, ready: %s\n", (int)decided, verdict.ready ? "yes" : "no");
    return SFBUILD_DONE;
}

/* Whether the index has a pair of each row, in the order of their numbers. */
static uint8_t check(void)
{
    uint8_t row[SFBUILD_ROW_MAX], told;
    size_t length, place, pairs = 0;
    int64_t before = -2;
    bool in_order = true;
    sfbuild_cursor cursor;
    sfbuild_cell cell;
    sfbuild_cursor_from(&cursor, 0, NULL, 0);
    while ((told = sfbuild_cursor_next(&table, &cursor, NULL, 0)) == SFBUILD_DONE) {
        TRY(sfbuild_get(&table, cursor.rid, row, sizeof row, &length));
        place = 0;
        in_order = sfbuild_read(row, length, &place, SFBUILD_INT, &cell) && cell.number > before && in_order;
        before = cell.number;
        pairs++;
    }
    printf("a pair of each row, in order: %s\n", pairs == rows && in_order ? "yes" : "no");
    return told == SFBUILD_END ? SFBUILD_DONE : told;
}

static uint8_t run(void)
{
    for (int64_t number = 0; number < ROWS; number++)
        TRY(insert(number));
    TRY(build());
    return check();
}

int main(void)
{
    uint8_t told = sfbuild_open(&table, (uint8_t[]){SFBUILD_INT}, 1, 8, 100);
    if (told == SFBUILD_DONE)
        told = run();
    sfbuild_close(&table);
    return told;
}
