/* The smallest build: three rows, an index on their number, and its rows in order. first.out has what is printed. */
#include "sfbuild.h"
#include <stdio.h>

static uint8_t run(sfbuild *table)
{
    uint8_t told, row[SFBUILD_ROW_MAX], indexes[SFBUILD_INDEXES_MAX];
    size_t length, by_number[] = {0};
    uint64_t txn;
    uint32_t pages;
    sfbuild_rid at;
    sfbuild_cursor cursor;
    sfbuild_cell cell;
    bool ready = false;
    if ((told = sfbuild_begin(table, &txn)) != SFBUILD_DONE)
        return told;
    for (int64_t number = 7; number > 0 && told == SFBUILD_DONE; number -= 3) {
        length = 0;
        sfbuild_put_int(row, &length, number);
        told = sfbuild_insert(table, txn, row, length, &at);
    }
    if (told != SFBUILD_DONE || (told = sfbuild_commit(table, txn)) != SFBUILD_DONE)
        return told;
    length = 0;
    sfbuild_put_index(indexes, &length, true, by_number, NULL, 1);
    told = sfbuild_start(table, indexes, length, 1, 1, 16, &pages);
    while (told == SFBUILD_DONE && !ready)
        told = sfbuild_step(table, 64, &ready); /* between two of these any thread may write */
    sfbuild_cursor_from(&cursor, 0, NULL, 0);
    while (told == SFBUILD_DONE && (told = sfbuild_cursor_next(table, &cursor, NULL, 0)) == SFBUILD_DONE) {
        told = sfbuild_get(table, cursor.rid, row, sizeof row, &length);
        size_t place = 0;
        if (told == SFBUILD_DONE && sfbuild_read(row, length, &place, SFBUILD_INT, &cell))
            printf("%d at %u.%u\n", (int)cell.number, cursor.rid.page, cursor.rid.slot);
    }
    return told == SFBUILD_END ? SFBUILD_DONE : told;
}

int main(void)
{
    static sfbuild table; /* all zero: closed */
    uint8_t kinds[] = {SFBUILD_INT}, told = sfbuild_open(&table, kinds, 1, 16, 100);
    if (told == SFBUILD_DONE)
        told = run(&table);
    sfbuild_close(&table);
    return told;
}
