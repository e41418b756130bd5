/* Builds two indexes in one thread, by turns with a writer that inserts a hundred rows between any two pieces and has a transaction open most of the time.
 *
 *     gcc -I include examples/c/steady.c lib/libsfbuild_c.a -o /tmp/steady && /tmp/steady     in a release; steady.out has what is printed
 *
 * Once the pairs are in order each piece applies of each index what was written since the last one and 64 changes more, and then tries the switch: so it catches up with this
 * writer, who makes more changes than that between two pieces. One index is unique, and a transaction is open that has written: the switch is BUSY, and the fence lets no
 * further transaction begin until it has decided. */
#include "sfbuild.h"
#include <stdio.h>

#define ROWS 1000
#define ROWS_A_TURN 100
#define TRY(call) do { uint8_t answer_ = (call); if (answer_ != SFBUILD_DONE) return answer_; } while (0)

static sfbuild table; /* all zero: closed */
static size_t rows, busy;

static uint8_t insert(uint64_t txn, int64_t number)
{
    uint8_t row[SFBUILD_ROW_MAX];
    size_t length = 0;
    sfbuild_rid at;
    sfbuild_put_int(row, &length, number);
    TRY(sfbuild_insert(&table, txn, row, length, &at));
    rows++;
    return SFBUILD_DONE;
}

/* The writer's next rows; each fifth time it ends its transaction. Behind a fence none begins. */
static uint8_t write_on(size_t turn)
{
    static uint64_t txn;
    static bool is_open;
    if (!is_open) {
        uint8_t told = sfbuild_begin(&table, &txn);
        if (told != SFBUILD_DONE)
            return told == SFBUILD_FENCED ? SFBUILD_DONE : told;
        is_open = true;
    }
    for (size_t row = 0; row < ROWS_A_TURN; row++)
        TRY(insert(txn, (int64_t)rows));
    if (turn % 5 < 4)
        return SFBUILD_DONE;
    is_open = false;
    return sfbuild_commit(&table, txn);
}

/* Ends where a piece switches. */
static uint8_t build(void)
{
    uint8_t indexes[SFBUILD_INDEXES_MAX], told;
    size_t length = 0;
    uint32_t pages;
    bool ready = false;
    TRY(sfbuild_put_index(indexes, &length, true, (size_t[]){0}, NULL, 1));
    TRY(sfbuild_put_index(indexes, &length, false, (size_t[]){0}, (bool[]){true}, 1));
    TRY(sfbuild_start(&table, indexes, length, 1, 1, 64, &pages));
    for (size_t turn = 0; !ready; turn++) {
        TRY(write_on(turn));
        told = sfbuild_step(&table, 64, &ready);
        if (told == SFBUILD_BUSY) {
            busy++;
            TRY(sfbuild_fence(&table));
        } else {
            TRY(told);
        }
    }
    return SFBUILD_DONE;
}

static uint8_t count(size_t index, size_t *pairs)
{
    sfbuild_cursor cursor;
    uint8_t told;
    sfbuild_cursor_from(&cursor, index, NULL, 0);
    for (*pairs = 0; (told = sfbuild_cursor_next(&table, &cursor, NULL, 0)) == SFBUILD_DONE; ++*pairs)
        continue;
    return told == SFBUILD_END ? SFBUILD_DONE : told;
}

static uint8_t run(void)
{
    uint64_t txn;
    size_t rising, falling;
    TRY(sfbuild_begin(&table, &txn));
    for (int64_t number = 0; number < ROWS; number++)
        TRY(insert(txn, number));
    TRY(sfbuild_commit(&table, txn));
    TRY(build());
    TRY(count(0, &rising));
    TRY(count(1, &falling));
    printf("busy: %s\n", busy > 0 ? "yes, and fenced" : "no");
    printf("rows that came meanwhile: %s\n", rows > ROWS ? "some" : "none");
    printf("each index has a pair of each row: %s\n", rising == rows && falling == rows ? "yes" : "no");
    return SFBUILD_DONE;
}

int main(void)
{
    uint8_t told = sfbuild_open(&table, (uint8_t[]){SFBUILD_INT}, 1, 100, 1000);
    if (told == SFBUILD_DONE)
        told = run();
    sfbuild_close(&table);
    return told;
}
