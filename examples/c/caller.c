/* Builds two indexes of a table while a second thread writes it, and compares them with the program's own list of the rows.
 *
 *     gcc -pthread -I include examples/c/caller.c lib/libsfbuild_c.a -o /tmp/caller && /tmp/caller     in a release; caller.out has what is printed
 *
 * A table is used by one call at a time, so both threads hold `lock` around each. A refusal that isn't awaited ends the program, with its number as
 * the status. */
#include "sfbuild.h"
#include <pthread.h>
#include <sched.h>
#include <stdio.h>
#include <stdlib.h>

enum { ROWS = 400, TRANSACTIONS = 100, ALL = ROWS + TRANSACTIONS, BY_ID = 0, BY_NAME = 1 };

static sfbuild table;
static pthread_mutex_t lock = PTHREAD_MUTEX_INITIALIZER;
static bool stopped;

/* The program's own list of the rows, of which some don't stand in the table yet, or no more. */
static struct entry { int64_t id; int name; bool stands; sfbuild_rid at; } list[ALL];

/* Answers a refusal to whoever called. */
#define TRY(call) do { uint8_t answer = (call); if (answer != SFBUILD_DONE) return answer; } while (0)

/* One call, with the lock held. */
#define LOCKED(told, call) do { pthread_mutex_lock(&lock); told = (call); pthread_mutex_unlock(&lock); } while (0)

static size_t row_of(int64_t id, int name, uint8_t *row)
{
    char text[16];
    size_t length = 0;
    int bytes = snprintf(text, sizeof text, "name %d", name);
    sfbuild_put_int(row, &length, id);
    sfbuild_put_text(row, &length, text, (size_t)bytes);
    return length;
}

static uint8_t fill(void)
{
    uint8_t row[SFBUILD_ROW_MAX];
    uint64_t txn;
    TRY(sfbuild_begin(&table, &txn));
    for (int place = 0; place < ALL; place++)
        list[place] = (struct entry){place * 37 % 1009, place % 5, place < ROWS, {0, 0}};
    for (int place = 0; place < ROWS; place++)
        TRY(sfbuild_insert(&table, txn, row, row_of(list[place].id, list[place].name, row), &list[place].at));
    return sfbuild_commit(&table, txn);
}

/* Inserts a row, gives another one a new name and deletes a third, and takes all of it back where the number says so. */
static uint8_t transaction(int number)
{
    struct entry *inserted = &list[ROWS + number], *updated = &list[3 * number], *deleted = &list[3 * number + 1];
    uint8_t row[SFBUILD_ROW_MAX], told;
    uint64_t txn;
    size_t left = 3;
    do
        LOCKED(told, sfbuild_begin(&table, &txn));
    while (told == SFBUILD_FENCED && sched_yield() == 0); /* until the build has decided */
    TRY(told);
    LOCKED(told, sfbuild_insert(&table, txn, row, row_of(inserted->id, inserted->name, row), &inserted->at));
    TRY(told);
    LOCKED(told, sfbuild_update(&table, txn, updated->at, row, row_of(updated->id, 8, row)));
    TRY(told);
    LOCKED(told, sfbuild_delete(&table, txn, deleted->at));
    TRY(told);
    if (number % 4 == 3) {
        while (left > 0) {
            LOCKED(told, sfbuild_undo(&table, txn, &left));
            TRY(told);
        }
        return SFBUILD_DONE;
    }
    inserted->stands = true;
    deleted->stands = false;
    updated->name = 8;
    LOCKED(told, sfbuild_commit(&table, txn));
    return told;
}

static void *write_rows(void *answer)
{
    uint8_t *told = answer;
    for (int number = 0; number < TRANSACTIONS && *told == SFBUILD_DONE; number++)
        *told = transaction(number);
    /* The build would wait for the transaction that is left open. */
    if (*told != SFBUILD_DONE)
        LOCKED(stopped, true);
    return NULL;
}

/* A unique index on the id, and one on the name and, from the greatest on, the id: by two workers over four ranges of pages. */
static uint8_t build(void)
{
    uint8_t indexes[SFBUILD_INDEXES_MAX], told;
    size_t length = 0;
    uint32_t pages;
    bool ready = false;
    TRY(sfbuild_put_index(indexes, &length, true, (size_t[]){0}, NULL, 1));
    TRY(sfbuild_put_index(indexes, &length, false, (size_t[]){1, 0}, (bool[]){false, true}, 2));
    LOCKED(told, sfbuild_start(&table, indexes, length, 2, 4, 64, &pages));
    /* A unique index waits for the transactions that have written to end. */
    while ((told == SFBUILD_DONE && !ready) || told == SFBUILD_BUSY) {
        LOCKED(told, stopped ? SFBUILD_NO_BUILD : sfbuild_step(&table, 64, &ready));
        sched_yield();
    }
    return told;
}

static int by_id(const void *one, const void *other)
{
    int64_t a = ((const struct entry *)one)->id, b = ((const struct entry *)other)->id;
    return (a > b) - (a < b);
}

static int by_name(const void *one, const void *other)
{
    int a = ((const struct entry *)one)->name, b = ((const struct entry *)other)->name;
    return a == b ? by_id(other, one) : (a > b) - (a < b);
}

/* Reads an index from its first pair to its last, and looks for what differs from the list in its order. */
static uint8_t compare(size_t index, int (*order)(const void *, const void *))
{
    sfbuild_cursor cursor;
    uint8_t told, row[SFBUILD_ROW_MAX], wanted[SFBUILD_ROW_MAX];
    size_t length, pairs = 0, others = 0;
    qsort(list, ALL, sizeof list[0], order);
    sfbuild_cursor_from(&cursor, index, NULL, 0);
    for (const struct entry *it = list; it < list + ALL; it++) {
        if (!it->stands)
            continue;
        TRY(sfbuild_cursor_next(&table, &cursor, NULL, 0));
        TRY(sfbuild_get(&table, cursor.rid, row, sizeof row, &length));
        others += length != row_of(it->id, it->name, wanted) || memcmp(row, wanted, length) != 0;
        pairs++;
    }
    told = sfbuild_cursor_next(&table, &cursor, NULL, 0);
    printf("index %zu: %zu pairs, %zu of them not as in the list, %s\n", index, pairs, others, told == SFBUILD_END ? "and no more" : "and more");
    return told == SFBUILD_END ? SFBUILD_DONE : told;
}

/* The ids of a name, read from the index on it: those of the keys from that of the name on, up to the least one above all that begin so. */
static uint8_t list_name(const char *name)
{
    sfbuild_cursor cursor;
    uint8_t row[SFBUILD_ROW_MAX], key[SFBUILD_KEY_MAX], told;
    size_t length = 0, bytes, at;
    sfbuild_cell id;
    sfbuild_put_null(row, &length);
    TRY(sfbuild_put_text(row, &length, name, strlen(name)));
    TRY(sfbuild_key(&table, BY_NAME, 1, row, length, key, sizeof key, &bytes));
    sfbuild_cursor_from(&cursor, BY_NAME, key, bytes);
    sfbuild_key_above(key, &bytes);
    printf("%s:", name);
    while ((told = sfbuild_cursor_next(&table, &cursor, key, bytes)) == SFBUILD_DONE) {
        TRY(sfbuild_get(&table, cursor.rid, row, sizeof row, &length));
        at = 0;
        if (sfbuild_read(row, length, &at, SFBUILD_INT, &id) && id.number < 100)
            printf(" %lld", (long long)id.number);
    }
    printf("\n");
    return told == SFBUILD_END ? SFBUILD_DONE : told;
}

static uint8_t run(void)
{
    pthread_t writer;
    uint8_t built, written = SFBUILD_DONE;
    TRY(fill());
    if (pthread_create(&writer, NULL, write_rows, &written) != 0)
        return SFBUILD_MEMORY;
    built = build();
    if (built != SFBUILD_DONE)
        LOCKED(stopped, true);
    pthread_join(writer, NULL);
    TRY(written);
    TRY(built);
    TRY(compare(BY_ID, by_id));
    TRY(compare(BY_NAME, by_name));
    return list_name("name 8");
}

int main(void)
{
    uint8_t told = sfbuild_open(&table, (uint8_t[]){SFBUILD_INT, SFBUILD_TEXT}, 2, 16, 1000);
    if (told == SFBUILD_DONE)
        told = run();
    sfbuild_close(&table);
    if (told != SFBUILD_DONE)
        fprintf(stderr, "caller: refused, %d\n", told);
    return told;
}
