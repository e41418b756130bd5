/* A transaction of a table: its writes, and what takes a part of them back. */
#include "table.h"

/* Ends a transaction that is to end. Without memory it stays so, and each later call tries again. */
uint8_t settle(store *s)
{
    uint8_t told = SFBUILD_DONE;
    size_t left = 1;
    if (s->state == COMMITS)
        told = sfbuild_commit(&s->table, s->txn);
    while (s->state == UNDOES && told == SFBUILD_DONE && left > 0)
        told = sfbuild_undo(&s->table, s->txn, &left);
    if (told == SFBUILD_DONE && s->state != OPEN)
        s->state = NONE;
    return told;
}

/* Does one write, and notes what takes it back: memory for that comes first. */
uint8_t write_row(store *s, int what, sfbuild_rid *at, const uint8_t *row, size_t length)
{
    uint8_t was[SFBUILD_ROW_MAX], told = SFBUILD_DONE;
    change it = {what, {0, 0}, NULL, 0};
    if (what != INSERTED)
        told = sfbuild_get(&s->table, *at, was, sizeof was, &it.length);
    if (told != SFBUILD_DONE)
        return told;
    if (s->count == s->room) {
        change *more = sqlite3_realloc64(s->changes, (2 * s->room + 16) * sizeof *more);
        if (more == NULL)
            return SFBUILD_MEMORY;
        s->changes = more;
        s->room = 2 * s->room + 16;
    }
    if (it.length > 0 && (it.was = sqlite3_malloc64(it.length)) == NULL)
        return SFBUILD_MEMORY;
    if (it.length > 0)
        memcpy(it.was, was, it.length);
    if (what == INSERTED)
        told = sfbuild_insert(&s->table, s->txn, row, length, at);
    else if (what == UPDATED)
        told = sfbuild_update(&s->table, s->txn, *at, row, length);
    else
        told = sfbuild_delete(&s->table, s->txn, *at);
    it.at = *at;
    if (told == SFBUILD_DONE)
        s->changes[s->count++] = it;
    else
        sqlite3_free(it.was);
    return told;
}

/* Takes the changes behind a mark back, the newest first, by writes that do the opposite: a part of a transaction can't be undone. A row that was deleted
 * comes back at another address, by which the changes before it are to be taken back. */
uint8_t take_back(store *s, size_t mark)
{
    uint8_t told = SFBUILD_DONE;
    while (s->count > mark && told == SFBUILD_DONE) {
        change *it = &s->changes[s->count - 1];
        sfbuild_rid at = it->at;
        if (it->what == INSERTED)
            told = sfbuild_delete(&s->table, s->txn, at);
        else if (it->what == UPDATED)
            told = sfbuild_update(&s->table, s->txn, at, it->was, it->length);
        else
            told = sfbuild_insert(&s->table, s->txn, it->was, it->length, &at);
        if (told != SFBUILD_DONE)
            break;
        for (change *earlier = s->changes; earlier < it; earlier++)
            if (rowid_of(earlier->at) == rowid_of(it->at))
                earlier->at = at;
        sqlite3_free(it->was);
        s->count--;
    }
    s->spoiled |= told != SFBUILD_DONE;
    return told;
}

void forget_changes(store *s)
{
    while (s->count > 0)
        sqlite3_free(s->changes[--s->count].was);
    s->marked = 0;
    s->spoiled = false;
}

/* Sees to it that a transaction is open. */
uint8_t open_transaction(store *s)
{
    uint8_t told = settle(s);
    if (told == SFBUILD_DONE && s->state == NONE)
        told = sfbuild_begin(&s->table, &s->txn);
    if (told == SFBUILD_DONE)
        s->state = OPEN;
    return told;
}
