/* groups.c: the groups of a ring by a plain union-find, for the benchmark only.
 * It is no stand-in for the archive: engine.c is.
 *
 * The ring is given, by the marks that window_ring wrote. Each account has a
 * parent, itself or one below it, so the root of a tree is its smallest
 * account. A way up is halved as it is walked. It is the fastest of the plain
 * forms that were tried: rows before the first mark and behind the last are not
 * looked at twice, and a row whose accounts have one parent joins nothing.
 */
#include <stddef.h>
#include <stdint.h>
#include <string.h>

#include "rumbleog.h"

/* The root of an account. Each second account on the way gets its parent's parent. */
static uint16_t find(uint16_t *parent, uint16_t account)
{
    uint16_t up = parent[account], next;
    while ((next = parent[up]) != up) {
        parent[account] = next;
        account = next;
        up = parent[account];
    }
    return up;
}

/* The label of each row that is marked: the smallest account of its group. Of every other 65,535. */
void peer_label_marked(const uint16_t *first, const uint16_t *second, const uint8_t *marks,
                       size_t rows, uint16_t *labels)
{
    uint16_t parent[RUMBLEOG_ACCOUNTS];
    const uint8_t *one = memchr(marks, 1, rows);
    memset(labels, 0xff, rows * sizeof *labels);
    if (!one)
        return;
    size_t from = (size_t)(one - marks), to = rows;
    while (!marks[to - 1])
        to--;
    for (size_t account = 0; account < RUMBLEOG_ACCOUNTS; account++)
        parent[account] = (uint16_t)account;
    for (size_t row = from; row < to; row++) {
        if (!marks[row] || parent[first[row]] == parent[second[row]])
            continue;
        uint16_t a = find(parent, first[row]), b = find(parent, second[row]);
        /* Not where they are one: the next row would wait for what is written. */
        if (a < b)
            parent[b] = a;
        else if (b < a)
            parent[a] = b;
    }
    /* In rising order the parent of a parent is its root already. */
    for (size_t account = 0; account < RUMBLEOG_ACCOUNTS; account++)
        parent[account] = parent[parent[account]];
    for (size_t row = from; row < to; row++)
        if (marks[row])
            labels[row] = parent[first[row]];
}
