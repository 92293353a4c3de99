/* Plain, unverified C: the columns that meet a row, and the common row of some rows, on tables known to be sound. */
#include "plain.h"
#include <string.h>

/* Marks from row i down: a column below i holds i if its parent is i, or if its parent lies below i and is marked and its own chain has i. */
uint32_t inner_meets(Fac *f, uint32_t i, uint32_t *list)
{
    uint32_t *mark = f->work, n = 0;
    mark[i - 1] = 1;
    for (uint32_t j = i - 1; j; j--) {
        uint32_t p = f->parent[j - 1];
        if (p != i) {
            if (!p || p > i || !mark[p - 1]) continue;
            uint32_t k = f->fhead[j - 1];
            while (k && f->frow[k - 1] < i) k = f->fnext[k - 1];
            if (!k || f->frow[k - 1] != i) continue;
        }
        mark[j - 1] = 1;
    }
    for (uint32_t j = 1; j <= i; j++) if (mark[j - 1]) list[n++] = j;
    memset(mark, 0, 4 * (size_t)i);
    return n;
}

/* Of two rows the smaller goes up its path until they meet, row after row. */
uint32_t inner_common(const Fac *f, const uint32_t *rows, size_t r)
{
    uint32_t x = rows[0];
    for (size_t k = 1; k < r; k++)
        for (uint32_t y = rows[k]; x != y;) {
            if (x < y) { if (!(x = f->parent[x - 1])) return 0; }
            else if (!(y = f->parent[y - 1])) return 0;
        }
    return x;
}
