/* Plain, unverified C: the inner way of a clock change. */
#include "plain_plan.h"
#include <stdlib.h>
#include <string.h>

enum { MOST = 64 };                              /* columns of a group */

void keep_alloc(Kept *k, uint32_t m, uint32_t n, uint32_t F)
{
    k->next = calloc(F, 4); k->ids = calloc(n, 4); k->row = calloc(F, 2); k->mult = calloc(F, 2);
    k->parent = calloc(m, 2); k->before = calloc(m, 2); k->after = calloc(m, 2);
}

void keep_free(Kept *k) { free(k->next); free(k->ids); free(k->row); free(k->mult); free(k->parent); free(k->before); free(k->after); }

static void save(Fac *f)
{
    Kept *k = &f->kept; size_t F = f->F;
    memcpy(k->next, f->fnext, 4 * F); memcpy(k->row, f->frow, 2 * F); memcpy(k->mult, f->fmult, 2 * F); memcpy(k->parent, f->parent, 2 * (size_t)f->m);
}

static void restore(Fac *f)
{
    Kept *k = &f->kept; size_t F = f->F;
    memcpy(f->fnext, k->next, 4 * F); memcpy(f->frow, k->row, 2 * F); memcpy(f->fmult, k->mult, 2 * F); memcpy(f->parent, k->parent, 2 * (size_t)f->m);
}

/* At most 64 booked columns leave or enter. Whether they fit. */
static int move_group(Fac *f, uint32_t adding, const uint32_t *ids, uint32_t r)
{
    uint16_t touched[4096], labels[4096]; uint32_t low[MOST], entries, nt;
    Work w = carve(f);
    w.before = f->kept.before; w.after = f->kept.after;
    for (uint32_t k = 0; k < r; k++) low[k] = f->brow[f->bhead[ids[k] - 1] - 1];
    Group x = {adding, r, ids, low, NULL, NULL};
    nt = plan_batch(f, &w, &x, &entries, touched, labels);
    if (nt > f->m) { unplan(f, &w, touched, nt - f->m - 1); return 0; }
    (adding ? write_plan : write_plan_out)(f, &w, touched, nt);
    clear_plan(&w, touched, nt);
    return 1;
}

/* Who moves, by rising id: those that leave in the first places, those that enter from the given place on. */
typedef struct { uint32_t leave, enter, from; } Moving;

static Moving find(Fac *f, uint32_t minute)
{
    uint32_t n = f->n, *ids = f->kept.ids, leave = 0, enter = 0;
    for (uint32_t id = 1; id <= n; id++) {
        if (!f->bhead[id - 1]) continue;
        int was = counts_at(f, id, f->clock), is = counts_at(f, id, minute);
        if (was == is) continue;
        if (was) ids[leave++] = id;
        else ids[n - ++enter] = id;
    }
    for (uint32_t a = n - enter, b = n; a + 1 < b; a++) { uint32_t t = ids[a]; ids[a] = ids[--b]; ids[b] = t; }
    Moving x = {leave, enter, n - enter};
    return x;
}

Ans inner_set_clock(Fac *f, uint32_t minute, uint16_t *touched, uint16_t *labels)
{
    Ans a = {0, 0, 0, 0, 0};
    uint32_t *ids = f->kept.ids, free_head = f->ffree, nt = 0, fits = 1;
    uint16_t *before = f->kept.before, *after = f->kept.after;
    Moving x = find(f, minute);
    if (x.leave + x.enter) {
        memset(before, 0, 2 * (size_t)f->m);
        if (x.enter) save(f);
        for (uint32_t k = 0; k < x.leave; k += MOST) move_group(f, 0, ids + k, x.leave - k < MOST ? x.leave - k : MOST);
        for (uint32_t k = 0; k < x.enter && fits; k += MOST) fits = move_group(f, 1, ids + x.from + k, x.enter - k < MOST ? x.enter - k : MOST);
        if (!fits) { restore(f); f->ffree = free_head; a.number = 16; return a; }
        for (uint32_t j = 0; j < f->m; j++) {
            if (!before[j]) continue;
            touched[nt] = (uint16_t)(j + 1); labels[nt++] = 0;
            a.entries += before[j] > after[j] ? before[j] : after[j];
        }
    }
    f->clock = minute; a.touched = nt; a.grade = grade_of(f, a.entries);
    return a;
}
