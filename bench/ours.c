/* The public entries of the proved library over the tables of plain.h, by the host interface; plain C and the library filled alike. */
#include "measure.h"
#include "ours.h"
#include <stdlib.h>

static Ans answer(Fac *f, nigvalds_changed a)
{ Ans y = {a.number, a.position, a.touched, a.entries, a.grade}; keep(f, a.factor); return y; }

Ans ours_add(Fac *f, const Lists *x, uint16_t *touched, uint16_t *labels)
{
    return answer(f, nigvalds_add(record(f), TABLES(f), REPORT(f), x->ids, x->r, x->counts, x->r, x->rows, x->nrows, x->firsts, x->r, x->seconds, x->r));
}

static Ans ours_remove(Fac *f, const uint32_t *ids, uint32_t r, uint16_t *touched, uint16_t *labels)
{ return answer(f, nigvalds_remove(record(f), TABLES(f), REPORT(f), ids, r)); }

Ans ours_public(Fac *f, const Flat *x, size_t b, uint16_t *touched, uint16_t *labels)
{
    Lists y = lists_of(x, b);
    return x->plan[6 * b] ? ours_add(f, &y, touched, labels) : ours_remove(f, y.ids, y.r, touched, labels);
}

Ans ours_set_clock(Fac *f, uint32_t minute, uint16_t *touched, uint16_t *labels)
{ return answer(f, nigvalds_set_clock(record(f), TABLES(f), REPORT(f), minute)); }

uint32_t ours_check(Fac *f) { return nigvalds_check(record(f), TABLES(f)).number; }

uint32_t ours_meets(Fac *f, uint32_t i, uint32_t *list, size_t places) { return nigvalds_meets(record(f), TABLES(f), list, places, i, 0).value; }

nigvalds_found ours_next(Fac *f, uint32_t i, uint32_t j) { return nigvalds_next_row(record(f), TABLES(f), i, j); }

void fill_both(const Load *w, size_t batches, Fac *f, Fac *g)
{
    uint16_t *touched = calloc(w->m, 2), *labels = calloc(w->m, 2);
    Flat x = flatten(w, 0, batches);
    fac_alloc(f, w->m, w->n, w->F, w->C); fac_alloc(g, w->m, w->n, w->F, w->C);
    fac_open(f, w->m, w->n, w->F, w->C); fac_open(g, w->m, w->n, w->F, w->C);
    for (size_t b = 0; b < x.batches; b++) {
        Lists y = lists_of(&x, b);
        if (inner_add(f, &y, touched, labels).number) die("plain fill");
        if (ours_add(g, &y, touched, labels).number) die("fill");
    }
    if (!same(f, g)) die("the factors differ");
    free_flat(&x); free(touched); free(labels);
}

const Way ours_way = {"", ours_check, ours_add, ours_remove};
