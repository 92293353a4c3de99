/* The tables of tables.h. */
#include "measure.h"
#include "tables.h"
#include "workload.h"
#include <stdlib.h>
#include <string.h>

enum { M = 4096, R = 8, MOST = 40, APART = 25 };
static uint16_t touched[M], labels[M];

static void opened(Fac *f, const Load *w) { fac_alloc(f, w->m, w->n, w->F, w->C); fac_open(f, w->m, w->n, w->F, w->C); }

void fresh_tables(Fac *f, int largest)
{
    Load w; make_load(&w, NESTED, M, 1, 0, 1, largest);
    opened(f, &w); free_load(&w);
}

void loaded_tables(Fac *f, int shape, uint32_t pairs, uint64_t seed, int largest)
{
    Load w; make_load(&w, shape, M, R, pairs, seed, largest);
    Flat x = flatten(&w, 0, w.nb);
    opened(f, &w);
    for (size_t b = 0; b < x.batches; b++) {
        Lists y = lists_of(&x, b);
        Ans a = x.plan[6 * b] ? inner_add(f, &y, touched, labels) : inner_remove(f, y.ids, y.r, touched, labels);
        if (a.number) die("a batch of the tables");
    }
    free_flat(&x); free_load(&w);
}

void dense_tables(Fac *f, uint64_t seed)
{
    uint32_t rows[MOST], number = 0;
    fresh_tables(f, 1); seed_below(seed);
    for (uint32_t id = 1; id < f->n && !number; id++) {
        uint32_t k = 0, row = 1 + below(M);
        while (row <= M && k < MOST) { rows[k++] = row; row += 1 + below(APART); }
        Lists x = {&id, &k, rows, no_windows, no_windows, 1, k};
        number = inner_add(f, &x, touched, labels).number;
    }
    if (number != 16) die("the columns of the dense tables");
}

/* 0 to N, but 0 in its place, in random order */
static uint32_t *shuffled(uint32_t N)
{
    uint32_t *p = malloc(4 * ((size_t)N + 1));
    for (uint32_t k = 0; k <= N; k++) p[k] = k;
    for (uint32_t k = N; k > 1; k--) { uint32_t q = 1 + below(k), t = p[k]; p[k] = p[q]; p[q] = t; }
    return p;
}

static void move16(uint16_t *t, const uint32_t *to, uint32_t N)
{
    uint16_t *was = malloc(2 * (size_t)N); memcpy(was, t, 2 * (size_t)N);
    for (uint32_t k = 0; k < N; k++) t[to[k + 1] - 1] = was[k];
    free(was);
}

/* record k becomes record to[k], in a pool of N records: its next, and the heads of the chains */
static void renumber(uint32_t *next, const uint32_t *to, uint32_t N, uint32_t *heads, uint32_t n, uint32_t *free_head)
{
    uint32_t *was = malloc(4 * (size_t)N); memcpy(was, next, 4 * (size_t)N);
    for (uint32_t k = 0; k < N; k++) next[to[k + 1] - 1] = to[was[k]];
    for (uint32_t k = 0; k < n; k++) heads[k] = to[heads[k]];
    *free_head = to[*free_head];
    free(was);
}

void scramble(Fac *f, uint64_t seed)
{
    seed_below(seed);
    uint32_t *factor = shuffled(f->F), *book = shuffled(f->C);
    renumber(f->fnext, factor, f->F, f->fhead, f->m, &f->ffree); move16(f->frow, factor, f->F); move16(f->fmult, factor, f->F);
    renumber(f->bnext, book, f->C, f->bhead, f->n, &f->bfree); move16(f->brow, book, f->C);
    free(factor); free(book);
}
