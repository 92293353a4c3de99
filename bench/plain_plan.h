/* The plan of a batch: what batches and clock changes of plain C share. */
#ifndef PLAIN_PLAN_H
#define PLAIN_PLAN_H
#include "plain.h"

typedef struct { uint32_t delta, label, newpar, planat, childh, childn, losth, lostn; } Node;  /* one line of cache a column */
typedef struct {
    Node *node;
    uint64_t *dbits, *cbits;
    uint32_t *plan; size_t used;
    uint16_t *before, *after;                   /* where the touched columns' sizes are gathered, or none */
} Work;

/* r columns that enter or leave together, at most 64: their smallest rows by position, 0 for one that has no path; their rows by position, or those of the book where there are none */
typedef struct {
    uint32_t adding, r;
    const uint32_t *ids, *low;
    const uint32_t *const *rows, *counts;
} Group;

Work carve(Fac *f);

/* plan: adding walks the tree after, removing the tree before. Returns the number of touched columns, or m + 1 and theirs so far when it does not fit. */
uint32_t plan_batch(Fac *f, Work *w, const Group *x, uint32_t *entries, uint16_t *touched, uint16_t *labels);
/* one that adds, one that removes; then it is cleared */
void write_plan(Fac *f, Work *w, const uint16_t *touched, uint32_t nt);
void write_plan_out(Fac *f, Work *w, const uint16_t *touched, uint32_t nt);
void clear_plan(Work *w, const uint16_t *touched, uint32_t nt);
/* clears one that does not fit */
void unplan(Fac *f, Work *w, const uint16_t *touched, uint32_t nt);

/* what a clock change keeps (plain_clock.c) */
void keep_alloc(Kept *k, uint32_t m, uint32_t n, uint32_t F);
void keep_free(Kept *k);
#endif
