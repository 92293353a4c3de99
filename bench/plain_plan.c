/* Plain, unverified C: the plan of a batch, made, written and cleared again, as plain_plan.h has it. */
#include "plain_plan.h"
#include <stdlib.h>
#include <string.h>

/* ---------------------------------------------------------------------------------------------
   the inner way. Work places (32 bits each):
     8m      a node of 8 places for each row: delta, label, newpar, planat, childh, childn, losth, lostn
     1024    bitmap of delta rows (128), bitmap of columns still to come (128), rest spare
     plan    two places an entry: record it hangs on; kind, row, multiplicity
   --------------------------------------------------------------------------------------------- */
#define KIND_CHANGED 0u         /* p0: the record itself                                */
#define KIND_NEW     1u         /* p0: the old record it follows                        */
#define KIND_GONE    2u         /* p0: the record that is kept before it                */
#define PACK(kind, row, mult) ((kind) << 30 | (uint32_t)(row) << 16 | (uint32_t)(mult))
#define P_KIND(x) ((x) >> 30)
#define P_ROW(x)  ((x) >> 16 & 0x3fff)
#define P_MULT(x) ((x) & 0xffff)

Work carve(Fac *f)
{
    Work w; uint32_t *p = f->work, m = f->m;
    w.dbits = (uint64_t *)p; w.cbits = (uint64_t *)(p + 256); p += 1024;
    w.node = (Node *)p;
    w.plan = p + 8 * m; w.used = 0;
    w.before = w.after = NULL;
    return w;
}

static inline void bump(Work *w, uint32_t row, uint32_t by)
{ w->node[row - 1].delta += by; w->dbits[row >> 6] |= 1ull << (row & 63); }

static inline uint32_t bit_from(const uint64_t *b, uint32_t row, uint32_t top)
{   /* smallest set row >= row, or top + 1 */
    uint32_t k = row >> 6, last = top >> 6;
    if (k > last) return top + 1;
    uint64_t x = b[k] & (~0ull << (row & 63));
    while (x == 0) { if (++k > last) return top + 1; x = b[k]; }
    return (k << 6) + (uint32_t)__builtin_ctzll(x);
}

/* one chain: delta[i] += by for each row above its own diagonal, from row j on (a child that a removal gives a new
   parent j has lost all its rows between itself and j) */
static inline void bump_chain(Fac *f, Work *w, uint32_t c, uint32_t j, uint32_t by)
{
    for (uint32_t k = f->fnext[f->fhead[c - 1] - 1]; k; k = f->fnext[k - 1])
    { uint32_t row = f->frow[k - 1]; if (row >= j) bump(w, row, by); }
}

/* merge column j's chain with the delta rows: plan entries, the larger of its sizes before and after, first row above j after; both sizes are gathered where that
   is asked for, the one before only the first time */
static uint32_t merge(Fac *f, Work *w, uint32_t j, uint32_t top, uint32_t *par, uint32_t *fresh)
{
    uint32_t size = 0, keep = 0, rec = f->fhead[j - 1], d = bit_from(w->dbits, j, top), first = 0, made = 0, gone = 0;
    uint32_t row = f->frow[rec - 1];
    w->node[j - 1].planat = (uint32_t)w->used; w->used += 1;           /* first place: the number of entries */
    size_t start = w->used;
    for (;;) {
        if (d <= top && (rec == 0 || d < row)) {                  /* a delta row that is not in the chain */
            uint32_t x = w->node[d - 1].delta;
            if (x) { w->plan[w->used++] = keep; w->plan[w->used++] = PACK(KIND_NEW, d, x); size++; made++; if (!first && d > j) first = d; }
            w->node[d - 1].delta = 0; w->dbits[d >> 6] &= ~(1ull << (d & 63)); d = bit_from(w->dbits, d, top);
            continue;
        }
        if (rec == 0) break;
        if (d == row) {
            uint32_t x = w->node[d - 1].delta + f->fmult[rec - 1];
            if (x == 0) { w->plan[w->used++] = keep; w->plan[w->used++] = PACK(KIND_GONE, d, 0); gone++; }
            else {
                if (w->node[d - 1].delta) { w->plan[w->used++] = rec; w->plan[w->used++] = PACK(KIND_CHANGED, d, x); }
                keep = rec; size++; if (!first && row > j) first = row;
            }
            w->node[d - 1].delta = 0; w->dbits[d >> 6] &= ~(1ull << (d & 63)); d = bit_from(w->dbits, d, top);
        } else { keep = rec; size++; if (!first && row > j) first = row; }
        rec = f->fnext[rec - 1]; row = rec ? f->frow[rec - 1] : 0;
    }
    w->plan[start - 1] = (uint32_t)(w->used - start) / 2;
    *par = first; *fresh += made;
    uint32_t before = size - made + gone;
    if (w->before) { if (!w->before[j - 1]) w->before[j - 1] = (uint16_t)before; w->after[j - 1] = (uint16_t)size; }
    return before > size ? before : size;
}

static void plan_each(Work *w, uint32_t c, uint32_t j, uint32_t kind, uint32_t by)
{
    uint32_t at = w->node[c - 1].planat, n = w->plan[at];
    for (uint32_t k = 0; k < n; k++) {
        uint32_t e = w->plan[at + 2 + 2 * k];
        if (P_KIND(e) == kind && P_ROW(e) >= j) bump(w, P_ROW(e), by);
    }
}

static int cmp_pair(const void *a, const void *b)
{ uint64_t x = *(const uint64_t *)a, y = *(const uint64_t *)b; return x < y ? -1 : x > y; }

uint32_t plan_batch(Fac *f, Work *w, const Group *x, uint32_t *entries, uint16_t *touched, uint16_t *labels)
{
    uint64_t start[64];
    uint32_t r = 0, s = 0, nt = 0, top = f->m, adding = x->adding, by = adding ? 1u : (uint32_t)-1, room = 0, fresh = 0;
    uint32_t avail = f->ffree;
    *entries = 0;
    for (uint32_t k = 0; k < x->r; k++) {
        uint32_t low = x->low[k];
        if (!low) continue;
        start[r++] = (uint64_t)low << 8 | k;
        w->cbits[low >> 6] |= 1ull << (low & 63);
    }
    qsort(start, r, sizeof *start, cmp_pair);
    for (uint32_t j = bit_from(w->cbits, 1, top); j <= top; j = bit_from(w->cbits, j, top)) {
        w->cbits[j >> 6] &= ~(1ull << (j & 63));
        uint32_t label = 0, par;
        while (s < r && start[s] >> 8 == j) {                                   /* A: columns that start here */
            uint32_t k = start[s] & 255; s++;
            if (k + 1 > label) label = k + 1;
            if (x->rows) for (uint32_t q = 0; q < x->counts[k]; q++) bump(w, x->rows[k][q], by);
            else for (uint32_t q = f->bhead[x->ids[k] - 1]; q; q = f->bnext[q - 1]) bump(w, f->brow[q - 1], by);
        }
        for (uint32_t c = w->node[j - 1].childh; c; c = w->node[c - 1].childn) {          /* touched children on the walked tree */
            if (w->node[c - 1].label > label) label = w->node[c - 1].label;
            uint32_t other = adding ? f->parent[c - 1] : w->node[c - 1].newpar;
            if (other == j) {
                plan_each(w, c, j, adding ? KIND_NEW : KIND_GONE, by);                        /* B */
            }
            else {                                                                            /* C */
                bump_chain(f, w, c, j, by);
                if (adding) plan_each(w, c, j, KIND_NEW, 1);
                if (other) { w->node[c - 1].lostn = w->node[other - 1].losth; w->node[other - 1].losth = c; }
            }
        }
        for (uint32_t c = w->node[j - 1].losth; c; c = w->node[c - 1].lostn) {                          /* D */
            bump_chain(f, w, c, j, (uint32_t)-by);
            if (!adding) plan_each(w, c, j, KIND_GONE, (uint32_t)-1);
        }
        uint32_t before = fresh;
        *entries += merge(f, w, j, top, &par, &fresh);
        for (uint32_t q = before; q < fresh; q++) { if (!avail) { room = 1; break; } avail = f->fnext[avail - 1]; }
        w->node[j - 1].newpar = par; w->node[j - 1].label = label;
        touched[nt] = (uint16_t)j; labels[nt] = (uint16_t)label; nt++;
        uint32_t up = adding ? par : f->parent[j - 1];
        if (up) { w->node[j - 1].childn = w->node[up - 1].childh; w->node[up - 1].childh = j; w->cbits[up >> 6] |= 1ull << (up & 63); }
        if (room) { memset(w->cbits, 0, 1024); return f->m + 1 + nt; }
    }
    return nt;
}

void write_plan(Fac *f, Work *w, const uint16_t *touched, uint32_t nt)
{
    for (uint32_t q = 0; q < nt; q++) {
        uint32_t j = touched[q], at = w->node[j - 1].planat, n = w->plan[at], last_of = 0, last = 0;
        for (uint32_t k = 0; k < n; k++) {
            uint32_t p = w->plan[at + 1 + 2 * k], e = w->plan[at + 2 + 2 * k];
            switch (P_KIND(e)) {
            case KIND_CHANGED: f->fmult[p - 1] = (uint16_t)P_MULT(e); break;
            case KIND_NEW: {
                uint32_t k2 = f->ffree, after = p == last_of ? last : p;
                f->ffree = f->fnext[k2 - 1];
                f->frow[k2 - 1] = (uint16_t)P_ROW(e); f->fmult[k2 - 1] = (uint16_t)P_MULT(e);
                f->fnext[k2 - 1] = f->fnext[after - 1]; f->fnext[after - 1] = k2;
                last_of = p; last = k2; break; }
            default: {
                uint32_t k2 = f->fnext[p - 1];
                f->fnext[p - 1] = f->fnext[k2 - 1];
                f->frow[k2 - 1] = 0; f->fmult[k2 - 1] = 0; 
                { f->fnext[k2 - 1] = f->ffree; f->ffree = k2; } }
            }
        }
        f->parent[j - 1] = (uint16_t)w->node[j - 1].newpar;
    }
}

void clear_plan(Work *w, const uint16_t *touched, uint32_t nt)
{
    for (uint32_t q = 0; q < nt; q++) {
        uint32_t j = touched[q] - 1u;
        w->node[j].label = w->node[j].planat = w->node[j].childh = w->node[j].childn = w->node[j].losth = w->node[j].lostn = 0;
        uint32_t p = w->node[j].newpar; w->node[j].newpar = 0;
        if (p) w->node[p - 1].childh = w->node[p - 1].losth = 0;
    }
    memset(w->plan, 0, 4 * w->used);
}

/* children hang on the old parents here: clear those before the parents are written over */
void write_plan_out(Fac *f, Work *w, const uint16_t *touched, uint32_t nt)
{
    for (uint32_t q = 0; q < nt; q++) if (f->parent[touched[q] - 1]) w->node[f->parent[touched[q] - 1] - 1].childh = 0;
    write_plan(f, w, touched, nt);
}

/* lost and child queues above the stop */
void unplan(Fac *f, Work *w, const uint16_t *touched, uint32_t nt)
{
    for (uint32_t q = 0; q < nt; q++) if (f->parent[touched[q] - 1]) w->node[f->parent[touched[q] - 1] - 1].losth = 0;
    clear_plan(w, touched, nt);
}
