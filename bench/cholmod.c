/* What a host would use instead, on the same batches: CHOLMOD's symbolic analysis from nothing after each batch (natural order, patterns formed), and its
   numeric update of an LDL' factor, whose pattern never shrinks. Median microseconds a batch, as Markdown.
   usage: cholmod [seed] */
#include "workload.h"
#include <cholmod.h>
#include <stdio.h>
#include <stdlib.h>
#include <time.h>

typedef struct { cholmod_common c; cholmod_sparse *A; } Cm;
static const char *shape_name[] = {"nested", "band"};

/* processor time in microseconds: other programs on the machine do not count */
static double now(void) { struct timespec t; clock_gettime(CLOCK_PROCESS_CPUTIME_ID, &t); return 1e6 * t.tv_sec + 1e-3 * t.tv_nsec; }
static int rising(const void *a, const void *b) { double x = *(const double *)a, y = *(const double *)b; return x < y ? -1 : x > y; }
static double median(double *t, size_t n) { qsort(t, n, sizeof *t, rising); return t[n / 2]; }

/* A with a slot of MOST_ROWS_A_COLUMN places for each id, none filled */
static void start(Cm *x, const Load *w, int super, int xtype)
{
    cholmod_start(&x->c);
    x->c.nmethods = 1; x->c.method[0].ordering = CHOLMOD_NATURAL; x->c.postorder = 0;
    x->c.supernodal = super ? CHOLMOD_SUPERNODAL : CHOLMOD_SIMPLICIAL;
    for (int k = 0; k < 3; k++) { x->c.nrelax[k] = 0; x->c.zrelax[k] = 0; }
    x->c.final_ll = 0; x->c.final_super = 0; x->c.final_pack = 0; x->c.final_monotonic = 1; x->c.maxrank = 8;
    x->A = cholmod_allocate_sparse(w->m, w->n, (size_t)w->n * MOST_ROWS_A_COLUMN, 1, 0, 0, xtype, &x->c);
    int *p = x->A->p, *nz = x->A->nz;
    for (uint32_t k = 0; k <= w->n; k++) p[k] = (int)(k * MOST_ROWS_A_COLUMN);
    for (uint32_t k = 0; k < w->n; k++) nz[k] = 0;
}

static void apply(Cm *x, const Batch *b)
{
    int *p = x->A->p, *nz = x->A->nz, *ai = x->A->i; double *ax = x->A->x;
    for (uint32_t k = 0; k < b->r; k++) {
        const Col *c = &b->col[k]; int s = p[c->id - 1];
        nz[c->id - 1] = b->adding ? (int)c->count : 0;
        for (uint32_t q = 0; b->adding && q < c->count; q++) {
            ai[s + (int)q] = (int)c->row[q] - 1;
            if (x->A->xtype == CHOLMOD_REAL) ax[s + (int)q] = 1.0;
        }
    }
}

static void finish(Cm *x) { cholmod_free_sparse(&x->A, &x->c); cholmod_finish(&x->c); }

static double analysis(const Load *w, uint32_t n, double *t)
{
    Cm x; start(&x, w, 1, CHOLMOD_PATTERN);
    for (uint32_t k = 0; k < w->fill; k++) apply(&x, &w->b[k]);
    for (uint32_t k = 0; k < n; k++) {
        double s = now(); apply(&x, &w->b[w->fill + k]);
        cholmod_factor *L = cholmod_analyze(x.A, &x.c); t[k] = now() - s;
        cholmod_free_factor(&L, &x.c);
    }
    finish(&x);
    return median(t, n);
}

static double update(const Load *w, uint32_t n, double *t)
{
    Cm x; start(&x, w, 0, CHOLMOD_REAL); double beta[2] = {1, 0};
    for (uint32_t k = 0; k < w->fill; k++) apply(&x, &w->b[k]);
    cholmod_factor *L = cholmod_analyze(x.A, &x.c);
    cholmod_factorize_p(x.A, beta, NULL, 0, L, &x.c);
    cholmod_change_factor(CHOLMOD_REAL, 0, 0, 0, 1, L, &x.c);
    for (uint32_t k = 0; k < n; k++) {
        const Batch *b = &w->b[w->fill + k]; double s = now();
        cholmod_sparse *C = cholmod_allocate_sparse(w->m, b->r, (size_t)b->r * MOST_ROWS_A_COLUMN, 1, 1, 0, CHOLMOD_REAL, &x.c);
        int *p = C->p, *ci = C->i, at = 0; double *cx = C->x;
        for (uint32_t q = 0; q < b->r; q++) {
            p[q] = at;
            for (uint32_t z = 0; z < b->col[q].count; z++) { ci[at] = (int)b->col[q].row[z] - 1; cx[at++] = 1.0; }
        }
        p[b->r] = at;
        if (!cholmod_updown(b->adding, C, L, &x.c)) { printf("FAIL: updown\n"); exit(1); }
        cholmod_free_sparse(&C, &x.c); t[k] = now() - s;
    }
    cholmod_free_factor(&L, &x.c); finish(&x);
    return median(t, n);
}

int main(int argc, char **argv)
{
    uint64_t seed = argc > 1 ? (uint64_t)atoll(argv[1]) : 1;
    static const uint32_t ms[] = {1024, 4096}, rs[] = {1, 8, 64}; static double t[200];
    printf("| shape | m | r | CHOLMOD analysis | CHOLMOD numeric update |\n|---|---|---|---|---|\n");
    for (int shape = 0; shape < 2; shape++) for (int q = 0; q < 2; q++) for (int z = 0; z < 3; z++) {
        Load w; make_load(&w, shape, ms[q], rs[z], 100, seed, 0);
        double a = analysis(&w, 100, t), b = update(&w, 200, t);
        printf("| %s | %u | %u | %.0f | %.1f |\n", shape_name[shape], ms[q], rs[z], a, b); fflush(stdout);
        free_load(&w);
    }
    return 0;
}
