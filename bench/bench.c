/* The proved library beside plain C of the same algorithm, on the same batches in one run: microseconds a call, and ratios. Prints Markdown.
     inner   a batch on tables known to be sound: plain C's inner way; the library's unchecked entries, run by bench_driver
     check   reading all tables through
     public  a batch with all input checked first
   A second table has clock changes (clock.c), a third questions (questions.c), a fourth the read-through of tables of several kinds (reading.c).
   usage: bench [seed [passes]] */
#include "clock.h"
#include "measure.h"
#include "ours.h"
#include "plain.h"
#include "questions.h"
#include "reading.h"
#include "workload.h"
#include <stdio.h>
#include <stdlib.h>

enum { INNER, OUR_INNER, CHECK, OUR_CHECK, PUBLIC, OUR_PUBLIC, KINDS };
static uint16_t touched[4096], labels[4096];

static Ans plain_batch(Fac *f, const Flat *x, size_t b, int public)
{
    Lists y = lists_of(x, b);
    if (x->plan[6 * b]) return (public ? host_add : inner_add)(f, &y, touched, labels);
    return (public ? host_remove : inner_remove)(f, y.ids, y.r, touched, labels);
}

/* all measured batches by the inner way, a mean; the library's list of batches begins with a check, whose time is taken off */
static void inner_pass(const Load *w, double *t)
{
    Flat fill = flatten(w, 0, w->fill), x = flatten(w, w->fill, w->nb), none = x;
    Fac f, g; double s, check[9]; none.batches = none.n_ids = none.n_counts = none.n_rows = 0;
    fac_alloc(&f, w->m, w->n, w->F, w->C); fac_alloc(&g, w->m, w->n, w->F, w->C);
    fac_open(&f, w->m, w->n, w->F, w->C); fac_open(&g, w->m, w->n, w->F, w->C);
    for (size_t b = 0; b < fill.batches; b++) if (plain_batch(&f, &fill, b, 0).number) die("plain fill");
    if (ours_run(&g, &fill, touched, labels)) die("fill");
    s = now(); for (size_t b = 0; b < x.batches; b++) if (plain_batch(&f, &x, b, 0).number) die("plain inner");
    t[INNER] = (now() - s) / x.batches;
    s = now(); if (ours_run(&g, &x, touched, labels)) die("inner");
    t[OUR_INNER] = now() - s;
    for (int k = 0; k < 9; k++) { s = now(); if (ours_run(&g, &none, touched, labels)) die("none"); check[k] = now() - s; }
    t[OUR_INNER] = (t[OUR_INNER] - median(check, 9)) / x.batches;
    if (!same(&f, &g)) die("the factors differ");
    fac_free(&f); fac_free(&g); free_flat(&fill); free_flat(&x);
}

/* check and public calls, medians over the first batches; the two libraries take turns */
static void public_pass(const Load *w, double *t, double *mean_touched, double *mean_entries)
{
    Flat fill = flatten(w, 0, w->fill), x = flatten(w, w->fill, w->nb);
    size_t n = x.batches < 120 ? x.batches : 120; double *u[KINDS], s, nt = 0, ne = 0;
    for (int k = CHECK; k < KINDS; k++) u[k] = calloc(n, sizeof(double));
    Fac f, g;
    fac_alloc(&f, w->m, w->n, w->F, w->C); fac_alloc(&g, w->m, w->n, w->F, w->C);
    fac_open(&f, w->m, w->n, w->F, w->C); fac_open(&g, w->m, w->n, w->F, w->C);
    for (size_t b = 0; b < fill.batches; b++) plain_batch(&f, &fill, b, 0);
    if (ours_run(&g, &fill, touched, labels)) die("fill");
    for (size_t b = 0; b < n; b++) {
        s = now(); Ans a = plain_batch(&f, &x, b, 1); u[PUBLIC][b] = now() - s;
        s = now(); Ans c = ours_public(&g, &x, b, touched, labels); u[OUR_PUBLIC][b] = now() - s;
        if (a.number || c.number || a.touched != c.touched || a.entries != c.entries || a.grade != c.grade) die("the answers differ");
        s = now(); if (host_check(&f)) die("plain check");
        u[CHECK][b] = now() - s;
        s = now(); if (ours_check(&g)) die("check");
        u[OUR_CHECK][b] = now() - s;
        nt += c.touched; ne += c.entries;
    }
    if (!same(&f, &g)) die("the factors differ");
    *mean_touched = nt / n; *mean_entries = ne / n;
    for (int k = CHECK; k < KINDS; k++) { t[k] = median(u[k], n); free(u[k]); }
    fac_free(&f); fac_free(&g); free_flat(&fill); free_flat(&x);
}

static void row(int shape, uint32_t m, uint32_t r, uint32_t pairs, uint64_t seed, size_t passes, int largest)
{
    Load w; make_load(&w, shape, m, r, pairs, seed, largest);
    double *t[KINDS], one[KINDS], mid[KINDS], nt = 0, ne = 0;
    for (int k = 0; k < KINDS; k++) t[k] = calloc(passes, sizeof(double));
    for (size_t p = 0; p < passes; p++) {
        inner_pass(&w, one); public_pass(&w, one, &nt, &ne);
        for (int k = 0; k < KINDS; k++) t[k][p] = one[k];
    }
    for (int k = 0; k < KINDS; k++) { mid[k] = median(t[k], passes); free(t[k]); }
    printf("| %s%s | %u | %u | %.0f | %.0f | %.1f | %.1f | **%.2f** | %.0f | %.0f | **%.2f** | %.0f | %.0f | **%.2f** |\n", shape_name[shape], largest ? " *" : "", m, r, nt, ne,
           mid[INNER], mid[OUR_INNER], mid[OUR_INNER] / mid[INNER], mid[CHECK], mid[OUR_CHECK], mid[OUR_CHECK] / mid[CHECK],
           mid[PUBLIC], mid[OUR_PUBLIC], mid[OUR_PUBLIC] / mid[PUBLIC]);
    fflush(stdout); free_load(&w);
}

int main(int argc, char **argv)
{
    uint64_t seed = argc > 1 ? (uint64_t)atoll(argv[1]) : 1; size_t passes = argc > 2 ? (size_t)atoll(argv[2]) : 5;
    static const uint32_t ms[] = {1024, 4096}, rs[] = {1, 8, 64}, pairs[2][3] = {{2500, 500, 120}, {250, 150, 80}};
    printf("| shape | m | r | touched | entries | plain inner | unchecked | ratio | plain check | check | ratio | plain public | public | ratio |\n|%s\n",
           "---|---|---|---|---|---|---|---|---|---|---|---|---|---|");
    for (int shape = 0; shape < 2; shape++) for (int q = 0; q < 2; q++) for (int z = 0; z < 3; z++) row(shape, ms[q], rs[z], pairs[shape][z], seed, passes, 0);
    for (int z = 0; z < 3; z++) row(NESTED, 4096, rs[z], pairs[NESTED][z], seed, passes, 1);
    clock_changes(seed, passes);
    questions(seed, passes);
    const Way ways[] = {ours_way, plain_way};
    reading(ways, 2, seed, passes);
    return 0;
}
