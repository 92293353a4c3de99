/* The second table: clock changes that move 1, 64 and 1,000 columns, forward and back again, plain C beside the library: on tables known to be sound, plain C's inner
   way beside the library's unchecked entry, run by bench_driver; and with everything checked first. */
#include "clock.h"
#include "measure.h"
#include "ours.h"
#include "workload.h"
#include <stdio.h>
#include <stdlib.h>

enum { M = 4096, CHECKS = 9, PUBLIC_CALLS = 40 };
enum { INNER, OUR_INNER, PUBLIC, OUR_PUBLIC, KINDS };
static uint16_t touched[M], labels[M];

/* a line: the columns that move from each minute to the next, and the last minute */
typedef struct { uint32_t moved, last; } Line;
static const Line lines[] = {{1, 200}, {64, 100}, {1000, 20}};

/* minutes 1 to the last, and back to 0 */
static uint32_t *there_and_back(uint32_t last)
{
    uint32_t *t = calloc(2 * (size_t)last, 4);
    for (uint32_t k = 0; k < last; k++) { t[k] = k + 1; t[2 * last - 1 - k] = k; }
    return t;
}

/* all changes by the inner way, a mean; the library's list of minutes begins with a check, whose time is taken off. Plain C's tables are read through before, too */
static void inner_pass(Fac *f, Fac *g, const uint32_t *minutes, size_t n, double *t)
{
    double s, check[CHECKS];
    if (host_check(f)) die("plain check");
    s = now(); for (size_t k = 0; k < n; k++) if (inner_set_clock(f, minutes[k], touched, labels).number) die("plain inner");
    t[INNER] = (now() - s) / n;
    for (int k = 0; k < CHECKS; k++) { s = now(); if (ours_clock(g, minutes, 0, touched, labels)) die("none"); check[k] = now() - s; }
    s = now(); if (ours_clock(g, minutes, n, touched, labels)) die("inner");
    t[OUR_INNER] = (now() - s - median(check, CHECKS)) / n;
    if (!same(f, g)) die("the factors differ");
}

/* public calls, medians over the first changes and as many of the last; the two libraries take turns */
static void public_pass(Fac *f, Fac *g, const uint32_t *minutes, size_t n, double *t, double *mean_touched, double *mean_entries)
{
    size_t half = n / 2 < PUBLIC_CALLS / 2 ? n / 2 : PUBLIC_CALLS / 2, calls = 2 * half;
    double *u = calloc(calls, sizeof *u), *v = calloc(calls, sizeof *v), s, nt = 0, ne = 0;
    for (size_t k = 0; k < calls; k++) {
        uint32_t minute = minutes[k < half ? k : n - calls + k];
        s = now(); Ans a = host_set_clock(f, minute, touched, labels); u[k] = now() - s;
        s = now(); Ans b = ours_set_clock(g, minute, touched, labels); v[k] = now() - s;
        if (a.number || b.number || a.touched != b.touched || a.entries != b.entries || a.grade != b.grade) die("the answers differ");
        nt += b.touched; ne += b.entries;
        if (k + 1 == half && !same(f, g)) die("the factors differ");
    }
    if (!same(f, g)) die("the factors differ");
    t[PUBLIC] = median(u, calls); t[OUR_PUBLIC] = median(v, calls); *mean_touched = nt / calls; *mean_entries = ne / calls;
    free(u); free(v);
}

static void line(int shape, const Line *l, uint64_t seed, size_t passes)
{
    Load w; Fac f, g;
    double *t[KINDS], one[KINDS], mid[KINDS], nt = 0, ne = 0;
    uint32_t *minutes = there_and_back(l->last); size_t n = 2 * (size_t)l->last;
    make_timed(&w, shape, M, l->moved, l->last, seed);
    fill_both(&w, w.nb, &f, &g);
    for (int k = 0; k < KINDS; k++) t[k] = calloc(passes, sizeof(double));
    for (size_t p = 0; p < passes; p++) {
        inner_pass(&f, &g, minutes, n, one); public_pass(&f, &g, minutes, n, one, &nt, &ne);
        for (int k = 0; k < KINDS; k++) t[k][p] = one[k];
    }
    for (int k = 0; k < KINDS; k++) { mid[k] = median(t[k], passes); free(t[k]); }
    printf("| %s | %u | %u | %u | %.0f | %.0f | %.1f | %.1f | **%.2f** | %.0f | %.0f | **%.2f** |\n", shape_name[shape], w.m, w.n, l->moved, nt, ne,
           mid[INNER], mid[OUR_INNER], mid[OUR_INNER] / mid[INNER], mid[PUBLIC], mid[OUR_PUBLIC], mid[OUR_PUBLIC] / mid[PUBLIC]);
    fflush(stdout); free(minutes); fac_free(&f); fac_free(&g); free_load(&w);
}

void clock_changes(uint64_t seed, size_t passes)
{
    printf("\n| shape | m | n | moved | touched | entries | plain inner | unchecked | ratio | plain public | public | ratio |\n|%s\n",
           "---|---|---|---|---|---|---|---|---|---|---|---|");
    for (int shape = 0; shape < 2; shape++)
        for (size_t z = 0; z < sizeof lines / sizeof *lines; z++) line(shape, &lines[z], seed, passes);
}
