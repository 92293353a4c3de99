/* The third table: questions on tables known to be sound, plain C's inner way beside the library's unchecked entries, run by bench_driver. */
#include "measure.h"
#include "ours.h"
#include "questions.h"
#include "workload.h"
#include <stdio.h>
#include <stdlib.h>
#include <string.h>

enum { M = 4096, NAMED = 64 * 4096, CHECKS = 9, APART = 79 };    /* NAMED: numbers of all questions of a line together, whatever each takes */
enum { MEETS, COMMON, NEXT };
static uint32_t list[M], other[M], named[NAMED];

/* a line: its question, the rows that the table shows, and the numbers that each question takes. MEETS asks about every row once, the others about random
   ones, NEXT about pairs, row then column */
typedef struct { const char *name; int kind; uint32_t rows, size; } Line;
static const Line lines[] = {{"meets", MEETS, 1, 1}, {"common", COMMON, 2, 2}, {"common", COMMON, 8, 8}, {"common", COMMON, 64, 64}, {"next", NEXT, 1, 2}};

/* what one way of asking gave: the sum of its values, how many rows or columns were found, microseconds in all */
typedef struct { uint64_t sum; double found, time; } Run;

/* every row's columns by the public entry are plain C's, from place 0 on, with nothing written beyond */
static void compare_lists(Fac *f, Fac *g)
{
    for (uint32_t i = 1; i <= M; i++) {
        memset(list, 0xff, sizeof list); memset(other, 0xff, sizeof other);
        uint32_t n = inner_meets(f, i, list);
        if (ours_meets(g, i, other, M) != n || memcmp(list, other, sizeof list)) die("the columns that meet a row differ");
    }
}

/* the next rows by the public entry are plain C's, along columns that lie APART: from row 1 on, then from one above each row given */
static void compare_walks(const Fac *f, Fac *g)
{
    for (uint32_t j = 1; j <= M; j += APART)
        for (uint32_t i = 1; i && i <= M;) {
            Next x = inner_next(f, i, j); nigvalds_found y = ours_next(g, i, j);
            if (y.number || x.row != y.row || x.multiplicity != y.multiplicity) die("the next rows differ");
            i = x.row ? x.row + 1 : 0;
        }
}

static Run plain_meets(Fac *f)
{
    Run a = {0, 0, now()};
    for (uint32_t i = 1; i <= M; i++) a.sum += inner_meets(f, i, list);
    a.time = now() - a.time; a.found = (double)a.sum;
    return a;
}

static Run plain_common(const Fac *f, uint32_t r, size_t n)
{
    uint64_t found = 0;
    Run a = {0, 0, now()};
    for (size_t k = 0; k < n; k++) { uint32_t x = inner_common(f, named + r * k, r); a.sum += x; found += x != 0; }
    a.time = now() - a.time; a.found = (double)found;
    return a;
}

static Run plain_next(const Fac *f, size_t n)
{
    Run a = {0, 0, now()};
    for (size_t k = 0; k < n; k++) { Next x = inner_next(f, named[2 * k], named[2 * k + 1]); a.sum += x.row + x.multiplicity; }
    a.time = now() - a.time;
    for (size_t k = 0; k < n; k++) a.found += inner_next(f, named[2 * k], named[2 * k + 1]).row != 0;
    return a;
}

/* so many questions by plain C, its tables read through before as the library's are */
static Run plain(Fac *f, const Line *l, size_t n)
{
    if (host_check(f)) die("plain check");
    return l->kind == MEETS ? plain_meets(f) : l->kind == COMMON ? plain_common(f, l->size, n) : plain_next(f, n);
}

/* the same by the unchecked entries in one call, which begins with a check */
static Run ours(Fac *g, const Line *l, size_t n)
{
    Run a = {0, 0, now()};
    Asked x = l->kind == MEETS    ? ours_meets_all(g, named, n, other, M)
              : l->kind == COMMON ? ours_common_all(g, named, l->size * n, l->size)
                                  : ours_next_all(g, named, 2 * n);
    a.time = now() - a.time; a.sum = x.sum;
    if (x.number || x.done != n) die("questions");
    return a;
}

static void line(const Load *w, Fac *f, Fac *g, const Line *l, size_t passes)
{
    size_t n = l->kind == MEETS ? M : NAMED / l->size;
    double *t = calloc(passes, sizeof *t), *u = calloc(passes, sizeof *u), check[CHECKS], found = 0;
    for (size_t k = 0; k < l->size * n; k++) named[k] = l->kind == MEETS ? k + 1 : 1 + below(M);
    for (size_t p = 0; p < passes; p++) {
        Run a = plain(f, l, n);
        for (int k = 0; k < CHECKS; k++) check[k] = ours(g, l, 0).time;
        Run b = ours(g, l, n);
        if (a.sum != b.sum) die("the answers differ");
        t[p] = a.time / n; u[p] = (b.time - median(check, CHECKS)) / n; found = a.found / n;
    }
    double inner = median(t, passes), unchecked = median(u, passes);
    printf("| %s | %u | %s | %u | %.2f | %.4f | %.4f | **%.2f** |\n", shape_name[w->shape], w->m, l->name, l->rows, found, inner, unchecked, unchecked / inner);
    fflush(stdout); free(t); free(u);
}

void questions(uint64_t seed, size_t passes)
{
    printf("\n| shape | m | question | rows | found | plain inner | unchecked | ratio |\n|---|---|---|---|---|---|---|---|\n");
    for (int shape = 0; shape < 2; shape++) {
        Load w; Fac f, g;
        make_load(&w, shape, M, 1, 1, seed, 0);
        fill_both(&w, w.fill, &f, &g);
        compare_lists(&f, &g); compare_walks(&f, &g);
        for (size_t z = 0; z < sizeof lines / sizeof *lines; z++) line(&w, &f, &g, &lines[z], passes);
        fac_free(&f); fac_free(&g); free_load(&w);
    }
}
