/* The fourth table: reading all tables through, by checks and by public batches of one column, on the same tables in turn. */
#include "measure.h"
#include "reading.h"
#include "tables.h"
#include "workload.h"
#include <stdio.h>
#include <stdlib.h>

enum { CHECK, PUBLIC, KINDS };
enum { WAYS = 4, TURNS = 20, FEW_TURNS = 4, USED_NESTED = 20000, USED_BAND = 5000 };   /* turns a pass, fewer at the largest sizes; pairs of batches before */
static const char *const kind_name[] = {"check", "public"};
static uint16_t touched[4096], labels[4096];

const Way plain_way = {"plain ", host_check, host_add, host_remove};

/* a batch of one column on the last two rows, whose path is short, and one that removes it: microseconds a batch */
static double public_batches(const Way *way, Fac *f, Ans *added)
{
    uint32_t id = 1, count = 2, rows[] = {f->m - 1, f->m};
    while (id < f->n && f->bhead[id - 1]) id++;
    Lists x = {&id, &count, rows, no_windows, no_windows, 1, count};
    double s = now(); *added = way->add(f, &x, touched, labels);
    Ans removed = way->remove(f, &id, 1, touched, labels); s = now() - s;
    if (added->number || removed.number) die("a batch of one column");
    return s / 2;
}

/* tables with one next that leads back to its own record are refused: the first record of a free chain, if there is one, and one amid all records */
static void refuses(const Way *way, Fac *f)
{
    uint32_t *next[] = {f->fnext, f->fnext, f->bnext, f->bnext}, at[] = {f->ffree, f->F / 2, f->bfree, f->C / 2};
    for (int k = 0; k < 4; k++) {
        if (!at[k]) continue;
        uint32_t *x = &next[k][at[k] - 1], was = *x;
        *x = at[k];
        if (way->check(f) != 6) die("damaged tables are not refused");
        *x = was;
    }
}

/* the median of the ratios of each turn: whatever else the machine does in a turn slows both */
static double ratio(const double *t, const double *u, size_t turns)
{
    double *x = calloc(turns, sizeof *x), mid;
    for (size_t p = 0; p < turns; p++) x[p] = t[p] / u[p];
    mid = median(x, turns); free(x);
    return mid;
}

/* a row of the table; the ways take turns, another one first each time */
static void line(const char *name, Fac *f, const Way *ways, size_t n, size_t turns)
{
    double *t[KINDS][WAYS], of[WAYS], s; Ans first, a;
    for (int k = 0; k < KINDS; k++) for (size_t v = 0; v < n; v++) t[k][v] = calloc(turns, sizeof(double));
    for (size_t v = 0; v < n; v++) refuses(&ways[v], f);
    public_batches(&ways[0], f, &first);
    for (size_t p = 0; p < turns; p++)
        for (size_t q = 0; q < n; q++) {
            size_t v = (p + q) % n;
            s = now(); if (ways[v].check(f)) die("sound tables are refused");
            t[CHECK][v][p] = now() - s;
            t[PUBLIC][v][p] = public_batches(&ways[v], f, &a);
            if (a.touched != first.touched || a.entries != first.entries || a.grade != first.grade) die("the answers differ");
        }
    printf("| %s |", name);
    for (int k = 0; k < KINDS; k++) {
        for (size_t v = 1; v < n; v++) of[v] = ratio(t[k][0], t[k][v], turns);
        for (size_t v = 1; v <= n; v++) printf(" %.0f |", median(t[k][v % n], turns));
        for (size_t v = 1; v < n; v++) printf(" **%.2f** |", of[v]);
        for (size_t v = 0; v < n; v++) free(t[k][v]);
    }
    printf("\n"); fflush(stdout);
}

/* the tables as they are, then scrambled */
static void lines(const char *name, Fac *f, const Way *ways, size_t n, size_t turns, uint64_t seed)
{
    char scattered[64]; snprintf(scattered, sizeof scattered, "%s, scrambled", name);
    line(name, f, ways, n, turns);
    scramble(f, seed);
    line(scattered, f, ways, n, turns);
    fac_free(f);
}

static void head(const Way *ways, size_t n)
{
    printf("\n| tables |");
    for (int k = 0; k < KINDS; k++) {
        for (size_t v = 1; v <= n; v++) printf(" %s%s |", ways[v % n].name, kind_name[k]);
        for (size_t v = 1; v < n; v++) if (n == 2) printf(" ratio |"); else printf(" to %s|", ways[v].name);
    }
    printf("\n|---|");
    for (size_t v = 0; v < KINDS * (2 * n - 1); v++) printf("---|");
    printf("\n");
}

void reading(const Way *ways, size_t n, uint64_t seed, size_t passes)
{
    Fac f; size_t many = TURNS * passes, few = FEW_TURNS * passes;
    head(ways, n);
    fresh_tables(&f, 0); lines("fresh", &f, ways, n, many, seed);
    for (int shape = 0; shape < 2; shape++) { loaded_tables(&f, shape, 100, seed, 0); lines(shape_name[shape], &f, ways, n, many, seed); }
    loaded_tables(&f, NESTED, USED_NESTED, seed, 0); lines("nested, used", &f, ways, n, many, seed);
    loaded_tables(&f, BAND, USED_BAND, seed, 0); lines("band, used", &f, ways, n, many, seed);
    fresh_tables(&f, 1); lines("fresh *", &f, ways, n, few, seed);
    loaded_tables(&f, NESTED, 100, seed, 1); lines("nested *", &f, ways, n, few, seed);
    loaded_tables(&f, NESTED, USED_NESTED, seed, 1); lines("nested *, used", &f, ways, n, few, seed);
    dense_tables(&f, seed); lines("dense *", &f, ways, n, few, seed);
}
