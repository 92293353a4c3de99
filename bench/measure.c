/* Time, medians and comparison, as measure.h has them. */
#include "measure.h"
#include <stdio.h>
#include <stdlib.h>
#include <time.h>

const char *const shape_name[] = {"nested", "band"};

double now(void) { struct timespec t; clock_gettime(CLOCK_PROCESS_CPUTIME_ID, &t); return 1e6 * t.tv_sec + 1e-3 * t.tv_nsec; }
void die(const char *why) { printf("FAIL: %s\n", why); exit(1); }

static int rising(const void *a, const void *b) { double x = *(const double *)a, y = *(const double *)b; return x < y ? -1 : x > y; }
double median(double *t, size_t n) { qsort(t, n, sizeof *t, rising); return t[n / 2]; }

Lists lists_of(const Flat *x, size_t b)
{
    const uint32_t *p = x->plan + 6 * b;
    Lists y = {x->ids + p[1], x->counts + p[3], x->rows + p[4], x->firsts + p[1], x->seconds + p[1], p[2] - p[1], p[5] - p[4]};
    return y;
}

int same(const Fac *a, const Fac *b)
{
    for (uint32_t j = 0; j < a->m; j++) {
        uint32_t p = a->fhead[j], q = b->fhead[j];
        for (; p && q; p = a->fnext[p - 1], q = b->fnext[q - 1])
            if (a->frow[p - 1] != b->frow[q - 1] || a->fmult[p - 1] != b->fmult[q - 1]) return 0;
        if (p || q || a->parent[j] != b->parent[j]) return 0;
    }
    return 1;
}
