/* What the tables of the benchmark share: time, medians, the lists of a batch, and whether two factors are the same. */
#ifndef MEASURE_H
#define MEASURE_H
#include "plain.h"
#include "workload.h"

extern const char *const shape_name[];

double now(void);                            /* processor time in microseconds: other programs on the machine do not count */
double median(double *t, size_t n);
void   die(const char *why);
Lists  lists_of(const Flat *x, size_t b);    /* batch b, which adds */
int    same(const Fac *a, const Fac *b);     /* the same columns, parents and entries */
#endif
