/* The unchecked entries of the proved library over the tables of plain.h, by the crate bench_driver. */
#include "ours.h"

uint32_t ours_run(Fac *f, const Flat *x, uint16_t *touched, uint16_t *labels)
{
    Ran a = bench_run_batches(record(f), TABLES(f), REPORT(f), x->plan, 6 * x->batches, x->ids, x->n_ids, x->counts, x->n_counts, x->rows, x->n_rows);
    keep(f, a.factor);
    return a.number;
}

uint32_t ours_clock(Fac *f, const uint32_t *minutes, size_t n, uint16_t *touched, uint16_t *labels)
{
    Ran a = bench_clock(record(f), TABLES(f), REPORT(f), minutes, n);
    keep(f, a.factor);
    return a.number;
}

Asked ours_meets_all(Fac *f, const uint32_t *rows, size_t n, uint32_t *list, size_t places)
{ return bench_meets(record(f), TABLES(f), list, places, rows, n); }

Asked ours_common_all(Fac *f, const uint32_t *rows, size_t n, size_t r) { return bench_common(record(f), TABLES(f), rows, n, r); }

Asked ours_next_all(Fac *f, const uint32_t *pairs, size_t n) { return bench_next(record(f), TABLES(f), pairs, n); }
