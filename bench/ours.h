/* The proved library over the tables of plain.h. */
#ifndef OURS_H
#define OURS_H
#include "nigvalds.h"
#include "plain.h"
#include "reading.h"
#include "workload.h"

/* ---- crates/bench_driver: each begins with a check, which may refuse it, and then uses the unchecked entries */

typedef struct { uint32_t number, done; nigvalds_factor factor; } Ran;
typedef struct { uint32_t number, done; uint64_t sum; } Asked; /* how many questions were asked, and the sum of what they answered */

/* the batches of the plan, in order; all columns always count */
Ran bench_run_batches(nigvalds_factor factor, NIGVALDS_CHANGED_TABLES, uint16_t *touched, size_t touched_length, uint16_t *labels, size_t labels_length,
                      const uint32_t *plan, size_t plan_length, const uint32_t *ids, size_t ids_length, const uint32_t *row_counts,
                      size_t row_counts_length, const uint32_t *row_list, size_t row_list_length);
/* the clock set to each of the minutes, in order */
Ran bench_clock(nigvalds_factor factor, NIGVALDS_CLOCKED_TABLES, uint16_t *touched, size_t touched_length, uint16_t *labels, size_t labels_length,
                const uint32_t *minutes, size_t minutes_length);
/* the columns that meet each row of row_list, from place 0 of list on */
Asked bench_meets(nigvalds_factor factor, NIGVALDS_READ_TABLES, uint32_t *list, size_t list_length, const uint32_t *row_list, size_t row_list_length);
/* the common row of each r rows of row_list, one group after another */
Asked bench_common(nigvalds_factor factor, NIGVALDS_READ_TABLES, const uint32_t *row_list, size_t row_list_length, size_t r);
/* the next row of each pair of row_list, row then column: the sum is of rows and multiplicities */
Asked bench_next(nigvalds_factor factor, NIGVALDS_READ_TABLES, const uint32_t *row_list, size_t row_list_length);

/* ---- the tables of plain.h as the library takes them */

#define TABLES(f)                                                                                                                                   \
    (f)->fhead, (f)->m, (f)->parent, (f)->m, (f)->frow, (f)->F, (f)->fmult, (f)->F, (f)->fnext, (f)->F, (f)->bhead, (f)->n, (f)->brow, (f)->C,      \
        (f)->bnext, (f)->C, (f)->windows, 2 * (size_t)(f)->n, (f)->work, work_places((f)->m, (f)->n, (f)->F, (f)->C)
#define REPORT(f) touched, (f)->m, labels, (f)->m

static inline nigvalds_factor record(const Fac *f)
{ nigvalds_factor r = {f->m, f->n, f->F, f->C, f->ffree, f->bfree, f->grade2, f->grade3, f->grade4, f->clock}; return r; }

static inline void keep(Fac *f, nigvalds_factor r) { f->ffree = r.free; f->bfree = r.book_free; f->clock = r.clock; }

/* ---- the public entries (ours.c) */

extern const Way ours_way;
/* batch b */
Ans ours_public(Fac *f, const Flat *x, size_t b, uint16_t *touched, uint16_t *labels);
/* adds columns; sets the clock */
Ans ours_add(Fac *f, const Lists *x, uint16_t *touched, uint16_t *labels);
Ans ours_set_clock(Fac *f, uint32_t minute, uint16_t *touched, uint16_t *labels);
/* 0 when sound, or the number */
uint32_t ours_check(Fac *f);
/* the columns that meet row i: how many, or 0 where it is refused */
uint32_t ours_meets(Fac *f, uint32_t i, uint32_t *list, size_t places);
/* the first row at or above i in column j */
nigvalds_found ours_next(Fac *f, uint32_t i, uint32_t j);
/* two new factors with the first batches of a workload, which add: f by plain C's inner way, g by the library; the work tables are zero afterwards */
void fill_both(const Load *w, size_t batches, Fac *f, Fac *g);

/* ---- the unchecked entries (unchecked.c) */

/* a list of batches: the number that refused one, or 0 */
uint32_t ours_run(Fac *f, const Flat *x, uint16_t *touched, uint16_t *labels);
/* a list of minutes likewise */
uint32_t ours_clock(Fac *f, const uint32_t *minutes, size_t n, uint16_t *touched, uint16_t *labels);
/* questions: the columns that meet each of n rows; the common rows of n rows, r at a time; the next rows of n numbers, row then column */
Asked ours_meets_all(Fac *f, const uint32_t *rows, size_t n, uint32_t *list, size_t places);
Asked ours_common_all(Fac *f, const uint32_t *rows, size_t n, size_t r);
Asked ours_next_all(Fac *f, const uint32_t *pairs, size_t n);
#endif
