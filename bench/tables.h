/* Tables to read through, all built by plain C's inner way. */
#ifndef TABLES_H
#define TABLES_H
#include "plain.h"

/* allocated, fresh; at the largest sizes, or at those of the workloads with m 4,096 */
void fresh_tables(Fac *f, int largest);
/* the live columns of a workload with m 4,096, then so many pairs of batches of 8 columns that leave and enter */
void loaded_tables(Fac *f, int shape, uint32_t pairs, uint64_t seed, int largest);
/* the largest sizes, with random columns until the next does not fit: nearly all records are in columns of L */
void dense_tables(Fac *f, uint64_t seed);
/* numbers all records anew, at random, in the factor and in the book: every chain keeps its order and lies scattered */
void scramble(Fac *f, uint64_t seed);
#endif
