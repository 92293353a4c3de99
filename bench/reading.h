/* The fourth table of the benchmark: the read-through, on tables of several kinds. */
#ifndef READING_H
#define READING_H
#include "plain.h"

/* a way to make public calls on the tables of plain.h: the number of a check, a batch that adds, a batch that removes */
typedef struct {
    const char *name;                       /* before the names of its columns; nothing for the library's */
    uint32_t (*check)(Fac *f);
    Ans (*add)(Fac *f, const Lists *x, uint16_t *touched, uint16_t *labels);
    Ans (*remove)(Fac *f, const uint32_t *ids, uint32_t r, uint16_t *touched, uint16_t *labels);
} Way;

extern const Way plain_way;

/* the first of n ways beside each of the others */
void reading(const Way *ways, size_t n, uint64_t seed, size_t passes);
#endif
