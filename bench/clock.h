/* The second table of the benchmark. */
#ifndef CLOCK_H
#define CLOCK_H
#include <stddef.h>
#include <stdint.h>

void clock_changes(uint64_t seed, size_t passes);
#endif
