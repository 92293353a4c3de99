/* The third table of the benchmark. */
#ifndef QUESTIONS_H
#define QUESTIONS_H
#include <stddef.h>
#include <stdint.h>

void questions(uint64_t seed, size_t passes);
#endif
