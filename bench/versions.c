/* Two archives of the library, and plain C, on the same tables in turn: the table of reading.c. old_way is ours_way of ours.c, linked with the other archive.
   usage: versions [seed [passes]] */
#include "ours.h"
#include "reading.h"
#include <stdlib.h>

extern const Way old_way;

int main(int argc, char **argv)
{
    uint64_t seed = argc > 1 ? (uint64_t)atoll(argv[1]) : 1; size_t passes = argc > 2 ? (size_t)atoll(argv[2]) : 5;
    Way ways[] = {ours_way, plain_way, old_way};
    ways[2].name = "old ";
    reading(ways, 3, seed, passes);
    return 0;
}
