/* The stack that a call takes: each kind of call is made on a thread whose stack was filled with a pattern, and what is no longer the pattern is counted, less what
   a thread takes that makes no call. Prints the most bytes over a run of batches, clock changes and questions, refused ones among them. */
#define _GNU_SOURCE
#include <pthread.h>
#include <stdio.h>
#include <stdlib.h>
#include <string.h>

#include "nigvalds.h"

enum { M = 512, N = 2048, F = 8 * M, C = 16384, STACK = 1 << 18, PATTERN = 0xa5, COLUMNS = 64 };

NIGVALDS_STATIC_TABLES(tables, M, N, F, C);

enum kind { NOTHING, OPEN, ADD, REMOVE, SET_CLOCK, CHECK, NEXT_ROW, PARENT, PATH, COLUMN, MEETS, COMMON, READ, KINDS };
static const char *const names[KINDS] = {"nothing", "open", "add", "remove", "set_clock", "check", "next_row", "parent", "path", "column", "meets", "common", "read"};

static nigvalds_factor factor;
static uint32_t ids[COLUMNS], counts[COLUMNS], rows[4 * COLUMNS], firsts[COLUMNS], seconds[COLUMNS], list[2 * M], minute, asked;
static enum kind kind;

static void *call(void *unused) {
    switch (kind) {
    case NOTHING: break;
    case OPEN: factor = nigvalds_open_in(&tables, M, N, F, C).factor; break;
    case ADD: factor = nigvalds_add_in_with_windows(&tables, factor, ids, COLUMNS, counts, COLUMNS, rows, 4 * COLUMNS, firsts, COLUMNS, seconds, COLUMNS).factor; break;
    case REMOVE: factor = nigvalds_remove_in(&tables, factor, ids, COLUMNS).factor; break;
    case SET_CLOCK: factor = nigvalds_set_clock_in(&tables, factor, minute).factor; break;
    case CHECK: nigvalds_check_in(&tables, factor); break;
    case NEXT_ROW: nigvalds_next_row_in(&tables, factor, asked, asked); break;
    case PARENT: nigvalds_parent_in(&tables, factor, asked); break;
    case PATH: nigvalds_path_in(&tables, factor, list, 2 * M, asked, 0); break;
    case COLUMN: nigvalds_column_in(&tables, factor, list, 2 * M, asked, 0); break;
    case MEETS: nigvalds_meets_in(&tables, factor, list, 2 * M, asked, 0); break;
    case COMMON: nigvalds_common_in(&tables, factor, rows, 4); break;
    case READ: nigvalds_read_in(&tables, asked); break;
    default: break;
    }
    return unused;
}

/* The bytes of stack that one call writes, with those of the thread around it. */
static size_t taken(enum kind which) {
    static unsigned char *stack = NULL;
    pthread_t thread;
    pthread_attr_t attributes;
    size_t kept = 0;
    if (stack == NULL && posix_memalign((void **)&stack, 4096, STACK) != 0) exit(1);
    memset(stack, PATTERN, STACK);
    kind = which;
    if (pthread_attr_init(&attributes) || pthread_attr_setstack(&attributes, stack, STACK) || pthread_create(&thread, &attributes, call, NULL)) exit(1);
    pthread_join(thread, NULL);
    while (kept < STACK && stack[kept] == PATTERN) kept++;
    return STACK - kept;
}

int main(void) {
    size_t most[KINDS] = {0};
    uint32_t seed = 1;
    kind = OPEN, call(NULL), kind = CHECK, call(NULL); /* what the C library binds late is bound now */
    for (int turn = 0; turn < 200; turn++) {
        for (uint32_t k = 0; k < COLUMNS; k++) {
            ids[k] = (uint32_t)(turn % 32) * COLUMNS + k + 1;
            counts[k] = 4;
            seed = seed * 1664525u + 1013904223u;
            for (uint32_t i = 0; i < 4; i++) rows[4 * k + i] = 1 + (seed >> 7 * i) % (M / 4) + i * (M / 4);
            firsts[k] = seed >> 30 == 0 ? 0 : seed >> 28;
            seconds[k] = seed >> 30 == 0 ? 0 : (seed >> 28) + 4;
        }
        asked = 1 + seed % M, minute = seed >> 27;
        for (int which = 0; which < KINDS; which++) {
            if ((which == OPEN && turn % 64 != 0) || (which == REMOVE && turn % 5 != 0)) continue;
            size_t bytes = taken((enum kind)which);
            if (bytes > most[which]) most[which] = bytes;
        }
    }
    for (int which = 1; which < KINDS; which++) printf("%s: %zu bytes\n", names[which], most[which] > most[NOTHING] ? most[which] - most[NOTHING] : 0);
    return 0;
}
