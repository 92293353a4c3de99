/* A host of Nigvalds that grows: it keeps its columns, and where one is refused by 15 or 16 it opens larger tables and adds all of them again. */
#include <inttypes.h>
#include <stdio.h>
#include <stdlib.h>

#include "nigvalds.h"

enum { M = 6, N = 8, MOST = 3 };

/* A column as the host keeps it: its rows and its window, 0 and 0 for none. The id is its place, from 1. */
typedef struct line {
    uint32_t count, rows[MOST], first, second;
} line;

static const line lines[] = {
    {2, {1, 3}, 0, 0}, {2, {1, 4}, 0, 600}, {2, {2, 3}, 480, 720}, {3, {2, 4, 6}, 0, 0}, {3, {1, 5, 6}, 600, 720}, {2, {2, 5}, 600, 720},
};

/* A factor in a block of its own. */
typedef struct host {
    void *memory;
    nigvalds_tables tables;
    nigvalds_factor factor;
} host;

static nigvalds_changed add(host *h, uint32_t id) {
    const line *l = &lines[id - 1];
    nigvalds_changed a = nigvalds_add_in_with_windows(&h->tables, h->factor, &id, 1, &l->count, 1, l->rows, l->count, &l->first, 1, &l->second, 1);
    h->factor = a.factor;
    return a;
}

/* Opens tables of these sizes, at this minute. The clock is set before columns come, so that just those count that counted before. */
static uint32_t open_at(host *h, uint32_t f, uint32_t c, uint32_t minute) {
    h->memory = malloc(nigvalds_bytes(M, N, f, c));
    h->tables = nigvalds_lay_out(h->memory, M, N, f, c);
    nigvalds_opened o = nigvalds_open_in(&h->tables, M, N, f, c);
    h->factor = nigvalds_set_clock_in(&h->tables, o.factor, minute).factor;
    return o.number;
}

/* Moves to tables with larger F and C: opens them, adds the columns that are booked, 1 to last, and gives the old ones back. What refuses it leaves them. */
static uint32_t move(host *h, uint32_t f, uint32_t c, uint32_t last) {
    host larger;
    uint32_t number = open_at(&larger, f, c, h->factor.clock);
    for (uint32_t id = 1; number == NIGVALDS_ACCEPTED && id <= last; id++) {
        number = add(&larger, id).number;
    }
    if (number == NIGVALDS_ACCEPTED) {
        free(h->memory);
        *h = larger;
    } else {
        free(larger.memory);
    }
    return number;
}

/* Grows as a refusal asks for: twice the book records after 15, twice the factor records after 16. Other refusals stay. */
static uint32_t grow(host *h, uint32_t number, uint32_t last) {
    const uint32_t f = number == NIGVALDS_FACTOR_FULL ? 2 * h->factor.f : h->factor.f;
    const uint32_t c = number == NIGVALDS_BOOK_FULL ? 2 * h->factor.c : h->factor.c;
    if (f == h->factor.f && c == h->factor.c) {
        return number;
    }
    printf("%s: F %" PRIu32 " to %" PRIu32 ", C %" PRIu32 " to %" PRIu32 "\n", nigvalds_refusal_text(number), h->factor.f, f, h->factor.c, c);
    return move(h, f, c, last);
}

/* Every column: j, parent, then row:multiplicity pairs. */
static void show(const host *h) {
    for (uint32_t j = 1; j <= h->factor.m; j++) {
        printf("  %" PRIu32 " %u", j, (unsigned)h->tables.parents[j - 1]);
        for (nigvalds_entry e = nigvalds_read_in(&h->tables, h->tables.heads[j - 1]); e.row != 0; e = nigvalds_read_in(&h->tables, e.next)) {
            printf(" %" PRIu32 ":%" PRIu32, e.row, e.multiplicity);
        }
        printf("\n");
    }
}

int main(void) {
    const uint32_t booked = sizeof lines / sizeof lines[0];
    host h;
    uint32_t number = open_at(&h, 8, 4, 500);
    for (uint32_t id = 1; number == NIGVALDS_ACCEPTED && id <= booked; id++) {
        while ((number = add(&h, id).number) != NIGVALDS_ACCEPTED && (number = grow(&h, number, id - 1)) == NIGVALDS_ACCEPTED) {
        }
        printf("column %" PRIu32 ": %s\n", id, nigvalds_refusal_text(number));
    }
    show(&h);
    nigvalds_changed a;
    while ((a = nigvalds_set_clock_in(&h.tables, h.factor, 600)).number != NIGVALDS_ACCEPTED && grow(&h, a.number, booked) == NIGVALDS_ACCEPTED) {
    }
    h.factor = a.factor;
    printf("clock to 600: %s, touched %" PRIu32 "\n", nigvalds_refusal_text(a.number), a.touched);
    show(&h);
    free(h.memory);
    return 0;
}
