/* A host of Nigvalds: opens a factor, adds and removes columns, asks, reads columns, is refused, opens anew with limits of its own and with F = 0, and sets the clock
   over columns with windows. */
#include <inttypes.h>
#include <stdio.h>

#include "nigvalds.h"

enum { M = 5, N = 8, F = 9, C = 16 };

NIGVALDS_STATIC_TABLES(tables, M, N, F, C);
NIGVALDS_STATIC_TABLES(fewer, M, N, 16u * M, C);
NIGVALDS_STATIC_TABLES(enough, M, N, NIGVALDS_DEFAULT_RECORDS(M), C);

/* Every column as the listing program shows it: j, parent, then row:multiplicity pairs. */
static void show(nigvalds_factor factor) {
    for (uint32_t j = 1; j <= factor.m; j++) {
        printf("%" PRIu32 " %u", j, (unsigned)tables.parents[j - 1]);
        nigvalds_entry e = nigvalds_read_in(&tables, tables.heads[j - 1]);
        for (; e.row != 0; e = nigvalds_read_in(&tables, e.next)) {
            printf(" %" PRIu32 ":%" PRIu32, e.row, e.multiplicity);
        }
        printf("\n");
    }
}

/* What a batch or a clock change answers: its numbers and the touched columns with their labels, or the refusal. */
static void report(const char *what, nigvalds_changed a) {
    if (a.number != NIGVALDS_ACCEPTED) {
        printf("%s: no %" PRIu32 " %" PRIu32 ", %s\n", what, a.number, a.position, nigvalds_refusal_text(a.number));
        return;
    }
    printf("%s: ok %" PRIu32 " %" PRIu32 " %" PRIu32 ", touched", what, a.touched, a.entries, a.grade);
    for (uint32_t k = 0; k < a.touched; k++) {
        printf(" %u:%u", (unsigned)tables.touched[k], (unsigned)tables.labels[k]);
    }
    printf("\n");
}

/* The path of column j, from the second place of a list on. */
static void path(nigvalds_factor factor, uint32_t j) {
    uint32_t list[M + 1] = {99};
    nigvalds_reply p = nigvalds_path_in(&tables, factor, list, M + 1, j, 1);
    printf("path of %" PRIu32 ":", j);
    for (uint32_t k = 1; k <= p.value; k++) {
        printf(" %" PRIu32, list[k]);
    }
    printf(", first place still %" PRIu32 "\n", list[0]);
}

/* The columns that meet row i, in a list of so many places. */
static void meets(nigvalds_factor factor, uint32_t i, size_t places) {
    uint32_t list[M];
    nigvalds_reply r = nigvalds_meets_in(&tables, factor, list, places, i, 0);
    printf("columns that meet %" PRIu32 ":", i);
    for (uint32_t k = 0; k < r.value; k++) {
        printf(" %" PRIu32, list[k]);
    }
    if (r.number != NIGVALDS_ACCEPTED) {
        printf(" no %" PRIu32 ", %s", r.number, nigvalds_refusal_text(r.number));
    }
    printf("\n");
}

/* The smallest row on the paths of some rows. */
static void common(nigvalds_factor factor, const uint32_t *rows, size_t count) {
    nigvalds_reply r = nigvalds_common_in(&tables, factor, rows, count);
    printf("common row of");
    for (size_t k = 0; k < count; k++) {
        printf(" %" PRIu32, rows[k]);
    }
    if (r.number != NIGVALDS_ACCEPTED) {
        printf(": no %" PRIu32 ", %s\n", r.number, nigvalds_refusal_text(r.number));
        return;
    }
    printf(": %" PRIu32 "\n", r.value);
}

/* Both, and what refuses them. */
static void meet(nigvalds_factor factor) {
    const uint32_t rows[] = {1, 2, 4, 5, 6};
    meets(factor, 4, M);
    meets(factor, 3, 3);
    meets(factor, 3, 2);
    meets(factor, 6, 0);
    common(factor, rows, 1);
    common(factor, rows, 2);
    common(factor, rows, 3);
    common(factor, rows, 4);
    common(factor, rows, 5);
    common(factor, rows, 0);
}

/* The first row at or above i in column j, with its multiplicity. */
static void next_row(nigvalds_factor factor, uint32_t i, uint32_t j) {
    nigvalds_found x = nigvalds_next_row_in(&tables, factor, i, j);
    printf("next row from %" PRIu32 " in %" PRIu32 ":", i, j);
    if (x.number != NIGVALDS_ACCEPTED) {
        printf(" no %" PRIu32 ", %s\n", x.number, nigvalds_refusal_text(x.number));
        return;
    }
    printf(" %" PRIu32 ":%" PRIu32 "\n", x.row, x.multiplicity);
}

/* Column j from row to row. The reader, as in show, gives the same for less. */
static void walk(nigvalds_factor factor, uint32_t j) {
    printf("column %" PRIu32 " from row to row:", j);
    nigvalds_found x = nigvalds_next_row_in(&tables, factor, 1, j);
    while (x.row != 0) {
        printf(" %" PRIu32 ":%" PRIu32, x.row, x.multiplicity);
        if (x.row == factor.m) {
            break;
        }
        x = nigvalds_next_row_in(&tables, factor, x.row + 1, j);
    }
    if (x.number != NIGVALDS_ACCEPTED) {
        printf(" no %" PRIu32 ", %s", x.number, nigvalds_refusal_text(x.number));
    }
    printf("\n");
}

/* Rows of column 1: one that stands, one that is absent and gets the next, one after the last, one outside; then all of them, and those of a column outside. */
static void follow(nigvalds_factor factor) {
    next_row(factor, 3, 1);
    next_row(factor, 2, 1);
    next_row(factor, 5, 1);
    next_row(factor, 6, 1);
    walk(factor, 1);
    walk(factor, 6);
}

/* Numbers that questions answer. */
static void ask(nigvalds_factor factor) {
    uint32_t list[4];
    nigvalds_reply r = nigvalds_parent_in(&tables, factor, 2);
    printf("parent of 2: %" PRIu32 "\n", r.value);
    r = nigvalds_parent_in(&tables, factor, 6);
    printf("parent of 6: no %" PRIu32 ", %s\n", r.number, nigvalds_refusal_text(r.number));
    r = nigvalds_column_in(&tables, factor, list, 4, 1, 0);
    printf("column 1 in a list of 4: no %" PRIu32 ", %s\n", r.number, nigvalds_refusal_text(r.number));
    r = nigvalds_column_in(&tables, factor, list, 4, 2, 0);
    printf("column 2: %" PRIu32 " entries, %" PRIu32 ":%" PRIu32 " %" PRIu32 ":%" PRIu32 "\n", r.value, list[0], list[1], list[2], list[3]);
}

/* Opens with limits, the first entries of grades 2, 3 and 4, and adds a batch. */
static void grade(uint32_t grade2, uint32_t grade3, uint32_t grade4, const uint32_t *ids, const uint32_t *counts, const uint32_t *rows) {
    printf("open with limits %" PRIu32 " %" PRIu32 " %" PRIu32 ": ", grade2, grade3, grade4);
    nigvalds_opened o = nigvalds_open_in_with_limits(&tables, M, N, F, C, grade2, grade3, grade4);
    if (o.number != NIGVALDS_ACCEPTED) {
        printf("no %" PRIu32 ", %s\n", o.number, nigvalds_refusal_text(o.number));
        return;
    }
    nigvalds_changed a = nigvalds_add_in(&tables, o.factor, ids, 3, counts, 3, rows, 6);
    printf("%" PRIu32 " entries have grade %" PRIu32 "\n", a.entries, a.grade);
}

/* Opens with some F in other tables. */
static void open_other(const nigvalds_tables *t, uint32_t f) {
    nigvalds_opened o = nigvalds_open_in(t, M, N, f, C);
    printf("open with F = %" PRIu32 " in tables for %zu: ", f, t->rows_length);
    if (o.number != NIGVALDS_ACCEPTED) {
        printf("no %" PRIu32 ", %s\n", o.number, nigvalds_refusal_text(o.number));
        return;
    }
    printf("%" PRIu32 " records\n", o.factor.f);
}

/* Sets the clock and says what came of it; the record after it. */
static nigvalds_factor set_clock(nigvalds_factor factor, uint32_t minute) {
    char what[32];
    snprintf(what, sizeof what, "clock to %" PRIu32, minute);
    nigvalds_changed a = nigvalds_set_clock_in(&tables, factor, minute);
    report(what, a);
    return a.factor;
}

/* Columns with windows: {1, 3} always, {1, 4} from minute 480 up to 720, {2, 3} up to 600, {1, 2, 3, 4, 5} from 600 up to 601, at which it does not fit. Then
   minutes that are refused, and a table of windows that something else has written. */
static void windows(void) {
    const uint32_t ids[] = {1, 2, 3, 4}, counts[] = {2, 2, 2, 5}, rows[] = {1, 3, 1, 4, 2, 3, 1, 2, 3, 4, 5};
    const uint32_t firsts[] = {0, 480, 0, 600}, seconds[] = {0, 720, 600, 601}, equal[] = {7};
    nigvalds_factor factor = nigvalds_open_in(&tables, M, N, F, C).factor;
    nigvalds_changed a = nigvalds_add_in_with_windows(&tables, factor, ids, 4, counts, 4, rows, 11, firsts, 4, seconds, 4);
    report("add 1 2 3 4 with windows", a);
    factor = set_clock(a.factor, 479);
    factor = set_clock(factor, 480);
    show(factor);
    factor = set_clock(factor, 600);
    factor = set_clock(factor, 601);
    show(factor);
    printf("clock: %" PRIu32 ", check: %" PRIu32 "\n", factor.clock, nigvalds_check_in(&tables, factor).number);
    report("add 2 again", nigvalds_add_in(&tables, factor, ids + 1, 1, counts, 1, rows, 2));
    a = nigvalds_remove_in(&tables, factor, ids + 2, 2);
    report("remove 3 4", a);
    factor = a.factor;
    const uint32_t id[] = {5};
    report("add 5 from 7 to 7", nigvalds_add_in_with_windows(&tables, factor, id, 1, counts, 1, rows, 2, equal, 1, equal, 1));
    report("add 5 without minutes", nigvalds_add_in_with_windows(&tables, factor, id, 1, counts, 1, rows, 2, firsts, 0, seconds, 0));
    factor = set_clock(factor, UINT32_MAX);
    tables.windows[4] = 1;
    report("clock with minutes for id 5", nigvalds_set_clock_in(&tables, factor, 0));
}

int main(void) {
    nigvalds_opened o = nigvalds_open_in(&tables, M, N, F + 1, C);
    printf("open with a larger F: no %" PRIu32 ", %s\n", o.number, nigvalds_refusal_text(o.number));
    o = nigvalds_open_in(&tables, M, N, F, C);
    if (o.number != NIGVALDS_ACCEPTED) {
        return 1;
    }
    nigvalds_factor factor = o.factor;

    const uint32_t ids[] = {1, 2, 3}, counts[] = {2, 2, 2}, rows[] = {1, 3, 1, 4, 2, 3};
    nigvalds_changed a = nigvalds_add_in(&tables, factor, ids, 3, counts, 3, rows, 6);
    report("add 1 2 3", a);
    factor = a.factor;
    show(factor);
    path(factor, 1);
    follow(factor);
    ask(factor);
    meet(factor);

    const uint32_t id[] = {4}, count[] = {2}, pair[] = {4, 4}, repeated[] = {3, 3};
    report("add 4 with rows 4 4", nigvalds_add_in(&tables, factor, id, 1, count, 1, pair, 2));
    report("remove 3 3", nigvalds_remove_in(&tables, factor, repeated, 2));
    a = nigvalds_remove_in(&tables, factor, ids + 1, 1);
    report("remove 2", a);
    factor = a.factor;
    show(factor);
    meets(factor, 4, M);

    printf("check: %" PRIu32 "\n", nigvalds_check_in(&tables, factor).number);
    tables.parents[0] = 2;
    const uint32_t number = nigvalds_check_in(&tables, factor).number;
    printf("check of a damaged parent: %" PRIu32 ", %s\n", number, nigvalds_refusal_text(number));

    grade(4, 8, 16, ids, counts, rows);
    grade(4, 4, 16, ids, counts, rows);
    open_other(&fewer, 0);
    open_other(&fewer, 16 * M);
    open_other(&enough, 0);
    windows();
    return 0;
}
