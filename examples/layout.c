/* Tests of the header's own functions: the layout of tables in one block, at odd sizes and at those that an opening refuses, and the tables that are too short. The
   block is just as long as nigvalds_bytes says, so that a sanitizer sees a place outside it. */
#include <inttypes.h>
#include <stdio.h>
#include <stdlib.h>
#include <string.h>

#include "nigvalds.h"

static const struct sizes {
    uint32_t m, n, f, c;
} usable[] = {{1, 1, 1, 1},    {1, 1, 0, 1},     {3, 1, 3, 5},           {5, 7, 11, 13},        {7, 3, 0, 1},
              {63, 65, 129, 1}, {64, 1, 2048, 3}, {127, 255, 4095, 8191}, {4096, 16384, 0, 4097}, {4096, 16384, 1048576, 262144}},
  refused[] = {{0, 1, 1, 1},          {4097, 1, 0, 1}, {UINT32_MAX, 1, 0, 1},          {134217728, 1, 0, 1}, {1, 0, 1, 1}, {1, 16385, 1, 1}, {1, UINT32_MAX, 1, 1},
               {5, 1, 4, 1},          {1, 1, 1048577, 1}, {4096, 16384, UINT32_MAX, 1}, {1, 1, 1, 0},         {1, 1, 0, 262145}, {1, 1, 0, UINT32_MAX},
               {UINT32_MAX, UINT32_MAX, UINT32_MAX, UINT32_MAX}};

typedef struct part {
    void *places;
    size_t width, length;
} part;

enum { PARTS = 12 };

static void parts(const nigvalds_tables *t, part p[PARTS]) {
    const part all[PARTS] = {{t->heads, 4, t->heads_length},         {t->parents, 2, t->parents_length},     {t->rows, 2, t->rows_length},
                             {t->counts, 2, t->counts_length},       {t->next, 4, t->next_length},           {t->book_heads, 4, t->book_heads_length},
                             {t->book_rows, 2, t->book_rows_length}, {t->book_next, 4, t->book_next_length}, {t->windows, 4, t->windows_length},
                             {t->work, 4, t->work_length},           {t->touched, 2, t->touched_length},     {t->labels, 2, t->labels_length}};
    memcpy(p, all, sizeof all);
}

/* The tables lie in the block, aligned and apart: each keeps what it is filled with while the others are filled. Together they take all of it. */
static int apart(const nigvalds_tables *t, size_t bytes) {
    part p[PARTS];
    size_t sum = 0;
    parts(t, p);
    for (size_t k = 0; k < PARTS; k++) {
        if ((uintptr_t)p[k].places % p[k].width != 0) {
            return 0;
        }
        memset(p[k].places, (int)k + 1, p[k].width * p[k].length);
        sum += p[k].width * p[k].length;
    }
    for (size_t k = 0; k < PARTS; k++) {
        const unsigned char *b = (const unsigned char *)p[k].places;
        for (size_t i = 0; i < p[k].width * p[k].length; i++) {
            if (b[i] != k + 1) {
                return 0;
            }
        }
    }
    return sum == bytes;
}

/* Each call works in them: an opening, a column of the last row, a clock change, a check. */
static int works(const nigvalds_tables *t, struct sizes s) {
    const uint32_t id = s.n, count = 1, row = s.m;
    const nigvalds_opened o = nigvalds_open_in(t, s.m, s.n, s.f, s.c);
    const nigvalds_changed a = nigvalds_add_in(t, o.factor, &id, 1, &count, 1, &row, 1);
    const nigvalds_changed b = nigvalds_set_clock_in(t, a.factor, 7);
    return o.number == 0 && a.number == 0 && b.number == 0 && nigvalds_check_in(t, b.factor).number == 0 && o.factor.f == t->rows_length;
}

static void use(struct sizes s) {
    const size_t bytes = nigvalds_bytes(s.m, s.n, s.f, s.c);
    void *memory = malloc(bytes);
    const nigvalds_tables t = nigvalds_lay_out(memory, s.m, s.n, s.f, s.c);
    printf("%" PRIu32 " %" PRIu32 " %" PRIu32 " %" PRIu32 ": %zu bytes, %s, %s", s.m, s.n, s.f, s.c, bytes, apart(&t, bytes) ? "apart" : "NOT apart",
           works(&t, s) ? "works" : "does NOT work");
    printf("%s\n", nigvalds_first_short(&t, s.m, s.n, s.f, s.c).name);
    free(memory);
}

/* Sizes that an opening refuses, with memory and without: no bytes, no places, and the opening's own number. */
static void refuse(struct sizes s) {
    uint32_t block[1] = {9};
    const nigvalds_tables t = nigvalds_lay_out(block, s.m, s.n, s.f, s.c), u = nigvalds_lay_out(NULL, s.m, s.n, s.f, s.c);
    part p[PARTS];
    size_t places = 0;
    parts(&t, p);
    for (size_t k = 0; k < PARTS; k++) {
        places += p[k].length + (p[k].places == NULL);
    }
    printf("%" PRIu32 " %" PRIu32 " %" PRIu32 " %" PRIu32 ": %zu bytes, %zu places, no %" PRIu32 " %" PRIu32 "%s\n", s.m, s.n, s.f, s.c,
           nigvalds_bytes(s.m, s.n, s.f, s.c), places, nigvalds_open_in(&t, s.m, s.n, s.f, s.c).number, nigvalds_open_in(&u, s.m, s.n, s.f, s.c).number,
           nigvalds_first_short(&t, s.m, s.n, s.f, s.c).name);
}

static void say(const char *what, uint32_t number, nigvalds_short s) {
    printf("%s: no %" PRIu32 ", %s: %s has %zu of %zu places\n", what, number, nigvalds_refusal_text(number), s.name, s.has, s.needs);
}

/* Tables with one place less, one table after the other. */
static void shorten(void) {
    const struct sizes s = {5, 7, 11, 13};
    void *memory = malloc(nigvalds_bytes(s.m, s.n, s.f, s.c));
    const nigvalds_tables full = nigvalds_lay_out(memory, s.m, s.n, s.f, s.c);
    const nigvalds_factor factor = nigvalds_open_in(&full, s.m, s.n, s.f, s.c).factor;
    for (size_t k = 0; k < PARTS; k++) {
        nigvalds_tables t = full;
        size_t *const lengths[PARTS] = {&t.heads_length,      &t.parents_length,   &t.rows_length,    &t.counts_length, &t.next_length,    &t.book_heads_length,
                                        &t.book_rows_length, &t.book_next_length, &t.windows_length, &t.work_length,   &t.touched_length, &t.labels_length};
        --*lengths[k];
        const nigvalds_changed a = nigvalds_set_clock_in(&t, factor, 7);
        say("one place less", a.number, nigvalds_first_short(&t, a.factor.m, a.factor.n, a.factor.f, a.factor.c));
    }
    say("F left at 0", nigvalds_open_in(&full, s.m, s.n, 0, s.c).number, nigvalds_first_short(&full, s.m, s.n, 0, s.c));
    free(memory);
    const nigvalds_tables none = nigvalds_lay_out(NULL, s.m, s.n, s.f, s.c);
    say("no memory", nigvalds_open_in(&none, s.m, s.n, s.f, s.c).number, nigvalds_first_short(&none, s.m, s.n, s.f, s.c));
}

int main(void) {
    for (size_t k = 0; k < sizeof usable / sizeof usable[0]; k++) {
        use(usable[k]);
    }
    for (size_t k = 0; k < sizeof refused / sizeof refused[0]; k++) {
        refuse(refused[k]);
    }
    shorten();
    return 0;
}
