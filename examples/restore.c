/* A host of Nigvalds that stops and goes on: `restore save FILE` books columns and stores record and tables, `restore resume FILE` reads them in a new process,
   checks them and goes on. `restore old FILE` stores what a host of before 0.7 had, `restore damage FILE` spoils a number in a file. */
#include <inttypes.h>
#include <stdio.h>
#include <stdlib.h>
#include <string.h>

#include "nigvalds.h"

enum { M = 5, N = 8, F = 20, C = 16 };

/* A file has a number for its form, the record's numbers, and the tables in the order of parts. Before 0.7 the record had no clock, its last field, and there was
   no table of windows, the last part. */
enum { OLD_FORM = 6, FORM = 7, OLD_NUMBERS = 9, NUMBERS = 10, OLD_PARTS = 8, PARTS = 9 };

typedef struct part {
    void *places;
    size_t width, length;
} part;

/* What is kept of the tables: all but the work table and the lists of a report. */
static void parts(const nigvalds_tables *t, part p[PARTS]) {
    const part all[PARTS] = {
        {t->heads, sizeof *t->heads, t->heads_length},
        {t->parents, sizeof *t->parents, t->parents_length},
        {t->rows, sizeof *t->rows, t->rows_length},
        {t->counts, sizeof *t->counts, t->counts_length},
        {t->next, sizeof *t->next, t->next_length},
        {t->book_heads, sizeof *t->book_heads, t->book_heads_length},
        {t->book_rows, sizeof *t->book_rows, t->book_rows_length},
        {t->book_next, sizeof *t->book_next, t->book_next_length},
        {t->windows, sizeof *t->windows, t->windows_length},
    };
    memcpy(p, all, sizeof all);
}

/* Every column: j, parent, then row:multiplicity pairs. */
static void show(const nigvalds_tables *t, nigvalds_factor factor) {
    for (uint32_t j = 1; j <= factor.m; j++) {
        printf("  %" PRIu32 " %u", j, (unsigned)t->parents[j - 1]);
        for (nigvalds_entry e = nigvalds_read_in(t, t->heads[j - 1]); e.row != 0; e = nigvalds_read_in(t, e.next)) {
            printf(" %" PRIu32 ":%" PRIu32, e.row, e.multiplicity);
        }
        printf("\n");
    }
}

/* How many of the record's numbers and of the tables a file has. */
static size_t numbers_in(uint32_t form) { return form == FORM ? NUMBERS : OLD_NUMBERS; }
static size_t parts_in(uint32_t form) { return form == FORM ? PARTS : OLD_PARTS; }

/* Stores record and tables, after an accepted call; whether it could. */
static int save(FILE *file, uint32_t form, const nigvalds_tables *t, nigvalds_factor factor) {
    const size_t numbers = numbers_in(form), count = parts_in(form);
    part p[PARTS];
    parts(t, p);
    int fine = fwrite(&form, sizeof form, 1, file) == 1 && fwrite(&factor, sizeof(uint32_t), numbers, file) == numbers;
    for (size_t k = 0; fine && k < count; k++) {
        fine = fwrite(p[k].places, p[k].width, p[k].length, file) == p[k].length;
    }
    return fine;
}

/* Reads the record, with clock 0 for an old file; whether it could. */
static int read_record(FILE *file, uint32_t *form, nigvalds_factor *factor) {
    memset(factor, 0, sizeof *factor);
    if (fread(form, sizeof *form, 1, file) != 1 || (*form != FORM && *form != OLD_FORM)) {
        return 0;
    }
    return fread(factor, sizeof(uint32_t), numbers_in(*form), file) == numbers_in(*form);
}

/* Reads the tables; whether it could. An old file leaves the windows as they are. */
static int read_tables(FILE *file, uint32_t form, const nigvalds_tables *t) {
    part p[PARTS];
    parts(t, p);
    for (size_t k = 0; k < parts_in(form); k++) {
        if (fread(p[k].places, p[k].width, p[k].length, file) != p[k].length) {
            return 0;
        }
    }
    return 1;
}

/* Reads record and tables back and checks them: the block of the tables, all zeros before, or NULL after it has said why not. */
static void *restore(FILE *file, nigvalds_tables *t, nigvalds_factor *factor) {
    uint32_t form;
    if (!read_record(file, &form, factor)) {
        printf("resume: no file of this host\n");
        return NULL;
    }
    void *memory = calloc(1, nigvalds_bytes(factor->m, factor->n, factor->f, factor->c)); /* 0 bytes for sizes out of range */
    *t = nigvalds_lay_out(memory, factor->m, factor->n, factor->f, factor->c);
    if (!read_tables(file, form, t)) {
        printf("resume: the file ends early\n");
        free(memory);
        return NULL;
    }
    const uint32_t number = nigvalds_check_in(t, *factor).number; /* 1 to 4 for sizes out of range, 5 without memory, 6 for damage */
    if (number != NIGVALDS_ACCEPTED) {
        printf("resume: no %" PRIu32 ", %s; go back to an older file, or open anew\n", number, nigvalds_refusal_text(number));
        free(memory);
        return NULL;
    }
    return memory;
}

/* Books three columns, the last with a window from minute 480 up to 720, and stores the factor. */
static int start(FILE *file, uint32_t form) {
    const uint32_t ids[] = {1, 2, 3}, counts[] = {2, 2, 2}, rows[] = {1, 3, 1, 4, 2, 3}, firsts[] = {0, 0, 480}, seconds[] = {0, 0, 720};
    const size_t booked = form == FORM ? 3 : 2; /* windows came with 0.7 */
    NIGVALDS_STATIC_TABLES(t, M, N, F, C);
    nigvalds_changed a = nigvalds_add_in_with_windows(&t, nigvalds_open_in(&t, M, N, F, C).factor, ids, booked, counts, booked, rows, 2 * booked, firsts,
                                                      booked, seconds, booked);
    printf("save: %zu columns, touched %" PRIu32 ", %s\n", booked, a.touched, nigvalds_refusal_text(a.number));
    show(&t, a.factor);
    return save(file, form, &t, a.factor);
}

/* Goes on from a file: sets the clock, adds a column. */
static void resume(FILE *file) {
    const uint32_t id[] = {4}, count[] = {2}, rows[] = {2, 5};
    nigvalds_tables t;
    nigvalds_factor factor;
    void *memory = restore(file, &t, &factor);
    if (memory == NULL) {
        return;
    }
    printf("resume: sound, clock %" PRIu32 "\n", factor.clock);
    nigvalds_changed a = nigvalds_set_clock_in(&t, factor, 600);
    printf("clock to 600: touched %" PRIu32 ", %s\n", a.touched, nigvalds_refusal_text(a.number));
    a = nigvalds_add_in(&t, a.factor, id, 1, count, 1, rows, 2);
    printf("add 4: touched %" PRIu32 ", %s\n", a.touched, nigvalds_refusal_text(a.number));
    show(&t, a.factor);
    free(memory);
}

/* Writes 2 as the parent of column 1. */
static int damage(FILE *file) {
    const uint16_t parent = 2;
    const long place = (1 + NUMBERS + M) * (long)sizeof(uint32_t); /* after the form, the record and the heads */
    return fseek(file, place, SEEK_SET) == 0 && fwrite(&parent, sizeof parent, 1, file) == 1;
}

int main(int count, char **words) {
    const char *what = count == 3 ? words[1] : "";
    FILE *file = count == 3 ? fopen(words[2], strcmp(what, "resume") == 0 ? "rb" : strcmp(what, "damage") == 0 ? "r+b" : "wb") : NULL;
    if (file == NULL) {
        fprintf(stderr, "restore save|old|damage|resume FILE\n");
        return 2;
    }
    int fine = 1;
    if (strcmp(what, "resume") == 0) {
        resume(file);
    } else if (strcmp(what, "damage") == 0) {
        fine = damage(file);
    } else {
        fine = start(file, strcmp(what, "old") == 0 ? (uint32_t)OLD_FORM : (uint32_t)FORM);
    }
    return fclose(file) == 0 && fine ? 0 : 1;
}
