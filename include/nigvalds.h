/* Nigvalds: the pattern of the sparse Cholesky factor of I + AA^T, kept while columns of A enter and leave.
 *
 * README.md says what it is for, docs/REFERENCE.md has the tables of sizes and refusals; examples/ has whole programs: host.c makes every call, restore.c stops
 * and goes on from a file, grow.c moves to larger tables. C99 and later, C++11 and later. Link with libnigvalds.a (`make install PREFIX=..` puts it with this
 * header and a pkg-config file; x86-64, System V calling convention). It needs memset alone.
 *
 * EXAMPLE. A factor of 5 rows, two columns added as one batch, one question.
 *
 *     NIGVALDS_STATIC_TABLES(t, 5, 8, 80, 16);
 *     nigvalds_opened o = nigvalds_open_in(&t, 5, 8, 80, 16);              // o.number is 0
 *     uint32_t ids[] = {1, 2}, counts[] = {2, 2}, rows[] = {1, 3, 1, 4};   // column 1 is {1, 3}, column 2 is {1, 4}
 *     nigvalds_changed a = nigvalds_add_in(&t, o.factor, ids, 2, counts, 2, rows, 4);
 *     if (a.number) puts(nigvalds_refusal_text(a.number));                 // refused: a.position is the column's, or 0; tables and record are as before
 *     nigvalds_reply p = nigvalds_parent_in(&t, a.factor, 1);              // p.value is 3; a.factor is the record from here on
 *
 * BOOKED AND LIVE. A column is booked from its addition to its removal. It may carry a window of two minutes on a 32-bit clock: it counts from the first minute
 * up to, not including, the second; minutes 0 and 0 mean none, and it always counts. A booked column that counts at the factor's clock is live, and the factor
 * is that of the live columns. A factor just opened stands at minute 0; nigvalds_set_clock moves it, forward or back. So an id is taken, and its rows take book
 * records, while it is booked (10, 11, 15), but only live columns have patterns that must fit (16). No window holds minute 2^32 - 1, since its second minute
 * would be 2^32.
 *
 * TABLES. The host owns all memory. Rows are 1 to m, ids 1 to n, factor records 1 to F, book records 1 to C; what belongs to number k stands at place k - 1.
 * A factor column is a chain of records from its head, rows rising; next 0 ends it. The book keeps the rows of each booked column likewise. The table of windows
 * has 2 x n places: the first minutes of ids 1 to n, then their second minutes; 0 and 0 where an id is not booked. Tables may be longer than the sizes ask:
 * places beyond keep their content. Rows, parents, multiplicities and the lists of touched columns and labels have 16-bit places; heads, nexts, windows, the work
 * table, the lists of a batch, the rows that a question names and the answers of path, column and meets 32-bit ones. The host may read all tables at any time,
 * store them and lend them again with their record.
 *
 * WHAT IS PROMISED. Every function is proved to meet its contract (crates/nigvalds), asks nothing of the contents or lengths of what is lent, always returns,
 * allocates nothing and keeps no pointer. There is no global state: calls on different tables, each with its own work table and lists, may run in parallel. A
 * clock change needs about 4 KB of stack, a batch 2 KB, any other call 1 KB.
 *
 * WHAT IS ASSUMED OF A CALLER. A test holds this header against the library's source (tools/check-header), but no proof covers the caller:
 *   - each pointer is valid for its length, aligned for its type and not NULL, also where the length is 0;
 *   - a length counts places of the pointer's type, not bytes, and the places take less than 2^63 bytes;
 *   - what a call may write (a pointer without const) overlaps nothing else that is lent to the same call, and nobody else uses it meanwhile.
 *
 * COST. Each function says its class:
 *   - whole: in proportion to m + n + F + C. Every call but a reading reads all tables through, or writes them all; a batch and a clock change also pay for what
 *     they touch, a question for what it reads;
 *   - constant: a few loads.
 *
 * STORING. Record and tables are plain numbers, without pointers: store the record's ten numbers and the nine tables, heads to windows, after an accepted call;
 * the work table and the lists of a report need not be kept. After a restart lend what was stored again; nigvalds_check says whether it is sound, and the next
 * call goes on. What an older version stored serves on, with what it lacks added:
 *   - before 0.7: clock 0, the last field of the record, and windows of 2 x n zeros, the last table;
 *   - 0.1 besides: the limits of the grades, the host's own or the default ones.
 *
 * AFTER NUMBER 6 the tables are as they were lent: something else has written them, or the record is not theirs, or its limits of the grades break the rule.
 * No call mends tables. Go back to the last good copy of tables and record (one taken after an accepted call), or open anew and add the columns again.
 *
 * AFTER NUMBERS 15 AND 16 nothing has changed either: C or F is too small for the batch, F for the minute. A factor keeps its sizes. A host grows by opening
 * larger tables, setting their clock, and adding its booked columns again, with their windows: the pattern is that of the live columns, so values of L stay
 * good, but its records have other numbers. No question reads a booked column back, so a host that wants to grow keeps its columns.
 */
#ifndef NIGVALDS_H
#define NIGVALDS_H

#include <stddef.h>
#include <stdint.h>

#ifdef __cplusplus
extern "C" {
#endif

#define NIGVALDS_VERSION "0.8.0"

/* ---- the interface. The names that the archive defines carry the version in which a prototype, record, table, size or number last changed, so a host compiled
   with an older or newer header does not link, whichever function it calls. tools/check-header sees that the version changes with them. */

#define NIGVALDS_ENTRY(name) name##_0_7
#define nigvalds_open NIGVALDS_ENTRY(nigvalds_open)
#define nigvalds_add NIGVALDS_ENTRY(nigvalds_add)
#define nigvalds_remove NIGVALDS_ENTRY(nigvalds_remove)
#define nigvalds_set_clock NIGVALDS_ENTRY(nigvalds_set_clock)
#define nigvalds_check NIGVALDS_ENTRY(nigvalds_check)
#define nigvalds_next_row NIGVALDS_ENTRY(nigvalds_next_row)
#define nigvalds_parent NIGVALDS_ENTRY(nigvalds_parent)
#define nigvalds_path NIGVALDS_ENTRY(nigvalds_path)
#define nigvalds_column NIGVALDS_ENTRY(nigvalds_column)
#define nigvalds_meets NIGVALDS_ENTRY(nigvalds_meets)
#define nigvalds_common NIGVALDS_ENTRY(nigvalds_common)
#define nigvalds_read NIGVALDS_ENTRY(nigvalds_read)

/* ---- sizes */

#define NIGVALDS_MOST_ROWS 4096u      /* m: 1 to this */
#define NIGVALDS_MOST_IDS 16384u      /* n: 1 to this */
#define NIGVALDS_MOST_RECORDS 1048576u /* F: m to this */
#define NIGVALDS_MOST_BOOKED 262144u  /* C: 1 to this */
#define NIGVALDS_MOST_COLUMNS 64u     /* columns in a batch, and rows that nigvalds_common is given */
#define NIGVALDS_MOST_COLUMN_ROWS 256u /* rows in a column */

/* The places of the table of windows. */
#define NIGVALDS_WINDOW_PLACES(n) (2u * (n))

/* F when an opening asks for 0. Tables of records with fewer places, or a work table with fewer than W for this F, are 5: a host that lends such names its F. */
#define NIGVALDS_DEFAULT_RECORDS(m) (32u * (m))

/* The first entries of grades 2, 3 and 4 when an opening asks for 0, 0 and 0. */
#define NIGVALDS_DEFAULT_GRADE2 256u
#define NIGVALDS_DEFAULT_GRADE3 4096u
#define NIGVALDS_DEFAULT_GRADE4 65536u

/* W, the places of the work table; f is F itself, not 0. */
#define NIGVALDS_WORK_PLACES(m, n, f, c) (8u * (size_t)(m) + 4u * (size_t)(f) + (size_t)(c) + (size_t)(n) + 1024u)

/* ---- numbers. The first that applies is given; 20 stands between 4 and 5, 21 after the column's rows, that is after its 14 and before the next column's 8. A
   refusal's other numbers are 0, and nothing lent changes but the work table: it is as lent under 1 to 5 and 20, otherwise its first W places are zero, as after
   an accepted call. Numbers 8 to 14 and 21 come with the position of the column in the batch, from 1; 12 for rows left over with 0. 10, 11 and 15 speak of booked
   columns, inside their windows or not; 16 of the patterns that the live columns have after the call, so a column outside its window takes no room there, and a
   clock change that lets others leave may let it in. */

enum {
    NIGVALDS_ACCEPTED = 0,
    NIGVALDS_ROWS = 1,
    NIGVALDS_IDS = 2,
    NIGVALDS_RECORDS = 3,
    NIGVALDS_BOOKED = 4,
    NIGVALDS_SHORT = 5,
    NIGVALDS_UNSOUND = 6, /* in check, the answer no */
    NIGVALDS_SHAPE = 7, /* batches and common alone */
    NIGVALDS_ID_OUTSIDE = 8,
    NIGVALDS_ID_REPEATED = 9,
    NIGVALDS_ID_BOOKED = 10,
    NIGVALDS_ID_NOT_BOOKED = 11,
    NIGVALDS_COUNT = 12,
    NIGVALDS_ROW_OUTSIDE = 13,
    NIGVALDS_ROW_ORDER = 14,
    NIGVALDS_BOOK_FULL = 15,
    NIGVALDS_FACTOR_FULL = 16,   /* additions and clock changes; a clock change then stays at its minute */
    NIGVALDS_ASKED_OUTSIDE = 17, /* questions alone */
    NIGVALDS_LIST_ENDS = 18,     /* path, column and meets alone */
    NIGVALDS_NO_COMMAND = 19,    /* the listing program alone */
    NIGVALDS_LIMITS = 20,        /* an opening alone */
    NIGVALDS_WINDOW = 21         /* an addition alone */
};

/* What a number says, in plain words. */
static inline const char *nigvalds_refusal_text(uint32_t number) {
    switch (number) {
    case NIGVALDS_ACCEPTED: return "accepted";
    case NIGVALDS_ROWS: return "m is outside 1 to 4,096";
    case NIGVALDS_IDS: return "n is outside 1 to 16,384";
    case NIGVALDS_RECORDS: return "F is outside m to 1,048,576";
    case NIGVALDS_BOOKED: return "C is outside 1 to 262,144";
    case NIGVALDS_SHORT: return "a table or list that is needed is too short";
    case NIGVALDS_UNSOUND: return "the tables are not sound";
    case NIGVALDS_SHAPE: return "not 1 to 64 columns or rows named, or not as many counts or minutes as ids";
    case NIGVALDS_ID_OUTSIDE: return "an id is outside 1 to n";
    case NIGVALDS_ID_REPEATED: return "an id stands earlier in the batch";
    case NIGVALDS_ID_BOOKED: return "an id to add is booked";
    case NIGVALDS_ID_NOT_BOOKED: return "an id to remove is not booked";
    case NIGVALDS_COUNT: return "a count is outside 1 to 256, or there are fewer or more rows than the counts say";
    case NIGVALDS_ROW_OUTSIDE: return "a row is outside 1 to m";
    case NIGVALDS_ROW_ORDER: return "a row is not above the row before";
    case NIGVALDS_BOOK_FULL: return "the rows of the booked columns would exceed C";
    case NIGVALDS_FACTOR_FULL: return "the sum of all pattern sizes would exceed F";
    case NIGVALDS_ASKED_OUTSIDE: return "a row or column asked about is outside 1 to m";
    case NIGVALDS_LIST_ENDS: return "the list ends before the answer does";
    case NIGVALDS_NO_COMMAND: return "a line is no command";
    case NIGVALDS_LIMITS: return "a limit of the grades is below 2 or not above the limit before";
    case NIGVALDS_WINDOW: return "the second minute of a window other than 0 and 0 is not later than its first";
    default: return "no number of this library";
    }
}

/* ---- records and answers, by value */

/* The record of sizes, free heads, limits of the grades and clock. It goes with the tables: each call takes the one that the call before left. Limits that break
   the rule of an opening, zeros too, are unsound in a record (6). Any minute may stand in the clock; tables are sound with it exactly if their factor is that of
   the columns that count then, so a host that writes another minute there gets 6 unless the factor is the same: it calls nigvalds_set_clock. */
typedef struct nigvalds_factor {
    uint32_t m, n, f, c;
    uint32_t free, book_free;
    uint32_t grade2, grade3, grade4; /* from so many entries on a grade is 2, 3 and 4 */
    uint32_t clock;                  /* the minute at which the factor stands: 0 at opening, then what nigvalds_set_clock left */
} nigvalds_factor;

/* An opening: accepted, number 0 and the record; refused, the number and a record of zeros. A refused opening's record must not replace the host's: tables and
   record from before serve on. */
typedef struct nigvalds_opened {
    uint32_t number;
    nigvalds_factor factor;
} nigvalds_opened;

/* A batch or a clock change: touched is how many columns the lists report, entries the sum of their sizes, to size the work on values by: of each column the
   larger of its sizes before and after the call, which is the one after an addition and the one before a removal. grade is 1 to 4 by the entries: 1 and one more
   for each limit that they reach. A call that touches nothing (a batch whose columns are all outside their windows, a clock change that moves nobody) answers
   touched 0, entries 0 and grade 0, and leaves the lists as lent. factor is the record after the call, under a refusal the one that was given. */
typedef struct nigvalds_changed {
    uint32_t number, position;
    uint32_t touched, entries, grade;
    nigvalds_factor factor;
} nigvalds_changed;

/* A check, or a question but the one for the next row: number, and the value if it is 0. */
typedef struct nigvalds_reply {
    uint32_t number, value;
} nigvalds_reply;

/* The question for the next row: number; row and multiplicity, both 0 when refused or when the column ends before. */
typedef struct nigvalds_found {
    uint32_t number, row, multiplicity;
} nigvalds_found;

/* An entry of a column, and the record after it (0: none). Row 0 is the end; multiplicity and next are 0 there. */
typedef struct nigvalds_entry {
    uint32_t row, multiplicity, next;
} nigvalds_entry;

/* ---- the library's functions. Each pointer is followed by its length. */

#define NIGVALDS_WRITTEN_TABLES                                                                                                                     \
    uint32_t *heads, size_t heads_length, uint16_t *parents, size_t parents_length, uint16_t *rows, size_t rows_length, uint16_t *counts,           \
        size_t counts_length, uint32_t *next, size_t next_length, uint32_t *book_heads, size_t book_heads_length, uint16_t *book_rows,              \
        size_t book_rows_length, uint32_t *book_next, size_t book_next_length, uint32_t *windows, size_t windows_length, uint32_t *work,            \
        size_t work_length
#define NIGVALDS_CHANGED_TABLES                                                                                                                     \
    const uint32_t *heads, size_t heads_length, uint16_t *parents, size_t parents_length, uint16_t *rows, size_t rows_length, uint16_t *counts,     \
        size_t counts_length, uint32_t *next, size_t next_length, uint32_t *book_heads, size_t book_heads_length, uint16_t *book_rows,              \
        size_t book_rows_length, uint32_t *book_next, size_t book_next_length, uint32_t *windows, size_t windows_length, uint32_t *work,            \
        size_t work_length
#define NIGVALDS_CLOCKED_TABLES                                                                                                                     \
    const uint32_t *heads, size_t heads_length, uint16_t *parents, size_t parents_length, uint16_t *rows, size_t rows_length, uint16_t *counts,     \
        size_t counts_length, uint32_t *next, size_t next_length, const uint32_t *book_heads, size_t book_heads_length, const uint16_t *book_rows,  \
        size_t book_rows_length, const uint32_t *book_next, size_t book_next_length, const uint32_t *windows, size_t windows_length,                \
        uint32_t *work, size_t work_length
#define NIGVALDS_READ_TABLES                                                                                                                        \
    const uint32_t *heads, size_t heads_length, const uint16_t *parents, size_t parents_length, const uint16_t *rows, size_t rows_length,           \
        const uint16_t *counts, size_t counts_length, const uint32_t *next, size_t next_length, const uint32_t *book_heads,                         \
        size_t book_heads_length, const uint16_t *book_rows, size_t book_rows_length, const uint32_t *book_next, size_t book_next_length,           \
        const uint32_t *windows, size_t windows_length, uint32_t *work, size_t work_length

/* Opens a fresh factor at minute 0: writes all tables. f = 0 means NIGVALDS_DEFAULT_RECORDS(m). From grade2, grade3 and grade4 entries on a grade is 2, 3 and
   4; these limits stay with the factor until it is opened anew. The first must be at least 2, each above the one before; three zeros mean the default ones,
   which the record then holds. Refusals 1 to 5 and 20. Cost: whole. */
nigvalds_opened nigvalds_open(uint32_t m, uint32_t n, uint32_t f, uint32_t c, uint32_t grade2, uint32_t grade3, uint32_t grade4, NIGVALDS_WRITTEN_TABLES);

/* Adds a batch: by position, each id is booked with as many of the rows not yet used as its count says, and with a window from its first minute up to, not
   including, its second; 0 and 0: it always counts. Counts and both lists of minutes are as long as the ids (7 otherwise, also where no column has a window). A
   window wholly past or to come is taken: its column is booked, has no path now and keeps its position, so that labels of the others do not move up. touched
   receives the touched columns, rising, and labels the largest position whose path passes through each; both need m places of 16 bits. Refusals 1 to 10,
   12 to 16 and 21. Cost: whole, and the records on its paths. */
nigvalds_changed nigvalds_add(nigvalds_factor factor, NIGVALDS_CHANGED_TABLES, uint16_t *touched, size_t touched_length, uint16_t *labels,
                              size_t labels_length, const uint32_t *ids, size_t ids_length, const uint32_t *row_counts, size_t row_counts_length,
                              const uint32_t *row_list, size_t row_list_length, const uint32_t *firsts, size_t firsts_length,
                              const uint32_t *seconds, size_t seconds_length);

/* Removes the columns of a batch of ids, and reports likewise, with the entries that the touched columns had before. A booked column outside its window is
   removed too, and has no path. Refusals 1 to 9 and 11. Cost: whole, and the records on its paths. */
nigvalds_changed nigvalds_remove(nigvalds_factor factor, NIGVALDS_CHANGED_TABLES, uint16_t *touched, size_t touched_length, uint16_t *labels,
                                 size_t labels_length, const uint32_t *ids, size_t ids_length);

/* Sets the clock, forward or back: booked columns that counted and no longer do leave the factor, then those that begin to count enter it, as many as there are.
   touched receives the columns on the old paths of those that leave and on the new paths of those that enter, rising, each once, altered or not, and labels 0 for
   each; both need m places of 16 bits. Book and windows stay as they are. A minute at which nobody moves, the present one too, is accepted and alters no
   column. 16 is for the patterns after the change, so leavers make room; then nothing has changed, and the clock stays. Refusals 1 to 6 and 16.
   Cost: whole; after the read-through the n windows, a copy of all F records where somebody enters (and the way back under 16), and the
   records on the paths, in groups of at most 64 columns by rising id. */
nigvalds_changed nigvalds_set_clock(nigvalds_factor factor, NIGVALDS_CLOCKED_TABLES, uint16_t *touched, size_t touched_length, uint16_t *labels,
                                    size_t labels_length, uint32_t minute);

/* Whether the tables are sound and the record's limits keep the rule: number 0, 6 for no, or 1 to 5 where sizes or tables cannot be used; value 0. Refusals
   1 to 6. Cost: whole. */
nigvalds_reply nigvalds_check(nigvalds_factor factor, NIGVALDS_READ_TABLES);

/* The first row at or above i in column j and its multiplicity, both 0 if the column ends before. For i up to j that is the diagonal; for j below m, asking for
   j + 1 gives j's parent. To walk a column ask from 1, then from one above each row given, until row m or 0 (a refusal has row 0 too, so look at the number);
   nigvalds_read is cheaper, since each question reads all tables through. Refusals 1 to 6 and 17. Cost: whole. */
nigvalds_found nigvalds_next_row(nigvalds_factor factor, NIGVALDS_READ_TABLES, uint32_t i, uint32_t j);

/* The parent of j, 0 for a root. Refusals 1 to 6 and 17. Cost: whole; the host may read parents[j - 1] itself. */
nigvalds_reply nigvalds_parent(nigvalds_factor factor, NIGVALDS_READ_TABLES, uint32_t j);

/* The path of j, a row to a place from the given place of the list on (places from 0, of 32 bits), and its number of rows. Refusals 1 to 6, 17, 18.
   Cost: whole. */
nigvalds_reply nigvalds_path(nigvalds_factor factor, NIGVALDS_READ_TABLES, uint32_t *list, size_t list_length, uint32_t j, size_t place);

/* Column j likewise, row then multiplicity, two places an entry, and its number of entries. Refusals 1 to 6, 17, 18. Cost: whole. */
nigvalds_reply nigvalds_column(nigvalds_factor factor, NIGVALDS_READ_TABLES, uint32_t *list, size_t list_length, uint32_t j, size_t place);

/* The columns whose pattern holds row i, ascending, a column to a place from the given place of the list on, and the number of places filled. The last is i
   itself; i places are always enough. Refusals 1 to 6, 17, 18. Cost: whole; after the read-through the parents of the rows below i, the chains, up to row i, of the
   columns whose parent is below i and holds i, and i places of the work table to clear: no second pass over F. */
nigvalds_reply nigvalds_meets(nigvalds_factor factor, NIGVALDS_READ_TABLES, uint32_t *list, size_t list_length, uint32_t i, size_t place);

/* The smallest row that lies on the paths of all rows of row_list, 1 to 64 of them, or 0 where there is none. A path starts with its own row, so one row alone
   gives itself; a row may be named again. Refusals 1 to 7 and 17; no row, or more than 64, is 7 whatever the rows are. Cost: whole; after the read-through the
   rows on the paths named, up to where they join. */
nigvalds_reply nigvalds_common(nigvalds_factor factor, NIGVALDS_READ_TABLES, const uint32_t *row_list, size_t row_list_length);

/* The entry at a record: start at heads[j - 1], go on at the entry's next. Reads nothing else and checks nothing; a record that is 0, past a table or free
   gives the end. On sound tables a column ends after at most m entries; on others a chain may run in a circle, so count. Cost: constant. */
nigvalds_entry nigvalds_read(const uint16_t *rows, size_t rows_length, const uint16_t *counts, size_t counts_length, const uint32_t *next,
                             size_t next_length, uint32_t record);

/* ---- all tables and a batch's lists in one place, with their lengths, and the same functions over it */

typedef struct nigvalds_tables {
    uint32_t *heads;
    size_t heads_length;
    uint16_t *parents;
    size_t parents_length;
    uint16_t *rows;
    size_t rows_length;
    uint16_t *counts;
    size_t counts_length;
    uint32_t *next;
    size_t next_length;
    uint32_t *book_heads;
    size_t book_heads_length;
    uint16_t *book_rows;
    size_t book_rows_length;
    uint32_t *book_next;
    size_t book_next_length;
    uint32_t *windows;
    size_t windows_length;
    uint32_t *work;
    size_t work_length;
    uint16_t *touched;
    size_t touched_length;
    uint16_t *labels;
    size_t labels_length;
} nigvalds_tables;

/* Static tables for sizes known when compiling, f not 0: `NIGVALDS_STATIC_TABLES(t, 5, 8, 80, 16);` declares a nigvalds_tables t. */
#define NIGVALDS_STATIC_TABLES(name, m, n, f, c)                                                                                                    \
    static uint32_t name##_heads[m], name##_next[f], name##_book_heads[n], name##_book_next[c], name##_windows[NIGVALDS_WINDOW_PLACES(n)];          \
    static uint16_t name##_parents[m], name##_rows[f], name##_counts[f], name##_book_rows[c], name##_touched[m], name##_labels[m];                  \
    static uint32_t name##_work[NIGVALDS_WORK_PLACES(m, n, f, c)];                                                                                  \
    static nigvalds_tables name = {name##_heads, (m), name##_parents, (m), name##_rows, (f), name##_counts, (f), name##_next, (f),                  \
                                   name##_book_heads, (n), name##_book_rows, (c), name##_book_next, (c), name##_windows,                            \
                                   NIGVALDS_WINDOW_PLACES(n), name##_work, NIGVALDS_WORK_PLACES(m, n, f, c), name##_touched, (m),                   \
                                   name##_labels, (m)}

/* F as an opening takes it: f, or the default for 0. */
static inline uint32_t nigvalds_records(uint32_t m, uint32_t f) { return f == 0 ? NIGVALDS_DEFAULT_RECORDS(m) : f; }

/* Whether an opening takes these sizes; otherwise it gives 1 to 4. */
static inline int nigvalds_sizes_fit(uint32_t m, uint32_t n, uint32_t f, uint32_t c) {
    if (m < 1 || m > NIGVALDS_MOST_ROWS || n < 1 || n > NIGVALDS_MOST_IDS || c < 1 || c > NIGVALDS_MOST_BOOKED) {
        return 0;
    }
    return nigvalds_records(m, f) >= m && nigvalds_records(m, f) <= NIGVALDS_MOST_RECORDS;
}

/* Tables for sizes known when running: the bytes of one block for all of them and the lists of a report, 28,225,536 at most; f = 0 means the default, as at
   opening. 0 for sizes that an opening refuses.

       void *memory = malloc(nigvalds_bytes(m, n, f, c));
       nigvalds_tables t = nigvalds_lay_out(memory, m, n, f, c);
       nigvalds_opened o = nigvalds_open_in(&t, m, n, f, c);       // 5 where there was no memory, 1 to 4 for the sizes */
static inline size_t nigvalds_bytes(uint32_t m, uint32_t n, uint32_t f, uint32_t c) {
    const size_t records = nigvalds_records(m, f);
    if (!nigvalds_sizes_fit(m, n, f, c)) {
        return 0;
    }
    return sizeof(uint32_t) * ((size_t)m + records + n + c + NIGVALDS_WINDOW_PLACES((size_t)n) + NIGVALDS_WORK_PLACES(m, n, records, c)) +
           sizeof(uint16_t) * (3 * (size_t)m + 2 * records + c);
}

/* The tables in such a block, aligned for uint32_t as malloc's are, each just as long as needed. They take no place of it, and have none, where memory is NULL or an
   opening refuses the sizes: every call may be lent them, and is refused. The block is the host's, to free after the last call. */
static inline nigvalds_tables nigvalds_lay_out(void *memory, uint32_t m, uint32_t n, uint32_t f, uint32_t c) {
    static uint32_t nowhere[1]; /* a pointer must not be NULL, also where the length is 0 */
    const int fits = memory != NULL && nigvalds_sizes_fit(m, n, f, c);
    const size_t rows = fits ? m : 0, ids = fits ? n : 0, records = fits ? nigvalds_records(m, f) : 0, booked = fits ? c : 0;
    nigvalds_tables t;
    t.heads_length = t.parents_length = t.touched_length = t.labels_length = rows;
    t.rows_length = t.counts_length = t.next_length = records;
    t.book_heads_length = ids;
    t.book_rows_length = t.book_next_length = booked;
    t.windows_length = NIGVALDS_WINDOW_PLACES(ids);
    t.work_length = fits ? NIGVALDS_WORK_PLACES(rows, ids, records, booked) : 0;
    t.heads = fits ? (uint32_t *)memory : nowhere;
    t.next = t.heads + t.heads_length;
    t.book_heads = t.next + t.next_length;
    t.book_next = t.book_heads + t.book_heads_length;
    t.windows = t.book_next + t.book_next_length;
    t.work = t.windows + t.windows_length;
    t.parents = (uint16_t *)(t.work + t.work_length);
    t.rows = t.parents + t.parents_length;
    t.counts = t.rows + t.rows_length;
    t.book_rows = t.counts + t.counts_length;
    t.touched = t.book_rows + t.book_rows_length;
    t.labels = t.touched + t.touched_length;
    return t;
}

/* A table or list that is too short: its name, the places it has and those it needs. Where none is, "", 0 and 0. */
typedef struct nigvalds_short {
    const char *name;
    size_t has, needs;
} nigvalds_short;

/* After number 5: the first table or list that is too short for the sizes asked, f = 0 as at opening, or for those in the record of the call. touched and labels
   come last; batches and clock changes alone need them. None for sizes that an opening refuses: 1 to 4 come before 5. */
static inline nigvalds_short nigvalds_first_short(const nigvalds_tables *t, uint32_t m, uint32_t n, uint32_t f, uint32_t c) {
    const size_t records = nigvalds_records(m, f);
    const nigvalds_short none = {"", 0, 0};
    const nigvalds_short all[] = {{"heads", t->heads_length, m},
                                  {"parents", t->parents_length, m},
                                  {"rows", t->rows_length, records},
                                  {"counts", t->counts_length, records},
                                  {"next", t->next_length, records},
                                  {"book_heads", t->book_heads_length, n},
                                  {"book_rows", t->book_rows_length, c},
                                  {"book_next", t->book_next_length, c},
                                  {"windows", t->windows_length, NIGVALDS_WINDOW_PLACES((size_t)n)},
                                  {"work", t->work_length, NIGVALDS_WORK_PLACES(m, n, records, c)},
                                  {"touched", t->touched_length, m},
                                  {"labels", t->labels_length, m}};
    if (nigvalds_sizes_fit(m, n, f, c)) {
        for (size_t k = 0; k < sizeof all / sizeof all[0]; k++) {
            if (all[k].has < all[k].needs) {
                return all[k];
            }
        }
    }
    return none;
}

#define NIGVALDS_PARTS(t)                                                                                                                           \
    (t)->heads, (t)->heads_length, (t)->parents, (t)->parents_length, (t)->rows, (t)->rows_length, (t)->counts, (t)->counts_length, (t)->next,      \
        (t)->next_length, (t)->book_heads, (t)->book_heads_length, (t)->book_rows, (t)->book_rows_length, (t)->book_next, (t)->book_next_length,    \
        (t)->windows, (t)->windows_length, (t)->work, (t)->work_length
#define NIGVALDS_REPORT(t) (t)->touched, (t)->touched_length, (t)->labels, (t)->labels_length

/* With the default limits. */
static inline nigvalds_opened nigvalds_open_in(const nigvalds_tables *t, uint32_t m, uint32_t n, uint32_t f, uint32_t c) {
    return nigvalds_open(m, n, f, c, 0, 0, 0, NIGVALDS_PARTS(t));
}

/* With limits of the host's own. */
static inline nigvalds_opened nigvalds_open_in_with_limits(const nigvalds_tables *t, uint32_t m, uint32_t n, uint32_t f, uint32_t c, uint32_t grade2,
                                                           uint32_t grade3, uint32_t grade4) {
    return nigvalds_open(m, n, f, c, grade2, grade3, grade4, NIGVALDS_PARTS(t));
}

/* Columns that always count. */
static inline nigvalds_changed nigvalds_add_in(const nigvalds_tables *t, nigvalds_factor factor, const uint32_t *ids, size_t ids_length,
                                               const uint32_t *row_counts, size_t row_counts_length, const uint32_t *row_list, size_t row_list_length) {
    static const uint32_t none[NIGVALDS_MOST_COLUMNS] = {0};
    const size_t r = ids_length < NIGVALDS_MOST_COLUMNS ? ids_length : NIGVALDS_MOST_COLUMNS; /* more ids are 7 whatever the minutes */
    return nigvalds_add(factor, NIGVALDS_PARTS(t), NIGVALDS_REPORT(t), ids, ids_length, row_counts, row_counts_length, row_list, row_list_length,
                        none, r, none, r);
}

/* Columns with windows: a first and a second minute for each. */
static inline nigvalds_changed nigvalds_add_in_with_windows(const nigvalds_tables *t, nigvalds_factor factor, const uint32_t *ids, size_t ids_length,
                                                            const uint32_t *row_counts, size_t row_counts_length, const uint32_t *row_list,
                                                            size_t row_list_length, const uint32_t *firsts, size_t firsts_length,
                                                            const uint32_t *seconds, size_t seconds_length) {
    return nigvalds_add(factor, NIGVALDS_PARTS(t), NIGVALDS_REPORT(t), ids, ids_length, row_counts, row_counts_length, row_list, row_list_length,
                        firsts, firsts_length, seconds, seconds_length);
}

static inline nigvalds_changed nigvalds_remove_in(const nigvalds_tables *t, nigvalds_factor factor, const uint32_t *ids, size_t ids_length) {
    return nigvalds_remove(factor, NIGVALDS_PARTS(t), NIGVALDS_REPORT(t), ids, ids_length);
}

static inline nigvalds_changed nigvalds_set_clock_in(const nigvalds_tables *t, nigvalds_factor factor, uint32_t minute) {
    return nigvalds_set_clock(factor, NIGVALDS_PARTS(t), NIGVALDS_REPORT(t), minute);
}

static inline nigvalds_reply nigvalds_check_in(const nigvalds_tables *t, nigvalds_factor factor) {
    return nigvalds_check(factor, NIGVALDS_PARTS(t));
}

static inline nigvalds_found nigvalds_next_row_in(const nigvalds_tables *t, nigvalds_factor factor, uint32_t i, uint32_t j) {
    return nigvalds_next_row(factor, NIGVALDS_PARTS(t), i, j);
}

static inline nigvalds_reply nigvalds_parent_in(const nigvalds_tables *t, nigvalds_factor factor, uint32_t j) {
    return nigvalds_parent(factor, NIGVALDS_PARTS(t), j);
}

static inline nigvalds_reply nigvalds_path_in(const nigvalds_tables *t, nigvalds_factor factor, uint32_t *list, size_t list_length, uint32_t j, size_t place) {
    return nigvalds_path(factor, NIGVALDS_PARTS(t), list, list_length, j, place);
}

static inline nigvalds_reply nigvalds_column_in(const nigvalds_tables *t, nigvalds_factor factor, uint32_t *list, size_t list_length, uint32_t j, size_t place) {
    return nigvalds_column(factor, NIGVALDS_PARTS(t), list, list_length, j, place);
}

static inline nigvalds_reply nigvalds_meets_in(const nigvalds_tables *t, nigvalds_factor factor, uint32_t *list, size_t list_length, uint32_t i, size_t place) {
    return nigvalds_meets(factor, NIGVALDS_PARTS(t), list, list_length, i, place);
}

static inline nigvalds_reply nigvalds_common_in(const nigvalds_tables *t, nigvalds_factor factor, const uint32_t *row_list, size_t row_list_length) {
    return nigvalds_common(factor, NIGVALDS_PARTS(t), row_list, row_list_length);
}

static inline nigvalds_entry nigvalds_read_in(const nigvalds_tables *t, uint32_t record) {
    return nigvalds_read(t->rows, t->rows_length, t->counts, t->counts_length, t->next, t->next_length, record);
}

#ifdef __cplusplus
}
#endif

#endif
