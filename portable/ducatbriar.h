/* Ducatbriar: a column trie and the leapfrog triejoin over it, with 64-bit keys on every machine.
 *
 * Link with libducatbriar.a, which portable/proved makes for x86-64 Linux, or compile portable/ducatbriar.c, C99 made from what is proved, for
 * any machine (docs/PEDAL-UNIT.md). Of the C library both need memcpy, memmove and memset alone. The calls keep nothing between them, allocate nothing,
 * write nothing but what is said here, and may be used from several threads on words that no other thread changes.
 *
 * A lent list is a pointer and then the number of its words (or bytes), which must really be there. Where that number is 0 the pointer may be null.
 * Lists that one call may change must not overlap any other list of that call. A bool must be one, true or false, as C makes them. Everything else may be
 * any words at all: a bad header, cursor, query or count gets a number of refusal, and no call stops the program, runs on or reaches outside the lists.
 *
 * Every number is 64 bits wide, whatever size_t is.
 *
 * In every answer `number` is DUCATBRIAR_DONE or that of the refusal, for which ducatbriar_meaning has a text. A refusal other than DUCATBRIAR_FULL changes
 * no lent word; the answer's other numbers are 0, each yes or no is a no, and a header or cursor comes back as it was handed in (that of a refused build,
 * rebuild or read is all zeros).
 */
#ifndef DUCATBRIAR_H
#define DUCATBRIAR_H

#include <stdbool.h>
#include <stdint.h>

#ifdef __cplusplus
extern "C" {
#endif

#define DUCATBRIAR_VERSION "0.1.0" /* CHANGELOG.md says what each version changed */

/* The limits: the one place where a caller finds them. */
#define DUCATBRIAR_MAX_ARITY 8        /* columns of a table */
#define DUCATBRIAR_MAX_CAPACITY 65536 /* rows of a table */
#define DUCATBRIAR_MAX_TABLES 8       /* of a join */
#define DUCATBRIAR_MAX_ATOMS 8        /* of a query */
#define DUCATBRIAR_MAX_VARIABLES 8    /* of a query */

/* How many words of the pool a table takes. */
#define DUCATBRIAR_WORDS(arity, capacity) ((uint64_t)2 * (arity) * (capacity))

/* How many bytes the listing of a table takes at most, for an arity and a capacity inside the limits: a table reaches it whose rows all start with different
 * keys and whose keys all have 20 digits. Of each layer these are the 30 bytes around its two lists, and `capacity` keys of 20 digits with 2 bytes between
 * any two; of layer 0 the interval 0; of each other layer the intervals 0 to capacity - 1, with 2 bytes between any two. */
#define DUCATBRIAR_LISTING(arity, capacity)                                                                                                              \
    ((uint64_t)(arity) * (28 + (uint64_t)22 * (capacity)) + 1 +                                                                                           \
     ((uint64_t)(arity) - 1) * (DUCATBRIAR_DIGITS(capacity) + (uint64_t)2 * (capacity) - 2))

/* How many digits the numbers from 0 to capacity - 1 have together: each has one, and one more from each power of ten up. */
#define DUCATBRIAR_DIGITS(capacity)                                                                                                                      \
    ((uint64_t)(capacity) + DUCATBRIAR_FROM(10, capacity) + DUCATBRIAR_FROM(100, capacity) + DUCATBRIAR_FROM(1000, capacity) +                            \
     DUCATBRIAR_FROM(10000, capacity))
#define DUCATBRIAR_FROM(power, capacity) ((capacity) > (power) ? (uint64_t)(capacity) - (power) : 0)

/* How many bytes the file of a table takes at most, for an arity and a capacity inside the limits: a table at capacity reaches it that has a grade among its
 * columns. These are 4 for the arity, 3 and one a column for the kinds, the rows' words, 3 before each field of rows, and 3 at the end. */
#define DUCATBRIAR_FILE(arity, capacity)                                                                                                                 \
    ((uint64_t)(arity) + 10 + 8 * (uint64_t)(arity) * (capacity) +                                                                                        \
     3 * (((uint64_t)(capacity) + DUCATBRIAR_FIELD_ROWS(arity) - 1) / DUCATBRIAR_FIELD_ROWS(arity)))

/* How many rows a field of a file holds at most: as many whole ones as fit in 65,535 bytes. */
#define DUCATBRIAR_FIELD_ROWS(arity) (65535 / (8 * (uint64_t)(arity)))

/* ---- numbers of refusal */

enum {
    DUCATBRIAR_DONE = 0,
    DUCATBRIAR_BAD_ARITY = 1,
    DUCATBRIAR_BAD_CAPACITY = 2,
    DUCATBRIAR_OUTSIDE_POOL = 3,
    DUCATBRIAR_BAD_LENGTH = 4,
    DUCATBRIAR_NO_ROOM = 5,
    DUCATBRIAR_DAMAGED = 6,
    DUCATBRIAR_BAD_CURSOR = 7,
    DUCATBRIAR_BAD_ORDER = 8,
    DUCATBRIAR_BAD_ATOMS = 9,
    DUCATBRIAR_BAD_LIST = 10,
    DUCATBRIAR_FREE_VARIABLE = 11,
    DUCATBRIAR_FULL = 12,
    DUCATBRIAR_NOT_A_FILE = 13,
    DUCATBRIAR_LONG_TEXT = 14,
    DUCATBRIAR_MIXED_KINDS = 15,
    DUCATBRIAR_PART_ROWS = 16,
    DUCATBRIAR_OTHER_SHAPE = 17
};

/* What a number means, in one line. It is here and not in the archive. */
static inline const char *ducatbriar_meaning(uint64_t number)
{
    switch (number) {
    case DUCATBRIAR_DONE:
        return "done";
    case DUCATBRIAR_BAD_ARITY:
        return "the arity is 0 or over 8";
    case DUCATBRIAR_BAD_CAPACITY:
        return "the capacity is 0 or over 65536";
    case DUCATBRIAR_OUTSIDE_POOL:
        return "the table's words do not lie in the pool";
    case DUCATBRIAR_BAD_LENGTH:
        return "the words are not whole rows, or the tuple is not as long as the arity";
    case DUCATBRIAR_NO_ROOM:
        return "there are more rows than the capacity, duplicates counted, or the tuple is new and the table full";
    case DUCATBRIAR_DAMAGED:
        return "the table is damaged, or the pool is not its own";
    case DUCATBRIAR_BAD_CURSOR:
        return "the cursor does not stand in the table";
    case DUCATBRIAR_BAD_ORDER:
        return "the order is not a permutation of the variables, or there are over 8 of them, or the columns are not one of the table's";
    case DUCATBRIAR_BAD_ATOMS:
        return "there are over 8 atoms or 8 tables, or an atom names no table";
    case DUCATBRIAR_BAD_LIST:
        return "an atom's list is not as long as its table's arity, holds a number that is no variable, or does not strictly follow the order";
    case DUCATBRIAR_FREE_VARIABLE:
        return "some variable is in no atom";
    case DUCATBRIAR_FULL:
        return "more rows exist than fit the window";
    case DUCATBRIAR_NOT_A_FILE:
        return "the bytes are not a table file";
    case DUCATBRIAR_LONG_TEXT:
        return "the text or file is longer than its destination";
    case DUCATBRIAR_MIXED_KINDS:
        return "some variable binds columns of both kinds, plain and grade";
    case DUCATBRIAR_PART_ROWS:
        return "the length of the window or listing is no whole number of rows";
    case DUCATBRIAR_OTHER_SHAPE:
        return "two tables laid over one another are not of the same arity and kinds";
    default:
        return "a number that no call gives";
    }
}

/* ---- strategies */

/* How a run is searched. A number that is none of these counts as galloping. */
#define DUCATBRIAR_LINEAR 0    /* key by key from the front */
#define DUCATBRIAR_BINARY 1    /* by halves */
#define DUCATBRIAR_GALLOPING 2 /* at doubling distances, then by halves */

/* ---- seeks and grades */

typedef struct {
    uint64_t offset; /* the first key not below the target, or the run's length */
    uint64_t probes; /* how many keys were looked at */
    bool hit;        /* whether the offset is inside the run and the key there is the target; that comparison is no probe */
} ducatbriar_sought;

/* Seeks the target in a run of `len` words. On a run that does not ascend: where the strategy's probes end. Never refuses; the run is only read. */
ducatbriar_sought ducatbriar_partition_point(uint64_t strategy, const uint64_t *run, uint64_t len, uint64_t target);

/* The word of a grade, a signed whole number of thousandths: the grade plus 2^63, so that words ascend as grades do. Never refuses. Tables with grades
   that were made by the earlier rule (the number itself from 0 up, 2^64 plus it below 0) are to be rebuilt: their words don't tell which rule made them. */
uint64_t ducatbriar_word_of(int64_t grade);

/* The grade of a word: the reverse of ducatbriar_word_of. Never refuses. */
int64_t ducatbriar_grade_of(uint64_t word);

/* ---- tables */

/* A table's header. Its words are the DUCATBRIAR_WORDS(arity, capacity) from pool[start] on: layer by layer, `capacity` words of data, then `capacity` words
 * of intervals. Words past a list's length keep what they held. */
typedef struct {
    uint64_t start, arity, capacity;
    uint64_t data_len[DUCATBRIAR_MAX_ARITY];
    uint64_t interval_len[DUCATBRIAR_MAX_ARITY];
    uint64_t tuple_count;             /* distinct rows */
    bool grade[DUCATBRIAR_MAX_ARITY]; /* each column's kind: whether its words are those of grades; false past the arity */
} ducatbriar_table;

/* The kinds of a table's columns, for a build: true for a column of grades' words (ducatbriar_word_of), false for a plain one. */
typedef struct {
    bool grade[DUCATBRIAR_MAX_ARITY];
} ducatbriar_kinds;

typedef struct {
    uint64_t number;
    ducatbriar_table table;
} ducatbriar_built;

typedef struct {
    uint64_t number;
    bool is_new;
    ducatbriar_table table;
} ducatbriar_inserted;

typedef struct {
    uint64_t number;
    bool was_there;
    ducatbriar_table table;
} ducatbriar_removed;

typedef struct {
    uint64_t number;
    uint64_t len;
} ducatbriar_listed;

/* The header of a table without rows and with plain columns: that of a build over no rows with the same three numbers, where such a build is not refused.
 * Elsewhere (an arity or a capacity outside the limits, words that do not lie in the pool) the calls take it for a damaged table. Never refuses. */
ducatbriar_table ducatbriar_empty(uint64_t start, uint64_t arity, uint64_t capacity);

/* Whether the table is undamaged: the header fits limits and pool, no column past the arity is a grade, and the words are the layers of a set of rows. Both
 * are only read. */
bool ducatbriar_undamaged(const uint64_t *pool, uint64_t len, ducatbriar_table table);

/* Builds a table at `start` of the pool from rows of `arity` words, one behind the other: sorts the rows in place, duplicates kept, and stores each
 * distinct one once. The columns get these kinds; those past the arity are stored as plain. Refusals 1, 2, 3, 4, 5, looked for in that sequence. Pool words
 * that are not in a list of the table's stay. */
ducatbriar_built ducatbriar_build(uint64_t *rows, uint64_t rows_len, uint64_t *pool, uint64_t pool_len, uint64_t start, uint64_t arity,
                                  uint64_t capacity, ducatbriar_kinds kinds);

/* Inserts a tuple of `tuple_len` words and says whether it was new; the header that comes back replaces the one handed in, with the same kinds. A tuple that
 * is there changes nothing, also in a table at capacity. Refusals 6, 4, 5, in that sequence. Pool words that are not in a list of the table's stay. */
ducatbriar_inserted ducatbriar_insert(uint64_t *pool, uint64_t len, ducatbriar_table table, const uint64_t *tuple, uint64_t tuple_len);

/* Takes a tuple of `tuple_len` words out and says whether it was there; the header that comes back replaces the one handed in, with the same kinds. The
 * layers are then those of a build over the remaining rows, and their room is used again: a table at capacity takes a new tuple after a removal. A tuple that
 * is not there changes nothing. Refusals 6, 4, in that sequence. Pool words that are not in a list of the table's stay, those past the new lengths too. */
ducatbriar_removed ducatbriar_remove(uint64_t *pool, uint64_t len, ducatbriar_table table, const uint64_t *tuple, uint64_t tuple_len);

/* A table's columns in another sequence: number i names the old column that becomes column i, of which as many count as the table has columns. */
typedef struct {
    uint64_t columns[DUCATBRIAR_MAX_ARITY];
} ducatbriar_columns;

/* Rebuilds a table with its columns permuted, for a query in another order, at `start` of a second pool and with room for `capacity` rows: the table that a
 * build of its rows, so permuted, leaves there, each column's kind going along. Refusals 6, 8, 2, 3, 5, looked for in that sequence; 8: the numbers are not a
 * permutation of the table's columns; those past its arity are not looked at. The first pool is only read, and words of the second that are not in a list of
 * the new table's stay: there is no other room that it needs. */
ducatbriar_built ducatbriar_permute(const uint64_t *pool, uint64_t pool_len, ducatbriar_table table, ducatbriar_columns columns, uint64_t *into,
                                    uint64_t into_len, uint64_t start, uint64_t capacity);

/* Writes the table's layers as text at the front of `text`, without a 0 behind it, and answers its length. Refusals 6, 14, in that sequence; a text of
 * DUCATBRIAR_LISTING(arity, capacity) bytes is never too short. The bytes behind the listing stay, and the pool is only read. */
ducatbriar_listed ducatbriar_list(const uint64_t *pool, uint64_t len, ducatbriar_table table, uint8_t *text, uint64_t text_len);

/* ---- table files: a table as bytes, the same on every machine (docs/FILES.md). One table has one file. */

typedef struct {
    uint64_t number;
    uint64_t len;
} ducatbriar_file_written;

/* Writes the table's file at the front of `bytes`, and answers its length: arity, kinds and rows, and nothing of start, capacity or the words past the rows.
 * Refusals 6, 14, in that sequence; a destination of DUCATBRIAR_FILE(arity, capacity) bytes is never too short. The bytes behind the file stay, and the pool
 * is only read. */
ducatbriar_file_written ducatbriar_write(const uint64_t *pool, uint64_t len, ducatbriar_table table, uint8_t *bytes, uint64_t bytes_len);

/* Reads a file that is `bytes_len` bytes long into a table at `start` of the pool, with room for `capacity` rows and the file's arity and kinds: the table
 * that a build of its rows leaves. Refusals 13, 2, 3, 5, looked for in that sequence, and all of them before the first word is written. The bytes are only
 * read, and pool words that are not in a list of the table's stay. A write of the table that is read gives these very bytes again. */
ducatbriar_built ducatbriar_read(const uint8_t *bytes, uint64_t bytes_len, uint64_t *pool, uint64_t pool_len, uint64_t start, uint64_t capacity);

/* ---- cursors: a trie iterator over a table. Pool and header are only read. */

/* All three are 0 at the root, where a cursor starts. Below it: the depth, whose children are looked at, and how many of them are passed. */
typedef struct {
    uint64_t depth, interval_i, slice_offset;
} ducatbriar_cursor;

typedef struct {
    uint64_t number;
    bool found;
    uint64_t key; /* 0 where none is found */
} ducatbriar_key_answer;

typedef struct {
    uint64_t number;
    bool found;
    uint64_t key;
    ducatbriar_cursor cursor;
} ducatbriar_next_answer;

typedef struct {
    uint64_t number;
    bool found;
    bool hit; /* whether the cursor stands on the target now; false at the root, at the end and in refusals */
    uint64_t probes;
    ducatbriar_cursor cursor;
} ducatbriar_seek_answer;

typedef struct {
    uint64_t number;
    bool at_end;
} ducatbriar_end_answer;

typedef struct {
    uint64_t number;
    bool opened;
    ducatbriar_cursor cursor;
} ducatbriar_open_answer;

typedef struct {
    uint64_t number;
    bool risen;
    ducatbriar_cursor cursor;
} ducatbriar_up_answer;

/* Each looks for 6 in the header, whose kinds it leaves out, then 7 in the cursor. On words that are damaged elsewhere the answers follow the lists as they
 * stand. */

/* The key that the cursor stands on; none at the root and at the end. */
ducatbriar_key_answer ducatbriar_key(const uint64_t *pool, uint64_t len, ducatbriar_table table, ducatbriar_cursor cursor);

/* To the key behind, which it gives; from the last key to the end, where it stays. */
ducatbriar_next_answer ducatbriar_next(const uint64_t *pool, uint64_t len, ducatbriar_table table, ducatbriar_cursor cursor);

/* To the first key not yet passed that is not below the target, or to the end; whether there is one. It stays put where the present key is not below. */
ducatbriar_seek_answer ducatbriar_seek(const uint64_t *pool, uint64_t len, ducatbriar_table table, ducatbriar_cursor cursor, uint64_t strategy,
                                       uint64_t target);

/* Whether no key is left; yes at the root. */
ducatbriar_end_answer ducatbriar_at_end(const uint64_t *pool, uint64_t len, ducatbriar_table table, ducatbriar_cursor cursor);

/* To the first key below the one it stands on, or from the root to the first key of all. It is no, and nothing moves, at full depth, at the end and
 * on a table without rows. Also 6, where the layer below lacks the interval or the group. */
ducatbriar_open_answer ducatbriar_open(const uint64_t *pool, uint64_t len, ducatbriar_table table, ducatbriar_cursor cursor);

/* Back to the key that was opened; no at the root. Also 6, where no interval above owns the cursor's. */
ducatbriar_up_answer ducatbriar_up(const uint64_t *pool, uint64_t len, ducatbriar_table table, ducatbriar_cursor cursor);

/* ---- a table laid over another: a school's over a maker's. The rows that count are all of the school's, and those of the maker's whose first key the school's
 * lacks. Each table lies in a lent pool; both may lie in the same. Pools and headers are only read. */

typedef struct {
    uint64_t number;
    bool from_school; /* whose pool the run is a part of */
    uint64_t from;    /* its place in that pool */
    uint64_t len;
} ducatbriar_looked_up;

/* Where the sibling keys under a first key lie: in the school's pool if the school has the key, else in the maker's; no run, 0 long, if neither has it.
 * Refusals 6 on either, 17, 1 below two columns, in that sequence. */
ducatbriar_looked_up ducatbriar_lookup(const uint64_t *school_pool, uint64_t school_len, ducatbriar_table school, const uint64_t *maker_pool,
                                       uint64_t maker_len, ducatbriar_table maker, uint64_t key);

/* The run itself, `len` keys from the pointer on, of an answer for these pools; null where there is none. It is here and not in the archive. */
static inline const uint64_t *ducatbriar_run(ducatbriar_looked_up found, const uint64_t *school_pool, const uint64_t *maker_pool)
{
    if (found.len == 0)
        return 0;
    return (found.from_school ? school_pool : maker_pool) + found.from;
}

/* A cursor over the rows that count: one cursor on each table. All six numbers are 0 at the root, where it starts; the cursor of a table without rows stays there.
 * Among the first keys each stands on its first key not below the present one; below them the cursor of the key's owner walks, and the other stays. */
typedef struct {
    ducatbriar_cursor school, maker;
} ducatbriar_laid_cursor;

typedef struct {
    uint64_t number;
    bool found;
    uint64_t key;
    ducatbriar_laid_cursor cursor;
} ducatbriar_laid_next_answer;

typedef struct {
    uint64_t number;
    bool found;
    bool hit;
    uint64_t probes; /* those of both added up */
    ducatbriar_laid_cursor cursor;
} ducatbriar_laid_seek_answer;

typedef struct {
    uint64_t number;
    bool opened;
    ducatbriar_laid_cursor cursor;
} ducatbriar_laid_open_answer;

typedef struct {
    uint64_t number;
    bool risen;
    ducatbriar_laid_cursor cursor;
} ducatbriar_laid_up_answer;

/* Each looks for 6 in full in both tables, the school's first, then 17, then 7 for a pair that is no state; else it is the call of that name above, over the rows
 * that count. */
ducatbriar_key_answer ducatbriar_laid_key(const uint64_t *school_pool, uint64_t school_len, ducatbriar_table school, const uint64_t *maker_pool, uint64_t maker_len,
                                          ducatbriar_table maker, ducatbriar_laid_cursor cursor);

ducatbriar_laid_next_answer ducatbriar_laid_next(const uint64_t *school_pool, uint64_t school_len, ducatbriar_table school, const uint64_t *maker_pool, uint64_t maker_len,
                                                 ducatbriar_table maker, ducatbriar_laid_cursor cursor);

ducatbriar_laid_seek_answer ducatbriar_laid_seek(const uint64_t *school_pool, uint64_t school_len, ducatbriar_table school, const uint64_t *maker_pool, uint64_t maker_len,
                                                 ducatbriar_table maker, ducatbriar_laid_cursor cursor, uint64_t strategy, uint64_t target);

ducatbriar_end_answer ducatbriar_laid_at_end(const uint64_t *school_pool, uint64_t school_len, ducatbriar_table school, const uint64_t *maker_pool, uint64_t maker_len,
                                             ducatbriar_table maker, ducatbriar_laid_cursor cursor);

ducatbriar_laid_open_answer ducatbriar_laid_open(const uint64_t *school_pool, uint64_t school_len, ducatbriar_table school, const uint64_t *maker_pool, uint64_t maker_len,
                                                 ducatbriar_table maker, ducatbriar_laid_cursor cursor);

ducatbriar_laid_up_answer ducatbriar_laid_up(const uint64_t *school_pool, uint64_t school_len, ducatbriar_table school, const uint64_t *maker_pool, uint64_t maker_len,
                                             ducatbriar_table maker, ducatbriar_laid_cursor cursor);

/* ---- joins */

/* An atom over one table or, where it is laid over, over the rows that count of two: `table` is then the school's and `maker` the maker's. Where laid_over is
 * false, as in an atom that begins as zeros, `maker` is not looked at. */
typedef struct {
    uint64_t table; /* its number among the tables */
    uint64_t len;
    uint64_t variables[DUCATBRIAR_MAX_ARITY]; /* the first `len` count */
    bool laid_over;
    uint64_t maker; /* its number among the tables */
} ducatbriar_atom;

/* Variables are 0 to n - 1, bound in the sequence of `order`, of which the first n count. */
typedef struct {
    uint64_t n;
    uint64_t order[DUCATBRIAR_MAX_VARIABLES];
    uint64_t atom_count;
    ducatbriar_atom atoms[DUCATBRIAR_MAX_ATOMS];
} ducatbriar_query;

/* Tables of one pool. They may overlap, and one may serve several atoms. */
typedef struct {
    uint64_t count;
    ducatbriar_table tables[DUCATBRIAR_MAX_TABLES];
} ducatbriar_tables;

typedef struct {
    uint64_t number;
    uint64_t rows;  /* written */
    uint64_t seeks; /* made by the leapfrogs, one for a seek of an atom, laid over or not; 2^64 - 1 stands for that and all above */
} ducatbriar_joined;

/* Writes the query's rows at the front of the window: the assignments of words to variables whose part for each atom is a row of its table, each once,
 * n words by variable number, ascending as read in the order, the same under all strategies. An atom that is laid over has the rows that count of its two
 * tables: the rows and seeks are those over a table built afresh from them. Refusals 8, 9, 10, 11, 15, 16, 6, 17, 12, in that sequence; only tables that atoms
 * name are looked at, the maker's for 9, 6 and 17 alone: 10 reads the school's arity, 15 the school's kinds. 15: a grade is joined to what is none. 16: n is
 * above 0 and `window_len` is not a multiple of it; 0 is one. 17: an atom's two tables are not of the same arity and kinds. With 12 the window holds as many
 * of the first rows as it is rows long, `rows` says how many, and `seeks` are those up to finding the first row that does not fit; with any other refusal both
 * are 0. Words behind the rows stay, and the pool is only read. */
ducatbriar_joined ducatbriar_join(uint64_t strategy, const uint64_t *pool, uint64_t len, ducatbriar_tables tables, ducatbriar_query query,
                                  uint64_t *window, uint64_t window_len);

typedef struct {
    uint64_t number;
    uint64_t rows; /* written */
} ducatbriar_plain_joined;

/* The same by a plain engine, for someone who examines the other one (docs/EXAMINER.md): no leapfrogs, and so no strategy and no seeks. Number, rows and every
 * word of the window are those of ducatbriar_join on the same pool, tables, query and window, refusals included. It is slower by design. */
ducatbriar_plain_joined ducatbriar_plain_join(const uint64_t *pool, uint64_t len, ducatbriar_tables tables, ducatbriar_query query, uint64_t *window,
                                              uint64_t window_len);

/* A row that is handed over, by variable number: of a query with n variables the first n words count. */
typedef struct {
    uint64_t words[DUCATBRIAR_MAX_VARIABLES];
} ducatbriar_row;

typedef struct {
    uint64_t number;
    uint64_t rows;                           /* written */
    uint64_t last[DUCATBRIAR_MAX_VARIABLES]; /* the last row written, or the given one if none was; words past n are 0 */
} ducatbriar_joined_after;

/* A window at a time, for a unit with little room. A start (`goes_on` false; `after` is not looked at) writes what ducatbriar_join writes, and answers the same
 * number. Going on writes the rows that come strictly after the row `after` as read in the order, of the tables as they stand at this call; that row need not
 * be an answer, and its words past n are not looked at. Refusals 8, 9, 10, 11, 15, 16, 6, 17, 12, in that sequence, as of ducatbriar_join: with 12 more rows
 * remain than the window is rows long, and it holds the first of them; a window of no words then gets none, and `last` is the given row. At a start without
 * rows, and with any other refusal, `last` is all zeros. With n = 0 a start gives the empty row, and going on gives none. Words behind the rows stay, and the
 * pool is only read. It looks for its place by seeks: a call costs its checks, the search for one row, and the rows that it writes, not those before them.
 *
 * With tables unchanged and windows of at least a row, the pieces one behind the other are the rows of one join with room for all. The unit's loop, with room
 * for twenty rows (examples/c/windows.c):
 *
 *     ducatbriar_row after = {{0}};
 *     ducatbriar_joined_after piece;
 *     bool goes_on = false;
 *     do {
 *         piece = ducatbriar_join_after(strategy, pool, len, tables, query, goes_on, after, window, 20 * query.n);
 *         show(window, piece.rows);
 *         after = ducatbriar_last(piece);
 *         goes_on = true;
 *     } while (piece.number == DUCATBRIAR_FULL);
 */
ducatbriar_joined_after ducatbriar_join_after(uint64_t strategy, const uint64_t *pool, uint64_t len, ducatbriar_tables tables, ducatbriar_query query,
                                              bool goes_on, ducatbriar_row after, uint64_t *window, uint64_t window_len);

/* An answer's last row, as the next call takes it. It is here and not in the archive. */
static inline ducatbriar_row ducatbriar_last(ducatbriar_joined_after answer)
{
    ducatbriar_row row;
    for (int i = 0; i < DUCATBRIAR_MAX_VARIABLES; i++)
        row.words[i] = answer.last[i];
    return row;
}

/* ---- a recorded listing, checked */

/* What a check says of a listing. A refused one says nothing of it. */
enum {
    DUCATBRIAR_NOT_CHECKED = 0,
    DUCATBRIAR_ACCEPTED = 1,   /* it is the query's complete listing, row by row */
    DUCATBRIAR_WRONG_ROW = 2,  /* `row` is no answer, or does not come strictly after the row before it; the rows before it are good */
    DUCATBRIAR_MISSING_ROW = 3 /* every row is good, and `missing` is the least row missing, in the order's sequence */
};

typedef struct {
    uint64_t number;
    uint64_t verdict;                           /* one of these four */
    uint64_t row;                               /* counted from 0; 0 unless the verdict is DUCATBRIAR_WRONG_ROW */
    uint64_t missing[DUCATBRIAR_MAX_VARIABLES]; /* n words by variable number, zeros behind them; zeros unless it is DUCATBRIAR_MISSING_ROW */
} ducatbriar_checked;

/* Checks a listing that some unit gave for this query over these tables: `listing_len` words, n a row by variable number, as a join writes them. It uses no
 * leapfrog (docs/DISPUTES.md). Refusals 8, 9, 10, 11, 15, 16, 6, 17, in that sequence, as ducatbriar_join's, of a window as long as the listing; 12 is never
 * given: a listing that was cut by it lacks a row. `count` is how many rows the listing has, and is read for n = 0 alone, where rows have no words: more than 1
 * are wrong at row 1, and 0 lack the empty row. Nothing is written. */
ducatbriar_checked ducatbriar_check_listing(const uint64_t *pool, uint64_t len, ducatbriar_tables tables, ducatbriar_query query, const uint64_t *listing,
                                            uint64_t listing_len, uint64_t count);

#ifdef __cplusplus
}
#endif

#endif
