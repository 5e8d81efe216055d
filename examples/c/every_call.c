/* Uses every call once or more, over keys that need more than 32 bits: a lesson's stretches of road and their grades, walked by a cursor, joined with the
 * friction of their surfaces into a window that is too small, and then into one that isn't, by both engines, and into one for a row at a time; what was listed is checked, as it is and bent; another
 * department asks the same by stretch, over a road that is rebuilt; the grades go to another unit as a file; a school's own friction is laid over the maker's, and at
 * the end a stretch is taken out.
 *
 * Road: (surface, stretch). Grades: (grade, stretch), a grade as its word. Friction: (surface, thousandths). Each check that fails ends the program. */
#include <inttypes.h>
#include <stdio.h>
#include <stdlib.h>
#include <string.h>

#include "ducatbriar.h"

#define COUNT(list) (sizeof(list) / sizeof((list)[0]))
#define KIND(kind, code) (((uint64_t)(kind) << 32) + (code))

/* Cut to 32 bits both would be 5. */
#define WET_COBBLES KIND(7, 5)
#define ICY_COBBLES KIND(9, 5)
#define WET_GRAVEL KIND(7, 6)
#define ICY_GRAVEL KIND(9, 6)

enum { CAPACITY = 4, WORDS = DUCATBRIAR_WORDS(2, CAPACITY), STRETCHES = 3 };

/* Where each table starts. */
enum { ROAD = 0, GRADES = WORDS, FRICTION = 2 * WORDS, SCHOOL = 3 * WORDS };

static uint64_t pool[4 * WORDS];

/* Goes on only where the call did what was asked. */
static void done(const char *what, uint64_t number)
{
    if (number != DUCATBRIAR_DONE) {
        printf("%s: refused with %" PRIu64 ", %s\n", what, number, ducatbriar_meaning(number));
        exit(1);
    }
}

static const ducatbriar_kinds plain = {{false}};
static const ducatbriar_kinds grade_first = {{true}};

static ducatbriar_table built(const char *what, uint64_t *rows, uint64_t len, uint64_t start, ducatbriar_kinds kinds)
{
    ducatbriar_built answer = ducatbriar_build(rows, len, pool, COUNT(pool), start, 2, CAPACITY, kinds);
    done(what, answer.number);
    return answer.table;
}

static ducatbriar_table road(void)
{
    uint64_t rows[] = {ICY_COBBLES, 12, WET_COBBLES, 11, WET_COBBLES, 10};
    return built("the road", rows, COUNT(rows), ROAD, plain);
}

/* In thousandths: stretch 10 falls, 11 is level, 12 rises. Words ascend as grades do. */
static ducatbriar_table grades(void)
{
    const int64_t of[STRETCHES] = {-60, 0, 45};
    uint64_t rows[2 * STRETCHES];
    for (uint64_t i = 0; i < STRETCHES; i++) {
        rows[2 * i] = ducatbriar_word_of(of[i]);
        rows[2 * i + 1] = 10 + i;
    }
    return built("the grades", rows, COUNT(rows), GRADES, grade_first);
}

/* From no rows, row by row. */
static ducatbriar_table friction(void)
{
    const uint64_t rows[][2] = {{WET_COBBLES, 470}, {ICY_COBBLES, 160}, {WET_COBBLES, 470}};
    ducatbriar_table table = ducatbriar_empty(FRICTION, 2, CAPACITY);
    for (uint64_t i = 0; i < COUNT(rows); i++) {
        ducatbriar_inserted answer = ducatbriar_insert(pool, COUNT(pool), table, rows[i], 2);
        done("a friction", answer.number);
        printf("friction %" PRIu64 ": %s\n", rows[i][1], answer.is_new ? "new" : "there already");
        table = answer.table;
    }
    return table;
}

/* What the school measured itself: wet cobbles anew, and gravel, of which the maker says nothing. */
static ducatbriar_table school_friction(void)
{
    uint64_t rows[] = {WET_COBBLES, 430, WET_GRAVEL, 550};
    return built("the school's friction", rows, COUNT(rows), SCHOOL, plain);
}

/* A text that is never too short for a table of this size. */
static void list(ducatbriar_table table)
{
    uint8_t text[DUCATBRIAR_LISTING(2, CAPACITY)];
    ducatbriar_listed listed = ducatbriar_list(pool, COUNT(pool), table, text, 8);
    printf("in 8 bytes: %s\n", ducatbriar_meaning(listed.number));
    listed = ducatbriar_list(pool, COUNT(pool), table, text, COUNT(text));
    done("the listing", listed.number);
    fwrite(text, 1, listed.len, stdout);
}

/* The grades as a file, which another unit reads into a pool of its own, with room for no row more, and writes again. */
static void carry(ducatbriar_table table)
{
    uint8_t bytes[DUCATBRIAR_FILE(2, CAPACITY)], again[DUCATBRIAR_FILE(2, CAPACITY)];
    uint64_t unit[DUCATBRIAR_WORDS(2, STRETCHES)];
    ducatbriar_file_written written = ducatbriar_write(pool, COUNT(pool), table, bytes, 8);
    printf("a file in 8 bytes: %s\n", ducatbriar_meaning(written.number));
    written = ducatbriar_write(pool, COUNT(pool), table, bytes, COUNT(bytes));
    done("the file", written.number);
    ducatbriar_built read = ducatbriar_read(bytes, written.len, unit, COUNT(unit), 0, STRETCHES);
    done("the read", read.number);
    printf("a file of %" PRIu64 " bytes: %" PRIu64 " rows, kinds %d %d\n", written.len, read.table.tuple_count, read.table.grade[0], read.table.grade[1]);
    ducatbriar_file_written twice = ducatbriar_write(unit, COUNT(unit), read.table, again, COUNT(again));
    done("the file once more", twice.number);
    printf("written again: %s\n", twice.len == written.len && memcmp(bytes, again, written.len) == 0 ? "the same bytes" : "other bytes");
    read = ducatbriar_read(bytes, written.len - 1, unit, COUNT(unit), 0, STRETCHES);
    printf("without its last byte: %s\n", ducatbriar_meaning(read.number));
}

/* The stretches below a surface's key, from the one it stands on. */
static void print_stretches(ducatbriar_table table, ducatbriar_cursor at)
{
    ducatbriar_key_answer key = ducatbriar_key(pool, COUNT(pool), table, at);
    while (key.found) {
        printf("  stretch %" PRIu64 "\n", key.key);
        ducatbriar_next_answer next = ducatbriar_next(pool, COUNT(pool), table, at);
        done("next", next.number);
        at = next.cursor;
        key = ducatbriar_key(pool, COUNT(pool), table, at);
    }
    printf("  at the end: %s\n", ducatbriar_at_end(pool, COUNT(pool), table, at).at_end ? "yes" : "no");
}

/* Opens the road, seeks the icy cobbles, opens them, and goes up again. */
static void walk(ducatbriar_table table)
{
    ducatbriar_cursor root = {0, 0, 0};
    ducatbriar_open_answer top = ducatbriar_open(pool, COUNT(pool), table, root);
    done("open", top.number);
    ducatbriar_seek_answer icy = ducatbriar_seek(pool, COUNT(pool), table, top.cursor, DUCATBRIAR_BINARY, ICY_COBBLES);
    done("seek", icy.number);
    printf("icy cobbles: %s, probes %" PRIu64 "\n", icy.hit ? "hit" : "no hit", icy.probes);
    ducatbriar_open_answer below = ducatbriar_open(pool, COUNT(pool), table, icy.cursor);
    done("open", below.number);
    print_stretches(table, below.cursor);
    ducatbriar_up_answer up = ducatbriar_up(pool, COUNT(pool), table, below.cursor);
    done("up", up.number);
    printf("back on %" PRIu64 "\n", ducatbriar_key(pool, COUNT(pool), table, up.cursor).key);
    ducatbriar_cursor nowhere = {1, 7, 0};
    printf("a cursor that is none: %s\n", ducatbriar_meaning(ducatbriar_key(pool, COUNT(pool), table, nowhere).number));
}

/* Whether the plain engine gives the same answer and the same words, of a window of `len` words. */
static void join_plainly(ducatbriar_tables tables, ducatbriar_query query, ducatbriar_joined answer, const uint64_t *window, uint64_t len)
{
    uint64_t again[4 * STRETCHES];
    ducatbriar_plain_joined plainly = ducatbriar_plain_join(pool, COUNT(pool), tables, query, again, len);
    bool same = plainly.number == answer.number && plainly.rows == answer.rows && memcmp(again, window, query.n * answer.rows * sizeof again[0]) == 0;
    printf("by the plain engine: %" PRIu64 " rows, %s\n", plainly.rows, same ? "the same" : "others");
}

/* The same rows, one at a time: each call goes on after the row of the one before. */
static void join_by_rows(ducatbriar_tables tables, ducatbriar_query query, const uint64_t *rows)
{
    uint64_t window[4], calls = 0;
    ducatbriar_row after = {{0}};
    ducatbriar_joined_after piece;
    bool same = true;
    do {
        piece = ducatbriar_join_after(DUCATBRIAR_GALLOPING, pool, COUNT(pool), tables, query, calls > 0, after, window, COUNT(window));
        same = same && memcmp(window, rows + 4 * calls, sizeof window) == 0 && memcmp(window, piece.last, sizeof window) == 0;
        after = ducatbriar_last(piece);
        calls++;
    } while (piece.number == DUCATBRIAR_FULL);
    done("a row at a time", piece.number);
    printf("a row at a time: %" PRIu64 " rows, %s\n", calls, same ? "the same" : "others");
}

/* What a check says of `len` words that are said to be the query's listing. */
static void check(const char *what, ducatbriar_tables tables, ducatbriar_query query, const uint64_t *listing, uint64_t len)
{
    ducatbriar_checked answer = ducatbriar_check_listing(pool, COUNT(pool), tables, query, listing, len, 0);
    printf("%s: ", what);
    switch (answer.verdict) {
    case DUCATBRIAR_ACCEPTED:
        printf("accepted\n");
        break;
    case DUCATBRIAR_WRONG_ROW:
        printf("row %" PRIu64 " is wrong\n", answer.row);
        break;
    case DUCATBRIAR_MISSING_ROW:
        printf("stretch %" PRIu64 " on surface %" PRIu64 " is missing\n", answer.missing[1], answer.missing[2]);
        break;
    default:
        printf("%s\n", ducatbriar_meaning(answer.number));
    }
}

/* The listing as it was written, with a friction changed, without its last row, and without its last word. */
static void dispute(ducatbriar_tables tables, ducatbriar_query query, uint64_t *listing, uint64_t len)
{
    check("the listing", tables, query, listing, len);
    listing[7]++;
    check("with the second friction changed", tables, query, listing, len);
    listing[7]--;
    check("without the last row", tables, query, listing, len - 4);
    check("without the last word", tables, query, listing, len - 1);
}

/* Variables: 0 grade, 1 stretch, 2 surface, 3 friction, bound as 2 0 1 3: by surface, then by grade. */
static void join(ducatbriar_tables tables)
{
    const ducatbriar_query query = {
        .n = 4,
        .order = {2, 0, 1, 3},
        .atom_count = 3,
        .atoms = {{.table = 0, .len = 2, .variables = {2, 1}},
                  {.table = 1, .len = 2, .variables = {0, 1}},
                  {.table = 2, .len = 2, .variables = {2, 3}}},
    };
    uint64_t window[4 * STRETCHES];
    ducatbriar_joined answer = ducatbriar_join(DUCATBRIAR_GALLOPING, pool, COUNT(pool), tables, query, window, 4);
    printf("in 4 words: %" PRIu64 " row, %s\n", answer.rows, ducatbriar_meaning(answer.number));
    answer = ducatbriar_join(DUCATBRIAR_GALLOPING, pool, COUNT(pool), tables, query, window, COUNT(window));
    done("the join", answer.number);
    for (uint64_t i = 0; i < answer.rows; i++) {
        const uint64_t *row = &window[4 * i];
        printf("surface %" PRIu64 ", grade %" PRId64 ", stretch %" PRIu64 ": 0.%03" PRIu64 "\n", row[2], ducatbriar_grade_of(row[0]), row[1], row[3]);
    }
    printf("seeks: %" PRIu64 "\n", answer.seeks);
    join_plainly(tables, query, answer, window, COUNT(window));
    join_by_rows(tables, query, window);
    dispute(tables, query, window, 4 * answer.rows);
}

/* Variables: 0 surface, 1 stretch, 2 friction. What one department plans as 0 1 2 another plans by stretch, as 1 0 2. The road goes against that order, and is
 * rebuilt as (stretch, surface) into a second pool; so is the friction, with its columns as they were, since the tables of a join lie in one pool. */
static void join_by_stretch(ducatbriar_table road, ducatbriar_table friction)
{
    const ducatbriar_columns turned = {{1, 0}}, twice = {{1, 1}}, as_it_was = {{0, 1}};
    uint64_t other[2 * WORDS], window[3 * STRETCHES];
    ducatbriar_built by_stretch = ducatbriar_permute(pool, COUNT(pool), road, twice, other, COUNT(other), 0, CAPACITY);
    printf("column 1 twice: %s\n", ducatbriar_meaning(by_stretch.number));
    by_stretch = ducatbriar_permute(pool, COUNT(pool), road, turned, other, COUNT(other), 0, CAPACITY);
    done("the road by stretch", by_stretch.number);
    ducatbriar_built copied = ducatbriar_permute(pool, COUNT(pool), friction, as_it_was, other, COUNT(other), WORDS, CAPACITY);
    done("the friction", copied.number);
    const ducatbriar_tables tables = {.count = 2, .tables = {by_stretch.table, copied.table}};
    const ducatbriar_query query = {
        .n = 3,
        .order = {1, 0, 2},
        .atom_count = 2,
        .atoms = {{.table = 0, .len = 2, .variables = {1, 0}}, {.table = 1, .len = 2, .variables = {0, 2}}},
    };
    ducatbriar_joined answer = ducatbriar_join(DUCATBRIAR_GALLOPING, other, COUNT(other), tables, query, window, COUNT(window));
    done("the join by stretch", answer.number);
    for (uint64_t i = 0; i < answer.rows; i++) {
        printf("stretch %" PRIu64 ", surface %" PRIu64 ": 0.%03" PRIu64 "\n", window[3 * i + 1], window[3 * i], window[3 * i + 2]);
    }
}

/* Takes the road's last stretch out, and once more, when it is there no longer. Its surface has no other stretch, so that key goes too. */
static ducatbriar_table close_stretch(ducatbriar_table table)
{
    const uint64_t row[] = {ICY_COBBLES, 12};
    for (int times = 0; times < 2; times++) {
        ducatbriar_removed answer = ducatbriar_remove(pool, COUNT(pool), table, row, COUNT(row));
        done("the removal", answer.number);
        table = answer.table;
        printf("stretch 12 taken out: %s, surfaces left %" PRIu64 "\n", answer.was_there ? "was there" : "was not there", table.data_len[0]);
    }
    return table;
}

/* Variable 0 would be a surface of the road and a grade at once: a word that is both says nothing. */
static void join_kinds(ducatbriar_tables tables)
{
    const ducatbriar_query query = {
        .n = 2,
        .order = {0, 1},
        .atom_count = 2,
        .atoms = {{.table = 0, .len = 2, .variables = {0, 1}}, {.table = 1, .len = 2, .variables = {0, 1}}},
    };
    uint64_t window[2];
    ducatbriar_joined answer = ducatbriar_join(DUCATBRIAR_GALLOPING, pool, COUNT(pool), tables, query, window, COUNT(window));
    printf("surfaces joined to grades: %s\n", ducatbriar_meaning(answer.number));
}

/* One of each surface: the school's, if it has one, else the maker's. */
static void look_up(ducatbriar_table school, ducatbriar_table maker)
{
    const uint64_t surfaces[] = {WET_COBBLES, WET_GRAVEL, ICY_COBBLES, ICY_GRAVEL};
    for (uint64_t i = 0; i < COUNT(surfaces); i++) {
        ducatbriar_looked_up found = ducatbriar_lookup(pool, COUNT(pool), school, pool, COUNT(pool), maker, surfaces[i]);
        done("the lookup", found.number);
        const uint64_t *run = ducatbriar_run(found, pool, pool);
        if (run) {
            printf("surface %" PRIu64 ": 0.%03" PRIu64 ", %s\n", surfaces[i], run[0], found.from_school ? "the school's" : "the maker's");
        } else {
            printf("surface %" PRIu64 ": no friction\n", surfaces[i]);
        }
    }
}

/* The frictions that count, surface by surface, from the icy ones on. */
static void walk_both(ducatbriar_table school, ducatbriar_table maker)
{
    const uint64_t len = COUNT(pool);
    ducatbriar_laid_cursor root = {{0, 0, 0}, {0, 0, 0}};
    ducatbriar_laid_open_answer top = ducatbriar_laid_open(pool, len, school, pool, len, maker, root);
    done("open", top.number);
    ducatbriar_laid_next_answer second = ducatbriar_laid_next(pool, len, school, pool, len, maker, top.cursor);
    done("next", second.number);
    printf("the second surface: %" PRIu64 "\n", second.key);
    ducatbriar_laid_seek_answer icy = ducatbriar_laid_seek(pool, len, school, pool, len, maker, second.cursor, DUCATBRIAR_BINARY, KIND(9, 0));
    done("seek", icy.number);
    ducatbriar_laid_open_answer below = ducatbriar_laid_open(pool, len, school, pool, len, maker, icy.cursor);
    done("open", below.number);
    ducatbriar_key_answer key = ducatbriar_laid_key(pool, len, school, pool, len, maker, below.cursor);
    done("key", key.number);
    printf("from %" PRIu64 " on, probes %" PRIu64 ": 0.%03" PRIu64 "\n", KIND(9, 0), icy.probes, key.key);
    ducatbriar_laid_up_answer up = ducatbriar_laid_up(pool, len, school, pool, len, maker, below.cursor);
    done("up", up.number);
    ducatbriar_laid_next_answer last = ducatbriar_laid_next(pool, len, school, pool, len, maker, up.cursor);
    done("next", last.number);
    printf("at the end: %s\n", ducatbriar_laid_at_end(pool, len, school, pool, len, maker, last.cursor).at_end ? "yes" : "no");
    ducatbriar_laid_cursor apart = {top.cursor.school, root.maker};
    printf("a pair that is no state: %s\n", ducatbriar_meaning(ducatbriar_laid_key(pool, len, school, pool, len, maker, apart).number));
}

/* Variables: 0 surface, 1 stretch, 2 friction. The road's frictions, the school's laid over the maker's; then laid over a table of other kinds. */
static void join_both(ducatbriar_tables tables)
{
    ducatbriar_query query = {
        .n = 3,
        .order = {0, 1, 2},
        .atom_count = 2,
        .atoms = {{.table = 0, .len = 2, .variables = {0, 1}}, {.table = 3, .len = 2, .variables = {0, 2}, .laid_over = true, .maker = 2}},
    };
    uint64_t window[3 * STRETCHES];
    ducatbriar_joined answer = ducatbriar_join(DUCATBRIAR_GALLOPING, pool, COUNT(pool), tables, query, window, COUNT(window));
    done("the join", answer.number);
    for (uint64_t i = 0; i < answer.rows; i++) {
        printf("surface %" PRIu64 ", stretch %" PRIu64 ": 0.%03" PRIu64 "\n", window[3 * i], window[3 * i + 1], window[3 * i + 2]);
    }
    join_plainly(tables, query, answer, window, COUNT(window));
    query.atoms[1].maker = 1;
    answer = ducatbriar_join(DUCATBRIAR_GALLOPING, pool, COUNT(pool), tables, query, window, COUNT(window));
    printf("frictions over grades: %s\n", ducatbriar_meaning(answer.number));
}

int main(void)
{
    const uint64_t run[] = {2, 4, 6, 8, 10, 12, 14, 16};
    ducatbriar_sought sought = ducatbriar_partition_point(DUCATBRIAR_GALLOPING, run, COUNT(run), 7);
    printf("version " DUCATBRIAR_VERSION "\n7 in 2 4 .. 16: offset %" PRIu64 ", probes %" PRIu64 "\n", sought.offset, sought.probes);

    ducatbriar_tables tables = {.count = 4, .tables = {road(), grades(), friction(), school_friction()}};
    list(tables.tables[0]);
    carry(tables.tables[1]);
    walk(tables.tables[0]);
    join(tables);
    join_by_stretch(tables.tables[0], tables.tables[2]);
    join_kinds(tables);
    look_up(tables.tables[3], tables.tables[2]);
    walk_both(tables.tables[3], tables.tables[2]);
    join_both(tables);

    tables.tables[0] = close_stretch(tables.tables[0]);
    pool[ROAD + CAPACITY] = 1; /* the first interval, which is 0 in every table */
    printf("with a word of the road changed: %s\n", ducatbriar_undamaged(pool, COUNT(pool), tables.tables[0]) ? "undamaged" : "damaged");
    return 0;
}
