/* Builds two tables, inserts a row, joins them and lists one: which friction holds on which stretch of road, by surface and speed band.
 *
 * Road: (grade, stretch, surface), a grade in thousandths and below 0 downhill. Friction: (surface, band, thousandths). The program prints each stretch, the
 * steepest descent first, with the friction of its surface in each band, then the layers of the friction table. */
#include <inttypes.h>
#include <stdio.h>
#include <stdlib.h>

#include "ducatbriar.h"

enum { DRY = 1, WET = 2, CAPACITY = 16, ROAD = DUCATBRIAR_WORDS(3, CAPACITY), FRICTION = DUCATBRIAR_WORDS(3, CAPACITY) };

#define COUNT(list) (sizeof(list) / sizeof((list)[0]))

/* Where a call was refused, says why and ends the program. */
static void done(uint64_t number)
{
    if (number != DUCATBRIAR_DONE) {
        puts(ducatbriar_meaning(number));
        exit(1);
    }
}

int main(void)
{
    static uint64_t pool[ROAD + FRICTION];
    uint64_t road[] = {ducatbriar_word_of(45), 12, WET, ducatbriar_word_of(0), 10, DRY, ducatbriar_word_of(-60), 11, WET};
    uint64_t friction[] = {WET, 1, 310, DRY, 1, 780, WET, 0, 420};
    const uint64_t row[] = {DRY, 0, 820};
    const ducatbriar_kinds grade_first = {.grade = {true, false, false}}, plain = {.grade = {false, false, false}};

    ducatbriar_built r = ducatbriar_build(road, COUNT(road), pool, COUNT(pool), 0, 3, CAPACITY, grade_first);
    done(r.number);
    ducatbriar_built f = ducatbriar_build(friction, COUNT(friction), pool, COUNT(pool), ROAD, 3, CAPACITY, plain);
    done(f.number);
    ducatbriar_inserted inserted = ducatbriar_insert(pool, COUNT(pool), f.table, row, COUNT(row));
    done(inserted.number);
    printf("inserted, %s\n", inserted.is_new ? "new" : "not new");

    /* Variables: 0 grade, 1 stretch, 2 surface, 3 band, 4 friction. */
    ducatbriar_tables tables = {.count = 2, .tables = {r.table, inserted.table}};
    ducatbriar_query query = {
        .n = 5,
        .order = {0, 1, 2, 3, 4},
        .atom_count = 2,
        .atoms = {{.table = 0, .len = 3, .variables = {0, 1, 2}}, {.table = 1, .len = 3, .variables = {2, 3, 4}}},
    };
    uint64_t window[5 * CAPACITY];
    ducatbriar_joined joined = ducatbriar_join(DUCATBRIAR_GALLOPING, pool, COUNT(pool), tables, query, window, COUNT(window));
    done(joined.number);
    for (const uint64_t *at = window; at < window + 5 * joined.rows; at += 5) {
        printf("grade %" PRId64 ", stretch %" PRIu64 ", surface %" PRIu64 ", band %" PRIu64 ": %" PRIu64 " thousandths\n", ducatbriar_grade_of(at[0]), at[1],
               at[2], at[3], at[4]);
    }

    uint8_t text[DUCATBRIAR_LISTING(3, CAPACITY)];
    ducatbriar_listed listed = ducatbriar_list(pool, COUNT(pool), inserted.table, text, COUNT(text));
    done(listed.number);
    fwrite(text, 1, listed.len, stdout);
    return 0;
}
