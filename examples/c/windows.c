/* A pedal unit with room for twenty rows: it joins a lesson's stretches of road with the friction of their surfaces in every speed band, a window at a time, and
 * goes on each time after the last row that it showed. Between two windows a stretch is closed and another comes in, and the next window has the rows of the tables
 * as they stand then. At the end it starts anew behind a row that is no answer.
 *
 * Road: (stretch, surface). Friction: (surface, band, thousandths). Each check that fails ends the program. */
#include <inttypes.h>
#include <stdio.h>
#include <stdlib.h>

#include "ducatbriar.h"

enum { STRETCHES = 12, SURFACES = 3, BANDS = 6, ROWS = 20, N = 4 };

#define COUNT(list) (sizeof(list) / sizeof((list)[0]))

/* All that the unit keeps: its tables, and one window. */
static uint64_t pool[DUCATBRIAR_WORDS(2, STRETCHES) + DUCATBRIAR_WORDS(3, SURFACES * BANDS)];
static uint64_t window[N * ROWS];
static ducatbriar_tables tables = {.count = 2};

/* Variables: 0 friction, 1 band, 2 surface, 3 stretch, bound as 3 2 1 0: by stretch, then by band. */
static const ducatbriar_query query = {
    .n = N,
    .order = {3, 2, 1, 0},
    .atom_count = 2,
    .atoms = {{.table = 0, .len = 2, .variables = {3, 2}}, {.table = 1, .len = 3, .variables = {2, 1, 0}}},
};

/* Where a call was refused, says why and ends the program. */
static void done(uint64_t number)
{
    if (number != DUCATBRIAR_DONE) {
        puts(ducatbriar_meaning(number));
        exit(1);
    }
}

static void build(void)
{
    const ducatbriar_kinds plain = {{false}};
    uint64_t road[2 * STRETCHES], friction[3 * SURFACES * BANDS];
    for (uint64_t i = 0; i < STRETCHES; i++) {
        road[2 * i] = 10 * (i + 1);
        road[2 * i + 1] = i % SURFACES;
    }
    for (uint64_t i = 0; i < SURFACES * BANDS; i++) {
        friction[3 * i] = i / BANDS;
        friction[3 * i + 1] = i % BANDS;
        friction[3 * i + 2] = 800 - 200 * (i / BANDS) - 10 * (i % BANDS);
    }
    ducatbriar_built built = ducatbriar_build(road, COUNT(road), pool, COUNT(pool), 0, 2, STRETCHES, plain);
    done(built.number);
    tables.tables[0] = built.table;
    built = ducatbriar_build(friction, COUNT(friction), pool, COUNT(pool), DUCATBRIAR_WORDS(2, STRETCHES), 3, SURFACES * BANDS, plain);
    done(built.number);
    tables.tables[1] = built.table;
}

/* The window's rows: a stretch and its frictions, band by band, on one line. */
static void show(uint64_t rows)
{
    for (uint64_t i = 0; i < rows; i++) {
        const uint64_t *row = &window[N * i];
        if (i == 0 || row[3] != window[N * (i - 1) + 3]) {
            printf("%sstretch %" PRIu64 ", surface %" PRIu64 ":", i == 0 ? "" : "\n", row[3], row[2]);
        }
        printf(" 0.%" PRIu64, row[0]);
    }
    printf("%s", rows > 0 ? "\n" : "");
}

/* Stretch 30 is shown already, stretch 70 is not; the stretch that comes in lies between two that are not. */
static void change_road(void)
{
    const uint64_t closed[][2] = {{30, 2}, {70, 0}}, opened[] = {75, 1};
    for (uint64_t i = 0; i < COUNT(closed); i++) {
        ducatbriar_removed removed = ducatbriar_remove(pool, COUNT(pool), tables.tables[0], closed[i], 2);
        done(removed.number);
        tables.tables[0] = removed.table;
    }
    ducatbriar_inserted inserted = ducatbriar_insert(pool, COUNT(pool), tables.tables[0], opened, 2);
    done(inserted.number);
    tables.tables[0] = inserted.table;
    puts("stretches 30 and 70 are closed, 75 is open");
}

/* The unit's loop. */
static void lesson(void)
{
    ducatbriar_row after = {{0}};
    ducatbriar_joined_after piece;
    bool goes_on = false;
    do {
        piece = ducatbriar_join_after(DUCATBRIAR_GALLOPING, pool, COUNT(pool), tables, query, goes_on, after, window, COUNT(window));
        printf("%" PRIu64 " rows, %s\n", piece.rows, ducatbriar_meaning(piece.number));
        show(piece.rows);
        if (!goes_on) {
            change_road();
        }
        after = ducatbriar_last(piece);
        goes_on = true;
    } while (piece.number == DUCATBRIAR_FULL);
    done(piece.number);
}

/* From stretch 100 on, which the driver chose: after every row of the stretches below it. Then behind the last one, where nothing is left and the row comes back. */
static void from_the_middle(void)
{
    ducatbriar_row after = {{UINT64_MAX, UINT64_MAX, UINT64_MAX, 99}};
    ducatbriar_joined_after piece = ducatbriar_join_after(DUCATBRIAR_GALLOPING, pool, COUNT(pool), tables, query, true, after, window, N * 5);
    printf("from stretch 100 on, with room for five rows: %s\n", ducatbriar_meaning(piece.number));
    show(piece.rows);
    after.words[3] = 200;
    piece = ducatbriar_join_after(DUCATBRIAR_GALLOPING, pool, COUNT(pool), tables, query, true, after, window, COUNT(window));
    done(piece.number);
    printf("behind stretch 200: %" PRIu64 " rows, and stretch %" PRIu64 " again\n", piece.rows, piece.last[3]);
}

int main(void)
{
    build();
    lesson();
    from_the_middle();
    return 0;
}
