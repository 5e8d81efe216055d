/* Holds DUCATBRIAR_WORDS, DUCATBRIAR_LISTING and DUCATBRIAR_FILE to real tables: for each arity and capacity tried, the one with the longest listing and the
 * longest file, which fit a destination of that many bytes and no shorter one. Prints how many were tried, or what went wrong. */
#include <inttypes.h>
#include <stdio.h>

#include "ducatbriar.h"

#define COUNT(list) (sizeof(list) / sizeof((list)[0]))

static uint64_t pool[DUCATBRIAR_WORDS(DUCATBRIAR_MAX_ARITY, DUCATBRIAR_MAX_CAPACITY)];
static uint64_t rows[DUCATBRIAR_MAX_ARITY * DUCATBRIAR_MAX_CAPACITY];
/* A file is shorter: 8 bytes a word. */
static uint8_t text[DUCATBRIAR_LISTING(DUCATBRIAR_MAX_ARITY, DUCATBRIAR_MAX_CAPACITY)];

/* Rows that start with different keys, and 20 digits in each key; and a grade. */
static ducatbriar_built longest(uint64_t arity, uint64_t capacity)
{
    for (uint64_t i = 0; i < arity * capacity; i++) {
        rows[i] = UINT64_MAX - capacity + i / arity;
    }
    const ducatbriar_kinds grade_first = {{true}};
    return ducatbriar_build(rows, arity * capacity, pool, DUCATBRIAR_WORDS(arity, capacity), 0, arity, capacity, grade_first);
}

/* The file's length is what the macro says, and one byte less is refused. */
static bool file_holds(ducatbriar_table table)
{
    const uint64_t words = DUCATBRIAR_WORDS(table.arity, table.capacity);
    const uint64_t most = DUCATBRIAR_FILE(table.arity, table.capacity);
    ducatbriar_file_written written = ducatbriar_write(pool, words, table, text, most);
    return written.number == DUCATBRIAR_DONE && written.len == most &&
           ducatbriar_write(pool, words, table, text, most - 1).number == DUCATBRIAR_LONG_TEXT;
}

/* The text's length is what the macro says, and one byte less is refused. */
static bool holds(uint64_t arity, uint64_t capacity)
{
    const uint64_t words = DUCATBRIAR_WORDS(arity, capacity);
    const uint64_t most = DUCATBRIAR_LISTING(arity, capacity);
    ducatbriar_built built = longest(arity, capacity);
    if (built.number != DUCATBRIAR_DONE) {
        return false;
    }
    ducatbriar_listed listed = ducatbriar_list(pool, words, built.table, text, most);
    return listed.number == DUCATBRIAR_DONE && listed.len == most &&
           ducatbriar_list(pool, words, built.table, text, most - 1).number == DUCATBRIAR_LONG_TEXT && file_holds(built.table);
}

/* 1, the numbers around the powers of ten, where digits are gained, and as many rows as fill a field, of arity 8 and of arity 1, and one more; of the greatest
 * only every fourth arity. */
static const uint64_t capacities[] = {1,    2,    9,    10,   11,   99,    100,   101,
                                      1000, 1001, 1023, 1024, 8191, 8192,  10000, 10001,
                                      DUCATBRIAR_MAX_CAPACITY};

int main(void)
{
    uint64_t tried = 0;
    for (uint64_t arity = 1; arity <= DUCATBRIAR_MAX_ARITY; arity++) {
        const uint64_t sizes = arity % 4 == 0 ? COUNT(capacities) : COUNT(capacities) - 3;
        for (uint64_t i = 0; i < sizes; i++) {
            if (!holds(arity, capacities[i])) {
                printf("not so for arity %" PRIu64 " and capacity %" PRIu64 "\n", arity, capacities[i]);
                return 1;
            }
            tried++;
        }
    }
    printf("tables tried: %" PRIu64 "\n", tried);
    return 0;
}
