/* The stack that each call needs: it runs on a painted stack, and the lowest word that lost its paint is looked for. It needs POSIX threads.
 *
 * The joins have 8 variables and 8 atoms over 8 tables; the build falls to the sort's deepest point; one call each of the others. */
#define _POSIX_C_SOURCE 200112L
#include "ducatbriar.h"
#include <inttypes.h>
#include <pthread.h>
#include <stdio.h>
#include <stdlib.h>
#include <string.h>

#define PAINT UINT32_C(0x5ca1ab1e)
#define WORDS 65536

static uint32_t *stack;
static uintptr_t from;
static uint64_t pool[4096], rows[2 * 128], window[4096];
static uint8_t text[8192], file[DUCATBRIAR_FILE(2, 16)];
static uint64_t file_len;
static ducatbriar_tables ts;
static ducatbriar_query q;
static const ducatbriar_kinds plain = {{false}};

static void join(void)
{
    ducatbriar_join(2, pool, 4096, ts, q, window, 4096);
}

static void join_plainly(void)
{
    ducatbriar_plain_join(pool, 4096, ts, q, window, 4096);
}

static void check_listing(void)
{
    ducatbriar_check_listing(pool, 4096, ts, q, window, 2048, 0);
}

/* After the first row, which is an answer, so that the search goes down with it to the last variable. */
static void go_on(void)
{
    ducatbriar_row first = {{0}};
    ducatbriar_join_after(2, pool, 4096, ts, q, true, first, window, 4096);
}

static void build(void)
{
    for (size_t i = 0; i < 256; i++)
        rows[i] = (255 - i) * (i % 7);
    ducatbriar_build(rows, 256, pool, 4096, 2048, 2, 128, plain);
}

static void insert(void)
{
    uint64_t tuple[2] = {9, 9};
    ducatbriar_insert(pool, 4096, ts.tables[0], tuple, 2);
}

static void write_file(void)
{
    ducatbriar_write(pool, 4096, ts.tables[0], file, sizeof file);
}

static void read_file(void)
{
    ducatbriar_read(file, file_len, pool, 4096, 1024, 16);
}

static void take_out(void)
{
    uint64_t tuple[2] = {1, 1};
    ducatbriar_remove(pool, 4096, ts.tables[0], tuple, 2);
}

static void permute(void)
{
    const ducatbriar_columns exchanged = {{1, 0}};
    ducatbriar_permute(pool, 4096, ts.tables[0], exchanged, window, 4096, 0, 16);
}

static void list(void)
{
    ducatbriar_list(pool, 4096, ts.tables[0], text, sizeof text);
}

static void move(void)
{
    ducatbriar_cursor c = {0, 0, 0};
    c = ducatbriar_open(pool, 4096, ts.tables[0], c).cursor;
    c = ducatbriar_seek(pool, 4096, ts.tables[0], c, 2, 1).cursor;
    c = ducatbriar_open(pool, 4096, ts.tables[0], c).cursor;
    c = ducatbriar_next(pool, 4096, ts.tables[0], c).cursor;
    ducatbriar_up(pool, 4096, ts.tables[0], c);
}

static void *run(void *call)
{
    volatile char here = 0;
    from = (uintptr_t)&here;
    (*(void (**)(void))call)();
    return NULL;
}

static void measure(const char *name, void (*call)(void))
{
    pthread_t thread;
    pthread_attr_t attr;
    for (size_t i = 0; i < WORDS; i++)
        stack[i] = PAINT;
    pthread_attr_init(&attr);
    if (pthread_attr_setstack(&attr, stack, WORDS * sizeof *stack) || pthread_create(&thread, &attr, run, &call))
        exit(2);
    pthread_join(thread, NULL);
    size_t low = 0;
    while (low < WORDS && stack[low] == PAINT)
        low++;
    printf("%s %" PRIuPTR "\n", name, from - (uintptr_t)(stack + low));
}

int main(void)
{
    void *room;
    if (posix_memalign(&room, 65536, WORDS * sizeof *stack))
        return 2;
    stack = room;
    uint64_t pairs[8] = {0, 0, 0, 1, 1, 0, 1, 1};
    ts.count = q.n = q.atom_count = 8;
    for (uint64_t i = 0; i < 8; i++) {
        ts.tables[i] = ducatbriar_build(pairs, 8, pool, 4096, i * 64, 2, 16, plain).table;
        q.order[i] = i;
        uint64_t v = i < 7 ? i : 0;
        q.atoms[i] = (ducatbriar_atom){.table = i, .len = 2, .variables = {v, i < 7 ? v + 1 : 7}};
    }
    file_len = ducatbriar_write(pool, 4096, ts.tables[0], file, sizeof file).len;
    measure("join", join);
    measure("plain_join", join_plainly);
    measure("check_listing", check_listing);
    measure("join_after", go_on);
    measure("build", build);
    measure("insert", insert);
    measure("remove", take_out);
    measure("permute", permute);
    measure("list", list);
    measure("write", write_file);
    measure("read", read_file);
    measure("cursor", move);
    return 0;
}
