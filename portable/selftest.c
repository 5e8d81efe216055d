/* Holds a build of the library to what the proved one answers, on any machine with a C library.
 *
 *     selftest [ROUNDS [FOLDER]]
 *
 * It replays the recorded answers in FOLDER (crates/replay/data), if there is one, printing the lines of crates/replay/stdout. Then it makes calls on
 * drawn words, sound and damaged ones, and prints how often each number of refusal came, on how many joins the two engines differ, for how many the rows by windows of a few are not those of one window, what was said of listings, and one checksum over
 * every number and word that came back: it is the same for each build and machine. Compiled with -DSELFTEST_SMALL it has no replay, no tables of 65,536 rows and fewer rounds, and so other numbers:
 * it needs 0.1 MB of memory, and the whole one 6.7 MB.
 *
 * Each draw stands in a statement of its own or behind a sequence point, so that no compiler may exchange two. */
#include "ducatbriar.h"
#include <inttypes.h>
#include <stdio.h>
#include <stdlib.h>
#include <string.h>

#define COUNT(a) (sizeof(a) / sizeof *(a))

#ifdef SELFTEST_SMALL
#define ROUNDS 100
#else
#define ROUNDS 1000
#endif

static const ducatbriar_kinds plain = {{false}};

/* ---- recorded answers */

#ifndef SELFTEST_SMALL

static char text[262144];
static const char *at;
static uint64_t compared, wrong;

static uint64_t number(void)
{
    uint64_t n = 0;
    while (*at && (*at < '0' || *at > '9'))
        at++;
    if (!*at) {
        wrong++;
        return 0;
    }
    while (*at >= '0' && *at <= '9')
        n = n * 10 + (uint64_t)(*at++ - '0');
    return n;
}

static uint64_t numbers(uint64_t *words, size_t room, uint64_t n)
{
    if (n > room)
        exit(2);
    for (uint64_t i = 0; i < n; i++)
        words[i] = number();
    return n;
}

static void same(bool yes)
{
    compared++;
    wrong += !yes;
}

static void seeks(void)
{
    uint64_t run[1024], n = numbers(run, COUNT(run), number());
    for (uint64_t left = number(); left > 0; left--) {
        uint64_t target = number(), offset = number(), probes = number(), hit = number();
        for (uint64_t strategy = 0; strategy < 3; strategy++) {
            ducatbriar_sought s = ducatbriar_partition_point(strategy, run, n, target);
            same(s.offset == offset && s.hit == hit);
            if (strategy == 0)
                same(s.probes == probes);
        }
    }
}

static ducatbriar_table table_of(uint64_t *pool, uint64_t len, uint64_t start)
{
    uint64_t rows[512], arity = number(), capacity = number(), n = numbers(rows, COUNT(rows), number());
    ducatbriar_built b = ducatbriar_build(rows, n, pool, len, start, arity, capacity, plain);
    wrong += b.number != 0;
    return b.table;
}

static void told(const uint64_t *pool, uint64_t len, ducatbriar_table t)
{
    static uint8_t bytes[4096];
    uint64_t count = number(), length = number();
    ducatbriar_listed l = ducatbriar_list(pool, len, t, bytes, sizeof bytes);
    at++;
    same(t.tuple_count == count);
    same(l.number == 0 && l.len == length && memcmp(at, bytes, (size_t)length) == 0);
    at += length;
}

static void tables(void)
{
    uint64_t pool[1024] = {0};
    ducatbriar_table t = table_of(pool, COUNT(pool), 0);
    told(pool, COUNT(pool), t);
    for (uint64_t left = number(); left > 0; left--) {
        uint64_t tuple[8], n = numbers(tuple, 8, t.arity), is_new = number();
        ducatbriar_inserted i = ducatbriar_insert(pool, COUNT(pool), t, tuple, n);
        t = i.table;
        same(i.number == 0 && i.is_new == is_new);
        told(pool, COUNT(pool), t);
    }
}

static void cursors(void)
{
    uint64_t pool[512] = {0};
    ducatbriar_table t = table_of(pool, COUNT(pool), 0);
    const char *start = at;
    for (uint64_t strategy = 0; strategy < 3; strategy++) {
        ducatbriar_cursor c = {0, 0, 0};
        at = start;
        for (uint64_t left = number(); left > 0; left--) {
            uint64_t kind = number(), yes = number(), found = number(), key = number(), end = number();
            if (kind == 0) {
                ducatbriar_next_answer a = ducatbriar_next(pool, COUNT(pool), t, c);
                same(a.number == 0 && a.found == yes && a.key == key);
                c = a.cursor;
            } else if (kind == 1) {
                ducatbriar_open_answer a = ducatbriar_open(pool, COUNT(pool), t, c);
                same(a.number == 0 && a.opened == yes);
                c = a.cursor;
            } else if (kind == 2) {
                ducatbriar_up_answer a = ducatbriar_up(pool, COUNT(pool), t, c);
                same(a.number == 0 && a.risen == yes);
                c = a.cursor;
            } else {
                uint64_t target = number(), probes = number();
                ducatbriar_seek_answer a = ducatbriar_seek(pool, COUNT(pool), t, c, strategy, target);
                same(a.number == 0 && a.found == yes && a.hit == (found && key == target) && (strategy != 0 || a.probes == probes));
                c = a.cursor;
            }
            ducatbriar_key_answer k = ducatbriar_key(pool, COUNT(pool), t, c);
            ducatbriar_end_answer e = ducatbriar_at_end(pool, COUNT(pool), t, c);
            same(k.number == 0 && k.found == found && k.key == key);
            same(e.number == 0 && e.at_end == end);
        }
    }
}

/* The recorded rows by windows of `room` rows: each piece has those that follow the ones before, and the last of them. */
static void pieces(const uint64_t *pool, uint64_t len, ducatbriar_tables ts, ducatbriar_query q, uint64_t strategy, uint64_t room, const uint64_t *rows, uint64_t count)
{
    uint64_t window[8 * 20], done = 0;
    ducatbriar_row last = {{0}};
    do {
        uint64_t left = count - done, next = left < room ? left : room;
        ducatbriar_joined_after a = ducatbriar_join_after(strategy, pool, len, ts, q, done > 0, last, window, room * q.n);
        bool holds = a.number == (next < left ? 12 : 0) && a.rows == next;
        for (uint64_t i = 0; i < next * q.n; i++)
            holds = holds && window[i] == rows[done * q.n + i];
        done += next;
        for (uint64_t i = 0; i < q.n && next > 0; i++)
            last.words[i] = rows[(done - 1) * q.n + i];
        same(holds && memcmp(a.last, last.words, sizeof a.last) == 0);
    } while (done < count);
}

static void joins(void)
{
    static uint64_t pool[4096], rows[1024], window[1024], again[1024];
    const uint64_t mark = UINT64_C(1234567890123456789);
    ducatbriar_tables ts = {0};
    ducatbriar_query q = {0};
    memset(pool, 0, sizeof pool);
    ts.count = number();
    for (uint64_t i = 0; i < ts.count && i < 8; i++)
        ts.tables[i] = table_of(pool, COUNT(pool), i * 512);
    q.n = numbers(q.order, 8, number());
    q.atom_count = number();
    for (uint64_t i = 0; i < q.atom_count && i < 8; i++) {
        q.atoms[i].table = number();
        q.atoms[i].len = numbers(q.atoms[i].variables, 8, number());
    }
    uint64_t count = number(), words = numbers(rows, COUNT(rows), number());
    uint64_t least = count == 0 ? words : words - q.n, most = words < COUNT(window) ? words + 1 : words;
    for (uint64_t strategy = 0; strategy < 3; strategy++)
        for (uint64_t size = most + 1; size-- > least;) {
            bool whole = q.n == 0 || size % q.n == 0, fits = words <= size, holds = true;
            uint64_t written = whole ? (fits ? words : least) : 0;
            for (size_t i = 0; i < COUNT(window); i++)
                window[i] = mark;
            ducatbriar_joined j = ducatbriar_join(strategy, pool, COUNT(pool), ts, q, window, size);
            if (whole)
                same(j.number == (fits ? 0 : 12) && j.rows == (fits ? count : count - 1));
            else
                same(j.number == 16 && j.rows == 0);
            for (size_t i = 0; i < COUNT(window); i++)
                holds = holds && window[i] == (i < written ? rows[i] : mark);
            same(holds);
            for (size_t i = 0; i < COUNT(window); i++)
                again[i] = mark;
            ducatbriar_plain_joined p = ducatbriar_plain_join(pool, COUNT(pool), ts, q, again, size);
            same(p.number == j.number && p.rows == j.rows && memcmp(again, window, sizeof window) == 0);
        }
    ducatbriar_checked c = ducatbriar_check_listing(pool, COUNT(pool), ts, q, rows, words, count);
    same(c.number == 0 && c.verdict == DUCATBRIAR_ACCEPTED);
    if (count > 0) {
        c = ducatbriar_check_listing(pool, COUNT(pool), ts, q, rows, least, count - 1);
        same(c.number == 0 && c.verdict == DUCATBRIAR_MISSING_ROW && memcmp(c.missing, rows + least, (size_t)q.n * sizeof *rows) == 0);
    }
    for (uint64_t strategy = 0; strategy < 3; strategy++)
        for (uint64_t room = 1; room <= 20; room = room == 1 ? 3 : room + 17)
            pieces(pool, COUNT(pool), ts, q, strategy, room, rows, count);
}

static void replay(const char *folder, const char *name, void (*one)(void))
{
    char path[512];
    snprintf(path, sizeof path, "%s/%s", folder, name);
    FILE *f = fopen(path, "rb");
    if (!f) {
        perror(path);
        exit(2);
    }
    text[fread(text, 1, sizeof text - 1, f)] = 0;
    fclose(f);
    at = text;
    compared = wrong = 0;
    uint64_t cases = number();
    for (uint64_t left = cases; left > 0; left--)
        one();
    while (*at)
        wrong += *at >= '0' && *at <= '9', at++;
    printf("%s: %" PRIu64 " cases, %" PRIu64 " compared, %" PRIu64 " wrong\n", name, cases, compared, wrong);
}

#endif

/* ---- drawn calls */

static uint64_t state = UINT64_C(88172645463325252), sum = UINT64_C(14695981039346656037), calls, refusals[18];
static uint64_t both, differ; /* joins asked of both engines, and those that the two answered differently */
static uint64_t verdicts[4];  /* how often each came */
static uint64_t listings, parted; /* joins asked by windows of a few rows, and those whose pieces are not the rows of one window */

static uint64_t draw(uint64_t below)
{
    state ^= state << 13;
    state ^= state >> 7;
    state ^= state << 17;
    return (state >> 11) % below;
}

static uint64_t key(void)
{
    uint64_t kind = draw(8), low = draw(6);
    return kind == 0 ? UINT64_MAX - low : kind == 1 ? UINT64_C(0x7fffffffffffffff) + low : kind == 2 ? (low << 32) + low % 2 : low;
}

static void add(uint64_t word)
{
    sum = (sum ^ word) * UINT64_C(1099511628211);
    sum ^= sum >> 29;
}

/* An answer's number: each answer has one. */
static void add_number(uint64_t number)
{
    calls++;
    add(number);
    refusals[number < COUNT(refusals) ? number : 0]++;
}

static void add_words(const uint64_t *words, uint64_t n)
{
    for (uint64_t i = 0; i < n; i++)
        add(words[i]);
}

static void add_table(ducatbriar_table t)
{
    add(t.start), add(t.arity), add(t.capacity);
    add_words(t.data_len, 8);
    add_words(t.interval_len, 8);
    add(t.tuple_count);
    for (size_t i = 0; i < COUNT(t.grade); i++)
        add(t.grade[i]);
}

static void add_cursor(ducatbriar_cursor c)
{
    add(c.depth), add(c.interval_i), add(c.slice_offset);
}

static void add_bytes(const uint8_t *bytes, uint64_t n)
{
    for (uint64_t i = 0; i < n; i++)
        add(bytes[i]);
}

static ducatbriar_table damaged(ducatbriar_table t, uint64_t *pool, uint64_t len)
{
    uint64_t which = draw(8); /* of a list */
    switch (draw(9)) {
    case 0: t.data_len[which] = draw(40); break;
    case 1: t.interval_len[which] = draw(40); break;
    case 2: t.tuple_count = key(); break;
    case 3: t.start = key(); break;
    case 4: t.arity = draw(2) ? draw(10) : key(); break;
    case 5: t.capacity = draw(2) ? draw(40) : key(); break;
    case 6: t.grade[which] = !t.grade[which]; break;
    default:
        for (int i = 0; i < 4; i++) {
            uint64_t at_word = t.start + draw(256), flipped = draw(2) ? 1 : draw(64);
            pool[at_word % len] ^= flipped;
        }
    }
    return t;
}

static void walk(const uint64_t *pool, uint64_t len, ducatbriar_table t)
{
    ducatbriar_cursor c = {0, 0, 0};
    if (draw(6) == 0) {
        c.depth = draw(5);
        c.interval_i = draw(12);
        c.slice_offset = draw(2) ? draw(12) : key();
    }
    for (int i = 0; i < 24; i++) {
        uint64_t kind = draw(5);
        if (kind == 0) {
            ducatbriar_next_answer a = ducatbriar_next(pool, len, t, c);
            add_number(a.number), add(a.found), add(a.key), add_cursor(c = a.cursor);
        } else if (kind <= 2) {
            ducatbriar_open_answer a = ducatbriar_open(pool, len, t, c);
            add_number(a.number), add(a.opened), add_cursor(c = a.cursor);
        } else if (kind == 3) {
            ducatbriar_up_answer a = ducatbriar_up(pool, len, t, c);
            add_number(a.number), add(a.risen), add_cursor(c = a.cursor);
        } else {
            uint64_t strategy = draw(4), target = key();
            ducatbriar_seek_answer a = ducatbriar_seek(pool, len, t, c, strategy, target);
            add_number(a.number), add(a.found), add(a.hit), add(a.probes), add_cursor(c = a.cursor);
        }
        ducatbriar_key_answer k = ducatbriar_key(pool, len, t, c);
        ducatbriar_end_answer e = ducatbriar_at_end(pool, len, t, c);
        add_number(k.number), add(k.found), add(k.key), add_number(e.number), add(e.at_end);
    }
}

/* From below, in a table whose header is sound, over words of intervals that are not. */
static void rise(uint64_t *pool, uint64_t len, ducatbriar_table t)
{
    uint64_t layer = draw(2);
    if (!ducatbriar_undamaged(pool, len, t) || t.arity < layer + 2 || t.interval_len[layer] == 0)
        return;
    uint64_t *word = pool + t.start + 2 * t.capacity * layer + t.capacity + draw(t.interval_len[layer]), kept = *word;
    for (int i = 0; i < 6; i++) {
        *word = draw(2) ? draw(8) : key();
        ducatbriar_cursor c = {layer + 2, draw(t.interval_len[layer + 1] + 1), 0};
        ducatbriar_up_answer a = ducatbriar_up(pool, len, t, c);
        add_number(a.number), add(a.risen), add_cursor(a.cursor);
    }
    *word = kept;
}

static void add_pair(ducatbriar_laid_cursor c)
{
    add_cursor(c.school), add_cursor(c.maker);
}

/* A number among few, so that it is often a place. */
static ducatbriar_cursor drawn_cursor(void)
{
    uint64_t depth = draw(4), interval_i = draw(4), slice_offset = draw(2) ? draw(4) : draw(20);
    ducatbriar_cursor c = {depth, interval_i, slice_offset};
    return c;
}

/* Lookups and a walk in one table laid over another. */
static void walk_both(const uint64_t *pool, uint64_t len, ducatbriar_table school, ducatbriar_table maker)
{
    for (int i = 0; i < 4; i++) {
        uint64_t first = key();
        ducatbriar_looked_up f = ducatbriar_lookup(pool, len, school, pool, len, maker, first);
        add_number(f.number), add(f.from_school), add(f.from), add(f.len);
        add_words(ducatbriar_run(f, pool, pool), f.len);
    }
    ducatbriar_laid_cursor c = {{0, 0, 0}, {0, 0, 0}};
    if (draw(6) == 0)
        c.school = drawn_cursor(), c.maker = drawn_cursor();
    for (int i = 0; i < 24; i++) {
        uint64_t kind = draw(6);
        if (kind <= 1) {
            ducatbriar_laid_next_answer a = ducatbriar_laid_next(pool, len, school, pool, len, maker, c);
            add_number(a.number), add(a.found), add(a.key), add_pair(c = a.cursor);
        } else if (kind <= 3) {
            ducatbriar_laid_open_answer a = ducatbriar_laid_open(pool, len, school, pool, len, maker, c);
            add_number(a.number), add(a.opened), add_pair(c = a.cursor);
        } else if (kind == 4) {
            ducatbriar_laid_up_answer a = ducatbriar_laid_up(pool, len, school, pool, len, maker, c);
            add_number(a.number), add(a.risen), add_pair(c = a.cursor);
        } else {
            uint64_t strategy = draw(4), target = key();
            ducatbriar_laid_seek_answer a = ducatbriar_laid_seek(pool, len, school, pool, len, maker, c, strategy, target);
            add_number(a.number), add(a.found), add(a.hit), add(a.probes), add_pair(c = a.cursor);
        }
        ducatbriar_key_answer k = ducatbriar_laid_key(pool, len, school, pool, len, maker, c);
        ducatbriar_end_answer e = ducatbriar_laid_at_end(pool, len, school, pool, len, maker, c);
        add_number(k.number), add(k.found), add(k.key), add_number(e.number), add(e.at_end);
    }
}

/* A table of the same arity and kinds, if one is found, so that most pairs pass 17. */
static uint64_t another(const ducatbriar_tables *ts, uint64_t table)
{
    uint64_t other = draw(ts->count);
    for (uint64_t i = 0; i < ts->count; i++) {
        if (ts->tables[other].arity == ts->tables[table].arity && memcmp(ts->tables[other].grade, ts->tables[table].grade, sizeof ts->tables[table].grade) == 0)
            break;
        other = (other + 1) % ts->count;
    }
    return draw(8) ? other : draw(ts->count);
}

/* A query that follows the order drawn, over tables of these arities. */
static ducatbriar_query query_over(const ducatbriar_tables *ts)
{
    ducatbriar_query q = {0};
    q.n = draw(4) ? 1 + draw(4) : 1 + draw(8);
    for (uint64_t i = 0; i < q.n; i++)
        q.order[i] = i;
    for (uint64_t i = q.n; i > 1; i--) {
        uint64_t j = draw(i), kept = q.order[j];
        q.order[j] = q.order[i - 1], q.order[i - 1] = kept;
    }
    q.atom_count = draw(4) ? 1 + draw(4) : 1 + draw(8);
    for (uint64_t i = 0; i < q.atom_count; i++) {
        ducatbriar_atom *a = &q.atoms[i];
        a->table = draw(ts->count);
        uint64_t arity = ts->tables[a->table].arity, gap = arity <= q.n ? q.n - arity : 0;
        for (uint64_t v = 0; v < q.n && a->len < arity && a->len < 8; v++)
            if (gap > 0 && draw(2) == 0)
                gap--;
            else
                a->variables[a->len++] = q.order[v];
        a->laid_over = draw(2);
        a->maker = a->laid_over ? another(ts, a->table) : draw(16);
    }
    return q;
}

/* The plain engine's answer beside the join's, counted where it is another one, or its window has other words. */
static void both_engines(ducatbriar_joined j, ducatbriar_plain_joined p, bool same_words)
{
    add_number(p.number), add(p.rows), add(same_words);
    both++;
    differ += p.number != j.number || p.rows != j.rows || !same_words;
}

static void check(const uint64_t *pool, uint64_t len, const ducatbriar_tables *ts, const ducatbriar_query *q, const uint64_t *words, uint64_t n, uint64_t rows)
{
    ducatbriar_checked c = ducatbriar_check_listing(pool, len, *ts, *q, n ? words : NULL, n, rows);
    add_number(c.number), add(c.verdict), add(c.row), add_words(c.missing, COUNT(c.missing));
    verdicts[c.verdict % COUNT(verdicts)]++;
}

/* The rows that a join wrote, as a listing: as it is, and with a word changed, a row gone or there twice, or cut inside a row. */
static void recorded(const uint64_t *pool, uint64_t len, const ducatbriar_tables *ts, const ducatbriar_query *q, const uint64_t window[256], uint64_t rows)
{
    uint64_t bent[256 + 8], width = q->n <= 8 ? q->n : 0, n = width * rows;
    check(pool, len, ts, q, window, n, rows);
    uint64_t kind = draw(4), row = draw(rows + 1), column = draw(8), word = key(), some = draw(4);
    uint64_t from = (row < rows ? row : 0) * width;
    memcpy(bent, window, 256 * sizeof *bent);
    if (n == 0)
        rows = some, n = width * some; /* where there were no words: rows of what the window held */
    else if (kind == 0)
        bent[from + column % width] = word;
    else if (kind == 1)
        n -= width, memmove(bent + from, bent + from + width, (size_t)(n - from) * sizeof *bent);
    else if (kind == 2)
        memmove(bent + from + width, bent + from, (size_t)(n - from) * sizeof *bent), n += width;
    else
        n -= column % width;
    check(pool, len, ts, q, bent, n, rows);
}

static ducatbriar_joined_after go_on(const uint64_t *pool, uint64_t len, const ducatbriar_tables *ts, const ducatbriar_query *q, uint64_t strategy, bool goes_on, ducatbriar_row after, uint64_t *window,
                                     uint64_t size)
{
    ducatbriar_joined_after a = ducatbriar_join_after(strategy, pool, len, *ts, *q, goes_on, after, size ? window : NULL, size);
    add_number(a.number), add(a.rows), add_words(a.last, COUNT(a.last)), add_words(window, size);
    return a;
}

/* By windows of a few rows, up to where the join's window, which holds these rows, was full. A query that is refused by another number than 16 is refused by it here too. */
static void by_windows(const uint64_t *pool, uint64_t len, const ducatbriar_tables *ts, const ducatbriar_query *q, uint64_t strategy, ducatbriar_joined j, const uint64_t *rows)
{
    uint64_t window[8 * 20], room = 1 + draw(20), size = q->n <= 8 ? room * q->n : room, done = 0;
    ducatbriar_row after = {{draw(3), UINT64_MAX}};
    ducatbriar_joined_after a;
    bool known = j.number == 0 || j.number == 12, holds = true;
    do {
        memset(window, 7, sizeof window);
        a = go_on(pool, len, ts, q, strategy, done > 0, after, window, size);
        for (uint64_t i = 0; known && i < a.rows * q->n && done * q->n + i < j.rows * q->n; i++)
            holds = holds && window[i] == rows[done * q->n + i];
        after = ducatbriar_last(a);
        done += a.rows;
    } while (a.number == 12 && a.rows > 0 && done < j.rows);
    if (known)
        holds = holds && (a.number == 12 ? j.number == 12 || done < j.rows : a.number == 0) && (j.number == 12 ? done >= j.rows : done == j.rows);
    else
        holds = j.number == 16 || a.number == j.number;
    add(holds);
    listings++;
    parted += !holds;
}

/* After a drawn row, which is seldom an answer. */
static void after_drawn(const uint64_t *pool, uint64_t len, const ducatbriar_tables *ts, const ducatbriar_query *q, uint64_t strategy, uint64_t *window, uint64_t size)
{
    ducatbriar_row given;
    for (size_t i = 0; i < COUNT(given.words); i++)
        given.words[i] = key();
    go_on(pool, len, ts, q, strategy, true, given, window, size);
}

static void query(const uint64_t *pool, uint64_t len, ducatbriar_tables ts)
{
    uint64_t window[256], again[256];
    ducatbriar_query q = query_over(&ts);
    uint64_t word = key(), where = draw(8);
    if (draw(12) == 0)
        q.order[where] = word;
    if (draw(12) == 0)
        q.atoms[where % q.atom_count].variables[draw(8)] = word;
    if (draw(24) == 0)
        q.atoms[where % q.atom_count].table = word;
    if (draw(24) == 0)
        q.atoms[where % q.atom_count].len = word;
    if (draw(24) == 0)
        q.atoms[where % q.atom_count].maker = word;
    if (draw(24) == 0)
        q.n = word;
    if (draw(24) == 0)
        q.atom_count = key();
    if (draw(24) == 0)
        ts.count = key();
    uint64_t strategy = draw(4), size = draw(3) ? COUNT(window) : draw(12);
    if (draw(8) && q.n > 0) /* whole rows for the most part, so that most joins pass 16 */
        size -= size % q.n;
    for (size_t i = 0; i < COUNT(window); i++)
        window[i] = i;
    ducatbriar_joined j = ducatbriar_join(strategy, pool, len, ts, q, window, size);
    add_number(j.number), add(j.rows), add(j.seeks);
    add_words(window, COUNT(window));
    for (size_t i = 0; i < COUNT(again); i++)
        again[i] = i;
    ducatbriar_plain_joined p = ducatbriar_plain_join(pool, len, ts, q, again, size);
    both_engines(j, p, memcmp(again, window, sizeof window) == 0);
    recorded(pool, len, &ts, &q, window, j.rows);
    by_windows(pool, len, &ts, &q, strategy, j, window);
    after_drawn(pool, len, &ts, &q, strategy, again, size);
}

/* A start has the empty row, and nothing comes after it. */
static void no_variables(void)
{
    const ducatbriar_tables ts = {0};
    const ducatbriar_query q = {0};
    const ducatbriar_row given = {{1, 2, 3}};
    uint64_t window[2] = {7, 7};
    go_on(NULL, 0, &ts, &q, DUCATBRIAR_LINEAR, false, given, window, COUNT(window));
    go_on(NULL, 0, &ts, &q, DUCATBRIAR_LINEAR, true, given, window, COUNT(window));
}

/* Plain for the most part, so that most joins pass 15. */
static ducatbriar_kinds drawn_kinds(void)
{
    ducatbriar_kinds kinds = plain;
    if (draw(6) == 0)
        for (size_t i = 0; i < COUNT(kinds.grade); i++)
            kinds.grade[i] = draw(2);
    return kinds;
}

static ducatbriar_table without(uint64_t *pool, uint64_t len, ducatbriar_table t, const uint64_t *tuple, uint64_t size)
{
    ducatbriar_removed out = ducatbriar_remove(pool, len, t, size ? tuple : NULL, size);
    add_number(out.number), add(out.was_there), add_table(out.table);
    return out.table;
}

/* A tuple that may be there, or have another length. */
static ducatbriar_table without_drawn(uint64_t *pool, uint64_t len, ducatbriar_table t)
{
    uint64_t tuple[8], size = draw(30) ? t.arity % 9 : draw(9);
    for (uint64_t w = 0; w < size; w++)
        tuple[w] = key();
    return without(pool, len, t, tuple, size);
}

/* One in four of the rows that a build was given, or all of them, after which none is left. */
static ducatbriar_table without_some(uint64_t *pool, uint64_t len, ducatbriar_table t, const uint64_t *rows, uint64_t n, uint64_t arity)
{
    bool all = draw(8) == 0;
    for (uint64_t from = 0; arity > 0 && from + arity <= n; from += arity)
        if (all || draw(4) == 0)
            t = without(pool, len, t, rows + from, arity);
    return t;
}

static ducatbriar_table drawn_table(uint64_t *pool, uint64_t len, uint64_t from)
{
    uint64_t rows[128], arity = draw(20) ? 1 + draw(3) : draw(10), start = draw(40) ? from : key();
    uint64_t capacity = arity > 4 ? 16 : 32, n = draw(20) * (arity < 9 ? arity : 1);
    if (draw(20) == 0)
        capacity = key();
    n = n > COUNT(rows) ? COUNT(rows) / arity * arity : n;
    if (draw(20) == 0)
        n = draw(64);
    for (uint64_t w = 0; w < n; w++)
        rows[w] = key();
    ducatbriar_built b = ducatbriar_build(n ? rows : NULL, n, pool, len, start, arity, capacity, drawn_kinds());
    add_number(b.number), add_table(b.table), add_words(rows, n);
    ducatbriar_table t = b.number == 0 ? b.table : ducatbriar_empty(start, arity, capacity);
    if (draw(2))
        t = without_some(pool, len, t, rows, n, arity);
    for (uint64_t left = draw(8); left > 0; left--) {
        uint64_t tuple[8], size = draw(30) ? arity % 9 : draw(9);
        for (uint64_t w = 0; w < size; w++)
            tuple[w] = key();
        ducatbriar_inserted in = ducatbriar_insert(pool, len, t, size ? tuple : NULL, size);
        add_number(in.number), add(in.is_new), add_table(t = in.table);
        if (draw(4) == 0) /* the tuple just put in, if it was, or another */
            t = draw(2) ? without(pool, len, t, tuple, size) : without_drawn(pool, len, t);
    }
    return t;
}

/* A file with some of its bytes, which are tags, lengths and kinds for the most part, changed, cut off or put behind it; or as it is. */
static uint64_t changed_file(uint8_t *bytes, uint64_t len)
{
    uint64_t kind = draw(8), at_byte = draw(4) ? draw(16) : draw(len), other = draw(4) ? draw(10) : draw(256);
    if (kind == 0)
        return draw(len);
    if (kind == 1)
        bytes[len++] = (uint8_t)other;
    if (kind == 2)
        bytes[at_byte % len] = (uint8_t)other;
    if (kind == 3)
        bytes[at_byte % len] ^= 1;
    return len;
}

/* The table's file, and what is read of it. */
static void file(const uint64_t *pool, uint64_t len, ducatbriar_table t)
{
    static uint8_t bytes[DUCATBRIAR_FILE(8, 32) + 1];
    static uint64_t other[DUCATBRIAR_WORDS(8, 32)];
    memset(bytes, 7, sizeof bytes);
    uint64_t room = draw(8) ? sizeof bytes - 1 : draw(64);
    ducatbriar_file_written w = ducatbriar_write(pool, len, t, room ? bytes : NULL, room);
    add_number(w.number), add(w.len), add_bytes(bytes, sizeof bytes);
    uint64_t n = w.len > 0 ? changed_file(bytes, w.len) : draw(16);
    uint64_t start = draw(30) ? draw(8) : key(), capacity = draw(30) ? draw(40) : key();
    ducatbriar_built r = ducatbriar_read(n ? bytes : NULL, n, other, COUNT(other), start, capacity);
    add_number(r.number), add_table(r.table), add_words(other, COUNT(other));
    if (r.number == 0) {
        w = ducatbriar_write(other, COUNT(other), r.table, bytes, sizeof bytes);
        add_number(w.number), add(w.len), add(w.len == n), add_bytes(bytes, sizeof bytes);
    }
}

/* The table with its columns permuted, for the most part by a permutation, and that permuted back. */
static void rebuilt(const uint64_t *pool, uint64_t len, ducatbriar_table t)
{
    static uint64_t other[DUCATBRIAR_WORDS(8, 32) + 8], again[DUCATBRIAR_WORDS(8, 32) + 8];
    ducatbriar_columns there, back;
    uint64_t arity = t.arity < 8 ? t.arity : 8;
    for (uint64_t i = 0; i < 8; i++)
        there.columns[i] = i < arity ? i : key();
    for (uint64_t i = arity; i > 1; i--) {
        uint64_t j = draw(i), kept = there.columns[j];
        there.columns[j] = there.columns[i - 1], there.columns[i - 1] = kept;
    }
    uint64_t word = draw(2) ? draw(8) : key(), where = draw(8);
    if (draw(12) == 0)
        there.columns[where] = word;
    uint64_t start = draw(30) ? draw(8) : key(), capacity = draw(20) ? t.tuple_count % 64 + draw(4) : key();
    ducatbriar_built b = ducatbriar_permute(pool, len, t, there, other, COUNT(other), start, capacity);
    add_number(b.number), add_table(b.table), add_words(other, COUNT(other));
    memset(&back, 0, sizeof back);
    for (uint64_t i = 0; i < 8; i++)
        if (there.columns[i] < 8 && i < arity)
            back.columns[there.columns[i]] = i;
    b = ducatbriar_permute(other, COUNT(other), b.table, back, again, COUNT(again), t.start % 8, t.capacity);
    add_number(b.number), add_table(b.table), add_words(again, COUNT(again));
}

static void round_of_calls(void)
{
    static uint64_t pool[2048];
    static uint8_t bytes[8192];
    ducatbriar_tables ts = {0};
    ts.count = draw(4) ? 4 : 8;
    for (uint64_t i = 0; i < ts.count; i++) {
        ts.tables[i] = drawn_table(pool, COUNT(pool), i * 256);
        if (draw(4) == 0)
            ts.tables[i] = without_drawn(pool, COUNT(pool), damaged(ts.tables[i], pool, COUNT(pool)));
        add(ducatbriar_undamaged(pool, COUNT(pool), ts.tables[i]));
        memset(bytes, 7, sizeof bytes);
        uint64_t room = draw(4) ? sizeof bytes : draw(64);
        ducatbriar_listed l = ducatbriar_list(pool, COUNT(pool), ts.tables[i], bytes, room);
        add_number(l.number), add(l.len), add_bytes(bytes, 512);
        file(pool, COUNT(pool), ts.tables[i]);
        rebuilt(pool, COUNT(pool), ts.tables[i]);
        walk(pool, COUNT(pool), ts.tables[i]);
        rise(pool, COUNT(pool), ts.tables[i]);
    }
    for (uint64_t i = 0; i < ts.count; i++)
        walk_both(pool, COUNT(pool), ts.tables[i], ts.tables[another(&ts, i)]);
    for (int i = 0; i < 8; i++)
        query(pool, COUNT(pool), ts);
    add_words(pool, COUNT(pool));
    for (uint64_t strategy = 0; strategy < 4; strategy++, calls += 3) {
        uint64_t word = key(), from = draw(COUNT(pool)), len = draw(COUNT(pool) - from);
        ducatbriar_sought s = ducatbriar_partition_point(strategy, len ? pool + from : NULL, len, word);
        add(s.offset), add(s.probes), add(s.hit);
        int64_t grade = ducatbriar_grade_of(word);
        add((uint64_t)grade), add(grade < 0), add(ducatbriar_word_of(grade));
    }
}

/* ---- the sort's heap: rows that part badly each time, so that the sort falls back to it. They are found by sorting numbers of rows whose keys are
   settled only when they are compared (M. D. McIlroy, A Killer Adversary for Quicksort). */

#define HEAP_ROWS 600
static uint64_t keys[HEAP_ROWS], settled, place_of[HEAP_ROWS];
static const uint64_t open_key = UINT64_MAX;

static bool below(uint64_t x, uint64_t y, uint64_t settles)
{
    if (keys[x] == open_key && keys[y] == open_key)
        keys[settles] = settled++;
    return keys[x] < keys[y];
}

static void swap(uint64_t *rows, uint64_t i, uint64_t j)
{
    uint64_t kept = rows[i];
    rows[i] = rows[j], rows[j] = kept;
}

static uint64_t median(const uint64_t *rows, uint64_t x, uint64_t y, uint64_t z)
{
    bool xy = below(rows[x], rows[y], rows[x]), yz = below(rows[y], rows[z], rows[y]);
    if (xy == yz)
        return y;
    return xy == below(rows[x], rows[z], rows[x]) ? z : x;
}

/* The steps of crates/sort, on rows whose keys are open: as many partings as it makes before it takes the heap. */
static void part_badly(uint64_t *rows, uint64_t n, uint64_t partings)
{
    bool ascends = true;
    for (uint64_t i = 1; i < n && ascends; i++)
        ascends = !below(rows[i], rows[i - 1], rows[i]);
    if (n <= 16 || ascends || partings == 0)
        return;
    uint64_t q = n / 4, i = 0;
    swap(rows, 0, median(rows, q, 2 * q, 3 * q));
    for (uint64_t j = 1; j < n; j++) {
        bool less = below(rows[j], rows[0], rows[0]);
        swap(rows, i + 1, j);
        i += less;
    }
    swap(rows, 0, i);
    part_badly(rows, i, partings - 1);
    part_badly(rows + i + 1, n - i - 1, partings - 1);
}

static void heap(uint64_t arity)
{
    static uint64_t rows[3 * HEAP_ROWS], pool[6 * HEAP_ROWS];
    settled = 0;
    for (uint64_t i = 0; i < HEAP_ROWS; i++)
        keys[i] = open_key, place_of[i] = i;
    part_badly(place_of, HEAP_ROWS, 32);
    for (uint64_t i = 0; i < HEAP_ROWS; i++) {
        uint64_t other = settled + draw(HEAP_ROWS / 2);
        for (uint64_t c = 0; c < arity; c++)
            rows[arity * i + c] = c + 1 < arity ? 5 : keys[i] == open_key ? other : keys[i];
    }
    ducatbriar_built b = ducatbriar_build(rows, arity * HEAP_ROWS, pool, COUNT(pool), 0, arity, HEAP_ROWS, plain);
    add_number(b.number), add_table(b.table), add_words(rows, arity * HEAP_ROWS), add_words(pool, COUNT(pool));
    b = ducatbriar_build(rows, arity * HEAP_ROWS, pool, COUNT(pool), 0, arity, HEAP_ROWS, plain); /* once more, now that they ascend */
    add_number(b.number), add_table(b.table), add_words(rows, arity * HEAP_ROWS), add_words(pool, COUNT(pool));
}

/* ---- tables at the limit of the capacity */

#ifndef SELFTEST_SMALL
/* Written, and read into the same place, cleared, as it is and with a byte changed. */
static void file_at_limit(ducatbriar_table t, uint64_t *pool, uint64_t len)
{
    static uint8_t bytes[DUCATBRIAR_FILE(2, 65536)];
    ducatbriar_file_written w = ducatbriar_write(pool, len, t, bytes, sizeof bytes);
    add_number(w.number), add(w.len), add_bytes(bytes, w.len);
    memset(pool, 0, (size_t)len * sizeof *pool);
    bytes[w.len / 2] ^= 255;
    for (int i = 0; i < 2; i++) {
        ducatbriar_built r = ducatbriar_read(bytes, w.len, pool, len, 0, 65536);
        add_number(r.number), add_table(r.table), add_words(pool, len);
        bytes[w.len / 2] ^= 255;
    }
}

/* With its two columns exchanged, where there is no room for the last row, and where there is. */
static void rebuilt_at_limit(ducatbriar_table t, const uint64_t *pool, uint64_t len)
{
    static uint64_t other[4 * 65536];
    const ducatbriar_columns exchanged = {{1, 0}};
    ducatbriar_built b = ducatbriar_permute(pool, len, t, exchanged, other, COUNT(other), 0, t.tuple_count - 1);
    add_number(b.number), add_table(b.table);
    b = ducatbriar_permute(pool, len, t, exchanged, other, COUNT(other), 0, 65536);
    add_number(b.number), add_table(b.table), add_words(other, COUNT(other));
}

static void limits(void)
{
    static uint64_t rows[2 * 65536], pool[4 * 65536], window[63], again[63];
    for (uint64_t i = 0; i < COUNT(rows); i++)
        rows[i] = i % 2 ? draw(UINT64_C(1) << 40) : draw(300);
    ducatbriar_built over = ducatbriar_build(rows, COUNT(rows), pool, COUNT(pool), 0, 2, 65537, plain);
    ducatbriar_built built = ducatbriar_build(rows, COUNT(rows), pool, COUNT(pool), 0, 2, 65536, plain);
    ducatbriar_table t = built.table;
    add_number(over.number), add_number(built.number), add_table(t);
    add(ducatbriar_undamaged(pool, COUNT(pool), t));
    for (int i = 0; i < 40; i++) {
        uint64_t first = draw(400), second = i % 4 ? draw(UINT64_C(1) << 40) : rows[1], tuple[2] = {first, second};
        ducatbriar_inserted in = ducatbriar_insert(pool, COUNT(pool), t, tuple, 2);
        add_number(in.number), add(in.is_new), add_table(t = in.table);
    }
    for (int i = 0; i < 40; i++) {
        uint64_t row = draw(COUNT(rows) / 2), tuple[2] = {rows[2 * row], i % 4 ? rows[2 * row + 1] : draw(UINT64_C(1) << 40)};
        t = without(pool, COUNT(pool), t, tuple, 2);
    }
    add_words(rows, COUNT(rows)), add_words(pool, COUNT(pool));
    file_at_limit(t, pool, COUNT(pool));
    rebuilt_at_limit(t, pool, COUNT(pool));
    walk(pool, COUNT(pool), t);
    for (uint64_t strategy = 0; strategy < 3; strategy++) {
        ducatbriar_tables ts = {1, {t}};
        ducatbriar_query q = {.n = 3, .order = {0, 1, 2}, .atom_count = 2};
        q.atoms[0] = (ducatbriar_atom){.table = 0, .len = 2, .variables = {0, 2}};
        q.atoms[1] = (ducatbriar_atom){.table = 0, .len = 2, .variables = {1, 2}, .laid_over = strategy > 0};
        uint64_t from = draw(1000), target = draw(UINT64_C(1) << 40);
        ducatbriar_joined j = ducatbriar_join(strategy, pool, COUNT(pool), ts, q, window, COUNT(window));
        add_number(j.number), add(j.rows), add(j.seeks), add_words(window, COUNT(window));
        memset(again, 0, sizeof again);
        ducatbriar_plain_joined p = ducatbriar_plain_join(pool, COUNT(pool), ts, q, again, COUNT(again));
        both_engines(j, p, memcmp(again, window, sizeof window) == 0);
        check(pool, COUNT(pool), &ts, &q, window, COUNT(window), 0); /* cut by 12 */
        by_windows(pool, COUNT(pool), &ts, &q, strategy, j, window);
        ducatbriar_row given = {{from % 300, 150, target}};
        go_on(pool, COUNT(pool), &ts, &q, strategy, true, given, window, COUNT(window));
        ducatbriar_sought s = ducatbriar_partition_point(strategy, pool + from, COUNT(pool) - from, target);
        add(s.offset), add(s.probes), add(s.hit);
    }
}
#endif

int main(int argc, char **argv)
{
    long rounds = argc > 1 ? atol(argv[1]) : ROUNDS;
#ifndef SELFTEST_SMALL
    if (argc > 2) {
        replay(argv[2], "seeks", seeks);
        replay(argv[2], "tables", tables);
        replay(argv[2], "cursors", cursors);
        replay(argv[2], "joins", joins);
    }
#endif
    for (long i = 0; i < rounds; i++)
        round_of_calls();
    no_variables();
    for (uint64_t arity = 1; arity <= 3; arity++)
        heap(arity);
#ifndef SELFTEST_SMALL
    limits();
#endif
    printf("refusals:");
    for (size_t i = 1; i < COUNT(refusals); i++)
        printf(" %" PRIu64, refusals[i]);
    printf("\nboth engines: %" PRIu64 " joins, %" PRIu64 " differ", both, differ);
    printf("\nlistings: %" PRIu64 " accepted, %" PRIu64 " wrong, %" PRIu64 " lack a row, %" PRIu64 " not checked", verdicts[1], verdicts[2], verdicts[3], verdicts[0]);
    printf("\nby windows: %" PRIu64 " joins, %" PRIu64 " differ", listings, parted);
    printf("\n%ld rounds, %" PRIu64 " calls, checksum %016" PRIx64 "\n", rounds, calls, sum);
    return 0;
}
