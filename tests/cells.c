/* The calls, driven from outside: reads tables and calls from standard input, makes each call through kerenvuf.h, and
 * writes the answer and every cell of every table after it. tests/cells.py is at the other end. All numbers little-endian.
 *
 *   'L'  lend: 8 lengths (u64: clock, slots, words, heads, log, changes, sessions, scratch), then the cells of each
 *   'R'  lend a list of rows: its length (u64) and cells (u16)
 *   'C'  call: its number (u64, as make has them, the picker last), 3 arguments (u64), the length of the column
 *        (u64) and its bytes
 *
 * After a call: the 5 numbers of the answer (u32), 1 if nothing beside the lent cells was written (u32), the cells of the
 * 8 tables and of the list, and the 32 words of the picker's out, which stand at 0 before each call. The picker's count is the
 * answer's a.
 */
#include <stdio.h>
#include <stdlib.h>
#include <string.h>

#include "kerenvuf.h"

enum { LIST = 8, TABLES = 9, GUARD = 64, OUT = 32 };

_Static_assert(sizeof(kv_session) == 112, "the session's cells lie without a gap");

/* A lent table, or the list: its length and cells, with a guard on each side. */
static struct table {
    uint64_t len;
    size_t size;
    unsigned char *at;
} table[TABLES] = {{0, 4, 0}, {0, 4, 0}, {0, 8, 0}, {0, 4, 0}, {0, 4, 0}, {0, 4, 0}, {0, sizeof(kv_session), 0}, {0, 8, 0}, {0, 2, 0}};

/* Reads n bytes; ends the program where the input ends. */
static void take(void *to, size_t n) {
    if (fread(to, 1, n, stdin) != n) {
        fprintf(stderr, "cells: the input ends inside a record\n");
        exit(1);
    }
}

/* Writes n bytes. */
static void give(const void *from, size_t n) {
    if (fwrite(from, 1, n, stdout) != n) exit(1);
}

/* The cells of table i, after its guard. */
static void *cells(int i) { return table[i].at + GUARD; }

/* Lends the tables from `from` to `to` that the input has: their lengths, then their cells. */
static void lend(int from, int to) {
    for (int i = from; i < to; i++) take(&table[i].len, 8);
    for (int i = from; i < to; i++) {
        size_t bytes = table[i].len * table[i].size;
        free(table[i].at);
        table[i].at = malloc(bytes + 2 * GUARD);
        if (!table[i].at) exit(1);
        memset(table[i].at, 0xa5, bytes + 2 * GUARD);
        take(cells(i), bytes);
    }
}

/* Whether the guards of every table are as they were. */
static uint32_t intact(void) {
    for (int i = 0; i < TABLES; i++)
        for (size_t g = 0; g < GUARD; g++)
            if (table[i].at[g] != 0xa5 || table[i].at[GUARD + table[i].len * table[i].size + g] != 0xa5) return 0;
    return 1;
}

#define LENT                                                                                             \
    cells(0), table[0].len, cells(1), table[1].len, cells(2), table[2].len, cells(3), table[3].len, cells(4), \
        table[4].len, cells(5), table[5].len, cells(6), table[6].len

/* Makes the call of that number. */
static kv_answer make(uint64_t call, const uint64_t *n, const uint8_t *column, size_t rows, uint64_t *out) {
    switch (call) {
        case 0: return kv_create(LENT, n[0], column, rows);
        case 1: return kv_begin(LENT, n[0]);
        case 2: return kv_query(LENT, cells(7), table[7].len, n[0], n[1], n[2]);
        case 3: return kv_read(LENT, n[0], n[1]);
        case 4: return kv_update(LENT, n[0], n[1], n[2]);
        case 5: return kv_delete(LENT, n[0], n[1]);
        case 6: return kv_insert(LENT, n[0], n[1]);
        case 7: return kv_commit(LENT, n[0]);
        case 8: return kv_tidy(LENT, n[0], n[1]);
        case 9: return kv_abort(LENT, n[0]);
        case 10: return kv_span(LENT, cells(LIST), table[LIST].len, n[0], n[1], n[2]);
        default: {
            kv_answer a = {0, KV_COUNT, kv_picked(cells(2), table[2].len, cells(7), table[7].len, n[0], out, OUT), 0, 0};
            return a;
        }
    }
}

/* Reads a call, makes it, and writes what is there afterwards. */
static void call(void) {
    uint64_t head[5], out[OUT] = {0};
    take(head, sizeof head);
    uint8_t *column = malloc(head[4] + 1);
    if (!column) exit(1);
    take(column, head[4]);
    kv_answer answer = make(head[0], head + 1, column, head[4], out);
    uint32_t numbers[6] = {answer.refusal, answer.kind, answer.a, answer.b, answer.c, intact()};
    give(numbers, sizeof numbers);
    for (int i = 0; i < TABLES; i++) give(cells(i), table[i].len * table[i].size);
    give(out, sizeof out);
    free(column);
}

/* Serves the input to its end. */
int main(void) {
    for (int what; (what = getchar()) != EOF;) {
        if (what == 'L') lend(0, LIST);
        else if (what == 'R') lend(LIST, TABLES);
        else if (what == 'C') call();
        else return 1;
        fflush(stdout);
    }
    return 0;
}
