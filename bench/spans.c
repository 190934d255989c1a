// What a span costs: N spans over tables that lines have filled, by plain.c's function or by kv_span over the same cells.
//
//     spans plain|archive VALUES N [show] < lines
//
// The lines are answered by plain.c, into its tables; the archive gets a copy of them. Sessions 2 to 15 ask in turn, each for
// the first VALUES values, then for the next, and so on. The last answer is printed, with `show` each of them.

#pragma GCC diagnostic ignored "-Wreturn-type"  // plain.c's main is none here
#define main plain_main
#include "plain.c"
#undef main

#include <stdio.h>
#include <stdlib.h>

#include "kerenvuf.h"

enum { FIRST_SESSION = 2, ASKERS = SESSIONS - FIRST_SESSION };

static kv_tables t;
static u16 rows[KV_LIST];

// Lays plain.c's tables down as the archive takes them.
static void lend(void) {
    memcpy(t.clock, &clock, sizeof t.clock);
    memcpy(t.slots, slot_value, sizeof slot_value);
    memcpy(t.slots + MOST_SLOTS, slot_stamp, sizeof slot_stamp);
    memcpy(t.slots + 2 * MOST_SLOTS, slot_link, sizeof slot_link);
    memcpy(t.words, words, sizeof t.words);
    memcpy(t.heads, heads, sizeof t.heads);
    memcpy(t.log, record_stamp, sizeof record_stamp);
    memcpy(t.log + MOST_RECORDS, record_kind, sizeof record_kind);
    memcpy(t.log + 2 * MOST_RECORDS, record_rows, sizeof record_rows);
    memcpy(t.log + 3 * MOST_RECORDS, record_end, sizeof record_end);
    memcpy(t.changes, change_row, sizeof change_row);
    memcpy(t.changes + MOST_CHANGES, change_set, sizeof change_set);
    memcpy(t.sessions, sessions, sizeof t.sessions);
}

// The span by the archive.
static u32 lent_span(u16 *list, u32 length, u32 n, u32 first, u32 last, u32 *count) {
    kv_answer answer = kv_span(KV_ALL(t), list, length, n, first, last);
    *count = answer.a;
    return answer.refusal;
}

// Prints an answer.
static void show(u32 why, u32 count) {
    printf("\nspan %u %u:", why, count);
    for (u32 i = 0; i < count; i++) printf(" %u", rows[i]);
}

int main(int words_given, char **word) {
    if (words_given < 4) return 2;
    // behind a volatile pointer, so that plain's is a call as well
    u32 (*volatile asked)(u16 *, u32, u32, u32, u32, u32 *) = strcmp(word[1], "plain") == 0 ? span : lent_span;
    u32 width = (u32)atoi(word[2]), calls = (u32)atoi(word[3]), why = 0, count = 0;
    plain_main();
    lend();
    for (u32 k = 0; k < calls; k++) {
        u32 first = k / ASKERS * width % clock.values;
        why = asked(rows, KV_LIST, FIRST_SESSION + k % ASKERS, first, first + width - 1, &count);
        if (words_given > 4) show(why, count);
    }
    show(why, count);
    printf("\n");
    return 0;
}
