/* The header, used as C99 and as C++17: its names, sentences, sizes and versions printed, calls by KV_ALL, null pointers with
 * length 0, and a span of a row. Linked with the archive where CALLS is defined. tests/test_header.py reads what it prints. */
#include <stddef.h>
#include <stdio.h>

#include "kerenvuf.h"

#ifdef CALLS
static kv_tables t;

/* The calls with null pointers of length 0: what refuses each. */
static void nulls(void) {
    uint64_t *scratch = NULL;
    const uint8_t *column = NULL;
    uint16_t *list = NULL;
    kv_tables *p = &t;
    printf("create of no column %u rows %u\n", kv_create(KV_ALL(t), 4, column, 0).refusal, kv_create(KV_ALL(*p), 4, column, 0).a);
    printf("begin %u\n", kv_begin(KV_ALL(t), 3).refusal);
    printf("query without a scratch %u\n", kv_query(KV_ALL(t), scratch, 0, 3, 0, KV_THRESHOLD).refusal);
    printf("span of no rows without a list %u rows %u\n", kv_span(KV_ALL(t), list, 0, 3, 0, 3).refusal, kv_span(KV_ALL(t), list, 0, 3, 0, 3).a);
    for (int i = 0; i < 7; i++) {
        kv_answer answer = kv_begin(i == 0 ? NULL : t.clock, i == 0 ? 0 : KV_CLOCK, i == 1 ? NULL : t.slots, i == 1 ? 0 : KV_SLOTS,
                                    i == 2 ? NULL : t.words, i == 2 ? 0 : KV_WORDS, i == 3 ? NULL : t.heads, i == 3 ? 0 : KV_HEADS,
                                    i == 4 ? NULL : t.log, i == 4 ? 0 : KV_LOG, i == 5 ? NULL : t.changes, i == 5 ? 0 : KV_CHANGES,
                                    i == 6 ? NULL : t.sessions, i == 6 ? 0 : KV_SESSIONS, 3);
        printf("begin without table %d %u\n", i, answer.refusal);
    }
    printf("create of nothing %u\n", kv_create(NULL, 0, NULL, 0, NULL, 0, NULL, 0, NULL, 0, NULL, 0, NULL, 0, 4, NULL, 0).refusal);
    printf("picked of nothing %u\n", kv_picked(NULL, 0, NULL, 0, 0, NULL, 0));
}

/* A span over two rows, one of which holds a value of it: without a list, the wrong way round, and into a list of two cells. */
static void spans(void) {
    static const uint8_t column[] = {2, 1};
    uint16_t list[2] = {7, 7};
    kv_create(KV_ALL(t), 4, column, sizeof column);
    kv_begin(KV_ALL(t), 3);
    printf("span without a list %s\n", kv_name(kv_span(KV_ALL(t), NULL, 0, 3, 0, 1).refusal));
    printf("span the wrong way round %s\n", kv_name(kv_span(KV_ALL(t), list, 2, 3, 1, 0).refusal));
    printf("span without a table %u\n", kv_span(NULL, 0, NULL, 0, NULL, 0, NULL, 0, NULL, 0, NULL, 0, NULL, 0, list, 2, 3, 0, 1).refusal);
    printf("lists %u %u\n", list[0], list[1]);
    kv_answer answer = kv_span(KV_ALL(t), list, 2, 3, 0, 1);
    printf("span %u %u %u, lists %u %u\n", answer.refusal, answer.kind, answer.a, list[0], list[1]);
}
#endif

/* Prints what the header has. */
int main(void) {
    printf("version %s %d.%d layout %d\n", KV_VERSION, KV_VERSION_MAJOR, KV_VERSION_MINOR, KV_LAYOUT);
#define SHOW(number, name, sentence) printf("refusal %d|%s|%s|%d\n", number, kv_name(KV_##name), kv_sentence(number), KV_##name);
    KV_REFUSALS(SHOW)
    printf("none %s, %s\n", kv_name(0), kv_name(4000000000u));
#define TABLE(table, length) printf("table " #table " %u %u %u\n", (unsigned)sizeof(((kv_tables *)0)->table[0]), (unsigned)length, \
                                    (unsigned)offsetof(kv_tables, table));
    TABLE(clock, KV_CLOCK)
    TABLE(slots, KV_SLOTS)
    TABLE(words, KV_WORDS)
    TABLE(heads, KV_HEADS)
    TABLE(log, KV_LOG)
    TABLE(changes, KV_CHANGES)
    TABLE(sessions, KV_SESSIONS)
    printf("all %u\n", (unsigned)sizeof(kv_tables));
    printf("list %u\n", (unsigned)KV_LIST);
#ifdef CALLS
    nulls();
    spans();
#endif
    return 0;
}
