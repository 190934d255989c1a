/* The index over lent tables, for C and C++: the eleven calls, and the picker of a query's words.
 *
 * The caller lends the tables and keeps them; a call writes only into them (query into the scratch, span into its list) and
 * remembers nothing. Each table is a pointer and a length in elements; `kv_tables` has all seven, and `KV_ALL(t)` spells the fourteen
 * arguments: `kv_begin(KV_ALL(t), 3)`. Pointers are aligned for their types, and no two tables overlap. A table that is too
 * short is refused (1), and one that is longer is fine: cells beyond are kept.
 *
 *   clock     6     C, first row count, stamp, row count, slots in use, changes in use
 *   slots     288   values from 0, stamps from 96, links from 192 (0 none, else the slot's number + 1)
 *   words     3072  32 words a slot; row r is bit r mod 64 of word r div 64
 *   heads     32    a slot number for each value
 *   log       2048  stamps from 0, kinds from 512 (1 commit, 2 tidy), row counts from 1024, ends of changes from 1536
 *   changes   4096  rows from 0, flip sets from 2048 (value v is bit v)
 *   sessions  16
 *   scratch   32    query only
 *   list      any   span only: its first cells become the rows; 2048 are always enough
 */
#ifndef KERENVUF_H
#define KERENVUF_H

#include <stddef.h>
#include <stdint.h>

/* The version of this header (CHANGELOG.md), and of the layout of the tables: tables that were saved under another KV_LAYOUT
 * cannot be lent. */
#define KV_VERSION_MAJOR 1
#define KV_VERSION_MINOR 2
#define KV_VERSION "1.2"
#define KV_LAYOUT 1

#ifdef __cplusplus
extern "C" {
#endif

enum {
    KV_CLOCK = 6,
    KV_SLOTS = 288,
    KV_WORDS = 3072,
    KV_HEADS = 32,
    KV_LOG = 2048,
    KV_CHANGES = 4096,
    KV_SESSIONS = 16,
    KV_SCRATCH = 32,
    KV_LIST = 2048,    /* a list for kv_span that no answer is longer than */
    KV_ABSENT = 255,   /* a byte of a column, a target of a list */
    KV_NEW = 65535,    /* the row cell of an entry that is an insert */
    KV_THRESHOLD = 8   /* what a caller of kv_query passes who has no other */
};

/* A session: live 0 (free; then every cell is 0) or 1 (open). Entry i below count is row at[i] with target to[i], or an
 * insert of to[i]. */
typedef struct kv_session {
    uint32_t live, start, rows, count;
    uint16_t at[32];
    uint8_t to[32];
} kv_session;

/* The seven tables, one after another without a gap: 52,248 bytes. */
typedef struct kv_tables {
    uint32_t clock[KV_CLOCK];
    uint32_t slots[KV_SLOTS];
    uint64_t words[KV_WORDS];
    uint32_t heads[KV_HEADS];
    uint32_t log[KV_LOG];
    uint32_t changes[KV_CHANGES];
    kv_session sessions[KV_SESSIONS];
} kv_tables;

/* The tables of a kv_tables as every call takes them: KV_ALL(t), or KV_ALL(*p) of a pointer. */
#define KV_ALL(t)                                                                                         \
    (t).clock, KV_CLOCK, (t).slots, KV_SLOTS, (t).words, KV_WORDS, (t).heads, KV_HEADS, (t).log, KV_LOG, \
        (t).changes, KV_CHANGES, (t).sessions, KV_SESSIONS

/* What an answer holds. Numbers that a kind does not name are 0. */
enum {
    KV_REFUSED = 0,  /* refusal is the number, one of KV_REFUSALS; every table, the scratch and the list are as they were */
    KV_COUNT = 1,    /* create: a rows. span: a rows, in the list's first cells. update, delete, insert: a length of the
                        session's list. abort: a length of the list dropped */
    KV_STAMP = 2,    /* begin: a start stamp, b start row count. commit: a stamp, b row count. tidy: a stamp, b moved rows */
    KV_VALUE = 3,    /* read: a value */
    KV_GONE = 4,     /* read: the row is absent */
    KV_ROWS = 5      /* query: a flip count, b 1 if a tidy is due, c place: 0 the scratch's first 32 words, k + 1 slot k's */
};

typedef struct kv_answer {
    uint32_t refusal, kind, a, b, c;
} kv_answer;

/* The refusals: number, name and sentence. The same table is in python/kerenvuf.py and docs/LINES.md. 19 is the step
 * program's; no call gives it. */
#define KV_REFUSALS(X)                                                                        \
    X(1, NO_ROOM, "a table is too short for its full limit")                                  \
    X(2, DAMAGED, "the tables are damaged, or no create was accepted yet")                    \
    X(3, BAD_COLUMN, "C is not 1 to 32, over 2048 rows, or a value is not below C")           \
    X(4, NO_SESSION, "the session number is above 15")                                        \
    X(5, NOT_OPEN, "the session is not open")                                                 \
    X(6, NO_VALUE, "the value is not below C")                                                \
    X(7, NO_ROW, "the row is not below the session's start row count")                        \
    X(8, ROW_ABSENT, "the row is absent, or listed as deleted")                               \
    X(9, LIST_FULL, "the session's list has 32 entries already")                              \
    X(10, SHORT_SCRATCH, "the scratch has fewer than 32 words")                               \
    X(11, LIST_EMPTY, "the session's list is empty")                                          \
    X(12, CONFLICT, "a listed row was committed or tidied since the session was opened")      \
    X(13, NOTHING_TO_MOVE, "the tidy has no row to move")                                     \
    X(14, STALE, "the tidy was overtaken since the session was opened")                       \
    X(15, ROWS_FULL, "the rows would pass 2048")                                              \
    X(16, RECORDS_FULL, "there are 512 records already")                                      \
    X(17, CHANGES_FULL, "the changes would pass 2048")                                        \
    X(18, SLOTS_FULL, "there are 96 slots already")                                           \
    X(19, UNREADABLE, "the line cannot be read")                                              \
    X(20, BACKWARD, "the first value is above the last")                                      \
    X(21, SHORT_LIST, "the list is shorter than the answer")                                  \
    /* a new one: a line above this one, in python/kerenvuf.py and in docs/LINES.md */

/* KV_NO_ROOM 1, KV_DAMAGED 2, and so on. */
enum {
#define KV_NUMBERED(number, name, sentence) KV_##name = number,
    KV_REFUSALS(KV_NUMBERED)
#undef KV_NUMBERED
    KV_ACCEPTED = 0
};

/* A refusal's name, as "CONFLICT"; "ACCEPTED" of 0, "UNKNOWN" of a number that is no refusal. */
static inline const char *kv_name(uint32_t refusal) {
    switch (refusal) {
    case KV_ACCEPTED: return "ACCEPTED";
#define KV_NAMED(number, name, sentence) case number: return #name;
    KV_REFUSALS(KV_NAMED)
#undef KV_NAMED
    default: return "UNKNOWN";
    }
}

/* A refusal's sentence. */
static inline const char *kv_sentence(uint32_t refusal) {
    switch (refusal) {
    case KV_ACCEPTED: return "the call was accepted";
#define KV_SAID(number, name, sentence) case number: return sentence;
    KV_REFUSALS(KV_SAID)
#undef KV_SAID
    default: return "no refusal has this number";
    }
}

/* The tables, as every call takes them. */
#define KV_LENT                                                                                                 \
    uint32_t *clock, size_t clock_len, uint32_t *slots, size_t slots_len, uint64_t *words, size_t words_len,    \
        uint32_t *heads, size_t heads_len, uint32_t *log, size_t log_len, uint32_t *changes, size_t changes_len, \
        kv_session *sessions, size_t sessions_len

kv_answer kv_create(KV_LENT, uint64_t values, const uint8_t *column, size_t column_len);
kv_answer kv_begin(KV_LENT, uint64_t session);
kv_answer kv_query(KV_LENT, uint64_t *scratch, size_t scratch_len, uint64_t session, uint64_t value, uint64_t threshold);
kv_answer kv_span(KV_LENT, uint16_t *list, size_t list_len, uint64_t session, uint64_t first, uint64_t last);
kv_answer kv_read(KV_LENT, uint64_t session, uint64_t row);
kv_answer kv_update(KV_LENT, uint64_t session, uint64_t row, uint64_t value);
kv_answer kv_delete(KV_LENT, uint64_t session, uint64_t row);
kv_answer kv_insert(KV_LENT, uint64_t session, uint64_t value);
kv_answer kv_commit(KV_LENT, uint64_t session);
kv_answer kv_tidy(KV_LENT, uint64_t session, uint64_t value);
kv_answer kv_abort(KV_LENT, uint64_t session);

/* The 32 words that a query's place names, copied to out: answers 32; or 0, and out is as it was, where those words were
 * not lent or out has fewer than 32. */
uint32_t kv_picked(const uint64_t *words, size_t words_len, const uint64_t *scratch, size_t scratch_len, uint64_t place,
                   uint64_t *out, size_t out_len);

#ifdef __cplusplus
}
#endif

#endif
