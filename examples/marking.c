/* An evening of marking, over the archive: hand in, show the worklist, mark, retry, tidy at night. It prints what marking.py prints.
 *
 *     cc -I include examples/marking.c target/staticlib/libkerenvuf.a -o marking
 */
#include <stdio.h>
#include <stdlib.h>
#include <string.h>

#include "kerenvuf.h"

enum { HANDED_IN, IN_HAND, PASSED, REFERRED, STATES };
enum { MOST_ROWS = 2048, READER = 14, NIGHT = 15 };

static const char *const names[STATES] = {"handed in", "in hand", "passed", "referred"};

/* The tables: ours, lent at every call. */
static kv_tables t;
static uint64_t scratch[KV_SCRATCH];

/* Rows, as many as there are. */
typedef struct rows {
    int count;
    int row[MOST_ROWS];
} rows;

/* An answer that is no refusal; a refusal here is a fault of this program. */
static kv_answer accepted(kv_answer answer) {
    if (answer.refusal != 0) {
        fprintf(stderr, "refused by %u, %s: %s\n", answer.refusal, kv_name(answer.refusal), kv_sentence(answer.refusal));
        exit(1);
    }
    return answer;
}

/* Prints rows as a list. */
static void print_rows(const char *before, const rows *list) {
    printf("%s[", before);
    for (int i = 0; i < list->count; i++) {
        printf(i == 0 ? "%d" : ", %d", list->row[i]);
    }
    printf("]");
}

/* Opens a session on a snapshot of this moment. A program that was restarted on saved tables meets its old session, with what it had
 * listed: begin would answer the old start, so that one is dropped first. */
static kv_answer open_anew(uint64_t session) {
    kv_answer answer = kv_abort(KV_ALL(t), session);
    if (answer.refusal != KV_NOT_OPEN) {
        accepted(answer);
    }
    return accepted(kv_begin(KV_ALL(t), session));
}

/* New crowns, in one commit; the numbers of their rows. */
static rows hand_in(uint64_t session, int count) {
    open_anew(session);
    for (int i = 0; i < count; i++) {
        accepted(kv_insert(KV_ALL(t), session, HANDED_IN));
    }
    int end = (int)accepted(kv_commit(KV_ALL(t), session)).b;
    rows made = {.count = 0};
    for (int row = end - count; row < end; row++) {
        made.row[made.count++] = row;
    }
    return made;
}

/* The worklist page: the crowns that are handed in or in hand, on a snapshot of this moment, in one call. */
static rows worklist(void) {
    static uint16_t list[KV_LIST];
    open_anew(READER);
    rows found = {.count = (int)accepted(kv_span(KV_ALL(t), list, KV_LIST, READER, HANDED_IN, IN_HAND)).a};
    for (int i = 0; i < found.count; i++) {
        found.row[i] = list[i];
    }
    accepted(kv_abort(KV_ALL(t), READER));
    return found;
}

/* The rows in a state, as the session sees them. */
static rows held(uint64_t session, uint64_t state) {
    kv_answer answer = accepted(kv_query(KV_ALL(t), scratch, KV_SCRATCH, session, state, KV_THRESHOLD));
    const uint64_t *found = answer.c == 0 ? scratch : t.words + 32 * (answer.c - 1);
    rows list = {.count = 0};
    for (int row = 0; row < MOST_ROWS; row++) {
        if (found[row / 64] >> (row % 64) & 1) {
            list.row[list.count++] = row;
        }
    }
    return list;
}

/* Moves crowns on in one commit. Whoever committed one of them first wins: on a conflict (12) the session starts over on a
 * new snapshot, and lists only the crowns that are still in hand. The rows that were moved. */
static rows mark(uint64_t session, const rows *wanted, const int *state) {
    for (;;) {
        rows moved = {.count = 0};
        for (int i = 0; i < wanted->count; i++) {
            kv_answer held = accepted(kv_read(KV_ALL(t), session, wanted->row[i]));
            if (held.kind == KV_VALUE && held.a == IN_HAND) {
                accepted(kv_update(KV_ALL(t), session, wanted->row[i], state[i]));
                moved.row[moved.count++] = wanted->row[i];
            }
        }
        if (moved.count == 0) {
            accepted(kv_abort(KV_ALL(t), session));
            return moved;
        }
        kv_answer answer = kv_commit(KV_ALL(t), session);
        if (answer.refusal != KV_CONFLICT) {
            accepted(answer);
            return moved;
        }
        printf("  session %d: conflict, once more\n", (int)session);
        open_anew(session);
    }
}

/* At 16, 17 and 18 the index takes no more. It goes on, with all its room, once it is created again from its own rows, which keep
 * their numbers. Every session is freed by it. The tables that are made anew are others, until they are whole. */
static uint32_t create_again(void) {
    static kv_tables made;
    static uint8_t column[MOST_ROWS];
    uint32_t count = open_anew(READER).b;
    memset(column, KV_ABSENT, sizeof column);
    for (int state = STATES - 1; state >= 0; state--) {
        rows list = held(READER, (uint64_t)state);
        for (int i = 0; i < list.count; i++) {
            column[list.row[i]] = (uint8_t)state;
        }
    }
    accepted(kv_create(KV_ALL(made), STATES, column, count));
    t = made;
    return count;
}

/* Every value tidied, each from a snapshot of its own; what has nothing to move, or was overtaken, waits for the next night. Where
 * there is no room for a tidy the index is created again, which folds everything. */
static void night(void) {
    for (uint64_t value = 0; value < STATES; value++) {
        open_anew(NIGHT);
        kv_answer answer = kv_tidy(KV_ALL(t), NIGHT, value);
        if (answer.refusal == KV_RECORDS_FULL || answer.refusal == KV_CHANGES_FULL || answer.refusal == KV_SLOTS_FULL) {
            printf("  %s: created again, %u rows\n", kv_sentence(answer.refusal), create_again());
            return;
        }
        if (answer.refusal == KV_NOTHING_TO_MOVE || answer.refusal == KV_STALE) {
            printf("  %s: nothing to fold\n", names[value]);
        } else {
            accepted(answer);
            printf("  %s: %u rows folded in at stamp %u\n", names[value], answer.b, answer.a);
        }
        accepted(kv_abort(KV_ALL(t), NIGHT));
    }
}

/* Where every crown is, on a snapshot of this moment. */
static void show(void) {
    open_anew(READER);
    for (uint64_t state = 0; state < STATES; state++) {
        rows list = held(READER, state);
        printf("  %s", names[state]);
        print_rows(": ", &list);
        printf("\n");
    }
    accepted(kv_abort(KV_ALL(t), READER));
}

/* Three crowns are there, five are handed in, two markers work at once, and the night tidies. */
int main(void) {
    const uint8_t column[] = {HANDED_IN, HANDED_IN, PASSED};
    printf("column: %u rows\n", accepted(kv_create(KV_ALL(t), STATES, column, sizeof column)).a);
    rows made = hand_in(0, 5);
    print_rows("handed in: rows ", &made);

    open_anew(1);
    rows taken = held(1, HANDED_IN);
    taken.count = 4;
    for (int i = 0; i < taken.count; i++) {
        accepted(kv_update(KV_ALL(t), 1, taken.row[i], IN_HAND));
    }
    kv_answer answer = accepted(kv_commit(KV_ALL(t), 1));
    print_rows("\nmarker 1 takes ", &taken);
    printf(" at stamp and rows [%u, %u]\n", answer.a, answer.b);
    rows page = worklist();
    print_rows("the worklist, handed in or in hand: ", &page);

    printf("\nboth markers mark, each on a snapshot of the same moment\n");
    open_anew(1);
    open_anew(2);
    const rows own = {2, {taken.row[0], taken.row[1]}}, other = {3, {taken.row[1], taken.row[2], taken.row[3]}};
    rows first = mark(1, &own, (const int[]){PASSED, REFERRED});
    rows second = mark(2, &other, (const int[]){PASSED, PASSED, REFERRED});
    print_rows("  marker 1 moved ", &first);
    print_rows("\n  marker 2 moved ", &second);
    page = worklist();
    print_rows("\nthe worklist, handed in or in hand: ", &page);
    printf("\n");
    show();

    printf("the night\n");
    night();
    show();
    return 0;
}
