// The step program of document 01 in plain C: the same tables, and the same damage check on each call, as the proved
// program, written by hand for speed. It is the baseline that bench/run measures the proved program against. A span of
// values has no line: bench/spans.c calls it.

#include <errno.h>
#include <stdbool.h>
#include <stdint.h>
#include <string.h>
#include <unistd.h>

typedef uint8_t u8;
typedef uint16_t u16;
typedef uint32_t u32;
typedef uint64_t u64;

enum {
    MOST_VALUES = 32,
    MOST_ROWS = 2048,
    WORDS = MOST_ROWS / 64,
    MOST_SLOTS = 96,
    MOST_RECORDS = 512,
    MOST_CHANGES = 2048,
    SESSIONS = 16,
    MOST_ENTRIES = 32,
    COMMIT = 1,
    TIDY = 2,
    INSERT = 65535,  // the row of an entry that is an insert
    ABSENT = 255,    // a target or a value of a column
    THRESHOLD = 8,   // a tidy is due above this flip count
    BLOCK = 64,      // so many changes are searched for a row at once
};

// The refusal numbers. 1 and 10 never occur: the program lends its tables and its scratch in full.
enum {
    DAMAGED = 2,
    BAD_COLUMN = 3,
    NO_SESSION = 4,
    NOT_OPEN = 5,
    NO_VALUE = 6,
    NO_ROW = 7,
    ROW_ABSENT = 8,
    LIST_FULL = 9,
    LIST_EMPTY = 11,
    CONFLICT = 12,
    NOTHING_TO_MOVE = 13,
    STALE = 14,
    ROWS_FULL = 15,
    RECORDS_FULL = 16,
    CHANGES_FULL = 17,
    SLOTS_FULL = 18,
    UNREADABLE = 19,
    BACKWARD = 20,
    SHORT_LIST = 21,
};

// A session, free or open; entry i is a row `at` with its target `to`, or an insert of `to`. A free one is all 0.
struct session {
    u32 open, start, rows, count;
    u16 at[MOST_ENTRIES];
    u8 to[MOST_ENTRIES];
};

// The tables, by column. Record k stands at k - 1, and its changes start where those of the one before ended; a link
// is 0 for none, or the slot's number plus 1.
static struct {
    u32 values, first, stamp, rows, slots, changes;
} clock;
static u32 slot_value[MOST_SLOTS], slot_stamp[MOST_SLOTS], slot_link[MOST_SLOTS];
static u64 words[MOST_SLOTS][WORDS];
static u32 heads[MOST_VALUES];
static u32 record_stamp[MOST_RECORDS], record_kind[MOST_RECORDS], record_rows[MOST_RECORDS], record_end[MOST_RECORDS];
static u32 change_row[MOST_CHANGES], change_set[MOST_CHANGES];
static struct session sessions[SESSIONS];
static u64 scratch[WORDS];

// Where the changes of records 1 to s end.
static u32 end_at(u32 s) {
    return s == 0 ? 0 : record_end[s - 1];
}

// The row count at stamp s.
static u32 rows_at(u32 s) {
    return s == 0 ? clock.first : record_rows[s - 1];
}

// Whether a vector has a row.
static bool has_row(const u64 *vector, u32 row) {
    return vector[row / 64] >> row % 64 & 1;
}

// Whether a flip set has a value.
static bool has_value(u32 set, u32 v) {
    return set >> v & 1;
}

// How many rows a vector has.
static u32 count_rows(const u64 *vector) {
    u32 count = 0;
    for (u32 i = 0; i < WORDS; i++) count += (u32)__builtin_popcountll(vector[i]);
    return count;
}

// Damaged tables. What is wrong is gathered without a branch where it can be, so that the loops vectorise.

// Whether the clock is within the limits.
static bool clock_sound(void) {
    return 1 <= clock.values && clock.values <= MOST_VALUES && clock.first <= MOST_ROWS && clock.rows <= MOST_ROWS &&
           clock.stamp <= MOST_RECORDS && clock.values <= clock.slots && clock.slots <= MOST_SLOTS &&
           clock.changes <= MOST_CHANGES;
}

// Whether the first n cells never fall.
static bool never_fall(const u32 *cell, u32 n) {
    const u32 *next = cell + 1;
    bool fall = false;
    for (u32 k = 0; k + 1 < n; k++) fall |= cell[k] > next[k];
    return !fall;
}

// Whether record k bears stamp k and a kind (1 or 2), and row counts and ends never fall and end at the current ones.
static bool records_sound(void) {
    u32 n = clock.stamp;
    if (n == 0) return (clock.rows == clock.first) & (clock.changes == 0);
    u32 wrong = 0;
    for (u32 k = 0; k < n; k++) wrong |= (record_stamp[k] ^ (k + 1)) | (record_kind[k] - COMMIT) >> 1;
    return wrong == 0 && clock.first <= record_rows[0] && never_fall(record_rows, n) && never_fall(record_end, n) &&
           record_rows[n - 1] == clock.rows && record_end[n - 1] == clock.changes;
}

// Whether the changes from `from` to `to` have rows below a row count.
static bool rows_below(u32 from, u32 to, u32 rows) {
    bool ok = true;
    for (u32 p = from; p < to; p++) ok &= change_row[p] < rows;
    return ok;
}

// Whether each change has a row below its record's row count. Records of one row count are checked together.
static bool change_rows_sound(void) {
    if (clock.rows == clock.first) return rows_below(0, clock.changes, clock.first);
    u32 from = 0;
    for (u32 k = 0; k < clock.stamp; k++) {
        if (k + 1 < clock.stamp && record_rows[k + 1] == record_rows[k]) continue;
        if (!rows_below(from, record_end[k], record_rows[k])) return false;
        from = record_end[k];
    }
    return true;
}

// Whether each change has a set below C.
static bool change_sets_sound(void) {
    u32 all = 0;
    for (u32 p = 0; p < clock.changes; p++) all |= change_set[p];
    return (u64)all >> clock.values == 0;
}

// Whether slot i below C has value i, stamp 0 and no link, and a later one a value, a stamp and a link as it should.
static bool slots_sound(void) {
    u32 wrong = 0;
    for (u32 i = 0; i < clock.values; i++) wrong |= (slot_value[i] ^ i) | slot_stamp[i] | slot_link[i];
    for (u32 i = clock.values; i < clock.slots; i++) {
        u32 before = slot_link[i] - 1;
        if (before >= i) return false;
        wrong |= (slot_value[i] >= clock.values) | (slot_stamp[i] > clock.stamp);
        wrong |= (slot_value[before] != slot_value[i]) | (slot_stamp[before] >= slot_stamp[i]);
    }
    return wrong == 0;
}

// Whether head v names a slot of value v.
static bool heads_sound(void) {
    for (u32 v = 0; v < clock.values; v++)
        if (heads[v] >= clock.slots || slot_value[heads[v]] != v) return false;
    return true;
}

// Whether no vector has a row at or above the row count at its slot's stamp.
static bool vectors_sound(void) {
    u64 over = 0;
    for (u32 i = 0; i < clock.slots; i++) {
        u32 rows = rows_at(slot_stamp[i]);
        u32 word = rows / 64;
        if (word == WORDS) continue;
        over |= words[i][word] >> rows % 64;
        for (u32 k = word + 1; k < WORDS; k++) over |= words[i][k];
    }
    return over == 0;
}

// Whether the entries of an open session are rows below its row count, listed once, with a target, or inserts.
static bool entries_sound(const struct session *s) {
    u64 listed[WORDS] = {0};
    for (u32 i = 0; i < s->count; i++) {
        u32 row = s->at[i], to = s->to[i];
        if (row < s->rows) {
            if (to >= clock.values && to != ABSENT) return false;
            if (has_row(listed, row)) return false;
            listed[row / 64] |= 1ull << row % 64;
        } else if (row != INSERT || to >= clock.values) {
            return false;
        }
    }
    return true;
}

// Whether a session is all 0.
static bool all_zero(const struct session *s) {
    u64 word[sizeof *s / 8], all = 0;
    memcpy(word, s, sizeof *s);
    for (u32 i = 0; i < sizeof *s / 8; i++) all |= word[i];
    return all == 0;
}

// Whether a session is free and all 0, or open and as it should be.
static bool session_sound(const struct session *s) {
    if (s->open != 1) return all_zero(s);
    if (s->start > clock.stamp || s->rows != rows_at(s->start) || s->count > MOST_ENTRIES) return false;
    return s->count == 0 || entries_sound(s);
}

// Whether every session is sound.
static bool sessions_sound(void) {
    for (u32 n = 0; n < SESSIONS; n++)
        if (!session_sound(&sessions[n])) return false;
    return true;
}

// Whether the tables are not damaged.
static bool sound(void) {
    return clock_sound() && records_sound() && change_rows_sound() && change_sets_sound() && slots_sound() &&
           heads_sound() && vectors_sound() && sessions_sound();
}

// What a stamp shows.

// The slot of v that stamp s sees.
static u32 version(u32 v, u32 s) {
    u32 i = heads[v];
    while (slot_stamp[i] > s) i = slot_link[i] - 1;
    return i;
}

// The rows whose last change from `from` to `to` has v.
static void flips(u64 *mask, u32 from, u32 to, u32 v) {
    memset(mask, 0, WORDS * sizeof *mask);
    for (u32 p = from; p < to; p++) {
        u32 row = change_row[p];
        u64 *word = &mask[row / 64], bit = 1ull << row % 64;
        *word = has_value(change_set[p], v) ? *word | bit : *word & ~bit;
    }
}

// Whether one of the changes from `from` to `to` names the row.
static bool named(u32 row, u32 from, u32 to) {
    bool found = false;
    for (u32 p = from; p < to; p++) found |= change_row[p] == row;
    return found;
}

// One more than the place of the last of the first `to` changes that names the row; 0 if there is none.
static u32 last_naming(u32 row, u32 to) {
    while (to >= BLOCK && !named(row, to - BLOCK, to)) to -= BLOCK;
    while (to > 0 && change_row[to - 1] != row) to--;
    return to;
}

// The flip set of the change before place `last`, or the empty one.
static u32 set_before(u32 last) {
    return last == 0 ? 0 : change_set[last - 1];
}

// The smallest value that has the row at stamp s, or absent; `last` is the row's last_naming at s.
static u32 read_after(u32 s, u32 row, u32 last) {
    u32 set = set_before(last);
    for (u32 v = 0; v < clock.values; v++) {
        u32 slot = version(v, s);
        bool flipped = last > end_at(slot_stamp[slot]) && has_value(set, v);
        if (has_row(words[slot], row) != flipped) return v;
    }
    return ABSENT;
}

// The value that the row has at stamp s, or absent.
static u32 read_at(u32 s, u32 row) {
    return read_after(s, row, last_naming(row, end_at(s)));
}

// Answers. Each function writes from `out` on and gives the place after.

// The two digits of a number below 100.
static void put_two(char *out, u32 x) {
    u32 tens = x * 103 >> 10;
    out[0] = (char)('0' + tens);
    out[1] = (char)('0' + x - 10 * tens);
}

// A space and a number below 10,000.
static char *put(char *out, u32 x) {
    out[0] = ' ';
    if (x < 10) {
        out[1] = (char)('0' + x);
        return out + 2;
    }
    if (x < 100) {
        put_two(out + 1, x);
        return out + 3;
    }
    if (x < 1000) {
        out[1] = (char)('0' + x / 100);
        put_two(out + 2, x % 100);
        return out + 4;
    }
    put_two(out + 1, x / 100);
    put_two(out + 3, x % 100);
    return out + 5;
}

// A refusal.
static char *no(char *out, u32 number) {
    memcpy(out, "no", 2);
    return put(out + 2, number);
}

// `ok` and a number.
static char *ok(char *out, u32 x) {
    memcpy(out, "ok", 2);
    return put(out + 2, x);
}

// The rows of a vector, ascending.
static char *put_rows(char *out, const u64 *vector) {
    for (u32 i = 0; i < WORDS; i++)
        for (u64 word = vector[i]; word != 0; word &= word - 1) out = put(out, 64 * i + (u32)__builtin_ctzll(word));
    return out;
}

// The calls. Each answers from `out` on; its refusals stand in the order of their numbers.

// The refusals that all calls on session n share, but 5; 0 if there is none.
static u32 not_placed(u32 n) {
    if (!sound()) return DAMAGED;
    if (n >= SESSIONS) return NO_SESSION;
    return 0;
}

// The refusals that all calls on an open session n share; 0 if there is none.
static u32 not_open(u32 n) {
    u32 why = not_placed(n);
    if (why == 0 && sessions[n].open == 0) why = NOT_OPEN;
    return why;
}

// The refusals that all calls on an open session n and a value share; 0 if there is none.
static u32 not_valued(u32 n, u32 v) {
    u32 why = not_open(n);
    if (why == 0 && v >= clock.values) why = NO_VALUE;
    return why;
}

// Whether C is out of range, there are too many rows, or a byte is neither below C nor absent.
static bool bad_column(u32 C, const u8 *column, u32 rows) {
    if (C == 0 || C > MOST_VALUES || rows > MOST_ROWS) return true;
    u8 wrong = 0;
    for (u32 r = 0; r < rows; r++) wrong |= (column[r] >= C) & (column[r] != ABSENT);
    return wrong != 0;
}

// Create.
static char *create(char *out, u32 C, const u8 *column, u32 rows) {
    if (bad_column(C, column, rows)) return no(out, BAD_COLUMN);
    memset(slot_stamp, 0, sizeof slot_stamp);
    memset(slot_link, 0, sizeof slot_link);
    memset(words, 0, sizeof words);
    memset(record_stamp, 0, sizeof record_stamp);
    memset(record_kind, 0, sizeof record_kind);
    memset(record_rows, 0, sizeof record_rows);
    memset(record_end, 0, sizeof record_end);
    memset(change_row, 0, sizeof change_row);
    memset(change_set, 0, sizeof change_set);
    memset(sessions, 0, sizeof sessions);
    for (u32 i = 0; i < MOST_SLOTS; i++) slot_value[i] = i < C ? i : 0;
    for (u32 v = 0; v < MOST_VALUES; v++) heads[v] = v < C ? v : 0;
    for (u32 r = 0; r < rows; r++)
        if (column[r] != ABSENT) words[column[r]][r / 64] |= 1ull << r % 64;
    clock.values = clock.slots = C;
    clock.first = clock.rows = rows;
    clock.stamp = clock.changes = 0;
    return ok(out, rows);
}

// Begin.
static char *begin(char *out, u32 n) {
    u32 why = not_placed(n);
    if (why != 0) return no(out, why);
    struct session *s = &sessions[n];
    if (s->open == 0) {
        s->open = 1;
        s->start = clock.stamp;
        s->rows = clock.rows;
    }
    return put(ok(out, s->start), s->rows);
}

// Query.
static char *query(char *out, u32 n, u32 v) {
    u32 why = not_valued(n, v);
    if (why != 0) return no(out, why);
    u32 s = sessions[n].start;
    u32 slot = version(v, s);
    u64 mask[WORDS];
    flips(mask, end_at(slot_stamp[slot]), end_at(s), v);
    u32 count = count_rows(mask);
    const u64 *vector = words[slot];
    if (count > 0) {
        for (u32 i = 0; i < WORDS; i++) scratch[i] = vector[i] ^ mask[i];
        vector = scratch;
    }
    out = put(put(ok(out, count), count > THRESHOLD), count_rows(vector));
    return put_rows(out, vector);
}

// The rows that v has at stamp s join others. By itself, so that the loop over the changes keeps what it needs in registers.
static __attribute__((noinline)) void add_value(u64 *all, u32 s, u32 v) {
    u64 mask[WORDS];
    u32 slot = version(v, s);
    flips(mask, end_at(slot_stamp[slot]), end_at(s), v);
    for (u32 i = 0; i < WORDS; i++) all[i] |= words[slot][i] ^ mask[i];
}

// Span: the refusal, or 0; then `count` rows are in the list's first cells, ascending.
static u32 span(u16 *list, u32 length, u32 n, u32 first, u32 last, u32 *count) {
    u32 why = not_valued(n, first);
    if (why != 0) return why;
    if (last >= clock.values) return NO_VALUE;
    if (first > last) return BACKWARD;
    u64 all[WORDS] = {0};
    for (u32 v = first; v <= last; v++) add_value(all, sessions[n].start, v);
    *count = count_rows(all);
    if (length < *count) return SHORT_LIST;
    for (u32 i = 0; i < WORDS; i++)
        for (u64 word = all[i]; word != 0; word &= word - 1) *list++ = (u16)(64 * i + (u32)__builtin_ctzll(word));
    return 0;
}

// Read.
static char *read_row(char *out, u32 n, u32 row) {
    u32 why = not_open(n);
    if (why != 0) return no(out, why);
    if (row >= sessions[n].rows) return no(out, NO_ROW);
    u32 value = read_at(sessions[n].start, row);
    if (value != ABSENT) return ok(out, value);
    memcpy(out, "ok -", 4);
    return out + 4;
}

// The entry of the list that has the row; the list's length if there is none.
static u32 entry_of(const struct session *s, u32 row) {
    u32 i = 0;
    while (i < s->count && s->at[i] != row) i++;
    return i;
}

// Entry i, in the list or right after it, gets a row and a target.
static char *list(char *out, struct session *s, u32 i, u32 row, u32 to) {
    if (i == MOST_ENTRIES) return no(out, LIST_FULL);
    s->at[i] = (u16)row;
    s->to[i] = (u8)to;
    if (i == s->count) s->count++;
    return ok(out, s->count);
}

// Update, or delete where the target is absent, in an open session.
static char *change(char *out, struct session *s, u32 row, u32 to) {
    if (row >= s->rows) return no(out, NO_ROW);
    u32 i = entry_of(s, row);
    u32 standing = i < s->count ? s->to[i] : read_at(s->start, row);
    if (standing == ABSENT) return no(out, ROW_ABSENT);
    return list(out, s, i, row, to);
}

// Update.
static char *update(char *out, u32 n, u32 row, u32 v) {
    u32 why = not_valued(n, v);
    return why != 0 ? no(out, why) : change(out, &sessions[n], row, v);
}

// Delete.
static char *delete(char *out, u32 n, u32 row) {
    u32 why = not_open(n);
    return why != 0 ? no(out, why) : change(out, &sessions[n], row, ABSENT);
}

// Insert.
static char *insert(char *out, u32 n, u32 v) {
    u32 why = not_valued(n, v);
    return why != 0 ? no(out, why) : list(out, &sessions[n], sessions[n].count, INSERT, v);
}

// How many entries of the list are inserts.
static u32 count_inserts(const struct session *s) {
    u32 count = 0;
    for (u32 i = 0; i < s->count; i++) count += s->at[i] == INSERT;
    return count;
}

// Whether a record above the start names a listed row.
static bool conflict(const struct session *s) {
    for (u32 i = 0; i < s->count; i++)
        if (s->at[i] != INSERT && named(s->at[i], end_at(s->start), clock.changes)) return true;
    return false;
}

// The refusals of a commit's list; 0 if there is none.
static u32 not_ready(const struct session *s) {
    if (s->count == 0) return LIST_EMPTY;
    if (conflict(s)) return CONFLICT;
    if (clock.rows + count_inserts(s) > MOST_ROWS) return ROWS_FULL;
    if (clock.stamp == MOST_RECORDS) return RECORDS_FULL;
    if (clock.changes + s->count > MOST_CHANGES) return CHANGES_FULL;
    return 0;
}

// A flip set with a value toggled, if it is present.
static u32 toggled(u32 set, u32 value) {
    return value == ABSENT ? set : set ^ 1u << value;
}

// A change is added behind those in use.
static void add_change(u32 row, u32 set) {
    change_row[clock.changes] = row;
    change_set[clock.changes] = set;
    clock.changes++;
}

// The record of the changes just added; the stamp and the row count move.
static void add_record(u32 kind, u32 rows) {
    u32 k = clock.stamp;
    record_stamp[k] = k + 1;
    record_kind[k] = kind;
    record_rows[k] = rows;
    record_end[k] = clock.changes;
    clock.stamp = k + 1;
    clock.rows = rows;
}

// Commit.
static char *commit(char *out, u32 n) {
    u32 why = not_open(n);
    if (why != 0) return no(out, why);
    struct session *s = &sessions[n];
    why = not_ready(s);
    if (why != 0) return no(out, why);
    for (u32 i = 0; i < s->count; i++) {
        u32 row = s->at[i];
        if (row == INSERT) continue;
        u32 last = last_naming(row, end_at(s->start));
        u32 value = read_after(s->start, row, last);
        add_change(row, toggled(toggled(set_before(last), value), s->to[i]));
    }
    u32 rows = clock.rows;
    for (u32 i = 0; i < s->count; i++)
        if (s->at[i] == INSERT) add_change(rows++, 1u << s->to[i]);
    add_record(COMMIT, rows);
    memset(s, 0, sizeof *s);
    return put(ok(out, clock.stamp), clock.rows);
}

// Whether a tidy of v at stamp s is stale: a later head, or a later record that names a moved row or has v in a set.
static bool stale(u32 s, u32 v, const u64 *moved) {
    if (slot_stamp[heads[v]] > s) return true;
    for (u32 p = end_at(s); p < clock.changes; p++)
        if (has_value(change_set[p], v) || has_row(moved, change_row[p])) return true;
    return false;
}

// A new slot for v with the vector queried at stamp s, behind the old head; it becomes the head.
static void add_slot(u32 s, u32 v) {
    u32 slot = version(v, s);
    u32 next = clock.slots++;
    u64 mask[WORDS];
    flips(mask, end_at(slot_stamp[slot]), end_at(s), v);
    for (u32 i = 0; i < WORDS; i++) words[next][i] = words[slot][i] ^ mask[i];
    slot_value[next] = v;
    slot_stamp[next] = clock.stamp + 1;
    slot_link[next] = heads[v] + 1;
    heads[v] = next;
}

// The moved rows are added as changes, ascending, with their flip sets at stamp s less v.
static void add_moved(u32 s, u32 v, const u64 *moved) {
    u32 set[MOST_ROWS];
    for (u32 p = 0; p < end_at(s); p++) set[change_row[p]] = change_set[p];
    for (u32 i = 0; i < WORDS; i++)
        for (u64 word = moved[i]; word != 0; word &= word - 1) {
            u32 row = 64 * i + (u32)__builtin_ctzll(word);
            add_change(row, set[row] & ~(1u << v));
        }
}

// Tidy.
static char *tidy(char *out, u32 n, u32 v) {
    u32 why = not_valued(n, v);
    if (why != 0) return no(out, why);
    u32 s = sessions[n].start;
    u64 moved[WORDS];
    flips(moved, 0, end_at(s), v);
    u32 count = count_rows(moved);
    if (count == 0) return no(out, NOTHING_TO_MOVE);
    if (stale(s, v, moved)) return no(out, STALE);
    if (clock.stamp == MOST_RECORDS) return no(out, RECORDS_FULL);
    if (clock.changes + count > MOST_CHANGES) return no(out, CHANGES_FULL);
    if (clock.slots == MOST_SLOTS) return no(out, SLOTS_FULL);
    add_slot(s, v);
    add_moved(s, v, moved);
    add_record(TIDY, clock.rows);
    return put(ok(out, clock.stamp), count);
}

// Abort.
static char *abort_session(char *out, u32 n) {
    u32 why = not_open(n);
    if (why != 0) return no(out, why);
    u32 count = sessions[n].count;
    memset(&sessions[n], 0, sizeof sessions[n]);
    return ok(out, count);
}

// Lines. A line ends with its newline, which no field can pass: the functions below need no length.

enum {
    MOST_BYTES = 8192,
    MOST_CELLS = MOST_BYTES / 2,
    MOST_IN_COLUMN = 254,
    MOST_ANSWER = 16384,
    PIECE = 65536,
    LONGEST_WORD = 7,  // a word is compared whole with its space, past the newline of a shorter line
};

// What a digit says; 10 or more for another byte.
static u32 digit(char byte) {
    return (u32)byte - '0';
}

// The number of 1 to 4 digits at `at`; the place after it, or nothing.
static const char *number(const char *at, u32 *x) {
    const char *first = at;
    u32 sum = 0;
    for (; digit(*at) < 10; at++) sum = 10 * sum + digit(*at);
    *x = sum;
    return at == first || at > first + 4 ? NULL : at;
}

// Whether the line is the word, which has its space at the end, and so many numbers.
static inline bool is(const char *line, const char *word, u32 *of, u32 count) {
    u64 length = strlen(word);
    if (memcmp(line, word, length) != 0) return false;
    const char *at = line + length;
    for (u32 i = 0; i < count; i++) {
        at = number(at, &of[i]);
        if (at == NULL || *at++ != (i + 1 < count ? ' ' : '\n')) return false;
    }
    return true;
}

// The cells of a column from `at` to the newline: numbers, or `-` for absent. How many, or -1 if one is unreadable.
static int cells(const char *at, u8 *column) {
    int n = 0;
    while (*at == ' ') {
        u32 x = digit(at[1]);
        if (x < 10 && digit(at[2]) >= 10) {
            at += 2;
        } else if (at[1] == '-') {
            x = ABSENT;
            at += 2;
        } else {
            at = number(at + 1, &x);
            if (at == NULL || x > MOST_IN_COLUMN) return -1;
        }
        column[n++] = (u8)x;
    }
    return *at == '\n' ? n : -1;
}

// A column line behind its word.
static char *column_line(char *out, const char *at) {
    static u8 column[MOST_CELLS];
    u32 C;
    at = number(at, &C);
    if (at == NULL || C > MOST_IN_COLUMN) return no(out, UNREADABLE);
    int rows = cells(at, column);
    if (rows < 0) return no(out, UNREADABLE);
    return create(out, C, column, (u32)rows);
}

// The answer to a line.
static char *answer(char *out, const char *line) {
    u32 of[3];
    switch (line[0]) {
    case 'u':
        if (is(line, "update ", of, 3)) return update(out, of[0], of[1], of[2]);
        break;
    case 'r':
        if (is(line, "read ", of, 2)) return read_row(out, of[0], of[1]);
        break;
    case 'q':
        if (is(line, "query ", of, 2)) return query(out, of[0], of[1]);
        break;
    case 'b':
        if (is(line, "begin ", of, 1)) return begin(out, of[0]);
        break;
    case 'c':
        if (is(line, "commit ", of, 1)) return commit(out, of[0]);
        if (is(line, "column ", of, 0)) return column_line(out, line + 7);
        break;
    case 'd':
        if (is(line, "delete ", of, 2)) return delete(out, of[0], of[1]);
        break;
    case 'i':
        if (is(line, "insert ", of, 2)) return insert(out, of[0], of[1]);
        break;
    case 't':
        if (is(line, "tidy ", of, 2)) return tidy(out, of[0], of[1]);
        break;
    case 'a':
        if (is(line, "abort ", of, 1)) return abort_session(out, of[0]);
        break;
    }
    return no(out, UNREADABLE);
}

// The answers that are not written yet, and where the next one goes.
static char output[PIECE];
static char *unwritten = output;

// The answers are written.
static void flush(void) {
    for (const char *at = output; at < unwritten;) {
        ssize_t written = write(STDOUT_FILENO, at, (size_t)(unwritten - at));
        if (written >= 0) at += written;
        else if (errno != EINTR) _exit(1);
    }
    unwritten = output;
}

// A line of so many bytes, before its newline, is answered.
static void step(const char *line, size_t length) {
    if (output + PIECE - unwritten < MOST_ANSWER) flush();
    unwritten = length > MOST_BYTES ? no(unwritten, UNREADABLE) : answer(unwritten, line);
    *unwritten++ = '\n';
}

// Reads on, behind the bytes that are there; 0 at the end of the input.
static size_t more(char *at, size_t room) {
    for (;;) {
        ssize_t got = read(STDIN_FILENO, at, room);
        if (got >= 0) return (size_t)got;
        if (errno != EINTR) _exit(1);
    }
}

// Answers each line as soon as it is there. Of a line that is too long already, only its last byte is kept.
int main(void) {
    static char input[MOST_BYTES + PIECE + LONGEST_WORD];
    size_t pending = 0, dropped = 0;
    for (size_t got; (got = more(input + pending, PIECE)) > 0;) {
        char *line = input, *end = input + pending + got, *from = input + pending;
        for (char *newline; (newline = memchr(from, '\n', (size_t)(end - from))) != NULL; line = from = newline + 1) {
            step(line, dropped + (size_t)(newline - line));
            dropped = 0;
        }
        flush();
        pending = (size_t)(end - line);
        if (pending > MOST_BYTES) {
            dropped += pending - 1;
            line = end - 1;
            pending = 1;
        }
        memmove(input, line, pending);
    }
    if (pending > 0) {
        input[pending] = '\n';
        step(input, dropped + pending);
        flush();
    }
}
