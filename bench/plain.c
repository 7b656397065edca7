/* A plain program in C over the C library of SQLite, which answers the requests of bench/ratio as the program does:
 * the program is compared with it. It knows schemes, concepts, labels, untyped broader links, related links, posts,
 * merges, posting files, exports, displays, and three paths of HTTP. It keeps a store in memory, and with --db also in
 * the tables of a store that the program made. It promises nothing: it trusts the file, has no limits, and ends when
 * memory or the disk fails. */
#define _GNU_SOURCE
#include <arpa/inet.h>
#include <ctype.h>
#include <locale.h>
#include <sqlite3.h>
#include <stdarg.h>
#include <stdbool.h>
#include <stdint.h>
#include <stdio.h>
#include <stdlib.h>
#include <string.h>
#include <sys/socket.h>
#include <sys/time.h>
#include <unistd.h>
#include <wchar.h>
#include <wctype.h>

/* --- memory, texts and lists --- */

struct text {
    const char *bytes;
    uint32_t length;
};

/* A list that doubles its room when it is full. */
#define LIST(type)                                                                                                     \
    struct {                                                                                                           \
        type *items;                                                                                                   \
        uint32_t count, room;                                                                                          \
    }
#define RESERVE(list, more)                                                                                            \
    ((list).items = reserve((list).items, sizeof *(list).items, (list).count, (more), &(list).room))
#define PUSH(list, ...) (RESERVE(list, 1), (void)((list).items[(list).count++] = (__VA_ARGS__)))
#define SORT(list, compare)                                                                                            \
    ((list).count > 1 ? qsort((list).items, (list).count, sizeof *(list).items, compare) : (void)0)

typedef LIST(uint32_t) numbers;
typedef LIST(char) bytes;

static _Noreturn void die(const char *what) {
    fprintf(stderr, "plain: %s\n", what);
    exit(3);
}

static inline void *reserve(void *items, size_t size, uint32_t count, size_t more, uint32_t *room) {
    if (more <= *room - count)
        return items;
    size_t next = *room ? *room : 2;
    while (next < count + more)
        next *= 2;
    items = next > UINT32_MAX ? NULL : realloc(items, next * size);
    if (!items)
        die("out of memory");
    *room = next;
    return items;
}

static bool are_equal(struct text a, struct text b) {
    return a.length == b.length && !memcmp(a.bytes, b.bytes, a.length);
}

static int compare_texts(struct text a, struct text b) {
    int order = memcmp(a.bytes, b.bytes, a.length < b.length ? a.length : b.length);
    return order ? order : (a.length > b.length) - (a.length < b.length);
}

static struct text copy_of(struct text text) {
    char *copy = malloc(text.length + 1);
    if (!copy)
        die("out of memory");
    return (struct text){memcpy(copy, text.bytes, text.length), text.length};
}

static int compare_numbers(const void *a, const void *b) {
    uint32_t one = *(const uint32_t *)a, other = *(const uint32_t *)b;
    return (one > other) - (one < other);
}

static bool has(const numbers *list, uint32_t number) {
    for (uint32_t i = 0; i < list->count; i++)
        if (list->items[i] == number)
            return true;
    return false;
}

static void drop(numbers *list, uint32_t number) {
    for (uint32_t i = 0; i < list->count; i++)
        if (list->items[i] == number) {
            list->items[i] = list->items[--list->count];
            return;
        }
}

/* --- output --- */

static bytes out;

static void put_text(struct text text) {
    RESERVE(out, text.length);
    memcpy(out.items + out.count, text.bytes, text.length);
    out.count += text.length;
}

static void put(const char *text) { put_text((struct text){text, strlen(text)}); }

static void put_number(uint32_t number) {
    char digits[10];
    int at = sizeof digits;
    do
        digits[--at] = '0' + number % 10;
    while (number /= 10);
    put_text((struct text){digits + at, sizeof digits - at});
}

static void flush(void) {
    for (size_t at = 0; at < out.count;) {
        ssize_t written = write(STDOUT_FILENO, out.items + at, out.count - at);
        if (written < 0)
            die("standard output");
        at += written;
    }
    out.count = 0;
}

/* --- hash tables: from a hash to the numbers of items, which aren't 0 --- */

struct slot {
    uint32_t hash, item;
};
struct table {
    struct slot *slots;
    uint32_t count, room;
};
typedef bool is_same(uint32_t item, const void *key);

static uint32_t hash_of(struct text text) {
    uint32_t hash = 2166136261;
    for (uint32_t i = 0; i < text.length; i++)
        hash = (hash ^ (uint8_t)text.bytes[i]) * 16777619;
    return hash;
}

static uint32_t mix(uint32_t hash, uint32_t number) {
    hash = (hash ^ number) * 2654435761;
    return hash ^ hash >> 15;
}

static uint32_t find(const struct table *table, uint32_t hash, is_same *same, const void *key) {
    if (!table->room)
        return 0;
    for (uint32_t at = hash;; at++) {
        const struct slot *slot = &table->slots[at & (table->room - 1)];
        if (!slot->item || (slot->hash == hash && same(slot->item, key)))
            return slot->item;
    }
}

static void insert(struct table *table, uint32_t hash, uint32_t item) {
    if (table->count * 4 >= table->room * 3) {
        struct table old = *table;
        *table = (struct table){.room = old.room ? 2 * old.room : 64};
        table->slots = calloc(table->room, sizeof *table->slots);
        if (!table->slots)
            die("out of memory");
        for (uint32_t i = 0; i < old.room; i++)
            if (old.slots[i].item)
                insert(table, old.slots[i].hash, old.slots[i].item);
        free(old.slots);
    }
    uint32_t at = hash & (table->room - 1);
    while (table->slots[at].item)
        at = (at + 1) & (table->room - 1);
    table->slots[at] = (struct slot){hash, item};
    table->count++;
}

/* --- the state --- */

enum { SCHEME = 1, CONCEPT = 2 };
enum { PREF = 1, ALT, HIDDEN, SCOPE };
enum { UP, DOWN, RELATED, SIDES };
static const int BACK[SIDES] = {DOWN, UP, RELATED};

struct label {
    uint32_t owner;
    uint16_t kind, tag;
    struct text text;
};
struct resource {
    uint32_t kind, scheme, replaced, seen;
    bool is_live;
    numbers labels, links[SIDES], postings;
};
struct posting {
    struct text key, record;
    uint32_t first, place;
    bool is_withdrawn;
};
struct move {
    uint32_t posting, source, target;
};

/* A number is an index, and 0 none. */
static LIST(struct resource) resources;
static LIST(struct label) labels;
static LIST(struct posting) postings;
static LIST(struct move) moves;
static LIST(struct text) tags;
static struct table names, taken, keys;
static uint32_t link_count, related_count, last_mark;

static struct resource *at(uint32_t number) { return &resources.items[number]; }

static bool is_there(uint32_t number) { return 0 < number && number < resources.count; }

static bool is_tag(uint32_t tag, struct text text) { return are_equal(tags.items[tag], text); }

static uint16_t tag_of(struct text text) {
    for (uint32_t tag = 0; tag < tags.count; tag++)
        if (is_tag(tag, text))
            return tag;
    PUSH(tags, copy_of(text));
    return tags.count - 1;
}

static uint32_t name_hash(uint32_t text_hash, const struct label *label) {
    return mix(text_hash, label->owner * 8 + label->tag * 2 + (label->kind == SCOPE));
}

/* Whether a label is the same name, or the same note, of the same owner as another. */
static bool is_name(uint32_t item, const void *key) {
    const struct label *label = &labels.items[item], *other = key;
    return label->owner == other->owner && label->tag == other->tag &&
           (label->kind == SCOPE) == (other->kind == SCOPE) && are_equal(label->text, other->text);
}

/* Whether a preferred label is that of a live concept of the other's scheme. */
static bool is_taken_by(uint32_t item, const void *key) {
    const struct label *label = &labels.items[item], *other = key;
    return label->tag == other->tag && at(label->owner)->scheme == other->owner && at(label->owner)->is_live &&
           are_equal(label->text, other->text);
}

static bool is_taken(uint32_t text_hash, uint32_t scheme, const struct label *label) {
    struct label key = {scheme, PREF, label->tag, label->text};
    return find(&taken, mix(text_hash, scheme), is_taken_by, &key);
}

static void keep_resource(uint32_t kind, uint32_t scheme, bool is_live, uint32_t replaced) {
    PUSH(resources, (struct resource){.kind = kind, .scheme = scheme, .is_live = is_live, .replaced = replaced});
}

/* Keeps a label, whose text must last. */
static void keep_label(struct label label) {
    uint32_t text_hash = hash_of(label.text), item = labels.count;
    PUSH(labels, label);
    PUSH(at(label.owner)->labels, item);
    insert(&names, name_hash(text_hash, &label), item);
    if (label.kind == PREF && at(label.owner)->kind == CONCEPT)
        insert(&taken, mix(text_hash, at(label.owner)->scheme), item);
}

static void keep_link(int side, uint32_t a, uint32_t b) {
    PUSH(at(a)->links[side], b);
    PUSH(at(b)->links[BACK[side]], a);
    link_count++;
    related_count += side == RELATED;
}

static void keep_posting(struct posting posting) {
    uint32_t item = postings.count;
    PUSH(postings, posting);
    if (!posting.is_withdrawn)
        PUSH(at(posting.place)->postings, item);
    insert(&keys, hash_of(posting.key), item);
}

static bool has_key(uint32_t item, const void *key) {
    return are_equal(postings.items[item].key, *(const struct text *)key);
}

/* --- the file --- */

enum statement { BEGIN, COMMIT, RESOURCE, LABEL, BROADER, LINK, POSTING, MOVE, PLACE, NO_BROADER, NO_LINK, DEAD, ALL };
static const char *const SQL[ALL] = {
    "BEGIN",
    "COMMIT",
    "INSERT INTO resource (num, kind, scheme, live, replaced) VALUES (?, ?, ?, 1, NULL)",
    "INSERT INTO label (owner, kind, tag, text) VALUES (?, ?, ?, ?)",
    "INSERT INTO hier (a, b, typ) VALUES (?, ?, 0)",
    "INSERT INTO link (kind, a, b) VALUES (2, ?, ?)",
    "INSERT INTO posting (num, pkey, record, first_at, at, withdrawn) VALUES (?, ?, ?, ?, ?, 0)",
    "INSERT INTO move (num, posting, source, target) VALUES (?, ?, ?, ?)",
    "UPDATE posting SET at = ?1 WHERE at = ?2 AND withdrawn = 0",
    "DELETE FROM hier WHERE a = ?1 OR b = ?1",
    "DELETE FROM link WHERE a = ?1 OR b = ?1",
    "UPDATE resource SET live = 0, replaced = ?1 WHERE num = ?2",
};
static sqlite3 *base;
static sqlite3_stmt *statements[ALL];
static bool has_begun;

static void check_base(bool is_right) {
    if (!is_right)
        die(sqlite3_errmsg(base));
}

static void step(enum statement it) {
    check_base(sqlite3_step(statements[it]) == SQLITE_DONE && sqlite3_reset(statements[it]) == SQLITE_OK);
}

/* Runs a statement in the transaction of a request: of each letter of the form, n is a number, 0 none if it is 0, and t
 * a text. */
static void save(enum statement it, const char *form, ...) {
    if (!base)
        return;
    if (!has_begun)
        step(BEGIN);
    has_begun = true;
    va_list values;
    va_start(values, form);
    for (int i = 0; form[i]; i++) {
        sqlite3_stmt *statement = statements[it];
        if (form[i] == 't') {
            struct text text = va_arg(values, struct text);
            check_base(sqlite3_bind_text(statement, i + 1, text.bytes, text.length, SQLITE_STATIC) == SQLITE_OK);
            continue;
        }
        uint32_t number = va_arg(values, uint32_t);
        bool is_none = form[i] == '0' && !number;
        int bound = is_none ? sqlite3_bind_null(statement, i + 1) : sqlite3_bind_int64(statement, i + 1, number);
        check_base(bound == SQLITE_OK);
    }
    va_end(values);
    step(it);
}

static void commit(void) {
    if (has_begun)
        step(COMMIT);
    has_begun = false;
}

static sqlite3_stmt *row;

static bool read_rows(const char *sql) {
    if (!row)
        check_base(sqlite3_prepare_v2(base, sql, -1, &row, NULL) == SQLITE_OK);
    if (sqlite3_step(row) == SQLITE_ROW)
        return true;
    check_base(sqlite3_finalize(row) == SQLITE_OK);
    row = NULL;
    return false;
}

static uint32_t number_at(int column) { return sqlite3_column_int64(row, column); }

static struct text text_at(int column) {
    const char *text = (const char *)sqlite3_column_text(row, column);
    return (struct text){text, sqlite3_column_bytes(row, column)};
}

/* Reads all rows. (The types of broader links are left out.) */
static void load(void) {
    while (read_rows("SELECT kind, scheme, live, replaced FROM resource ORDER BY num"))
        keep_resource(number_at(0), number_at(1), number_at(2), number_at(3));
    while (read_rows("SELECT owner, kind, tag, text FROM label"))
        keep_label((struct label){number_at(0), number_at(1), tag_of(text_at(2)), copy_of(text_at(3))});
    while (read_rows("SELECT a, b FROM hier"))
        keep_link(UP, number_at(0), number_at(1));
    while (read_rows("SELECT a, b FROM link WHERE kind = 2"))
        keep_link(RELATED, number_at(0), number_at(1));
    while (read_rows("SELECT pkey, record, first_at, at, withdrawn FROM posting ORDER BY num"))
        keep_posting(
            (struct posting){copy_of(text_at(0)), copy_of(text_at(1)), number_at(2), number_at(3), number_at(4)});
    while (read_rows("SELECT posting, source, target FROM move ORDER BY num"))
        PUSH(moves, (struct move){number_at(0), number_at(1), number_at(2)});
}

static void open_base(const char *path) {
    check_base(sqlite3_open_v2(path, &base, SQLITE_OPEN_READWRITE, NULL) == SQLITE_OK);
    const char *setting = "PRAGMA journal_mode = WAL; PRAGMA synchronous = FULL";
    check_base(sqlite3_exec(base, setting, NULL, NULL, NULL) == SQLITE_OK);
    for (int it = 0; it < ALL; it++)
        check_base(sqlite3_prepare_v2(base, SQL[it], -1, &statements[it], NULL) == SQLITE_OK);
    load();
}

/* --- requests: each returns its refusal, or puts its answer and returns NULL --- */

union value {
    struct text text;
    uint32_t number;
};

static const char *answer_number(const char *name, uint32_t number) {
    put("{\""), put(name), put("\":"), put_number(number), put("}");
    return NULL;
}

static const char *answer_done(void) {
    put("{\"done\":true}");
    return NULL;
}

/* The refusal if the concept, or one of the two, isn't a live resource of the least kind or above. */
static const char *check_live(uint32_t a, uint32_t b, uint32_t least) {
    if (!is_there(a) || !is_there(b))
        return "UnknownResource";
    if (at(a)->kind < least || at(b)->kind < least)
        return "WrongKind";
    return at(a)->is_live && at(b)->is_live ? NULL : "NotLive";
}

static const char *check_pair(uint32_t a, uint32_t b) {
    const char *refusal = check_live(a, b, CONCEPT);
    return refusal ? refusal : a == b ? "SameResource" : at(a)->scheme != at(b)->scheme ? "OtherScheme" : NULL;
}

static void add_label(struct label label) {
    label.text = copy_of(label.text);
    keep_label(label);
    save(LABEL, "nntt", label.owner, label.kind, tags.items[label.tag], label.text);
}

static const char *make_resource(uint32_t kind, uint32_t scheme, uint16_t tag, struct text text) {
    uint32_t number = resources.count;
    keep_resource(kind, scheme, true, 0);
    save(RESOURCE, "nn0", number, kind, scheme);
    add_label((struct label){number, PREF, tag, text});
    return answer_number("ok", number);
}

static const char *perform_scheme(const union value *given) {
    return make_resource(SCHEME, 0, given[0].number, given[1].text);
}

static const char *perform_concept(const union value *given) {
    uint32_t scheme = given[0].number;
    struct label label = {0, PREF, given[1].number, given[2].text};
    if (!is_there(scheme))
        return "UnknownResource";
    if (at(scheme)->kind != SCHEME)
        return "WrongKind";
    if (is_taken(hash_of(label.text), scheme, &label))
        return "PreferredTaken";
    return make_resource(CONCEPT, scheme, label.tag, label.text);
}

static bool has_preferred(uint32_t owner, uint16_t tag) {
    const numbers *own = &at(owner)->labels;
    for (uint32_t i = 0; i < own->count; i++)
        if (labels.items[own->items[i]].kind == PREF && labels.items[own->items[i]].tag == tag)
            return true;
    return false;
}

static const char *perform_add_label(const union value *given) {
    struct label label = {given[0].number, given[1].number, given[2].number, given[3].text};
    const char *refusal = check_live(label.owner, label.owner, SCHEME);
    if (refusal)
        return refusal;
    uint32_t text_hash = hash_of(label.text), other = find(&names, name_hash(text_hash, &label), is_name, &label);
    if (other)
        return labels.items[other].kind == label.kind ? "LabelThere" : "S13";
    if (label.kind == PREF && has_preferred(label.owner, label.tag))
        return "S14";
    if (label.kind == PREF && is_taken(text_hash, at(label.owner)->scheme, &label))
        return "PreferredTaken";
    add_label(label);
    return answer_done();
}

/* Marks what is linked to these concepts on a side, step by step, and the concepts themselves, and lists them. */
static void mark_reached(numbers *list, int side, uint32_t mark) {
    for (uint32_t i = 0; i < list->count; i++)
        at(list->items[i])->seen = mark;
    for (uint32_t i = 0; i < list->count; i++) {
        const numbers *ends = &at(list->items[i])->links[side];
        for (uint32_t j = 0; j < ends->count; j++)
            if (at(ends->items[j])->seen != mark) {
                at(ends->items[j])->seen = mark;
                PUSH(*list, ends->items[j]);
            }
    }
}

/* Whether broader links lead from a concept to another; if `by_another`, over a third one. Both ends are searched in
 * turns, a concept at a time, until they meet or one has no more. */
static bool is_below(uint32_t low, uint32_t high, bool by_another) {
    static numbers found[2];
    uint32_t marks[2] = {last_mark + 1, last_mark + 2}, done[2] = {0, 0};
    last_mark += 2;
    found[UP].count = found[DOWN].count = 0;
    PUSH(found[UP], low);
    PUSH(found[DOWN], high);
    at(low)->seen = marks[UP];
    at(high)->seen = marks[DOWN];
    for (int side = UP; done[side] < found[side].count; side = BACK[side]) {
        uint32_t from = found[side].items[done[side]++];
        const numbers *ends = &at(from)->links[side];
        for (uint32_t i = 0; i < ends->count; i++) {
            uint32_t end = ends->items[i], seen = at(end)->seen;
            bool is_direct = (from == low || from == high) && (end == low || end == high);
            if (seen == marks[BACK[side]] && !(by_another && is_direct))
                return true;
            if (seen != marks[UP] && seen != marks[DOWN]) {
                at(end)->seen = marks[side];
                PUSH(found[side], end);
            }
        }
    }
    return false;
}

/* Whether a related link joins what is below some concepts, or one of them, with what is above others, or one of them;
 * with one of both it may. */
static bool are_related(numbers *lows, numbers *highs, bool are_one) {
    uint32_t above = ++last_mark, below = ++last_mark, ends = lows->count;
    if (!related_count)
        return false;
    mark_reached(highs, UP, above);
    mark_reached(lows, DOWN, below);
    for (uint32_t i = 0; i < highs->count; i++)
        at(highs->items[i])->seen = above;
    for (uint32_t i = 0; i < lows->count; i++) {
        const numbers *related = &at(lows->items[i])->links[RELATED];
        for (uint32_t j = 0; j < related->count; j++)
            if (at(related->items[j])->seen == above && !(are_one && i < ends && has(lows, related->items[j])))
                return true;
    }
    return false;
}

static const char *perform_link(const union value *given) {
    uint32_t a = given[1].number, b = given[2].number;
    int side = given[0].number;
    const char *refusal = check_pair(a, b);
    if (refusal)
        return refusal;
    if (has(&at(a)->links[side], b))
        return "LinkThere";
    if (side == RELATED) {
        if (is_below(a, b, false) || is_below(b, a, false))
            return "S27";
        keep_link(RELATED, a, b);
        save(LINK, "nn", a < b ? a : b, a < b ? b : a);
        return answer_done();
    }
    if (is_below(b, a, false))
        return "Cycle";
    numbers low = {0}, high = {0};
    PUSH(low, a);
    PUSH(high, b);
    bool refused = are_related(&low, &high, false);
    free(low.items);
    free(high.items);
    if (refused)
        return "S27";
    keep_link(UP, a, b);
    save(BROADER, "nn", a, b);
    return answer_done();
}

static void move_posting(uint32_t posting, uint32_t source, uint32_t target) {
    save(MOVE, "nnnn", moves.count, posting, source, target);
    PUSH(moves, (struct move){posting, source, target});
}

/* Makes a posting, unless one with its key is there, and gives its number. */
static const char *post(const union value *given, uint32_t *number, bool *is_again) {
    struct posting posting = {given[0].text, given[1].text, given[2].number, given[2].number, false};
    *number = find(&keys, hash_of(posting.key), has_key, &posting.key);
    *is_again = *number;
    if (*is_again) {
        const struct posting *other = &postings.items[*number];
        return other->first == posting.first && are_equal(other->record, posting.record) ? NULL : "KeyReused";
    }
    while (is_there(posting.place) && at(posting.place)->replaced)
        posting.place = at(posting.place)->replaced;
    const char *refusal = check_live(posting.place, posting.place, CONCEPT);
    if (refusal)
        return refusal;
    *number = postings.count;
    posting.key = copy_of(posting.key);
    posting.record = copy_of(posting.record);
    keep_posting(posting);
    save(POSTING, "nttnn", *number, posting.key, posting.record, posting.first, posting.place);
    for (uint32_t source = posting.first; source != posting.place; source = at(source)->replaced)
        move_posting(*number, source, at(source)->replaced);
    return NULL;
}

static const char *perform_post(const union value *given) {
    uint32_t number;
    bool is_again;
    const char *refusal = post(given, &number, &is_again);
    return refusal ? refusal : answer_number(is_again ? "again" : "ok", number);
}

/* Gives the target of a merge the links of the source on one side. */
static void move_links(uint32_t source, uint32_t target, int side) {
    numbers *own = &at(source)->links[side], *kept = &at(target)->links[side];
    uint32_t mark = ++last_mark;
    for (uint32_t i = 0; i < kept->count; i++)
        at(kept->items[i])->seen = mark;
    at(target)->seen = mark;
    link_count -= own->count;
    related_count -= side == RELATED ? own->count : 0;
    for (uint32_t i = 0; i < own->count; i++) {
        uint32_t end = own->items[i];
        drop(&at(end)->links[BACK[side]], source);
        if (at(end)->seen == mark)
            continue;
        keep_link(side, target, end);
        uint32_t low = side == UP ? target : end, high = side == UP ? end : target;
        if (side == RELATED)
            save(LINK, "nn", low < high ? low : high, low < high ? high : low);
        else
            save(BROADER, "nn", low, high);
    }
    free(own->items);
    *own = (numbers){0};
}

static void move_labels(uint32_t source, uint32_t target) {
    for (uint32_t i = 0; i < at(source)->labels.count; i++) {
        struct label label = labels.items[at(source)->labels.items[i]];
        label.owner = target;
        if (label.kind == PREF)
            label.kind = ALT;
        if (label.kind == SCOPE || find(&names, name_hash(hash_of(label.text), &label), is_name, &label))
            continue;
        keep_label(label);
        save(LABEL, "nntt", target, label.kind, tags.items[label.tag], label.text);
    }
}

static const char *check_merge(uint32_t source, uint32_t target) {
    const char *refusal = check_pair(source, target);
    if (refusal)
        return refusal;
    if (is_below(source, target, true) || is_below(target, source, true))
        return "Cycle";
    numbers lows = {0}, highs = {0};
    PUSH(lows, source), PUSH(lows, target);
    PUSH(highs, source), PUSH(highs, target);
    bool refused = are_related(&lows, &highs, true);
    free(lows.items);
    free(highs.items);
    return refused ? "S27" : NULL;
}

static const char *perform_merge(const union value *given) {
    uint32_t source = given[0].number, target = given[1].number;
    const char *refusal = check_merge(source, target);
    if (refusal)
        return refusal;
    save(NO_BROADER, "n", source);
    save(NO_LINK, "n", source);
    for (int side = UP; side < SIDES; side++)
        move_links(source, target, side);
    move_labels(source, target);
    save(PLACE, "nn", target, source);
    numbers *moved = &at(source)->postings;
    SORT(*moved, compare_numbers);
    for (uint32_t i = 0; i < moved->count; i++) {
        postings.items[moved->items[i]].place = target;
        PUSH(at(target)->postings, moved->items[i]);
        move_posting(moved->items[i], source, target);
    }
    answer_number("moved", moved->count);
    free(moved->items);
    *moved = (numbers){0};
    at(source)->is_live = false;
    at(source)->replaced = target;
    save(DEAD, "nn", target, source);
    return NULL;
}

/* --- forms --- */

/* The character at a place of a text, or WEOF if it isn't UTF-8 there, and the place after it. */
static wint_t next_character(struct text text, uint32_t *place) {
    wchar_t character = (uint8_t)text.bytes[*place];
    size_t length =
        character < 0x80 ? 1 : mbrtowc(&character, text.bytes + *place, text.length - *place, &(mbstate_t){0});
    *place = length > 4 ? text.length : *place + length;
    return length > 4 ? WEOF : (wint_t)character;
}

static bool is_record(struct text text, uint32_t most) {
    for (uint32_t place = 0; place < text.length;) {
        wint_t character = next_character(text, &place);
        if (character < 0x20 || character == 0x7F || character == WEOF)
            return false;
    }
    return 0 < text.length && text.length <= most;
}

static bool is_text(struct text text) {
    return is_record(text, 256) && text.bytes[0] != ' ' && text.bytes[text.length - 1] != ' ';
}

static bool is_key(struct text text) {
    for (uint32_t i = 0; i < text.length; i++)
        if (text.bytes[i] <= ' ' || text.bytes[i] > '~')
            return false;
    return 0 < text.length && text.length <= 64;
}

/* Whether a text is a language tag, of which the capitals become small. */
static bool is_language(struct text text) {
    uint32_t group = 0, groups = 0;
    for (uint32_t i = 0; i < text.length; i++) {
        char *byte = (char *)&text.bytes[i];
        if (*byte >= 'A' && *byte <= 'Z')
            *byte += 'a' - 'A';
        bool is_digit = *byte >= '0' && *byte <= '9' && groups;
        if (*byte == '-' && group)
            group = 0, groups++;
        else if ((!is_digit && (*byte < 'a' || *byte > 'z')) || ++group > 8)
            return false;
    }
    return group && text.length <= 35;
}

/* --- lines of JSON --- */

enum form { NONE, TAG, NAME, KEY, RECORD, NUMBER, LABEL_KIND, LINK_KIND };
struct member {
    struct text name, text;
    bool is_text;
};
struct command {
    const char *name;
    struct {
        const char *name;
        enum form form;
    } members[4];
    const char *(*perform)(const union value *given);
};
static const struct command COMMANDS[] = {
    {"post", {{"key", KEY}, {"record", RECORD}, {"concept", NUMBER}}, perform_post},
    {"addLabel", {{"owner", NUMBER}, {"kind", LABEL_KIND}, {"tag", TAG}, {"text", NAME}}, perform_add_label},
    {"link", {{"kind", LINK_KIND}, {"a", NUMBER}, {"b", NUMBER}}, perform_link},
    {"merge", {{"source", NUMBER}, {"target", NUMBER}}, perform_merge},
    {"concept", {{"scheme", NUMBER}, {"tag", TAG}, {"text", NAME}}, perform_concept},
    {"scheme", {{"tag", TAG}, {"text", NAME}}, perform_scheme},
};
static const char *const FAULTS[] = {"",          "BadTag",    "BadText",  "BadKey",
                                     "BadRecord", "BadNumber", "BadShape", "BadShape"};
static const char *const LABEL_KINDS[] = {"", "pref", "alt", "hidden", "scope", NULL};
static const char *const LINK_KINDS[] = {"broader", "", "related", NULL};

static bool is_called(struct text text, const char *name) {
    return strlen(name) == text.length && !memcmp(text.bytes, name, text.length);
}

static char *skip_spaces(char *from) {
    while (*from == ' ' || *from == '\t' || *from == '\r' || *from == '\n')
        from++;
    return from;
}

/* The place after the four digits of an escape, and their value, or NULL. */
static char *read_digits(char *from, uint32_t *value) {
    *value = 0;
    for (char *end = from + 4; from < end; from++) {
        if (!isxdigit((uint8_t)*from))
            return NULL;
        *value = *value * 16 + (*from <= '9' ? *from - '0' : (*from | 32) - 'a' + 10);
    }
    return from;
}

/* Writes what an escape stands for, and returns the place after it, or NULL. */
static char *read_escape(char *from, char **to) {
    static const char SHORT[] = "\"\"\\\\//b\bf\fn\nr\rt\t";
    for (const char *it = SHORT; *it; it += 2)
        if (*it == *from)
            return *(*to)++ = it[1], from + 1;
    uint32_t character, low;
    if (*from != 'u' || !(from = read_digits(from + 1, &character)) || character >> 10 == 0x37)
        return NULL;
    if (character >> 10 == 0x36) {
        if (from[0] != '\\' || from[1] != 'u' || !(from = read_digits(from + 2, &low)) || low >> 10 != 0x37)
            return NULL;
        character = 0x10000 + ((character & 0x3FF) << 10) + (low & 0x3FF);
    }
    *to += wcrtomb(*to, character, &(mbstate_t){0});
    return from;
}

/* Reads a text after its first quote, in its place, and returns the place after the last one, or NULL. */
static char *read_text(char *from, struct text *text) {
    char *to = from;
    text->bytes = from;
    while (from && *from != '"') {
        if ((uint8_t)*from < 0x20)
            return NULL;
        if (*from == '\\')
            from = read_escape(from + 1, &to);
        else
            *to++ = *from++;
    }
    text->length = to - text->bytes;
    return from ? from + 1 : NULL;
}

/* Reads the members of an object with texts and numbers, and returns their number, or -1 if there is something else. */
static int read_object(char *from, struct member *members, int most) {
    int count = 0;
    from = skip_spaces(from);
    if (*from != '{')
        return -1;
    do {
        struct member *member = &members[count];
        from = skip_spaces(from + 1);
        if (count++ == most || *from != '"' || !(from = read_text(from + 1, &member->name)))
            return -1;
        from = skip_spaces(from);
        if (*from != ':')
            return -1;
        from = skip_spaces(from + 1);
        member->is_text = *from == '"';
        if (member->is_text)
            from = read_text(from + 1, &member->text);
        else {
            member->text.bytes = from;
            from += strspn(from, "0123456789+-.eE");
            member->text.length = from - member->text.bytes;
        }
        if (!from || (!member->is_text && !member->text.length))
            return -1;
        from = skip_spaces(from);
    } while (*from == ',');
    return *from == '}' && !*skip_spaces(from + 1) ? count : -1;
}

static bool is_number(struct text text, uint32_t *number) {
    uint64_t value = 0;
    if (!text.length || text.length > 10 || text.bytes[0] == '0')
        return false;
    for (uint32_t i = 0; i < text.length; i++) {
        if (text.bytes[i] < '0' || text.bytes[i] > '9')
            return false;
        value = value * 10 + (text.bytes[i] - '0');
    }
    *number = value;
    return value <= UINT32_MAX;
}

static bool is_one_of(struct text text, const char *const *words, uint32_t *place) {
    for (*place = 0; words[*place]; ++*place)
        if (*words[*place] && is_called(text, words[*place]))
            return true;
    return false;
}

/* Reads a value of a form, after the values before it, and returns whether it has that form. */
static bool read_value(enum form form, struct text text, union value *value) {
    switch (form) {
    case TAG:
        return is_language(text) && (value->number = tag_of(text), true);
    case NUMBER:
        return is_number(text, &value->number);
    case LABEL_KIND:
        return is_one_of(text, LABEL_KINDS, &value->number);
    case LINK_KIND:
        return is_one_of(text, LINK_KINDS, &value->number);
    default:
        value->text = text;
        return form == KEY ? is_key(text) : form == RECORD ? is_record(text, 128) : is_text(text);
    }
}

static struct member *member_of(struct member *members, int count, const char *name) {
    for (int i = 0; i < count; i++)
        if (is_called(members[i].name, name))
            return &members[i];
    return NULL;
}

/* The values of a command, or the name of a fault. */
static const char *read_values(const struct command *command, struct member *members, int count, union value *values) {
    const struct member *given[4];
    int fields = 0;
    for (; fields < 4 && command->members[fields].name; fields++) {
        given[fields] = member_of(members, count, command->members[fields].name);
        if (!given[fields] || given[fields]->is_text != (command->members[fields].form != NUMBER))
            return "BadShape";
    }
    if (count != fields + 1)
        return "BadShape";
    for (int i = 0; i < fields; i++)
        if (!read_value(command->members[i].form, given[i]->text, &values[i]))
            return FAULTS[command->members[i].form];
    return NULL;
}

static void answer_name(const char *kind, const char *name) {
    put("{\""), put(kind), put("\":\""), put(name), put("\"}");
}

/* Performs the request of a line, and puts its answer. Returns the status of HTTP. */
static int perform(char *line) {
    struct member members[5];
    union value values[4];
    int count = read_object(line, members, 5);
    const struct member *name = count < 0 ? NULL : member_of(members, count, "do");
    const struct command *command = NULL;
    for (size_t i = 0; name && i < sizeof COMMANDS / sizeof *COMMANDS; i++)
        if (is_called(name->text, COMMANDS[i].name))
            command = &COMMANDS[i];
    const char *fault = count < 0 ? "NotJson" : command ? read_values(command, members, count, values) : "BadShape";
    if (fault)
        return answer_name("bad", fault), 400;
    const char *refusal = command->perform(values);
    if (refusal)
        return answer_name("no", refusal), 409;
    commit();
    return 200;
}

/* --- scripts and posting files --- */

static bytes in;

/* Reads more of a file to the end of the input, and returns whether there was more. */
static bool read_more(int file) {
    RESERVE(in, 1 << 16);
    ssize_t got = read(file, in.items + in.count, (1 << 16) - 1);
    in.count += got > 0 ? got : 0;
    in.items[in.count] = 0;
    return got > 0;
}

/* The next line of the input, ended by 0, or NULL. What was answered is written before it waits for more. */
static char *next_line(void) {
    static uint32_t start;
    for (;;) {
        char *from = in.items + start, *end = start < in.count ? memchr(from, '\n', in.count - start) : NULL;
        if (end) {
            *end = 0;
            start = end + 1 - in.items;
            return from;
        }
        if (start)
            memmove(in.items, from, in.count - start);
        in.count -= start;
        start = 0;
        flush();
        if (read_more(STDIN_FILENO))
            continue;
        if (!in.count)
            return NULL;
        start = in.count;
        return in.items;
    }
}

static bool run_script(void) {
    bool is_refused = false;
    for (char *line; (line = next_line());)
        if (*skip_spaces(line)) {
            is_refused |= perform(line) != 200;
            put("\n");
        }
    flush();
    return is_refused;
}

/* Reads a field of CSV, in its place, and returns the place of the comma or of the end of the line. */
static char *read_field(char *from, struct text *field) {
    char *to = from;
    field->bytes = from;
    bool is_quoted = *from == '"';
    for (from += is_quoted; *from && (is_quoted || !strchr(",\r\n", *from)); *to++ = *from++)
        if (is_quoted && *from == '"' && *++from != '"')
            break;
    field->length = to - field->bytes;
    return from;
}

/* Puts the outcome of a row, and returns whether it is refused. */
static bool perform_row(const struct text *fields, int count) {
    static const enum form FORMS[] = {KEY, RECORD, NUMBER};
    union value values[3];
    uint32_t number;
    bool is_again;
    const char *refusal = count == 3 ? NULL : "BadShape";
    for (int i = 0; i < 3 && !refusal; i++)
        if (!read_value(FORMS[i], fields[i], &values[i]))
            refusal = FAULTS[FORMS[i]];
    if (!refusal)
        refusal = post(values, &number, &is_again);
    if (refusal)
        put(refusal), put(",");
    else
        put(is_again ? "again," : "new,"), put_number(number);
    put("\n");
    return refusal;
}

/* Reads a row in its place, gives the number of its fields, and returns the place after it. */
static char *read_row(char *from, struct text *fields, int *count) {
    for (*count = 0;; from++) {
        struct text field;
        from = read_field(from, &field);
        if (*count < 3)
            fields[*count] = field;
        ++*count;
        if (*from != ',')
            return from + strspn(from, "\r\n");
    }
}

/* Performs the rows of a posting file, each a transaction. */
static bool import(const char *path) {
    struct text fields[3];
    int count;
    bool is_refused = false;
    FILE *file = fopen(path, "rb");
    if (!file)
        die(path);
    while (read_more(fileno(file)))
        continue;
    fclose(file);
    if (strncmp(in.items, "key,record,concept", 18))
        die("BadShape");
    char *from = read_row(in.items, fields, &count);
    put("row,outcome,number\n");
    for (uint32_t row = 1; *from; row++) {
        from = read_row(from, fields, &count);
        put_number(row), put(",");
        is_refused |= perform_row(fields, count);
        commit();
        if (out.count > 1 << 16)
            flush();
    }
    flush();
    return is_refused;
}

/* --- displays --- */

struct heading {
    struct text folded, text;
    uint32_t concept, is_lead_in;
};
typedef LIST(struct heading) headings;

/* The terms of a scheme in a language, in order, with the alternative labels if they are wanted; the terms and ranks of
 * concepts are found by their numbers. */
struct terms {
    headings list;
    struct text *texts;
    uint32_t *ranks;
};

/* A text in small letters; of other than ASCII, by the system's tables. */
static struct text fold(struct text text) {
    char *folded = malloc(2 * text.length + 1), *to = folded;
    if (!folded)
        die("out of memory");
    for (uint32_t place = 0; place < text.length;) {
        wint_t character = next_character(text, &place);
        if (character < 0x80)
            *to++ = character >= 'A' && character <= 'Z' ? character + 32 : character;
        else
            to += wcrtomb(to, towlower(character), &(mbstate_t){0});
    }
    return (struct text){folded, to - folded};
}

static int compare_headings(const void *a, const void *b) {
    const struct heading *one = a, *other = b;
    int order = compare_texts(one->folded, other->folded);
    order = order ? order : compare_texts(one->text, other->text);
    order = order ? order : (one->concept > other->concept) - (one->concept < other->concept);
    return order ? order : (int)one->is_lead_in - (int)other->is_lead_in;
}

/* Adds the labels of a kind and tag that a concept has. */
static void add_headings(headings *list, uint32_t concept, uint16_t kind, uint16_t tag) {
    const numbers *own = &at(concept)->labels;
    for (uint32_t i = 0; i < own->count; i++) {
        const struct label *label = &labels.items[own->items[i]];
        if (label->kind == kind && label->tag == tag)
            PUSH(*list, (struct heading){fold(label->text), label->text, concept, kind != PREF});
    }
}

static struct text number_in_brackets(uint32_t number) {
    char text[16];
    uint32_t length = snprintf(text, sizeof text, "[%u]", number);
    return copy_of((struct text){text, length});
}

static void *zeros(size_t count, size_t size) {
    void *items = calloc(count, size);
    if (!items)
        die("out of memory");
    return items;
}

static struct terms terms_of(uint32_t scheme, uint16_t tag, bool with_lead_ins) {
    struct terms terms = {{0}, zeros(resources.count, sizeof(struct text)), zeros(resources.count, sizeof(uint32_t))};
    for (uint32_t concept = 1; concept < resources.count; concept++) {
        if (at(concept)->kind != CONCEPT || at(concept)->scheme != scheme || !at(concept)->is_live)
            continue;
        uint32_t before = terms.list.count;
        add_headings(&terms.list, concept, PREF, tag);
        if (terms.list.count == before) {
            struct text text = number_in_brackets(concept);
            PUSH(terms.list, (struct heading){text, text, concept, false});
        }
        if (with_lead_ins)
            add_headings(&terms.list, concept, ALT, tag);
    }
    SORT(terms.list, compare_headings);
    for (uint32_t i = 0; i < terms.list.count; i++)
        if (!terms.list.items[i].is_lead_in) {
            terms.texts[terms.list.items[i].concept] = terms.list.items[i].text;
            terms.ranks[terms.list.items[i].concept] = i + 1;
        }
    return terms;
}

static int compare_ranks(const void *a, const void *b, void *ranks) {
    uint32_t one = ((uint32_t *)ranks)[*(uint32_t *)a], other = ((uint32_t *)ranks)[*(uint32_t *)b];
    return (one > other) - (one < other);
}

/* Gathers the concepts that are linked to one on a side, in the order of their terms. */
static void gather_linked(numbers *list, const struct terms *terms, uint32_t concept, int side) {
    const numbers *ends = &at(concept)->links[side];
    list->count = 0;
    for (uint32_t i = 0; i < ends->count; i++)
        PUSH(*list, ends->items[i]);
    if (list->count > 1)
        qsort_r(list->items, list->count, sizeof *list->items, compare_ranks, terms->ranks);
}

static void put_line(const char *symbol, struct text text) {
    put("  "), put(symbol), put(" "), put_text(text), put("\n");
}

static void put_labels(const char *symbol, uint32_t concept, uint16_t kind, uint16_t tag) {
    static headings list;
    list.count = 0;
    add_headings(&list, concept, kind, tag);
    SORT(list, compare_headings);
    for (uint32_t i = 0; i < list.count; i++) {
        put_line(symbol, list.items[i].text);
        free((char *)list.items[i].folded.bytes);
    }
}

static void free_terms(struct terms *terms) {
    for (uint32_t i = 0; i < terms->list.count; i++)
        free((char *)terms->list.items[i].folded.bytes);
    free(terms->list.items);
    free(terms->texts);
    free(terms->ranks);
}

static void put_alphabetical(uint32_t scheme, uint16_t tag) {
    static const char *const SYMBOLS[SIDES] = {"BT", "NT", "RT"};
    static numbers linked;
    struct terms terms = terms_of(scheme, tag, true);
    for (uint32_t i = 0; i < terms.list.count; i++) {
        const struct heading *heading = &terms.list.items[i];
        put_text(heading->text), put("\n");
        if (heading->is_lead_in) {
            put_line("USE", terms.texts[heading->concept]);
            continue;
        }
        put_labels("SN", heading->concept, SCOPE, tag);
        put_labels("UF", heading->concept, ALT, tag);
        for (int side = UP; side < SIDES; side++) {
            gather_linked(&linked, &terms, heading->concept, side);
            for (uint32_t j = 0; j < linked.count; j++)
                put_line(SYMBOLS[side], terms.texts[linked.items[j]]);
        }
    }
    free_terms(&terms);
}

struct line {
    uint32_t concept, parent, depth;
};

/* A tree line for each concept below each of its broader ones; only below the first of these does it go on. */
static void put_hierarchical(uint32_t scheme, uint16_t tag) {
    static numbers linked;
    static LIST(struct line) waiting;
    struct terms terms = terms_of(scheme, tag, false);
    uint32_t *homes = zeros(resources.count, sizeof *homes);
    for (uint32_t i = terms.list.count; i-- > 0;) {
        uint32_t concept = terms.list.items[i].concept;
        gather_linked(&linked, &terms, concept, UP);
        if (linked.count)
            homes[concept] = linked.items[0];
        else
            PUSH(waiting, (struct line){concept, 0, 0});
    }
    while (waiting.count) {
        struct line line = waiting.items[--waiting.count];
        bool is_home = homes[line.concept] == line.parent;
        for (uint32_t i = 0; i < line.depth; i++)
            put("  ");
        put_text(terms.texts[line.concept]), put(is_home ? "\n" : " *\n");
        if (!is_home)
            continue;
        gather_linked(&linked, &terms, line.concept, DOWN);
        for (uint32_t i = linked.count; i-- > 0;)
            PUSH(waiting, (struct line){linked.items[i], line.concept, line.depth + 1});
    }
    free(homes);
    free_terms(&terms);
}

static void put_display(const char *kind, uint32_t scheme, const char *tag) {
    uint16_t language = tag_of((struct text){tag, strlen(tag)});
    if (!strcmp(kind, "alphabetical"))
        put_alphabetical(scheme, language);
    else
        put_hierarchical(scheme, language);
}

/* --- the export --- */

#define BASE "https://thesaurus.example/id/"
#define SKOS "<http://www.w3.org/2004/02/skos/core#"
#define DEPRECATED "<http://www.w3.org/2002/07/owl#deprecated> \"true\"^^<http://www.w3.org/2001/XMLSchema#boolean>"
#define TYPE "<http://www.w3.org/1999/02/22-rdf-syntax-ns#type> "

static LIST(struct text) lines;

static void put_node(uint32_t number) { put("<" BASE), put_number(number), put("> "); }

static void put_triple(uint32_t a, const char *property, uint32_t b) {
    put_node(a), put(property), put_node(b), put(".\n");
}

/* Puts a text in quotes, as JSON and N-Triples have it. (It has no control characters.) */
static void put_quoted(struct text text) {
    put("\"");
    for (uint32_t start = 0, i = 0; i <= text.length; i++) {
        bool is_end = i == text.length;
        if (!is_end && text.bytes[i] != '"' && text.bytes[i] != '\\')
            continue;
        put_text((struct text){text.bytes + start, i - start});
        put(is_end ? "\"" : "\\");
        start = i;
    }
}

static void put_label_triple(const struct label *label) {
    static const char *const PROPERTIES[] = {"", "prefLabel> ", "altLabel> ", "hiddenLabel> ", "scopeNote> "};
    put_node(label->owner), put(SKOS), put(PROPERTIES[label->kind]), put_quoted(label->text);
    put("@"), put_text(tags.items[label->tag]), put(" .\n");
}

/* Puts the triples of a resource. */
static void put_resource(uint32_t number) {
    static const char *const PROPERTIES[SIDES] = {SKOS "broader> ", SKOS "narrower> ", SKOS "related> "};
    const struct resource *it = at(number);
    put_node(number), put(TYPE), put(it->kind == SCHEME ? SKOS "ConceptScheme> .\n" : SKOS "Concept> .\n");
    if (it->scheme)
        put_triple(number, SKOS "inScheme> ", it->scheme);
    if (it->scheme && it->is_live && !it->links[UP].count) {
        put_triple(number, SKOS "topConceptOf> ", it->scheme);
        put_triple(it->scheme, SKOS "hasTopConcept> ", number);
    }
    if (!it->is_live)
        put_node(number), put(DEPRECATED " .\n");
    if (it->replaced)
        put_triple(number, "<http://purl.org/dc/terms/isReplacedBy> ", it->replaced);
    for (uint32_t i = 0; i < it->labels.count; i++)
        put_label_triple(&labels.items[it->labels.items[i]]);
    for (int side = UP; side < SIDES; side++)
        for (uint32_t i = 0; i < it->links[side].count; i++)
            put_triple(number, PROPERTIES[side], it->links[side].items[i]);
}

static int compare_lines(const void *a, const void *b) {
    return compare_texts(*(const struct text *)a, *(const struct text *)b);
}

/* Puts all triples, sorted by their bytes. */
static void put_export(void) {
    for (uint32_t number = 1; number < resources.count; number++)
        put_resource(number);
    bytes unsorted = out;
    out = (bytes){0};
    for (char *from = unsorted.items, *end = from + unsorted.count; from < end;) {
        uint32_t length = (char *)memchr(from, '\n', end - from) + 1 - from;
        PUSH(lines, (struct text){from, length});
        from += length;
    }
    SORT(lines, compare_lines);
    for (uint32_t i = 0; i < lines.count; i++)
        put_text(lines.items[i]);
    free(unsorted.items);
}

/* --- HTTP --- */

static int compare_labels(const void *a, const void *b) {
    const struct label *one = *(struct label *const *)a, *other = *(struct label *const *)b;
    int order = compare_texts(tags.items[one->tag], tags.items[other->tag]);
    return order ? order : compare_texts(one->text, other->text);
}

static void put_own_labels(const char *name, uint32_t owner, uint16_t kind) {
    static LIST(struct label *) found;
    const numbers *own = &at(owner)->labels;
    found.count = 0;
    for (uint32_t i = 0; i < own->count; i++)
        if (labels.items[own->items[i]].kind == kind)
            PUSH(found, &labels.items[own->items[i]]);
    SORT(found, compare_labels);
    put("\""), put(name), put("\":[");
    for (uint32_t i = 0; i < found.count; i++) {
        put(i ? ",[" : "["), put_quoted(tags.items[found.items[i]->tag]), put(",");
        put_quoted(found.items[i]->text), put("]");
    }
    put("],");
}

static void put_own_links(const char *name, uint32_t concept, int side) {
    static numbers found;
    const numbers *own = &at(concept)->links[side];
    found.count = 0;
    for (uint32_t i = 0; i < own->count; i++)
        PUSH(found, own->items[i]);
    SORT(found, compare_numbers);
    put("\""), put(name), put("\":[");
    for (uint32_t i = 0; i < found.count; i++)
        put(i ? "," : ""), put_number(found.items[i]);
    put("],");
}

static int put_concept(uint32_t number) {
    if (!is_there(number) || at(number)->kind != CONCEPT)
        return answer_name("no", is_there(number) ? "WrongKind" : "UnknownResource"), 404;
    const struct resource *it = at(number);
    put("{"), put_own_labels("alt", number, ALT), put_own_links("broader", number, UP), put("\"collections\":[],");
    put_own_labels("hidden", number, HIDDEN), put("\"live\":"), put(it->is_live ? "true" : "false");
    put(",\"mappings\":[],"), put_own_links("narrower", number, DOWN), put("\"number\":"), put_number(number);
    put(",\"postings\":"), put_number(it->postings.count), put(","), put_own_labels("pref", number, PREF);
    put_own_links("related", number, RELATED), put("\"replaced\":");
    if (it->replaced)
        put_number(it->replaced);
    else
        put("null");
    put(",\"scheme\":"), put_number(it->scheme), put(","), put_own_labels("scope", number, SCOPE);
    put("\"top\":"), put(it->is_live && !it->links[UP].count ? "true" : "false"), put(",\"typed\":[]}");
    return 200;
}

/* Puts the answer to a request, and returns its status. */
static int respond(const char *head, char *body) {
    unsigned number;
    char kind[16], tag[36];
    if (sscanf(head, "GET /display/%15[a-z]?scheme=%u&lang=%35[a-z-] ", kind, &number, tag) == 3)
        return put_display(kind, number, tag), 200;
    int status = 404;
    if (!strncmp(head, "POST /requests ", 15))
        status = perform(body);
    else if (sscanf(head, "GET /concepts/%u ", &number) == 1)
        status = put_concept(number);
    else
        answer_name("bad", "NoSuchPath");
    put("\n");
    return status;
}

/* Reads a request, and returns its body, which follows the head and a 0, or NULL if the client stopped. */
static char *read_request(int client) {
    char *end;
    in.count = 0;
    do
        if (!read_more(client))
            return NULL;
    while (!(end = strstr(in.items, "\r\n\r\n")));
    *end = 0;
    const char *field = strcasestr(in.items, "\r\nContent-Length:");
    size_t head = end + 4 - in.items, length = field ? strtoul(field + 17, NULL, 10) : 0;
    while (in.count < head + length)
        if (!read_more(client))
            return NULL;
    return in.items + head;
}

static void send_all(int client, const char *from, size_t length, int flags) {
    for (ssize_t sent; length; from += sent, length -= sent)
        if ((sent = send(client, from, length, flags | MSG_NOSIGNAL)) <= 0)
            return;
}

static void answer_client(int client) {
    char head[160], *body = read_request(client);
    if (!body)
        return;
    int status = respond(in.items, body);
    const char *meaning = status == 200 ? "OK" : "Refused";
    const char *type = strstr(in.items, " /display/") ? "text/plain; charset=utf-8" : "application/json";
    const char *form = "HTTP/1.1 %d %s\r\nContent-Type: %s\r\nContent-Length: %u\r\nConnection: close\r\n\r\n";
    int length = snprintf(head, sizeof head, form, status, meaning, type, out.count);
    send_all(client, head, length, MSG_MORE);
    send_all(client, out.items, out.count, 0);
    out.count = 0;
}

static void serve(uint16_t port, unsigned long count) {
    struct sockaddr_in address = {.sin_family = AF_INET, .sin_port = htons(port), .sin_addr = {htonl(INADDR_LOOPBACK)}};
    struct timeval most = {.tv_sec = 30};
    int listener = socket(AF_INET, SOCK_STREAM, 0), on = 1;
    setsockopt(listener, SOL_SOCKET, SO_REUSEADDR, &on, sizeof on);
    if (bind(listener, (struct sockaddr *)&address, sizeof address) || listen(listener, 128))
        die("the port");
    printf("listening on 127.0.0.1:%u\n", port);
    fflush(stdout);
    while (count--) {
        int client = accept(listener, NULL, NULL);
        if (client < 0)
            die("accept");
        setsockopt(client, SOL_SOCKET, SO_RCVTIMEO, &most, sizeof most);
        setsockopt(client, SOL_SOCKET, SO_SNDTIMEO, &most, sizeof most);
        answer_client(client);
        close(client);
    }
}

/* --- commands --- */

static void put_counts(void) {
    uint32_t withdrawn = 0;
    for (uint32_t i = 1; i < postings.count; i++)
        withdrawn += postings.items[i].is_withdrawn;
    put("ok resources="), put_number(resources.count - 1), put(" labels="), put_number(labels.count - 1);
    put(" links="), put_number(link_count), put(" accepted="), put_number(postings.count - 1);
    put(" withdrawn="), put_number(withdrawn), put(" moves="), put_number(moves.count - 1), put("\n");
}

/* The word after an option. */
static const char *option(char **words, const char *name) {
    for (; *words; words++)
        if (!strcmp(*words, name) && words[1])
            return words[1];
    die(name);
}

int main(int count, char **words) {
    bool is_refused = false, has_base = count > 2 && !strcmp(words[1], "--db");
    setlocale(LC_CTYPE, "C.UTF-8");
    PUSH(resources, (struct resource){0});
    PUSH(labels, (struct label){0});
    PUSH(postings, (struct posting){0});
    PUSH(moves, (struct move){0});
    if (has_base)
        open_base(words[2]);
    words += has_base ? 3 : 1;
    if (!*words)
        die("a command is missing");
    if (!strcmp(*words, "script"))
        is_refused = run_script();
    else if (!strcmp(*words, "import") && words[1])
        is_refused = import(words[1]);
    else if (!strcmp(*words, "serve"))
        serve(atoi(option(words, "--port")), strtoul(option(words, "--count"), NULL, 10));
    else if (!strcmp(*words, "check"))
        put_counts();
    else if (!strcmp(*words, "export"))
        put_export();
    else
        put_display(*words, atoi(option(words, "--scheme")), option(words, "--lang"));
    flush();
    return is_refused;
}
