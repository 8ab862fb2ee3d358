/* The commands of djq that its instructions are compared by, written by hand, in C, for speed. Nothing here is proved;
 * README.md in the folder above says what it is for and what it lacks.
 *
 *     cc -O2 -o by_hand by_hand.c && ./by_hand run
 *
 * A query is kept by a tree of nodes. A leaf has an entry for each row that its atom lets through. A view has an entry
 * for each tuple over its variables that some entry below or beside it gives. An edge ties two nodes of which the small
 * one, a view, has a part of the big one's variables, and each entry of the big one knows its entry of the small one:
 *
 *   - where the big one feeds the small one (a projection), the small one's entry keeps its living entries: as a list
 *     where answers are listed through the edge, and else as their number;
 *   - where the small one is a side of the big one (a semi-join), it keeps all of them, as a list.
 *
 * An entry lives where each edge that feeds it has a living entry for it, and each of its sides lives; so it counts
 * what it lacks. All answers are read from the root down, without a dead end. */

#include <errno.h>
#include <stdbool.h>
#include <stdint.h>
#include <stdio.h>
#include <stdlib.h>
#include <string.h>
#include <unistd.h>

enum {
    LINE = 4096,  /* bytes of a line */
    NAME = 32,    /* bytes of a name */
    TEXT = 255,   /* bytes of a text */
    NAMES = 1024, /* places for names, of which a quarter is used at most */
    COLUMNS = 16, /* of a relation */
    LIMIT = 256,  /* relations, and queries */
    CURSORS = 16,
    ATOMS = 32,
    VARIABLES = 64, /* of a query, as they stand in a mask */
    HEAD = 16,      /* variables of a head */
    EDGES = VARIABLES + 2 * ATOMS,
    STEPS = 64,       /* of a listing */
    TERMS = LINE / 2, /* that a line has at most */
};

typedef uint64_t cell; /* an integer, or where a Text stands */

static void give_up(int status, const char *why)
{
    fprintf(stderr, "by_hand: %s\n", why);
    exit(status);
}

/* Memory: blocks of one size, which are used again. */

typedef struct {
    void *free;
    size_t size;
} Pool;

static char *rest, *rest_end;

static void *some(size_t size)
{
    void *block = calloc(1, size);
    if (!block)
        give_up(6, "out of memory");
    return block;
}

static __attribute__((noinline)) void more_rest(void)
{
    rest = some(1 << 20);
    rest_end = rest + (1 << 20);
}

static inline void *fresh_block(size_t size)
{
    if ((size_t)(rest_end - rest) < size)
        more_rest();
    void *block = rest;
    rest += size;
    return block;
}

static inline void *take_block(Pool *pool)
{
    void *block = pool->free;
    if (!block)
        return fresh_block(pool->size);
    pool->free = *(void **)block;
    return block;
}

static inline void give_block(Pool *pool, void *block)
{
    *(void **)block = pool->free;
    pool->free = block;
}

/* Tables: items with cells, found by them. A bucket is a chain. */

typedef struct Item {
    struct Item *next;
} Item;

typedef struct {
    Item **heads;
    size_t mask, count;
    unsigned width, cells_at; /* how many cells an item has, and behind how many bytes they stand */
} Table;

static inline cell *cells_of(const Table *table, const Item *item)
{
    return (cell *)((char *)item + table->cells_at);
}

static inline uint64_t mixed(uint64_t hash, uint64_t more)
{
    hash = (hash ^ more) * 0x9e3779b97f4a7c15u;
    return hash ^ hash >> 32;
}

static inline uint64_t hash_of(const cell *cells, unsigned width)
{
    uint64_t hash = 0;
    for (unsigned i = 0; i < width; i++)
        hash = mixed(hash, cells[i]);
    return hash;
}

static inline bool are_same(const cell *ones, const cell *others, unsigned width)
{
    for (unsigned i = 0; i < width; i++)
        if (ones[i] != others[i])
            return false;
    return true;
}

static void make_table(Table *table, unsigned width, unsigned cells_at)
{
    *table = (Table){some(8 * sizeof(Item *)), 7, 0, width, cells_at};
}

static inline Item *find(const Table *table, const cell *cells, uint64_t hash)
{
    Item *item = table->heads[hash & table->mask];
    while (item && !are_same(cells_of(table, item), cells, table->width))
        item = item->next;
    return item;
}

static __attribute__((noinline)) void grow(Table *table)
{
    size_t mask = 4 * table->mask + 3;
    Item **heads = some((mask + 1) * sizeof(Item *));
    for (size_t i = 0; i <= table->mask; i++)
        for (Item *item = table->heads[i], *next; item; item = next) {
            Item **head = &heads[hash_of(cells_of(table, item), table->width) & mask];
            next = item->next;
            item->next = *head;
            *head = item;
        }
    free(table->heads);
    table->heads = heads;
    table->mask = mask;
}

static inline void put_in(Table *table, Item *item, uint64_t hash)
{
    if (table->count++ > table->mask)
        grow(table);
    Item **head = &table->heads[hash & table->mask];
    item->next = *head;
    *head = item;
}

static inline void take_out(Table *table, Item *item, uint64_t hash)
{
    Item **at = &table->heads[hash & table->mask];
    while (*at != item)
        at = &(*at)->next;
    *at = item->next;
    table->count--;
}

/* Names, and texts. A text is kept as it is spelled, since it has one spelling; so it is printed as it is. */

typedef struct {
    uint8_t length;
    char bytes[NAME];
} Name;

typedef struct {
    const char *at;
    size_t length;
} Slice;

static inline bool is_spelled(Slice slice, const char *bytes, size_t length)
{
    return slice.length == length && memcmp(slice.at, bytes, length) == 0;
}

static inline bool is_named(const Name *name, Slice slice)
{
    return is_spelled(slice, name->bytes, name->length);
}

static inline Name **place_of(Name **names, Slice slice)
{
    size_t at = slice.length;
    for (size_t i = 0; i < slice.length; i++)
        at = at * 31 + (uint8_t)slice.at[i];
    while (names[at % NAMES] && !is_named(names[at % NAMES], slice))
        at++;
    return &names[at % NAMES];
}

static void set_name(Name *name, Slice slice)
{
    name->length = (uint8_t)slice.length;
    memcpy(name->bytes, slice.at, slice.length);
}

typedef struct Text {
    struct Text *next;
    uint64_t hash;
    size_t length;
    char spelled[];
} Text;

static struct {
    Text **heads;
    size_t mask, count;
} texts;

/* Bytes behind the slice may be read: a line has room behind it. */
static inline uint64_t hash_of_bytes(Slice slice)
{
    uint64_t hash = slice.length, word;
    size_t i = 0;
    for (; i + 8 <= slice.length; i += 8) {
        memcpy(&word, slice.at + i, 8);
        hash = mixed(hash, word);
    }
    memcpy(&word, slice.at + i, 8);
    return mixed(hash, word & ((1ull << 8 * (slice.length - i)) - 1));
}

static __attribute__((noinline)) void grow_texts(void)
{
    size_t mask = 4 * texts.mask + 3;
    Text **heads = some((mask + 1) * sizeof(Text *));
    for (size_t i = 0; texts.count && i <= texts.mask; i++)
        for (Text *text = texts.heads[i], *next; text; text = next) {
            next = text->next;
            text->next = heads[text->hash & mask];
            heads[text->hash & mask] = text;
        }
    free(texts.heads);
    texts.heads = heads;
    texts.mask = mask;
}

static Text *find_text(Slice slice, uint64_t hash)
{
    if (!texts.heads)
        grow_texts();
    Text *text = texts.heads[hash & texts.mask];
    for (; text; text = text->next)
        if (text->hash == hash && is_spelled(slice, text->spelled, text->length))
            break;
    return text;
}

static Text *known_text(Slice slice)
{
    return find_text(slice, hash_of_bytes(slice));
}

static Text *learned_text(Slice slice)
{
    uint64_t hash = hash_of_bytes(slice);
    Text *text = find_text(slice, hash);
    if (text)
        return text;
    if (texts.count++ > texts.mask)
        grow_texts();
    /* Whole pieces of sixteen bytes, as a text is printed by them. */
    text = fresh_block(sizeof(Text) + ((slice.length + 15) & ~(size_t)15));
    *text = (Text){texts.heads[hash & texts.mask], hash, slice.length};
    memcpy(text->spelled, slice.at, slice.length);
    texts.heads[hash & texts.mask] = text;
    return text;
}

/* Relations, and the nodes of queries. */

typedef struct Query Query;
typedef struct Relation Relation;
typedef struct Node Node;
typedef struct Entry Entry;

typedef struct {
    Node *big, *small;
    bool feeds;               /* the big one feeds the small one; else that is its side */
    bool listed;              /* its entries are kept as a list, since answers are listed through it */
    unsigned link, slot;      /* where the big one's entry has its Link, and the small one's its Slot */
    uint8_t taken[VARIABLES]; /* which cells of the big one's are the small one's */
} Edge;

typedef struct {
    Entry *to, *next, **back;
} Link;

typedef union {
    Entry *first;
    uint64_t count;
} Slot;

/* Links stand behind it, then slots, then, in a view's, its cells. */
struct Entry {
    Item item; /* in a view: its bucket; in a leaf: the row's further entries */
    Node *node;
    const cell *cells;
    uint64_t mark;    /* the change that it was marked by */
    uint32_t missing; /* what it lacks to live */
    uint32_t used;    /* slots that aren't empty; a view's entry goes with the last */
};

typedef struct {
    Item item;
    Entry *entries; /* in leaves, in the order of these */
    uint64_t copies;
    cell cells[];
} Row;

struct Relation {
    Name name;
    uint8_t columns, number;
    unsigned texts; /* the columns that have texts, as a mask */
    Table table;
    Pool rows;
    Node **leaves; /* in the order of queries, then of atoms */
    size_t leaf_count;
};

typedef struct {
    uint8_t column, other;
    bool is_constant;
    cell constant;
} Demand; /* that a column has the same as another, or a constant */

struct Node {
    Query *query;
    uint64_t label; /* its variables, as a mask */
    bool is_leaf;
    bool is_out;  /* answers are listed from the nodes that are, from the root down */
    Edge *parent; /* the edge that it feeds, or whose side it is */
    Edge *sides[ATOMS], *feeds[EDGES];
    unsigned side_count, feed_count, slots;
    uint8_t places[VARIABLES]; /* which cell is a variable's */
    Demand demands[COLUMNS];
    unsigned demand_count;
    uint64_t path; /* of a leaf: the steps of a listing that are on its way to the root, as a mask */
    Table table;   /* of a view */
    Pool entries;
};

/* A step of a listing: an entry out of a list, or the only one that another is tied to. */
typedef struct {
    Edge *edge;
    uint8_t from;
    bool chooses;
} Step;

typedef struct {
    uint8_t step, place;
    bool is_text;
} Shown;

struct Query {
    Name name;
    bool is_watched;
    bool reads[LIMIT];
    Node *root;
    Step steps[STEPS];
    unsigned step_count;
    Shown head[HEAD];
    unsigned head_count, edge_count;
    Edge edges[EDGES];
    size_t line_room;
    char told[NAME + 8], at[NAME + 8]; /* what a line of a delta, and its end, begin with; the sign is left to put */
    size_t told_length, at_length;
};

typedef struct {
    Name name;
    Query *query; /* none: the place is free */
    bool is_done;
    Relation *changed; /* the first one that made it stale, by this change */
    uint64_t by;
    Entry *chosen[STEPS];
} Cursor;

static Name *relations[NAMES], *queries[NAMES];
static unsigned relation_count, query_count;
static Cursor cursors[CURSORS];
static unsigned cursor_count;
static uint64_t changes; /* SEQ */
static uint64_t marked;  /* the number of the change of a leaf that is under way */
static bool is_told;     /* whether somebody watches its query */
static Entry **dying;    /* entries that a change takes, before it is told */
static size_t dying_count, dying_room;

static inline Link *link_of(const Entry *entry, const Edge *edge)
{
    return (Link *)((char *)entry + edge->link);
}

static inline Slot *slot_of(const Entry *entry, const Edge *edge)
{
    return (Slot *)((char *)entry + edge->slot);
}

static inline void list_first(Slot *slot, Entry *entry, const Edge *edge)
{
    Link *link = link_of(entry, edge);
    link->next = slot->first;
    link->back = &slot->first;
    if (slot->first)
        link_of(slot->first, edge)->back = &link->next;
    slot->first = entry;
}

static inline void unlist(Entry *entry, const Edge *edge)
{
    Link *link = link_of(entry, edge);
    *link->back = link->next;
    if (link->next)
        link_of(link->next, edge)->back = link->back;
}

/* Entries. */

static void tie_sides(Entry *entry);

static __attribute__((noinline)) Entry *make_entry(Node *view, const cell *key, uint64_t hash)
{
    Entry *entry = take_block(&view->entries);
    cell *cells = cells_of(&view->table, &entry->item);
    for (unsigned i = 0; i < view->table.width; i++)
        cells[i] = key[i];
    Slot *slots = (Slot *)cells - view->slots;
    for (unsigned i = 0; i < view->slots; i++)
        slots[i].count = 0;
    entry->node = view;
    entry->cells = cells;
    entry->mark = 0;
    entry->missing = view->feed_count + view->side_count;
    entry->used = 0;
    put_in(&view->table, &entry->item, hash);
    tie_sides(entry);
    return entry;
}

/* The small one's entry of an edge for one of the big one's, made where it isn't there. */
static inline Entry *small_entry(const Edge *edge, const cell *cells)
{
    Node *view = edge->small;
    unsigned width = view->table.width;
    if (!width && view->table.count) /* a root, or a part of the query that has no variables left */
        return (Entry *)view->table.heads[0];
    cell key[VARIABLES];
    for (unsigned i = 0; i < width; i++)
        key[i] = cells[edge->taken[i]];
    uint64_t hash = hash_of(key, width);
    Item *item = find(&view->table, key, hash);
    return item ? (Entry *)item : make_entry(view, key, hash);
}

static void tie_sides(Entry *entry)
{
    const Node *node = entry->node;
    for (unsigned i = 0; i < node->side_count; i++) {
        const Edge *edge = node->sides[i];
        Entry *side = small_entry(edge, entry->cells);
        Slot *slot = slot_of(side, edge);
        link_of(entry, edge)->to = side;
        side->used += !slot->first;
        list_first(slot, entry, edge);
        entry->missing -= !side->missing;
    }
}

static void drop_view_entry(Entry *entry);

static void untie_sides(Entry *entry)
{
    const Node *node = entry->node;
    for (unsigned i = 0; i < node->side_count; i++) {
        const Edge *edge = node->sides[i];
        Entry *side = link_of(entry, edge)->to;
        unlist(entry, edge);
        if (!slot_of(side, edge)->first && --side->used == 0)
            drop_view_entry(side);
    }
}

static void drop_view_entry(Entry *entry)
{
    Node *view = entry->node;
    untie_sides(entry);
    take_out(&view->table, &entry->item, hash_of(entry->cells, view->table.width));
    give_block(&view->entries, entry);
}

/* Marks a living entry, and all above that live and hang on it; marked ones come first in their lists. */
static void touch(Entry *entry)
{
    while (entry->mark != marked) {
        const Edge *up = entry->node->parent;
        entry->mark = marked;
        if (!up)
            return;
        if (!up->feeds) {
            for (Entry *big = slot_of(entry, up)->first; big; big = link_of(big, up)->next)
                if (!big->missing)
                    touch(big);
            return;
        }
        Entry *small = link_of(entry, up)->to;
        if (up->listed && slot_of(small, up)->first != entry) {
            unlist(entry, up);
            list_first(slot_of(small, up), entry, up);
        }
        if (small->missing)
            return;
        entry = small;
    }
}

/* Tells the nodes above that an entry lives. */
static void rise(Entry *entry)
{
    for (;;) {
        const Edge *up = entry->node->parent;
        entry->mark = marked;
        if (!up)
            return;
        if (!up->feeds) {
            for (Entry *big = slot_of(entry, up)->first; big; big = link_of(big, up)->next)
                if (--big->missing == 0)
                    rise(big);
            return;
        }
        Entry *small = small_entry(up, entry->cells);
        Slot *slot = slot_of(small, up);
        bool is_first = !slot->count;
        link_of(entry, up)->to = small;
        if (up->listed)
            list_first(slot, entry, up);
        else
            slot->count++;
        if (!is_first) {
            if (is_told && up->listed && !small->missing)
                touch(small);
            return;
        }
        small->used++;
        if (--small->missing)
            return;
        entry = small;
    }
}

static void remember_dying(Entry *entry)
{
    if (dying_count == dying_room) {
        dying_room = 2 * dying_room + 64;
        dying = realloc(dying, dying_room * sizeof(Entry *));
        if (!dying)
            give_up(6, "out of memory");
    }
    dying[dying_count++] = entry;
}

/* Tells the nodes above that an entry lives no more. Where a delta is to be told from it first, it is remembered alone,
 * and this gives false. */
static bool fall(Entry *entry, bool is_told_first)
{
    const Edge *up = entry->node->parent;
    if (is_told_first && entry->node->is_out) {
        remember_dying(entry);
        return false;
    }
    if (!up)
        return true;
    if (!up->feeds) {
        for (Entry *big = slot_of(entry, up)->first; big; big = link_of(big, up)->next)
            if (big->missing++ == 0)
                fall(big, is_told_first);
        return true;
    }
    Entry *small = link_of(entry, up)->to;
    Slot *slot = slot_of(small, up);
    if (up->listed)
        unlist(entry, up);
    else
        slot->count--;
    if (slot->count)
        return true;
    bool has_gone = small->missing++ || fall(small, is_told_first);
    if (--small->used == 0 && has_gone)
        drop_view_entry(small);
    return true;
}

/* Output: what a command says is written at once. */

static char *out, *out_end, *said;

static __attribute__((noinline)) void more_out(size_t room)
{
    size_t length = (size_t)(said - out), size = 2 * (length + room) + LINE;
    out = realloc(out, size);
    if (!out)
        give_up(6, "out of memory");
    out_end = out + size;
    said = out + length;
}

static inline void need_out(size_t room)
{
    if ((size_t)(out_end - said) < room)
        more_out(room);
}

static const char PAIRS[] =
    "0001020304050607080910111213141516171819202122232425262728293031323334353637383940414243444546474849"
    "5051525354555657585960616263646566676869707172737475767778798081828384858687888990919293949596979899";

/* clang-format off */
static const uint64_t POWERS[] = {
    0, 10, 100, 1000,
    10000, 100000, 1000000, 10000000,
    100000000, 1000000000, 10000000000, 100000000000,
    1000000000000, 10000000000000, 100000000000000, 1000000000000000,
    10000000000000000, 100000000000000000, 1000000000000000000, 10000000000000000000u,
};
/* clang-format on */

static inline char *put_natural(char *at, uint64_t number)
{
    if (number < 10) {
        *at = (char)('0' + number);
        return at + 1;
    }
    unsigned digits = (64 - (unsigned)__builtin_clzll(number)) * 1233 >> 12;
    digits += number >= POWERS[digits];
    char *end = at + digits;
    for (at = end; number >= 100; number /= 100)
        memcpy(at -= 2, PAIRS + 2 * (number % 100), 2);
    if (number >= 10)
        memcpy(at - 2, PAIRS + 2 * number, 2);
    else
        at[-1] = (char)('0' + number);
    return end;
}

static inline char *put_cell(char *at, cell value, bool is_text)
{
    if (is_text) {
        const Text *text = (const Text *)value;
        for (size_t i = 0; i < text->length; i += 16)
            memcpy(at + i, text->spelled + i, 16);
        return at + text->length;
    }
    if ((int64_t)value < 0) {
        *at++ = '-';
        value = -value;
    }
    return put_natural(at, value);
}

static void say(const char *words)
{
    size_t length = strlen(words);
    need_out(length);
    memcpy(said, words, length);
    said += length;
}

static void say_number(const char *words, uint64_t number)
{
    say(words);
    need_out(24);
    said = put_natural(said, number);
    *said++ = '\n';
}

static void write_out(void)
{
    for (const char *from = out; from < said;) {
        ssize_t written = write(1, from, (size_t)(said - from));
        if (written < 0 && errno != EINTR)
            give_up(3, "a write failed");
        from += written < 0 ? 0 : written;
    }
    said = out;
}

/* Listing: `chosen` has an entry for each step, first the root's. Of steps in `path` only marked entries are listed. */

static inline void choose_from(const Query *query, Entry **chosen, unsigned step)
{
    for (; step < query->step_count; step++) {
        const Step *here = &query->steps[step];
        const Entry *from = chosen[here->from];
        chosen[step] = here->chooses ? slot_of(from, here->edge)->first : link_of(from, here->edge)->to;
    }
}

static inline bool choose_next(const Query *query, Entry **chosen, uint64_t path)
{
    for (unsigned step = query->step_count; --step > 0;) {
        const Step *here = &query->steps[step];
        if (!here->chooses)
            continue;
        Entry *next = link_of(chosen[step], here->edge)->next;
        if (!next || (path >> step & 1 && next->mark != marked))
            continue;
        chosen[step] = next;
        choose_from(query, chosen, step + 1);
        return true;
    }
    return false;
}

static inline char *put_answer(char *at, const Query *query, Entry **chosen)
{
    for (const Shown *shown = query->head; shown < query->head + query->head_count; shown++) {
        *at++ = ' ';
        at = put_cell(at, chosen[shown->step]->cells[shown->place], shown->is_text);
    }
    *at++ = '\n';
    return at;
}

static Entry *root_entry(const Query *query)
{
    return (Entry *)query->root->table.heads[0];
}

static void tell_delta(const Query *query, char sign, uint64_t path)
{
    Entry *chosen[STEPS];
    chosen[0] = root_entry(query);
    if (!chosen[0] || chosen[0]->mark != marked)
        return;
    choose_from(query, chosen, 1);
    do {
        need_out(query->line_room);
        memcpy(said, query->told, sizeof query->told);
        *said = sign;
        said = put_answer(said + query->told_length, query, chosen);
    } while (choose_next(query, chosen, path));
}

static void tell_end(const Query *query)
{
    need_out(query->line_room);
    memcpy(said, query->at, sizeof query->at);
    said = put_natural(said + query->at_length, changes);
    *said++ = '\n';
}

/* Changes of rows. */

static inline bool lets_through(const Node *leaf, const cell *cells)
{
    for (const Demand *demand = leaf->demands; demand < leaf->demands + leaf->demand_count; demand++)
        if (cells[demand->column] != (demand->is_constant ? demand->constant : cells[demand->other]))
            return false;
    return true;
}

static inline Entry *come_to_leaf(Node *leaf, const Row *row)
{
    Entry *entry = take_block(&leaf->entries);
    entry->item.next = NULL;
    entry->node = leaf;
    entry->cells = row->cells;
    entry->missing = leaf->side_count;
    tie_sides(entry);
    if (entry->missing)
        return entry;
    marked++;
    is_told = leaf->query->is_watched;
    rise(entry);
    if (is_told)
        tell_delta(leaf->query, '+', leaf->path);
    return entry;
}

static __attribute__((noinline)) void tell_and_fall(const Node *leaf, Entry *entry)
{
    marked++;
    dying_count = 0;
    fall(entry, true);
    for (size_t i = 0; i < dying_count; i++)
        touch(dying[i]);
    tell_delta(leaf->query, '-', leaf->path);
    for (size_t i = 0; i < dying_count; i++) {
        fall(dying[i], false);
        if (!dying[i]->node->is_leaf && !dying[i]->used)
            drop_view_entry(dying[i]);
    }
}

static inline void go_from_leaf(Node *leaf, Entry *entry)
{
    if (!entry->missing) {
        if (leaf->query->is_watched)
            tell_and_fall(leaf, entry);
        else
            fall(entry, false);
    }
    untie_sides(entry);
    give_block(&leaf->entries, entry);
}

static void age_cursors(Relation *relation)
{
    for (Cursor *cursor = cursors; cursor < cursors + CURSORS; cursor++)
        if (cursor->query && !cursor->changed && cursor->query->reads[relation->number]) {
            cursor->changed = relation;
            cursor->by = changes;
        }
}

static void change_leaves(Relation *relation, Row *row, bool comes)
{
    Entry **last = &row->entries;
    changes++;
    if (cursor_count)
        age_cursors(relation);
    for (size_t i = 0; i < relation->leaf_count; i++) {
        Node *leaf = relation->leaves[i];
        if (comes && lets_through(leaf, row->cells)) {
            *last = come_to_leaf(leaf, row);
            last = (Entry **)&(*last)->item.next;
        } else if (!comes && row->entries && row->entries->node == leaf) {
            Entry *entry = row->entries;
            row->entries = (Entry *)entry->item.next;
            go_from_leaf(leaf, entry);
        }
        bool is_last = i + 1 == relation->leaf_count || relation->leaves[i + 1]->query != leaf->query;
        if (is_last && leaf->query->is_watched)
            tell_end(leaf->query);
    }
}

static const char ADDED[16] = "ok added ", REMOVED[16] = "ok removed ";

static void say_row(const char *words, size_t length, uint64_t copies)
{
    need_out(64);
    memcpy(said, words, sizeof ADDED);
    said = put_natural(said + length, changes);
    *said++ = ' ';
    said = put_natural(said, copies);
    *said++ = '\n';
}

static void add_row(Relation *relation, const cell *cells)
{
    uint64_t hash = hash_of(cells, relation->columns);
    Row *row = (Row *)find(&relation->table, cells, hash);
    if (!row) {
        row = take_block(&relation->rows);
        row->entries = NULL;
        row->copies = 0;
        for (unsigned i = 0; i < relation->columns; i++)
            row->cells[i] = cells[i];
        put_in(&relation->table, &row->item, hash);
        change_leaves(relation, row, true);
    }
    say_row(ADDED, 9, ++row->copies);
}

static void delete_row(Relation *relation, const cell *cells)
{
    uint64_t hash = hash_of(cells, relation->columns);
    Row *row = (Row *)find(&relation->table, cells, hash);
    if (!row) {
        say_number("ok absent ", changes);
        return;
    }
    uint64_t copies = --row->copies;
    if (!copies) {
        change_leaves(relation, row, false);
        take_out(&relation->table, &row->item, hash);
        give_block(&relation->rows, row);
    }
    say_row(REMOVED, 11, copies);
}

/* Reading. A line ends with LF, before which no reader goes; bytes behind it may be read. */

static const char *const REFUSALS[] = {
    "",
    "err 1 syntax\n",
    "err 2 taken\n",
    "err 3 no relation\n",
    "err 4 no query\n",
    "err 5 no cursor\n",
    "err 6 arity\n",
    "err 7 type\n",
    "err 8 head unbound\n",
    "err 9 head repeated\n",
    "err 10 variable type\n",
    "err 11 limit\n",
};

static void refuse(unsigned number)
{
    say(REFUSALS[number]);
}

static inline const char *skip(const char *at)
{
    while (*at == ' ')
        at++;
    return at;
}

static inline bool is_of_name(char c)
{
    return (unsigned)(c - 'a') < 26 || (unsigned)(c - '0') < 10 || c == '_';
}

/* Each reader gives what is behind what it reads, or NULL. */
static inline const char *read_name(const char *at, Slice *name)
{
    name->at = at;
    if ((unsigned)(*at - 'a') >= 26)
        return NULL;
    while (is_of_name(*at))
        at++;
    name->length = (size_t)(at - name->at);
    return name->length <= NAME ? at : NULL;
}

/* Whether digits are a number up to `most`, which is left in `number`. */
static bool are_within(const char *at, const char *end, uint64_t most, uint64_t *number)
{
    *number = 0;
    for (; at < end; at++) {
        uint64_t digit = (uint64_t)(*at - '0');
        if (*number > (most - digit) / 10)
            return false;
        *number = 10 * *number + digit;
    }
    return true;
}

static inline const char *read_integer(const char *at, cell *value, bool *is_past)
{
    bool is_below = *at == '-';
    const char *digits = at += is_below;
    uint64_t number = 0;
    for (unsigned digit; (digit = (unsigned)(*at - '0')) < 10; at++)
        number = 10 * number + digit;
    if (at == digits)
        return NULL;
    if (at - digits > 18 && !are_within(digits, at, INT64_MAX + (uint64_t)is_below, &number))
        *is_past = true;
    *value = is_below ? -number : number;
    return at;
}

static bool is_utf8(const uint8_t *at, const uint8_t *end)
{
    while (at < end) {
        uint32_t first = *at++, point = first;
        unsigned more = (first >= 0xc2) + (first >= 0xe0) + (first >= 0xf0);
        if ((first >= 0x80 && !more) || first >= 0xf5)
            return false;
        if (more)
            point &= 0x3fu >> more;
        for (unsigned i = 0; i < more; i++, at++) {
            if (at == end || (*at & 0xc0) != 0x80)
                return false;
            point = point << 6 | (*at & 0x3fu);
        }
        if (more == 2 && (point < 0x800 || point >> 11 == 27))
            return false;
        if (more == 3 && (point < 0x10000 || point > 0x10ffff))
            return false;
    }
    return true;
}

static inline const char *read_text(const char *at, Slice *spelled, bool *is_past)
{
    size_t escapes = 0;
    uint8_t bits = 0;
    spelled->at = at++;
    for (; *at != '"'; at++) {
        if (*at == '\n')
            return NULL;
        bits |= (uint8_t)*at;
        if (*at != '\\')
            continue;
        escapes++;
        at++;
        if (*at != '"' && *at != '\\' && *at != 'n')
            return NULL;
    }
    at++;
    spelled->length = (size_t)(at - spelled->at);
    if (bits >= 0x80 && !is_utf8((const uint8_t *)spelled->at, (const uint8_t *)at))
        return NULL;
    if (spelled->length - 2 - escapes > TEXT)
        *is_past = true;
    return at;
}

/* The lines that add and delete. */

typedef struct {
    Slice relation;
    cell cells[COLUMNS];
    Slice spelled[COLUMNS];
    unsigned count, texts;
    bool is_past;
} RowLine;

static inline bool read_row(const char *at, RowLine *line)
{
    line->count = line->texts = 0;
    line->is_past = false;
    at = read_name(skip(at), &line->relation);
    while (at && *at != '\n') {
        const char *behind = at;
        at = skip(at);
        if (*at == '\n')
            break;
        if (at == behind)
            return false;
        unsigned place = line->count < COLUMNS ? line->count : COLUMNS - 1;
        line->count++;
        if (*at == '"') {
            line->texts |= 1u << place;
            at = read_text(at, &line->spelled[place], &line->is_past);
        } else {
            at = read_integer(at, &line->cells[place], &line->is_past);
        }
    }
    return at && line->count;
}

static void run_row(const char *at, bool adds)
{
    RowLine line;
    if (!read_row(at, &line))
        return refuse(1);
    if (line.is_past)
        return refuse(7);
    Relation *relation = (Relation *)*place_of(relations, line.relation);
    if (!relation)
        return refuse(3);
    if (line.count != relation->columns)
        return refuse(6);
    if (line.texts != relation->texts)
        return refuse(7);
    for (unsigned left = line.texts; left; left &= left - 1) {
        unsigned place = (unsigned)__builtin_ctz(left);
        Text *text = adds ? learned_text(line.spelled[place]) : known_text(line.spelled[place]);
        if (!text)
            return say_number("ok absent ", changes);
        line.cells[place] = (cell)text;
    }
    if (adds)
        add_row(relation, line.cells);
    else
        delete_row(relation, line.cells);
}

/* The line that makes a relation. */

static void run_rel(const char *at)
{
    Slice name, type;
    unsigned columns = 0, text_columns = 0;
    at = read_name(skip(at), &name);
    while (at && *(at = skip(at)) != '\n') {
        if (!(at = read_name(at, &type)))
            break;
        bool is_text = is_spelled(type, "text", 4);
        if (!is_text && !is_spelled(type, "int", 3))
            return refuse(1);
        if (columns < COLUMNS)
            text_columns |= (unsigned)is_text << columns;
        columns++;
    }
    if (!at || !columns)
        return refuse(1);
    Name **place = place_of(relations, name);
    if (*place)
        return refuse(2);
    if (columns > COLUMNS || relation_count == LIMIT)
        return refuse(11);
    Relation *relation = some(sizeof(Relation));
    set_name(&relation->name, name);
    relation->columns = (uint8_t)columns;
    relation->number = (uint8_t)relation_count++;
    relation->texts = text_columns;
    relation->rows.size = sizeof(Row) + columns * sizeof(cell);
    make_table(&relation->table, columns, sizeof(Row));
    *place = &relation->name;
    say("ok\n");
}

/* The line that registers a query. */

typedef struct {
    enum { VARIABLE, INTEGER, TEXT_SPELLED } kind;
    unsigned variable;
    cell value;
    Slice spelled;
} Term;

typedef struct {
    Slice name;
    Relation *relation;
    unsigned first, count; /* of terms */
} Atom;

static struct {
    Slice name, head[TERMS], variables[TERMS];
    Atom atoms[TERMS];
    Term terms[TERMS];
    unsigned head_count, variable_count, atom_count, term_count;
    unsigned shown[TERMS]; /* which variables the head has */
    bool are_texts[TERMS]; /* which variables are texts */
    bool is_past;
} line;

static unsigned variable_of(Slice name)
{
    for (unsigned i = 0; i < line.variable_count; i++)
        if (is_spelled(name, line.variables[i].at, line.variables[i].length))
            return i;
    line.variables[line.variable_count] = name;
    return line.variable_count++;
}

static const char *read_term(const char *at)
{
    Term *term = &line.terms[line.term_count++];
    Slice name = {at, 0};
    if (*at == '"') {
        term->kind = TEXT_SPELLED;
        return read_text(at, &term->spelled, &line.is_past);
    }
    if (*at == '-' || (unsigned)(*at - '0') < 10) {
        term->kind = INTEGER;
        return read_integer(at, &term->value, &line.is_past);
    }
    term->kind = VARIABLE;
    if (*at == '_' && !is_of_name(at[1])) {
        line.variables[line.variable_count] = name; /* of no length: no name is the same */
        term->variable = line.variable_count++;
        return at + 1;
    }
    at = read_name(at, &name);
    if (at)
        term->variable = variable_of(name);
    return at;
}

static const char *read_head_variable(const char *at)
{
    return read_name(at, &line.head[line.head_count++]);
}

/* A name, and in brackets, with commas between, what `read_one` reads; there may be none. */
static const char *read_list(const char *at, Slice *name, const char *(*read_one)(const char *))
{
    at = read_name(skip(at), name);
    if (!at || *(at = skip(at)) != '(')
        return NULL;
    at = skip(at + 1);
    if (*at == ')')
        return at + 1;
    while ((at = read_one(at)) && *(at = skip(at)) == ',')
        at = skip(at + 1);
    return at && *at == ')' ? at + 1 : NULL;
}

static bool read_query(const char *at)
{
    line.head_count = line.variable_count = line.atom_count = line.term_count = 0;
    line.is_past = false;
    at = read_list(at, &line.name, read_head_variable);
    if (!at || memcmp(at = skip(at), "<-", 2))
        return false;
    at++;
    do {
        Atom *atom = &line.atoms[line.atom_count++];
        atom->first = line.term_count;
        at = read_list(at + 1, &atom->name, read_term);
        atom->count = line.term_count - atom->first;
    } while (at && *(at = skip(at)) == ',');
    return at && *at == '\n';
}

/* The number of the refusal that the atoms ask for, or 0. */
static unsigned judge_atoms(void)
{
    for (unsigned i = 0; i < line.atom_count; i++)
        if (!(line.atoms[i].relation = (Relation *)*place_of(relations, line.atoms[i].name)))
            return 3;
    for (unsigned i = 0; i < line.atom_count; i++)
        if (line.atoms[i].count != line.atoms[i].relation->columns)
            return 6;
    for (unsigned i = 0; i < line.atom_count; i++)
        for (unsigned column = 0; column < line.atoms[i].count; column++) {
            const Term *term = &line.terms[line.atoms[i].first + column];
            bool is_text = line.atoms[i].relation->texts >> column & 1;
            if (term->kind != VARIABLE && is_text != (term->kind == TEXT_SPELLED))
                return 7;
        }
    return 0;
}

static unsigned judge_variables(void)
{
    static bool is_typed[TERMS];
    memset(is_typed, 0, sizeof is_typed);
    for (unsigned i = 0; i < line.atom_count; i++)
        for (unsigned column = 0; column < line.atoms[i].count; column++) {
            const Term *term = &line.terms[line.atoms[i].first + column];
            bool is_text = line.atoms[i].relation->texts >> column & 1;
            if (term->kind != VARIABLE)
                continue;
            if (is_typed[term->variable] && line.are_texts[term->variable] != is_text)
                return 10;
            is_typed[term->variable] = true;
            line.are_texts[term->variable] = is_text;
        }
    return 0;
}

static unsigned judge_head(void)
{
    unsigned count = line.variable_count;
    for (unsigned i = 0; i < line.head_count; i++)
        for (unsigned other = 0; other < i; other++)
            if (is_spelled(line.head[i], line.head[other].at, line.head[other].length))
                return 9;
    for (unsigned i = 0; i < line.head_count; i++, line.variable_count = count)
        if ((line.shown[i] = variable_of(line.head[i])) == count)
            return 8;
    return line.atom_count > ATOMS || count > VARIABLES || line.head_count > HEAD || query_count == LIMIT ? 11 : 0;
}

/* The tree of a query. First variables that the head lacks are taken out, then all: each step takes out the variables
 * that one node alone has, or hangs a node below one that has all of its variables. What a step makes comes last among
 * the current nodes, and the first step is taken that there is, as djq does; so the trees are the same. */

typedef struct {
    Query *query;
    Node *current[ATOMS];
    unsigned count;
    uint64_t may; /* the variables that may be taken out */
    bool is_second;
} Plan;

static uint64_t bit(unsigned variable)
{
    return (uint64_t)1 << variable;
}

static Node *new_node(Plan *plan, uint64_t label, bool is_leaf)
{
    Node *node = some(sizeof(Node));
    node->query = plan->query;
    node->label = label;
    node->is_leaf = is_leaf;
    node->is_out = plan->is_second;
    for (unsigned variable = 0, place = 0; variable < VARIABLES && !is_leaf; variable++)
        if (label & bit(variable))
            node->places[variable] = (uint8_t)place++;
    return node;
}

static void tie(Plan *plan, Node *big, Node *small, bool feeds)
{
    Edge *edge = &plan->query->edges[plan->query->edge_count++];
    *edge = (Edge){.big = big, .small = small, .feeds = feeds, .listed = feeds && plan->is_second};
    if (feeds) {
        big->parent = edge;
        small->feeds[small->feed_count++] = edge;
    } else {
        small->parent = edge;
        big->sides[big->side_count++] = edge;
    }
}

/* A view that a node feeds. */
static Node *view_of(Plan *plan, Node *node, uint64_t label)
{
    Node *view = new_node(plan, label, false);
    tie(plan, node, view, true);
    return view;
}

/* Two nodes with the same variables become one view. */
static Node *merged(Plan *plan, Node *view, Node *other)
{
    if (view->is_leaf && !other->is_leaf)
        return merged(plan, other, view);
    if (view->is_leaf)
        view = view_of(plan, view, view->label);
    if (other->is_leaf) {
        tie(plan, other, view, true);
        return view;
    }
    for (unsigned i = 0; i < other->feed_count; i++) {
        other->feeds[i]->small = view;
        view->feeds[view->feed_count++] = other->feeds[i];
    }
    for (unsigned i = 0; i < other->side_count; i++) {
        other->sides[i]->big = view;
        view->sides[view->side_count++] = other->sides[i];
    }
    free(other);
    return view;
}

/* Takes a node out of the current ones. */
static Node *done_with(Plan *plan, unsigned at)
{
    Node *node = plan->current[at];
    plan->count--;
    memmove(&plan->current[at], &plan->current[at + 1], (plan->count - at) * sizeof(Node *));
    return node;
}

static bool take_variables_out(Plan *plan)
{
    for (unsigned i = 0; i < plan->count; i++) {
        uint64_t own = plan->current[i]->label & plan->may;
        for (unsigned other = 0; other < plan->count; other++)
            if (other != i)
                own &= ~plan->current[other]->label;
        if (own) {
            Node *node = done_with(plan, i);
            plan->current[plan->count++] = view_of(plan, node, node->label & ~own);
            return true;
        }
    }
    return false;
}

static bool hang(Plan *plan, bool are_equal)
{
    for (unsigned i = 0; i < plan->count; i++)
        for (unsigned other = 0; other < plan->count; other++) {
            Node *small = plan->current[i], *big = plan->current[other];
            if (i == other || small->label & ~big->label || (small->label == big->label) != are_equal)
                continue;
            done_with(plan, i > other ? i : other);
            done_with(plan, i > other ? other : i);
            if (!are_equal)
                tie(plan, big, small->is_leaf ? view_of(plan, small, small->label) : small, false);
            plan->current[plan->count++] = are_equal ? merged(plan, small, big) : big;
            return true;
        }
    return false;
}

static bool is_ready(const Plan *plan)
{
    uint64_t left = 0;
    for (unsigned i = 0; i < plan->count; i++)
        left |= plan->current[i]->label & plan->may;
    return !left && (!plan->is_second || plan->count == 1);
}

static bool is_stepped(Plan *plan)
{
    while (!is_ready(plan))
        if (!take_variables_out(plan) && !hang(plan, true) && !hang(plan, false))
            return false;
    return true;
}

/* Makes the tree above the leaves; false where the query isn't admitted. */
static bool make_tree(Plan *plan, uint64_t head)
{
    plan->may = ~head;
    if (!is_stepped(plan))
        return false;
    plan->may = ~(uint64_t)0;
    plan->is_second = true;
    for (unsigned i = 0; i < plan->count; i++)
        plan->current[i]->is_out = true;
    if (!is_stepped(plan))
        return false;
    Node *root = plan->current[0];
    plan->query->root = root->is_leaf ? view_of(plan, root, 0) : root;
    return true;
}

/* Lays out the entries of a node and of those below it. */
static void lay_out(Node *node)
{
    unsigned at = sizeof(Entry), width = (unsigned)__builtin_popcountll(node->label);
    bool is_side = node->parent && !node->parent->feeds;
    for (unsigned i = 0; i < node->side_count; i++, at += sizeof(Link))
        node->sides[i]->link = at;
    if (node->parent && !is_side) {
        node->parent->link = at;
        at += sizeof(Link);
    }
    for (unsigned i = 0; i < node->feed_count; i++, at += sizeof(Slot))
        node->feeds[i]->slot = at;
    if (is_side) {
        node->parent->slot = at;
        at += sizeof(Slot);
    }
    node->slots = node->feed_count + is_side;
    node->entries.size = at + (node->is_leaf ? 0 : width * sizeof(cell));
    if (!node->is_leaf)
        make_table(&node->table, width, at);
    for (unsigned i = 0; i < node->feed_count; i++)
        lay_out(node->feeds[i]->big);
    for (unsigned i = 0; i < node->side_count; i++)
        lay_out(node->sides[i]->small);
}

static void learn_taken(Edge *edge)
{
    for (unsigned variable = 0, at = 0; variable < VARIABLES; variable++)
        if (edge->small->label & bit(variable))
            edge->taken[at++] = edge->big->places[variable];
}

/* Whether a listing has anything to choose at a node or below it. */
static bool has_choice(const Node *node)
{
    for (unsigned i = 0; i < node->feed_count; i++) {
        const Node *big = node->feeds[i]->big;
        if (node->feeds[i]->listed && (big->label != node->label || has_choice(big)))
            return true;
    }
    for (unsigned i = 0; i < node->side_count; i++)
        if (has_choice(node->sides[i]->small))
            return true;
    return false;
}

static void add_steps(Query *query, Node *node, unsigned from);

static void add_step(Query *query, Edge *edge, unsigned from, bool chooses)
{
    unsigned step = query->step_count++;
    if (step < STEPS)
        query->steps[step] = (Step){edge, (uint8_t)from, chooses};
    add_steps(query, chooses ? edge->big : edge->small, step);
}

static void add_steps(Query *query, Node *node, unsigned from)
{
    for (unsigned i = 0; i < node->feed_count; i++) {
        Edge *edge = node->feeds[i];
        if (edge->listed && (edge->big->label != node->label || has_choice(edge->big)))
            add_step(query, edge, from, true);
    }
    for (unsigned i = 0; i < node->side_count; i++)
        if (has_choice(node->sides[i]->small))
            add_step(query, node->sides[i], from, false);
}

static void learn_path(Node *leaf)
{
    const Query *query = leaf->query;
    for (const Edge *up = leaf->parent; up; up = up->small == leaf ? NULL : (up->feeds ? up->small : up->big)->parent)
        for (unsigned step = 1; step < query->step_count; step++)
            if (query->steps[step].chooses && query->steps[step].edge == up)
                leaf->path |= bit(step);
}

static void learn_head(Query *query)
{
    query->head_count = line.head_count;
    query->line_room = 2 * NAME + 32;
    for (unsigned i = 0; i < line.head_count; i++) {
        unsigned variable = line.shown[i], step = 1;
        while (!query->steps[step].chooses || !(query->steps[step].edge->big->label & bit(variable)))
            step++;
        uint8_t place = query->steps[step].edge->big->places[variable];
        query->head[i] = (Shown){(uint8_t)step, place, line.are_texts[variable]};
        query->line_room += line.are_texts[variable] ? 2 * TEXT + 32 : 24;
    }
}

static void learn_words(Query *query)
{
    set_name(&query->name, line.name);
    query->told_length = line.name.length + 2;
    memcpy(query->told, "+ ", 2);
    memcpy(query->told + 2, line.name.at, line.name.length);
    query->at_length = line.name.length + 4;
    memcpy(query->at, "at ", 3);
    memcpy(query->at + 3, line.name.at, line.name.length);
    query->at[query->at_length - 1] = ' ';
}

static void demand(Node *leaf, Demand wanted)
{
    leaf->demands[leaf->demand_count++] = wanted;
}

static Node *new_leaf(Plan *plan, const Atom *atom)
{
    Node *leaf = new_node(plan, 0, true);
    for (unsigned column = 0; column < atom->count; column++) {
        const Term *term = &line.terms[atom->first + column];
        uint8_t here = (uint8_t)column;
        if (term->kind == VARIABLE && leaf->label & bit(term->variable)) {
            demand(leaf, (Demand){here, leaf->places[term->variable], false, 0});
        } else if (term->kind == VARIABLE) {
            leaf->label |= bit(term->variable);
            leaf->places[term->variable] = here;
        } else {
            bool is_text = term->kind == TEXT_SPELLED;
            demand(leaf, (Demand){here, 0, true, is_text ? (cell)learned_text(term->spelled) : term->value});
        }
    }
    return leaf;
}

/* Lets a leaf have the rows that are there. */
static void load(Node *leaf, const Relation *relation)
{
    for (size_t i = 0; i <= relation->table.mask; i++)
        for (Item *item = relation->table.heads[i]; item; item = item->next) {
            Row *row = (Row *)item;
            Entry **last = &row->entries;
            if (!lets_through(leaf, row->cells))
                continue;
            while (*last)
                last = (Entry **)&(*last)->item.next;
            *last = come_to_leaf(leaf, row);
        }
}

static void read_by(Relation *relation, Node *leaf)
{
    relation->leaves = realloc(relation->leaves, (relation->leaf_count + 1) * sizeof(Node *));
    if (!relation->leaves)
        give_up(6, "out of memory");
    relation->leaves[relation->leaf_count++] = leaf;
    leaf->query->reads[relation->number] = true;
    load(leaf, relation);
}

static void make_leaves(Plan *plan)
{
    for (unsigned i = 0; i < line.atom_count; i++)
        plan->current[plan->count++] = new_leaf(plan, &line.atoms[i]);
}

/* Whether the query would be admitted if it had all variables in its head. */
static bool is_acyclic(void)
{
    Plan plan = {.query = some(sizeof(Query)), .may = ~(uint64_t)0, .is_second = true};
    make_leaves(&plan);
    return is_stepped(&plan);
}

/* Builds the query of the line; none where it isn't admitted, which is said. */
static Query *new_query(Node **leaves)
{
    Plan plan = {.query = some(sizeof(Query))};
    uint64_t head = 0;
    for (unsigned i = 0; i < line.head_count; i++)
        head |= bit(line.shown[i]);
    make_leaves(&plan);
    memcpy(leaves, plan.current, sizeof plan.current);
    if (!make_tree(&plan, head)) {
        say(is_acyclic() ? "no connex\n" : "no cyclic\n");
        return NULL;
    }
    Query *query = plan.query;
    query->step_count = 1;
    add_steps(query, query->root, 0);
    if (query->step_count > STEPS) {
        refuse(11);
        return NULL;
    }
    learn_words(query);
    learn_head(query);
    lay_out(query->root);
    for (unsigned i = 0; i < query->edge_count; i++)
        learn_taken(&query->edges[i]);
    for (unsigned i = 0; i < line.atom_count; i++)
        learn_path(leaves[i]);
    return query;
}

static void run_query(const char *at)
{
    Node *leaves[ATOMS];
    unsigned refusal;
    if (!read_query(at))
        return refuse(1);
    if (line.is_past)
        return refuse(7);
    Name **place = place_of(queries, line.name);
    if (*place)
        return refuse(2);
    if ((refusal = judge_atoms()) || (refusal = judge_variables()) || (refusal = judge_head()))
        return refuse(refusal);
    Query *query = new_query(leaves);
    if (!query)
        return;
    *place = &query->name;
    query_count++;
    for (unsigned i = 0; i < line.atom_count; i++)
        read_by(line.atoms[i].relation, leaves[i]);
    say_number("ok query ", 2 * line.head_count + 1);
}

/* Cursors, watches, and the end. */

static Cursor *cursor_of(Slice name)
{
    for (Cursor *cursor = cursors; cursor < cursors + CURSORS; cursor++)
        if (cursor->query && is_named(&cursor->name, name))
            return cursor;
    return NULL;
}

/* Whether the rest of the line is so many names. */
static bool are_names(const char *at, Slice *names, unsigned count)
{
    for (unsigned i = 0; i < count; i++) {
        at = read_name(skip(at), &names[i]);
        if (!at)
            return false;
    }
    return *skip(at) == '\n';
}

static void run_open(const char *at)
{
    Slice names[2];
    if (!are_names(at, names, 2))
        return refuse(1);
    if (cursor_of(names[0]))
        return refuse(2);
    Query *query = (Query *)*place_of(queries, names[1]);
    if (!query)
        return refuse(4);
    if (cursor_count == CURSORS)
        return refuse(11);
    Cursor *cursor = cursors;
    while (cursor->query)
        cursor++;
    cursor_count++;
    set_name(&cursor->name, names[0]);
    cursor->query = query;
    cursor->changed = NULL;
    cursor->chosen[0] = root_entry(query);
    cursor->is_done = !cursor->chosen[0] || cursor->chosen[0]->missing;
    if (!cursor->is_done)
        choose_from(query, cursor->chosen, 1);
    say("ok open\n");
}

static void say_stale(const Cursor *cursor)
{
    const Name *of = &cursor->changed->name;
    need_out(LINE);
    said += sprintf(said, "stale %.*s %.*s ", cursor->name.length, cursor->name.bytes, of->length, of->bytes);
    say_number("", cursor->by);
}

static void run_next(const char *at)
{
    Slice name;
    uint64_t count;
    const char *digits = (at = read_name(skip(at), &name)) ? skip(at) : NULL, *end = digits;
    while (end && (unsigned)(*end - '0') < 10)
        end++;
    if (!at || digits == at || end == digits || *skip(end) != '\n' || !are_within(digits, end, 1000, &count) || !count)
        return refuse(1);
    Cursor *cursor = cursor_of(name);
    if (!cursor)
        return refuse(5);
    if (cursor->changed)
        return say_stale(cursor);
    const Query *query = cursor->query;
    for (; count && !cursor->is_done; count--) {
        need_out(query->line_room);
        *said = '=';
        said = put_answer(said + 1, query, cursor->chosen);
        cursor->is_done = !choose_next(query, cursor->chosen, 0);
    }
    say(cursor->is_done ? "end\n" : "more\n");
}

static void run_close(const char *at)
{
    Slice name;
    if (!are_names(at, &name, 1))
        return refuse(1);
    Cursor *cursor = cursor_of(name);
    if (!cursor)
        return refuse(5);
    cursor->query = NULL;
    cursor_count--;
    say("ok\n");
}

static void run_watch(const char *at)
{
    Slice name;
    if (!are_names(at, &name, 1))
        return refuse(1);
    Query *query = (Query *)*place_of(queries, name);
    if (!query)
        return refuse(4);
    query->is_watched = true;
    say_number("ok watch ", changes);
}

static void run_quit(const char *at)
{
    if (*skip(at) != '\n')
        return refuse(1);
    say("bye\n");
    write_out();
    exit(0);
}

/* Words that fewer lines begin with. */
static void run_other(const char *at)
{
    static const struct {
        const char *word;
        void (*run)(const char *);
    } COMMANDS[] = {
        {"next", run_next},   {"open", run_open},   {"close", run_close}, {"rel", run_rel},
        {"query", run_query}, {"watch", run_watch}, {"quit", run_quit},
    };
    Slice word;
    const char *behind = read_name(at, &word);
    for (size_t i = 0; behind && i < sizeof COMMANDS / sizeof *COMMANDS; i++)
        if (is_spelled(word, COMMANDS[i].word, strlen(COMMANDS[i].word)))
            return COMMANDS[i].run(behind);
    refuse(1);
}

static inline void run(const char *at)
{
    at = skip(at);
    if (memcmp(at, "add ", 4) == 0)
        run_row(at + 4, true);
    else if (memcmp(at, "del ", 4) == 0)
        run_row(at + 4, false);
    else if (*at != '\n')
        run_other(at);
}

static void end_with(int status, const char *words)
{
    say(words);
    write_out();
    exit(status);
}

static char input[(1 << 16) + 64]; /* readers may look at some bytes behind a line */

/* Reads more behind `length` bytes; the new length. */
static size_t read_more(size_t length)
{
    ssize_t got;
    do
        got = read(0, input + length, (1 << 16) - length);
    while (got < 0 && errno == EINTR);
    if (got < 0)
        give_up(2, "a read failed");
    if (got == 0)
        end_with(0, length ? "err 13 cut\n" : "");
    return length + (size_t)got;
}

int main(int count, char **words)
{
    size_t from = 0, length = 0;
    if (count != 2 || strcmp(words[1], "run"))
        give_up(1, "usage: by_hand run");
    need_out(1 << 16);
    for (;;) {
        char *end = memchr(input + from, '\n', length - from);
        size_t held = end ? (size_t)(end - input) - from : length - from;
        bool has_cr = end && held && end[-1] == '\r';
        if (held - has_cr > LINE + !end)
            end_with(8, "end long\n");
        if (!end) {
            memmove(input, input + from, length - from);
            length = read_more(length - from);
            from = 0;
            continue;
        }
        *(end - has_cr) = '\n';
        run(input + from);
        if (said > out)
            write_out();
        from = (size_t)(end + 1 - input);
    }
}
