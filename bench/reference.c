/* A plain C compiler, reader and drum board, to measure against. */
#include "reference.h"

#include <stdbool.h>
#include <string.h>

enum { FAIL, EMPTY, TOKEN, EITHER, THEN, TAGGED, REF };

enum {
    DONE, LENGTH, CONTENTS, SETTINGS, NODE, BARREN, CONFLICT, PLAN_ROOM, PLAN_FORM,
    CELL, LONG, DEEP, UNKNOWN, UNEXPECTED, END, RUNAWAY, NO_ROOM, UNUSED = 22
};

enum { REFUSE, TAKE, GO_LEFT, HOLD_RIGHT, SKIP_LEFT, GO_RIGHT };

enum {
    MOST_NODES = 512,
    MOST_KINDS = 64,
    MOST_EVENTS = 65535,
    NODE_BYTES = 6,
    BOOK_SETTINGS = 14,
    BOOK_NODES = 18,
    PLAN_SETTINGS = 26,
    PLAN_NODES = 30,
    PLAN_WORDS = 13, /* of the contents */
    LONGEST = 65536, /* where lengths are cut */
    EMPTY_RECORD = 32768
};

/* What the rules of figure 5 say of a node. */
typedef struct {
    uint64_t first, snf;
    bool productive, nullable;
} facts;

/* A decoded node. */
typedef struct { uint16_t form, left, right; } node;

/* A book: where its settings and nodes stand, how many nodes and kinds, and its start. */
typedef struct {
    const uint8_t *nodes;
    size_t count, kinds, start;
} book;

/* The 16-bit number at p, low byte first. */
static uint16_t word(const uint8_t *p)
{
    return (uint16_t)(p[0] | p[1] << 8);
}

/* Writes a 16-bit number at p, low byte first. */
static void put_word(uint8_t *p, size_t value)
{
    p[0] = (uint8_t)value;
    p[1] = (uint8_t)(value >> 8);
}

/* The node of this number. */
static node node_at(const book *b, size_t n)
{
    const uint8_t *p = b->nodes + NODE_BYTES * n;
    return (node){word(p), word(p + 2), word(p + 4)};
}

/* Whether these words stand at p. */
static bool words_are(const uint8_t *p, const uint16_t *words, size_t count)
{
    for (size_t i = 0; i < count; i++)
        if (word(p + 2 * i) != words[i])
            return false;
    return true;
}

/* Whether a node's type and fields are by the table. */
static bool proper(const book *b, size_t n)
{
    node x = node_at(b, n);
    switch (x.form) {
    case FAIL:
    case EMPTY:
        return x.left == 0 && x.right == 0;
    case TOKEN:
        return x.left < b->kinds && x.right == 0;
    case EITHER:
    case THEN:
        return x.left < n && x.right < n;
    case TAGGED:
        return x.left < n && x.right != 0;
    case REF:
        return x.left < b->count && x.right == 0;
    default:
        return false;
    }
}

/* The first node against the table, or the number of nodes. */
static size_t improper(const book *b)
{
    size_t n = 0;
    while (n < b->count && proper(b, n))
        n++;
    return n;
}

/* The book whose settings stand at p, with count nodes after them. */
static book book_at(const uint8_t *p, size_t count)
{
    return (book){p + 4, count, word(p), word(p + 2)};
}

/* Whether the number of kinds and the start are in range. */
static bool settings_proper(const book *b)
{
    return b->kinds >= 1 && b->kinds <= MOST_KINDS && b->start < b->count;
}

reference_formed reference_form(const uint8_t *bytes, size_t len)
{
    if (len < BOOK_NODES + NODE_BYTES || len > BOOK_NODES + NODE_BYTES * MOST_NODES
        || (len - BOOK_NODES) % NODE_BYTES != 0)
        return (reference_formed){LENGTH, 0};
    uint16_t contents[] = {2, 1, BOOK_SETTINGS, 4, 2, BOOK_NODES, (uint16_t)(len - BOOK_NODES)};
    if (!words_are(bytes, contents, 7))
        return (reference_formed){CONTENTS, 0};
    book b = book_at(bytes + BOOK_SETTINGS, (len - BOOK_NODES) / NODE_BYTES);
    if (!settings_proper(&b))
        return (reference_formed){SETTINGS, 0};
    size_t n = improper(&b);
    if (n < b.count)
        return (reference_formed){NODE, (uint32_t)n};
    return (reference_formed){DONE, 0};
}

/* What the rules give for a node, from what is known of its sides. */
static facts by_rules(node x, const facts *known)
{
    facts none = {0, 0, false, false};
    switch (x.form) {
    case EMPTY:
        return (facts){0, 0, true, true};
    case TOKEN:
        return (facts){(uint64_t)1 << x.left, 0, true, false};
    case TAGGED:
    case REF:
        return known[x.left];
    case EITHER: {
        facts l = known[x.left], r = known[x.right];
        return (facts){
            l.first | r.first,
            l.snf | r.snf | (r.nullable ? l.first : 0) | (l.nullable ? r.first : 0),
            l.productive || r.productive,
            l.nullable || r.nullable};
    }
    case THEN: {
        facts l = known[x.left], r = known[x.right];
        return (facts){
            (r.productive ? l.first : 0) | (l.nullable ? r.first : 0),
            (r.nullable ? l.snf : 0) | (l.productive ? r.snf : 0),
            l.productive && r.productive,
            l.nullable && r.nullable};
    }
    default:
        return none;
    }
}

/* Whether two nodes' facts are the same. */
static bool same(facts a, facts b)
{
    return a.first == b.first && a.snf == b.snf && a.productive == b.productive
        && a.nullable == b.nullable;
}

/* Finds the least facts of all nodes. */
static void find_facts(const book *b, facts *known)
{
    memset(known, 0, b->count * sizeof *known);
    bool changed = true;
    while (changed) {
        changed = false;
        for (size_t n = 0; n < b->count; n++) {
            facts next = by_rules(node_at(b, n), known);
            if (!same(next, known[n])) {
                known[n] = next;
                changed = true;
            }
        }
    }
}

/* Marks a node as reachable and notes it as due, once. */
static void reach(size_t n, bool *reachable, uint16_t *due, size_t *count)
{
    if (!reachable[n]) {
        reachable[n] = true;
        due[(*count)++] = (uint16_t)n;
    }
}

/* Marks the reachable nodes. */
static void find_reachable(const book *b, bool *reachable)
{
    uint16_t due[MOST_NODES];
    size_t count = 0;
    memset(reachable, 0, b->count);
    reach(b->start, reachable, due, &count);
    while (count > 0) {
        node x = node_at(b, due[--count]);
        if (x.form >= EITHER)
            reach(x.left, reachable, due, &count);
        if (x.form == EITHER || x.form == THEN)
            reach(x.right, reachable, due, &count);
    }
}

/* Whether a node has a conflict; what clashes there. */
static bool conflict(node x, const facts *known, bool *both, uint64_t *clash)
{
    if (x.form != EITHER && x.form != THEN)
        return false;
    facts l = known[x.left], r = known[x.right];
    *both = x.form == EITHER && l.nullable && r.nullable;
    *clash = (x.form == EITHER ? l.first : l.snf) & r.first;
    return *both || *clash != 0;
}

/* The cell of a node for a kind in its FIRST set. */
static uint8_t cell(node x, size_t kind, const facts *known)
{
    switch (x.form) {
    case TOKEN:
        return TAKE;
    case EITHER:
        return known[x.left].first >> kind & 1 ? GO_LEFT : GO_RIGHT;
    case THEN:
        return known[x.left].nullable && !(known[x.left].first >> kind & 1) ? SKIP_LEFT
                                                                            : HOLD_RIGHT;
    default:
        return GO_LEFT;
    }
}

/* Writes the rows of all nodes into zeros. */
static void write_rows(const book *b, const facts *known, uint8_t *row)
{
    for (size_t n = 0; n < b->count; n++, row += b->kinds + 1) {
        node x = node_at(b, n);
        for (size_t kind = 0; kind < b->kinds; kind++)
            if (known[n].first >> kind & 1)
                row[kind] = cell(x, kind, known);
        row[b->kinds] = known[n].nullable;
    }
}

/* The size of a book's plan. */
static size_t plan_size(const book *b)
{
    return PLAN_NODES + NODE_BYTES * b->count + b->count * (b->kinds + 1) + 2 * b->count;
}

/* The contents that a plan must have. */
static void plan_contents(const book *b, uint16_t *words)
{
    size_t nodes = NODE_BYTES * b->count;
    size_t rows = b->count * (b->kinds + 1);
    uint16_t contents[PLAN_WORDS] = {4, 1, PLAN_SETTINGS, 4, 2, PLAN_NODES, (uint16_t)nodes,
                                     3, (uint16_t)(PLAN_NODES + nodes), (uint16_t)rows,
                                     4, (uint16_t)(PLAN_NODES + nodes + rows),
                                     (uint16_t)(2 * b->count)};
    memcpy(words, contents, sizeof contents);
}

/* The smaller of two lengths. */
static uint32_t smaller(uint32_t one, uint32_t other)
{
    return one < other ? one : other;
}

/* The length of a node by those of its sides. */
static uint32_t length_of(node x, const uint32_t *lengths)
{
    switch (x.form) {
    case EMPTY:
        return 0;
    case TOKEN:
        return 1;
    case TAGGED:
    case REF:
        return lengths[x.left];
    case EITHER:
        return smaller(lengths[x.left], lengths[x.right]);
    case THEN:
        return smaller(lengths[x.left] + lengths[x.right], LONGEST);
    default:
        return LONGEST;
    }
}

/* Lowers the lengths of all nodes, downward or upward; whether any fell. */
static bool lower_all(const book *b, bool downward, uint32_t *lengths)
{
    bool changed = false;
    for (size_t i = 0; i < b->count; i++) {
        size_t n = downward ? b->count - 1 - i : i;
        uint32_t next = length_of(node_at(b, n), lengths);
        if (next < lengths[n]) {
            lengths[n] = next;
            changed = true;
        }
    }
    return changed;
}

/* Writes what is due for all nodes: the least lengths. */
static void write_dues(const book *b, uint8_t *due)
{
    uint32_t lengths[MOST_NODES];
    for (size_t n = 0; n < b->count; n++)
        lengths[n] = LONGEST;
    for (bool downward = false; lower_all(b, downward, lengths); downward = !downward)
        ;
    for (size_t n = 0; n < b->count; n++)
        put_word(due + 2 * n, (uint16_t)smaller(lengths[n], 65535));
}

/* Writes a book's plan into zeros. */
static void write_plan(const book *b, const facts *known, uint8_t *plan)
{
    uint16_t contents[PLAN_WORDS];
    plan_contents(b, contents);
    for (size_t i = 0; i < PLAN_WORDS; i++)
        put_word(plan + 2 * i, contents[i]);
    memcpy(plan + PLAN_SETTINGS, b->nodes - 4, 4 + NODE_BYTES * b->count);
    write_rows(b, known, plan + PLAN_NODES + NODE_BYTES * b->count);
    write_dues(b, plan + plan_size(b) - 2 * b->count);
}

reference_compiled reference_compile(const uint8_t *bytes, size_t len, uint8_t *plan,
                                     size_t plan_len)
{
    facts known[MOST_NODES];
    bool reachable[MOST_NODES];
    memset(plan, 0, plan_len);
    reference_formed formed = reference_form(bytes, len);
    if (formed.number != DONE)
        return (reference_compiled){formed.number, formed.place, 0, 0, 0};
    book b = book_at(bytes + BOOK_SETTINGS, (len - BOOK_NODES) / NODE_BYTES);
    find_reachable(&b, reachable);
    for (size_t n = 0; n < b.count; n++)
        if (!reachable[n])
            return (reference_compiled){UNUSED, (uint32_t)n, 0, 0, 0};
    find_facts(&b, known);
    if (!known[b.start].productive)
        return (reference_compiled){BARREN, (uint32_t)b.start, 0, 0, 0};
    for (size_t n = 0; n < b.count; n++) {
        bool both;
        uint64_t clash;
        if (conflict(node_at(&b, n), known, &both, &clash))
            return (reference_compiled){CONFLICT, (uint32_t)n, 0, both, clash};
    }
    size_t size = plan_size(&b);
    if (plan_len < size)
        return (reference_compiled){PLAN_ROOM, 0, (uint32_t)size, 0, 0};
    write_plan(&b, known, plan);
    return (reference_compiled){DONE, 0, (uint32_t)size, 0, 0};
}

/* Whether a plan's length, contents, settings and nodes are right; fills in its book. */
static bool plan_form(const uint8_t *plan, size_t len, book *b)
{
    uint16_t contents[PLAN_WORDS];
    if (len < PLAN_NODES)
        return false;
    size_t kinds = word(plan + PLAN_SETTINGS);
    if (kinds < 1 || kinds > MOST_KINDS || (len - PLAN_NODES) % (NODE_BYTES + kinds + 3) != 0)
        return false;
    size_t count = (len - PLAN_NODES) / (NODE_BYTES + kinds + 3);
    if (count > MOST_NODES)
        return false;
    *b = book_at(plan + PLAN_SETTINGS, count);
    plan_contents(b, contents);
    return settings_proper(b) && words_are(plan, contents, PLAN_WORDS) && improper(b) == b->count;
}

/* Whether a cell is 0 or one of two. */
static bool cell_proper(uint8_t cell, uint8_t one, uint8_t other)
{
    return cell == 0 || cell == one || cell == other;
}

/* Whether the kind cells of a row are all 0 or one of two: judged whole, so that a compiler can take many at a time. */
static bool row_proper(const uint8_t *cells, size_t kinds, uint8_t one, uint8_t other)
{
    uint8_t bad = 0;
    for (size_t kind = 0; kind < kinds; kind++)
        bad |= (uint8_t)((cells[kind] != 0) & (cells[kind] != one) & (cells[kind] != other));
    return bad == 0;
}

/* The first cell against its node's type, or the number of cells. */
static size_t improper_cell(const book *b, const uint8_t *cells)
{
    static const uint8_t ones[] = {0, 0, TAKE, GO_LEFT, HOLD_RIGHT, GO_LEFT, GO_LEFT};
    static const uint8_t others[] = {0, 0, TAKE, GO_RIGHT, SKIP_LEFT, GO_LEFT, GO_LEFT};
    size_t width = b->kinds + 1;
    for (size_t n = 0; n < b->count; n++) {
        const uint8_t *own = cells + n * width;
        uint16_t form = node_at(b, n).form;
        if (!row_proper(own, b->kinds, ones[form], others[form]))
            for (size_t kind = 0; kind < b->kinds; kind++)
                if (!cell_proper(own[kind], ones[form], others[form]))
                    return n * width + kind;
        if (own[b->kinds] > 1)
            return n * width + b->kinds;
    }
    return b->count * width;
}

/* A reading under way; in a walk the slots of parts taken off are written over. */
typedef struct {
    book b;
    const uint8_t *cells;
    uint32_t *held;
    uint16_t *tree;
    size_t held_len, tree_len, held_count, records;
    bool walked;
} reader;

/* A node's row. */
static const uint8_t *row(const reader *r, size_t n)
{
    return r->cells + n * (r->b.kinds + 1);
}

/* Writes a record, where there is room. */
static void record(reader *r, size_t value)
{
    if (r->records < r->tree_len)
        r->tree[r->records] = (uint16_t)value;
    r->records++;
}

/* Walks down from a held part until the event is taken or refused; a part is held with the label of the tagged node
   passed last, at first that of the part. */
static uint32_t walk(reader *r, uint32_t part, size_t kind)
{
    size_t n = part & 0xFFFF;
    uint32_t label = part & 0xFFFF0000;
    for (size_t visits = 0; visits < r->b.count; visits++) {
        const uint8_t *p = r->b.nodes + NODE_BYTES * n;
        record(r, n);
        switch (row(r, n)[kind]) {
        case REFUSE:
            return UNEXPECTED;
        case TAKE:
            return DONE;
        case HOLD_RIGHT:
            if (r->held_count == r->held_len)
                return DEEP;
            r->held[r->held_count++] = label | word(p + 4);
            n = word(p + 2);
            break;
        case SKIP_LEFT:
            record(r, word(p + 2) + (size_t)EMPTY_RECORD);
            n = word(p + 4);
            break;
        case GO_RIGHT:
            n = word(p + 4);
            break;
        default:
            if (word(p) == TAGGED)
                label = (uint32_t)word(p + 4) << 16;
            n = word(p + 2);
        }
    }
    return RUNAWAY;
}

/* Takes parts off until one begins with the event, and walks from it. */
static uint32_t event(reader *r, size_t kind)
{
    while (r->held_count > 0) {
        uint32_t part = r->held[--r->held_count];
        size_t n = part & 0xFFFF;
        if (row(r, n)[kind] != REFUSE) {
            r->walked = true;
            return walk(r, part, kind);
        }
        if (row(r, n)[r->b.kinds] == 0)
            return UNEXPECTED;
        record(r, n + EMPTY_RECORD);
    }
    return UNEXPECTED;
}

/* Takes all held parts off at the end. */
static uint32_t finish(reader *r)
{
    while (r->held_count > 0) {
        size_t n = r->held[--r->held_count] & 0xFFFF;
        if (row(r, n)[r->b.kinds] == 0)
            return END;
        record(r, n + EMPTY_RECORD);
    }
    return DONE;
}

/* The kinds that may come next: FIRST, by its row, of the part held last, and while parts are nullable, of the next. */
static uint64_t expected(const reader *r, size_t count)
{
    uint64_t set = 0;
    while (count > 0) {
        const uint8_t *cells = row(r, r->held[--count] & 0xFFFF);
        for (size_t kind = 0; kind < r->b.kinds; kind++)
            if (cells[kind] != 0)
                set |= (uint64_t)1 << kind;
        if (cells[r->b.kinds] == 0)
            break;
    }
    return set;
}

/* A refusal that tells the stage and what was expected, by so many parts held. */
static reference_reading told(const reader *r, uint32_t number, size_t place, size_t count)
{
    uint32_t label = count > 0 ? r->held[count - 1] >> 16 : 0;
    return (reference_reading){number, (uint32_t)place, 0, label, expected(r, count)};
}

/* Runs the plan over the events, up to one that is refused: its number, with its place and the parts held before it. */
static uint32_t pass_events(reader *r, const uint8_t *run, size_t run_len, size_t *place, size_t *count)
{
    r->held[0] = (uint32_t)r->b.start;
    r->held_count = 1;
    for (size_t i = 0; i < run_len; i++) {
        *place = i;
        *count = r->held_count;
        r->walked = false;
        uint32_t number = run[i] >= r->b.kinds ? UNKNOWN : event(r, run[i]);
        if (number != DONE)
            return number;
    }
    *place = run_len;
    *count = r->held_count;
    return DONE;
}

/* A refusal of an event; what was expected is told by the parts held before it, for which the events are read again. */
static reference_reading refuse(reader *r, uint32_t number, const uint8_t *run, size_t place, size_t count)
{
    if (number != UNKNOWN && number != UNEXPECTED)
        return (reference_reading){number, (uint32_t)place, 0, 0, 0};
    if (r->walked) {
        r->tree_len = 0;
        pass_events(r, run, place, &place, &count);
    }
    return told(r, number, place, count);
}

/* Runs the plan over the events and their end. */
static reference_reading run_plan(reader *r, const uint8_t *run, size_t run_len)
{
    size_t place, count;
    uint32_t number = pass_events(r, run, run_len, &place, &count);
    if (number != DONE)
        return refuse(r, number, run, place, count);
    if (finish(r) != DONE)
        return told(r, END, run_len, count);
    if (r->records > r->tree_len)
        return (reference_reading){NO_ROOM, 0, (uint32_t)r->records, 0, 0};
    return (reference_reading){DONE, (uint32_t)run_len, (uint32_t)r->records, 0, 0};
}

/* Tests the plan and the run's length, then runs the plan. */
static reference_reading checked_run(reader *r, const uint8_t *plan, size_t plan_len,
                                     const uint8_t *run, size_t run_len)
{
    if (!plan_form(plan, plan_len, &r->b))
        return (reference_reading){PLAN_FORM, 0, 0, 0, 0};
    r->cells = plan + PLAN_NODES + NODE_BYTES * r->b.count;
    size_t bad = improper_cell(&r->b, r->cells);
    if (bad < r->b.count * (r->b.kinds + 1))
        return (reference_reading){CELL, (uint32_t)bad, 0, 0, 0};
    if (run_len > MOST_EVENTS)
        return (reference_reading){LONG, 0, 0, 0, 0};
    if (r->held_len == 0)
        return (reference_reading){DEEP, 0, 0, 0, 0};
    return run_plan(r, run, run_len);
}

reference_reading reference_read(const uint8_t *plan, size_t plan_len, const uint8_t *run,
                                 size_t run_len, uint32_t *held, size_t held_len,
                                 uint16_t *tree, size_t tree_len)
{
    reader r = {.held = held, .tree = tree, .held_len = held_len, .tree_len = tree_len};
    memset(tree, 0, tree_len * sizeof *tree);
    reference_reading reading = checked_run(&r, plan, plan_len, run, run_len);
    memset(held, 0, held_len * sizeof *held);
    if (reading.number != DONE)
        memset(tree, 0, tree_len * sizeof *tree);
    return reading;
}

enum { NO_DRUM = 17, IDLE = 18, STALE = 33 };

enum { DUE_SETTINGS = 26, DUE_NODES = 30, DRUMS = 32, SLOTS = 64, MOST_RECORDS = 67042305, MOST_DUE = 65535 };

/* A plan with the events due, as the board takes it. */
typedef struct {
    book b;
    const uint8_t *cells, *due;
} board_plan;

/* An answer of the board that tells no stage and no kinds. */
static reference_reading answer(uint32_t number, uint32_t place, uint32_t records)
{
    return (reference_reading){.number = number, .place = place, .records = records};
}

/* Whether a plan's length, contents, settings and nodes are right; fills in the plan. */
static bool board_form(const uint8_t *plan, size_t len, board_plan *p)
{
    if (len < DUE_NODES)
        return false;
    size_t kinds = word(plan + DUE_SETTINGS);
    if (kinds < 1 || kinds > MOST_KINDS || (len - DUE_NODES) % (NODE_BYTES + kinds + 3) != 0)
        return false;
    size_t count = (len - DUE_NODES) / (NODE_BYTES + kinds + 3);
    if (count > MOST_NODES)
        return false;
    size_t cells = DUE_NODES + NODE_BYTES * count, due = cells + count * (kinds + 1);
    uint16_t contents[] = {4, 1, DUE_SETTINGS, 4, 2, DUE_NODES, (uint16_t)(NODE_BYTES * count),
                           3, (uint16_t)cells, (uint16_t)(due - cells), 4, (uint16_t)due, (uint16_t)(2 * count)};
    *p = (board_plan){book_at(plan + DUE_SETTINGS, count), plan + cells, plan + due};
    return settings_proper(&p->b) && words_are(plan, contents, 13) && improper(&p->b) == count;
}

/* Tests the plan and the drum's number. */
static reference_reading board_test(const uint8_t *plan, size_t len, size_t drums_len, uint32_t drum, board_plan *p)
{
    if (!board_form(plan, len, p))
        return answer(PLAN_FORM, 0, 0);
    size_t bad = improper_cell(&p->b, p->cells);
    if (bad < p->b.count * (p->b.kinds + 1))
        return answer(CELL, (uint32_t)bad, 0);
    return answer(drum < DRUMS && drum < drums_len ? DONE : NO_DRUM, 0, 0);
}

/* Whether a drum is all zeros. */
static bool drum_idle(const drumbook_drum *d)
{
    static const drumbook_drum zeros;
    return memcmp(d, &zeros, sizeof zeros) == 0;
}

/* Whether a drum claims what none has. */
static bool drum_stale(const drumbook_drum *d, size_t nodes)
{
    if (d->held > SLOTS || d->events > MOST_EVENTS || d->records > MOST_RECORDS)
        return true;
    for (size_t i = 0; i < d->held; i++)
        if ((d->slots[i] & 0xFFFF) >= nodes)
            return true;
    return false;
}

/* Tests the plan, and that the drum is there, open and not stale. */
static reference_reading drum_test(const uint8_t *plan, size_t len, const drumbook_drum *drums, size_t drums_len,
                                   uint32_t drum, board_plan *p)
{
    reference_reading tested = board_test(plan, len, drums_len, drum, p);
    if (tested.number != DONE)
        return tested;
    if (drum_idle(&drums[drum]))
        return answer(IDLE, 0, 0);
    return answer(drum_stale(&drums[drum], p->b.count) ? STALE : DONE, 0, 0);
}

/* The row of a slot's node. */
static const uint8_t *slot_row(const board_plan *p, uint32_t slot)
{
    return p->cells + (slot & 0xFFFF) * (p->b.kinds + 1);
}

/* Zeroes the slots after the held ones, and sums the events due. */
static void settle(const board_plan *p, drumbook_drum *d)
{
    size_t sum = 0;
    memset(d->slots + d->held, 0, (SLOTS - d->held) * sizeof *d->slots);
    for (size_t i = 0; i < d->held; i++)
        sum += word(p->due + 2 * (d->slots[i] & 0xFFFF));
    d->due = (uint32_t)(sum < MOST_DUE ? sum : MOST_DUE);
}

/* A refusal of an event or of the end, by the parts held before it. */
static reference_reading drum_refusal(const board_plan *p, const drumbook_drum *d, uint32_t number)
{
    reference_reading told = answer(number, d->events, 0);
    if (number != UNKNOWN && number != UNEXPECTED && number != END)
        return told;
    told.label = d->held > 0 ? d->slots[d->held - 1] >> 16 : 0;
    for (size_t i = d->held; i > 0; i--) {
        const uint8_t *cells = slot_row(p, d->slots[i - 1]);
        for (size_t kind = 0; kind < p->b.kinds; kind++)
            if (cells[kind] != 0)
                told.expected |= (uint64_t)1 << kind;
        if (cells[p->b.kinds] == 0)
            break;
    }
    return told;
}

/* Walks down from a part that was taken off until the event is taken or refused. */
static uint32_t drum_walk(const board_plan *p, drumbook_drum *d, uint32_t part, size_t kind)
{
    size_t n = part & 0xFFFF;
    uint32_t label = part & 0xFFFF0000;
    for (size_t visits = 0; visits < p->b.count; visits++) {
        const uint8_t *at = p->b.nodes + NODE_BYTES * n;
        d->records++;
        switch (p->cells[n * (p->b.kinds + 1) + kind]) {
        case REFUSE:
            return UNEXPECTED;
        case TAKE:
            return DONE;
        case HOLD_RIGHT:
            if (d->held == SLOTS)
                return DEEP;
            d->slots[d->held++] = label | word(at + 4);
            n = word(at + 2);
            break;
        case SKIP_LEFT:
            d->records++;
            n = word(at + 4);
            break;
        case GO_RIGHT:
            n = word(at + 4);
            break;
        default:
            if (word(at) == TAGGED)
                label = (uint32_t)word(at + 4) << 16;
            n = word(at + 2);
        }
    }
    return RUNAWAY;
}

/* Takes parts off a drum until one begins with the event, and walks from it. */
static uint32_t drum_event(const board_plan *p, drumbook_drum *d, size_t kind)
{
    while (d->held > 0) {
        uint32_t part = d->slots[--d->held];
        const uint8_t *cells = slot_row(p, part);
        if (cells[kind] != REFUSE)
            return drum_walk(p, d, part, kind);
        if (cells[p->b.kinds] == 0)
            return UNEXPECTED;
        d->records++;
    }
    return UNEXPECTED;
}

reference_reading reference_open(const uint8_t *plan, size_t plan_len, drumbook_drum *drums, size_t drums_len,
                                 uint32_t drum)
{
    board_plan p;
    reference_reading tested = board_test(plan, plan_len, drums_len, drum, &p);
    if (tested.number != DONE)
        return tested;
    drumbook_drum *d = &drums[drum];
    d->held = 1;
    d->slots[0] = (uint32_t)p.b.start;
    d->events = d->records = 0;
    settle(&p, d);
    return answer(DONE, 0, 0);
}

reference_reading reference_event(const uint8_t *plan, size_t plan_len, drumbook_drum *drums, size_t drums_len,
                                  uint32_t drum, uint8_t kind)
{
    board_plan p;
    reference_reading tested = drum_test(plan, plan_len, drums, drums_len, drum, &p);
    if (tested.number != DONE)
        return tested;
    drumbook_drum before = drums[drum], *d = &drums[drum];
    uint32_t number = LONG;
    if (d->events < MOST_EVENTS)
        number = kind >= p.b.kinds ? UNKNOWN : drum_event(&p, d, kind);
    if (number == DONE) {
        d->events++;
        settle(&p, d);
        return answer(DONE, d->events, d->records);
    }
    memset(d, 0, sizeof *d);
    return number == LONG ? answer(LONG, 0, 0) : drum_refusal(&p, &before, number);
}

reference_reading reference_close(const uint8_t *plan, size_t plan_len, drumbook_drum *drums, size_t drums_len,
                                  uint32_t drum)
{
    board_plan p;
    reference_reading closed = drum_test(plan, plan_len, drums, drums_len, drum, &p);
    if (closed.number != DONE)
        return closed;
    drumbook_drum *d = &drums[drum];
    closed = answer(DONE, d->events, d->records + d->held);
    for (size_t i = 0; i < d->held; i++)
        if (slot_row(&p, d->slots[i])[p.b.kinds] == 0) {
            closed = drum_refusal(&p, d, END);
            break;
        }
    memset(d, 0, sizeof *d);
    return closed;
}
