/*
 * Measures drumbook against a plain C compiler, reader and board of the same documents, in one run. The C code is there
 * in several builds, by different compilers, named by the file BUILDS in lines BUILD(name, "label"); each row shows the
 * fastest of them.
 */
#define _POSIX_C_SOURCE 199309L
#include <stdio.h>
#include <stdlib.h>
#include <string.h>
#include <time.h>

#include "drumbook.h"

enum { FAIL, EMPTY, TOKEN, EITHER, THEN, TAGGED, REF };

enum {
    DONE = 0,
    MOST_NODES = 512,
    MOST_EVENTS = 65535,
    BOOK_NODES = 18,
    NODE_BYTES = 6,
    MOST_BOOK = BOOK_NODES + NODE_BYTES * MOST_NODES,
    MOST_PLAN = 37406,
    MOST_SLOTS = 32768,
    MOST_ROOM = 1 << 20,
    MOST_SHEET = 1 << 20,
    MOST_NAMED = 4184,
    GARBAGE = 0xA5,
    SAMPLES = 200,
    SAMPLE_NS = 1000000,
    SLOW_NS = 2000000000,
    DRUMS = DRUMBOOK_DRUMS,
    ASKED = 17 /* the drum that is asked */
};

/* A book in the making. */
typedef struct {
    uint8_t bytes[MOST_BOOK];
    size_t count;
} book;

/* A run. */
typedef struct {
    uint8_t events[MOST_EVENTS];
    size_t length;
} run;

typedef drumbook_compiled compiler(const uint8_t *, size_t, uint8_t *, size_t);
typedef drumbook_reading reader(const uint8_t *, size_t, const uint8_t *, size_t,
                               uint32_t *, size_t, uint16_t *, size_t);

typedef drumbook_reading opener(const uint8_t *, size_t, drumbook_drum *, size_t, uint32_t);
typedef drumbook_reading giver(const uint8_t *, size_t, drumbook_drum *, size_t, uint32_t, uint8_t);

/* A compiler, a reader and a board of one build. */
typedef struct {
    const char *label;
    compiler *compiles;
    reader *reads;
    opener *opens, *closes;
    giver *gives;
} build;

/* The builds of the C code: their functions, and all of them. */
#define BUILD(name, label) \
    compiler name##_compile; reader name##_read; opener name##_open, name##_close; giver name##_event;
#include BUILDS
#undef BUILD
#define BUILD(name, label) {label, name##_compile, name##_read, name##_open, name##_close, name##_event},
static const build builds[] = {
    {"drumbook", drumbook_compile, drumbook_read, drumbook_open, drumbook_close, drumbook_event},
#include BUILDS
};

enum { SIDES = sizeof builds / sizeof *builds };

/* A call's input, and what it needs for its answers. */
typedef struct {
    const uint8_t *book, *plan;
    size_t book_len, plan_len;
    const run *events;
    size_t slots, room;
    const uint16_t *records;
    size_t count;
    drumbook_drum before; /* how the drum that is asked stands before a call */
    uint8_t kind;
} call;

/* One build's way to make a call. */
typedef void way(const build *side, const call *c);

/* The best times of a row: the library's, the best of the C builds, and which build that is. */
typedef struct {
    double ours, theirs;
    const char *label;
} times;

static book current;
static run events;
static uint8_t plan[MOST_PLAN], made[MOST_PLAN], wanted[MOST_PLAN];
static char sheet[MOST_SHEET + 32];
static size_t sheet_len;
static uint8_t named[MOST_NAMED], unread[MOST_EVENTS];
static uint32_t held[MOST_SLOTS], wanted_held[MOST_SLOTS];
static uint16_t tree[MOST_ROOM], wanted_tree[MOST_ROOM];

static drumbook_drum drums[DRUMS], wanted_drums[DRUMS];

/* Writes a 16-bit number, low byte first. */
static void put(uint8_t *p, size_t value)
{
    p[0] = (uint8_t)value;
    p[1] = (uint8_t)(value >> 8);
}

/* Adds a node and gives its number. */
static size_t add(size_t form, size_t left, size_t right)
{
    uint8_t *p = current.bytes + BOOK_NODES + NODE_BYTES * current.count;
    put(p, form);
    put(p + 2, left);
    put(p + 4, right);
    return current.count++;
}

/* Sets the left of a node. */
static void set_left(size_t n, size_t left)
{
    put(current.bytes + BOOK_NODES + NODE_BYTES * n + 2, left);
}

/* Writes contents and settings; the length of the book. */
static size_t finish(size_t kinds, size_t start)
{
    size_t words[] = {2, 1, 14, 4, 2, BOOK_NODES, NODE_BYTES * current.count, kinds, start};
    for (size_t i = 0; i < 9; i++)
        put(current.bytes + 2 * i, words[i]);
    return BOOK_NODES + NODE_BYTES * current.count;
}

/* Adds any number of a part: either the part and a ref back, or nothing. */
static size_t add_star(size_t part)
{
    size_t empty = add(EMPTY, 0, 0);
    size_t again = add(REF, 0, 0);
    size_t more = add(THEN, part, again);
    size_t star = add(EITHER, more, empty);
    set_left(again, star);
    return star;
}

/* The rinse book. */
static size_t rinse(void)
{
    current.count = 0;
    for (size_t kind = 0; kind < 3; kind++)
        add(TOKEN, kind, 0);
    add(EMPTY, 0, 0);
    add(REF, 6, 0);
    add(THEN, 1, 4);
    add(EITHER, 5, 3);
    add(THEN, 6, 2);
    return finish(3, add(THEN, 0, 7));
}

/* A process done any number of times: steps in turn, each one event and any number of another; count nodes. */
static size_t process(size_t steps, size_t kinds, size_t count)
{
    size_t whole = 0;
    current.count = 0;
    for (size_t i = steps; i > 0; i--) {
        size_t first = add(TOKEN, (2 * i - 2) % kinds, 0);
        size_t more = add_star(add(TOKEN, (2 * i - 1) % kinds, 0));
        size_t step = add(THEN, first, more);
        whole = i == steps ? step : add(THEN, step, whole);
    }
    whole = add_star(whole);
    while (current.count < count)
        whole = add(TAGGED, whole, current.count);
    return finish(kinds, whole);
}

/* Refs upward, each to the next, up to a token. */
static size_t chain(size_t count)
{
    current.count = 0;
    while (current.count + 1 < count)
        add(REF, current.count + 1, 0);
    add(TOKEN, 0, 0);
    return finish(1, 0);
}

/* Nested pairs of events 0 and 1. */
static size_t nesting(void)
{
    current.count = 0;
    size_t open = add(TOKEN, 0, 0);
    size_t close = add(TOKEN, 1, 0);
    size_t inner = add(REF, 0, 0);
    size_t pair = add(THEN, open, add(THEN, inner, close));
    size_t either = add(EITHER, pair, add(EMPTY, 0, 0));
    set_left(inner, either);
    return finish(2, either);
}

/* Any number of events 0, each found below tagged nodes, 512 nodes in all. */
static size_t winding(void)
{
    current.count = 0;
    size_t part = add(TOKEN, 0, 0);
    while (current.count < MOST_NODES - 4)
        part = add(TAGGED, part, 1);
    return finish(1, add_star(part));
}

/* A run of the rinse book. */
static void rinse_run(size_t length)
{
    memset(events.events, 1, length);
    events.events[0] = 0;
    events.events[length - 1] = 2;
    events.length = length;
}

/* A run of the process of at most so many events: as many times as fit, each step with two of its other events. */
static void process_run(size_t steps, size_t kinds, size_t most)
{
    size_t length = 0;
    while (length + 3 * steps <= most)
        for (size_t i = 0; i < steps; i++) {
            events.events[length++] = (uint8_t)(2 * i % kinds);
            events.events[length++] = (uint8_t)((2 * i + 1) % kinds);
            events.events[length++] = (uint8_t)((2 * i + 1) % kinds);
        }
    events.length = length;
}

/* A run of the nesting book: all opened, then all closed. */
static void nesting_run(size_t pairs)
{
    memset(events.events, 0, pairs);
    memset(events.events + pairs, 1, pairs);
    events.length = 2 * pairs;
}

/* A run of events 0. */
static void even_run(size_t length)
{
    memset(events.events, 0, length);
    events.length = length;
}

/* Compiles. */
static void compiles(const build *side, const call *c)
{
    side->compiles(c->book, c->book_len, made, c->plan_len);
}

/* Reads. */
static void reads(const build *side, const call *c)
{
    side->reads(c->plan, c->plan_len, c->events->events, c->events->length, held, c->slots, tree, c->room);
}

/* Writes the run of a tree. */
static void unreads(const build *side, const call *c)
{
    (void)side;
    drumbook_unread(c->book, c->book_len, c->records, c->count, unread, c->events->length);
}

/* Opens a drum. */
static void opens(const build *side, const call *c)
{
    side->opens(c->plan, c->plan_len, drums, DRUMS, ASKED);
}

/* Gives a drum an event that leaves it as it was but for its counts. */
static void gives(const build *side, const call *c)
{
    drums[ASKED].events = c->before.events;
    drums[ASKED].records = c->before.records;
    side->gives(c->plan, c->plan_len, drums, DRUMS, ASKED, c->kind);
}

/* Closes a drum that was put there just before. */
static void closes(const build *side, const call *c)
{
    drums[ASKED] = c->before;
    side->closes(c->plan, c->plan_len, drums, DRUMS, ASKED);
}

/* The time in nanoseconds. */
static double now(void)
{
    struct timespec t;
    clock_gettime(CLOCK_MONOTONIC, &t);
    return 1e9 * (double)t.tv_sec + (double)t.tv_nsec;
}

/* The time of one of so many calls. */
static double timed(way *make, const build *side, const call *c, size_t count)
{
    double before = now();
    for (size_t i = 0; i < count; i++)
        make(side, c);
    return (now() - before) / (double)count;
}

/* The best times of all builds, sampled in turn. */
static times best_times(way *make, const call *c)
{
    double best[SIDES];
    for (size_t s = 0; s < SIDES; s++)
        best[s] = timed(make, &builds[s], c, 1);
    for (size_t sample = 0; sample < SAMPLES; sample++)
        for (size_t s = 0; s < SIDES; s++) {
            double t = timed(make, &builds[s], c, 1 + (size_t)(SAMPLE_NS / best[s]));
            if (t < best[s])
                best[s] = t;
        }
    size_t fastest = 1;
    for (size_t s = 2; s < SIDES; s++)
        if (best[s] < best[fastest])
            fastest = s;
    return (times){best[0], best[fastest], builds[fastest].label};
}

/* The library's best times of writing a tree's run and of reading that run, in turn; one sample of what is slow. */
static times unread_times(const call *c)
{
    const build *side = &builds[0];
    double begun = now(), ours = timed(unreads, side, c, 1), theirs = timed(reads, side, c, 1);
    for (size_t sample = 0; sample < SAMPLES && now() - begun < SLOW_NS; sample++) {
        double there = timed(unreads, side, c, 1 + (size_t)(SAMPLE_NS / ours));
        double back = timed(reads, side, c, 1 + (size_t)(SAMPLE_NS / theirs));
        ours = there < ours ? there : ours;
        theirs = back < theirs ? back : theirs;
    }
    return (times){ours, theirs, "drumbook, reading it"};
}

/* Ends the program where a build differs from the others. */
static void must(int agreed, const char *name, const build *side)
{
    if (!agreed) {
        fprintf(stderr, "%s: %s differs\n", name, side->label);
        exit(1);
    }
}

/* Prints a row; a count of 0 has no column. */
static void print_row(const char *name, times best, size_t per_event, size_t per_record)
{
    printf("%-41s %9.0f %9.0f %6.2f", name, best.ours, best.theirs, best.ours / best.theirs);
    size_t counts[] = {per_event, per_record};
    for (size_t i = 0; i < 2; i++)
        if (counts[i] == 0)
            printf(" %9s", "-");
        else
            printf(" %9.2f", best.ours / (double)counts[i]);
    printf("  %s\n", best.label);
}

/* Compares and measures compiling the current book. */
static void compile_row(const char *name, size_t length)
{
    memset(wanted, GARBAGE, sizeof wanted);
    drumbook_compiled d = drumbook_compile(current.bytes, length, wanted, MOST_PLAN);
    for (size_t s = 0; s < SIDES; s++) {
        memset(made, GARBAGE, sizeof made);
        drumbook_compiled r = builds[s].compiles(current.bytes, length, made, MOST_PLAN);
        must(r.number == DONE && memcmp(&d, &r, sizeof d) == 0, name, &builds[s]);
        must(memcmp(made, wanted, MOST_PLAN) == 0, name, &builds[s]);
    }
    call c = {.book = current.bytes, .book_len = length, .plan_len = d.size};
    print_row(name, best_times(compiles, &c), 0, 0);
}

/* Compares all builds on a call of the reader; the library's answer, which has this number. */
static drumbook_reading compared(const char *name, const call *c, uint32_t number)
{
    drumbook_reading d = {0};
    for (size_t s = 0; s < SIDES; s++) {
        memset(held, GARBAGE, sizeof held);
        memset(tree, GARBAGE, sizeof tree);
        drumbook_reading r = builds[s].reads(c->plan, c->plan_len, c->events->events, c->events->length,
                                             held, c->slots, tree, c->room);
        if (s == 0) {
            d = r;
            memcpy(wanted_held, held, sizeof held);
            memcpy(wanted_tree, tree, sizeof tree);
        }
        must(r.number == number && r.place == d.place, name, &builds[s]);
        must(r.records == d.records && r.expected == d.expected, name, &builds[s]);
        must(memcmp(tree, wanted_tree, sizeof tree) == 0, name, &builds[s]);
        must(memcmp(held, wanted_held, sizeof held) == 0, name, &builds[s]);
    }
    return d;
}

/* Compares and measures reading the current run by the current book's plan. */
static void read_row(const char *name, size_t length, size_t slots)
{
    size_t size = drumbook_compile(current.bytes, length, plan, MOST_PLAN).size;
    call c = {.plan = plan, .plan_len = size, .events = &events, .slots = slots, .room = MOST_ROOM};
    c.room = compared(name, &c, DONE).records;
    print_row(name, best_times(reads, &c), events.length, c.room);
}

/* Measures writing the run of the current run's tree beside reading it. */
static void unread_row(const char *name, size_t length, size_t slots)
{
    size_t size = drumbook_compile(current.bytes, length, plan, MOST_PLAN).size;
    call c = {.book = current.bytes, .book_len = length, .plan = plan, .plan_len = size, .events = &events,
              .slots = slots, .room = MOST_ROOM, .records = wanted_tree};
    c.count = c.room = compared(name, &c, DONE).records;
    memset(unread, GARBAGE, sizeof unread);
    drumbook_written w = drumbook_unread(c.book, c.book_len, c.records, c.count, unread, events.length);
    must(w.number == DONE && w.size == events.length, name, &builds[0]);
    must(memcmp(unread, events.events, events.length) == 0, name, &builds[0]);
    print_row(name, unread_times(&c), events.length, c.count);
}

/* Compares and measures the test of the current book's plan: a reading with no slot, which ends after it. */
static void test_row(const char *name, size_t length)
{
    size_t size = drumbook_compile(current.bytes, length, plan, MOST_PLAN).size;
    call c = {.plan = plan, .plan_len = size, .events = &events, .slots = 0, .room = 0};
    events.length = 0;
    compared(name, &c, DRUMBOOK_DEEP);
    print_row(name, best_times(reads, &c), 0, 0);
}

/* Makes one of the board's calls on the drum as it stands before it. */
static drumbook_reading asked(const build *side, const call *c, way *make)
{
    memset(drums, 0, sizeof drums);
    drums[ASKED] = c->before;
    if (make == opens)
        return side->opens(c->plan, c->plan_len, drums, DRUMS, ASKED);
    if (make == closes)
        return side->closes(c->plan, c->plan_len, drums, DRUMS, ASKED);
    return side->gives(c->plan, c->plan_len, drums, DRUMS, ASKED, c->kind);
}

/* Compares all builds on a call of the board, which must be done, and measures it. */
static void board_row(const char *name, const call *c, way *make)
{
    drumbook_reading d = {0};
    for (size_t s = 0; s < SIDES; s++) {
        const build *side = &builds[s];
        drumbook_reading r = asked(side, c, make);
        if (s == 0) {
            d = r;
            memcpy(wanted_drums, drums, sizeof drums);
        }
        must(r.number == DONE && r.place == d.place && r.records == d.records, name, side);
        must(r.label == d.label && r.expected == d.expected, name, side);
        must(memcmp(drums, wanted_drums, sizeof drums) == 0, name, side);
    }
    drums[ASKED] = c->before;
    print_row(name, best_times(make, c), 0, 0);
}

/* A drum by the current plan, opened and given the current run. */
static drumbook_drum drum_after(const call *c)
{
    drumbook_drum drum = {0};
    drumbook_open(c->plan, c->plan_len, &drum, 1, 0);
    for (size_t i = 0; i < events.length; i++)
        drumbook_event(c->plan, c->plan_len, &drum, 1, 0, events.events[i]);
    return drum;
}

/*
 * Compares and measures the board's calls on the plan of the current book: opening; an event of kind 1, after 0 and 1,
 * which leaves the held parts as they were; closing after the whole run of one event a step.
 */
static void board_rows_of(const char *const names[3], size_t length, size_t steps, size_t kinds)
{
    size_t size = drumbook_compile(current.bytes, length, plan, MOST_PLAN).size;
    call c = {.plan = plan, .plan_len = size, .kind = 1};
    board_row(names[0], &c, opens);
    events.length = 2;
    events.events[0] = 0;
    events.events[1] = 1;
    c.before = drum_after(&c);
    board_row(names[1], &c, gives);
    for (size_t i = 0; i < steps; i++)
        events.events[i] = (uint8_t)(2 * i % kinds);
    events.length = steps;
    c.before = drum_after(&c);
    board_row(names[2], &c, closes);
}

/* Measures the board's calls. */
static void board_rows(void)
{
    static const char *const small[] = {"open, rinse book", "event, rinse book", "close, rinse book"};
    static const char *const large[] = {"open, 512 nodes, 64 kinds", "event, 512 nodes, 64 kinds",
                                        "close, 512 nodes, 64 kinds"};
    board_rows_of(small, rinse(), 2, 3);
    board_rows_of(large, process(63, 64, 512), 63, 64);
}

/* Measures compiling. */
static void compile_rows(void)
{
    compile_row("compile, rinse book, 9 nodes", rinse());
    compile_row("compile, process, 64 nodes, 14 kinds", process(7, 14, 64));
    compile_row("compile, process, 512 nodes, 64 kinds", process(63, 64, 512));
    compile_row("compile, refs upward, 9 nodes", chain(9));
    compile_row("compile, refs upward, 64 nodes", chain(64));
    compile_row("compile, refs upward, 512 nodes", chain(512));
}

/* Measures the test of a plan. */
static void test_rows(void)
{
    test_row("plan's test alone, rinse book", rinse());
    test_row("plan's test alone, 64 nodes, 14 kinds", process(7, 14, 64));
    test_row("plan's test alone, 512 nodes, 64 kinds", process(63, 64, 512));
}

/* Measures reading. */
static void read_rows(void)
{
    rinse_run(3);
    read_row("read, rinse book, 3 events", rinse(), 2);
    rinse_run(MOST_EVENTS);
    read_row("read, rinse book, 65535 events", rinse(), 2);
    process_run(7, 14, MOST_EVENTS);
    read_row("read, process, 64 nodes, 65520 events", process(7, 14, 64), 16);
    process_run(63, 64, 3 * 63);
    read_row("read, process, 512 nodes, 189 events", process(63, 64, 512), 16);
    process_run(63, 64, MOST_EVENTS);
    read_row("read, process, 512 nodes, 65394 events", process(63, 64, 512), 16);
    nesting_run(32767);
    read_row("read, nesting, 65534 events", nesting(), MOST_SLOTS);
    even_run(2000);
    read_row("read, 511 nodes to each of 2000 events", winding(), 2);
}

/* A word of three letters with a number. */
static const char *word(size_t number)
{
    static char letters[4];
    for (size_t i = 0; i < 3; i++, number /= 26)
        letters[2 - i] = (char)('a' + number % 26);
    return letters;
}

/* A sheet of 512 nodes: 256 words of so many kinds, and a rule of one word. */
static void words_sheet(size_t kinds)
{
    sheet_len = (size_t)sprintf(sheet, "wash =");
    for (size_t n = 0; n < 256; n++)
        sheet_len += (size_t)sprintf(sheet + sheet_len, " %s", word(n % kinds));
    sheet_len += (size_t)sprintf(sheet + sheet_len, " ;\nrinse = %s ;\n", word(0));
}

/* A text of so many bytes: a sheet, blanks, and a last byte that has no place there. */
static void wrong_at_the_end(size_t length)
{
    memset(sheet, ' ', length);
    memcpy(sheet, "wash = fill* tip ;", 18);
    sheet[length - 1] = '*';
    sheet_len = length;
}

/* A sheet of about so many bytes: one rule of words. */
static void long_rule(size_t length)
{
    sheet_len = (size_t)sprintf(sheet, "wash =");
    while (sheet_len < length - 8)
        sheet_len += (size_t)sprintf(sheet + sheet_len, " tip");
    sheet_len += (size_t)sprintf(sheet + sheet_len, " ;");
}

/* A sheet of about so many bytes: short rules, each with a name of its own. */
static void many_rules(size_t length)
{
    sheet_len = 0;
    for (size_t n = 0; sheet_len < length - 8; n++)
        sheet_len += (size_t)sprintf(sheet + sheet_len, "%s=b;", word(n));
}

/* Measures the current sheet; it is answered by this number. */
static void sheet_row(const char *name, uint32_t number)
{
    double best = 1e18;
    for (size_t sample = 0; sample < SAMPLES && (sample < 3 || best < 1e8); sample++) {
        double before = now();
        size_t count = best < SAMPLE_NS ? 1 + (size_t)(SAMPLE_NS / best) : 1;
        for (size_t i = 0; i < count; i++)
            must(drumbook_sheet((uint8_t *)sheet, sheet_len, named, sizeof named).number == number, name, &builds[0]);
        double t = (now() - before) / (double)count;
        if (t < best)
            best = t;
    }
    printf("%-41s %11.0f %9zu %9.2f\n", name, best, sheet_len, best / (double)sheet_len);
}

/* Measures sheets, beside which there is no C code. */
static void sheet_rows(void)
{
    printf("\n%-41s %11s %9s %9s\n", "sheets", "ours, ns", "bytes", "ns/byte");
    words_sheet(1);
    sheet_row("sheet, 512 nodes, 1 kind", DONE);
    words_sheet(64);
    sheet_row("sheet, 512 nodes, 64 kinds", DONE);
    for (size_t length = 1 << 10; length <= MOST_SHEET; length *= 32) {
        wrong_at_the_end(length);
        sheet_row("sheet, refused at its last byte", DRUMBOOK_SHEET);
    }
    for (size_t length = 1 << 15; length <= MOST_SHEET; length *= 32) {
        long_rule(length);
        sheet_row("sheet, one rule, over 512 nodes", DRUMBOOK_BIG);
    }
    for (size_t length = 1 << 12; length <= 1 << 16; length *= 4) {
        many_rules(length);
        sheet_row("sheet, rules of 6 bytes, no name twice", DRUMBOOK_BIG);
    }
}

/* Measures writing the runs of trees: those of the rows above. */
static void unread_rows(void)
{
    rinse_run(3);
    unread_row("unread, rinse book, 3 events", rinse(), 2);
    rinse_run(MOST_EVENTS);
    unread_row("unread, rinse book, 65535 events", rinse(), 2);
    process_run(7, 14, MOST_EVENTS);
    unread_row("unread, process, 64 nodes, 65520 events", process(7, 14, 64), 16);
    process_run(63, 64, 3 * 63);
    unread_row("unread, process, 512 nodes, 189 events", process(63, 64, 512), 16);
    process_run(63, 64, MOST_EVENTS);
    unread_row("unread, process, 512 nodes, 65394 events", process(63, 64, 512), 16);
    nesting_run(32);
    unread_row("unread, nesting, 64 events", nesting(), MOST_SLOTS);
    nesting_run(1000);
    unread_row("unread, nesting, 2000 events", nesting(), MOST_SLOTS);
    nesting_run(32767);
    unread_row("unread, nesting, 65534 events", nesting(), MOST_SLOTS);
    even_run(2000);
    unread_row("unread, 511 nodes to each of 2000 events", winding(), 2);
}

int main(void)
{
    printf("%-41s %9s %9s %6s %9s %9s  %s\n", "best of many, clearing included", "ours, ns", "C, ns", "ratio",
           "ns/event", "ns/record", "C by");
    compile_rows();
    test_rows();
    read_rows();
    sheet_rows();
    unread_rows();
    board_rows();
    return 0;
}
