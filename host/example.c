/*
 * Asks how long the plan of the rinse book with names is and compiles it; asks how many slots its runs need, and lends
 * as many; reads a lawful run, prints its tree and writes its run back; says why others are refused, and which runs are
 * accepted at all; and in which stage runs of a book with stages stop. Kinds are told by their names.
 */
#include <stdio.h>

#include "drumbook.h"
#include "rinse.h"
#include "stages.h"
#include "words.h"

enum { SLOTS = 16, ROOM = 64 };

/* How many of the controller's slots are lent: as many as the book's runs need. */
static uint32_t slots;

/* Prints a kind: its name in the book, or its number where it has none. */
static void print_kind(unsigned kind)
{
    drumbook_part part = drumbook_name(named_rinse, sizeof named_rinse, NULL, 0, kind);
    if (part.size == 0)
        printf(" %u", kind);
    else
        printf(" %.*s", (int)part.size, (const char *)named_rinse + part.offset);
}

/* Prints the events of a run. */
static void print_run(const uint8_t *run, size_t length)
{
    printf("run");
    for (size_t i = 0; i < length; i++)
        print_kind(run[i]);
}

/* Prints a tree, a record a line. */
static void print_tree(const uint16_t *tree, uint32_t records)
{
    for (uint32_t i = 0; i < records; i++)
        printf("  node %u%s\n", (unsigned)(tree[i] % DRUMBOOK_EMPTY_RECORD),
               tree[i] >= DRUMBOOK_EMPTY_RECORD ? ", empty" : "");
}

/* Writes the run of a tree back, and prints it. */
static void write_back(const uint16_t *tree, size_t records)
{
    uint8_t run[ROOM];
    drumbook_written written = drumbook_unread(named_rinse, sizeof named_rinse, tree, records, run, ROOM);
    printf("  written back, %s: ", words(written.number));
    print_run(run, written.size);
    printf("\n");
}

/* Prints the kinds of a set in words. */
static void print_kinds(uint64_t set)
{
    const char *between = "";
    for (unsigned kind = 0; kind < 64; kind++)
        if (set >> kind & 1) {
            printf("%s", between);
            print_kind(kind);
            between = " or";
        }
}

/* Prints a refusal: in words, where, and what the answer tells besides. */
static void print_refusal(const drumbook_reading *reading)
{
    printf(": refused; %s", words(reading->number));
    switch (reading->number) {
    case DRUMBOOK_DEEP:
    case DRUMBOOK_UNKNOWN:
    case DRUMBOOK_UNEXPECTED:
    case DRUMBOOK_RUNAWAY:
        printf(", at event %u", (unsigned)reading->place);
        break;
    case DRUMBOOK_NO_ROOM:
        printf(", of %u records", (unsigned)reading->records);
        break;
    default:
        break;
    }
    if (reading->label != 0)
        printf(", while %s", stage(reading->label));
    if (reading->expected != 0) {
        printf("; expected:");
        print_kinds(reading->expected);
    }
    printf("\n");
}

/* Reads a run and prints its tree, or the refusal. */
static uint32_t show(const uint8_t *plan, size_t size, const uint8_t *run, size_t length)
{
    uint32_t held[SLOTS];
    uint16_t tree[ROOM];
    drumbook_reading reading = drumbook_read(plan, size, run, length, held, slots, tree, ROOM);
    print_run(run, length);
    if (reading.number == DRUMBOOK_DONE) {
        printf(": accepted, %u records\n", (unsigned)reading.records);
        print_tree(tree, reading.records);
        write_back(tree, reading.records);
    } else {
        print_refusal(&reading);
    }
    return reading.number;
}

/* How long a book's plan is, asked with no buffer: a book that passes answers PLAN ROOM with the size, others say 0. */
static uint32_t plan_size(const uint8_t *book, size_t length)
{
    return drumbook_compile(book, length, NULL, 0).size;
}

/* How many records an accepted run has, asked with no tree: NO ROOM says accepted; 0 where the run is refused. */
static uint32_t records(const uint8_t *plan, size_t size, const uint8_t *run, size_t length)
{
    uint32_t held[SLOTS];
    drumbook_reading reading = drumbook_read(plan, size, run, length, held, slots, NULL, 0);
    return reading.number == DRUMBOOK_NO_ROOM ? reading.records : 0;
}

/* Says whether a run is accepted, without a tree. */
static void judge(const uint8_t *plan, size_t size, const uint8_t *run, size_t length)
{
    uint32_t count = records(plan, size, run, length);
    print_run(run, length);
    if (count != 0)
        printf(": accepted, a tree would have %u records\n", (unsigned)count);
    else
        printf(": refused\n");
}

int main(void)
{
    static const uint8_t lawful[] = {0, 1, 2}, unlawful[] = {0, 0}, cut_off[] = {0, 1}, strange[] = {0, 3};
    static uint8_t plan[DRUMBOOK_LARGEST_PLAN];
    printf("the rinse book's plan takes %u bytes\n", (unsigned)plan_size(named_rinse, sizeof named_rinse));
    drumbook_compiled compiled = drumbook_compile(named_rinse, sizeof named_rinse, plan, sizeof plan);
    printf("the rinse book: %s, a plan of %u bytes\n", words(compiled.number),
           (unsigned)compiled.size);
    if (compiled.number != DRUMBOOK_DONE)
        return 1;
    drumbook_depth depth = drumbook_profile(named_rinse, sizeof named_rinse, SLOTS);
    printf("a controller of %d slots: %s, %u needed\n", SLOTS, words(depth.number), (unsigned)depth.held);
    if (depth.number != DRUMBOOK_DONE)
        return 1;
    slots = depth.held;
    uint32_t accepted = show(plan, compiled.size, lawful, sizeof lawful);
    uint32_t refused = show(plan, compiled.size, unlawful, sizeof unlawful);
    uint32_t ended = show(plan, compiled.size, cut_off, sizeof cut_off);
    uint32_t unknown = show(plan, compiled.size, strange, sizeof strange);
    judge(plan, compiled.size, lawful, sizeof lawful);
    judge(plan, compiled.size, unlawful, sizeof unlawful);
    compiled = drumbook_compile(wash, sizeof wash, plan, sizeof plan);
    printf("the book with stages: %s\n", words(compiled.number));
    if (compiled.number != DRUMBOOK_DONE)
        return 1;
    static const uint8_t no_tip[] = {0, 1, 1, 0};
    uint32_t rinsing = show(plan, compiled.size, cut_off, sizeof cut_off);
    uint32_t washing = show(plan, compiled.size, no_tip, sizeof no_tip);
    int as_due = accepted == DRUMBOOK_DONE && refused == DRUMBOOK_UNEXPECTED && ended == DRUMBOOK_END
        && unknown == DRUMBOOK_UNKNOWN && rinsing == DRUMBOOK_END && washing == DRUMBOOK_UNEXPECTED;
    return as_due ? 0 : 1;
}
