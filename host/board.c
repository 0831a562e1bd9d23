/*
 * A board of 32 drums, each event judged as it arrives: opens them all, gives each its next event in turn, and says how
 * many events are still due; tells of an event that is refused what was expected and in which stage, and closes them.
 */
#include <stdio.h>

#include "drumbook.h"
#include "words.h"

enum { FILL, RINSE, SPIN, TIP, NO_EVENT };

enum { HASTY = 5, STOPPED = 9, ROUNDS = 6 };

/* Fill, then the wash, any number of rinses and a spin, then tip; the wash is a stage. */
static const uint8_t book[] = {
    3, 0,  1, 0, 20, 0, 4, 0,  2, 0, 24, 0, 72, 0,  3, 0, 96, 0, 20, 0,              /* contents */
    4, 0, 11, 0,                                                                     /* 4 kinds, start 11 */
    2, 0, 0, 0, 0, 0,  2, 0, 1, 0, 0, 0,  2, 0, 2, 0, 0, 0,  2, 0, 3, 0, 0, 0,       /* 0 to 3 tokens */
    1, 0, 0, 0, 0, 0,  6, 0, 7, 0, 0, 0,                                             /* 4 empty, 5 ref 7 */
    4, 0, 1, 0, 5, 0,  3, 0, 6, 0, 4, 0,                                             /* 6 then 1 5, 7 either 6 4 */
    4, 0, 7, 0, 2, 0,  5, 0, 8, 0, 1, 0,                                             /* 8 then 7 2, 9 tagged 8 1 */
    4, 0, 9, 0, 3, 0,  4, 0, 0, 0, 10, 0,                                            /* 10 then 9 3, 11 then 0 10 */
    4, 'f', 'i', 'l', 'l',  5, 'r', 'i', 'n', 's', 'e',  4, 's', 'p', 'i', 'n',  3, 't', 'i', 'p', /* names */
};

static uint8_t plan[DRUMBOOK_LARGEST_PLAN];
static size_t plan_len;
static drumbook_drum drums[DRUMBOOK_DRUMS];

/* The stage of a label. */
static const char *stage(uint32_t label)
{
    return label == 1 ? "in the wash" : "in no stage";
}

/* Prints a kind by its name in the book. */
static void print_kind(unsigned kind)
{
    drumbook_part part = drumbook_name(book, sizeof book, NULL, 0, kind);
    printf(" %.*s", (int)part.size, (const char *)book + part.offset);
}

/* Prints the kinds of a set in words. */
static void print_kinds(uint64_t set)
{
    const char *between = "";
    for (unsigned kind = 0; kind < 64; kind++)
        if (set >> kind & 1) {
            printf("%s", between);
            print_kind(kind);
            between = " or";
        }
}

/* Prints a refusal: in words, where, in which stage, and what was expected. */
static void print_refusal(uint32_t drum, const drumbook_reading *reading)
{
    printf("drum %u: %s, after %u events, %s; expected:", (unsigned)drum, words(reading->number),
           (unsigned)reading->place, stage(reading->label));
    print_kinds(reading->expected);
    printf("\n");
}

/* The event of a drum in a round: fill, up to three rinses, spin, tip; the hasty drum fills twice, one stops. */
static unsigned event_of(uint32_t drum, unsigned round)
{
    unsigned rinses = drum % 4;
    if (drum == STOPPED && round == 2)
        return NO_EVENT;
    if (round == 0 || (drum == HASTY && round == 2))
        return FILL;
    if (round <= rinses)
        return RINSE;
    return round == rinses + 1 ? SPIN : round == rinses + 2 ? TIP : NO_EVENT;
}

/* Whether a drum is open: an idle drum is all zeros, and one that holds nothing has taken events. */
static int is_open(const drumbook_drum *drum)
{
    return drum->held != 0 || drum->events != 0;
}

/* The events still due on all drums. */
static uint32_t due(void)
{
    uint32_t sum = 0;
    for (uint32_t drum = 0; drum < DRUMBOOK_DRUMS; drum++)
        sum += drums[drum].due;
    return sum;
}

/* Gives a drum its event, or closes it where it has none; whether a run was accepted. */
static uint32_t next(uint32_t drum, unsigned kind)
{
    drumbook_reading reading = kind == NO_EVENT
        ? drumbook_close(plan, plan_len, drums, DRUMBOOK_DRUMS, drum)
        : drumbook_event(plan, plan_len, drums, DRUMBOOK_DRUMS, drum, (uint8_t)kind);
    if (reading.number != DRUMBOOK_DONE)
        print_refusal(drum, &reading);
    return kind == NO_EVENT && reading.number == DRUMBOOK_DONE;
}

int main(void)
{
    drumbook_compiled compiled = drumbook_compile(book, sizeof book, plan, sizeof plan);
    plan_len = compiled.size;
    printf("the book: %s, a plan of %u bytes\n", words(compiled.number), (unsigned)plan_len);
    for (uint32_t drum = 0; drum < DRUMBOOK_DRUMS; drum++)
        if (drumbook_open(plan, plan_len, drums, DRUMBOOK_DRUMS, drum).number != DRUMBOOK_DONE)
            return 1;
    printf("%u drums opened, %u events due\n", (unsigned)DRUMBOOK_DRUMS, (unsigned)due());
    uint32_t accepted = 0;
    for (unsigned round = 0; round <= ROUNDS; round++) {
        for (uint32_t drum = 0; drum < DRUMBOOK_DRUMS; drum++)
            if (is_open(&drums[drum]))
                accepted += next(drum, event_of(drum, round));
        printf("round %u: %u events due\n", round, (unsigned)due());
    }
    drumbook_reading idle = drumbook_event(plan, plan_len, drums, DRUMBOOK_DRUMS, HASTY, FILL);
    printf("drum %u: %s\n", HASTY, words(idle.number));
    drumbook_reading none = drumbook_open(plan, plan_len, drums, DRUMBOOK_DRUMS, DRUMBOOK_DRUMS);
    printf("drum %u: %s\n", DRUMBOOK_DRUMS, words(none.number));
    printf("%u runs accepted\n", (unsigned)accepted);
    return accepted == DRUMBOOK_DRUMS - 2 && idle.number == DRUMBOOK_IDLE && none.number == DRUMBOOK_NO_DRUM ? 0 : 1;
}
