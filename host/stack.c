/*
 * Measures how much stack each call takes, on a stack of its own that is painted before the call, and holds it to a
 * bound. Every call is made once before, so that what it takes from the C library is bound when it is measured.
 */
#define _XOPEN_SOURCE 700
#include <stdio.h>
#include <string.h>
#include <ucontext.h>

#include "drumbook.h"
#include "rinse.h"

enum { STACK = 1 << 18, ADDRESS = 8, SLOTS = 64, ROOM = 1024 };
enum { TOKEN = 2, TAGGED = 5, BOOK_NODES = 18, NODE_BYTES = 6, PLAIN_BOOK = BOOK_NODES + NODE_BYTES * 512 };

/* What a call is made on: the bytes given as a book or a plan, and a run. */
typedef struct {
    const uint8_t *bytes;
    size_t length;
    const uint8_t *run;
    size_t events;
} input;

/* A call: its name, how it is made, what on, what it answers, and the most bytes of stack that it may take. */
typedef struct {
    const char *name;
    uint32_t (*make)(const input *given);
    input given;
    uint32_t number;
    size_t most;
} row;

static uint8_t stack[STACK] __attribute__((aligned(64)));
static uint8_t plan[DRUMBOOK_LARGEST_PLAN], made[DRUMBOOK_LARGEST_PLAN];
static uint8_t small[BOOK_NODES + NODE_BYTES * 64], middle[BOOK_NODES + NODE_BYTES * 65];
static uint8_t large[PLAIN_BOOK], damaged[sizeof rinse];
static uint8_t house[DRUMBOOK_HOUSE_NAMES * 3], named[DRUMBOOK_LARGEST_BOOK], moved[DRUMBOOK_LARGEST_BOOK];
static uint32_t held[SLOTS];
static uint16_t tree[ROOM], records[ROOM];
static size_t record_count;
static drumbook_drum drum, opened;

static ucontext_t here, there;
static const row *current;
static uint32_t answered;

/* The calls that are made: those of the library, or such as do nothing, by which the way to a call is measured. */
static drumbook_formed (*volatile form_call)(const uint8_t *, size_t);
static drumbook_compiled (*volatile compile_call)(const uint8_t *, size_t, uint8_t *, size_t);
static drumbook_reading (*volatile read_call)(const uint8_t *, size_t, const uint8_t *, size_t, uint32_t *, size_t,
                                              uint16_t *, size_t);

typedef drumbook_written move(const uint8_t *, size_t, const uint8_t *, size_t, uint8_t *, size_t);
static move *volatile forward_call, *volatile back_call;
static drumbook_part (*volatile name_call)(const uint8_t *, size_t, const uint8_t *, size_t, uint32_t);

static drumbook_written (*volatile sheet_call)(const uint8_t *, size_t, uint8_t *, size_t);
static drumbook_written (*volatile sample_call)(const uint8_t *, size_t, uint8_t *, size_t);
static drumbook_written (*volatile place_call)(const uint8_t *, size_t, uint32_t);
static drumbook_written (*volatile unread_call)(const uint8_t *, size_t, const uint16_t *, size_t, uint8_t *, size_t);

static drumbook_depth (*volatile greatest_call)(const uint8_t *, size_t);
static drumbook_depth (*volatile profile_call)(const uint8_t *, size_t, uint32_t);

typedef drumbook_reading turn(const uint8_t *, size_t, drumbook_drum *, size_t, uint32_t);
static turn *volatile open_call, *volatile close_call;
static drumbook_reading (*volatile event_call)(const uint8_t *, size_t, drumbook_drum *, size_t, uint32_t, uint8_t);

/* Opens and closes nothing, and takes no event. */
static drumbook_reading no_turn(const uint8_t *from, size_t from_len, drumbook_drum *drums, size_t drums_len,
                                uint32_t number)
{
    (void)from, (void)from_len, (void)drums, (void)drums_len, (void)number;
    return (drumbook_reading){0, 0, 0, 0, 0};
}

static drumbook_reading no_event(const uint8_t *from, size_t from_len, drumbook_drum *drums, size_t drums_len,
                                 uint32_t number, uint8_t kind)
{
    (void)from, (void)from_len, (void)drums, (void)drums_len, (void)number, (void)kind;
    return (drumbook_reading){0, 0, 0, 0, 0};
}

/* Measures nothing, and takes no book. */
static drumbook_depth no_greatest(const uint8_t *book, size_t book_len)
{
    (void)book, (void)book_len;
    return (drumbook_depth){0, 0, 0};
}

static drumbook_depth no_profile(const uint8_t *book, size_t book_len, uint32_t slots)
{
    (void)book, (void)book_len, (void)slots;
    return (drumbook_depth){0, 0, 0};
}

/* Makes nothing of a sheet, or of a book. */
static drumbook_written no_sheet(const uint8_t *sheet, size_t sheet_len, uint8_t *to, size_t to_len)
{
    (void)sheet, (void)sheet_len, (void)to, (void)to_len;
    return (drumbook_written){0, 0, 0};
}

/* Looks no place up. */
static drumbook_written no_place(const uint8_t *sheet, size_t sheet_len, uint32_t node)
{
    (void)sheet, (void)sheet_len, (void)node;
    return (drumbook_written){0, 0, 0};
}

/* Writes no run. */
static drumbook_written no_unread(const uint8_t *book, size_t book_len, const uint16_t *records, size_t records_len,
                                  uint8_t *to, size_t to_len)
{
    (void)book, (void)book_len, (void)records, (void)records_len, (void)to, (void)to_len;
    return (drumbook_written){0, 0, 0};
}

/* Moves nothing. */
static drumbook_written no_move(const uint8_t *book, size_t book_len, const uint8_t *list, size_t list_len,
                                uint8_t *to, size_t to_len)
{
    (void)book, (void)book_len, (void)list, (void)list_len, (void)to, (void)to_len;
    return (drumbook_written){0, 0, 0};
}

/* Looks nothing up. */
static drumbook_part no_name(const uint8_t *book, size_t book_len, const uint8_t *list, size_t list_len, uint32_t kind)
{
    (void)book, (void)book_len, (void)list, (void)list_len, (void)kind;
    return (drumbook_part){0, 0, 0};
}

/* Tests nothing. */
static drumbook_formed no_form(const uint8_t *book, size_t book_len)
{
    (void)book, (void)book_len;
    return (drumbook_formed){0, 0};
}

/* Compiles nothing. */
static drumbook_compiled no_compile(const uint8_t *book, size_t book_len, uint8_t *to, size_t to_len)
{
    (void)book, (void)book_len, (void)to, (void)to_len;
    return (drumbook_compiled){0, 0, 0, 0, 0};
}

/* Reads nothing. */
static drumbook_reading no_read(const uint8_t *from, size_t from_len, const uint8_t *run, size_t run_len,
                                uint32_t *slots, size_t slots_len, uint16_t *records, size_t records_len)
{
    (void)from, (void)from_len, (void)run, (void)run_len;
    (void)slots, (void)slots_len, (void)records, (void)records_len;
    return (drumbook_reading){0, 0, 0, 0, 0};
}

/* Makes a form test. */
static uint32_t forms(const input *given)
{
    return form_call(given->bytes, given->length).number;
}

/* Makes a compilation. */
static uint32_t compiles(const input *given)
{
    return compile_call(given->bytes, given->length, made, sizeof made).number;
}

/* Makes a reading. */
static uint32_t reads(const input *given)
{
    return read_call(given->bytes, given->length, given->run, given->events, held, SLOTS, tree, ROOM).number;
}

/* Opens a drum; gives one that was opened a run's first event, and closes one. */
static uint32_t opens(const input *given)
{
    return open_call(given->bytes, given->length, &drum, 1, 0).number;
}

static uint32_t events(const input *given)
{
    drum = opened;
    return event_call(given->bytes, given->length, &drum, 1, 0, given->run[0]).number;
}

static uint32_t closes(const input *given)
{
    drum = opened;
    return close_call(given->bytes, given->length, &drum, 1, 0).number;
}

/* Makes a move forward, and a move back. */
static uint32_t forwards(const input *given)
{
    return forward_call(given->bytes, given->length, house, sizeof house, moved, sizeof moved).number;
}

static uint32_t backs(const input *given)
{
    return back_call(given->bytes, given->length, house, sizeof house, moved, sizeof moved).number;
}

/* Looks the last kind's name up. */
static uint32_t names(const input *given)
{
    return name_call(given->bytes, given->length, house, sizeof house, 63).from;
}

/* Makes a book of a sheet, and looks a node's place up. */
static uint32_t sheets(const input *given)
{
    return sheet_call(given->bytes, given->length, moved, sizeof moved).number;
}

static uint32_t places(const input *given)
{
    return place_call(given->bytes, given->length, 0).number;
}

/* Writes the run of the tree that was read last. */
static uint32_t unreads(const input *given)
{
    return unread_call(given->bytes, given->length, records, record_count, moved, sizeof moved).number;
}

/* Asks for the greatest number of parts held, and for a profile of 64 slots. */
static uint32_t greatest(const input *given)
{
    return greatest_call(given->bytes, given->length).number;
}

static uint32_t profiles(const input *given)
{
    return profile_call(given->bytes, given->length, SLOTS).number;
}

/* Writes a sample run. */
static uint32_t samples(const input *given)
{
    return sample_call(given->bytes, given->length, moved, sizeof moved).number;
}

/* Makes the current call. */
static void make(void)
{
    answered = current->make(&current->given);
}

/* The bytes of a painted stack that the current call, and the way to it, write. */
static size_t written(uint8_t paint)
{
    size_t free_bytes = 0;
    memset(stack, paint, sizeof stack);
    getcontext(&there);
    there.uc_stack.ss_sp = stack;
    there.uc_stack.ss_size = sizeof stack;
    there.uc_link = &here;
    makecontext(&there, make, 0);
    swapcontext(&here, &there);
    while (free_bytes < sizeof stack && stack[free_bytes] == paint)
        free_bytes++;
    return sizeof stack - free_bytes;
}

/* The more of two paints: a call may write the one that it finds. */
static size_t most_written(void)
{
    size_t one = written(0xA5), other = written(0x5A);
    return one > other ? one : other;
}

/* The bytes of stack that the current call takes, its return address among them. */
static size_t taken(void)
{
    form_call = drumbook_form, compile_call = drumbook_compile, read_call = drumbook_read;
    forward_call = drumbook_forward, back_call = drumbook_back, name_call = drumbook_name;
    sheet_call = drumbook_sheet, place_call = drumbook_sheet_place, unread_call = drumbook_unread;
    greatest_call = drumbook_greatest, profile_call = drumbook_profile, sample_call = drumbook_sample;
    open_call = drumbook_open, event_call = drumbook_event, close_call = drumbook_close;
    make();
    size_t all = most_written();
    form_call = no_form, compile_call = no_compile, read_call = no_read;
    forward_call = no_move, back_call = no_move, name_call = no_name;
    sheet_call = no_sheet, place_call = no_place, unread_call = no_unread;
    greatest_call = no_greatest, profile_call = no_profile, sample_call = no_sheet;
    open_call = no_turn, event_call = no_event, close_call = no_turn;
    uint32_t number = answered;
    size_t way = most_written();
    answered = number;
    return all - way + ADDRESS;
}

/* Writes a book of tagged nodes above a token, as many as fit. */
static void write_book(uint8_t *book, size_t length)
{
    size_t count = (length - BOOK_NODES) / NODE_BYTES;
    size_t words[9] = {2, 1, 14, 4, 2, BOOK_NODES, NODE_BYTES * count, 64, count - 1};
    memset(book, 0, length);
    for (size_t i = 0; i < 9; i++) {
        book[2 * i] = (uint8_t)words[i];
        book[2 * i + 1] = (uint8_t)(words[i] >> 8);
    }
    for (size_t n = 0; n < count; n++) {
        uint8_t *node = book + BOOK_NODES + NODE_BYTES * n;
        node[0] = n == 0 ? TOKEN : TAGGED;
        node[2] = (uint8_t)(n == 0 ? 0 : n - 1);
        node[3] = (uint8_t)(n == 0 ? 0 : (n - 1) >> 8);
        node[4] = n == 0 ? 0 : 1;
    }
}

/* Writes a house list of names of two letters. */
static void write_house(void)
{
    for (int n = 0; n < DRUMBOOK_HOUSE_NAMES; n++) {
        house[3 * n] = 2;
        house[3 * n + 1] = (uint8_t)('a' + n / 26);
        house[3 * n + 2] = (uint8_t)('a' + n % 26);
    }
}

/* Writes a sheet whose parentheses nest 32 deep, and which makes 512 nodes. */
static size_t write_sheet(char *sheet)
{
    char *at = sheet;
    at += sprintf(at, "a = ");
    for (int n = 0; n < 32; n++)
        *at++ = '(';
    *at++ = 'b';
    for (int n = 0; n < 32; n++)
        *at++ = ')';
    for (int n = 0; n < 255; n++)
        at += sprintf(at, " b");
    at += sprintf(at, " ; c = b ;");
    return (size_t)(at - sheet);
}

int main(void)
{
    static const uint8_t run[] = {0, 1, 2}, zero[] = {0};
    static uint8_t rinse_plan[256];
    write_book(small, sizeof small);
    write_book(middle, sizeof middle);
    write_book(large, sizeof large);
    write_house();
    static char sheet[1024];
    size_t sheet_size = write_sheet(sheet);
    size_t named_size = drumbook_forward(large, sizeof large, house, sizeof house, named, sizeof named).size;
    memcpy(damaged, rinse, sizeof rinse);
    damaged[0] = 4;
    size_t rinse_size = drumbook_compile(rinse, sizeof rinse, rinse_plan, sizeof rinse_plan).size;
    size_t size = drumbook_compile(large, sizeof large, plan, sizeof plan).size;
    record_count = drumbook_read(plan, size, zero, sizeof zero, held, SLOTS, records, ROOM).records;
    drumbook_open(rinse_plan, rinse_size, &opened, 1, 0);
    const row rows[] = {
        {"form, no bytes", forms, {NULL, 0, NULL, 0}, DRUMBOOK_LENGTH, 300},
        {"form, the largest book", forms, {large, sizeof large, NULL, 0}, DRUMBOOK_DONE, 300},
        {"form, a book with names", forms, {named, named_size, NULL, 0}, DRUMBOOK_DONE, 300},
        {"compile, refused: LENGTH", compiles, {NULL, 0, NULL, 0}, DRUMBOOK_LENGTH, 19000},
        {"compile, refused: CONTENTS", compiles, {damaged, sizeof damaged, NULL, 0}, DRUMBOOK_CONTENTS, 19000},
        {"compile, 9 nodes", compiles, {rinse, sizeof rinse, NULL, 0}, DRUMBOOK_DONE, 19000},
        {"compile, 64 nodes", compiles, {small, sizeof small, NULL, 0}, DRUMBOOK_DONE, 19000},
        {"compile, 65 nodes", compiles, {middle, sizeof middle, NULL, 0}, DRUMBOOK_DONE, 19000},
        {"compile, the largest book", compiles, {large, sizeof large, NULL, 0}, DRUMBOOK_DONE, 19000},
        {"read, refused: PLAN FORM", reads, {NULL, 0, NULL, 0}, DRUMBOOK_PLAN_FORM, 400},
        {"read, the rinse plan", reads, {rinse_plan, rinse_size, run, sizeof run}, DRUMBOOK_DONE, 400},
        {"read, the largest plan", reads, {plan, size, zero, sizeof zero}, DRUMBOOK_DONE, 400},
        {"open, refused: PLAN FORM", opens, {NULL, 0, NULL, 0}, DRUMBOOK_PLAN_FORM, 600},
        {"open, the rinse plan", opens, {rinse_plan, rinse_size, NULL, 0}, DRUMBOOK_DONE, 600},
        {"event, refused: PLAN FORM", events, {NULL, 0, run, 1}, DRUMBOOK_PLAN_FORM, 1000},
        {"event, refused: UNEXPECTED", events, {rinse_plan, rinse_size, run + 1, 1}, DRUMBOOK_UNEXPECTED, 1000},
        {"event, the rinse plan", events, {rinse_plan, rinse_size, run, 1}, DRUMBOOK_DONE, 1000},
        {"event, the largest plan", events, {plan, size, run, 1}, DRUMBOOK_DONE, 1000},
        {"close, the rinse plan", closes, {rinse_plan, rinse_size, NULL, 0}, DRUMBOOK_END, 1000},
        {"forward, the largest book", forwards, {large, sizeof large, NULL, 0}, DRUMBOOK_DONE, 600},
        {"back, the largest book", backs, {named, named_size, NULL, 0}, DRUMBOOK_DONE, 600},
        {"name, in the house list", names, {large, sizeof large, NULL, 0}, 2, 400},
        {"name, in the book", names, {named, named_size, NULL, 0}, 1, 400},
        {"unread, refused: LENGTH", unreads, {NULL, 0, NULL, 0}, DRUMBOOK_LENGTH, 17200},
        {"unread, refused: TREE", unreads, {rinse, sizeof rinse, NULL, 0}, DRUMBOOK_TREE, 17200},
        {"unread, the largest book", unreads, {large, sizeof large, NULL, 0}, DRUMBOOK_DONE, 17200},
        {"sheet, no bytes", sheets, {NULL, 0, NULL, 0}, DRUMBOOK_SHEET, 48000},
        {"sheet, 512 nodes, 32 deep", sheets, {(uint8_t *)sheet, sheet_size, NULL, 0}, DRUMBOOK_DONE, 48000},
        {"sheet place, the same", places, {(uint8_t *)sheet, sheet_size, NULL, 0}, DRUMBOOK_DONE, 48000},
        {"greatest, no bytes", greatest, {NULL, 0, NULL, 0}, DRUMBOOK_LENGTH, 20000},
        {"greatest, the largest book", greatest, {large, sizeof large, NULL, 0}, DRUMBOOK_DONE, 20000},
        {"profile, the rinse book", profiles, {rinse, sizeof rinse, NULL, 0}, DRUMBOOK_DONE, 20000},
        {"profile, the largest book", profiles, {large, sizeof large, NULL, 0}, DRUMBOOK_DONE, 20000},
        {"sample, refused: LENGTH", samples, {NULL, 0, NULL, 0}, DRUMBOOK_LENGTH, 21000},
        {"sample, the largest book", samples, {large, sizeof large, NULL, 0}, DRUMBOOK_DONE, 21000},
    };
    int failed = 0;
    for (size_t i = 0; i < sizeof rows / sizeof *rows; i++) {
        current = &rows[i];
        size_t bytes = taken();
        int good = answered == current->number && bytes <= current->most;
        printf("%-28s %6zu bytes of stack, at most %zu%s\n", current->name, bytes, current->most,
               good ? "" : ": FAILED");
        failed |= !good;
    }
    return failed;
}
