/*
 * drumbook: compiles grammar books and reads runs of events by the compiled plans.
 *
 * Every call ends with an answer from the list below, for all bytes that can be handed in, forged plans included.
 * Inputs are only read. Nothing is allocated and nothing is kept between calls. All bytes of a lent buffer are written
 * by every call that is lent one, so what it held before does not matter.
 *
 * The host's part: a pointer is aligned for its type and points to as many elements as the length beside it says; and
 * a buffer that is written overlaps no other buffer of the same call. Where the length is 0 the pointer may be null:
 * this is tested, for every parameter alone and with the others, and not proved; with any other length it is not null.
 * Where a host breaks its part, nothing is promised.
 *
 * All lengths count elements: bytes of books, house lists, plans and runs, 32-bit slots, 16-bit words of trees.
 */
#ifndef DRUMBOOK_H
#define DRUMBOOK_H

#include <stddef.h>
#include <stdint.h>

#ifdef __cplusplus
extern "C" {
#endif

/*
 * The version of this header and of the library beside it. While the major number is 0, a new minor number may change
 * calls and structs, and the shared library's name has both; a new patch number changes neither.
 */
#define DRUMBOOK_VERSION_MAJOR 0
#define DRUMBOOK_VERSION_MINOR 2
#define DRUMBOOK_VERSION_PATCH 0

/* The version as one number that grows, and as text, "0.2.0". */
#define DRUMBOOK_VERSION_NUMBER \
    (DRUMBOOK_VERSION_MAJOR * 1000000 + DRUMBOOK_VERSION_MINOR * 1000 + DRUMBOOK_VERSION_PATCH)
#define DRUMBOOK_VERSION DRUMBOOK_TEXT_(DRUMBOOK_VERSION_MAJOR, DRUMBOOK_VERSION_MINOR, DRUMBOOK_VERSION_PATCH)
#define DRUMBOOK_TEXT_(major, minor, patch) DRUMBOOK_DIGITS_(major, minor, patch)
#define DRUMBOOK_DIGITS_(major, minor, patch) #major "." #minor "." #patch

/* The answers' numbers. Where no place is named, the place is 0. */
enum {
    DRUMBOOK_DONE = 0,        /* a good form; compiled; written; or the run is accepted, place: its length */
    DRUMBOOK_LENGTH = 1,      /* the book's length is not 18 + 6N for an N from 1 to 512; a book with names: not 32 to
                                 4,184 */
    DRUMBOOK_CONTENTS = 2,    /* the book's contents differ from those fixed by its length; a book with names: from
                                 those for some N from 1 to 512; a move: the book is of the other form */
    DRUMBOOK_SETTINGS = 3,    /* the number of kinds is not 1 to 64, or the start is not below N */
    DRUMBOOK_NODE = 4,        /* a type or field against the type table; place: the first such node */
    DRUMBOOK_BARREN = 5,      /* the start can produce no run; place: the start */
    DRUMBOOK_CONFLICT = 6,    /* a node has a conflict; place: the lowest such node; see clash and both */
    DRUMBOOK_PLAN_ROOM = 7,   /* the plan buffer is shorter than the plan; see size */
    DRUMBOOK_PLAN_FORM = 8,   /* the plan's length, contents, settings or nodes are wrong */
    DRUMBOOK_CELL = 9,        /* a cell that its node's type never has, or a last cell above 1; place: the first such
                                 cell, row times (K + 1), plus column */
    DRUMBOOK_LONG = 10,       /* more than 65,535 events */
    DRUMBOOK_DEEP = 11,       /* a part must be held and no slot is free; place: the event, 0 where there is no slot */
    DRUMBOOK_UNKNOWN = 12,    /* the event's kind is not below K; place: the event */
    DRUMBOOK_UNEXPECTED = 13, /* the event is refused: by a compiled plan, no lawful run goes on so; place: the event */
    DRUMBOOK_END = 14,        /* the run ends where more was due; place: its length */
    DRUMBOOK_RUNAWAY = 15,    /* N nodes visited at one event and another due, by forged plans only; place: the event */
    DRUMBOOK_NO_ROOM = 16,    /* accepted, but more records than the tree buffer holds; see records */
    DRUMBOOK_NO_DRUM = 17,    /* the drum's number is not below 32, or not on the list */
    DRUMBOOK_IDLE = 18,       /* an event or a closing for a drum that is not open */
    DRUMBOOK_NAMES = 19,      /* a bad name in the book, then in the house list; place: the first bad name, of a pair
                                 the later, or how many names there are where bytes are left over */
    DRUMBOOK_KEPT = 20,       /* moving back would lose names: they are not the first of the house list */
    DRUMBOOK_OUT_ROOM = 21,   /* the buffer is shorter than what is to be written */
    DRUMBOOK_UNUSED = 22,     /* the start does not reach every node; place: the lowest unreachable node */
    DRUMBOOK_TREE = 23,       /* the records are no tree of the book; place: the first at which no such tree begins so,
                                 or their count where more is due */
    DRUMBOOK_RUN_LONG = 24,   /* the run to be written has over 65,535 events */
    DRUMBOOK_RUN_ROOM = 25,   /* the buffer is shorter than the run to be written */
    DRUMBOOK_SHEET = 26,      /* the text is no sheet; place: the first byte at which no sheet begins so, or its length
                                 where more is due */
    DRUMBOOK_TWICE = 27,      /* a rule's name comes again; place: where it first does */
    DRUMBOOK_BIG = 28,        /* the sheet's book would have over 512 nodes or 64 kinds */
    DRUMBOOK_KINDLESS = 29,   /* the sheet has no event kind at all */
    DRUMBOOK_UNBOUNDED = 30,  /* no number of slots is enough for all lawful runs of the book */
    DRUMBOOK_DEEPER = 31,     /* the book needs more slots than the controller has; place: how many it needs */
    DRUMBOOK_SLOTS = 32,      /* the controller's slot count is not 1 to 64 */
    DRUMBOOK_STALE = 33       /* an event or a closing for a drum that claims over 64 held parts, a held node not below
                                 N, over 65,535 events or over 67,042,305 records */
};

enum {
    DRUMBOOK_LARGEST_BOOK = 4184,   /* bytes of the longest book, with 512 nodes and 64 names of 16 bytes */
    DRUMBOOK_HOUSE_NAMES = 64,      /* names of a house list */
    DRUMBOOK_LARGEST_PLAN = 37406,  /* bytes of the longest plan: a buffer that always suffices */
    DRUMBOOK_DRUMS = 32,            /* drums of a board that can be used; a list may be longer */
    DRUMBOOK_DRUM_SLOTS = 64,       /* holding slots of a drum */
    DRUMBOOK_EMPTY_RECORD = 32768   /* added to the node number in the record of a part that takes no event */
};

/* What the form test answers. */
typedef struct {
    uint32_t number; /* DRUMBOOK_DONE, or the first of 1 to 4 and 19 that holds against the book */
    uint32_t place;  /* with 4 the first bad node's number, with 19 the first bad name's, otherwise 0 */
} drumbook_formed;

/* Judges the form of a book: any bytes, of any length from 0 up. */
drumbook_formed drumbook_form(const uint8_t *book, size_t book_len);

/* What compiling answers. */
typedef struct {
    uint32_t number; /* DRUMBOOK_DONE, or the first of 1 to 4, 19, 22, 5, 6 and 7, in this order, that holds */
    uint32_t place;  /* the node that 4, 22, 5 and 6 name, the name that 19 names, otherwise 0 */
    uint32_t size;   /* with 0 and 7 the plan's size in bytes, otherwise 0 */
    uint32_t both;   /* with 6 at an either: 1 if both sides can take nothing; otherwise 0 */
    uint64_t clash;  /* with 6 all the kinds that clash at the node, bit k for kind k: at an either those that both
                        sides can begin with, perhaps none where both is 1; at a then those with which the left can
                        go on and the right can begin; otherwise 0 */
} drumbook_compiled;

/*
 * Compiles a book, of either form: names do not change the plan. With DRUMBOOK_DONE the first size bytes of the plan
 * buffer are the plan and the rest is zero; with any other number the whole buffer is zero. A plan buffer of length 0
 * asks for the size alone: a book that passes answers DRUMBOOK_PLAN_ROOM with it. Takes some 19 KB of stack
 * (docs/MEMORY.md), and no other memory.
 */
drumbook_compiled drumbook_compile(const uint8_t *book, size_t book_len, uint8_t *plan, size_t plan_len);

/* What reading answers. */
typedef struct {
    uint32_t number;   /* DRUMBOOK_DONE, or one of 8 to 16 */
    uint32_t place;    /* the run's length with 0 and 14, the cell with 9, the event with 11, 12, 13, 15, otherwise 0 */
    uint32_t records;  /* with 0 and 16 how many records the tree has, otherwise 0 */
    uint32_t label;    /* with 12, 13 and 14 the stage: the label of the part held last, that of the innermost tagged
                          node around it; 0 for none, and otherwise */
    uint64_t expected; /* with 12, 13 and 14 the kinds that could have come, bit k for kind k; otherwise 0. By a
                          compiled plan these are all kinds that some lawful run has next, behind the events before
                          the refused one, or at 14 behind the whole run */
} drumbook_reading;

/*
 * Reads a run by a plan of exactly plan_len bytes. A run is one byte for each event, its kind. With DRUMBOOK_DONE the
 * first records words of the tree are the derivation, top-down and left to right, a part that takes no event as one
 * empty record, and the rest is zero; with any other number the whole tree is zero. The holding slots are zero after
 * every call. A tree of length 0 asks whether the run is accepted, and for the number of records: DRUMBOOK_NO_ROOM
 * then says accepted, since every accepted run has a record. Takes under 400 bytes of stack; the form test under 300.
 */
drumbook_reading drumbook_read(const uint8_t *plan, size_t plan_len, const uint8_t *run, size_t run_len,
                               uint32_t *held, size_t held_len, uint16_t *tree, size_t tree_len);

/*
 * A drum: a run under way, of which no tree is kept. All zeros is an idle drum, anything else an open one; a board is a
 * list of drums that begins as zeros and is lent to every call. From then on, with one plan throughout, what a drum
 * answers depends on its own calls only, and the fields are as said here. A host need not look into them, but due is
 * for its screen. Forged drums do no harm: every call answers, and writes nothing but the drum that it names. Each call
 * takes under 1,000 bytes of stack.
 */
typedef struct {
    uint32_t slots[DRUMBOOK_DRUM_SLOTS]; /* the held parts, the one held last at the end: the node in the low half, in
                                            the high half the label of the stage it was held in; zeros after them */
    uint32_t held;                       /* how many parts are held */
    uint32_t events;                     /* how many events were taken */
    uint32_t records;                    /* how many records their tree has so far */
    uint32_t due;                        /* the least number of events that would make the run lawful, held at 65,535
                                            where it is that or more: the sum over the held parts by the plan */
} drumbook_drum;

/*
 * Opens a drum of the list; one that is open, or stale, starts afresh. Answers the first of 8, 9 and 17 that holds, and
 * then the list is as it was; or DRUMBOOK_DONE with place and records 0.
 */
drumbook_reading drumbook_open(const uint8_t *plan, size_t plan_len, drumbook_drum *drums, size_t drums_len,
                               uint32_t drum);

/*
 * Gives a drum an event of a kind. Answers the first of 8, 9, 17, 18 and 33 that holds, place 0 but for 9, and then the
 * list is as it was. Otherwise an event that is taken answers DRUMBOOK_DONE, with the events so far as place and the
 * records so far; one that is refused answers 10, place 0, or as reading does 11, 12, 13 or 15, and makes the drum
 * idle. The 65,536th event is 10, whatever its kind.
 */
drumbook_reading drumbook_event(const uint8_t *plan, size_t plan_len, drumbook_drum *drums, size_t drums_len,
                                uint32_t drum, uint8_t kind);

/*
 * Closes a drum. Answers the first of 8, 9, 17, 18 and 33 that holds, and then the list is as it was; otherwise as a
 * reading of the drum's events does, with 64 slots and room enough: DRUMBOOK_DONE with all records, or 14. The drum is
 * then idle.
 */
drumbook_reading drumbook_close(const uint8_t *plan, size_t plan_len, drumbook_drum *drums, size_t drums_len,
                                uint32_t drum);

/* What a call that writes bytes answers. */
typedef struct {
    uint32_t number; /* DRUMBOOK_DONE, or a refusal's number */
    uint32_t size;   /* with DRUMBOOK_DONE how many bytes were written, otherwise 0 */
    uint64_t place;  /* what the number names, otherwise 0 */
} drumbook_written;

/*
 * Moves an old book, of two sections, forward: writes the same book with names, the first K names of the house list. A
 * house list has 64 names, each a length byte from 1 to 16 and that many bytes from 33 to 126, no name twice. Answers
 * the first of 1 to 4, then 19 of the house list, then 21; a book that has names already is 2, or 1 if its length is
 * bad. All bytes after the size, and all at a refusal, are zero. DRUMBOOK_LARGEST_BOOK bytes of room always suffice.
 */
drumbook_written drumbook_forward(const uint8_t *book, size_t book_len, const uint8_t *house, size_t house_len,
                                  uint8_t *out, size_t out_len);

/*
 * Moves a book with names back: writes the same book without them, exactly if they are the first K names of the house
 * list. Answers the first of 1 to 4, 19 of the book, 19 of the house list, 20, 21; a book without names is 2, or 1 if
 * its length is bad. Forward then back gives the same bytes, and so does back then forward.
 */
drumbook_written drumbook_back(const uint8_t *book, size_t book_len, const uint8_t *house, size_t house_len,
                               uint8_t *out, size_t out_len);

/* Where a kind's name stands. */
typedef struct {
    uint32_t from;   /* 0 nowhere, 1 in the book, 2 in the house list */
    uint32_t offset; /* where its bytes begin there, after the length byte */
    uint32_t size;   /* how many they are, 1 to 16; 0 nowhere */
} drumbook_part;

/*
 * Looks a kind's name up: in the book, if it has names, otherwise in the house list, which only then is looked at.
 * Nowhere, with offset and size 0, if the book's form is refused by 1 to 4 or 19, if a house list that is needed is
 * bad, or if the kind is not below K.
 */
drumbook_part drumbook_name(const uint8_t *book, size_t book_len, const uint8_t *house, size_t house_len,
                            uint32_t kind);

/*
 * Makes a book with names of a sheet (docs/SHEETS.md): any bytes, of any length. Answers the first of 26, 27, 28, 29
 * and 21, or DRUMBOOK_DONE with the book in the first size bytes; all other bytes are zero. The compiler judges the
 * book afterwards. DRUMBOOK_LARGEST_BOOK bytes of room always suffice. Takes up to 46 KB of
 * stack, where parentheses nest 32 deep, and 25 KB where none does; drumbook_sheet_place likewise.
 */
drumbook_written drumbook_sheet(const uint8_t *sheet, size_t sheet_len, uint8_t *book, size_t book_len);

/*
 * Says from which byte of a sheet a node of its book comes, since the compiler's places are nodes: a word or `empty`
 * its first byte, an either its `|`, a then the first byte of its further factor, the four nodes of a star the `*`.
 * Answers DRUMBOOK_DONE with the byte as place; the sheet's own refusal, 26 to 29; or DRUMBOOK_NODE, with the number
 * of nodes as place, for a node that the book does not have. The size is 0.
 */
drumbook_written drumbook_sheet_place(const uint8_t *sheet, size_t sheet_len, uint32_t node);

/*
 * Writes the run of a tree: of any book, and any records, of any number. A book that passes and records that are the
 * whole derivation of something that its start derives, as drumbook_read writes it, answer DRUMBOOK_DONE with the run
 * in the first size bytes. Otherwise answers the book's own refusal, the first of 1 to 4, 19, 22, 5 and 6, with its
 * place; then 23, 24, 25. All bytes after the size, and all at a refusal, are zero. Reading a written run, with room
 * enough, gives the tree back, and a tree that was read gives its run back. Takes some 17 KB of stack, as compiling
 * does, however deep the tree is, and no other memory; a tree in which more than 64 parts are due at once takes time
 * for looking back, at most its records times its depth.
 */
drumbook_written drumbook_unread(const uint8_t *book, size_t book_len, const uint16_t *tree, size_t tree_len,
                                 uint8_t *run, size_t run_len);

/* What is answered of the parts that readings by a book's plan hold at once. */
typedef struct {
    uint32_t number; /* DRUMBOOK_DONE, or the first that holds of 32, then 1 to 4, 19, 22, 5 and 6, then 30, then 31 */
    uint32_t place;  /* what compiling answers as the place of 1 to 6, 19 and 22; with 31 the number of slots needed */
    uint32_t held;   /* with DRUMBOOK_DONE the greatest number of parts ever held at once, otherwise 0 */
} drumbook_depth;

/*
 * The greatest number of parts that readings by a book's plan ever hold at once, over all beginnings of lawful runs of
 * any length, the start before the first event included: so at least 1. With that many slots no reading of the book's
 * plan is ever DRUMBOOK_DEEP, and some beginning, perhaps one longer than a reading takes, needs as many.
 * DRUMBOOK_UNBOUNDED where there is no greatest. Takes some 19 KB of stack, and no other memory.
 */
drumbook_depth drumbook_greatest(const uint8_t *book, size_t book_len);

/*
 * Whether a controller with so many holding slots, 1 to 64, takes a book: exactly if the number of drumbook_greatest
 * exists and is at most the slots. Answers DRUMBOOK_SLOTS before all else.
 */
drumbook_depth drumbook_profile(const uint8_t *book, size_t book_len, uint32_t slots);

/*
 * Writes a sample run of a book, of either form: a shortest lawful one, and of the shortest the one with the lowest
 * kind at the first place where two differ. Answers what compiling answers of the book, the first of 1 to 4, 19, 22, 5
 * and 6 with its place; then 24 if the shortest run has over 65,535 events; then 25 if the buffer is shorter than it;
 * or DRUMBOOK_DONE with the run in the first size bytes, perhaps none. All bytes after the size, and all at a refusal,
 * are zero. 65,535 bytes of room always suffice. Takes some 20 KB of stack.
 */
drumbook_written drumbook_sample(const uint8_t *book, size_t book_len, uint8_t *run, size_t run_len);

#ifdef __cplusplus
}
#endif

#endif
