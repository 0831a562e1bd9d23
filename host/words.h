/* The answer numbers in words. */
#ifndef WORDS_H
#define WORDS_H

#include <stddef.h>
#include <stdint.h>

/* What an answer number says. */
static inline const char *words(uint32_t number)
{
    static const char *const said[] = {
        "done",
        "LENGTH: the length is not that of a book",
        "CONTENTS: the contents differ from those fixed by the length",
        "SETTINGS: the number of kinds or the start is out of range",
        "NODE: a type or field is against the table",
        "BARREN: the start derives nothing",
        "CONFLICT: a node leaves two ways open",
        "PLAN ROOM: the plan buffer is shorter than the plan",
        "PLAN FORM: these bytes are no plan",
        "CELL: a cell that its node never has",
        "LONG: more than 65535 events",
        "DEEP: no slot is free to hold a part",
        "UNKNOWN: no such kind",
        "UNEXPECTED: the event is refused",
        "END: the run ends too early",
        "RUNAWAY: the plan walks in a circle",
        "NO ROOM: the tree buffer is shorter than the tree",
        [17] = "NO DRUM: no such drum on the list",
        [18] = "IDLE: the drum is not open",
        [19] = "NAMES: a bad name",
        [20] = "KEPT: names would be lost",
        [21] = "OUT ROOM: the buffer is shorter than what is to be written",
        [22] = "UNUSED: the start does not reach a node",
        [23] = "TREE: the records are no tree of the book",
        [24] = "RUN LONG: the run has over 65535 events",
        [25] = "RUN ROOM: the buffer is shorter than the run",
        [26] = "SHEET: the text is no sheet",
        [27] = "TWICE: a rule's name comes again",
        [28] = "BIG: over 512 nodes or 64 kinds",
        [29] = "KINDLESS: no event kind",
        [30] = "UNBOUNDED: no number of slots is enough",
        [31] = "DEEPER: the controller has too few slots",
        [32] = "SLOTS: the slot count is not 1 to 64",
        [33] = "STALE: the drum claims what no drum has",
    };
    return number < sizeof said / sizeof *said && said[number] ? said[number] : "no such answer";
}

#endif
