/* Compiles books that are refused, says where and why, and compiles one of them again when it is mended. */
#include <stdio.h>

#include "drumbook.h"
#include "words.h"

enum { PLAN_BYTES = 256, NODES_AT = 18, NODE_BYTES = 6, EITHER = 3 };

/* Token 0, token 0, either of them. */
static const uint8_t shared_kind[] = {
    2, 0,  1, 0, 14, 0, 4, 0,  2, 0, 18, 0, 18, 0,
    1, 0, 2, 0,
    2, 0, 0, 0, 0, 0,
    2, 0, 0, 0, 0, 0,
    3, 0, 0, 0, 1, 0,
};

/* Empty, empty, either of them. */
static const uint8_t both_empty[] = {
    2, 0,  1, 0, 14, 0, 4, 0,  2, 0, 18, 0, 18, 0,
    1, 0, 2, 0,
    1, 0, 0, 0, 0, 0,
    1, 0, 0, 0, 0, 0,
    3, 0, 0, 0, 1, 0,
};

/* Rinse, tip or nothing, on both sides. */
static const uint8_t both_ways[] = {
    2, 0,  1, 0, 14, 0, 4, 0,  2, 0, 18, 0, 36, 0, /* contents */
    3, 0, 5, 0,                                    /* 3 kinds, start 5 */
    2, 0, 1, 0, 0, 0,                              /* 0 token 1, rinse */
    2, 0, 2, 0, 0, 0,                              /* 1 token 2, tip */
    3, 0, 0, 0, 1, 0,                              /* 2 either 0 1 */
    1, 0, 0, 0, 0, 0,                              /* 3 empty */
    3, 0, 2, 0, 3, 0,                              /* 4 either 2 3: rinse, tip or nothing */
    3, 0, 4, 0, 4, 0,                              /* 5 either 4 4 */
};

/* Fill, any number of rinses, then a rinse and tip: at a rinse, is it one of the many or the last one? */
static const uint8_t last_rinse[] = {
    2, 0,  1, 0, 14, 0, 4, 0,  2, 0, 18, 0, 60, 0, /* contents */
    3, 0, 9, 0,                                    /* 3 kinds, start 9 */
    2, 0, 0, 0, 0, 0,                              /* 0 token 0, fill */
    2, 0, 1, 0, 0, 0,                              /* 1 token 1, rinse */
    2, 0, 2, 0, 0, 0,                              /* 2 token 2, tip */
    1, 0, 0, 0, 0, 0,                              /* 3 empty */
    6, 0, 6, 0, 0, 0,                              /* 4 ref 6 */
    4, 0, 1, 0, 4, 0,                              /* 5 then 1 4 */
    3, 0, 5, 0, 3, 0,                              /* 6 either 5 3: any number of rinses */
    4, 0, 1, 0, 2, 0,                              /* 7 then 1 2: a rinse, tip */
    4, 0, 6, 0, 7, 0,                              /* 8 then 6 7 */
    4, 0, 0, 0, 8, 0,                              /* 9 then 0 8 */
};

/* The same runs, mended: fill, a rinse, any number of rinses, tip. */
static const uint8_t first_rinse[] = {
    2, 0,  1, 0, 14, 0, 4, 0,  2, 0, 18, 0, 60, 0, /* contents */
    3, 0, 9, 0,                                    /* 3 kinds, start 9 */
    2, 0, 0, 0, 0, 0,                              /* 0 token 0, fill */
    2, 0, 1, 0, 0, 0,                              /* 1 token 1, rinse */
    2, 0, 2, 0, 0, 0,                              /* 2 token 2, tip */
    1, 0, 0, 0, 0, 0,                              /* 3 empty */
    6, 0, 6, 0, 0, 0,                              /* 4 ref 6 */
    4, 0, 1, 0, 4, 0,                              /* 5 then 1 4 */
    3, 0, 5, 0, 3, 0,                              /* 6 either 5 3: any number of rinses */
    4, 0, 6, 0, 2, 0,                              /* 7 then 6 2: any number of rinses, tip */
    4, 0, 1, 0, 7, 0,                              /* 8 then 1 7 */
    4, 0, 0, 0, 8, 0,                              /* 9 then 0 8 */
};

/* Fill, then tip; a rinse that the start does not reach. */
static const uint8_t unused_rinse[] = {
    2, 0,  1, 0, 14, 0, 4, 0,  2, 0, 18, 0, 24, 0, /* contents */
    3, 0, 3, 0,                                    /* 3 kinds, start 3 */
    2, 0, 0, 0, 0, 0,                              /* 0 token 0, fill */
    2, 0, 1, 0, 0, 0,                              /* 1 token 1, rinse */
    2, 0, 2, 0, 0, 0,                              /* 2 token 2, tip */
    4, 0, 0, 0, 2, 0,                              /* 3 then 0 2 */
};

/* A lone fail. */
static const uint8_t lone_fail[] = {
    2, 0,  1, 0, 14, 0, 4, 0,  2, 0, 18, 0, 6, 0,
    1, 0, 0, 0,
    0, 0, 0, 0, 0, 0,
};

/* Prints the kinds of a set. */
static void print_kinds(uint64_t set)
{
    for (unsigned kind = 0; kind < 64; kind++)
        if (set >> kind & 1)
            printf(" %u", kind);
}

/* Prints which ways a conflict leaves open, with every kind that clashes. */
static void print_ways(const uint8_t *book, const drumbook_compiled *compiled)
{
    if (compiled->both)
        printf(": two ways to take nothing");
    if (compiled->clash == 0)
        return;
    if (book[NODES_AT + NODE_BYTES * compiled->place] == EITHER)
        printf(": both sides can begin with kind");
    else
        printf(": the left can go on and the right can begin with kind");
    print_kinds(compiled->clash);
}

/* Compiles a book and prints the answer. */
static uint32_t show(const char *name, const uint8_t *book, size_t length)
{
    uint8_t plan[PLAN_BYTES];
    drumbook_compiled compiled = drumbook_compile(book, length, plan, sizeof plan);
    printf("%s: %s", name, words(compiled.number));
    if (compiled.number != DRUMBOOK_DONE)
        printf(", at node %u", (unsigned)compiled.place);
    if (compiled.number == DRUMBOOK_CONFLICT)
        print_ways(book, &compiled);
    printf("\n");
    return compiled.number;
}

int main(void)
{
    int as_due = show("one kind on both sides", shared_kind, sizeof shared_kind) == DRUMBOOK_CONFLICT
        && show("nothing on both sides", both_empty, sizeof both_empty) == DRUMBOOK_CONFLICT
        && show("rinse, tip or nothing on both sides", both_ways, sizeof both_ways) == DRUMBOOK_CONFLICT
        && show("rinses before a last rinse", last_rinse, sizeof last_rinse) == DRUMBOOK_CONFLICT
        && show("the same, the one rinse first", first_rinse, sizeof first_rinse) == DRUMBOOK_DONE
        && show("fill and tip, a rinse left over", unused_rinse, sizeof unused_rinse) == DRUMBOOK_UNUSED
        && show("a lone fail", lone_fail, sizeof lone_fail) == DRUMBOOK_BARREN;
    return as_due ? 0 : 1;
}
