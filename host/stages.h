/* A book with stages: fill, then a wash of two rinses and a tip; and what its labels are called. */
#ifndef STAGES_H
#define STAGES_H

#include <stdint.h>

static const uint8_t wash[] = {
    2, 0,  1, 0, 14, 0, 4, 0,  2, 0, 18, 0, 48, 0, /* contents */
    3, 0, 7, 0,                                    /* 3 kinds, start 7 */
    2, 0, 0, 0, 0, 0,                              /* 0 token 0, fill */
    2, 0, 1, 0, 0, 0,                              /* 1 token 1, rinse */
    2, 0, 2, 0, 0, 0,                              /* 2 token 2, tip */
    4, 0, 1, 0, 1, 0,                              /* 3 then 1 1 */
    5, 0, 3, 0, 1, 0,                              /* 4 tagged 3, label 1: rinsing */
    4, 0, 4, 0, 2, 0,                              /* 5 then 4 2 */
    5, 0, 5, 0, 2, 0,                              /* 6 tagged 5, label 2: washing */
    4, 0, 0, 0, 6, 0,                              /* 7 then 0 6 */
};

/* The stage of a label. */
static inline const char *stage(uint32_t label)
{
    static const char *const stages[] = {"no stage", "rinsing", "washing"};
    return label < sizeof stages / sizeof *stages ? stages[label] : "no such stage";
}

#endif
