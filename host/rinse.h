/* The rinse book's bytes, without names and with them. */
#ifndef RINSE_H
#define RINSE_H

#include <stdint.h>

static const uint8_t rinse[] = {
    2, 0,  1, 0, 14, 0, 4, 0,  2, 0, 18, 0, 54, 0, /* contents */
    3, 0, 8, 0,                                    /* 3 kinds, start 8 */
    2, 0, 0, 0, 0, 0,                              /* 0 token 0 */
    2, 0, 1, 0, 0, 0,                              /* 1 token 1 */
    2, 0, 2, 0, 0, 0,                              /* 2 token 2 */
    1, 0, 0, 0, 0, 0,                              /* 3 empty */
    6, 0, 6, 0, 0, 0,                              /* 4 ref 6 */
    4, 0, 1, 0, 4, 0,                              /* 5 then 1 4 */
    3, 0, 5, 0, 3, 0,                              /* 6 either 5 3 */
    4, 0, 6, 0, 2, 0,                              /* 7 then 6 2 */
    4, 0, 0, 0, 7, 0,                              /* 8 then 0 7 */
};

static const uint8_t named_rinse[] = {
    3, 0,  1, 0, 20, 0, 4, 0,  2, 0, 24, 0, 54, 0,  3, 0, 78, 0, 15, 0, /* contents */
    3, 0, 8, 0,                                                         /* 3 kinds, start 8 */
    2, 0, 0, 0, 0, 0,  2, 0, 1, 0, 0, 0,  2, 0, 2, 0, 0, 0,             /* 0 token 0, 1 token 1, 2 token 2 */
    1, 0, 0, 0, 0, 0,  6, 0, 6, 0, 0, 0,  4, 0, 1, 0, 4, 0,             /* 3 empty, 4 ref 6, 5 then 1 4 */
    3, 0, 5, 0, 3, 0,  4, 0, 6, 0, 2, 0,  4, 0, 0, 0, 7, 0,             /* 6 either 5 3, 7 then 6 2, 8 then 0 7 */
    4, 'f', 'i', 'l', 'l',  5, 'r', 'i', 'n', 's', 'e',  3, 't', 'i', 'p', /* names */
};

#endif
