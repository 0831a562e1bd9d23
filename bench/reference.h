/*
 * A plain C compiler, reader and drum board, to measure against. They answer in the structs of the library's header,
 * so that all builds are called alike.
 */
#ifndef REFERENCE_H
#define REFERENCE_H

#include "drumbook.h"

typedef drumbook_formed reference_formed;
typedef drumbook_compiled reference_compiled;
typedef drumbook_reading reference_reading;

/* Judges the form of a book. */
reference_formed reference_form(const uint8_t *book, size_t book_len);

/* Compiles a book into a plan. */
reference_compiled reference_compile(const uint8_t *book, size_t book_len,
                                     uint8_t *plan, size_t plan_len);

/* Runs a plan over a run. */
reference_reading reference_read(const uint8_t *plan, size_t plan_len,
                                 const uint8_t *run, size_t run_len,
                                 uint32_t *held, size_t held_len,
                                 uint16_t *tree, size_t tree_len);

/* The board's calls: opens a drum, gives it an event, closes it. */
reference_reading reference_open(const uint8_t *plan, size_t plan_len, drumbook_drum *drums, size_t drums_len,
                                 uint32_t drum);
reference_reading reference_event(const uint8_t *plan, size_t plan_len, drumbook_drum *drums, size_t drums_len,
                                  uint32_t drum, uint8_t kind);
reference_reading reference_close(const uint8_t *plan, size_t plan_len, drumbook_drum *drums, size_t drums_len,
                                  uint32_t drum);

#endif
