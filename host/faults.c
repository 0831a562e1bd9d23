/*
 * The library with a fault between it and its caller, to see that the tests catch it. The environment variable
 * DRUMBOOK_FAULT names the fault: a parameter and a number of bits ("run 17": the length of the run is taken by its
 * lowest 17 bits), or a word from the calls below. The true calls have the names true_form and so on.
 */
#include <stdlib.h>
#include <string.h>

#include "drumbook.h"

enum { BOOK_NODES = 18, NODE_BYTES = 6, KINDS_AT = 14, NAMED_KINDS_AT = 20 };

drumbook_formed true_form(const uint8_t *book, size_t book_len);
drumbook_compiled true_compile(const uint8_t *book, size_t book_len, uint8_t *plan, size_t plan_len);
drumbook_reading true_read(const uint8_t *plan, size_t plan_len, const uint8_t *run, size_t run_len,
                           uint32_t *held, size_t held_len, uint16_t *tree, size_t tree_len);

drumbook_written true_forward(const uint8_t *book, size_t book_len, const uint8_t *house, size_t house_len,
                              uint8_t *out, size_t out_len);
drumbook_written true_back(const uint8_t *book, size_t book_len, const uint8_t *house, size_t house_len,
                           uint8_t *out, size_t out_len);
drumbook_part true_name(const uint8_t *book, size_t book_len, const uint8_t *house, size_t house_len, uint32_t kind);

drumbook_reading true_open(const uint8_t *plan, size_t plan_len, drumbook_drum *drums, size_t drums_len, uint32_t drum);
drumbook_reading true_event(const uint8_t *plan, size_t plan_len, drumbook_drum *drums, size_t drums_len, uint32_t drum,
                            uint8_t kind);
drumbook_reading true_close(const uint8_t *plan, size_t plan_len, drumbook_drum *drums, size_t drums_len,
                            uint32_t drum);
drumbook_written true_sample(const uint8_t *book, size_t book_len, uint8_t *run, size_t run_len);

/* What a call answers that has a fault at null pointers. */
enum { BROKEN = 18 };

/* The fault that is chosen, or none. */
static const char *fault(void)
{
    const char *named = getenv("DRUMBOOK_FAULT");
    return named == NULL ? "" : named;
}

/* Whether this fault is chosen. */
static int has(const char *name)
{
    return strcmp(fault(), name) == 0;
}

/* A parameter's length, cut to some bits where that fault is chosen. */
static size_t cut(const char *parameter, size_t length)
{
    size_t name = strlen(parameter);
    if (strncmp(fault(), parameter, name) != 0 || fault()[name] != ' ')
        return length;
    return length & (((size_t)1 << atoi(fault() + name + 1)) - 1);
}

/* Whether a book has so many nodes and kinds. */
static int sized(const uint8_t *book, size_t length, size_t nodes, size_t kinds)
{
    return length == BOOK_NODES + NODE_BYTES * nodes && book[KINDS_AT] == kinds;
}

drumbook_formed drumbook_form(const uint8_t *book, size_t book_len)
{
    if (has("null") && book == NULL)
        return (drumbook_formed){BROKEN, 0};
    return true_form(book, cut("form-book", book_len));
}

drumbook_compiled drumbook_compile(const uint8_t *book, size_t book_len, uint8_t *plan, size_t plan_len)
{
    if (has("null") && (book == NULL || plan == NULL))
        return (drumbook_compiled){BROKEN, 0, 0, 0, 0};
    drumbook_compiled answer = true_compile(book, cut("compile-book", book_len), plan, cut("plan-buffer", plan_len));
    if (answer.size != 0) {
        answer.size += has("size-511-63") && sized(book, book_len, 511, 63);
        answer.size += has("size-512-64") && sized(book, book_len, 512, 64);
        answer.size += has("size-1-1") && sized(book, book_len, 1, 1);
        if (has("cell-300-40") && answer.number == DRUMBOOK_DONE && sized(book, book_len, 300, 40))
            plan[answer.size - 1] ^= 1;
    }
    if (has("plan-tail") && plan_len > answer.size)
        plan[plan_len - 1] = 1;
    return answer;
}

drumbook_reading drumbook_read(const uint8_t *plan, size_t plan_len, const uint8_t *run, size_t run_len,
                               uint32_t *held, size_t held_len, uint16_t *tree, size_t tree_len)
{
    if (has("null") && (plan == NULL || run == NULL || held == NULL || tree == NULL))
        return (drumbook_reading){BROKEN, 0, 0, 0, 0};
    drumbook_reading answer = true_read(plan, cut("plan", plan_len), run, cut("run", run_len),
                                        held, cut("slots", held_len), tree, cut("tree-buffer", tree_len));
    if (has("records-16") && answer.records > 65535)
        answer.records -= 65536;
    if (has("tree-tail") && tree_len > answer.records)
        tree[tree_len - 1] = 1;
    if (has("slot-left") && held_len > 1)
        held[held_len - 1] = 1;
    if (has("kind-63"))
        answer.expected &= ~((uint64_t)1 << 63);
    if (has("label-8"))
        answer.label &= 255;
    if (has("slot-high") && held_len > 0)
        held[0] |= 65536;
    return answer;
}

drumbook_written drumbook_forward(const uint8_t *book, size_t book_len, const uint8_t *house, size_t house_len,
                                  uint8_t *out, size_t out_len)
{
    if (has("null") && (book == NULL || house == NULL || out == NULL))
        return (drumbook_written){BROKEN, 0, 0};
    drumbook_written answer = true_forward(book, cut("forward-book", book_len), house, cut("forward-house", house_len),
                                           out, cut("forward-out", out_len));
    if (has("forward-tail") && out_len > answer.size)
        out[out_len - 1] = 1;
    return answer;
}

drumbook_written drumbook_back(const uint8_t *book, size_t book_len, const uint8_t *house, size_t house_len,
                               uint8_t *out, size_t out_len)
{
    if (has("null") && (book == NULL || house == NULL || out == NULL))
        return (drumbook_written){BROKEN, 0, 0};
    drumbook_written answer = true_back(book, cut("back-book", book_len), house, cut("back-house", house_len),
                                        out, cut("back-out", out_len));
    if (has("kept-64") && answer.number == DRUMBOOK_KEPT && book[NAMED_KINDS_AT] == 64)
        answer.number = DRUMBOOK_DONE;
    return answer;
}

drumbook_part drumbook_name(const uint8_t *book, size_t book_len, const uint8_t *house, size_t house_len, uint32_t kind)
{
    drumbook_part answer = true_name(book, cut("name-book", book_len), house, cut("name-house", house_len), kind);
    answer.size -= has("size-16") && answer.size == 16;
    return answer;
}

/* The answer of a call on the board that has a fault at null pointers. */
static const drumbook_reading broken = {.number = BROKEN};

drumbook_reading drumbook_open(const uint8_t *plan, size_t plan_len, drumbook_drum *drums, size_t drums_len,
                               uint32_t drum)
{
    if (has("null") && (plan == NULL || drums == NULL))
        return broken;
    drumbook_reading answer = true_open(plan, cut("open-plan", plan_len), drums, cut("open-drums", drums_len), drum);
    if (has("open-slot") && answer.number == DRUMBOOK_DONE)
        drums[drum].slots[DRUMBOOK_DRUM_SLOTS - 1] = 1;
    return answer;
}

drumbook_reading drumbook_event(const uint8_t *plan, size_t plan_len, drumbook_drum *drums, size_t drums_len,
                                uint32_t drum, uint8_t kind)
{
    if (has("null") && (plan == NULL || drums == NULL))
        return broken;
    drumbook_reading answer = true_event(plan, cut("event-plan", plan_len), drums, cut("event-drums", drums_len),
                                         drum, kind);
    if (has("label"))
        answer.label = 0;
    if (has("neighbour") && answer.number == DRUMBOOK_DONE && drum + 1 < drums_len)
        drums[drum + 1].events++;
    if (has("due-cut") && answer.number == DRUMBOOK_DONE && drums[drum].due == 65535)
        drums[drum].due = 65534;
    if (has("long-kept") && answer.number == DRUMBOOK_LONG)
        drums[drum].events = 65535;
    if (has("drum-31") && drum == DRUMBOOK_DRUMS - 1)
        answer.records ^= 1;
    return answer;
}

drumbook_reading drumbook_close(const uint8_t *plan, size_t plan_len, drumbook_drum *drums, size_t drums_len,
                                uint32_t drum)
{
    if (has("null") && (plan == NULL || drums == NULL))
        return broken;
    drumbook_reading answer = true_close(plan, cut("close-plan", plan_len), drums, cut("close-drums", drums_len),
                                         drum);
    if (has("close-due") && answer.number == DRUMBOOK_END)
        drums[drum].due = 1;
    return answer;
}

drumbook_written drumbook_sample(const uint8_t *book, size_t book_len, uint8_t *run, size_t run_len)
{
    if (has("null") && (book == NULL || run == NULL))
        return (drumbook_written){BROKEN, 0, 0};
    drumbook_written answer = true_sample(book, cut("sample-book", book_len), run, cut("sample-run", run_len));
    if (has("sample-65535") && answer.number == DRUMBOOK_DONE && answer.size == 65535)
        answer = (drumbook_written){DRUMBOOK_RUN_LONG, 0, 0};
    if (has("sample-last") && answer.number == DRUMBOOK_DONE && answer.size > 0)
        run[answer.size - 1] ^= 1;
    if (has("sample-tail") && run_len > answer.size)
        run[run_len - 1] = 1;
    return answer;
}
