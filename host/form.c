/* Judges the form of the rinse book and of a damaged copy, and says the answers in words. */
#include <stdio.h>
#include <string.h>

#include "drumbook.h"
#include "rinse.h"
#include "words.h"

/* Judges a book and prints the answer. */
static uint32_t judge(const char *name, const uint8_t *book, size_t length)
{
    drumbook_formed formed = drumbook_form(book, length);
    printf("%s: %s", name, words(formed.number));
    if (formed.number != DRUMBOOK_DONE)
        printf(", at %u", (unsigned)formed.place);
    printf("\n");
    return formed.number;
}

int main(void)
{
    uint8_t damaged[sizeof rinse];
    memcpy(damaged, rinse, sizeof rinse);
    damaged[56] = 6; /* node 6 as its own left */
    uint32_t whole = judge("the rinse book", rinse, sizeof rinse);
    uint32_t other = judge("a damaged copy", damaged, sizeof damaged);
    return whole == DRUMBOOK_DONE && other == DRUMBOOK_NODE ? 0 : 1;
}
