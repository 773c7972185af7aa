/*
 * Tests volume_gaps as a program in C calls it: the pairs, the words behind them, and each refusal, on a formatted volume and on one with
 * two stretches of free pages.
 * The last line is "passed" or "failed" with the count of checks; the exit status is 0 where all hold.
 */
#include "check.h"
#include "host_calls.h"

#include <string.h>

enum { VOLUME_LEN = 16 * 512, LIST_WORDS = 4096, WORDS = 7, TOO_MANY_GAPS = -14 };

static uint8_t volume[VOLUME_LEN];
static uint64_t list[LIST_WORDS];

/* Makes the call with a list of so many words, and checks its answer, the first words of the list and that the others are kept. */
static void gaps(const char *what, size_t words, int64_t answer, const uint64_t *filled)
{
    uint64_t pairs[WORDS], expected[WORDS];
    size_t i;
    for (i = 0; i < WORDS; i++)
        pairs[i] = expected[i] = 1000 + i;
    if (answer > 0)
        memcpy(expected, filled, 2 * (size_t)answer * sizeof(uint64_t));
    check(volume_gaps(volume, VOLUME_LEN, pairs, words) == answer, what);
    check(memcmp(pairs, expected, sizeof pairs) == 0, what);
}

/* The volume and the list that a call takes. */
#define ON volume, VOLUME_LEN
#define INTO list, LIST_WORDS

int main(void)
{
    static const uint64_t one[] = {2, 14};
    static const uint64_t two[] = {2, 1, 4, 12}; /* the directory's log goes from page 2 to page 3 */

    gaps("no volume", WORDS, VOLUME_NO_VOLUME, NULL);
    check(volume_format(volume, VOLUME_LEN, 16, 8) == 0, "format");
    gaps("one stretch, a list of no words", 0, TOO_MANY_GAPS, NULL);
    gaps("one stretch, a list of one word", 1, TOO_MANY_GAPS, NULL);
    gaps("one stretch, a list of one pair", 2, 1, one);
    gaps("one stretch, a longer list", WORDS, 1, one);
    check(landed(ON, INTO, volume_create(ON, VOLUME_ROOT, (const uint8_t *)"A1", 2, INTO)), "create");
    check(landed(ON, INTO, volume_clean(ON, VOLUME_ROOT, INTO)), "clean");
    gaps("two stretches, a list of three words", 3, TOO_MANY_GAPS, NULL);
    gaps("two stretches, a list of two pairs", 4, 2, two);
    gaps("two stretches, a longer list", WORDS, 2, two);
    volume[64] = 2; /* the journal's dequeue position: the two entries of clean are open again */
    gaps("journal open, a list of no words", 0, VOLUME_JOURNAL_OPEN, NULL);
    volume[64] = 16; /* no position */
    gaps("damaged, a list of no words", 0, VOLUME_DAMAGED, NULL);
    return ended();
}
