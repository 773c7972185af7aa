/*
 * Carries out a store list on persistent memory: each pair as one 8-byte store, and at each fence all lines stored since the last one are
 * written back and waited for. The list is one that a changing call has filled; docs/FIRMWARE.md says what the board owes.
 *
 * The board gives two functions:
 *
 *     write_back(address)   starts writing the cache line at this address back to the memory
 *     wait()                returns when every line written back so far is in the part of the machine that keeps its content without power
 *
 * On x86-64 with clwb these are `_mm_clwb(address)` and `_mm_sfence()`; on Armv8.2 `dc cvap` and `dsb sy`. A board whose memory is not
 * cached gives an empty write_back and the barrier of its memory controller as wait.
 */
#ifndef STORE_LIST_H
#define STORE_LIST_H

#include <stddef.h>
#include <stdint.h>

#ifdef __cplusplus
extern "C" {
#endif

/* What the board gives. */
struct store_list_board {
    void (*write_back)(const volatile void *address);
    void (*wait)(void);
};

/* The index that makes a pair a fence. */
#define STORE_LIST_FENCE UINT64_MAX

/*
 * Carries out the first count words of a list on a memory of so many words, aligned to 8 bytes; its order of bytes is little-endian.
 *
 * Answers 1. Answers 0, and stores nothing, where count is odd, an index lies past the memory, a fence's value is not 0 or the last pair
 * is no fence: no changing call fills such a list. A count of 0 stores nothing and answers 1.
 */
static inline int store_list_carry_out(volatile uint64_t *memory, size_t words, const uint64_t *list, size_t count,
                                       const struct store_list_board *board)
{
    size_t first = 0; /* the first pair of the group */
    size_t at;

    if (count % 2 != 0 || (count != 0 && list[count - 2] != STORE_LIST_FENCE))
        return 0;
    for (at = 0; at < count; at += 2) {
        if (list[at] == STORE_LIST_FENCE ? list[at + 1] != 0 : list[at] >= words)
            return 0;
    }
    for (at = 0; at < count; at += 2) {
        if (list[at] != STORE_LIST_FENCE) {
            memory[list[at]] = list[at + 1];
            continue;
        }
        for (; first < at; first += 2)
            board->write_back(&memory[list[first]]);
        board->wait();
        first = at + 2;
    }
    return 1;
}

#ifdef __cplusplus
}
#endif

#endif
