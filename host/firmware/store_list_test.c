/*
 * Tests include/store_list.h: lists that the calls fill, carried out as a board does it. At each fence the memory must hold what
 * volume_carry_out makes of the list up to that fence, and every line stored since the last fence must have been written back.
 * Lists that no call fills must be refused and store nothing.
 * The last line is "passed" or "failed" with the count of checks; the exit status is 0 where all hold.
 */
#include "check.h"
#include "host_calls.h"
#include "store_list.h"

#include <string.h>

enum { WORDS = 64 * 64, LINE_WORDS = 8, LIST_WORDS = 4096 };

static uint64_t memory[WORDS];     /* what the board's processor sees */
static uint64_t persistent[WORDS]; /* what is written back */
static uint64_t expected[WORDS];   /* what volume_carry_out makes of the list up to a fence */
static uint64_t list[LIST_WORDS];
static size_t at_fence; /* the words of the list up to the last fence */

/* The board's write_back: the line that holds this address. */
static void write_back(const volatile void *address)
{
    size_t word = (size_t)((const volatile uint64_t *)address - memory);
    size_t line = word - word % LINE_WORDS;
    memcpy(&persistent[line], &memory[line], LINE_WORDS * sizeof(uint64_t));
}

/* The board's wait: here the memory must hold the list up to the next fence. */
static void wait(void)
{
    while (list[at_fence] != STORE_LIST_FENCE)
        at_fence += 2;
    at_fence += 2;
    check(volume_carry_out((uint8_t *)expected, sizeof expected, list, LIST_WORDS, at_fence) == 0, "the list up to a fence is a list");
    check(memcmp(persistent, expected, sizeof expected) == 0, "at a fence the memory holds the list up to it");
}

static const struct store_list_board board = {write_back, wait};

/* Carries a call's list out, the first fences of it or all. */
static void carry_out(const char *call, int64_t count, int fences)
{
    size_t words = 0;

    check(count > 0, call);
    if (count <= 0)
        return;
    while (words < (size_t)count && fences > 0) {
        fences -= list[words] == STORE_LIST_FENCE;
        words += 2;
    }
    at_fence = 0;
    memcpy(expected, memory, sizeof memory);
    check(store_list_carry_out(memory, WORDS, list, words, &board) == 1, call);
    check(at_fence == words, "each fence waits once");
    check(memcmp(memory, persistent, sizeof memory) == 0, "everything stored is written back");
}

/* A list that no call fills: refused, and nothing stored. */
static void refused(const char *what, size_t words, const uint64_t *wrong, size_t count)
{
    memcpy(expected, memory, sizeof memory);
    check(store_list_carry_out(memory, words, wrong, count, &board) == 0, what);
    check(memcmp(memory, expected, sizeof memory) == 0, "a refused list stores nothing");
}

static void calls_on_a_board(void)
{
    static uint8_t bytes[4096];
    const uint8_t *volume = (const uint8_t *)memory;
    const uint8_t *name = (const uint8_t *)"A1";
    const uint64_t folder = 2; /* the inode that create_folder takes */
    const int all = 1000;

    memset(bytes, 7, sizeof bytes);
    check(volume_format((uint8_t *)memory, sizeof memory, 64, 16) == 0, "format");
    memcpy(persistent, memory, sizeof memory); /* the fence after format */
    carry_out("create", volume_create(volume, sizeof memory, VOLUME_ROOT, name, 2, list, LIST_WORDS), all);
    carry_out("write", volume_write(volume, sizeof memory, 1, 100, bytes, sizeof bytes, list, LIST_WORDS), all);
    carry_out("create_folder", volume_create_folder(volume, sizeof memory, VOLUME_ROOT, (const uint8_t *)"F", 1, list, LIST_WORDS), all);
    carry_out("create in a folder", volume_create(volume, sizeof memory, folder, name, 2, list, LIST_WORDS), all);
    carry_out("move over a file's last name, cut after two groups",
              volume_rename(volume, sizeof memory, VOLUME_ROOT, name, 2, folder, name, 2, list, LIST_WORDS), 2);
    carry_out("recover", volume_recover(volume, sizeof memory, list, LIST_WORDS), all);
    carry_out("move over a file's last name",
              volume_rename(volume, sizeof memory, VOLUME_ROOT, name, 2, folder, name, 2, list, LIST_WORDS), all);
    carry_out("move back", volume_rename(volume, sizeof memory, folder, name, 2, VOLUME_ROOT, name, 2, list, LIST_WORDS), all);
    carry_out("unlink, cut after two groups", volume_unlink(volume, sizeof memory, VOLUME_ROOT, name, 2, list, LIST_WORDS), 2);
    carry_out("recover", volume_recover(volume, sizeof memory, list, LIST_WORDS), all);
    carry_out("unlink", volume_unlink(volume, sizeof memory, VOLUME_ROOT, name, 2, list, LIST_WORDS), all);
}

static void wrong_lists(void)
{
    const uint64_t past[] = {WORDS, 1, STORE_LIST_FENCE, 0};
    const uint64_t no_fence[] = {100, 1, 101, 1};
    const uint64_t fence_value[] = {100, 1, STORE_LIST_FENCE, 1};
    const uint64_t fine[] = {100, 1, STORE_LIST_FENCE, 0};

    refused("an index past the memory", WORDS, past, 4);
    refused("no fence at the end", WORDS, no_fence, 4);
    refused("a fence with a value", WORDS, fence_value, 4);
    refused("an odd count", WORDS, fine, 3);
    check(store_list_carry_out(memory, WORDS, fine, 0, &board) == 1, "a count of 0");
}

int main(void)
{
    calls_on_a_board();
    wrong_lists();
    return ended();
}
