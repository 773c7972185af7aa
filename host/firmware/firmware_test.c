/*
 * Tests the calls of include/volume.h as the firmware makes them: every answer, and every byte of lent
 * memory. The volumes are case C of document 01, written out word by word, and the same with two folders:
 * as they are, changed, and noise.
 * The last line is "passed" or "failed" with the count of checks; the exit status is 0 where all hold.
 */
#define _DEFAULT_SOURCE /* MAP_ANONYMOUS */

#include "stack.h"
#include "volume.h"

#include <inttypes.h>
#include <stdio.h>
#include <stdlib.h>
#include <string.h>
#include <sys/mman.h>

enum {
    PAGE = 512,
    VOLUME_LEN = 16 * PAGE,
    FILE_LEN = 514,
    GUARD = 4096,        /* bytes that nobody may touch, on each side of lent memory */
    ROOM = 3 * GUARD,    /* lent memory */
    MOST_LEN = 9000,     /* the longest slice that is lent */
    STACK_LIMIT = 40 * 1024,
    MANY_PAGES = 48,     /* of a volume with many names */
    MANY_NAMES = 193     /* one more than the small index of names holds */
};

static unsigned long checks, failures;

/* Counts a check, and says what does not hold; stops after twenty. */
static void check(int holds, const char *what, int64_t actual, int64_t expected)
{
    checks++;
    if (holds)
        return;
    failures++;
    printf("not ok: %s: %" PRId64 ", expected %" PRId64 "\n", what, actual, expected);
    if (failures == 20) {
        printf("failed: too many of %lu checks do not hold\n", checks);
        exit(1);
    }
}

/* Numbers for noise; the same in each run (xorshift64). */
static uint64_t any_number(void)
{
    static uint64_t state = 88172645463325252u;
    state ^= state << 13;
    state ^= state >> 7;
    state ^= state << 17;
    return state;
}

/* Memory to lend: a room between two guards. A slice ends where the room ends, and marked bytes stand before
   it, so that a byte read or stored past its end stops the program, and one stored before it shows. */
struct lent {
    uint8_t *room;
    uint8_t before[ROOM];
};

static struct lent lent_volume, lent_name, lent_buffer;

/* Makes the room and its guards. */
static void make_room(struct lent *lent)
{
    uint8_t *start = mmap(NULL, ROOM + 2 * GUARD, PROT_NONE, MAP_PRIVATE | MAP_ANONYMOUS, -1, 0);
    if (start == MAP_FAILED || mprotect(start + GUARD, ROOM, PROT_READ | PROT_WRITE) != 0) {
        printf("failed: no memory\n");
        exit(1);
    }
    lent->room = start + GUARD;
}

/* Puts bytes at the end of the room; answers where they start. */
static uint8_t *lend(struct lent *lent, const uint8_t *bytes, size_t len)
{
    uint8_t *start = lent->room + ROOM - len;
    size_t i;
    for (i = 0; i < ROOM; i++)
        lent->room[i] = (uint8_t)(0xA1 + 7 * i);
    if (len > 0)
        memcpy(start, bytes, len);
    memcpy(lent->before, lent->room, ROOM);
    return start;
}

/* Whether all bytes of the room are as they were, but `laid` bytes from `start` on. */
static int kept(const struct lent *lent, const uint8_t *start, size_t laid)
{
    size_t first = (size_t)(start - lent->room);
    size_t after = first + laid;
    return memcmp(lent->room, lent->before, first) == 0 &&
           memcmp(lent->room + after, lent->before + after, ROOM - after) == 0;
}

/* Makes the call find in a folder and checks its answer. */
static void find_in(const uint8_t *volume, size_t len, uint64_t folder, const char *name, size_t name_len,
                    int64_t expected)
{
    const uint8_t *v = lend(&lent_volume, volume, len);
    const uint8_t *n = lend(&lent_name, (const uint8_t *)name, name_len);
    int64_t answer = volume_find(v, len, folder, n, name_len);
    check(answer == expected, "find", answer, expected);
    check(kept(&lent_volume, v, 0), "find: bytes of the volume", 1, 0);
    check(kept(&lent_name, n, 0), "find: bytes of the name", 1, 0);
}

/* The same in the root. */
static void find(const uint8_t *volume, size_t len, const char *name, size_t name_len, int64_t expected)
{
    find_in(volume, len, VOLUME_ROOT, name, name_len, expected);
}

/* Makes the call size and checks its answer. */
static void size(const uint8_t *volume, size_t len, uint64_t inode, int64_t expected)
{
    const uint8_t *v = lend(&lent_volume, volume, len);
    int64_t answer = volume_size(v, len, inode);
    check(answer == expected, "size", answer, expected);
    check(kept(&lent_volume, v, 0), "size: bytes of the volume", 1, 0);
}

/* Makes the call read and checks its answer and the buffer: `bytes` has what is to be laid, if anything. */
static void read_at(const uint8_t *volume, size_t len, uint64_t inode, uint64_t offset, size_t buffer_len,
                    int64_t expected, const uint8_t *bytes)
{
    static const uint8_t old[MOST_LEN] = "what the buffer held before, and zeros after it";
    const uint8_t *v = lend(&lent_volume, volume, len);
    uint8_t *b = lend(&lent_buffer, old, buffer_len);
    size_t laid = expected > 0 ? (size_t)expected : 0;
    int64_t answer = volume_read(v, len, inode, offset, b, buffer_len);
    check(answer == expected, "read", answer, expected);
    check(kept(&lent_volume, v, 0), "read: bytes of the volume", 1, 0);
    check(kept(&lent_buffer, b, laid), "read: bytes past those read", 1, 0);
    check(laid == 0 || memcmp(b, bytes, laid) == 0, "read: the bytes read", (int64_t)offset, expected);
}

/* Makes the three calls and expects the same answer of each, a refusal. */
static void all(const uint8_t *volume, size_t len, int64_t expected)
{
    find(volume, len, "A1", 2, expected);
    find(volume, len, "", 0, expected);
    find_in(volume, len, 1, "A1", 2, expected);
    find_in(volume, len, UINT64_MAX, "A1", 2, expected);
    size(volume, len, 1, expected);
    size(volume, len, UINT64_MAX, expected);
    read_at(volume, len, 1, 0, 600, expected, NULL);
    read_at(volume, len, 0, UINT64_MAX, 0, expected, NULL);
}

/* Stores a word: 8 bytes, the lowest first. */
static void put_word(uint8_t *volume, size_t index, uint64_t value)
{
    size_t i;
    for (i = 0; i < 8; i++)
        volume[8 * index + i] = (uint8_t)(value >> (8 * i));
}

struct store {
    size_t index;
    uint64_t value;
};

static void put_words(uint8_t *volume, const struct store *stores, size_t count)
{
    size_t i;
    for (i = 0; i < count; i++)
        put_word(volume, stores[i].index, stores[i].value);
}

#define COUNT(array) (sizeof(array) / sizeof(array)[0])

/* The words of case C that are not 0, in pages 0 to 5. */
static const struct store case_c_words[] = {
    {0, 16}, {1, 8}, {2, 1},                      /* 16 pages, 8 inodes, a volume */
    {8, 2}, {9, 2},                               /* journal closed at position 2 */
    {16, 66}, {17, 0}, {18, 72}, {19, 0},         /* what create kept there */
    {64, 1}, {65, 2}, {66, 1088},                 /* inode 0: log in page 2, one entry */
    {72, 1}, {73, 5}, {74, 2624},                 /* inode 1: log in page 5, one entry */
    {128, 3}, {129, 1}, {130, 2}, {131, 12609},   /* add inode 1, 2 bytes, "A1" */
    {255, 0x6574000000000000u},                   /* page 3: "te" at its end */
    {256, 0x7478u},                               /* page 4: "xt" at its start */
    {320, 1}, {321, 0}, {322, 3}, {323, 2}, {324, 514} /* file pages 0 and 1 are pages 3 and 4, 514 bytes */
};

/* Case C: format, create "A1", write "text" at 510. Bytes that no call stored are 0xE7. */
static void put_case_c(uint8_t *volume)
{
    size_t entry;
    memset(volume, 0xE7, VOLUME_LEN);
    memset(volume, 0, 2 * PAGE);            /* header and inode table */
    memset(volume + 3 * PAGE, 0, 2 * PAGE); /* data */
    for (entry = 128; entry <= 320; entry += 192)
        memset(volume + 8 * entry, 0, 64);
    put_words(volume, case_c_words, COUNT(case_c_words));
}

/* What case C is changed by to have two folders: "F" in the root, inode 2, has the names "A1" of the file and "G";
   that folder, inode 3, has the name "b" of the file. */
static const struct store folder_words[] = {
    {66, 1152},                                   /* inode 0: two entries */
    {80, 1}, {81, 6}, {82, 3200}, {83, 1},        /* inode 2, a folder: log in page 6, two entries */
    {88, 1}, {89, 7}, {90, 3648}, {91, 1},        /* inode 3, a folder: log in page 7, one entry */
    {136, 3}, {137, 2}, {138, 1}, {139, 70},      /* add inode 2, "F" */
    {384, 3}, {385, 1}, {386, 2}, {387, 12609},   /* add inode 1, "A1" */
    {392, 3}, {393, 3}, {394, 1}, {395, 71},      /* add inode 3, "G" */
    {448, 3}, {449, 1}, {450, 1}, {451, 98}       /* add inode 1, "b" */
};

static void put_folders(uint8_t *volume)
{
    static const size_t entries[] = {136, 384, 392, 448};
    size_t i;
    put_case_c(volume);
    for (i = 0; i < COUNT(entries); i++)
        memset(volume + 8 * entries[i], 0, 64);
    put_words(volume, folder_words, COUNT(folder_words));
}

/* Case C as it is: every call with every kind of argument. */
static void accepted_volume(const uint8_t *volume)
{
    static const char long_name[] = "a name of thirty-three bytes .../";
    static const size_t lengths[] = {0, 1, 2, 3, 512, 513, 514, 600};
    uint8_t bytes[FILE_LEN] = {0};
    uint64_t offset;
    size_t i;
    memcpy(bytes + 510, "text", 4);

    find(volume, VOLUME_LEN, "A1", 2, 1);
    find(volume, VOLUME_LEN, "A", 1, VOLUME_NOT_THERE);
    find(volume, VOLUME_LEN, "A2", 2, VOLUME_NOT_THERE);
    find(volume, VOLUME_LEN, "A11", 3, VOLUME_NOT_THERE);
    find(volume, VOLUME_LEN, "a1", 2, VOLUME_NOT_THERE);
    find(volume, VOLUME_LEN, long_name, 32, VOLUME_NOT_THERE);
    find(volume, VOLUME_LEN, long_name, 33, VOLUME_BAD_NAME);
    find(volume, VOLUME_LEN, "", 0, VOLUME_BAD_NAME);
    find(volume, VOLUME_LEN, "A\0", 2, VOLUME_BAD_NAME);
    find(volume, VOLUME_LEN, "/A1", 3, VOLUME_BAD_NAME);
    find_in(volume, VOLUME_LEN, 1, "A1", 2, VOLUME_WRONG_TYPE);
    find_in(volume, VOLUME_LEN, 1, "A2", 2, VOLUME_WRONG_TYPE);
    find_in(volume, VOLUME_LEN, 1, "", 0, VOLUME_BAD_NAME);
    find_in(volume, VOLUME_LEN, 2, "", 0, VOLUME_BAD_NAME);
    find_in(volume, VOLUME_LEN, 2, "A1", 2, VOLUME_NOT_THERE);
    find_in(volume, VOLUME_LEN, 8, "A1", 2, VOLUME_NOT_THERE);
    find_in(volume, VOLUME_LEN, UINT64_MAX, "A1", 2, VOLUME_NOT_THERE);
    find_in(volume, VOLUME_LEN, UINT64_C(1) << 32, "A1", 2, VOLUME_NOT_THERE);

    size(volume, VOLUME_LEN, 1, FILE_LEN);
    size(volume, VOLUME_LEN, 0, VOLUME_NOT_THERE);
    size(volume, VOLUME_LEN, 2, VOLUME_NOT_THERE);
    size(volume, VOLUME_LEN, 7, VOLUME_NOT_THERE);
    size(volume, VOLUME_LEN, 8, VOLUME_NOT_THERE);
    size(volume, VOLUME_LEN, UINT64_MAX, VOLUME_NOT_THERE);
    size(volume, VOLUME_LEN, (UINT64_C(1) << 32) + 1, VOLUME_NOT_THERE);

    for (offset = 0; offset < FILE_LEN; offset++)
        for (i = 0; i < COUNT(lengths); i++) {
            uint64_t left = FILE_LEN - offset;
            uint64_t count = lengths[i] < left ? lengths[i] : left;
            read_at(volume, VOLUME_LEN, 1, offset, lengths[i], (int64_t)count, bytes + offset);
        }
    read_at(volume, VOLUME_LEN, 1, FILE_LEN, 20, 0, NULL);
    read_at(volume, VOLUME_LEN, 1, 65536, 20, 0, NULL);
    read_at(volume, VOLUME_LEN, 1, UINT64_MAX, 20, 0, NULL);
    read_at(volume, VOLUME_LEN, 0, 0, 20, VOLUME_NOT_THERE, NULL);
    read_at(volume, VOLUME_LEN, 2, 0, 20, VOLUME_NOT_THERE, NULL);
    read_at(volume, VOLUME_LEN, UINT64_MAX, UINT64_MAX, 20, VOLUME_NOT_THERE, NULL);
}

/* A path found name by name, and a folder given where a file is wanted. */
static void folders(const uint8_t *volume)
{
    uint64_t folder;
    find(volume, VOLUME_LEN, "A1", 2, 1);
    find(volume, VOLUME_LEN, "F", 1, 2);
    find(volume, VOLUME_LEN, "G", 1, VOLUME_NOT_THERE);
    find(volume, VOLUME_LEN, "F/G", 3, VOLUME_BAD_NAME);
    find_in(volume, VOLUME_LEN, 2, "G", 1, 3);
    find_in(volume, VOLUME_LEN, 2, "A1", 2, 1);
    find_in(volume, VOLUME_LEN, 2, "F", 1, VOLUME_NOT_THERE);
    find_in(volume, VOLUME_LEN, 2, "..", 2, VOLUME_NOT_THERE);
    find_in(volume, VOLUME_LEN, 2, "", 0, VOLUME_BAD_NAME);
    find_in(volume, VOLUME_LEN, 3, "b", 1, 1);
    find_in(volume, VOLUME_LEN, 3, "A1", 2, VOLUME_NOT_THERE);
    find_in(volume, VOLUME_LEN, 1, "b", 1, VOLUME_WRONG_TYPE);
    find_in(volume, VOLUME_LEN, 4, "b", 1, VOLUME_NOT_THERE);
    size(volume, VOLUME_LEN, 1, FILE_LEN);
    size(volume, VOLUME_LEN, 0, VOLUME_NOT_THERE);
    read_at(volume, VOLUME_LEN, 0, 0, 20, VOLUME_NOT_THERE, NULL);
    for (folder = 2; folder <= 3; folder++) {
        size(volume, VOLUME_LEN, folder, VOLUME_WRONG_TYPE);
        read_at(volume, VOLUME_LEN, folder, 0, 20, VOLUME_WRONG_TYPE, NULL);
        read_at(volume, VOLUME_LEN, folder, UINT64_MAX, 0, VOLUME_WRONG_TYPE, NULL);
    }
    read_at(volume, VOLUME_LEN, 1, 510, 20, 4, (const uint8_t *)"text");
}

/* The type words of inode 0 and of an inode that is not valid are not read. */
static void unread_types(const uint8_t *volume)
{
    uint8_t changed[VOLUME_LEN];
    memcpy(changed, volume, VOLUME_LEN);
    put_word(changed, 67, UINT64_MAX);
    put_word(changed, 99, 7);
    folders(changed);
}

/* Case C with its data in file pages 1 and 2: file page 0 is unmapped and reads as zeros. */
static void file_with_a_hole(const uint8_t *volume)
{
    uint8_t changed[VOLUME_LEN];
    uint8_t bytes[PAGE + FILE_LEN] = {0};
    memcpy(bytes + PAGE + 510, "text", 4);
    memcpy(changed, volume, VOLUME_LEN);
    put_word(changed, 321, 1);
    put_word(changed, 324, sizeof bytes);
    find(changed, VOLUME_LEN, "A1", 2, 1);
    size(changed, VOLUME_LEN, 1, sizeof bytes);
    read_at(changed, VOLUME_LEN, 1, 0, 2000, sizeof bytes, bytes);
    read_at(changed, VOLUME_LEN, 1, 500, 20, 20, bytes + 500);
}

/* A few words to change, so that the volume is refused in this way. */
struct change {
    struct store stores[4]; /* up to one that is all 0 */
    int64_t refusal;
};

/* Makes the calls on copies of the volume, each with one of the changes. */
static void changed_volumes(const uint8_t *volume, const struct change *changes, size_t count)
{
    uint8_t changed[VOLUME_LEN];
    size_t i, j;
    for (i = 0; i < count; i++) {
        memcpy(changed, volume, VOLUME_LEN);
        for (j = 0; j < 4; j++)
            if (changes[i].stores[j].index != 0 || changes[i].stores[j].value != 0)
                put_word(changed, changes[i].stores[j].index, changes[i].stores[j].value);
        all(changed, VOLUME_LEN, changes[i].refusal);
    }
}

/* Changes of case C. */
static const struct change case_c_changes[] = {
    {{{0, 15}}, VOLUME_NO_VOLUME},
    {{{0, 17}}, VOLUME_NO_VOLUME},
    {{{0, UINT64_MAX}}, VOLUME_NO_VOLUME},
    {{{1, 9}}, VOLUME_NO_VOLUME},
    {{{1, 104}}, VOLUME_NO_VOLUME},
    {{{2, 0}}, VOLUME_NO_VOLUME},
    {{{2, 0}, {72, 2}}, VOLUME_NO_VOLUME},                     /* damaged too: the lower number counts */
    {{{8, 16}, {9, 16}}, VOLUME_DAMAGED},                      /* a position that is none */
    {{{8, 13}, {42, 81}, {44, 82}, {46, 89}}, VOLUME_DAMAGED}, /* five open entries */
    {{{8, 1}, {18, 75}}, VOLUME_DAMAGED},                      /* open, with a target that is none */
    {{{8, 0}, {16, 81}, {18, 81}}, VOLUME_DAMAGED},            /* open, the same target twice */
    {{{64, 0}}, VOLUME_DAMAGED},                               /* no directory */
    {{{72, 0}}, VOLUME_DAMAGED},                               /* a name without a file */
    {{{80, 1}}, VOLUME_DAMAGED},                               /* a file without a name */
    {{{80, 2}}, VOLUME_DAMAGED},                               /* neither valid nor invalid */
    {{{75, 1}}, VOLUME_DAMAGED},                               /* a folder with a file's log */
    {{{75, 2}}, VOLUME_DAMAGED},                               /* no type */
    {{{75, UINT64_C(1) << 56}}, VOLUME_DAMAGED},
    {{{66, 1056}}, VOLUME_DAMAGED},                            /* a tail inside an entry */
    {{{74, 2560}}, VOLUME_DAMAGED},                            /* a tail at a page's start */
    {{{65, 1}}, VOLUME_DAMAGED},                               /* a log in the inode table */
    {{{73, UINT64_MAX}}, VOLUME_DAMAGED},                      /* a log nowhere */
    {{{128, 5}}, VOLUME_DAMAGED},                              /* no kind of entry */
    {{{128, 1}}, VOLUME_DAMAGED},                              /* a file's kind in the directory */
    {{{129, 8}}, VOLUME_DAMAGED},                              /* no inode */
    {{{130, 3}}, VOLUME_DAMAGED},                              /* a 0 in a name */
    {{{130, 33}}, VOLUME_DAMAGED},                             /* a long name */
    {{{131, 0x2F41}}, VOLUME_DAMAGED},                         /* a "/" in a name */
    {{{134, 1}}, VOLUME_DAMAGED},                              /* a byte after a name */
    {{{321, 127}}, VOLUME_DAMAGED},                            /* file pages past the last */
    {{{322, 4}}, VOLUME_DAMAGED},                              /* the log's page holds data */
    {{{322, 2}}, VOLUME_DAMAGED},                              /* the directory's page holds data */
    {{{322, 15}}, VOLUME_DAMAGED},                             /* data pages past the last */
    {{{323, UINT64_MAX}}, VOLUME_DAMAGED},                     /* a sum that wraps */
    {{{324, 65537}}, VOLUME_DAMAGED},                          /* a long file */
    {{{324, 512}}, VOLUME_DAMAGED},                            /* a page behind the end */
    {{{319, UINT64_C(1) << 56}}, VOLUME_DAMAGED},              /* a byte behind the end, the last of its page */
    {{{8, 0}}, VOLUME_JOURNAL_OPEN},                           /* create of "A1" is open */
    {{{8, 0}, {66, 7}, {72, 7}}, VOLUME_JOURNAL_OPEN},         /* open targets are read from the journal */
    {{{8, 1}, {19, 1}}, VOLUME_JOURNAL_OPEN}
};

/* Changes of the volume with folders. */
static const struct change folder_changes[] = {
    {{{83, 0}}, VOLUME_DAMAGED},                               /* a file with a folder's log */
    {{{91, 2}}, VOLUME_DAMAGED},                               /* no type */
    {{{137, 1}}, VOLUME_DAMAGED},                              /* a folder without a name */
    {{{385, 2}}, VOLUME_DAMAGED},                              /* a folder with two names, one in itself */
    {{{449, 2}}, VOLUME_DAMAGED},                              /* a folder with two names, one beneath it */
    {{{449, 3}}, VOLUME_DAMAGED},
    {{{137, 1}, {449, 2}}, VOLUME_DAMAGED},                    /* two folders in each other, out of the root's reach */
    {{{137, 1}, {393, 2}, {88, 0}}, VOLUME_DAMAGED},           /* a folder in itself */
    {{{449, 4}}, VOLUME_DAMAGED},                              /* a name of an inode that is not valid */
    {{{449, 0}}, VOLUME_DAMAGED},                              /* a name of the root */
    {{{88, 0}}, VOLUME_DAMAGED},
    {{{448, 1}}, VOLUME_DAMAGED},                              /* a file's kind in a folder */
    {{{89, 6}}, VOLUME_DAMAGED},                               /* two folders with one log */
    {{{90, 3584}}, VOLUME_DAMAGED},                            /* a tail at a page's start */
    {{{2, 0}, {83, 2}}, VOLUME_NO_VOLUME},
    {{{8, 1}, {18, 83}}, VOLUME_DAMAGED},                      /* open, with a type word as target */
    {{{8, 1}, {18, 82}, {19, 3200}}, VOLUME_JOURNAL_OPEN},
    {{{8, 1}, {18, 82}, {19, 3136}}, VOLUME_DAMAGED}           /* put back, "G" has no name */
};

/* Slices that are too short or too long. */
static void wrong_lengths(const uint8_t *volume)
{
    uint8_t longer[MOST_LEN] = {0};
    size_t len;
    memcpy(longer, volume, VOLUME_LEN);
    for (len = 0; len < 40; len++)
        all(longer, len, VOLUME_NO_VOLUME);
    for (len = VOLUME_LEN - 20; len < VOLUME_LEN + 600; len++)
        if (len != VOLUME_LEN)
            all(longer, len, VOLUME_NO_VOLUME);
}

/* Random bytes, without a header and with one. */
static void noise(void)
{
    uint8_t bytes[MOST_LEN];
    size_t i, round;
    for (round = 0; round < 200; round++) {
        for (i = 0; i < sizeof bytes; i++)
            bytes[i] = (uint8_t)any_number();
        all(bytes, (size_t)(any_number() % MOST_LEN), VOLUME_NO_VOLUME);
        all(bytes, VOLUME_LEN, VOLUME_NO_VOLUME);
        put_word(bytes, 0, 16);
        put_word(bytes, 1, 8);
        put_word(bytes, 2, 1);
        all(bytes, VOLUME_LEN, VOLUME_DAMAGED);
    }
}

/* Whether an answer is a refusal that a changed volume may get. */
static int refused(int64_t answer)
{
    return (answer <= VOLUME_NO_VOLUME && answer >= VOLUME_NOT_THERE) || answer == VOLUME_WRONG_TYPE;
}

/* Every bit of a volume flipped, one at a time: an answer that may be, in the free pages the same answer, and
   lent memory as it was. The free pages begin behind so many; "A1" is found in a folder. */
static void every_bit(const uint8_t *volume, size_t used, uint64_t folder)
{
    uint8_t changed[VOLUME_LEN];
    size_t bit;
    memcpy(changed, volume, VOLUME_LEN);
    for (bit = 0; bit < 8 * VOLUME_LEN; bit++) {
        int free_page = bit >= 8 * used * PAGE;
        const uint8_t *v;
        uint8_t *b;
        int64_t inode, len, count;
        changed[bit / 8] ^= (uint8_t)(1u << (bit % 8));
        v = lend(&lent_volume, changed, VOLUME_LEN);
        b = lend(&lent_buffer, volume, 600);
        inode = volume_find(v, VOLUME_LEN, folder, (const uint8_t *)"A1", 2);
        len = volume_size(v, VOLUME_LEN, 1);
        count = volume_read(v, VOLUME_LEN, 1, 0, b, 600);
        check(inode == 1 || (!free_page && refused(inode)), "find with a flipped bit", inode, 1);
        check(len == FILE_LEN || (!free_page && (refused(len) || (len >= 0 && len <= 65536))),
              "size with a flipped bit", len, FILE_LEN);
        check(count == (len > 600 ? 600 : len), "read with a flipped bit", count, len);
        check(kept(&lent_volume, v, 0), "flipped bit: bytes of the volume", 1, 0);
        check(kept(&lent_buffer, b, count > 0 ? (size_t)count : 0), "flipped bit: bytes past those read", 1, 0);
        changed[bit / 8] ^= (uint8_t)(1u << (bit % 8));
    }
}

/* Gives a folder of a volume of 48 pages, whose log has one page with `standing` names, names of four digits up to 193, which lead to
   inode 1 too: its log goes on in pages 8, 9, ... */
static void put_many_names(uint8_t *volume, size_t folder, size_t log_page, size_t standing)
{
    size_t n, page = log_page;
    put_word(volume, 0, MANY_PAGES);
    for (n = standing; n < MANY_NAMES; n++) {
        size_t place = n % 7, index;
        char name[8] = {0};
        if (place == 0) {
            put_word(volume, 64 * page + 56, n / 7 + 7);
            page = n / 7 + 7;
        }
        index = 64 * page + 8 * place;
        sprintf(name, "%04u", (unsigned)n);
        memset(volume + 8 * index, 0, 64);
        put_word(volume, index, 3);
        put_word(volume, index + 1, 1);
        put_word(volume, index + 2, 4);
        memcpy(volume + 8 * index + 24, name, 4);
    }
    put_word(volume, 66 + 8 * folder, PAGE * page + 64 * (MANY_NAMES % 7));
}

/* A volume and its length, and a folder with the name "A1", for a thread of its own. */
struct lent_bytes {
    uint8_t *volume;
    size_t len;
    uint64_t folder;
};

/* The three calls. */
static void *three_calls(void *argument)
{
    static uint8_t buffer[600];
    const struct lent_bytes *lent = argument;
    int64_t sum = volume_find(lent->volume, lent->len, lent->folder, (const uint8_t *)"A1", 2);
    sum += volume_size(lent->volume, lent->len, 1);
    sum += volume_read(lent->volume, lent->len, 1, 0, buffer, sizeof buffer);
    return sum == 1 + FILE_LEN + FILE_LEN ? argument : NULL;
}

/* A thread that makes no call, to know what a thread itself takes. */
static void *no_calls(void *argument)
{
    return argument;
}

/* The calls need no more stack than include/volume.h says, with few names and with many, in the root and in a folder. */
static void stack_need(uint8_t *volume, size_t len, uint64_t folder, const char *what)
{
    struct lent_bytes lent;
    size_t alone, all;
    lent.volume = volume;
    lent.len = len;
    lent.folder = folder;
    alone = stack_used(no_calls, &lent);
    all = stack_used(three_calls, &lent);
    check(alone != 0 && all > alone, what, (int64_t)all, (int64_t)alone);
    check(all - alone <= STACK_LIMIT, what, (int64_t)(all - alone), STACK_LIMIT);
    printf("stack with %s: %lu bytes\n", what, (unsigned long)(all - alone));
}

int main(void)
{
    static uint8_t volume[VOLUME_LEN], with_folders[VOLUME_LEN], many[MANY_PAGES * PAGE];
    make_room(&lent_volume);
    make_room(&lent_name);
    make_room(&lent_buffer);
    put_case_c(volume);
    accepted_volume(volume);
    file_with_a_hole(volume);
    changed_volumes(volume, case_c_changes, COUNT(case_c_changes));
    wrong_lengths(volume);
    noise();
    every_bit(volume, 6, VOLUME_ROOT);
    put_folders(with_folders);
    folders(with_folders);
    unread_types(with_folders);
    changed_volumes(with_folders, folder_changes, COUNT(folder_changes));
    every_bit(with_folders, 8, 2);
    stack_need(volume, sizeof volume, VOLUME_ROOT, "one name");
    stack_need(with_folders, sizeof with_folders, 2, "two names of a folder");
    put_case_c(many);
    put_many_names(many, VOLUME_ROOT, 2, 1);
    stack_need(many, sizeof many, VOLUME_ROOT, "193 names");
    put_folders(many);
    put_many_names(many, 2, 6, 2);
    stack_need(many, sizeof many, 2, "193 names of a folder");
    printf("%s: %lu checks, %lu do not hold\n", failures == 0 ? "passed" : "failed", checks, failures);
    return failures == 0 ? 0 : 1;
}
