/*
 * Tests the calls that take folders as a program in C makes them: create_folder, total and k-th name of a folder, names found, linked,
 * moved and taken away in folders, and each refusal that folders bring: 6, 16, 17 and 18.
 * The last line is "passed" or "failed" with the count of checks; the exit status is 0 where all hold.
 */
#include "check.h"
#include "host_calls.h"

#include <string.h>

enum { VOLUME_LEN = 64 * 512, LIST_WORDS = 4096, INODES = 16, TAKEN = -7, NOT_EMPTY = -17, INTO_ITSELF = -18 };

/* The inodes of the volume that `prepared` makes, each the lowest that was free: the folder "north" in the root, the folder "gate" in
   it, the folder "south" in the root, and the file "list" in "north". FREE is no inode's that is valid, and PAST no inode's. */
enum { NORTH = 1, GATE, SOUTH, LIST, FREE, PAST = INODES };

static uint8_t volume[VOLUME_LEN];
static uint64_t list[LIST_WORDS];
static const uint8_t north[] = "north", gate[] = "gate", south[] = "south", names[] = "list", other[] = "other", bad[] = "a/b";

/* A name as pointer and length. */
#define NAME(name) name, sizeof name - 1
/* The volume and the list that a call takes. */
#define ON volume, VOLUME_LEN
#define INTO list, LIST_WORDS

/* Checks that a call filled a list of so many words, and carries it out. */
static void done(const char *what, int64_t count, int64_t expected)
{
    check(count == expected, what);
    check(landed(ON, INTO, count), what);
}

/* Marks the list, to see later that a call left it alone. */
static void mark_list(void)
{
    size_t i;
    for (i = 0; i < LIST_WORDS; i++)
        list[i] = 7;
}

/* Checks that a call gave this answer, a refusal or 0, and that the marked list is as it was. */
static void not_filled(const char *what, int64_t answer, int64_t expected)
{
    size_t kept = 0;
    check(answer == expected, what);
    while (kept < LIST_WORDS && list[kept] == 7)
        kept++;
    check(kept == LIST_WORDS, what);
}

/* Checks the k-th name of a folder, and that it leads to this inode. */
static void kth_name(uint64_t folder, uint64_t k, const uint8_t *name, size_t name_len, int64_t inode)
{
    uint8_t buffer[33], expected[33] = {0};
    memset(buffer, 9, sizeof buffer);
    memcpy(expected, name, name_len);
    expected[32] = 9;
    check(volume_kth_name(ON, folder, k, buffer, sizeof buffer) == (int64_t)name_len, "kth_name");
    check(memcmp(buffer, expected, sizeof buffer) == 0, "kth_name: the name, zeros and the byte behind them");
    check(volume_find(ON, folder, name, name_len) == inode, "find of the k-th name");
}

/* Checks a refusal of kth_name, and that the buffer keeps its bytes. */
static void no_kth_name(uint64_t folder, uint64_t k, size_t len, int64_t expected)
{
    uint8_t buffer[40], before[40];
    memset(buffer, 9, sizeof buffer);
    memcpy(before, buffer, sizeof buffer);
    check(volume_kth_name(ON, folder, k, buffer, len) == expected, "kth_name refused");
    check(memcmp(buffer, before, sizeof buffer) == 0, "kth_name refused: the buffer");
}

/* Three folders and a file of 514 bytes: "north/gate", "south", "north/list". The first of them is case B with a folder. */
static void prepared(void)
{
    check(volume_format(ON, 64, INODES) == 0, "format");
    check(volume_total(ON, VOLUME_ROOT) == 0, "total of nothing");
    done("create_folder, empty log", volume_create_folder(ON, VOLUME_ROOT, NAME(north), INTO), 48);
    done("create_folder in a folder", volume_create_folder(ON, NORTH, NAME(gate), INTO), 48);
    done("create_folder, room in the log page", volume_create_folder(ON, VOLUME_ROOT, NAME(south), INTO), 46);
    done("create in a folder", volume_create(ON, NORTH, NAME(names), INTO), 46);
    done("write", volume_write(ON, LIST, 510, (const uint8_t *)"text", 4, INTO), 280);
}

static void looked_up(void)
{
    kth_name(VOLUME_ROOT, 0, NAME(north), NORTH);
    kth_name(VOLUME_ROOT, 1, NAME(south), SOUTH);
    kth_name(NORTH, 0, NAME(gate), GATE);
    kth_name(NORTH, 1, NAME(names), LIST);
    no_kth_name(VOLUME_ROOT, 2, 32, VOLUME_NOT_THERE);
    no_kth_name(NORTH, 2, 32, VOLUME_NOT_THERE);
    no_kth_name(GATE, 0, 32, VOLUME_NOT_THERE);
    no_kth_name(FREE, 0, 32, VOLUME_NOT_THERE);
    no_kth_name(PAST, 0, 32, VOLUME_NOT_THERE);
    no_kth_name(LIST, 0, 32, VOLUME_WRONG_TYPE);
    no_kth_name(LIST, UINT64_MAX, 32, VOLUME_WRONG_TYPE);
    no_kth_name(LIST, 0, 31, -1); /* short memory */
    check(volume_find(ON, GATE, NAME(names)) == VOLUME_NOT_THERE, "find in an empty folder");
    check(volume_find(ON, LIST, NAME(names)) == VOLUME_WRONG_TYPE, "find in a file");
    check(volume_find(ON, FREE, NAME(names)) == VOLUME_NOT_THERE, "find in no folder");
    check(volume_find(ON, LIST, NAME(bad)) == VOLUME_BAD_NAME, "find of a bad name in a file");
    check(volume_size(ON, LIST) == 514, "size");
    check(volume_size(ON, NORTH) == VOLUME_WRONG_TYPE, "size of a folder");
    check(volume_size(ON, VOLUME_ROOT) == VOLUME_NOT_THERE, "size of the root");
}

static void totals(void)
{
    check(volume_total(ON, VOLUME_ROOT) == 514, "total of the root");
    check(volume_total(ON, NORTH) == 514, "total of a folder");
    check(volume_total(ON, SOUTH) == 0, "total of an empty folder");
    check(volume_total(ON, LIST) == VOLUME_WRONG_TYPE, "total of a file");
    check(volume_total(ON, FREE) == VOLUME_NOT_THERE, "total of no folder");
    check(volume_total(ON, PAST) == VOLUME_NOT_THERE, "total past the inodes");
    check(volume_total(ON, UINT64_MAX) == VOLUME_NOT_THERE, "total past every inode");
}

/* Changing calls that are refused or change nothing. */
static void refusals(void)
{
    mark_list();
    not_filled("create in a file", volume_create(ON, LIST, NAME(other), INTO), VOLUME_WRONG_TYPE);
    not_filled("create in no folder", volume_create(ON, FREE, NAME(other), INTO), VOLUME_NOT_THERE);
    not_filled("create of a standing folder", volume_create(ON, NORTH, NAME(gate), INTO), TAKEN);
    not_filled("create_folder in a file", volume_create_folder(ON, LIST, NAME(other), INTO), VOLUME_WRONG_TYPE);
    not_filled("create_folder past the inodes", volume_create_folder(ON, PAST, NAME(other), INTO), VOLUME_NOT_THERE);
    not_filled("create_folder, bad name", volume_create_folder(ON, LIST, NAME(bad), INTO), VOLUME_BAD_NAME);
    not_filled("create_folder of a standing name", volume_create_folder(ON, NORTH, NAME(names), INTO), TAKEN);
    not_filled("link of a folder", volume_link(ON, VOLUME_ROOT, NAME(north), SOUTH, NAME(other), INTO), VOLUME_WRONG_TYPE);
    not_filled("link from a file", volume_link(ON, LIST, NAME(names), SOUTH, NAME(other), INTO), VOLUME_WRONG_TYPE);
    not_filled("link into a file", volume_link(ON, NORTH, NAME(names), LIST, NAME(other), INTO), VOLUME_WRONG_TYPE);
    not_filled("link into no folder", volume_link(ON, NORTH, NAME(names), FREE, NAME(other), INTO), VOLUME_NOT_THERE);
    not_filled("link from a file onto a standing name", volume_link(ON, LIST, NAME(names), VOLUME_ROOT, NAME(south), INTO), TAKEN);
    not_filled("unlink in a file", volume_unlink(ON, LIST, NAME(names), INTO), VOLUME_WRONG_TYPE);
    not_filled("unlink of a folder with names", volume_unlink(ON, VOLUME_ROOT, NAME(north), INTO), NOT_EMPTY);
    not_filled("rename onto a folder", volume_rename(ON, NORTH, NAME(names), VOLUME_ROOT, NAME(south), INTO), VOLUME_WRONG_TYPE);
    not_filled("rename of a folder onto a file", volume_rename(ON, VOLUME_ROOT, NAME(south), NORTH, NAME(names), INTO), VOLUME_WRONG_TYPE);
    not_filled("rename into a file", volume_rename(ON, NORTH, NAME(names), LIST, NAME(other), INTO), VOLUME_WRONG_TYPE);
    not_filled("rename with a file as both folders", volume_rename(ON, LIST, NAME(names), LIST, NAME(names), INTO), VOLUME_WRONG_TYPE);
    not_filled("rename into no folder", volume_rename(ON, NORTH, NAME(names), PAST, NAME(other), INTO), VOLUME_NOT_THERE);
    not_filled("rename of a folder into itself", volume_rename(ON, VOLUME_ROOT, NAME(north), NORTH, NAME(other), INTO), INTO_ITSELF);
    not_filled("rename of a folder beneath itself", volume_rename(ON, VOLUME_ROOT, NAME(north), GATE, NAME(other), INTO), INTO_ITSELF);
    not_filled("rename of a folder to its own name", volume_rename(ON, VOLUME_ROOT, NAME(north), VOLUME_ROOT, NAME(north), INTO), 0);
    not_filled("write to a folder", volume_write(ON, NORTH, 0, (const uint8_t *)"text", 4, INTO), VOLUME_WRONG_TYPE);
    not_filled("set_size of a folder", volume_set_size(ON, NORTH, 9, INTO), VOLUME_WRONG_TYPE);
    not_filled("clean of no inode's log", volume_clean(ON, FREE, INTO), VOLUME_NOT_THERE);
}

/* Names linked, moved and taken away between folders, up to an empty volume. */
static void changed(void)
{
    done("link into another folder, empty log", volume_link(ON, NORTH, NAME(names), GATE, NAME(other), INTO), 24);
    check(volume_find(ON, GATE, NAME(other)) == LIST, "find of the link");
    check(volume_total(ON, VOLUME_ROOT) == 2 * 514 && volume_total(ON, GATE) == 514, "total counts a file once for each name");
    mark_list();
    not_filled("rename of one file's name to its other", volume_rename(ON, NORTH, NAME(names), GATE, NAME(other), INTO), 0);
    done("move of a folder", volume_rename(ON, NORTH, NAME(gate), SOUTH, NAME(gate), INTO), 58);
    check(volume_total(ON, NORTH) == 514 && volume_total(ON, SOUTH) == 514, "total after the move");
    kth_name(SOUTH, 0, NAME(gate), GATE);
    done("create in another folder", volume_create(ON, SOUTH, NAME(names), INTO), 46);
    done("move over another file's last name", volume_rename(ON, NORTH, NAME(names), SOUTH, NAME(names), INTO), 62);
    check(volume_find(ON, SOUTH, NAME(names)) == LIST, "find after the move");
    check(volume_find(ON, NORTH, NAME(names)) == VOLUME_NOT_THERE, "the old name after the move");
    done("clean of a folder's log", volume_clean(ON, SOUTH, INTO), 56);
    done("unlink of a folder that was emptied", volume_unlink(ON, VOLUME_ROOT, NAME(north), INTO), 40);
    check(volume_find(ON, NORTH, NAME(names)) == VOLUME_NOT_THERE, "find in a folder that is gone");
    done("unlink of one of two names", volume_unlink(ON, GATE, NAME(other), INTO), 22);
    check(volume_size(ON, LIST) == 514, "the file keeps its other name");
    done("unlink of an empty folder in a folder", volume_unlink(ON, SOUTH, NAME(gate), INTO), 40);
    done("unlink of the file's last name", volume_unlink(ON, SOUTH, NAME(names), INTO), 40);
    done("unlink of the last folder", volume_unlink(ON, VOLUME_ROOT, NAME(south), INTO), 40);
    check(volume_total(ON, VOLUME_ROOT) == 0, "total of the emptied root");
    no_kth_name(VOLUME_ROOT, 0, 32, VOLUME_NOT_THERE);
}

int main(void)
{
    prepared();
    looked_up();
    totals();
    refusals();
    changed();
    return ended();
}
