/*
 * Measures the stack that each of the eighteen calls takes on a volume with two files in the root, and in a folder, where all of them have
 * something to do, once with few names and once with more than the small index of names holds, and checks that a reading call takes at
 * most 40 KB and a changing one at most 64 KB. The stack of total grows with the depth of the folders: it is measured with chains of them
 * too, and takes at most 400 bytes more for each level. What a thread takes that makes no call is not counted. Prints a line for each
 * call; the last line is "passed" or "failed"; the exit status is 0 where all hold.
 */
#define _XOPEN_SOURCE 600 /* pthread_attr_setstack */

#include "host_calls.h"
#include "stack.h"

#include <stdio.h>

enum {
    VOLUME_LEN = 128 * 512,
    DEEP_LEN = 512 * 512,
    LIST_WORDS = 4096,
    READING = 40 * 1024,
    CHANGING = 64 * 1024,
    LEVEL = 400, /* of total, for each level */
    LEVELS = 255,
    LINKS = 196
};

static uint8_t volume[VOLUME_LEN];
static uint8_t open_volume[VOLUME_LEN]; /* with an open journal */
static uint8_t spare[VOLUME_LEN];
static uint8_t deep[DEEP_LEN]; /* with a chain of folders */
static uint8_t bytes[4096];
static uint64_t list[LIST_WORDS];
static const uint8_t first[] = "first", second[] = "second", third[] = "third", empty[] = "empty", here[] = "here", there[] = "there";
/* The folder with the two files, the other folder that a name is moved to, and the first file. */
static uint64_t folder, other, file;

/* A name as pointer and length. */
#define NAME(name) name, sizeof name - 1
/* The volume and the list that a call takes. */
#define ON volume, sizeof volume
#define INTO list, LIST_WORDS

static int64_t make_format(void) { return volume_format(spare, sizeof spare, 128, 16); }
static int64_t make_carry_out(void) { return volume_carry_out(spare, sizeof spare, list, LIST_WORDS, 0); }
static int64_t make_find(void) { return volume_find(ON, folder, NAME(second)); }
static int64_t make_size(void) { return volume_size(ON, file); }
static int64_t make_read(void) { return volume_read(ON, file, 3, bytes, sizeof bytes); }
static int64_t make_kth_name(void) { return volume_kth_name(ON, folder, 1, bytes, sizeof bytes); }
static int64_t make_free_count(void) { return volume_free_count(ON); }
static int64_t make_gaps(void) { return volume_gaps(ON, INTO); }
static int64_t make_create(void) { return volume_create(ON, folder, NAME(third), INTO); }
static int64_t make_create_folder(void) { return volume_create_folder(ON, folder, NAME(third), INTO); }
static int64_t make_link(void) { return volume_link(ON, folder, NAME(first), other, NAME(third), INTO); }
static int64_t make_unlink(void) { return volume_unlink(ON, folder, NAME(first), INTO); }
static int64_t make_unlink_folder(void) { return volume_unlink(ON, folder, NAME(empty), INTO); }
static int64_t make_rename(void) { return volume_rename(ON, folder, NAME(first), folder, NAME(second), INTO); }
static int64_t make_move(void) { return volume_rename(ON, folder, NAME(first), other, NAME(second), INTO); }
static int64_t make_move_folder(void) { return volume_rename(ON, folder, NAME(empty), other, NAME(third), INTO); }
static int64_t make_write(void) { return volume_write(ON, file, 100, bytes, sizeof bytes, INTO); }
static int64_t make_set_size(void) { return volume_set_size(ON, file, 700, INTO); }
static int64_t make_clean(void) { return volume_clean(ON, file, INTO); }
static int64_t make_clean_folder(void) { return volume_clean(ON, folder, INTO); }
static int64_t make_recover(void) { return volume_recover(open_volume, sizeof open_volume, INTO); }
static int64_t make_total(void) { return volume_total(deep, sizeof deep, VOLUME_ROOT); }

struct call {
    const char *name;
    int64_t (*make)(void);
    size_t limit;
};

static const struct call all[] = {
    {"format", make_format, READING}, {"carry_out", make_carry_out, READING}, {"find", make_find, READING},
    {"size", make_size, READING}, {"read", make_read, READING}, {"kth_name", make_kth_name, READING},
    {"free_count", make_free_count, READING}, {"gaps", make_gaps, READING}, {"create", make_create, CHANGING},
    {"create_folder", make_create_folder, CHANGING}, {"link", make_link, CHANGING}, {"unlink", make_unlink, CHANGING},
    {"unlink of a folder", make_unlink_folder, CHANGING}, {"rename", make_rename, CHANGING}, {"move", make_move, CHANGING},
    {"move of a folder", make_move_folder, CHANGING}, {"write", make_write, CHANGING}, {"set_size", make_set_size, CHANGING},
    {"clean", make_clean, CHANGING}, {"clean of the names", make_clean_folder, CHANGING}, {"recover", make_recover, CHANGING},
};

/* Gives the first file 196 names more. */
static int many_names(void)
{
    uint8_t name[] = "a name of 32 bytes with number 0";
    int ready = 1, n;
    for (n = 0; ready && n < LINKS; n++) {
        name[sizeof name - 2] = (uint8_t)(48 + n);
        ready = landed(ON, INTO, volume_link(ON, folder, NAME(first), folder, NAME(name), INTO));
    }
    return ready;
}

/* Copies of the volume: one as it is, and one with a create cut after its second group, which is the journal's enqueue position. */
static int copied(void)
{
    int64_t count = make_create();
    uint64_t words = 0;
    int fences = 0;
    memcpy(open_volume, volume, sizeof volume);
    memcpy(spare, volume, sizeof volume);
    while (fences < 2 && words < (uint64_t)(count < 0 ? 0 : count)) {
        fences += list[words] == UINT64_MAX;
        words += 2;
    }
    return fences == 2 && volume_carry_out(open_volume, sizeof open_volume, list, LIST_WORDS, words) == 0;
}

/* A folder in another one; answers its inode. */
static uint64_t new_folder(uint64_t parent, const uint8_t *name, size_t name_len)
{
    int made = landed(ON, INTO, volume_create_folder(ON, parent, name, name_len, INTO));
    return made ? (uint64_t)volume_find(ON, parent, name, name_len) : VOLUME_ROOT;
}

/* Two files, the first with two writes, and an empty folder, in the root or in a folder of it. */
static int two_files(int in_root)
{
    int ready = volume_format(ON, 128, 16) == 0;
    other = new_folder(VOLUME_ROOT, NAME(there));
    folder = in_root ? VOLUME_ROOT : new_folder(VOLUME_ROOT, NAME(here));
    ready = ready && other != VOLUME_ROOT && in_root == (folder == VOLUME_ROOT) && new_folder(folder, NAME(empty)) != VOLUME_ROOT &&
            landed(ON, INTO, volume_create(ON, folder, NAME(first), INTO)) &&
            landed(ON, INTO, volume_create(ON, folder, NAME(second), INTO)) &&
            landed(ON, INTO, volume_create(ON, other, NAME(second), INTO));
    file = (uint64_t)volume_find(ON, folder, NAME(first));
    return ready && landed(ON, INTO, volume_write(ON, file, 0, bytes, sizeof bytes, INTO)) &&
           landed(ON, INTO, volume_write(ON, file, 1000, bytes, 600, INTO));
}

/* The bodies of the measured threads. */
static void *makes_no_call(void *call) { return call; }

static void *makes_call(void *call)
{
    return ((struct call *)call)->make() < 0 ? NULL : call;
}

/* Measures a call; answers 0 where it takes no more than its limit. */
static int measured(struct call call, const char *where)
{
    size_t alone = stack_used(makes_no_call, &call), used = stack_used(makes_call, &call);
    int holds = alone != 0 && used >= alone && used - alone <= call.limit;
    printf("stack of %s %s: %lu bytes%s\n", call.name, where, (unsigned long)(used - alone), holds ? "" : ", not ok");
    return !holds;
}

/* Measures every call but total; answers how many are not ok. */
static int all_measured(const char *where)
{
    int failures = 0;
    size_t place;
    for (place = 0; place < sizeof all / sizeof all[0]; place++)
        failures += measured(all[place], where);
    return failures;
}

/* Measures total on chains of folders; answers how many are not ok. */
static int totals_measured(void)
{
    static const uint64_t depths[] = {0, 16, LEVELS};
    struct call total = {"total", make_total, READING};
    int failures = volume_format(deep, sizeof deep, 512, 256) != 0;
    uint64_t level = 0;
    size_t place;
    for (place = 0; place < sizeof depths / sizeof depths[0]; place++) {
        char where[32];
        /* A new folder takes the lowest inode, so that each is one more than the folder that it is in. */
        for (; level < depths[place]; level++)
            failures += !landed(deep, sizeof deep, INTO, volume_create_folder(deep, sizeof deep, level, NAME(here), INTO));
        total.limit = READING + LEVEL * (size_t)level;
        sprintf(where, "with %u levels", (unsigned)level);
        failures += measured(total, where);
    }
    return failures;
}

int main(void)
{
    static const struct {
        int in_root;
        const char *few, *many;
    } wheres[] = {{1, "with few names", "with many names"}, {0, "in a folder with few names", "in a folder with many names"}};
    int failures = 0;
    size_t place;

    for (place = 0; place < sizeof wheres / sizeof wheres[0]; place++) {
        if (!two_files(wheres[place].in_root) || !copied()) {
            puts("failed: the volume could not be prepared");
            return 1;
        }
        failures += all_measured(wheres[place].few);
        if (!many_names() || !copied()) {
            puts("failed: the names could not be added");
            return 1;
        }
        failures += all_measured(wheres[place].many);
    }
    failures += totals_measured();
    printf("%s: %d calls not ok\n", failures == 0 ? "passed" : "failed", failures);
    return failures != 0;
}
