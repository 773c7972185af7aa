/*
 * Prints one file of a volume as the handheld's firmware reads it: with find, size and read of include/volume.h alone.
 *
 * Use: print_file VOLUME PATH. The volume is a file of the host, which stands for the persistent memory. The path is a name in the root,
 * or names joined by "/": those of folders, each in the one before it, and last the file's. The exit status is 0 where the file was
 * printed, 1 where a call was refused (the refusal's number is printed), 2 where the host has no such file.
 */
#include "volume.h"

#include <inttypes.h>
#include <stdio.h>
#include <string.h>

enum { VOLUME_MOST = 4096 * 512, FILE_MOST = 65536 };

static uint8_t memory[VOLUME_MOST];
static uint8_t bytes[FILE_MOST];

/* Says which call was refused; answers the exit status. */
static int refused(const char *call, int64_t answer)
{
    printf("%s: refused %" PRId64 "\n", call, -answer);
    return 1;
}

/* Finds the names of a path one by one, each in the folder that the one before it leads to. Answers the last one's inode, or the first
   refusal. */
static int64_t find_path(size_t memory_len, const char *path)
{
    int64_t inode = (int64_t)VOLUME_ROOT;
    for (;;) {
        size_t name_len = strcspn(path, "/");
        inode = volume_find(memory, memory_len, (uint64_t)inode, (const uint8_t *)path, name_len);
        if (inode < 0 || path[name_len] == '\0')
            return inode;
        path += name_len + 1;
    }
}

/* Prints the file at this path, or the first refusal. */
static int print_file(size_t memory_len, const char *path)
{
    int64_t inode = find_path(memory_len, path);
    if (inode < 0)
        return refused("find", inode);
    int64_t size = volume_size(memory, memory_len, (uint64_t)inode);
    if (size < 0)
        return refused("size", size);
    int64_t count = volume_read(memory, memory_len, (uint64_t)inode, 0, bytes, (size_t)size);
    if (count < 0)
        return refused("read", count);
    fwrite(bytes, 1, (size_t)count, stdout);
    return 0;
}

int main(int argc, char **argv)
{
    if (argc != 3) {
        fputs("usage: print_file VOLUME PATH\n", stderr);
        return 2;
    }
    FILE *volume = fopen(argv[1], "rb");
    if (volume == NULL) {
        perror(argv[1]);
        return 2;
    }
    size_t memory_len = fread(memory, 1, sizeof memory, volume);
    fclose(volume);
    return print_file(memory_len, argv[2]);
}
