/*
 * The file store's calls for the handheld's firmware: find a name in a folder, ask a file's size, read its
 * bytes.
 *
 * Link libfirmware.a (`host/archives firmware` makes target/staticlib/libfirmware.a). It needs the memory
 * functions of the C library, memset and the like, and nothing else.
 *
 * A volume is the bytes of the persistent memory, 16 to 4,096 pages of 512 bytes. The calls take any bytes
 * and any numbers: a volume, a name or a number that is not as it should be, noise included, is refused.
 *
 * An inode is the number of a file or a folder. Inode 0 is the root: the folder that every volume has and
 * that no name leads to. All other folders lie beneath it; the names of a path are found one by one.
 *
 * Answers. 0 or more is the call's number. Below 0 it is minus the number of a refusal:
 *
 *     -2  VOLUME_NO_VOLUME     no volume     the length or the first three words break their limits
 *     -3  VOLUME_DAMAGED       damaged       behind them something is not as a volume has it
 *     -4  VOLUME_JOURNAL_OPEN  journal open  a change was cut; recover has to run first
 *     -5  VOLUME_BAD_NAME      bad name      not 1 to 32 bytes, or one of them is 0 or 47 ("/")
 *     -6  VOLUME_NOT_THERE     not there     no such name, or neither a file nor a folder has the inode
 *    -16  VOLUME_WRONG_TYPE    wrong type    a folder where a file is wanted, or a file where a folder is
 *
 * Of several refusals that apply, the one with the lowest number is answered. The numbers and words are
 * those of the screen's table; the other numbers of that table belong to calls that are not here.
 *
 * Memory. All of it is the caller's and is lent for the call alone: a call keeps no pointer, allocates
 * nothing and has no variables of its own between two calls. It reads only the bytes from a pointer up to
 * its length, and stores in none but the buffer of volume_read. A pointer is never null, even where its
 * length is 0. The buffer does not overlap the volume. No alignment is asked for.
 *
 * Threads. Calls may run at the same time, on one volume or on several, while nothing stores in the volume
 * and no two of them share a buffer.
 *
 * Stack. A call needs at most 40 KB (40,960 bytes) of stack, nearly all of it for its tables. It does not
 * recurse, and it always returns.
 *
 * Example. Read the first bytes of the file "A1" in the root:
 *
 *     uint8_t bytes[100];
 *     int64_t inode = volume_find(memory, memory_len, VOLUME_ROOT, (const uint8_t *)"A1", 2);
 *     if (inode < 0)
 *         return show_refusal(-inode);
 *     int64_t count = volume_read(memory, memory_len, (uint64_t)inode, 0, bytes, sizeof bytes);
 *     if (count < 0)
 *         return show_refusal(-count);
 *     show_bytes(bytes, (size_t)count);
 */
#ifndef VOLUME_H
#define VOLUME_H

#include <stddef.h>
#include <stdint.h>

#ifdef __cplusplus
extern "C" {
#endif

/* What a refused call answers. */
enum volume_refusal {
    VOLUME_NO_VOLUME = -2,
    VOLUME_DAMAGED = -3,
    VOLUME_JOURNAL_OPEN = -4,
    VOLUME_BAD_NAME = -5,
    VOLUME_NOT_THERE = -6,
    VOLUME_WRONG_TYPE = -16
};

/* The root's inode. */
#define VOLUME_ROOT UINT64_C(0)

/*
 * Looks a name up in the folder with this inode, on a volume of volume_len bytes. The name is name_len bytes,
 * without a 0 byte at its end.
 *
 * Answers the inode that the name leads to, 1 to 255, or a refusal: -2, -3, -4, -5, -6, -16. It is -6 where
 * there is no such folder or no such name in it, and -16, whatever the name, where the inode is a file's.
 */
int64_t volume_find(const uint8_t *volume, size_t volume_len, uint64_t folder, const uint8_t *name,
                    size_t name_len);

/*
 * Asks the size of the file with this inode.
 *
 * Answers the size in bytes, 0 to 65,536, or a refusal: -2, -3, -4, -6, -16. It is -16 where the inode is a
 * folder's, but -6 for the root.
 */
int64_t volume_size(const uint8_t *volume, size_t volume_len, uint64_t inode);

/*
 * Copies the bytes of the file with this inode, from the offset on, to the front of the buffer: as many as
 * the file has from there, and at most buffer_len. Parts of a file that were never written read as zeros.
 * The rest of the buffer keeps its bytes, and so does all of it where the call is refused.
 *
 * Answers how many bytes it copied, 0 where the offset is at or past the file's end, or a refusal, as
 * volume_size does.
 */
int64_t volume_read(const uint8_t *volume, size_t volume_len, uint64_t inode, uint64_t offset,
                    uint8_t *buffer, size_t buffer_len);

#ifdef __cplusplus
}
#endif

#endif
