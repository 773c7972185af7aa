/*
 * The calls of libhost_calls.a, for the tests in this folder. crates/host_calls/src/lib.rt says what each answers; find, size and read are
 * those of include/volume.h.
 *
 * Memory that a call stores in (the volume of format and carry_out, a buffer, a list to be filled) overlaps no other memory that it is
 * lent. A list starts at a multiple of 8, as a uint64_t does; the bytes of a volume and of names may start anywhere.
 *
 * The pairs of volume_gaps are flat, first page and length by turns: pairs_len words have room for pairs_len / 2 pairs. Where the stretches
 * of free pages are more, it answers -14, too many gaps.
 *
 * volume_create, volume_create_folder, volume_link, volume_write and volume_set_size answer -15, last page, where they would take the last
 * free page: removing files or cleaning logs gives pages back.
 *
 * volume_unlink answers -17, not empty, for a folder that has names, and volume_rename -18, into itself, where a folder would move into or
 * beneath itself.
 */
#ifndef HOST_CALLS_H
#define HOST_CALLS_H

#include "volume.h"

int64_t volume_format(uint8_t *volume, size_t volume_len, uint64_t pages, uint64_t inodes);
int64_t volume_carry_out(uint8_t *volume, size_t volume_len, const uint64_t *list, size_t list_len, uint64_t count);
int64_t volume_kth_name(const uint8_t *volume, size_t volume_len, uint64_t folder, uint64_t k, uint8_t *buffer, size_t buffer_len);
int64_t volume_total(const uint8_t *volume, size_t volume_len, uint64_t folder);
int64_t volume_free_count(const uint8_t *volume, size_t volume_len);
int64_t volume_gaps(const uint8_t *volume, size_t volume_len, uint64_t *pairs, size_t pairs_len);
int64_t volume_create(const uint8_t *volume, size_t volume_len, uint64_t folder, const uint8_t *name, size_t name_len, uint64_t *list,
                      size_t list_len);
int64_t volume_create_folder(const uint8_t *volume, size_t volume_len, uint64_t folder, const uint8_t *name, size_t name_len,
                             uint64_t *list, size_t list_len);
int64_t volume_link(const uint8_t *volume, size_t volume_len, uint64_t old_folder, const uint8_t *old_name, size_t old_len,
                    uint64_t new_folder, const uint8_t *new_name, size_t new_len, uint64_t *list, size_t list_len);
int64_t volume_unlink(const uint8_t *volume, size_t volume_len, uint64_t folder, const uint8_t *name, size_t name_len, uint64_t *list,
                      size_t list_len);
int64_t volume_rename(const uint8_t *volume, size_t volume_len, uint64_t old_folder, const uint8_t *old_name, size_t old_len,
                      uint64_t new_folder, const uint8_t *new_name, size_t new_len, uint64_t *list, size_t list_len);
int64_t volume_write(const uint8_t *volume, size_t volume_len, uint64_t inode, uint64_t offset, const uint8_t *bytes, size_t bytes_len,
                     uint64_t *list, size_t list_len);
int64_t volume_set_size(const uint8_t *volume, size_t volume_len, uint64_t inode, uint64_t size, uint64_t *list, size_t list_len);
int64_t volume_clean(const uint8_t *volume, size_t volume_len, uint64_t inode, uint64_t *list, size_t list_len);
int64_t volume_recover(const uint8_t *volume, size_t volume_len, uint64_t *list, size_t list_len);

/* Carries out the list of a call that must have something to change: whether the call was not refused and its list is carried out. */
static inline int landed(uint8_t *volume, size_t volume_len, const uint64_t *list, size_t list_len, int64_t count)
{
    return count > 0 && volume_carry_out(volume, volume_len, list, list_len, (uint64_t)count) == 0;
}

#endif
