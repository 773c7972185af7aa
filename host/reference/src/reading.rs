//! The reading calls: find, size, read, k-th name, total, count of free pages, gaps; and the
//! listing.

use crate::accept::{judge_closed, Volume};
use crate::calls::{check_folder, check_inode, check_name, find_file, find_name};
use crate::layout::{LISTING_BYTES, NAME_BYTES, ROOT};
use crate::{Answer, Refusal};

/// Find: answers the inode that a name leads to in a folder. The refusals are 2, 3, 4, 5, 6 and 16.
pub fn find(volume: &[u8], folder: u64, name: &[u8]) -> Answer {
    let volume = judge_closed(volume)?;
    check_name(name)?;
    check_inode(&volume, folder)?;
    let found = find_name(&volume, folder, name)?;
    found.ok_or(Refusal::WrongType)
}

/// Size: answers a file's size. The refusals are 2, 3, 4, 6 (inode 0 too) and 16.
pub fn size(volume: &[u8], inode: u64) -> Answer {
    let volume = judge_closed(volume)?;
    Ok(find_file(&volume, inode)?.size)
}

/// Read: copies the file's bytes from the offset on, as many as it has and the buffer takes.
///
/// Answers the count of bytes read; the rest of the buffer keeps its bytes. The refusals are 2, 3,
/// 4, 6 (inode 0 too) and 16.
pub fn read(volume: &[u8], inode: u64, offset: u64, buffer: &mut [u8]) -> Answer {
    let volume = judge_closed(volume)?;
    let file = find_file(&volume, inode)?;
    let count = file.size.saturating_sub(offset).min(buffer.len() as u64);
    volume.copy_file(file, offset, &mut buffer[..count as usize]);
    Ok(count)
}

/// K-th name of a folder (k from 0): writes the name and zeros after it, 32 bytes; bytes past 32
/// stay.
///
/// Answers the name's length. The refusals are 1, 2, 3, 4, 6 and 16.
pub fn kth_name(volume: &[u8], folder: u64, k: u64, buffer: &mut [u8]) -> Answer {
    let field: &mut [u8; NAME_BYTES] = buffer.first_chunk_mut().ok_or(Refusal::ShortMemory)?;
    let volume = judge_closed(volume)?;
    check_inode(&volume, folder)?;
    let names = volume.folders.get(&folder).ok_or(Refusal::WrongType)?;
    let (name, _) = usize::try_from(k)
        .ok()
        .and_then(|k| names.get(k))
        .ok_or(Refusal::NotThere)?;
    field.fill(0);
    field[..name.len()].copy_from_slice(name);
    Ok(name.len() as u64)
}

/// Total: answers the bytes beneath a folder. The refusals are 2, 3, 4, 6 and 16.
///
/// Order 6: "the bytes beneath a folder are the sum over its names, where a file counts its size
/// once for each name and a folder counts what lies beneath it."
///
/// ```
/// use reference::{carry_out, create, create_folder, format, link, set_size, total, Refusal};
///
/// let mut volume = vec![0; 16 * 512];
/// let mut list = vec![0; 4096];
/// format(&mut volume, 16, 8)?;
/// let count = create_folder(&volume, 0, b"field", &mut list)?; // inode 1
/// carry_out(&mut volume, &list, count)?;
/// let count = create(&volume, 1, b"A1", &mut list)?; // inode 2
/// carry_out(&mut volume, &list, count)?;
/// let count = set_size(&volume, 2, 700, &mut list)?;
/// carry_out(&mut volume, &list, count)?;
/// assert_eq!([total(&volume, 1)?, total(&volume, 0)?], [700, 700]);
///
/// let count = link(&volume, 1, b"A1", 0, b"also", &mut list)?;
/// carry_out(&mut volume, &list, count)?;
/// assert_eq!([total(&volume, 1)?, total(&volume, 0)?], [700, 1_400]);
/// assert_eq!(total(&volume, 2), Err(Refusal::WrongType));
/// # Ok::<(), Refusal>(())
/// ```
pub fn total(volume: &[u8], folder: u64) -> Answer {
    let volume = judge_closed(volume)?;
    check_inode(&volume, folder)?;
    check_folder(&volume, folder)?;
    Ok(volume.total(folder))
}

/// Count of free pages. The refusals are 2, 3 and 4.
pub fn free_count(volume: &[u8]) -> Answer {
    Ok(judge_closed(volume)?.free_pages())
}

/// Gaps: fills in the stretches of free pages, each as a pair of its first page and its length.
///
/// The pairs are sorted by first page, each is the longest stretch possible and none is there
/// twice, so that the lengths add up to the count of free pages. The list is flat, `[first, length,
/// first, length, ..]`: one of n words has room for n / 2 pairs, and an odd last word is never
/// filled. Answers the count of pairs filled; later pairs keep their content. The refusals are 2, 3,
/// 4 and 14, a list of fewer pairs than there are stretches.
///
/// ```
/// use reference::{carry_out, clean, create, format, gaps, Refusal};
///
/// let mut volume = vec![0; 16 * 512];
/// format(&mut volume, 16, 8)?;
/// let mut pairs = [7; 6];
/// assert_eq!(gaps(&volume, &mut pairs), Ok(1));
/// assert_eq!(pairs, [2, 14, 7, 7, 7, 7]);
///
/// let mut list = vec![0; 4096];
/// let count = create(&volume, 0, b"A1", &mut list)?;
/// carry_out(&mut volume, &list, count)?;
/// let count = clean(&volume, 0, &mut list)?; // the directory's log goes from page 2 to page 3
/// carry_out(&mut volume, &list, count)?;
/// assert_eq!(gaps(&volume, &mut pairs), Ok(2));
/// assert_eq!(pairs, [2, 1, 4, 12, 7, 7]);
/// assert_eq!(gaps(&volume, &mut pairs[..3]), Err(Refusal::TooManyGaps));
/// # Ok::<(), Refusal>(())
/// ```
pub fn gaps(volume: &[u8], pairs: &mut [u64]) -> Answer {
    let stretches = judge_closed(volume)?.free_stretches();
    if stretches.len() > pairs.len() / 2 {
        return Err(Refusal::TooManyGaps);
    }
    for (pair, &(first, length)) in pairs.chunks_exact_mut(2).zip(&stretches) {
        pair.copy_from_slice(&[first, length]);
    }
    Ok(stretches.len() as u64)
}

/// What the program volume-list prints for these bytes on standard input.
///
/// First the counts of names and free pages, then per name in list order the inode, the size and
/// the name's bytes as they are; or the refusal (over 65,536 bytes: 2). Order 6: "The program lists
/// inode 0's names; a folder's size there is its total."
pub fn listing(volume: &[u8]) -> Vec<u8> {
    let judged = if volume.len() > LISTING_BYTES {
        Err(Refusal::NoVolume)
    } else {
        judge_closed(volume)
    };
    match judged {
        Ok(volume) => accepted_listing(&volume),
        Err(refusal) => format!("refused {}\n", refusal.number()).into_bytes(),
    }
}

fn accepted_listing(volume: &Volume<'_>) -> Vec<u8> {
    let names = &volume.folders[&ROOT];
    let mut lines = format!("files {} free {}\n", names.len(), volume.free_pages()).into_bytes();
    for &(name, inode) in names {
        let size = volume.name_total(inode);
        lines.extend(format!("{inode} {size} ").into_bytes());
        lines.extend(name);
        lines.push(b'\n');
    }
    lines
}
