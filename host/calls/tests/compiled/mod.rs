//! The compiled changing calls, made from the reference model's description of a call.

use reference::{Answer, Call};

/// Makes a call compiled: fills the store list and answers the count of words, or the refusal.
pub fn fill(call: &Call, volume: &[u8], list: &mut [u64]) -> Answer {
    match call {
        Call::Create { folder, name } => calls::create(volume, *folder, name, list),
        Call::CreateFolder { folder, name } => calls::create_folder(volume, *folder, name, list),
        Call::Link {
            old_folder,
            old,
            new_folder,
            new,
        } => calls::link(volume, *old_folder, old, *new_folder, new, list),
        Call::Unlink { folder, name } => calls::unlink(volume, *folder, name, list),
        Call::Rename {
            old_folder,
            old,
            new_folder,
            new,
        } => calls::rename(volume, *old_folder, old, *new_folder, new, list),
        Call::Write {
            inode,
            offset,
            bytes,
        } => calls::write(volume, *inode, *offset, bytes, list),
        Call::SetSize { inode, size } => calls::set_size(volume, *inode, *size, list),
        Call::Clean { inode } => calls::clean(volume, *inode, list),
        Call::Recover => calls::recover(volume, list),
    }
}
