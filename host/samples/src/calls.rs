//! Changing calls by the reference model, with what holds of every store list checked.

use reference::layout::ROOT;
use reference::{groups, judge, land, map, Answer, Call, FileMap, Refusal, FENCE};

/// A store list of this many words, each holding a value that no call would fill in.
pub fn marked_list(words: u64) -> Vec<u64> {
    (0..words)
        .map(|index| 0xC0DE_0000_0000_0000 + index)
        .collect()
}

/// The file map of a volume that must be accepted.
pub fn map_of(volume: &[u8]) -> FileMap {
    map(&judge(volume).expect("the volume is accepted"))
}

/// Fills a list with a call and checks what holds of every list; answers the filled part.
///
/// A refusal must leave the list as it was.
pub fn filled(volume: &[u8], call: &Call) -> Result<Vec<u64>, Refusal> {
    let before = marked_list(4_100);
    let mut list = before.clone();
    match call.fill(volume, &mut list) {
        Err(refusal) => {
            assert_eq!(list, before, "a refusal leaves the list as it was");
            Err(refusal)
        }
        Ok(count) => {
            let count = count as usize;
            assert_eq!(list[count..], before[count..], "the rest keeps its content");
            list.truncate(count);
            check_shape(&list);
            Ok(list)
        }
    }
}

/// Pairs, groups in ascending index with each word once, the last pair a fence, words 0 to 2 never
/// stored.
fn check_shape(list: &[u64]) {
    assert_eq!(list.len() % 2, 0);
    if let [.., index, value] = list {
        assert_eq!((*index, *value), (FENCE, 0));
    }
    for pair in list.chunks(2) {
        assert!(pair[0] != FENCE || pair[1] == 0);
    }
    for group in groups(list) {
        assert!(!group.is_empty());
        assert!(group.windows(2).all(|two| two[0].0 < two[1].0));
        assert!(group.iter().all(|store| store.0 > 2));
    }
}

/// Makes a call and lands its list; answers the count of words filled, or the refusal.
pub fn run(volume: &mut [u8], call: &Call) -> Answer {
    let list = filled(volume, call)?;
    land(volume, &list);
    judge(volume).expect("the volume is accepted");
    Ok(list.len() as u64)
}

/// Makes a call that must be done; answers the count of words filled.
pub fn done(volume: &mut [u8], call: &Call) -> u64 {
    run(volume, call).expect("the call is done")
}

/// The call create, in inode 0.
pub fn create(name: &[u8]) -> Call {
    create_in(ROOT, name)
}

/// The call create, in a folder.
pub fn create_in(folder: u64, name: &[u8]) -> Call {
    let name = name.to_vec();
    Call::Create { folder, name }
}

/// The call create folder, in a folder.
pub fn create_folder(folder: u64, name: &[u8]) -> Call {
    let name = name.to_vec();
    Call::CreateFolder { folder, name }
}

/// The call link, both names in inode 0.
pub fn link(old: &[u8], new: &[u8]) -> Call {
    link_in(ROOT, old, ROOT, new)
}

/// The call link, each name in a folder.
pub fn link_in(old_folder: u64, old: &[u8], new_folder: u64, new: &[u8]) -> Call {
    let (old, new) = (old.to_vec(), new.to_vec());
    Call::Link {
        old_folder,
        old,
        new_folder,
        new,
    }
}

/// The call unlink, in inode 0.
pub fn unlink(name: &[u8]) -> Call {
    unlink_in(ROOT, name)
}

/// The call unlink, in a folder.
pub fn unlink_in(folder: u64, name: &[u8]) -> Call {
    let name = name.to_vec();
    Call::Unlink { folder, name }
}

/// The call rename, both names in inode 0.
pub fn rename(old: &[u8], new: &[u8]) -> Call {
    rename_in(ROOT, old, ROOT, new)
}

/// The call rename, each name in a folder: a move, where these differ.
pub fn rename_in(old_folder: u64, old: &[u8], new_folder: u64, new: &[u8]) -> Call {
    let (old, new) = (old.to_vec(), new.to_vec());
    Call::Rename {
        old_folder,
        old,
        new_folder,
        new,
    }
}

/// The call write.
pub fn write(inode: u64, offset: u64, bytes: &[u8]) -> Call {
    let bytes = bytes.to_vec();
    Call::Write {
        inode,
        offset,
        bytes,
    }
}

/// The call set size.
pub fn set_size(inode: u64, size: u64) -> Call {
    Call::SetSize { inode, size }
}

/// The call clean.
pub fn clean(inode: u64) -> Call {
    Call::Clean { inode }
}

/// A changing call's name.
pub fn name_of(call: &Call) -> &'static str {
    match call {
        Call::Create { .. } => "create",
        Call::CreateFolder { .. } => "create_folder",
        Call::Link { .. } => "link",
        Call::Unlink { .. } => "unlink",
        Call::Rename { .. } => "rename",
        Call::Write { .. } => "write",
        Call::SetSize { .. } => "set_size",
        Call::Clean { .. } => "clean",
        Call::Recover => "recover",
    }
}
