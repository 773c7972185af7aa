//! Words stored in a file: runs of consecutive words as one write each, and a sync of the file as the fence.

use calls::layout::word_offset;
use calls::list::Store;
use std::fs::File;
use std::io;
use std::os::unix::fs::FileExt;

/// What words are stored in: a file, or in tests a record of what was asked.
pub trait Disk {
    /// Writes bytes at an offset.
    fn write_at(&self, bytes: &[u8], offset: u64) -> io::Result<()>;

    /// Waits until everything written before has reached the disk.
    fn fence(&self) -> io::Result<()>;
}

impl Disk for File {
    fn write_at(&self, bytes: &[u8], offset: u64) -> io::Result<()> {
        self.write_all_at(bytes, offset)
    }

    fn fence(&self) -> io::Result<()> {
        self.sync_data()
    }
}

/// Writes stores, each word little-endian, runs of consecutive words as one write.
pub fn write_stores(disk: &impl Disk, stores: &[Store]) -> io::Result<()> {
    for run in stores.chunk_by(|one, next| one.0 + 1 == next.0) {
        let words = run.iter().map(|(_, value)| value.to_le_bytes());
        let bytes: Vec<u8> = words.flatten().collect();
        disk.write_at(&bytes, word_offset(run[0].0))?;
    }
    Ok(())
}

/// Writes the stores of a group, then the fence.
pub fn land_group(disk: &impl Disk, group: &[Store]) -> io::Result<()> {
    write_stores(disk, group)?;
    disk.fence()
}

#[cfg(test)]
mod tests {
    use super::*;
    use std::cell::RefCell;

    /// What a disk was asked to do.
    #[derive(Debug, PartialEq)]
    enum Asked {
        Write(u64, Vec<u8>),
        Fence,
    }

    #[derive(Default)]
    struct Record(RefCell<Vec<Asked>>);

    impl Disk for Record {
        fn write_at(&self, bytes: &[u8], offset: u64) -> io::Result<()> {
            let asked = Asked::Write(offset, bytes.to_vec());
            self.0.borrow_mut().push(asked);
            Ok(())
        }

        fn fence(&self) -> io::Result<()> {
            self.0.borrow_mut().push(Asked::Fence);
            Ok(())
        }
    }

    #[test]
    fn runs_then_the_fence() {
        let record = Record::default();
        land_group(&record, &[(8, 1), (9, 0x0203), (11, 4)]).expect("recorded");
        let run = vec![1, 0, 0, 0, 0, 0, 0, 0, 3, 2, 0, 0, 0, 0, 0, 0];
        let alone = vec![4, 0, 0, 0, 0, 0, 0, 0];
        let asked = [Asked::Write(64, run), Asked::Write(88, alone), Asked::Fence];
        assert_eq!(record.0.into_inner(), asked);
    }
}
