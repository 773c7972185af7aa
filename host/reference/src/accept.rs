//! The judgement of a volume: whether it is accepted, and what it then holds.

use crate::damage::{BadNames, Damage, Fault};
use crate::journal::Journal;
use crate::layout::{
    head_word, tail_word, type_word, valid_word, Sizes, FILE_TYPE, FOLDER_TYPE, NAME_LIMIT,
    PAGE_BYTES, ROOT,
};
use crate::log::{replay_names, File, Log, Names};
use crate::uses::{take, unused, Use};
use crate::Refusal;
use std::collections::BTreeMap;

/// An accepted volume, read with the journal's open entries put back.
#[derive(Clone, Debug)]
pub struct Volume<'v> {
    /// The lent bytes.
    pub bytes: &'v [u8],
    /// P and N.
    pub sizes: Sizes,
    /// The journal.
    pub journal: Journal,
    /// The names that stand in each valid folder, the directory included, by the folder's inode.
    pub folders: BTreeMap<u64, Names<'v>>,
    /// The valid files by inode.
    pub files: BTreeMap<u64, File>,
    /// The log of each valid inode, file or folder, the directory's included.
    pub logs: BTreeMap<u64, Log>,
    /// What each page serves for.
    pub uses: Vec<Use>,
}

/// Judges a volume. The refusals are 2 and 3; whether the journal is open stands in the answer.
///
/// Everything is read with the journal's open entries put back.
pub fn judge(volume: &[u8]) -> Result<Volume<'_>, Refusal> {
    Ok(examine(volume)?)
}

/// Judges a volume as [`judge`] does, and says what is wrong where it is not accepted.
///
/// Of several things that are wrong, one is answered.
///
/// ```
/// use reference::{examine, format, BadJournal, Damage, Fault, NoVolume, Refusal};
///
/// let mut volume = vec![0; 16 * 512];
/// let fault = examine(&volume).unwrap_err();
/// assert_eq!(fault, Fault::NoVolume(NoVolume::PageCount { pages: 0 }));
///
/// format(&mut volume, 16, 8)?;
/// assert!(examine(&volume).is_ok());
///
/// volume[64] = 16;
/// let fault = examine(&volume).unwrap_err();
/// let damage = Damage::Journal(BadJournal::Dequeue { position: 16 });
/// assert_eq!(fault, Fault::Damaged { damage, put_back: 0 });
/// assert_eq!(Refusal::from(fault), Refusal::Damaged);
/// # Ok::<(), Refusal>(())
/// ```
pub fn examine(volume: &[u8]) -> Result<Volume<'_>, Fault> {
    let sizes = Sizes::of(volume)?;
    let journal = Journal::read(volume, sizes).map_err(|wrong| Fault::Damaged {
        damage: Damage::Journal(wrong),
        put_back: 0,
    })?;
    let put_back = journal.open.len();
    accepted(volume, sizes, journal).map_err(|damage| Fault::Damaged { damage, put_back })
}

/// Judges a volume for a call that needs the journal closed. The refusals are 2, 3 and 4.
pub(crate) fn judge_closed(volume: &[u8]) -> Result<Volume<'_>, Refusal> {
    let volume = judge(volume)?;
    if volume.journal.is_open() {
        return Err(Refusal::JournalOpen);
    }
    Ok(volume)
}

fn accepted(bytes: &[u8], sizes: Sizes, journal: Journal) -> Result<Volume<'_>, Damage> {
    let mut volume = Volume {
        bytes,
        sizes,
        journal,
        folders: BTreeMap::new(),
        files: BTreeMap::new(),
        logs: BTreeMap::new(),
        uses: unused(sizes),
    };
    volume.walk_logs()?;
    volume.replay_logs()?;
    volume.check_names().map_err(Damage::Names)?;
    volume.check_reached().map_err(Damage::Names)?;
    volume.place_mapped_pages()?;
    for (&inode, file) in &volume.files {
        volume.check_end(inode, file)?;
    }
    Ok(volume)
}

/// The steps of the judgement; each answers what is wrong where the volume is not accepted.
impl Volume<'_> {
    /// Reads the inode table and walks the log of every valid inode.
    fn walk_logs(&mut self) -> Result<(), Damage> {
        for inode in ROOT..self.sizes.inodes() {
            match self.word(valid_word(inode)) {
                1 => {
                    let ends = [head_word(inode), tail_word(inode)].map(|index| self.word(index));
                    let log = Log::walk(self.bytes, self.sizes, inode, ends, &mut self.uses)?;
                    self.logs.insert(inode, log);
                }
                0 if inode != ROOT => {}
                0 => return Err(Damage::NoDirectory),
                value => return Err(Damage::ValidWord { inode, value }),
            }
        }
        Ok(())
    }

    fn replay_logs(&mut self) -> Result<(), Damage> {
        for (&inode, log) in &self.logs {
            let is_folder = self.read_type(inode)?;
            let entries = log.read(self.bytes, self.sizes, inode, is_folder);
            if is_folder {
                self.folders.insert(inode, replay_names(entries)?);
            } else {
                self.files.insert(inode, File::replay(entries)?);
            }
        }
        Ok(())
    }

    /// Whether a valid inode is a folder. Inode 0 is one whatever its type word holds.
    fn read_type(&self, inode: u64) -> Result<bool, Damage> {
        match self.word(type_word(inode)) {
            _ if inode == ROOT => Ok(true),
            FILE_TYPE => Ok(false),
            FOLDER_TYPE => Ok(true),
            value => Err(Damage::Type { inode, value }),
        }
    }

    /// At most 224 names stand in a folder, each names a valid file or folder, each valid file has a
    /// name, and each valid folder but inode 0 has exactly one. Names are counted over all folders.
    fn check_names(&self) -> Result<(), BadNames> {
        let mut counts = vec![0; self.sizes.inodes() as usize];
        for (&folder, names) in &self.folders {
            let count = names.len();
            if count > NAME_LIMIT {
                return Err(BadNames::Many { folder, count });
            }
            for &(name, inode) in names {
                if !self.logs.contains_key(&inode) {
                    let name = name.to_vec();
                    return Err(BadNames::NoFile {
                        folder,
                        name,
                        inode,
                    });
                }
                counts[inode as usize] += 1;
            }
        }
        for &inode in self.logs.keys().filter(|&&inode| inode != ROOT) {
            match (counts[inode as usize], self.files.contains_key(&inode)) {
                (0, true) => return Err(BadNames::NoName { inode }),
                (_, true) | (1, false) => {}
                (count, false) => return Err(BadNames::NotOneName { inode, count }),
            }
        }
        Ok(())
    }

    /// Every valid folder is reached from inode 0.
    fn check_reached(&self) -> Result<(), BadNames> {
        let mut reached = vec![ROOT];
        let mut visited = 0;
        while let Some(&folder) = reached.get(visited) {
            for &(_, inode) in &self.folders[&folder] {
                if self.folders.contains_key(&inode) && !reached.contains(&inode) {
                    reached.push(inode);
                }
            }
            visited += 1;
        }
        let apart = self.folders.keys().find(|inode| !reached.contains(inode));
        apart.map_or(Ok(()), |&inode| Err(BadNames::NotReached { inode }))
    }

    /// Gives every mapped page to its file; no page may serve twice.
    fn place_mapped_pages(&mut self) -> Result<(), Damage> {
        for (&inode, file) in &self.files {
            for (file_page, data_page) in file.mapped() {
                take(&mut self.uses, data_page, Use::Data { inode, file_page })?;
            }
        }
        Ok(())
    }

    /// No mapped page starts at or after the size, and one holding the size is zero from there on.
    fn check_end(&self, inode: u64, file: &File) -> Result<(), Damage> {
        let size = file.size;
        for (file_page, data_page) in file.mapped() {
            let start = file_page * PAGE_BYTES;
            if start >= size {
                return Err(Damage::PastSize {
                    inode,
                    file_page,
                    size,
                });
            }
            let mut after = self.page(data_page).iter().skip((size - start) as usize);
            if let Some(distance) = after.position(|&value| value != 0) {
                let byte = size + distance as u64;
                return Err(Damage::NotZero {
                    inode,
                    byte,
                    file_page,
                    data_page,
                    size,
                });
            }
        }
        Ok(())
    }
}

/// What an accepted volume holds.
impl<'v> Volume<'v> {
    /// A word, read with the journal's open entries put back.
    pub fn word(&self, index: u64) -> u64 {
        self.journal.word(self.bytes, index)
    }

    /// The bytes of a page below P.
    pub(crate) fn page(&self, page: u64) -> &'v [u8] {
        let start = (page * PAGE_BYTES) as usize;
        &self.bytes[start..start + PAGE_BYTES as usize]
    }

    /// The inode that a name leads to in a folder; none if it does not stand there, and none if the
    /// inode is no valid folder.
    pub fn inode_of(&self, folder: u64, name: &[u8]) -> Option<u64> {
        let mut names = self.folders.get(&folder)?.iter();
        names
            .find(|(standing, _)| *standing == name)
            .map(|&(_, inode)| inode)
    }

    /// How many names lead to an inode, in all folders.
    pub fn name_count(&self, inode: u64) -> usize {
        let names = self.folders.values().flatten();
        names.filter(|pair| pair.1 == inode).count()
    }

    /// The bytes beneath a folder.
    ///
    /// Order 6: "the bytes beneath a folder are the sum over its names, where a file counts its size
    /// once for each name and a folder counts what lies beneath it." On an accepted volume no folder
    /// lies beneath itself, so that this ends.
    pub fn total(&self, folder: u64) -> u64 {
        let names = self.folders.get(&folder).into_iter().flatten();
        names.map(|&(_, inode)| self.name_total(inode)).sum()
    }

    /// What a name that leads to this inode adds to its folder's total: a file's size, or a folder's
    /// own total.
    pub fn name_total(&self, inode: u64) -> u64 {
        match self.files.get(&inode) {
            Some(file) => file.size,
            None => self.total(inode),
        }
    }

    /// The folder that holds a folder's one name; none for inode 0.
    pub fn parent_of(&self, folder: u64) -> Option<u64> {
        let leads_there = |names: &Names<'_>| names.iter().any(|pair| pair.1 == folder);
        let parent = self.folders.iter().find(|(_, names)| leads_there(names));
        parent.map(|(&inode, _)| inode)
    }

    /// Whether a folder is another one or lies beneath it.
    pub fn is_within(&self, folder: u64, other: u64) -> bool {
        let mut above = std::iter::successors(Some(folder), |&inode| self.parent_of(inode));
        above.any(|inode| inode == other)
    }

    /// The lowest invalid inode; none if all are valid.
    pub fn lowest_invalid_inode(&self) -> Option<u64> {
        (ROOT..self.sizes.inodes()).find(|inode| !self.logs.contains_key(inode))
    }

    /// The count of free pages.
    pub fn free_pages(&self) -> u64 {
        self.uses.iter().filter(|&&page| page == Use::Free).count() as u64
    }

    /// The stretches of free pages, each as its first page and its length, by first page.
    ///
    /// A stretch begins at a free page behind one that is not free, and goes on while pages are free.
    pub fn free_stretches(&self) -> Vec<(u64, u64)> {
        let free = |page: usize| self.uses.get(page) == Some(&Use::Free);
        let begins = |&page: &usize| free(page) && !free(page - 1);
        let length = |first: usize| (first..).take_while(|&page| free(page)).count();
        (1..self.uses.len()) // page 0 is never free
            .filter(begins)
            .map(|first| (first as u64, length(first) as u64))
            .collect()
    }

    /// Copies a file's bytes from `offset` on into the whole buffer; zeros stand where no page is
    /// mapped, and so from the size on.
    pub(crate) fn copy_file(&self, file: &File, offset: u64, buffer: &mut [u8]) {
        let mut position = offset;
        let mut rest = buffer;
        while !rest.is_empty() {
            let within = (position % PAGE_BYTES) as usize;
            let length = rest.len().min(PAGE_BYTES as usize - within);
            let (part, after) = rest.split_at_mut(length);
            match file.data_page(position / PAGE_BYTES) {
                Some(page) => part.copy_from_slice(&self.page(page)[within..within + length]),
                None => part.fill(0),
            }
            position = position.saturating_add(length as u64);
            rest = after;
        }
    }
}
