//! The same operations on a volume in memory, on a volume in a file, and on folders of the host's file systems.
//!
//! Each starts from eight files of 4,096 bytes. An operation is timed with everything that it takes: on a volume in memory the call and
//! carry out; on a volume in a file also the stores of each group as positioned writes with an fdatasync after each group; in a folder the
//! system call, and fsync where the change is to be durable.

use crate::table::{shown, whole, Table};
use crate::timing::{Effort, Time};
use calls::layout::ROOT;
use calls::list::groups;
use calls::{Answer, Refusal};
use office::disk::land_group;
use samples::{create, done, formatted, numbered, text, write};
use std::fs::{self, File, OpenOptions};
use std::os::unix::fs::FileExt;
use std::path::{Path, PathBuf};

/// How many files there are at the start.
const FILES: u64 = 8;
/// The page and inode counts of the volume.
const PAGES: u64 = 128;
const INODES: u64 = 16;
/// The last file's inode.
const LAST: u64 = FILES;
/// The last file's name.
const LAST_NAME: &str = "n007";
/// A name that is not there at the start.
const NEW: &str = "new";

/// What is done. "The file" is the last one.
#[derive(Clone, Copy, PartialEq)]
enum Operation {
    Create,
    Link,
    Unlink,
    Rename,
    Write(usize),
    SetSize,
    Find,
    Size,
    Read,
    KthName,
}

impl Operation {
    const ALL: [Operation; 11] = [
        Operation::Create,
        Operation::Link,
        Operation::Unlink,
        Operation::Rename,
        Operation::Write(4_096),
        Operation::Write(100),
        Operation::SetSize,
        Operation::Find,
        Operation::Size,
        Operation::Read,
        Operation::KthName,
    ];

    /// What the table calls it.
    fn name(self) -> String {
        match self {
            Operation::Create => "create".to_string(),
            Operation::Link => "link".to_string(),
            Operation::Unlink => "unlink, the last name".to_string(),
            Operation::Rename => "rename".to_string(),
            Operation::Write(length) => format!("write {} bytes at 0", whole(length as u64)),
            Operation::SetSize => "set size, 4,096 to 100".to_string(),
            Operation::Find => "find (stat by name)".to_string(),
            Operation::Size => "size (fstat)".to_string(),
            Operation::Read => "read 4,096 bytes".to_string(),
            Operation::KthName => "k-th name, the last (readdir)".to_string(),
        }
    }

    /// Whether it changes anything.
    fn changes(self) -> bool {
        use Operation::{Find, KthName, Read, Size};
        !matches!(self, Find | Size | Read | KthName)
    }
}

/// A place where operations are done, each from the same start.
trait Place {
    /// What comes before an operation and is not timed.
    fn before(&mut self, operation: Operation);
    /// The operation.
    fn run(&mut self, operation: Operation);
    /// What comes after it and is not timed: with it, the place is as at the start.
    fn after(&mut self, operation: Operation);
}

/// A volume in memory, and what the calls on it need.
struct InMemory {
    start: Vec<u8>,
    volume: Vec<u8>,
    list: Vec<u64>,
    bytes: Vec<u8>,
    buffer: Vec<u8>,
}

impl InMemory {
    fn new() -> InMemory {
        let mut start = formatted(PAGES, INODES);
        for number in 0..FILES {
            done(&mut start, &create(&numbered(number)));
            done(&mut start, &write(number + 1, 0, &text(4_096)));
        }
        InMemory {
            volume: start.clone(),
            start,
            list: vec![0; 4_096],
            bytes: text(4_096),
            buffer: vec![0; 4_096],
        }
    }

    /// Asks the call for its store list; answers the count of words filled, 0 for a reading call.
    fn fill(&mut self, operation: Operation) -> Answer {
        let (volume, list) = (&self.volume, &mut self.list);
        let (last, new) = (LAST_NAME.as_bytes(), NEW.as_bytes());
        match operation {
            Operation::Create => calls::create(volume, ROOT, new, list),
            Operation::Link => calls::link(volume, ROOT, last, ROOT, new, list),
            Operation::Unlink => calls::unlink(volume, ROOT, last, list),
            Operation::Rename => calls::rename(volume, ROOT, last, ROOT, new, list),
            Operation::Write(length) => calls::write(volume, LAST, 0, &self.bytes[..length], list),
            Operation::SetSize => calls::set_size(volume, LAST, 100, list),
            _ => self.look(operation).map(|_| 0),
        }
    }

    /// A reading call.
    fn look(&mut self, operation: Operation) -> Answer {
        match operation {
            Operation::Find => calls::find(&self.volume, ROOT, LAST_NAME.as_bytes()),
            Operation::Size => calls::size(&self.volume, LAST),
            Operation::Read => calls::read(&self.volume, LAST, 0, &mut self.buffer),
            Operation::KthName => calls::kth_name(&self.volume, ROOT, FILES - 1, &mut self.buffer),
            _ => Err(Refusal::NotThere),
        }
    }

    fn carry_out(&mut self, count: u64) {
        calls::carry_out(&mut self.volume, &self.list, count).expect("the list is carried out");
    }
}

impl Place for InMemory {
    fn before(&mut self, _: Operation) {
        self.volume.copy_from_slice(&self.start);
    }

    fn run(&mut self, operation: Operation) {
        let count = self.fill(operation).expect("the call is done");
        if operation.changes() {
            self.carry_out(count);
        }
    }

    fn after(&mut self, _: Operation) {}
}

/// A volume in a file, with a copy in memory that the calls work from. The file goes with the value.
struct InFile {
    memory: InMemory,
    file: File,
    path: PathBuf,
}

impl InFile {
    fn new(folder: &Path) -> InFile {
        let path = folder.join("volume");
        let mut open = OpenOptions::new();
        let file = open.read(true).write(true).create_new(true).open(&path);
        InFile {
            memory: InMemory::new(),
            file: file.expect("a file for the volume"),
            path,
        }
    }

    /// Stores a list group by group, as the office tool does it.
    fn store(&self, list: &[u64]) {
        for group in groups(list) {
            land_group(&self.file, &group).expect("a group lands");
        }
    }
}

impl Drop for InFile {
    fn drop(&mut self) {
        let _ = fs::remove_file(&self.path);
    }
}

impl Place for InFile {
    fn before(&mut self, operation: Operation) {
        self.memory.before(operation);
        let written = self.file.write_all_at(&self.memory.start, 0);
        written.and_then(|()| self.file.sync_data()).expect("start");
    }

    fn run(&mut self, operation: Operation) {
        let count = self.memory.fill(operation).expect("the call is done");
        self.store(&self.memory.list[..count as usize]);
        self.memory.carry_out(count);
    }

    fn after(&mut self, _: Operation) {}
}

/// A folder with the files, which go with the value.
struct Folder {
    path: PathBuf,
    last_path: PathBuf,
    new_path: PathBuf,
    /// The folder opened, for fsync.
    itself: File,
    /// The last file, opened.
    last: File,
    sync: bool,
    bytes: Vec<u8>,
    buffer: Vec<u8>,
}

impl Folder {
    fn new(parent: &Path, sync: bool) -> Folder {
        let path = parent.join("files");
        fs::create_dir(&path).expect("a fresh folder");
        for number in 0..FILES {
            let name = String::from_utf8(numbered(number)).expect("a name of ASCII");
            fs::write(path.join(name), text(4_096)).expect("a file");
        }
        let mut open = OpenOptions::new();
        let last = open.read(true).write(true).open(path.join(LAST_NAME));
        Folder {
            last_path: path.join(LAST_NAME),
            new_path: path.join(NEW),
            itself: File::open(&path).expect("the folder"),
            last: last.expect("the last file"),
            sync,
            bytes: text(4_096),
            buffer: vec![0; 4_096],
            path,
        }
    }

    /// The system call, without fsync.
    fn make(&mut self, operation: Operation) -> std::io::Result<()> {
        match operation {
            Operation::Create => File::create_new(&self.new_path).map(|_| ()),
            Operation::Link => fs::hard_link(&self.last_path, &self.new_path),
            Operation::Unlink => fs::remove_file(&self.new_path),
            Operation::Rename => fs::rename(&self.last_path, &self.new_path),
            Operation::Write(length) => self.last.write_all_at(&self.bytes[..length], 0),
            Operation::SetSize => self.last.set_len(100),
            Operation::Find => fs::symlink_metadata(&self.last_path).map(|_| ()),
            Operation::Size => self.last.metadata().map(|_| ()),
            Operation::Read => self.last.read_exact_at(&mut self.buffer, 0),
            Operation::KthName => {
                let mut names = fs::read_dir(&self.path)?;
                names.nth(FILES as usize - 1).expect("so many names")?;
                Ok(())
            }
        }
    }

    /// Before and after a change that is to be durable: leaves it nothing of another change to write.
    fn settle(&self, operation: Operation) {
        if self.sync && operation.changes() {
            let file = self.last.sync_all();
            file.and_then(|()| self.itself.sync_all()).expect("fsync");
        }
    }

    /// Makes a change durable: the folder for names, the file for bytes and sizes.
    fn make_durable(&self, operation: Operation) -> std::io::Result<()> {
        match operation {
            Operation::Write(_) | Operation::SetSize => self.last.sync_all(),
            _ => self.itself.sync_all(),
        }
    }
}

impl Place for Folder {
    fn before(&mut self, operation: Operation) {
        if operation == Operation::Unlink {
            let file = File::create(&self.new_path).expect("a file to unlink");
            file.write_all_at(&self.bytes, 0).expect("its bytes");
            if self.sync {
                file.sync_all().expect("fsync");
            }
            self.settle(operation);
        }
    }

    fn run(&mut self, operation: Operation) {
        self.make(operation).expect("the operation");
        if self.sync && operation.changes() {
            self.make_durable(operation).expect("fsync");
        }
    }

    fn after(&mut self, operation: Operation) {
        let again = match operation {
            Operation::Create | Operation::Link => fs::remove_file(&self.new_path),
            Operation::Rename => fs::rename(&self.new_path, &self.last_path),
            Operation::SetSize => self.last.write_all_at(&self.bytes, 0),
            _ => Ok(()),
        };
        again.expect("the start again");
        self.settle(operation);
    }
}

impl Drop for Folder {
    fn drop(&mut self) {
        let _ = fs::remove_dir_all(&self.path);
    }
}

/// The times on every place; `None` for a folder that there is not.
pub fn times(tmpfs: Option<&Path>, ext4: Option<&Path>, effort: Effort) -> Table {
    let mut table = Table::new(&[
        &"operation",
        &"volume in memory",
        &"tmpfs",
        &"ratio tmpfs",
        &"ext4",
        &"ratio ext4",
        &"ext4, fsync",
        &"ratio ext4, fsync",
        &"volume in a file on ext4",
        &"ratio volume in a file",
        &"volume in a file / ext4, fsync",
    ]);
    for operation in Operation::ALL {
        table.texts(row(operation, tmpfs, ext4, effort));
    }
    table
}

/// The row of one operation.
fn row(
    operation: Operation,
    tmpfs: Option<&Path>,
    ext4: Option<&Path>,
    effort: Effort,
) -> Vec<String> {
    let in_folder = |folder, sync| time(&mut Folder::new(folder, sync), operation, effort);
    let durable = operation.changes();
    let memory = time(&mut InMemory::new(), operation, effort);
    let synced = ext4.map(|folder| durable.then(|| in_folder(folder, true)));
    let in_file =
        ext4.map(|folder| durable.then(|| time(&mut InFile::new(folder), operation, effort)));
    let mut cells = vec![operation.name(), best_and_median(memory)];
    for folder in [tmpfs, ext4] {
        let plain = folder.map(|folder| Some(in_folder(folder, false)));
        cells.extend(beside(memory, plain));
    }
    cells.extend(beside(memory, synced));
    cells.extend(beside(memory, in_file));
    cells.push(match (synced.flatten(), in_file.flatten()) {
        (Some(synced), Some(in_file)) => shown(in_file.median / synced.median),
        _ => "-".to_string(),
    });
    cells
}

fn time(place: &mut impl Place, operation: Operation, effort: Effort) -> Time {
    effort.time_between(
        place,
        |place| place.before(operation),
        |place| place.run(operation),
        |place| place.after(operation),
    )
}

/// Two cells: a time, and the ratio of its median to that of the volume in memory. Not measured where the outer is `None`, and not asked
/// for where the inner one is.
fn beside(memory: Time, timed: Option<Option<Time>>) -> [String; 2] {
    match timed {
        Some(Some(time)) => [best_and_median(time), shown(time.median / memory.median)],
        Some(None) => ["-", "-"].map(String::from),
        None => ["not measured", "-"].map(String::from),
    }
}

fn best_and_median(time: Time) -> String {
    format!("{} / {}", shown(time.best), shown(time.median))
}

#[cfg(test)]
mod tests {
    use super::*;

    /// A fresh folder, which goes with the value.
    struct Parent(PathBuf);

    impl Parent {
        fn new() -> Parent {
            let name = format!("bench-places-{}", std::process::id());
            let path = std::env::temp_dir().join(name);
            fs::create_dir(&path).expect("a fresh folder");
            Parent(path)
        }
    }

    impl Drop for Parent {
        fn drop(&mut self) {
            let _ = fs::remove_dir_all(&self.0);
        }
    }

    /// Every operation is done on each place, twice, and leaves it as it was; in the end the places are gone.
    #[test]
    fn operations_start_from_the_same_place() {
        let parent = Parent::new();
        let mut folder = Folder::new(&parent.0, true);
        let mut in_file = InFile::new(&parent.0);
        for operation in Operation::ALL {
            for _ in 0..2 {
                once(&mut folder, operation);
                let names = fs::read_dir(&folder.path).expect("the folder").count();
                let size = folder.last.metadata().expect("the file").len();
                assert_eq!((names as u64, size), (FILES, 4_096));
                once(&mut InMemory::new(), operation);
                once(&mut in_file, operation);
                let stored = fs::read(&in_file.path).expect("the file");
                assert!(stored == in_file.memory.volume);
            }
        }
        drop((folder, in_file));
        assert_eq!(fs::read_dir(&parent.0).expect("the folder").count(), 0);
    }

    fn once(place: &mut impl Place, operation: Operation) {
        place.before(operation);
        place.run(operation);
        place.after(operation);
    }

    /// On the volume an operation does what it does in the folder.
    #[test]
    fn operations_mean_the_same_on_a_volume() {
        let mut memory = InMemory::new();
        memory.run(Operation::Rename);
        assert_eq!(calls::find(&memory.volume, ROOT, NEW.as_bytes()), Ok(LAST));
        memory.run(Operation::SetSize);
        assert_eq!(calls::size(&memory.volume, LAST), Ok(100));
        let mut memory = InMemory::new();
        memory.run(Operation::Unlink);
        assert_eq!(numbered(FILES - 1), LAST_NAME.as_bytes());
        assert!(calls::find(&memory.volume, ROOT, LAST_NAME.as_bytes()).is_err());
    }
}
