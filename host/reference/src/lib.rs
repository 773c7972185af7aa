//! A plain reference implementation of the file store that document 01 describes, with orders 1 and
//! 3 to 6 of document 02 (order 2 changes no answer).
//!
//! It was written from the papers alone, to test other code against. It is meant to be read
//! top-down: [`layout`] (words, pages, sizes), the journal, the logs, the judgement of a volume and
//! what it finds wrong ([`Fault`]), the free pages, store lists and power cuts, the changing calls,
//! the reading calls, the file map.
//!
//! A *volume* is a lent slice of bytes. Every call works from the volume alone. A changing call
//! other than [`format()`] leaves the volume alone and fills a lent list of words, the *store list*,
//! which [`carry_out`] then stores. Every call returns for any input; a refusal leaves all lent
//! memory as it was.
//!
//! # Example
//!
//! ```
//! use reference::{carry_out, create, find, format, free_count, listing, read, size, write};
//!
//! let mut volume = vec![0; 16 * 512];
//! let mut list = vec![0; 4096];
//! format(&mut volume, 16, 8)?;
//!
//! let count = create(&volume, 0, b"A1", &mut list)?;
//! carry_out(&mut volume, &list, count)?;
//! let inode = find(&volume, 0, b"A1")?;
//!
//! let count = write(&volume, inode, 510, b"text", &mut list)?;
//! carry_out(&mut volume, &list, count)?;
//! assert_eq!(size(&volume, inode)?, 514);
//! assert_eq!(free_count(&volume)?, 10);
//!
//! let mut buffer = [0; 16];
//! assert_eq!(read(&volume, inode, 508, &mut buffer)?, 6);
//! assert_eq!(&buffer[..6], b"\0\0text");
//! assert_eq!(listing(&volume), b"files 1 free 10\n1 514 A1\n");
//! # Ok::<(), reference::Refusal>(())
//! ```

#![warn(missing_docs)]
#![forbid(unsafe_code)]

pub mod layout;
pub mod random;

mod accept;
mod calls;
mod commit;
mod damage;
mod journal;
mod log;
mod map;
mod reading;
mod space;
mod stores;
mod uses;

pub use accept::{examine, judge, Volume};
pub use calls::{
    clean, create, create_folder, format, link, recover, rename, set_size, unlink, write, Call,
};
pub use damage::{BadEntry, BadJournal, BadLog, BadNames, Damage, Fault, NoVolume};
pub use journal::{Journal, OpenEntry, Position};
pub use log::{Entry, EntryBytes, File, Log, Names, Placed};
pub use map::{map, map_after, refused_by_map, FileMap};
pub use reading::{find, free_count, gaps, kth_name, listing, read, size, total};
pub use refusal::{Answer, Refusal};
pub use stores::{carry_out, cut, groups, land, Store, FENCE};
pub use uses::Use;
