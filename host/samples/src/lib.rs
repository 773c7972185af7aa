//! What the tests of the workspace share: volumes, calls and numbers.
//!
//! A test of the reference model and a test of the compiled calls take their volumes from the same
//! makers: by hand ([`sample`], [`put_log`], [`DirectoryLog`], [`with_free_pages`]), by random
//! calls and power cuts ([`used_volume`], [`any_call`]), put together at random ([`made_up`]),
//! damaged ([`change_live_word`], [`flip_live_bit`]), with page numbers past 16 bits
//! ([`wide_pages()`]), with scattered free pages ([`scattered()`]), with few free pages
//! ([`last_page()`]), with the names "." and ".." ([`dot_names()`]), with folders ([`folders()`],
//! [`damaged_folders`]), and noise ([`headed_noise`]).
//! What is random comes from a [`Random`] alone,
//! so that a seed gives the same volumes again. Document 01's cases are rows of one table
//! ([`cases()`]), and volumes are filled and emptied ([`full_handheld()`]), for any library of the
//! calls.
//!
//! ```
//! use reference::random::Random;
//! use samples::{create, done, formatted, made_up_sized};
//!
//! let mut volume = formatted(16, 8);
//! assert_eq!(done(&mut volume, &create(b"A1")), 48);
//! assert_eq!(made_up_sized(&mut Random::new(1), 40, 16).len(), 40 * 512);
//! ```

#![warn(missing_docs)]
#![forbid(unsafe_code)]

mod by_hand;
mod calls;
mod cases;
mod damage;
mod directory_logs;
mod dot_names;
mod folders;
mod full_handheld;
mod gaps;
mod last_page;
mod made_up;
mod noise;
mod numbers;
mod random_calls;
mod scattered;
mod wide_pages;

pub use by_hand::{
    entry_add, entry_remove, entry_size, entry_write, formatted, give_name, long_directory,
    numbered, open_journal, put_entry, put_folder, put_log, sample, text, words, zero_page,
};
pub use calls::{
    clean, create, create_folder, create_in, done, filled, link, link_in, map_of, marked_list,
    name_of, rename, rename_in, run, set_size, unlink, unlink_in, write,
};
pub use cases::{cases, check_case, Before, CarryOut, Case, Library};
pub use damage::{change_live_word, flip_live_bit, live_words};
pub use directory_logs::{
    added_again, added_and_removed, home, largest_log, names_one_byte_apart, names_with_homes,
    nearly_same_names, size_of, varied_name, varied_names, DirectoryLog, MOST_DIFFERENT,
    MOST_ENTRIES, NOWHERE,
};
pub use dot_names::{
    any_call_with_dots, calls_by_name, dot_names, gives_dot_name, standing_dot_names, tried_names,
    DotNames, DOT_NAMES,
};
pub use folders::{
    damaged_folders, emptied_folders, folder_moves, folders, full_folders, open_moves, trees,
    unread_types, DamagedFolders, Folders, Move, Tree, NO_TYPES,
};
pub use full_handheld::{check_row, full_handheld, rows_without_a_page, Emptied, Row, HANDHELDS};
pub use gaps::{volumes_with_gaps, with_free_pages};
pub use last_page::{few_free_pages, last_page, no_files, FewFree, LastPage};
pub use made_up::{made_up, made_up_sized, made_up_with_dots};
pub use noise::headed_noise;
pub use numbers::{any_name, any_number, NUMBERS};
pub use random_calls::{any_call, any_call_in_folders, any_calls, random_cut, used_volume};
pub use reference::random::Random;
pub use scattered::{
    appended_entries, every_second_free, in_pieces, scattered, with_runs, Scattered,
};
pub use wide_pages::{calls_on_wide_pages, wide_pages, PageWord, WideChange, WidePages, WideWord};
