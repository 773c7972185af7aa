//! The calls that are timed, each written once for the compiled calls and the reference model.

use crate::timing::{Effort, Time};
use crate::volumes::{Kind, Subject};
use calls::layout::ROOT;
use calls::Refusal;
use std::fmt::Debug;
use std::hint::black_box;

/// A name that stands on no volume.
const NEW: &[u8] = b"a new name";

/// A call to time: its name, and what it answers on a volume and how long that takes, compiled and by the reference model.
pub struct Timed {
    pub name: &'static str,
    pub compiled: fn(&mut Subject, Effort) -> (String, Time),
    pub reference: fn(&mut Subject, Effort) -> (String, Time),
}

/// The calls that are timed on the volumes of a kind.
pub fn calls_on(kind: Kind) -> impl Iterator<Item = &'static Timed> {
    let more = match kind {
        Kind::EverySecondFree => SCATTERED,
        _ => &[],
    };
    CALLS.iter().chain(more)
}

/// The call with this name.
pub fn timed_call(name: &str) -> &'static Timed {
    let named = CALLS.iter().find(|call| call.name == name);
    named.expect("a call that is timed")
}

/// Times a call; answers its answer as a table shows it, and its time.
fn timed<T: Debug>(effort: Effort, mut call: impl FnMut() -> Result<T, Refusal>) -> (String, Time) {
    let mut answer = None;
    let time = effort.time(|| answer = Some(black_box(call())));
    let answer = match answer.expect("the call was made") {
        Ok(number) => format!("{number:?}").replace("()", "done"),
        Err(refusal) => format!("refused {}", refusal.number()),
    };
    (answer, time)
}

/// Makes a table of calls; `library` is the one crate and then the other.
macro_rules! timed {
    ($(#[$about:meta])* $table:ident; $($name:ident: |$subject:ident, $library:ident| $call:expr;)*) => {
        $(#[$about])*
        const $table: &[Timed] = &[$(Timed {
            name: stringify!($name),
            compiled: |$subject, effort| {
                use calls as $library;
                timed(effort, || $call)
            },
            reference: |$subject, effort| {
                use reference as $library;
                timed(effort, || $call)
            },
        }),*];
    };
}

timed! {
    /// The calls that are timed on every volume, in the order of the tables.
    CALLS;
    find: |on, library| library::find(&on.volume, ROOT, &on.name);
    size: |on, library| library::size(&on.volume, on.inode);
    read: |on, library| library::read(&on.volume, on.file, 0, &mut on.buffer);
    kth_name: |on, library| library::kth_name(&on.volume, ROOT, on.names - 1, &mut on.buffer);
    total: |on, library| library::total(&on.volume, ROOT);
    free_count: |on, library| library::free_count(&on.volume);
    gaps: |on, library| library::gaps(&on.volume, &mut on.room);
    format: |on, library| library::format(&mut on.volume, on.pages, on.inodes);
    carry_out: |on, library| library::carry_out(&mut on.volume, &on.list, on.list.len() as u64);
    create: |on, library| library::create(&on.volume, ROOT, NEW, &mut on.room);
    create_folder: |on, library| library::create_folder(&on.volume, ROOT, NEW, &mut on.room);
    link: |on, library| library::link(&on.volume, ROOT, &on.name, ROOT, NEW, &mut on.room);
    unlink: |on, library| library::unlink(&on.volume, ROOT, &on.name, &mut on.room);
    rename: |on, library| library::rename(&on.volume, ROOT, &on.name, ROOT, NEW, &mut on.room);
    write: |on, library| library::write(&on.volume, on.file, 0, &on.buffer, &mut on.room);
    set_size: |on, library| library::set_size(&on.volume, on.file, 100, &mut on.room);
    clean: |on, library| library::clean(&on.volume, on.file, &mut on.room);
    cleaned_names: |on, library| library::clean(&on.volume, ROOT, &mut on.room);
    recover: |on, library| library::recover(&on.open, &mut on.room);
}

timed! {
    /// Timed where every second page is free: nine data pages in nine pieces and, since the log's last page is full, two log pages.
    SCATTERED;
    scattered_write: |on, library| library::write(&on.volume, on.file, 1, &on.buffer, &mut on.room);
}

#[cfg(test)]
mod tests {
    use super::*;

    /// A list has two words for each store and each fence: 64 stores for a data page, 8 for an entry, two links and the tail; two fences.
    #[test]
    fn a_scattered_write_has_nine_pieces_and_two_log_pages() {
        let words = 2 * (9 * 64 + 9 * 8 + 2 + 1 + 2);
        let done = words.to_string();
        for (pages, answer) in [(16, "refused 12"), (128, &*done), (4_096, &*done)] {
            let mut subject = Kind::EverySecondFree.make()(pages);
            for call in SCATTERED {
                for library in [call.compiled, call.reference] {
                    assert_eq!(library(&mut subject, Effort::QUICK).0, answer);
                }
            }
        }
    }
}
