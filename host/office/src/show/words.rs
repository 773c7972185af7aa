//! Words for the things of a volume: names, counts, page numbers, open entries.

use crate::text::escaped;
use reference::OpenEntry;

/// A name in double quotes: printable UTF-8 as it is, all other bytes as `\xNN`, and so are the double
/// quote and the backslash, so that different names look different.
pub(super) fn quoted(name: &[u8]) -> String {
    format!("\"{}\"", escaped(name, printable))
}

/// Whether a letter stands for itself: the standard library would not escape it inside a string.
fn printable(letter: char) -> bool {
    letter == '\'' || format!("a{letter}").escape_debug().count() == 2
}

/// Names in quotes, with commas between them.
pub(super) fn quoted_names(names: &[Vec<u8>]) -> String {
    let quoted: Vec<String> = names.iter().map(|name| self::quoted(name)).collect();
    quoted.join(", ")
}

/// A count with its noun: `1 page`, `2 pages`.
pub(super) fn counted(count: usize, one: &str, many: &str) -> String {
    format!("{count} {}", if count == 1 { one } else { many })
}

/// So many pages from a first one on, as a range: `5`, `5-7`.
pub(super) fn range(first: u64, count: u64) -> String {
    match count {
        1 => first.to_string(),
        _ => format!("{first}-{}", first + count - 1),
    }
}

/// Ascending page numbers as ranges: `2-5`, `9`.
pub(super) fn ranges(pages: &[u64]) -> Vec<String> {
    pages
        .chunk_by(|before, after| before + 1 == *after)
        .map(|run| range(run[0], run.len() as u64))
        .collect()
}

/// The use of an inode's word: `tail of inode 0`.
pub(super) fn inode_word(index: u64) -> String {
    let word = match index % 8 {
        0 => "valid word",
        1 => "head",
        _ => "tail",
    };
    format!("{word} of inode {}", (index - 64) / 8)
}

/// The open entries of a journal: how many, and what goes back to which value.
pub(super) fn open_entries(open: &[OpenEntry]) -> String {
    let targets = targets(open, " goes back");
    format!("{} open: {targets}", entries_are(open))
}

/// The line that a text about a volume with an open journal has; none if the journal is closed.
pub(super) fn put_back(open: &[OpenEntry]) -> Option<String> {
    if open.is_empty() {
        return None;
    }
    let (entries_are, targets) = (entries_are(open), targets(open, ""));
    Some(format!("journal open; {entries_are} put back: {targets}"))
}

fn entries_are(open: &[OpenEntry]) -> String {
    counted(open.len(), "entry is", "entries are")
}

/// The targets of open entries with their old values; `verb` stands behind the first.
fn targets(open: &[OpenEntry], verb: &str) -> String {
    let texts = open.iter().enumerate().map(|(number, entry)| {
        let verb = if number == 0 { verb } else { "" };
        let word = inode_word(entry.target);
        format!("word {} ({word}){verb} to {}", entry.target, entry.old)
    });
    texts.collect::<Vec<String>>().join(", ")
}

#[cfg(test)]
mod tests {
    use super::{quoted, ranges};

    #[test]
    fn names_in_quotes() {
        let names: [(&[u8], &str); 8] = [
            (b"A1", "\"A1\""),
            ("caf\u{e9} 1'2".as_bytes(), "\"caf\u{e9} 1'2\""),
            (b"a\nb\x7f\0", "\"a\\x0Ab\\x7F\\x00\""),
            (b"\xff\xc3(", "\"\\xFF\\xC3(\""),
            (b"a\"b\\c", "\"a\\x22b\\x5Cc\""),
            ("e\u{301}".as_bytes(), "\"e\u{301}\""),
            ("\u{202e}x".as_bytes(), "\"\\xE2\\x80\\xAEx\""),
            (b"", "\"\""),
        ];
        for (name, text) in names {
            assert_eq!(quoted(name), text);
        }
    }

    #[test]
    fn page_numbers_as_ranges() {
        assert_eq!(ranges(&[]), [""; 0]);
        assert_eq!(ranges(&[7]), ["7"]);
        assert_eq!(ranges(&[2, 3, 4, 5, 9]), ["2-5", "9"]);
        assert_eq!(ranges(&[2, 4, 5]), ["2", "4-5"]);
    }
}
