//! Numbers, lists, answers and calls as the definitions write them.

use reference::layout::word;
use reference::{Answer, Call, Refusal};

/// A list with a longer run of one number is written with `replicate`, which is quicker to read.
const LONG_RUN: usize = 16;

/// A list of numbers, in brackets.
pub fn numbers(values: &[u64]) -> String {
    let mut runs: Vec<(usize, u64)> = Vec::new();
    for &value in values {
        match runs.last_mut() {
            Some((count, last)) if *last == value => *count += 1,
            _ => runs.push((1, value)),
        }
    }
    let mut parts = Vec::new();
    let mut open = 0;
    for (count, value) in runs {
        if count < LONG_RUN {
            parts.push(format!("{value} ∷ ").repeat(count));
        } else {
            parts.push(format!("(replicate {count} {value} ++ "));
            open += 1;
        }
    }
    format!("({}[]{})", parts.concat(), ")".repeat(open))
}

/// A list of bytes, in brackets.
pub fn bytes(values: &[u8]) -> String {
    let values: Vec<u64> = values.iter().map(|&byte| u64::from(byte)).collect();
    numbers(&values)
}

/// A list of pairs, in brackets, from its numbers by turns.
pub fn pairs(values: &[u64]) -> String {
    let mut text = String::new();
    for pair in values.chunks_exact(2) {
        text += &format!("({}, {}) ∷ ", pair[0], pair[1]);
    }
    format!("({text}[])")
}

/// The words of a volume, as a function from a list for each page.
pub fn memory(volume: &[u8]) -> String {
    let mut pages = String::new();
    for page in 0..volume.len().div_ceil(512) as u64 {
        let words: Vec<u64> = (64 * page..64 * page + 64)
            .map(|index| word(volume, index))
            .collect();
        pages += &format!("{} ∷ ", numbers(&words));
    }
    format!("λ w. get_or (get_or ({pages}[]) (w / 64) []) (w % 64) 0")
}

/// Names, each with its inode, in brackets.
pub fn names(pairs: &[(Vec<u8>, u64)]) -> String {
    let mut text = String::new();
    for (name, inode) in pairs {
        text += &format!("({}, {inode}) ∷ ", bytes(name));
    }
    format!("({text}[])")
}

/// An answer that is a number.
pub fn number(answer: Answer) -> String {
    answered(answer.map(|number| number.to_string()))
}

/// An answer, what is done being a term already.
pub fn answered(answer: Result<String, Refusal>) -> String {
    match answer {
        Ok(term) => format!("done {term}"),
        Err(refusal) => format!("refused {}", refusal.number()),
    }
}

/// A call, in brackets.
pub fn call(call: &Call) -> String {
    let text = match call {
        Call::Create { folder, name } => format!("create {folder} {}", bytes(name)),
        Call::CreateFolder { folder, name } => format!("create_folder {folder} {}", bytes(name)),
        Call::Link {
            old_folder,
            old,
            new_folder,
            new,
        } => format!(
            "link {old_folder} {} {new_folder} {}",
            bytes(old),
            bytes(new)
        ),
        Call::Unlink { folder, name } => format!("unlink {folder} {}", bytes(name)),
        Call::Rename {
            old_folder,
            old,
            new_folder,
            new,
        } => format!(
            "rename {old_folder} {} {new_folder} {}",
            bytes(old),
            bytes(new)
        ),
        Call::Write {
            inode,
            offset,
            bytes: data,
        } => format!("write {inode} {offset} {}", bytes(data)),
        Call::SetSize { inode, size } => format!("set_size {inode} {size}"),
        Call::Clean { inode } => format!("clean {inode}"),
        Call::Recover => "recover".to_string(),
    };
    format!("({text})")
}
