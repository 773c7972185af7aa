//! The stretches of free pages as text: a line for each, the longest, the total.

use super::stretch::{longest, Stretch};
use super::words::counted;

/// The whole text.
pub(super) fn text(stretches: &[Stretch]) -> String {
    let Some(longest) = longest(stretches) else {
        return "no page is free\n".to_string();
    };
    let mut lines = vec![line("free pages", "length")];
    let rows = stretches.iter();
    lines.extend(rows.map(|stretch| line(&stretch.range(), &stretch.length.to_string())));
    lines.push(String::new());
    lines.push(format!("longest: {}", longest.text()));
    lines.push(total(stretches));
    lines.push(String::new());
    lines.join("\n")
}

/// A line of the table. No range and no length is wider than the head of its column.
fn line(pages: &str, length: &str) -> String {
    format!("{pages:<10}  {length:>6}")
}

fn total(stretches: &[Stretch]) -> String {
    let free: u64 = stretches.iter().map(|stretch| stretch.length).sum();
    let pages = counted(free as usize, "free page", "free pages");
    let stretches = counted(stretches.len(), "stretch", "stretches");
    format!("total: {pages} in {stretches}")
}
