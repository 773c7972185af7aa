//! A page put together from a template and the files of a folder.
//!
//! In the template, `{{table NAME}}` is the table NAME.tsv in Markdown, `{{text NAME}}` the text NAME.txt, and
//! `{{range NAME|COLUMN}}` the least and the greatest number in a column of NAME.tsv, as "1.2 to 3.4"; `{{range NAME|COLUMN|CELL}}` looks
//! only at rows whose first cell is CELL. COLUMN and CELL may end in `*` for every column or row that begins so.

use crate::table::{number, Table};
use std::fs;
use std::path::Path;

/// The template with everything filled in, or what is wrong with it.
pub fn filled(template: &str, folder: &Path) -> Result<String, String> {
    let mut page = String::new();
    let mut rest = template;
    while let Some((before, after)) = rest.split_once("{{") {
        let (asked, after) = after.split_once("}}").ok_or("a {{ without }}")?;
        page += before;
        page += &part(asked, folder).map_err(|error| format!("{{{{{asked}}}}}: {error}"))?;
        rest = after;
    }
    Ok(page + rest)
}

/// What one placeholder stands for.
fn part(asked: &str, folder: &Path) -> Result<String, String> {
    let (kind, what) = asked.split_once(' ').ok_or("no name")?;
    let fields: Vec<&str> = what.split('|').collect();
    match (kind, &fields[..]) {
        ("table", [name]) => Ok(table(folder, name)?.markdown().trim_end().to_string()),
        ("text", [name]) => Ok(read(folder, &format!("{name}.txt"))?.trim_end().to_string()),
        ("range", [name, column]) => range(&table(folder, name)?, column, "*"),
        ("range", [name, column, cell]) => range(&table(folder, name)?, column, cell),
        _ => Err("not known".to_string()),
    }
}

fn table(folder: &Path, name: &str) -> Result<Table, String> {
    Table::from_tabbed(&read(folder, &format!("{name}.tsv"))?)
}

fn read(folder: &Path, name: &str) -> Result<String, String> {
    let path = folder.join(name);
    fs::read_to_string(&path).map_err(|error| format!("{}: {error}", path.display()))
}

/// The least and the greatest number in the columns with this name, of the rows whose first cell is this.
///
/// Without any number it is "(not measured)".
fn range(table: &Table, column: &str, cell: &str) -> Result<String, String> {
    let mut looked = false;
    let mut numbers: Vec<(f64, &str)> = Vec::new();
    for row in table.rows.iter().filter(|row| meant(cell, &row[0])) {
        for (name, cell) in table.columns.iter().zip(row) {
            if meant(column, name) {
                looked = true;
                numbers.extend(number(cell).map(|number| (number, cell.as_str())));
            }
        }
    }
    if !looked {
        return Err("no such column or row".to_string());
    }
    numbers.sort_by(|one, other| one.0.total_cmp(&other.0));
    Ok(match numbers[..] {
        [] => "(not measured)".to_string(),
        [(least, text), .., (greatest, _)] if least == greatest => text.to_string(),
        [(_, least), .., (_, greatest)] => format!("{least} to {greatest}"),
        [(_, only)] => only.to_string(),
    })
}

/// Whether a text is the one asked for, or begins so where that ends in `*`.
fn meant(asked: &str, text: &str) -> bool {
    match asked.strip_suffix('*') {
        Some(begin) => text.starts_with(begin),
        None => text == asked,
    }
}

#[cfg(test)]
mod tests {
    use super::*;

    fn small() -> Table {
        let text = "call\tratio 16\tratio 128\nfind\t0.50\t2.00\nread\t1,000\t-\n";
        Table::from_tabbed(text).expect("a table")
    }

    #[test]
    fn a_range_looks_at_the_columns_and_rows_that_are_asked_for() {
        let of = |column, cell| range(&small(), column, cell);
        assert_eq!(of("ratio*", "*"), Ok("0.50 to 1,000".to_string()));
        assert_eq!(of("ratio*", "find"), Ok("0.50 to 2.00".to_string()));
        assert_eq!(of("ratio 16", "re*"), Ok("1,000".to_string()));
        assert_eq!(of("ratio 128", "read"), Ok("(not measured)".to_string()));
        assert!(of("ratio", "*").is_err() && of("ratio 16", "write").is_err());
    }

    #[test]
    fn a_page_is_filled_in_or_its_fault_is_named() {
        let name = format!("bench-page-{}", std::process::id());
        let folder = std::env::temp_dir().join(name);
        fs::create_dir(&folder).expect("a fresh folder");
        fs::write(folder.join("one.tsv"), small().tabbed()).expect("a table");
        fs::write(folder.join("word.txt"), "text\n").expect("a text");
        let good = filled("a {{text word}} {{range one|ratio 16}}.", &folder);
        let table = filled("{{table one}}", &folder);
        let bad = ["{{text none}}", "{{text", "{{other one}}"].map(|bad| filled(bad, &folder));
        fs::remove_dir_all(&folder).expect("the folder");
        assert_eq!(good, Ok("a text 0.50 to 1,000.".to_string()));
        assert_eq!(table, Ok(small().markdown().trim_end().to_string()));
        assert!(bad.iter().all(Result::is_err));
    }
}
