//! Tables of text: written as tab-separated rows, the first one the names of the columns.

use std::fmt::Display;

/// A table; every row has a cell for each column.
pub struct Table {
    /// The names of the columns.
    pub columns: Vec<String>,
    /// The rows, cell by cell.
    pub rows: Vec<Vec<String>>,
}

impl Table {
    /// A table with no rows yet.
    pub fn new(columns: &[&dyn Display]) -> Table {
        let columns = texts(columns);
        let rows = Vec::new();
        Table { columns, rows }
    }

    /// Adds a row.
    pub fn row(&mut self, cells: &[&dyn Display]) {
        self.texts(texts(cells));
    }

    /// Adds a row of texts.
    pub fn texts(&mut self, cells: Vec<String>) {
        assert_eq!(cells.len(), self.columns.len(), "a cell for each column");
        self.rows.push(cells);
    }

    /// The table as tab-separated rows.
    pub fn tabbed(&self) -> String {
        let rows = std::iter::once(&self.columns).chain(&self.rows);
        rows.map(|row| row.join("\t") + "\n").collect()
    }

    /// The table in tab-separated rows, or what is wrong with them.
    pub fn from_tabbed(text: &str) -> Result<Table, String> {
        let split = |line: &str| line.split('\t').map(String::from).collect();
        let mut lines = text.lines().map(split);
        let columns: Vec<String> = lines.next().ok_or("a table without columns")?;
        let rows: Vec<Vec<String>> = lines.collect();
        match rows.iter().find(|row| row.len() != columns.len()) {
            Some(row) => Err(format!("not {} cells: {row:?}", columns.len())),
            None => Ok(Table { columns, rows }),
        }
    }

    /// The table in Markdown: the first column to the left, the others to the right where all their cells are numbers.
    pub fn markdown(&self) -> String {
        let line = |cells: Vec<&str>| format!("| {} |\n", cells.join(" | "));
        let mut text = line(self.columns.iter().map(String::as_str).collect());
        let numbers = |column: usize| self.rows.iter().all(|row| starts_as_number(&row[column]));
        let ruler = |column: usize| if numbers(column) { "---:" } else { "---" };
        text += &line((0..self.columns.len()).map(ruler).collect());
        for row in &self.rows {
            text += &line(row.iter().map(String::as_str).collect());
        }
        text
    }
}

fn texts(cells: &[&dyn Display]) -> Vec<String> {
    cells.iter().map(|cell| cell.to_string()).collect()
}

/// Whether a cell is a number, two numbers, or says that there is none.
fn starts_as_number(cell: &str) -> bool {
    cell.starts_with(|first: char| first.is_ascii_digit() || first == '-') || is_remark(cell)
}

fn is_remark(cell: &str) -> bool {
    ["not measured", "refused", "noise"]
        .iter()
        .any(|remark| cell.starts_with(remark))
}

/// A number with a comma at each thousand: below 10 with two digits after the point, below 100 with one.
///
/// `shown(0.1234)` is "0.12", `shown(12.34)` "12.3", `shown(1234.5)` "1,234" or "1,235".
pub fn shown(number: f64) -> String {
    let decimals = match number.abs() {
        0.0..10.0 => 2,
        10.0..100.0 => 1,
        _ => 0,
    };
    let text = format!("{number:.decimals$}");
    let (whole, rest) = text.split_at(text.find('.').unwrap_or(text.len()));
    let mut grouped = String::new();
    for (place, digit) in whole.char_indices() {
        if place > 0 && (whole.len() - place) % 3 == 0 {
            grouped.push(',');
        }
        grouped.push(digit);
    }
    grouped + rest
}

/// A whole number with a comma at each thousand.
pub fn whole(number: u64) -> String {
    match number {
        0..1_000 => number.to_string(),
        _ => shown(number as f64),
    }
}

/// The number that a cell shows, if it shows one alone.
pub fn number(cell: &str) -> Option<f64> {
    cell.replace(',', "").parse().ok()
}

#[cfg(test)]
mod tests {
    use super::*;

    #[test]
    fn numbers_are_shown_and_read_back() {
        let cases = [0.1234, 12.34, 123.4, 1_234.0, 4_096.0, 165_968_960.0];
        let texts = ["0.12", "12.3", "123", "1,234", "4,096", "165,968,960"];
        assert_eq!(cases.map(shown), texts);
        assert_eq!(number("165,968,960"), Some(165_968_960.0));
        assert_eq!(number("refused 12"), None);
        assert_eq!([0, 999, 4_096].map(whole), ["0", "999", "4,096"]);
    }

    #[test]
    fn a_table_is_read_back_from_its_rows() {
        let mut table = Table::new(&[&"call", &"ratio"]);
        table.row(&[&"find", &"0.62"]);
        let again = Table::from_tabbed(&table.tabbed()).expect("a table");
        assert_eq!(again.rows, [["find", "0.62"]]);
        let markdown = "| call | ratio |\n| --- | ---: |\n| find | 0.62 |\n";
        assert_eq!(again.markdown(), markdown);
        assert!(Table::from_tabbed("a\tb\nc\n").is_err());
    }
}
