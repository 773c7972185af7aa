//! How a map is laid out: rows that fit the width, long cells, colours.

use crate::{longest_stretch, said};
use office::show::map_text;
use reference::{judge, Use};
use samples::{entry_add, entry_write, formatted, made_up, put_log, volumes_with_gaps, Random};
use std::collections::{BTreeMap, BTreeSet};

/// A volume of 300 pages: inode 1 has every other page of many and several names.
fn scattered() -> Vec<u8> {
    let mut volume = formatted(300, 8);
    let adds: Vec<_> = (0..7)
        .map(|number| entry_add(1, format!("name {number}").as_bytes()))
        .collect();
    put_log(&mut volume, 0, &[2], &adds);
    let writes: Vec<_> = (0..28)
        .map(|number| entry_write(number, 100 + 2 * number, 1, 65_536))
        .collect();
    put_log(&mut volume, 1, &[50, 40, 30, 20], &writes);
    volume
}

/// The first letters of the grid's rows: page numbers, 64 pages a row or less.
#[test]
fn rows_by_width() {
    let volume = scattered();
    for (width, pages) in [(200, 64), (80, 64), (76, 64), (75, 32), (40, 32), (39, 16)] {
        assert_eq!(rows(&volume, width), pages, "{width}");
    }
    for (width, pages) in [(22, 16), (21, 8), (13, 8), (0, 8)] {
        assert_eq!(rows(&volume, width), pages, "{width}");
    }
}

/// Checks the grid against the pages' uses; answers how many pages its rows have.
fn rows(volume: &[u8], width: usize) -> usize {
    let text = map_text(volume, width, false).unwrap();
    let uses = judge(volume).unwrap().uses;
    let legend = legend(&uses);
    assert!(text.starts_with(&format!("{}\n", legend.join("\n"))));
    let lines = text.lines().skip(legend.len());
    let grid = lines.take_while(|line| !line.is_empty());
    let mut letters = String::new();
    let mut first_row = 0;
    for line in grid {
        let (number, cells) = line.trim_start().split_once("  ").unwrap();
        assert_eq!(number.parse::<usize>().unwrap(), letters.len());
        letters.extend(cells.split(' '));
        first_row = if first_row == 0 {
            letters.len()
        } else {
            first_row
        };
    }
    let longest = longest_stretch(&uses);
    let pages = (0..).zip(&uses);
    let expected: String = pages
        .map(|(page, &serves)| letter(serves, longest.contains(&page)))
        .collect();
    assert_eq!(letters, expected);
    first_row
}

/// The lines above the grid: the letters, and where a page is free the mark of the longest stretch.
fn legend(uses: &[Use]) -> Vec<String> {
    let mut lines = vec!["pages: # fixed, L log, D data, . free".to_string()];
    let longest = longest_stretch(uses);
    if !longest.is_empty() {
        lines.push(format!("       _ longest free stretch: {}", said(&longest)));
    }
    lines
}

fn letter(serves: Use, longest: bool) -> char {
    match serves {
        Use::Fixed => '#',
        Use::Free if longest => '_',
        Use::Free => '.',
        Use::Log { .. } => 'L',
        Use::Data { .. } => 'D',
    }
}

/// The mark in rows of every length, wherever the free pages lie.
#[test]
fn the_longest_stretch() {
    for (pages, inodes) in [(16, 8), (90, 16), (1_000, 64)] {
        for (_, volume) in volumes_with_gaps(pages, inodes) {
            for width in [80, 40, 0] {
                rows(&volume, width);
            }
        }
    }
}

/// What does not fit a column goes on below.
#[test]
fn long_cells() {
    let text = map_text(&scattered(), 80, false).unwrap();
    let table: Vec<&str> = text
        .lines()
        .skip_while(|line| !line.starts_with("inode"))
        .collect();
    let expected = [
        "inode  names                  size  log pages       data pages",
        "    0  the root             458752  2               -",
        "    1  \"name 0\", \"name 1\",   65536  20, 30, 40, 50  100, 102, 104, 106, 108,",
        "       \"name 2\", \"name 3\",                          110, 112, 114, 116, 118,",
        "       \"name 4\", \"name 5\",                          120, 122, 124, 126, 128,",
        "       \"name 6\"                                     130, 132, 134, 136, 138,",
        "                                                    140, 142, 144, 146, 148,",
        "                                                    150, 152, 154",
        "",
        "300 pages: 2 fixed, 5 log, 28 data, 265 free",
    ];
    assert_eq!(table, expected);
}

/// With colour the text is the same but for the sequences, and an inode's cells have the sequence of
/// its number in the table.
#[test]
fn colours() {
    let mut random = Random::new(3);
    let mut painted = 0;
    for volume in (0..300).map(|_| made_up(&mut random)) {
        let (Ok(plain), Ok(judged)) = (map_text(&volume, 80, false), judge(&volume)) else {
            continue;
        };
        let letters = painted_letters(&map_text(&volume, 80, true).unwrap());
        let stripped: String = letters.iter().map(|letter| letter.0).collect();
        assert_eq!(stripped, plain);
        let lines: Vec<&[(char, String)]> = letters.split(|letter| letter.0 == '\n').collect();
        let colours = row_colours(&lines);
        let cells = lines[legend(&judged.uses).len()..].concat();
        let cells = cells.iter().filter(|letter| "#._LD".contains(letter.0));
        for (cell, &page) in cells.zip(&judged.uses) {
            let expected = match page {
                Use::Fixed | Use::Free => "",
                Use::Log { inode } | Use::Data { inode, .. } => &colours[&inode],
            };
            assert_eq!(cell.1, expected);
            painted += usize::from(!expected.is_empty());
        }
    }
    assert!(painted > 1_000, "{painted}");
}

/// The letters of a text with the ANSI sequence that each stands under; none after the sequence 0.
fn painted_letters(text: &str) -> Vec<(char, String)> {
    let mut letters = Vec::new();
    let mut sequence = String::new();
    let mut rest = text.chars();
    while let Some(letter) = rest.next() {
        if letter == '\x1b' {
            sequence = rest.by_ref().take_while(|&letter| letter != 'm').collect();
            if sequence == "[0" {
                sequence.clear();
            }
        } else {
            letters.push((letter, sequence.clone()));
        }
    }
    letters
}

/// The sequences of the numbers in the table, by inode; each has one, and all differ.
fn row_colours(lines: &[&[(char, String)]]) -> BTreeMap<u64, String> {
    let is_head = |line: &[(char, String)]| line.first().is_some_and(|letter| letter.0 == 'i');
    let table = lines.iter().skip_while(|line| !is_head(line)).skip(1);
    let rows = table.take_while(|line| !line.is_empty());
    let numbered = rows.filter_map(|line| {
        let number: String = line.iter().take(5).map(|letter| letter.0).collect();
        Some((number.trim().parse().ok()?, line[4].1.clone()))
    });
    let colours: BTreeMap<u64, String> = numbered.collect();
    let different: BTreeSet<&String> = colours.values().collect();
    assert_eq!(different.len(), colours.len());
    assert!(!different.contains(&String::new()));
    colours
}
