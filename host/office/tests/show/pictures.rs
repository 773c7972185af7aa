//! The picture of a map: well-formed, with a cell for each page, an outline around the longest stretch of free pages and
//! names that XML can hold.

use crate::{case_j, cases, longest_stretch, said};
use office::show::map_svg;
use reference::{judge, Use};
use refusal::Refusal;
use samples::{
    create, done, formatted, long_directory, made_up, made_up_sized, sample, volumes_with_gaps,
    with_free_pages, Random,
};
use std::ops::Range;

/// Reads a picture as XML: every tag is closed, every attribute is quoted, and `<` and `&` stand for
/// nothing else. Answers each element's name and attributes, and the texts of its titles.
fn parse(picture: &str) -> (Vec<String>, Vec<String>) {
    let (mut tags, mut titles, mut open) = (Vec::new(), Vec::new(), Vec::new());
    let mut rest = picture;
    while let Some(start) = rest.find('<') {
        check_text(&rest[..start]);
        let end = start + rest[start..].find('>').expect("a tag ends");
        let tag = &rest[start + 1..end];
        if let Some(name) = tag.strip_prefix('/') {
            assert_eq!(open.pop().as_deref(), Some(name));
            if name == "title" {
                titles.push(rest[..start].to_string());
            }
        } else {
            let (tag, closed) = match tag.strip_suffix('/') {
                Some(tag) => (tag, true),
                None => (tag, false),
            };
            let name = tag.split(' ').next().unwrap().to_string();
            check_attributes(&tag[name.len()..]);
            tags.push(tag.to_string());
            if !closed {
                open.push(name);
            }
        }
        rest = &rest[end + 1..];
    }
    assert_eq!(open, [""; 0]);
    assert_eq!(rest, "\n");
    (tags, titles)
}

fn check_text(text: &str) {
    assert!(!text.contains('>'));
    for reference in text.split('&').skip(1) {
        let known = ["amp;", "lt;", "gt;", "quot;"];
        assert!(
            known.iter().any(|name| reference.starts_with(name)),
            "{text}"
        );
    }
    assert!(!text
        .chars()
        .any(|letter| letter.is_control() && letter != '\n'));
}

/// Attributes: a space, a name, `="`, a value without `<`, `"`.
fn check_attributes(mut attributes: &str) {
    while !attributes.is_empty() {
        let (name, rest) = attributes.split_once("=\"").expect("a quoted value");
        let name = name.strip_prefix(' ').expect("a space before the name");
        let plain = |letter: char| letter.is_ascii_alphabetic() || "-:".contains(letter);
        assert!(!name.is_empty() && name.chars().all(plain), "{name}");
        let (value, rest) = rest.split_once('"').expect("a closing quote");
        assert!(!value.contains('<') && !value.contains('&'));
        attributes = rest;
    }
}

/// Checks a picture: well-formed, one cell per page with the title that its use asks for, nothing
/// from elsewhere.
fn check(volume: &[u8]) {
    let picture = map_svg(volume).unwrap();
    let judged = judge(volume).unwrap();
    let (tags, titles) = parse(&picture);
    let cells = tags.iter().filter(|tag| *tag == "g class=\"cell\"").count();
    assert_eq!(cells, judged.uses.len());
    let cell_titles: Vec<&String> = titles
        .iter()
        .filter(|title| title.starts_with("page "))
        .collect();
    let longest = longest_stretch(&judged.uses);
    let pages = (0..).zip(&judged.uses);
    let expected: Vec<String> = pages
        .map(|(page, serves)| title(page, serves, longest.contains(&page)))
        .collect();
    assert_eq!(cell_titles, expected.iter().collect::<Vec<_>>());
    if longest.is_empty() {
        assert!(!picture.contains("stretch"));
    } else {
        let legend = format!(">longest free stretch: {}</text>", said(&longest));
        assert!(picture.contains(&legend));
    }
    check_outline(&tags, longest);
    assert_eq!(titles.len(), 1 + cells + judged.logs.len());
    assert!(!picture.contains("<script") && !picture.contains("href"));
}

fn title(page: u64, serves: &Use, longest: bool) -> String {
    match serves {
        Use::Fixed => format!("page {page}: fixed"),
        Use::Free if longest => format!("page {page}: free (longest stretch)"),
        Use::Free => format!("page {page}: free"),
        Use::Log { inode } => format!("page {page}: log of inode {inode}"),
        Use::Data { inode, file_page } => {
            format!("page {page}: data of inode {inode} (file page {file_page})")
        }
    }
}

/// A point of the picture.
type Point = (i64, i64);

/// Checks the outlines: one around the legend's square, the others around the longest stretch. The middle of a cell lies
/// inside one exactly if its page is in the stretch, and the lines are no longer than the sides between such a page and
/// another. Without a stretch there are none.
fn check_outline(tags: &[String], longest: Range<u64>) {
    let mut outlines: Vec<Vec<Point>> = tags.iter().filter_map(|tag| outline(tag)).collect();
    if longest.is_empty() {
        assert_eq!(outlines, [[]; 0]);
        return;
    }
    let places = cell_places(tags);
    let legend = outlines.remove(0);
    assert!(legend.iter().all(|corner| corner.1 < places[0].1 - 1));
    let step = places[1].0 - places[0].0;
    let inside = |place: Point| {
        let middle = (place.0 + step / 2, place.1 + step / 2);
        outlines.iter().any(|corners| surrounds(corners, middle))
    };
    let mut sides = 0;
    for (page, &place) in (0..).zip(&places) {
        assert_eq!(inside(place), longest.contains(&page), "page {page}");
        let around = [(-step, 0), (step, 0), (0, -step), (0, step)];
        let beside = around.map(|(x, y)| (place.0 + x, place.1 + y));
        let outside = beside.iter().filter(|&&neighbour| !inside(neighbour));
        sides += outside.count() as i64 * i64::from(inside(place));
    }
    let lengths = outlines.iter().map(|corners| line_length(corners));
    assert_eq!(lengths.sum::<i64>(), sides * step);
}

/// The corners of an outline; none if the tag is no outline.
fn outline(tag: &str) -> Option<Vec<Point>> {
    let points = tag.strip_prefix("polygon class=\"outline\" points=\"")?;
    let points = points.trim_end_matches('"').split(' ');
    let corners = points.map(|point| {
        let (x, y) = point.split_once(',').expect("two numbers");
        (x.parse().expect("a number"), y.parse().expect("a number"))
    });
    Some(corners.collect())
}

/// The left and upper edges of the cells, by page.
fn cell_places(tags: &[String]) -> Vec<Point> {
    let cells = tags.windows(3).filter(|tags| tags[0] == "g class=\"cell\"");
    let places = cells.map(|tags| (number(&tags[2], "x"), number(&tags[2], "y")));
    places.collect()
}

fn number(tag: &str, name: &str) -> i64 {
    let (_, value) = tag
        .split_once(&format!(" {name}=\""))
        .expect("the attribute");
    let (value, _) = value.split_once('"').expect("a closing quote");
    value.parse().expect("a number")
}

/// Whether a point lies inside: a line from it to the right crosses an odd count of the lines up and down.
fn surrounds(corners: &[Point], (x, y): Point) -> bool {
    let crossed = sides(corners).filter(|&(one, other)| {
        let rows = one.1.min(other.1)..one.1.max(other.1);
        one.0 == other.0 && one.0 > x && rows.contains(&y)
    });
    crossed.count() % 2 == 1
}

fn line_length(corners: &[Point]) -> i64 {
    let lengths =
        sides(corners).map(|(one, other)| (one.0 - other.0).abs() + (one.1 - other.1).abs());
    lengths.sum()
}

/// The lines of an outline, from each corner to the next and from the last to the first.
fn sides(corners: &[Point]) -> impl Iterator<Item = (Point, Point)> + '_ {
    let next = corners.iter().cycle().skip(1);
    corners.iter().copied().zip(next.copied())
}

#[test]
fn of_cases_and_samples() {
    for volume in cases() {
        check(&volume);
    }
    check(&case_j());
    check(&sample());
    check(&long_directory(224));
}

#[test]
fn of_every_size() {
    for (pages, inodes) in [
        (16, 8),
        (16, 96),
        (64, 8),
        (65, 8),
        (512, 8),
        (513, 8),
        (4_096, 256),
    ] {
        check(&formatted(pages, inodes));
    }
}

/// Free pages wherever they can lie: in one row, in two with and without a page below another, in many.
#[test]
fn of_stretches_everywhere() {
    for (_, volume) in [(16, 8), (90, 16), (600, 8)]
        .into_iter()
        .flat_map(|(pages, inodes)| volumes_with_gaps(pages, inodes))
    {
        check(&volume);
    }
    for first in 2..40 {
        for last in first..40 {
            check(&with_free_pages(40, 8, |page| {
                (first..=last).contains(&page)
            }));
        }
    }
}

#[test]
fn of_made_up_volumes() {
    let mut random = Random::new(61);
    let mut checked = 0;
    for number in 0..400 {
        let volume = match number % 40 {
            0 => made_up_sized(&mut random, 700, 256),
            _ => made_up(&mut random),
        };
        if judge(&volume).is_ok() {
            check(&volume);
            checked += 1;
        } else {
            assert_eq!(map_svg(&volume), Err(Refusal::Damaged));
        }
    }
    assert!(checked > 150, "{checked}");
}

/// Names in the legend: references for what XML keeps, `\xNN` for what is no text.
#[test]
fn names() {
    let mut volume = formatted(16, 8);
    done(&mut volume, &create(b"<a> & 'b'\xff\x01"));
    let picture = map_svg(&volume).unwrap();
    let name = "&quot;&lt;a&gt; &amp; 'b'\\xFF\\x01&quot;";
    assert!(picture.contains(&format!("<title>1: {name}, size 0, 0 log, 0 data</title>")));
    check(&volume);
}
