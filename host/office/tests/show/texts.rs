//! Whole texts: the maps and logs of document 01's cases, and of volumes made by hand.

use crate::{case_j, cases};
use office::show::{gaps_text, log_text, map_svg, map_text};
use reference::layout::set_word;
use refusal::Refusal;
use samples::{done, entry_size, entry_write, formatted, link, put_log, sample, unlink};

#[test]
fn maps_of_the_cases() {
    let [b, c, d, e] = cases();
    let expected = "\
pages: # fixed, L log, D data, . free
       _ longest free stretch: 13 pages, 3-15
 0  ##L_____ ________

inode  names     size  log pages  data pages
    0  the root     0  2          -
    1  \"A1\"         0  -          -

16 pages: 2 fixed, 1 log, 0 data, 13 free
";
    assert_eq!(map_text(&b, 80, false).unwrap(), expected);
    let expected = "\
pages: # fixed, L log, D data, . free
       _ longest free stretch: 10 pages, 6-15
 0  ##LDDL__ ________

inode  names     size  log pages  data pages
    0  the root   514  2          -
    1  \"A1\"       514  5          3-4

16 pages: 2 fixed, 2 log, 2 data, 10 free
";
    assert_eq!(map_text(&c, 80, false).unwrap(), expected);
    let expected = "\
pages: # fixed, L log, D data, . free
       _ longest free stretch: 9 pages, 7-15
 0  ##L..LD_ ________

inode  names     size  log pages  data pages
    0  the root   100  2          -
    1  \"A1\"       100  5          6

16 pages: 2 fixed, 2 log, 1 data, 11 free
";
    assert_eq!(map_text(&d, 80, false).unwrap(), expected);
    let expected = "\
pages: # fixed, L log, D data, . free
       _ longest free stretch: 9 pages, 7-15
 0  ##LL..D_ ________

inode  names     size  log pages  data pages
    0  the root   100  2          -
    1  \"A1\"       100  3          6

16 pages: 2 fixed, 2 log, 1 data, 11 free
";
    assert_eq!(map_text(&e, 80, false).unwrap(), expected);
}

#[test]
fn gaps_of_the_cases() {
    let [b, c, d, e] = cases();
    let one_stretch = |pages: &str, count: u64| {
        let row = format!("{pages:<16}{count}");
        let end =
            format!("longest: {count} pages, {pages}\ntotal: {count} free pages in 1 stretch");
        format!("free pages  length\n{row}\n\n{end}\n")
    };
    assert_eq!(gaps_text(&b).unwrap(), one_stretch("3-15", 13));
    assert_eq!(gaps_text(&c).unwrap(), one_stretch("6-15", 10));
    let expected = "\
free pages  length
3-4              2
7-15             9

longest: 9 pages, 7-15
total: 11 free pages in 2 stretches
";
    assert_eq!(gaps_text(&d).unwrap(), expected);
    assert_eq!(gaps_text(&e).unwrap(), expected.replace("3-4", "4-5"));
}

#[test]
fn logs_of_the_cases() {
    let [b, c, d, e] = cases();
    let root = "\
inode 0, root, 1 name: log of 1 entry on 1 page, head 2, tail 1088
page 2, entry 1: add \"A1\" for inode 1
";
    for volume in [&b, &c, &d, &e] {
        assert_eq!(log_text(volume, 0).unwrap(), root);
    }
    let expected = "inode 1, file, name \"A1\", size 0: empty log\n";
    assert_eq!(log_text(&b, 1).unwrap(), expected);
    let expected = "\
inode 1, file, name \"A1\", size 514: log of 1 entry on 1 page, head 5, tail 2624
page 5, entry 1: write: file pages 0-1 on data pages 3-4, size 514
";
    assert_eq!(log_text(&c, 1).unwrap(), expected);
    let expected = "\
inode 1, file, name \"A1\", size 100: log of 3 entries on 1 page, head 5, tail 2752
page 5, entry 1: write: file pages 0-1 on data pages 3-4, size 514
page 5, entry 2: set size: 100
page 5, entry 3: write: file page 0 on data page 6, size 100
";
    assert_eq!(log_text(&d, 1).unwrap(), expected);
    let expected = "\
inode 1, file, name \"A1\", size 100: log of 1 entry on 1 page, head 3, tail 1600
page 3, entry 1: write: file page 0 on data page 6, size 100
";
    assert_eq!(log_text(&e, 1).unwrap(), expected);
}

/// An open journal is put back, and the texts say so.
#[test]
fn an_open_journal() {
    let line = "journal open; 2 entries are put back: \
                word 66 (tail of inode 0) to 0, word 72 (valid word of inode 1) to 0";
    let volume = case_j();
    let map = format!(
        "\
pages: # fixed, L log, D data, . free
       _ longest free stretch: 14 pages, 2-15
 0  ##______ ________

inode  names     size  log pages  data pages
    0  the root     0  -          -

{line}
16 pages: 2 fixed, 0 log, 0 data, 14 free
"
    );
    assert_eq!(map_text(&volume, 80, false).unwrap(), map);
    let log = format!("inode 0, root, 0 names: empty log\n{line}\n");
    assert_eq!(log_text(&volume, 0).unwrap(), log);
    assert_eq!(log_text(&volume, 1), Err(Refusal::NotThere));
    assert_eq!(gaps_text(&volume), Err(Refusal::JournalOpen));
    let picture = map_svg(&volume).unwrap();
    assert!(picture.contains("journal open; 2 entries are put back: word 66"));
    assert!(!map_svg(&formatted(16, 8)).unwrap().contains("journal"));
}

/// A log of two pages with all four kinds, names that are no text, and two names for one inode.
#[test]
fn longer_logs() {
    let mut volume = sample();
    done(&mut volume, &link(b"A1", b"tw\xffo \"\n"));
    let mut entries = vec![entry_size(0); 7];
    entries.extend([entry_write(3, 7, 1, 2_048), entry_write(0, 5, 2, 2_000)]);
    put_log(&mut volume, 2, &[18, 12], &entries);
    put_log(&mut volume, 1, &[4], &[entry_size(9)]);
    volume[7 * 512 + 464..8 * 512].fill(0);
    let expected = "\
inode 2, file, name \"B2\", size 2000: log of 9 entries on 2 pages, head 18, tail 6272
page 18, entry 1: set size: 0
page 18, entry 2: set size: 0
page 18, entry 3: set size: 0
page 18, entry 4: set size: 0
page 18, entry 5: set size: 0
page 18, entry 6: set size: 0
page 18, entry 7: set size: 0
page 12, entry 1: write: file page 3 on data page 7, size 2048
page 12, entry 2: write: file pages 0-1 on data pages 5-6, size 2000
";
    assert_eq!(log_text(&volume, 2).unwrap(), expected);
    let expected = "\
inode 1, file, names \"A1\", \"tw\\xFFo \\x22\\x0A\", size 9: log of 1 entry on 1 page, head 4, tail 2112
page 4, entry 1: set size: 9
";
    assert_eq!(log_text(&volume, 1).unwrap(), expected);
    done(&mut volume, &unlink(b"A1"));
    let expected = "\
inode 0, root, 2 names: log of 4 entries on 1 page, head 3, tail 1792
page 3, entry 1: add \"A1\" for inode 1
page 3, entry 2: add \"B2\" for inode 2
page 3, entry 3: add \"tw\\xFFo \\x22\\x0A\" for inode 1
page 3, entry 4: remove \"A1\"
";
    assert_eq!(log_text(&volume, 0).unwrap(), expected);
    let expected = "\
pages: # fixed, L log, D data, . free
       _ longest free stretch: 5 pages, 13-17
 0  ###LLDDD
 8  ....L___
16  __L.

inode  names               size  log pages  data pages
    0  the root            2009  3          -
    1  \"tw\\xFFo \\x22\\x0A\"     9  4          -
    2  \"B2\"                2000  12, 18     5-7

20 pages: 3 fixed, 4 log, 3 data, 10 free
";
    assert_eq!(map_text(&volume, 0, false).unwrap(), expected);
}

#[test]
fn refusals() {
    let sample = sample();
    let mut damaged = sample.clone();
    set_word(&mut damaged, 8, 16);
    for (volume, refusal) in [
        (&sample[1..], Refusal::NoVolume),
        (&damaged, Refusal::Damaged),
    ] {
        assert_eq!(map_text(volume, 80, false), Err(refusal));
        assert_eq!(map_svg(volume), Err(refusal));
        assert_eq!(gaps_text(volume), Err(refusal));
        assert_eq!(log_text(volume, 0), Err(refusal));
        assert_eq!(log_text(volume, 99), Err(refusal));
    }
    for inode in [3, 15, 16, 17, u64::MAX] {
        assert_eq!(log_text(&sample, inode), Err(Refusal::NotThere));
    }
}
