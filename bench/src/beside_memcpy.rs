//! The call read beside a copy of the same bytes by memcpy, and the part of it that judges the volume.

use crate::plot::{Plot, Series};
use crate::table::{shown, whole, Table};
use crate::timing::{Effort, Time};
use samples::{create, done, formatted, text, write};

/// The page count of the volume: the least power of two whose volume takes a file of 65,536 bytes.
const PAGES: u64 = 256;
/// The lengths that are read.
const LENGTHS: [usize; 5] = [1, 64, 512, 4_096, 65_536];
/// The offsets that are read at: the start of a page and an odd byte.
const OFFSETS: [u64; 2] = [0, 1];
/// The inode of the file.
const FILE: u64 = 1;

/// What was timed: lengths and offsets with both times.
struct Timed {
    length: usize,
    offset: u64,
    read: Time,
    copy: Time,
}

/// The table, and the plot of its times.
pub fn times(effort: Effort) -> (Table, Plot) {
    let volume = volume();
    let judge = effort.time(|| calls::read(&volume, FILE, 0, &mut []).is_ok());
    let mut timed = Vec::new();
    for offset in OFFSETS {
        for length in LENGTHS {
            // The file ends at 65,536, so that the longest read at an odd byte has one byte less.
            let length = length.min(65_536 - offset as usize);
            timed.push(time(&volume, length, offset, effort));
        }
    }
    (table(&timed, judge), plot(&timed, judge))
}

/// One file of 65,536 bytes, written 4,096 at a time.
fn volume() -> Vec<u8> {
    let mut volume = formatted(PAGES, 8);
    done(&mut volume, &create(b"A1"));
    for part in 0..16 {
        done(&mut volume, &write(FILE, part * 4_096, &text(4_096)));
    }
    volume
}

/// Times a read of so many bytes and the copy of as many, with a look at the bytes first.
fn time(volume: &[u8], length: usize, offset: u64, effort: Effort) -> Timed {
    let file: Vec<u8> = (0..16).flat_map(|_| text(4_096)).collect();
    let from = &file[offset as usize..][..length];
    let mut buffer = vec![0; length];
    assert_eq!(
        calls::read(volume, FILE, offset, &mut buffer),
        Ok(length as u64)
    );
    assert_eq!(buffer, from);
    let read = effort.time(|| calls::read(volume, FILE, offset, &mut buffer).is_ok());
    let copy = effort.time(|| {
        std::hint::black_box(&mut buffer).copy_from_slice(std::hint::black_box(from));
    });
    Timed {
        length,
        offset,
        read,
        copy,
    }
}

fn table(timed: &[Timed], judge: Time) -> Table {
    let mut table = Table::new(&[
        &"bytes",
        &"offset",
        &"read: best",
        &"median",
        &"memcpy: best",
        &"median",
        &"ratio",
        &"read GB/s",
        &"memcpy GB/s",
        &"judge's part of read",
        &"ratio without the judge",
    ]);
    table.row(&[
        &0,
        &0,
        &shown(judge.best),
        &shown(judge.median),
        &"-",
        &"-",
        &"-",
        &"-",
        &"-",
        &"100%",
        &"-",
    ]);
    for Timed {
        length,
        offset,
        read,
        copy,
    } in timed
    {
        let speed = |time: &Time| shown_speed(*length as f64 / time.best);
        // Noise may make the read of 0 bytes the slower one.
        let rest = read.best - judge.best;
        let part = 100.0 * (judge.best / read.best).min(1.0);
        let without = match rest {
            0.0.. => shown(rest / copy.best),
            _ => "noise".to_string(),
        };
        table.row(&[
            &whole(*length as u64),
            &offset,
            &shown(read.best),
            &shown(read.median),
            &shown(copy.best),
            &shown(copy.median),
            &shown(read.best / copy.best),
            &speed(read),
            &speed(copy),
            &format!("{part:.0}%"),
            &without,
        ]);
    }
    table
}

/// Bytes in a nanosecond, which are gigabytes in a second, with three digits where they are few.
fn shown_speed(speed: f64) -> String {
    if speed < 0.1 {
        format!("{speed:.5}")
    } else {
        shown(speed)
    }
}

fn plot(timed: &[Timed], judge: Time) -> Plot {
    let at_start = || timed.iter().filter(|timed| timed.offset == 0);
    let series = |name: &str, time: &dyn Fn(&Timed) -> f64| {
        let points = at_start().map(|timed| (timed.length as f64, time(timed)));
        Series::new(name, points.collect())
    };
    Plot {
        title: format!("read beside memcpy, a volume of {PAGES} pages, offset 0"),
        across: "bytes read".to_string(),
        up: "nanoseconds (best of batches)".to_string(),
        series: vec![
            series("read", &|timed| timed.read.best),
            series("read of 0 bytes (the judge)", &|_| judge.best),
            series("memcpy", &|timed| timed.copy.best),
        ],
    }
}
