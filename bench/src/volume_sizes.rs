//! What calls take on volumes of every size, from 16 pages to 4,096.

use crate::plot::{Plot, Series};
use crate::table::{shown, whole, Table};
use crate::timed_calls::{timed_call, Timed};
use crate::timing::{largest_spread, Effort, Time};
use crate::volumes::{Kind, Subject};

/// The page counts.
const PAGES: [u64; 9] = [16, 32, 64, 128, 256, 512, 1_024, 2_048, 4_096];
/// The calls.
const CALLS: [&str; 8] = [
    "find",
    "read",
    "create",
    "write",
    "unlink",
    "clean",
    "free_count",
    "gaps",
];

/// The times of one call on each volume; none where it is refused.
type Times = Vec<Result<Time, String>>;

/// The table of one kind of volume, and its plot.
pub fn times(kind: Kind, effort: Effort) -> (Table, Plot) {
    let subjects = PAGES.map(kind.make());
    let timed = CALLS.map(|name| (name, call_times(timed_call(name), &subjects, effort)));
    (table(&timed), plot(kind, &timed))
}

fn call_times(call: &Timed, subjects: &[Subject], effort: Effort) -> Times {
    let on = |subject: &Subject| {
        let (answer, time) = (call.compiled)(&mut subject.clone(), effort);
        let refused = answer.starts_with("refused");
        if refused {
            Err(answer)
        } else {
            Ok(time)
        }
    };
    subjects.iter().map(on).collect()
}

fn table(timed: &[(&str, Times)]) -> Table {
    let mut columns = vec!["call".to_string()];
    columns.extend(PAGES.map(|pages| format!("{} pages", whole(pages))));
    columns.extend(["ratio".to_string(), "spread".to_string()]);
    let rows = Vec::new();
    let mut table = Table { columns, rows };
    for (name, times) in timed {
        table.texts(row(name, times));
    }
    table
}

fn row(name: &str, times: &Times) -> Vec<String> {
    let mut cells = vec![name.to_string()];
    cells.extend(times.iter().map(|time| match time {
        Ok(time) => shown(time.best),
        Err(refused) => refused.clone(),
    }));
    let done: Vec<Time> = times.iter().flatten().copied().collect();
    cells.push(match done[..] {
        [first, .., last] => shown(last.best / first.best),
        _ => "-".to_string(),
    });
    cells.push(shown(largest_spread(&done)));
    cells
}

fn plot(kind: Kind, timed: &[(&str, Times)]) -> Plot {
    let series = timed.iter().map(|(name, times)| {
        let points = PAGES.iter().zip(times);
        let done = points.filter_map(|(&pages, time)| Some((pages as f64, time.as_ref().ok()?)));
        Series::new(name, done.map(|(pages, time)| (pages, time.best)).collect())
    });
    Plot {
        title: format!("What a call takes, volumes {}", kind.name()),
        across: "pages of the volume (512 bytes each)".to_string(),
        up: "nanoseconds per call (best of batches)".to_string(),
        series: series.collect(),
    }
}
