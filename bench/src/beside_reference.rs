//! Every compiled call beside the reference model, on volumes of three sizes.

use crate::table::{shown, whole, Table};
use crate::timed_calls::{calls_on, Timed};
use crate::timing::{largest_spread, Effort};
use crate::volumes::{Kind, Subject};

/// The page counts of the volumes.
const PAGES: [u64; 3] = [16, 128, 4_096];

/// The volumes of every kind: what stands on them.
pub fn volumes() -> Table {
    let mut table = Table::new(&[&"volume", &"pages", &"inodes", &"names", &"free pages"]);
    for kind in Kind::ALL {
        for subject in PAGES.map(kind.make()) {
            table.row(&[
                &kind.name(),
                &whole(subject.pages),
                &subject.inodes,
                &subject.names,
                &whole(calls::free_count(&subject.volume).expect("a volume")),
            ]);
        }
    }
    table
}

/// The times of every call on the volumes of one kind.
pub fn times(kind: Kind, effort: Effort) -> Table {
    let mut columns = vec!["call".to_string()];
    for pages in PAGES {
        columns.push(format!("{} pages: compiled / reference", whole(pages)));
        columns.push(format!("ratio {}", whole(pages)));
    }
    columns.push("growth".to_string());
    columns.push("spread".to_string());
    let rows = Vec::new();
    let mut table = Table { columns, rows };
    let subjects = PAGES.map(kind.make());
    for call in calls_on(kind) {
        table.texts(row(call, &subjects, effort));
    }
    table
}

/// The row of one call, which both libraries must answer alike.
fn row(call: &Timed, subjects: &[Subject], effort: Effort) -> Vec<String> {
    let mut cells = vec![call.name.to_string()];
    let mut times = Vec::new();
    for subject in subjects {
        let (mut answer, mut same) = (String::new(), String::new());
        let [compiled, reference] = effort.in_turns(
            |effort| {
                let (said, time) = (call.compiled)(&mut subject.clone(), effort);
                answer = said;
                time
            },
            |effort| {
                let (said, time) = (call.reference)(&mut subject.clone(), effort);
                same = said;
                time
            },
        );
        assert_eq!(answer, same, "{}", call.name);
        let both = format!("{} / {}", shown(compiled.best), shown(reference.best));
        let refused = answer.starts_with("refused");
        cells.push(if refused {
            format!("{both} ({answer})")
        } else {
            both
        });
        cells.push(shown(compiled.best / reference.best));
        times.extend([compiled, reference]);
    }
    let largest = times[times.len() - 2];
    cells.push(shown(largest.best / times[0].best));
    cells.push(shown(largest_spread(&times)));
    cells
}
