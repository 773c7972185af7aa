//! How many equations are asked, by call and outcome.

use crate::outcome::Outcome;
use crate::strata::Stratum;
use reference::Refusal;
use std::fmt;

/// Counts of equations, calls in the order of their first stratum.
#[derive(Default)]
pub struct Table {
    calls: Vec<(&'static str, Vec<(Outcome, u64)>)>,
    others: Vec<(String, u64)>,
}

impl Table {
    /// Adds the equations of a draw.
    pub fn count(&mut self, stratum: &Stratum, equations: u64) {
        match stratum.outcome {
            Some(outcome) => {
                let row = place(&mut self.calls, stratum.call);
                *place(row, outcome) += equations;
            }
            None => {
                let what = format!("{} {}", stratum.call, stratum.detail);
                *place(&mut self.others, what) += equations;
            }
        }
    }
}

/// The count kept for a key, made where there is none yet.
fn place<K: PartialEq, V: Default>(pairs: &mut Vec<(K, V)>, key: K) -> &mut V {
    let at = match pairs.iter().position(|pair| pair.0 == key) {
        Some(at) => at,
        None => {
            pairs.push((key, V::default()));
            pairs.len() - 1
        }
    };
    &mut pairs[at].1
}

/// How wide a column is.
fn width(column: Outcome) -> usize {
    match column {
        Outcome::Unchanged => 9,
        Outcome::Done => 6,
        Outcome::Refused(_) => 4,
    }
}

impl fmt::Display for Table {
    fn fmt(&self, to: &mut fmt::Formatter<'_>) -> fmt::Result {
        let mut columns = vec![Outcome::Done, Outcome::Unchanged];
        columns.extend(Refusal::ALL.map(|refusal| Outcome::Refused(refusal.number())));
        write!(to, "{:14}", "")?;
        for column in &columns {
            write!(to, "{column:>width$}", width = width(*column))?;
        }
        writeln!(to)?;
        for (call, row) in &self.calls {
            write!(to, "{call:14}")?;
            for column in &columns {
                let count = row.iter().find(|pair| pair.0 == *column);
                let count = count.map_or(".".to_string(), |pair| pair.1.to_string());
                write!(to, "{count:>width$}", width = width(*column))?;
            }
            writeln!(to)?;
        }
        for (what, count) in &self.others {
            writeln!(to, "{what:28}{count:>4}")?;
        }
        Ok(())
    }
}
