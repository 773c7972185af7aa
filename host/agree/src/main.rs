//! Asks the formal definitions what the reference model answers.
//!
//! `agree SPECS MODULE DRAWS SEED` writes a module of antt to the file MODULE and prints how many
//! equations it has, by call and outcome. Each equation has, on its left, a definition of the crate
//! `model` at a volume, and on its right the answer of `reference`. SPECS is the folder of the
//! crate's definitions. `tests/agree` has the toolchain check the module: an equation that does not
//! hold fails there, by its name.
//!
//! What is asked is drawn by strata ([`strata`]): each call done and with each refusal that it has,
//! and what else a call may come to. Each stratum is drawn DRAWS times: a volume at random, brought
//! towards the outcome ([`volumes`]), until the reference answers it. A stratum that is not reached
//! is an error, so that no outcome goes unasked.

#![warn(missing_docs)]
#![forbid(unsafe_code)]

mod arguments;
mod changing;
mod last_page;
mod maps;
mod module;
mod outcome;
mod reading;
mod scattered;
mod sheet;
mod storing;
mod strata;
mod table;
mod term;
mod volumes;

use samples::Random;
use std::process::exit;
use strata::{strata, Stratum};
use table::Table;

/// How often a stratum is tried before it counts as not reached.
const TRIES: u64 = 20_000;

fn main() {
    let arguments: Vec<String> = std::env::args().skip(1).collect();
    let [specs, module, draws, seed] = arguments.as_slice() else {
        stop("usage: agree SPECS MODULE DRAWS SEED");
    };
    let (Ok(draws @ 1..), Ok(seed)) = (draws.parse::<u64>(), seed.parse::<u64>()) else {
        stop("agree: DRAWS and SEED are numbers, DRAWS at least 1");
    };
    let definitions = module::definitions(specs)
        .unwrap_or_else(|error| stop(&format!("agree: {specs}: {error}")));
    let (equations, table) = questions(&strata(), draws, seed, &module::unfolding(&definitions))
        .unwrap_or_else(|stratum| {
            stop(&format!(
                "agree: {TRIES} draws did not reach the stratum {stratum}, seed {seed}"
            ))
        });
    let text = module::header(&definitions) + &equations;
    if let Err(error) = std::fs::write(module, text) {
        stop(&format!("agree: {module}: {error}"));
    }
    print!("{table}");
}

/// Says what is wrong and stops with status 2.
fn stop(message: &str) -> ! {
    eprintln!("{message}");
    exit(2);
}

/// The equations of so many draws of every stratum, and their count; or a stratum not reached.
fn questions(
    all: &[Stratum],
    draws: u64,
    seed: u64,
    unfolding: &str,
) -> Result<(String, Table), String> {
    let mut text = String::new();
    let mut table = Table::default();
    for stratum in all {
        // each stratum has its own numbers: what one draws does not depend on the others
        let mut random = Random::new(seed ^ mixed(&stratum.name()));
        for draw in 1..=draws {
            let name = match draw {
                1 => stratum.name(),
                _ => format!("{}-draw-{draw}", stratum.name()),
            };
            let sheet = (0..TRIES)
                .find_map(|_| stratum.draw(&name, &mut random))
                .ok_or_else(|| stratum.name())?;
            table.count(stratum, sheet.equations());
            text += &sheet.text(unfolding);
        }
    }
    Ok((text, table))
}

/// A number made from a name (FNV-1a).
fn mixed(name: &str) -> u64 {
    name.bytes().fold(0xCBF2_9CE4_8422_2325, |sum, byte| {
        (sum ^ u64::from(byte)).wrapping_mul(0x0100_0000_01B3)
    })
}

#[cfg(test)]
mod tests {
    use super::{questions, strata, Stratum};
    use crate::outcome::Outcome;
    use std::collections::BTreeSet;

    #[test]
    fn every_stratum_is_reached() {
        for seed in 1..=8 {
            let reached = questions(&strata(), 1, seed, "unfolding").map(|_| ());
            assert_eq!(reached, Ok(()), "seed {seed}");
        }
    }

    #[test]
    fn a_stratum_not_reached_is_named() {
        let never = [Stratum::besides("never", "at all", |_, _| None)];
        let reached = questions(&never, 1, 1, "unfolding").map(|_| ());
        assert_eq!(reached, Err("never-at-all".to_string()));
    }

    #[test]
    fn no_two_strata_have_one_name() {
        let names: Vec<String> = strata().iter().map(|stratum| stratum.name()).collect();
        let different: BTreeSet<&String> = names.iter().collect();
        assert_eq!(names.len(), different.len());
    }

    /// The table of document 01 says which refusals each call has; every one is a stratum.
    #[test]
    fn every_refusal_of_the_table_is_a_stratum() {
        let page = concat!(env!("CARGO_MANIFEST_DIR"), "/../../docs/MODEL.md");
        let page = std::fs::read_to_string(page).expect("the page is there");
        let mut expected = BTreeSet::new();
        for line in rows(&page) {
            let cells: Vec<&str> = line.split('|').map(str::trim).collect();
            for call in cells[1].split(", ") {
                expected.extend(numbers(cells[2]).map(|number| (call.to_string(), number)));
            }
        }
        let asked: BTreeSet<(String, u64)> = strata()
            .iter()
            .filter_map(|stratum| match stratum.outcome {
                Some(Outcome::Refused(number)) => Some((stratum.call.to_string(), number)),
                _ => None,
            })
            .collect();
        assert!(expected.len() > 80, "the table is read");
        assert_eq!(asked, expected);
    }

    /// The rows of the table of refusals by call.
    fn rows(page: &str) -> impl Iterator<Item = &str> {
        page.lines()
            .skip_while(|line| !line.starts_with("| Call | Numbers in order"))
            .skip(2)
            .take_while(|line| line.starts_with('|'))
    }

    /// The numbers of a cell, without what stands in brackets.
    fn numbers(cell: &str) -> impl Iterator<Item = u64> + '_ {
        cell.split(", ").filter_map(|part| {
            let mut words = part.split_whitespace();
            words.find_map(|word| word.parse().ok())
        })
    }
}
