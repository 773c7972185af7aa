//! The strata: pairs of a call and what it comes to.

use crate::last_page::Pages;
use crate::outcome::Outcome;
use crate::sheet::Sheet;
use crate::storing::Spoiled;
use crate::{changing, last_page, maps, reading, scattered, storing, volumes};
use reference::Refusal;
use samples::{create, link, rename, unlink, Random};

mod folders;

/// A draw: a sheet with this name, where what was drawn comes to the stratum's outcome.
type Draw = Box<dyn Fn(&str, &mut Random) -> Option<Sheet>>;

/// A stratum.
pub struct Stratum {
    /// The call, or what else is asked about.
    pub call: &'static str,
    /// What it comes to, where it is a call.
    pub outcome: Option<Outcome>,
    /// What tells it from the other strata of the same call and outcome; often nothing.
    pub detail: &'static str,
    draw: Draw,
}

impl Stratum {
    /// The stratum of a call and an outcome.
    fn new(
        call: &'static str,
        outcome: Outcome,
        draw: impl Fn(&str, &mut Random) -> Option<Sheet> + 'static,
    ) -> Stratum {
        Stratum {
            call,
            outcome: Some(outcome),
            detail: "",
            draw: Box::new(draw),
        }
    }

    /// A stratum of something that is no call.
    pub fn besides(
        what: &'static str,
        detail: &'static str,
        draw: impl Fn(&str, &mut Random) -> Option<Sheet> + 'static,
    ) -> Stratum {
        Stratum {
            call: what,
            outcome: None,
            detail,
            draw: Box::new(draw),
        }
    }

    /// The same with a detail.
    fn with(self, detail: &'static str) -> Stratum {
        Stratum { detail, ..self }
    }

    /// The stratum's name, as equations have it: `create-7`, `carry-out-13-odd-count`.
    pub fn name(&self) -> String {
        let outcome = self
            .outcome
            .map_or(String::new(), |outcome| outcome.to_string());
        let words = [self.call, &outcome, self.detail].join(" ");
        let words: Vec<&str> = words.split_whitespace().collect();
        words.join("-")
    }

    /// Draws once.
    pub fn draw(&self, name: &str, random: &mut Random) -> Option<Sheet> {
        (self.draw)(name, random)
    }
}

/// All strata.
pub fn strata() -> Vec<Stratum> {
    let mut all = of_changing();
    all.extend(of_scattered());
    all.extend(of_last_page());
    all.extend(of_reading());
    all.extend(of_dot_names());
    all.extend(of_storing());
    all.extend(of_cuts());
    all.extend(of_maps());
    all.extend(folders::strata());
    all
}

/// Done, and each of these refusals.
fn outcomes(refusals: &[u64]) -> Vec<Outcome> {
    let mut all = vec![Outcome::Done];
    all.extend(refusals.iter().map(|&number| Outcome::Refused(number)));
    all
}

/// The nine calls that fill a store list.
fn of_changing() -> Vec<Stratum> {
    let mut all = Vec::new();
    for kind in changing::Kind::ALL {
        let (call, refusals) = kind.told();
        let mut asked = outcomes(refusals);
        if kind.may_change_nothing() {
            asked.push(Outcome::Unchanged);
        }
        for outcome in asked {
            let draw = move |name: &str, random: &mut Random| {
                changing::changing(kind, outcome, name, random)
            };
            all.push(Stratum::new(call, outcome, draw));
        }
        let draw = move |name: &str, random: &mut Random| changing::filling(kind, name, random);
        all.push(Stratum::new(call, Outcome::Done, draw).with("by bytes"));
    }
    all
}

/// Writes that find no run of free pages and take them in several pieces: with any number of fresh log
/// pages, and with two, which few of them need. They are done, lack a page, or would leave none.
fn of_scattered() -> Vec<Stratum> {
    let shapes = [
        (Outcome::Done, 0, "scattered"),
        (Outcome::Done, 2, "two log pages"),
        (Outcome::Refused(12), 0, "scattered"),
        (Outcome::Refused(12), 2, "two log pages"),
        (Outcome::Refused(15), 0, "scattered"),
    ];
    let mut all = Vec::new();
    for (outcome, log_pages, detail) in shapes {
        let draw = move |name: &str, random: &mut Random| {
            scattered::scattered(outcome, log_pages, name, random)
        };
        all.push(Stratum::new("write", outcome, draw).with(detail));
    }
    all
}

/// Calls on volumes with few free pages. Create, link, write and set size leave one or are refused;
/// with no page to take they are done however few are free. Unlink, rename and clean take the last.
fn of_last_page() -> Vec<Stratum> {
    use changing::Kind::{Clean, Create, Link, Rename, SetSize, Unlink, Write};
    use Outcome::{Done, Refused, Unchanged};
    let pages = |free, data, log| Pages {
        free,
        data,
        log,
        let_go: 0,
    };
    let freeing = |pages| Pages { let_go: 1, ..pages };
    let mut rows = Vec::new();
    for (kind, outcome) in [
        (Create, Done),
        (Link, Done),
        (Write, Unchanged), // a write that takes no page has no bytes
        (SetSize, Done),
    ] {
        rows.push((kind, outcome, pages(0, 0, 0), "no free page"));
        rows.push((kind, outcome, pages(1, 0, 0), "one free page"));
    }
    rows.extend([
        (Create, Done, pages(2, 0, 1), "a page left"),
        (Link, Done, pages(2, 0, 1), "a page left"),
        (Write, Done, pages(3, 1, 1), "a page left"),
        (SetSize, Done, pages(2, 1, 0), "a page left"),
        (Write, Refused(12), pages(0, 1, 0), "no free page"),
        (SetSize, Refused(12), pages(0, 1, 0), "no free page"),
        (Write, Refused(15), freeing(pages(1, 1, 0)), "over a page"),
        (Write, Refused(15), pages(2, 2, 0), "data pages"),
        (Write, Refused(15), pages(2, 1, 1), "data and log page"),
        (SetSize, Refused(15), pages(1, 1, 0), "copied page"),
        (SetSize, Refused(15), freeing(pages(1, 0, 1)), "log page"),
        (Unlink, Done, pages(1, 0, 1), "last page"),
        (Rename, Done, pages(1, 0, 1), "last page"),
        (Clean, Done, pages(1, 0, 1), "last page"),
    ]);
    let mut all = Vec::new();
    for (kind, outcome, pages, detail) in rows {
        let draw = move |name: &str, random: &mut Random| {
            last_page::near(kind, outcome, pages, name, random)
        };
        all.push(Stratum::new(kind.told().0, outcome, draw).with(detail));
    }
    all
}

/// The seven reading calls and volume-list.
fn of_reading() -> Vec<Stratum> {
    let mut all = Vec::new();
    for kind in reading::Kind::ALL {
        let (call, refusals) = kind.told();
        for outcome in outcomes(refusals) {
            let draw = move |name: &str, random: &mut Random| {
                reading::reading(kind, outcome, name, random)
            };
            all.push(Stratum::new(call, outcome, draw));
        }
        let draw = move |name: &str, random: &mut Random| reading::buffer(kind, name, random);
        all.push(Stratum::new(call, Outcome::Done, draw).with("by bytes"));
    }
    for (kind, refusal) in [
        (reading::Kind::Read, Refusal::NotThere),
        (reading::Kind::KthName, Refusal::NotThere),
        (reading::Kind::Gaps, Refusal::TooManyGaps),
    ] {
        let outcome = Outcome::Refused(refusal.number());
        let draw = move |name: &str, random: &mut Random| {
            reading::kept_buffer(kind, refusal, name, random)
        };
        all.push(Stratum::new(kind.told().0, outcome, draw).with("by bytes"));
    }
    let none = Stratum::new("gaps", Outcome::Done, reading::no_gaps);
    all.push(none.with("no free page"));
    for (outcome, lacking) in [(Outcome::Done, 0), (Outcome::Refused(14), 1)] {
        let draw =
            move |name: &str, random: &mut Random| reading::several_gaps(lacking, name, random);
        all.push(Stratum::new("gaps", outcome, draw).with("several stretches"));
    }
    let longer = Stratum::new("volume-list", Outcome::Refused(2), reading::long_listing);
    all.push(longer.with("longer"));
    all
}

/// Calls with the names "." and "..", and with names like these, which are names as any other. Create,
/// link and rename give "." and ".." to no file: 5 comes before 6, 7 and "nothing changes". Where they
/// stand the volume is accepted, and they are found, listed and taken away.
fn of_dot_names() -> Vec<Stratum> {
    use reading::Reading;
    use Outcome::{Done, Refused};
    let both: &'static [&[u8]] = &[b".", b".."];
    let four: &'static [&[u8]] = &[b".", b"..", b"...", b".a"];
    let mut all = Vec::new();
    for (call, standing, outcome, detail) in [
        (create(b"."), &both[1..], Refused(5), "absent dot name"),
        (create(b".."), both, Refused(5), "standing dot name"),
        (create(b"..."), both, Done, "three dots"),
        (create(b".a"), both, Done, "dot and letter"),
        (link(b"a", b".."), four, Refused(5), "absent to standing"),
        (link(b".", b"..."), both, Done, "dot name"),
        (unlink(b".."), four, Done, "dot name"),
        (rename(b".", b"."), four, Refused(5), "to itself"),
        (rename(b"a", b"."), &both[1..], Refused(5), "both absent"),
        (rename(b".", b"a"), four, Done, "dot name"),
        (rename(b"..", b"..."), four, Done, "over three dots"),
    ] {
        let kind = changing::Kind::of(&call);
        let draw = move |name: &str, random: &mut Random| {
            let volume = volumes::with_names(standing, random);
            changing::given(&call, volume, outcome, name)
        };
        all.push(Stratum::new(kind.told().0, outcome, draw).with(detail));
    }
    for (call, standing) in [
        (Reading::Find(0, b".".to_vec()), four),
        (Reading::KthName(0, 1, vec![7; 33]), both),
        (Reading::FreeCount, four),
        (Reading::Listing, four),
    ] {
        let kind = call.kind();
        let draw = move |name: &str, random: &mut Random| {
            let volume = volumes::with_names(standing, random);
            reading::given(&call, &volume, Done, name)
        };
        all.push(Stratum::new(kind.told().0, Done, draw).with("dot names"));
    }
    all
}

/// Format and carry out, which store on a volume.
fn of_storing() -> Vec<Stratum> {
    let mut all = Vec::new();
    for outcome in [Outcome::Done, Outcome::Refused(2)] {
        let draw =
            move |name: &str, random: &mut Random| storing::formatting(outcome, name, random);
        all.push(Stratum::new("format", outcome, draw));
    }
    let lists = [
        (Outcome::Done, Spoiled::Good, ""),
        (Outcome::Unchanged, Spoiled::Good, ""),
        (Outcome::Refused(2), Spoiled::Good, ""),
        (Outcome::Refused(13), Spoiled::OddCount, "odd count"),
        (
            Outcome::Refused(13),
            Spoiled::LongCount,
            "count over the list",
        ),
        (
            Outcome::Refused(13),
            Spoiled::IndexPast,
            "index past the volume",
        ),
        (
            Outcome::Refused(13),
            Spoiled::FenceValue,
            "fence with a value",
        ),
        (
            Outcome::Refused(13),
            Spoiled::NoLastFence,
            "no fence at the end",
        ),
    ];
    for (outcome, spoiled, detail) in lists {
        let draw = move |name: &str, random: &mut Random| {
            storing::carrying(outcome, spoiled, name, random)
        };
        all.push(Stratum::new("carry out", outcome, draw).with(detail));
    }
    all
}

/// What the power leaves: a cut in each group of a list with and without a journal, a cut behind
/// the last group, and no cut.
fn of_cuts() -> Vec<Stratum> {
    let cuts = [
        ("in group 0 of 4", 4, Some(0)),
        ("in group 1 of 4", 4, Some(1)),
        ("in group 2 of 4", 4, Some(2)),
        ("in group 3 of 4", 4, Some(3)),
        ("in group 0 of 2", 2, Some(0)),
        ("in group 1 of 2", 2, Some(1)),
        ("behind the last group", 4, Some(4)),
        ("nowhere", 4, None),
    ];
    let draw = |count, group| {
        move |name: &str, random: &mut Random| storing::power(count, group, name, random)
    };
    cuts.into_iter()
        .map(|(detail, count, group)| Stratum::besides("cut", detail, draw(count, group)))
        .collect()
}

/// The file map after each call.
fn of_maps() -> Vec<Stratum> {
    let draw = |kind| move |name: &str, random: &mut Random| maps::after(kind, name, random);
    changing::Kind::ALL
        .into_iter()
        .map(|kind| Stratum::besides("map after", kind.told().0, draw(kind)))
        .collect()
}
