//! Questions about calls that take the last free page or come near it (document 02, order 4).

use crate::changing::{Kind, Made};
use crate::outcome::Outcome;
use crate::sheet::Sheet;
use crate::volumes;
use reference::{free_count, judge, Call, Use};
use samples::{run, Random};

/// How many pages are free on a volume, and how many a call takes and lets go where there are more.
#[derive(Clone, Copy)]
pub struct Pages {
    /// The free pages.
    pub free: u64,
    /// The data pages that the call needs. That of set size is the copied page.
    pub data: u64,
    /// The log pages that the call needs.
    pub log: u64,
    /// The pages that the call lets go, which do not count: of what is wanted, the fewest.
    pub let_go: u64,
}

impl Pages {
    /// Counts them, on the volume with so many more free pages that none lacks; no counts where the
    /// call is refused even then.
    fn of(volume: &[u8], call: &Call) -> Option<Pages> {
        let longer = volumes::with_pages_more(volume, 10);
        let mut landed = longer.clone();
        run(&mut landed, call).ok()?;
        let (before, after) = (judge(&longer).ok()?, judge(&landed).ok()?);
        let mut pages = Pages {
            free: free_count(volume).ok()?,
            data: 0,
            log: 0,
            let_go: 0,
        };
        for (before, after) in before.uses.iter().zip(&after.uses) {
            match (before, after) {
                (Use::Free, Use::Data { .. }) => pages.data += 1,
                (Use::Free, Use::Log { .. }) => pages.log += 1,
                (Use::Data { .. } | Use::Log { .. }, Use::Free) => pages.let_go += 1,
                _ => {}
            }
        }
        Some(pages)
    }

    /// Whether these are as wanted.
    fn meet(&self, wanted: &Pages) -> bool {
        let needed = |pages: &Pages| (pages.free, pages.data, pages.log);
        needed(self) == needed(wanted) && self.let_go >= wanted.let_go
    }
}

/// A call that comes to an outcome, with these pages.
pub fn near(
    kind: Kind,
    outcome: Outcome,
    pages: Pages,
    name: &str,
    random: &mut Random,
) -> Option<Sheet> {
    let volume = match random.once_in(2) {
        true => volumes::crowded(random),
        false => volumes::few_free(pages.free, random),
    };
    if free_count(&volume) != Ok(pages.free) {
        return None;
    }
    let made = Made::new(kind, volume, 4_096 + random.below(3), random);
    let came = Outcome::of_filling(made.answer);
    let found = Pages::of(&made.volume, &made.call)?;
    (came == outcome && found.meet(&pages)).then(|| made.by_words(name))
}
