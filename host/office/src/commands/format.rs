//! `format`: a new, empty volume.

use crate::arguments::Arguments;
use crate::failure::{Failure, Outcome};
use crate::files::write_whole;
use crate::store::{open_locked, Mode};
use crate::text::{say, shown_path, thousands};
use calls::layout::{PAGE_BYTES, PAGE_LIMIT};
use std::fs::File;
use std::path::Path;

/// Makes a new volume and puts it in the place of the file.
pub fn run(arguments: &Arguments) -> Outcome {
    let path = arguments.volume();
    let pages = arguments.number("--pages")?.unwrap_or(256);
    let inodes = arguments.number("--inodes")?.unwrap_or(64);
    let (volume, free) = formatted(pages, inodes)?;
    let _old = lock_old(path, arguments.has("--force"))?;
    write_whole(path, &volume)?;
    let [pages, inodes, free] = [pages, inodes, free].map(thousands);
    say(&format!(
        "{pages} pages, {inodes} inodes; {free} pages free"
    ))
}

/// An empty volume of these sizes, and its count of free pages.
fn formatted(pages: u64, inodes: u64) -> Result<(Vec<u8>, u64), Failure> {
    // One page too many is as wrong as a million, and is refused as well.
    let mut volume = vec![0; (pages.min(PAGE_LIMIT + 1) * PAGE_BYTES) as usize];
    let free = calls::format(&mut volume, pages, inodes)
        .and_then(|()| calls::free_count(&volume))
        .map_err(|refusal| Failure::Refused {
            what: format!("{pages} pages, {inodes} inodes"),
            refusal,
            advice: "pages are 16 to 4,096, inodes a multiple of 8 from 8 to 256, \
                     and pages at least inodes / 8 + 4"
                .into(),
        })?;
    Ok((volume, free))
}

/// Locks the file that is to be replaced, if there is one and it may be.
fn lock_old(path: &Path, force: bool) -> Result<Option<File>, Failure> {
    if !path.exists() {
        return Ok(None);
    }
    let shown = shown_path(path);
    let old = open_locked(path, Mode::Change { cut: None })?;
    let about = old.metadata();
    let about = about.map_err(|error| Failure::Host(format!("{shown}: {error}")))?;
    if about.len() > 0 && !force {
        return Err(Failure::Host(format!(
            "{shown}: exists and is not empty; --force replaces it"
        )));
    }
    Ok(Some(old))
}
