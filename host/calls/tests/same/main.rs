//! The compiled calls against the reference model: every answer, and every byte of lent memory.
//!
//! Each module has one kind of volumes; [`compare`] makes every call on a volume twice, compiled and by
//! the model. What is random comes from the seeds in the tests, so that a failure comes back.

mod changes;
mod compare;
#[path = "../compiled/mod.rs"]
mod compiled;
mod damaged;
mod directories;
mod dot_names;
mod folders;
mod gaps;
mod histories;
mod large;
mod last_page;
mod lent;
mod lists;
mod made_up;
mod noise;
mod scattered;
mod shapes;
mod wide_pages;
