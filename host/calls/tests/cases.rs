//! Cases A to M of document 01 on the compiled calls.

mod library;

use library::COMPILED;
use samples::{cases, check_case};

#[test]
fn every_case() {
    for case in &cases() {
        check_case(&COMPILED, case);
    }
}
