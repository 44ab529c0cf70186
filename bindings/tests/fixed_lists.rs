//! The oracle's fixed lists through the wrapper.

mod replay;

use std::fs;
use std::path::Path;

fn list(name: &str) -> Vec<u8> {
    let path = Path::new(env!("CARGO_MANIFEST_DIR"))
        .join("../crates")
        .join(name);
    fs::read(&path).unwrap_or_else(|error| panic!("{}: {error}", path.display()))
}

#[test]
fn calls() {
    let done = replay::Calls {
        calls: 30_993,
        words: 2_933,
        lists: 1_881,
    };
    assert_eq!(replay::calls(&list("calls/stdin")), done);
}

#[test]
fn pages() {
    let done = replay::Pages {
        pages: 725,
        refused: 165,
        listings: 1_486,
        searches: 2_478,
    };
    assert_eq!(replay::pages(&list("vectors/data/pages.txt")), done);
}
