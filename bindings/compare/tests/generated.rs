//! Generated pages and lists of calls: the wrapper's answers beside the oracle's.
//!
//! COMPARE_PAGES says how many pages, 800 if it is not set; half as many lists of calls.

#[path = "../../tests/replay/mod.rs"]
mod replay;

use oracle::page_list::{self, Detail};
use oracle::{call_list, layer, pages};
use std::{env, panic};

/// Seeds that the fixed lists do not have.
const FIRST: u64 = 10_000;

fn count() -> u64 {
    let count = env::var("COMPARE_PAGES").map(|count| count.parse());
    count.map_or(800, |count| count.expect("COMPARE_PAGES is a number"))
}

/// The Rust's panic "path too short" is an answer of the oracle and is not told.
fn hide_answers() {
    let tell = panic::take_hook();
    panic::set_hook(Box::new(move |panic| {
        if !layer::is_path_too_short(panic.payload()) {
            tell(panic);
        }
    }));
}

#[test]
fn generated_pages() {
    hide_answers();
    let mut done = replay::Pages::default();
    for seed in FIRST..FIRST + count() {
        let list = page_list::generated_list(seed, 1, Detail::Wires);
        let part = replay::pages(&list);
        done.pages += part.pages;
        done.refused += part.refused;
        done.listings += part.listings;
        done.searches += part.searches;
    }
    println!("{done:?}");
    assert_eq!(done.pages as u64, count());
    assert_eq!(done.refused + done.listings / 4, done.pages);
    assert_eq!(done.searches, 2 * done.listings);
}

#[test]
fn generated_calls() {
    let count = count() / 2;
    let mut done = replay::Calls::default();
    for seed in FIRST..FIRST + count {
        let part = replay::calls(&call_list::generated_list(seed, 1));
        done.calls += part.calls;
        done.lists += part.lists;
    }
    println!("{done:?}");
    assert!(done.lists as u64 >= 2 * count);
}

/// Sized pages, as the benchmark has them.
#[test]
fn sized_pages() {
    hide_answers();
    let mut router = clue_desk::Router::new();
    let mut desk = clue_desk::Desk::new();
    for boxes in [1, 2, 3, 5, 10, 20, 30] {
        for seed in 0..6 {
            let lists = pages::realistic_of(boxes, &mut oracle::random::Random::new(seed));
            let text = oracle::page_text::write(&lists);
            desk.read_text(text.as_bytes()).expect("it is good");
            let page = router.layout(&desk, true, true);
            let listing = page.map_or_else(|_| "page\t8\n".to_owned(), |page| page.to_string());
            assert_eq!(
                listing,
                oracle::listing::wires(&lists, true, true),
                "{boxes} boxes, seed {seed}"
            );
        }
    }
}
