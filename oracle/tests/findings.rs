//! The pages of docs/DIFFERENCES.md's findings show them, and no line of them can be left out.

use oracle::findings::Findings;
use oracle::page_text;
use oracle::pages;

/// A page, what is counted on it, and how often before separation and after it.
const SHOWN: [(&str, &str, [u64; 2]); 5] = [
    (
        "branch-left-behind",
        "nets with a fallback branch that ends on nothing",
        [0, 1],
    ),
    (
        "found-branch-left-behind",
        "nets with a found branch that ends on nothing",
        [0, 1],
    ),
    (
        "nets-share-a-stretch",
        "pages with two nets on one stretch",
        [1, 1],
    ),
    (
        "nets-share-a-stretch-only-after",
        "pages with two nets on one stretch",
        [0, 1],
    ),
    (
        "fallback-through-a-box",
        "fallback wires through a box",
        [1, 1],
    ),
];

fn lines_of(name: &str) -> Vec<String> {
    let mut samples = pages::samples().into_iter();
    let (_, text) = samples.find(|(n, _)| n == name).expect("it is a sample");
    let text = String::from_utf8(text).expect("it is a text");
    text.split_inclusive('\n').map(str::to_owned).collect()
}

/// The counts before separation and after it; none for a text that is refused.
fn counts(text: &str, what: &str) -> [u64; 2] {
    let mut findings = Findings::default();
    if let Ok(lists) = page_text::read(text.as_bytes()) {
        findings.take_page(&lists);
    }
    ["before", "after"].map(|when| findings.get(&format!("{what}, {when}")))
}

#[test]
fn each_page_shows_its_finding() {
    for (name, what, shown) in SHOWN {
        assert_eq!(counts(&lines_of(name).concat(), what), shown, "{name}");
    }
}

#[test]
fn no_line_can_be_left_out() {
    for (name, what, shown) in SHOWN {
        let lines = lines_of(name);
        let all = (1_u32 << lines.len()) - 1;
        for kept in 0..all {
            let of_kept = |&(index, _): &(usize, &String)| kept >> index & 1 == 1;
            let text: String = lines
                .iter()
                .enumerate()
                .filter(of_kept)
                .map(|(_, line)| line.as_str())
                .collect();
            assert_ne!(
                counts(&text, what),
                shown,
                "{name}: these lines do:\n{text}"
            );
        }
    }
}
