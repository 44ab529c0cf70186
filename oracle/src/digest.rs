//! One short digest of all answers on many generated pages, to hold two builds side by side.

use crate::desk::Lists;
use crate::layer;
use crate::listing;
use crate::page::{position, Page};
use crate::page_text;
use crate::pages::{self, Kind};
use crate::random::Random;
use digilogic_routing::{find_path, find_path_multi, Graph, Vec2};
use std::collections::BTreeMap;
use std::fmt;

/// Counts of what was compared, and a hash of every answer.
#[derive(Default)]
pub struct Digest {
    counts: BTreeMap<String, u64>,
    hash: u64,
}

impl fmt::Display for Digest {
    fn fmt(&self, f: &mut fmt::Formatter<'_>) -> fmt::Result {
        for (what, count) in &self.counts {
            writeln!(f, "{count}\t{what}")?;
        }
        writeln!(f, "{:016x}\tall answers", self.hash)
    }
}

/// Takes the samples, the limit pages, the malformations and the generated pages of `count` seeds.
pub fn digest(first: u64, count: u64) -> Digest {
    let mut digest = Digest::default();
    for pages in [pages::samples(), pages::limits(), pages::malformations()] {
        for (_, text) in pages {
            digest.take(&text, 0);
        }
    }
    for seed in first..first + count {
        digest.take(&pages::page(Kind::of_seed(seed), seed), seed);
    }
    digest
}

impl Digest {
    fn take(&mut self, text: &[u8], seed: u64) {
        self.count("page texts");
        match page_text::read(text) {
            Ok(lists) => self.take_page(&lists, seed),
            Err(refusal) => {
                self.count(&format!(
                    "page texts refused, inner number {}",
                    refusal.inner
                ));
                self.add(&listing::refused(refusal));
            }
        }
    }

    fn take_page(&mut self, lists: &Lists, seed: u64) {
        for (prune, separate) in [(true, true), (true, false), (false, true), (false, false)] {
            self.take_wires(&listing::wires(lists, prune, separate));
        }
        self.add(&listing::anchors(lists));
        let page = Page::new(lists);
        for prune in [false, true] {
            let Ok(graph) = layer::build_graph(&page, prune) else {
                self.count("graphs crowded");
                continue;
            };
            self.count("graphs");
            self.add(&listing::graph(&graph));
            self.take_searches(lists, &graph, prune, seed);
        }
    }

    fn take_wires(&mut self, wires: &str) {
        self.count("listings");
        for line in wires.lines().filter(|line| line.starts_with("net")) {
            let number = line.split('\t').nth(2).expect("a net has a number");
            self.count(&format!("nets with number {number}"));
        }
        self.add(wires);
    }

    fn take_searches(&mut self, lists: &Lists, graph: &Graph, prune: bool, seed: u64) {
        let random = &mut Random::new(seed);
        for _ in 0..4 {
            let (start, ends) = pages::searched(lists, random);
            let line = listing::search(lists, prune, start, &ends);
            let number = line.split('\t').nth(1).expect("a search has a number");
            self.count(&format!("searches with number {number}"));
            self.add(&line);
            if let [end] = ends[..] {
                self.count("searches by `find_path` and `find_path_multi` alike");
                assert_alike(graph, position(start), position(end));
            }
        }
    }

    fn count(&mut self, what: &str) {
        *self.counts.entry(what.to_owned()).or_default() += 1;
    }

    /// FNV-1a over the bytes of an answer.
    fn add(&mut self, answer: &str) {
        for byte in answer.bytes() {
            self.hash = (self.hash ^ u64::from(byte)).wrapping_mul(0x0000_0100_0000_01B3);
        }
    }
}

/// The Rust's two searches give one answer for one end.
fn assert_alike(graph: &Graph, start: Vec2, end: Vec2) {
    let single = find_path(graph, start, end);
    let multi = find_path_multi(graph, start, [end].into_iter());
    assert_eq!(format!("{single:?}"), format!("{multi:?}"));
}
