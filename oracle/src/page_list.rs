//! The fixed list of pages with their answers; docs/ORACLE.md describes its form.

use crate::desk::{Lists, Place};
use crate::layer;
use crate::listing;
use crate::page::Page;
use crate::page_text;
use crate::pages::{self, Kind};
use crate::random::Random;

/// A program that replays the list has buffers of this size.
const MAX_SECTION: usize = 65_535;

/// How much of a page's answers stands in the list.
#[derive(Debug, Clone, Copy, PartialEq, Eq)]
pub enum Detail {
    /// The listing, pruned and separated, and counts.
    Listing,
    /// Listings of every kind and searches.
    Wires,
    /// Anchors and graphs too.
    Graphs,
}

/// How many pages of each kind the fixed list has, by detail.
const FIXED: [(Kind, usize, usize, usize); 8] = [
    (Kind::Realistic, 36, 24, 3),
    (Kind::Crossing, 30, 18, 3),
    (Kind::Dense, 80, 60, 60),
    (Kind::Tight, 30, 20, 30),
    (Kind::Bars, 20, 10, 16),
    (Kind::Wide, 10, 10, 8),
    (Kind::Damaged, 60, 0, 0),
    (Kind::LongIds, 24, 12, 4),
];

/// The fixed list.
pub fn fixed_list() -> Vec<u8> {
    let mut list = Vec::new();
    for (name, text) in pages::samples() {
        push_page(&mut list, &name, &text, Detail::Graphs);
    }
    for (name, text) in pages::limits() {
        let detail = match text.len() {
            0..4_000 => Detail::Wires,
            _ => Detail::Listing,
        };
        push_page(&mut list, &name, &text, detail);
    }
    for (name, text) in pages::malformations() {
        push_page(&mut list, &name, &text, Detail::Listing);
    }
    for (kind, listings, wires, graphs) in FIXED {
        let details = [
            (Detail::Listing, listings),
            (Detail::Wires, wires),
            (Detail::Graphs, graphs),
        ];
        let mut seed = 0;
        for (detail, count) in details {
            for _ in 0..count {
                seed += 1;
                push_generated(&mut list, kind, seed, detail);
            }
        }
    }
    push_long_searches(&mut list);
    list
}

/// A list of `count` generated pages from seed `first` on, for comparisons at scale.
pub fn generated_list(first: u64, count: u64, detail: Detail) -> Vec<u8> {
    let mut list = Vec::new();
    for seed in first..first + count {
        push_generated(&mut list, Kind::of_seed(seed), seed, detail);
    }
    list
}

fn push_generated(list: &mut Vec<u8>, kind: Kind, seed: u64, detail: Detail) {
    let name = format!("{}-{seed}", kind.name());
    push_page(list, &name, &pages::page(kind, seed), detail);
}

/// A page and its answers.
fn push_page(list: &mut Vec<u8>, name: &str, text: &[u8], detail: Detail) {
    push_section(list, &format!("page\t{name}"), text);
    match page_text::read(text) {
        Ok(lists) => push_answers(list, &lists, detail),
        Err(refusal) => push_section(list, "wires\t1\t1", listing::refused(refusal).as_bytes()),
    }
}

fn push_answers(list: &mut Vec<u8>, lists: &Lists, detail: Detail) {
    push_counts(list, lists);
    push_wires(list, lists, true, true);
    if detail == Detail::Listing {
        return;
    }
    push_wires(list, lists, true, false);
    push_wires(list, lists, false, true);
    push_wires(list, lists, false, false);
    push_searches(list, lists);
    if detail == Detail::Graphs {
        push_section(list, "anchors", listing::anchors(lists).as_bytes());
        push_graph(list, lists, false);
        push_graph(list, lists, true);
    }
}

/// Implicit anchors, nodes before and after pruning; nothing for a crowded page.
fn push_counts(list: &mut Vec<u8>, lists: &Lists) {
    let page = Page::new(lists);
    let nodes = |prune| layer::build_graph(&page, prune).map(|graph| graph.nodes().len());
    if let (Ok(before), Ok(after)) = (nodes(false), nodes(true)) {
        let anchors = page.circuit.implicit_anchors().len();
        let counts = format!("counts\t{anchors}\t{before}\t{after}\n");
        list.extend_from_slice(counts.as_bytes());
    }
}

fn push_wires(list: &mut Vec<u8>, lists: &Lists, prune: bool, separate: bool) {
    let header = format!("wires\t{}\t{}", u8::from(prune), u8::from(separate));
    let wires = listing::wires(lists, prune, separate);
    push_section(list, &header, wires.as_bytes());
}

/// The graph, unless the page is crowded or its dump is longer than a section.
fn push_graph(list: &mut Vec<u8>, lists: &Lists, prune: bool) {
    let Ok(graph) = layer::build_graph(&Page::new(lists), prune) else {
        return;
    };
    let (header, dump) = (
        format!("graph\t{}", u8::from(prune)),
        listing::graph(&graph),
    );
    if dump.len() <= MAX_SECTION {
        push_section(list, &header, dump.as_bytes());
    }
}

/// Four searches, each on both graphs.
fn push_searches(list: &mut Vec<u8>, lists: &Lists) {
    let random = &mut Random::new(page_text::write(lists).len() as u64);
    for _ in 0..4 {
        let (start, ends) = pages::searched(lists, random);
        push_search(list, lists, true, start, &ends);
        push_search(list, lists, false, start, &ends);
    }
}

fn push_search(list: &mut Vec<u8>, lists: &Lists, prune: bool, start: Place, ends: &[Place]) {
    let fields = [start.x, start.y, ends.len() as i64].into_iter();
    let places = ends.iter().flat_map(|end| [end.x, end.y]);
    let mut header = format!("search\t{}", u8::from(prune));
    for field in fields.chain(places) {
        header += &format!("\t{field}");
    }
    let line = listing::search(lists, prune, start, ends);
    push_section(list, &header, line.as_bytes());
}

/// Searches with as many ends as there may be and one more, and with places out of range.
fn push_long_searches(list: &mut Vec<u8>) {
    let (start, end) = (Place::new(2_560, 5_120), Place::new(0, 0));
    let mut lists = Lists::default();
    lists.add_net(1);
    lists.add_end(1, end, 0);
    lists.add_end(1, start, 0);
    let text = page_text::write(&lists);
    push_section(list, "page\tsearch-limits", text.as_bytes());
    for ends in [4_096, 4_097] {
        push_search(list, &lists, true, start, &vec![end; ends]);
    }
    for out in [Place::new(4_194_305, 0), Place::new(0, -4_194_305)] {
        push_search(list, &lists, true, out, &[end]);
        push_search(list, &lists, true, start, &[end, out]);
    }
}

/// A header line with the count of the bytes that follow it.
fn push_section(list: &mut Vec<u8>, header: &str, bytes: &[u8]) {
    assert!(bytes.len() <= MAX_SECTION, "{header}: section too long");
    list.extend_from_slice(format!("{header}\t{}\n", bytes.len()).as_bytes());
    list.extend_from_slice(bytes);
}
