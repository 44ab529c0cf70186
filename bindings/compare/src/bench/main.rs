//! How long the library and the Rust take on the same pages, in one process and by turns.

mod calls;
mod pages;
mod rust;
mod timing;

use clue_desk::{Desk, Place, Refusal, Router};
use oracle::desk::Lists;
use oracle::{layer, page_text};
use pages::Set;
use rust::Rust;
use std::hint::black_box;
use std::{env, fmt, fs, panic};
use timing::{microseconds, Ratio, Samples};

fn main() {
    // Pages on which the Rust panics are looked for, and left out.
    panic::set_hook(Box::new(|_| ()));
    let samples = env::args()
        .nth(1)
        .map_or(15, |count| count.parse().expect("the samples are a number"));
    println!("{}\n", machine());
    let sets: Vec<_> = pages::sets()
        .into_iter()
        .map(|set| Measured::new(set, samples))
        .collect();
    print_layouts(&sets);
    print_searches(&sets);
    print_parts(&sets);
    print_growth(samples);
    calls::print(samples);
}

/// A set of pages with its times.
struct Measured {
    set: Set,
    separated: Timed,
    not_separated: Timed,
    search: Timed,
    parts: [f64; 3],
}

impl Measured {
    fn new(set: Set, samples: usize) -> Self {
        let pages = &set.pages;
        Self {
            separated: over(pages, |lists| time_layout(lists, true, samples)),
            not_separated: over(pages, |lists| time_layout(lists, false, samples)),
            search: over(pages, |lists| time_search(lists, samples)),
            parts: over_parts(pages, samples),
            set,
        }
    }
}

/// What the times were taken on.
fn machine() -> String {
    let info = fs::read_to_string("/proc/cpuinfo").unwrap_or_default();
    let model = info
        .lines()
        .find_map(|line| line.strip_prefix("model name"));
    let model = model.map_or("unknown", |rest| rest.trim_start_matches([' ', '\t', ':']));
    let cores = std::thread::available_parallelism().map_or(0, usize::from);
    let system = fs::read_to_string("/etc/os-release").unwrap_or_default();
    let name = system
        .lines()
        .find_map(|line| line.strip_prefix("PRETTY_NAME="));
    let name = name.unwrap_or("unknown").trim_matches('"');
    format!("{cores} cores, {model}, {name}; both sides at opt-level 3, one thread, by turns, the thread's own time.")
}

fn desk_of(lists: &Lists) -> Desk {
    let mut desk = Desk::new();
    let text = page_text::write(lists);
    desk.read_text(text.as_bytes()).expect("the page is good");
    desk
}

/// A layout of the desk and the same of the Rust, sampled by turns.
fn time_layout(lists: &Lists, separate: bool, samples: usize) -> Samples {
    let (desk, mut router, mut rust) = (desk_of(lists), Router::new(), Rust::new(lists));
    assert_same(lists, &desk, &mut router);
    Samples::take(
        samples,
        || {
            black_box(router.layout(&desk, true, separate).is_ok());
        },
        || rust.lay_out(separate),
    )
}

/// No time is of worth unless the answers are the same.
fn assert_same(lists: &Lists, desk: &Desk, router: &mut Router) {
    let page = router.layout(desk, true, true).expect("it is not crowded");
    let same = page.to_string() == oracle::listing::wires(lists, true, true);
    assert!(same, "the answers differ");
}

fn print_layouts(sets: &[Measured]) {
    println!("Layout of a whole page, pruned; the Rust builds its graph, connects every net and separates (or not).\n");
    println!("| pages | boxes | nets | library µs | Rust µs | ratio: median (least to greatest) | not separated |");
    println!("|---|---|---|---|---|---|---|");
    for measured in sets {
        let (Set { name, pages }, timed) = (&measured.set, &measured.separated);
        let of = |count: fn(&Lists) -> usize| range(pages.iter().map(count));
        let (boxes, nets) = (of(|lists| lists.boxes.len()), of(|lists| lists.nets.len()));
        let pages = pages.len();
        let not_separated = &measured.not_separated.ratio;
        println!("| {name} ({pages}) | {boxes} | {nets} | {timed} | {not_separated} |");
    }
    println!();
}

fn range(counts: impl Iterator<Item = usize> + Clone) -> String {
    let (least, most) = (counts.clone().min(), counts.max());
    match (least.unwrap_or(0), most.unwrap_or(0)) {
        (least, most) if least == most => least.to_string(),
        (least, most) => format!("{least} to {most}"),
    }
}

/// The medians over all pages' samples.
struct Timed {
    library: f64,
    rust: f64,
    ratio: Ratio,
}

fn over(pages: &[Lists], time: impl FnMut(&Lists) -> Samples) -> Timed {
    let all = pages.iter().map(time).reduce(Samples::joined);
    let all = all.expect("a set has pages");
    Timed {
        library: all.library_median(),
        rust: all.rust_median(),
        ratio: all.ratio(),
    }
}

/// Medians and the ratio, as three fields.
impl fmt::Display for Timed {
    fn fmt(&self, f: &mut fmt::Formatter<'_>) -> fmt::Result {
        let (library, rust) = (microseconds(self.library), microseconds(self.rust));
        write!(f, "{library} | {rust} | {}", self.ratio)
    }
}

/// One search, graph and all, as the call makes it.
fn print_searches(sets: &[Measured]) {
    println!(
        "A search from the first end of a net to its second, pruned; both build the graph first.\n"
    );
    println!("| pages | library µs | Rust µs | ratio: median (least to greatest) |");
    println!("|---|---|---|---|");
    for measured in sets {
        let Set { name, pages } = &measured.set;
        println!("| {name} ({}) | {} |", pages.len(), measured.search);
    }
    println!();
}

fn time_search(lists: &Lists, samples: usize) -> Samples {
    let (desk, mut router, mut rust) = (desk_of(lists), Router::new(), Rust::new(lists));
    let (start, end) = pages::searched(lists);
    let steps = |at: i64| i32::try_from(at).expect("a coordinate fits");
    let place = |place: oracle::desk::Place| Place::new(steps(place.x), steps(place.y));
    let (from, to) = (place(start), [place(end)]);
    let found = router.search(&desk, true, from, &to).map(|_| ());
    let number = found.map_or_else(Refusal::number, |()| 0);
    assert_eq!(number, layer::search(lists, true, start, &[end]).0);
    Samples::take(
        samples,
        || {
            black_box(router.search(&desk, true, from, &to).is_ok());
        },
        || rust.search(start, end),
    )
}

/// Where the Rust's time goes, and the library's calls beside it.
fn print_parts(sets: &[Measured]) {
    println!("Parts, in µs (medians): the Rust's three; the library's search (graph and one line), layout not separated, and layout.\n");
    println!(
        "| pages | Rust graph | Rust nets | Rust separation | search | not separated | layout |"
    );
    println!("|---|---|---|---|---|---|---|");
    for measured in sets {
        let [graph, nets, separation] = measured.parts.map(microseconds);
        let calls = [
            &measured.search,
            &measured.not_separated,
            &measured.separated,
        ];
        let [search, bare, whole] = calls.map(|timed| microseconds(timed.library));
        let name = &measured.set.name;
        println!("| {name} | {graph} | {nets} | {separation} | {search} | {bare} | {whole} |");
    }
    println!();
}

fn over_parts(pages: &[Lists], samples: usize) -> [f64; 3] {
    let mut parts = [Vec::new(), Vec::new(), Vec::new()];
    for lists in pages {
        let mut rust = Rust::new(lists);
        let runs = timing::runs(&mut || rust.lay_out(true));
        for _ in 0..samples {
            for (part, time) in parts.iter_mut().zip(rust.parts(runs)) {
                part.push(time);
            }
        }
    }
    parts.map(timing::median)
}

fn print_growth(samples: usize) {
    println!("Growth: boxes in a square grid with four ports each, nets of three ports.\n");
    println!("| boxes | nets | library µs | Rust µs | ratio: median (least to greatest) |");
    println!("|---|---|---|---|---|");
    for (boxes, nets) in pages::GROWTH {
        let page = pages::grid(boxes, nets);
        let timed = over(&[page], |lists| time_layout(lists, true, samples));
        println!("| {boxes} | {nets} | {timed} |");
    }
    println!();
}
