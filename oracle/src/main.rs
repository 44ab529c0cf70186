//! The oracle's commands; docs/ORACLE.md says how to use them.

use oracle::desk::{Lists, Place};
use oracle::layer;
use oracle::page::Page;
use oracle::page_list::{self, Detail};
use oracle::page_text;
use oracle::pages::{self, Kind};
use oracle::{call_list, compare, digest, findings, listing};
use std::io::{self, Read, Write};
use std::process::ExitCode;
use std::{env, fs, panic};

const USAGE: &str = "usage: oracle COMMAND
  wires [--no-prune] [--no-separate] [--raw]       what program `wires` prints for the page on stdin
  anchors                                          its implicit anchors
  graph [--no-prune]                               its graph
  search [--no-prune] X Y [END_X END_Y]..          the line of a search on it
  page KIND SEED                                   a generated page
  list FIRST COUNT [listing|wires|graphs]          generated pages with their answers
  digest FIRST COUNT                               a digest of all answers on generated pages
  compare PROGRAM FIRST COUNT                      what PROGRAM prints for generated pages, beside `wires`
  findings FIRST COUNT                             counts of unexpected wires on realistic pages
  make FOLDER                                      write the fixed lists
  check FOLDER                                     make them again and compare";

const SWITCHES: [&str; 3] = ["--no-prune", "--no-separate", "--raw"];

fn main() -> ExitCode {
    // A caught panic of the Rust is an answer; any other one is told of by the default hook.
    let tell = panic::take_hook();
    panic::set_hook(Box::new(move |panic| {
        if !layer::is_path_too_short(panic.payload()) {
            tell(panic);
        }
    }));

    let arguments: Vec<_> = env::args().skip(1).collect();
    let (switches, rest): (Vec<_>, Vec<_>) = arguments
        .iter()
        .map(String::as_str)
        .partition(|a| a.starts_with("--"));
    match run(&rest, &switches) {
        Ok(bytes) => {
            io::stdout().write_all(&bytes).expect("stdout takes it");
            ExitCode::SUCCESS
        }
        Err(message) => {
            eprintln!("{message}");
            ExitCode::FAILURE
        }
    }
}

fn run(arguments: &[&str], switches: &[&str]) -> Result<Vec<u8>, String> {
    if !switches.iter().all(|switch| SWITCHES.contains(switch)) {
        return Err(USAGE.into());
    }
    let has = |switch| switches.contains(&switch);
    let (prune, separate) = (!has("--no-prune"), !has("--no-separate"));
    match arguments {
        ["wires"] if has("--raw") => on_page(|lists| listing::raw_wires(lists, prune, separate)),
        ["wires"] => on_page(|lists| listing::wires(lists, prune, separate)),
        ["anchors"] => on_page(listing::anchors),
        ["graph"] => on_page(|lists| graph(lists, prune)),
        ["search", places @ ..] => search(places, prune),
        ["page", kind, seed] => Ok(pages::page(kind_named(kind)?, number(seed)? as u64)),
        ["list", first, count, detail @ ..] => list(first, count, detail),
        ["digest", first, count] => {
            let digest = digest::digest(number(first)? as u64, number(count)? as u64);
            Ok(digest.to_string().into_bytes())
        }
        ["compare", program, first, count] => compare_with(program, first, count),
        ["findings", first, count] => {
            let findings = findings::findings(number(first)? as u64, number(count)? as u64);
            Ok(findings.to_string().into_bytes())
        }
        ["make", folder] => make(folder),
        ["check", folder] => check(folder),
        _ => Err(USAGE.into()),
    }
}

/// Answers about the page text on standard input; a refused one has one answer only.
fn on_page(answer: impl FnOnce(&Lists) -> String) -> Result<Vec<u8>, String> {
    let mut text = Vec::new();
    let read = io::stdin().read_to_end(&mut text);
    read.map_err(|error| format!("cannot read the page: {error}"))?;
    let answer = match page_text::read(&text) {
        Ok(lists) => answer(&lists),
        Err(refusal) => listing::refused(refusal),
    };
    Ok(answer.into_bytes())
}

fn graph(lists: &Lists, prune: bool) -> String {
    match layer::build_graph(&Page::new(lists), prune) {
        Ok(graph) => listing::graph(&graph),
        Err(layer::Crowded) => listing::crowded(),
    }
}

fn search(places: &[&str], prune: bool) -> Result<Vec<u8>, String> {
    let coordinates: Vec<_> = places.iter().map(|c| number(c)).collect::<Result<_, _>>()?;
    let mut places = coordinates.chunks(2).map(|place| match place {
        &[x, y] => Ok(Place::new(x, y)),
        _ => Err(USAGE.to_owned()),
    });
    let start = places.next().ok_or(USAGE)??;
    let ends: Vec<_> = places.collect::<Result<_, _>>()?;
    on_page(|lists| listing::search(lists, prune, start, &ends))
}

fn list(first: &str, count: &str, detail: &[&str]) -> Result<Vec<u8>, String> {
    let detail = match detail {
        [] | ["listing"] => Detail::Listing,
        ["wires"] => Detail::Wires,
        ["graphs"] => Detail::Graphs,
        _ => return Err(USAGE.into()),
    };
    let (first, count) = (number(first)? as u64, number(count)? as u64);
    Ok(page_list::generated_list(first, count, detail))
}

fn compare_with(program: &str, first: &str, count: &str) -> Result<Vec<u8>, String> {
    let (first, count) = (number(first)? as u64, number(count)? as u64);
    let compared = compare::compare(program, first, count)
        .map_err(|error| format!("cannot run {program}: {error}"))?;
    if compared.differing.is_empty() {
        Ok(compared.to_string().into_bytes())
    } else {
        Err(compared.to_string())
    }
}

fn fixed_lists() -> [(&'static str, Vec<u8>); 2] {
    [
        ("vectors/data/pages.txt", page_list::fixed_list()),
        ("calls/stdin", call_list::fixed_list()),
    ]
}

fn make(folder: &str) -> Result<Vec<u8>, String> {
    for (name, list) in fixed_lists() {
        let path = format!("{folder}/{name}");
        fs::write(&path, list).map_err(|error| format!("cannot write {path}: {error}"))?;
    }
    Ok(Vec::new())
}

fn check(folder: &str) -> Result<Vec<u8>, String> {
    for (name, list) in fixed_lists() {
        let path = format!("{folder}/{name}");
        let stored = fs::read(&path).map_err(|error| format!("cannot read {path}: {error}"))?;
        if stored != list {
            return Err(format!("{path} is not what the oracle makes"));
        }
    }
    Ok(b"the fixed lists are what the oracle makes\n".to_vec())
}

fn kind_named(name: &str) -> Result<Kind, String> {
    let kind = Kind::ALL.into_iter().find(|kind| kind.name() == name);
    kind.ok_or_else(|| USAGE.into())
}

fn number(argument: &str) -> Result<i64, String> {
    argument.parse().map_err(|_| USAGE.into())
}
