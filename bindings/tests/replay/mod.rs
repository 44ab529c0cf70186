//! Replays the oracle's lists through the wrapper; docs/ORACLE.md has their form. Each answer that
//! differs ends the test with the line it stands in.

#![allow(dead_code)]

use clue_desk::{raw, BadLine, Desk, Place, Refusal, Router};
use std::fmt::Write;

/// A list that is read from the front: header lines, and bytes behind some of them.
struct List<'a> {
    rest: &'a [u8],
}

impl<'a> List<'a> {
    /// The next header's fields.
    fn header(&mut self) -> Option<Vec<&'a str>> {
        if self.rest.is_empty() {
            return None;
        }
        let end = self.rest.iter().position(|&byte| byte == b'\n');
        let line = self.bytes(end.expect("a header ends in LF") + 1);
        let line = std::str::from_utf8(&line[..line.len() - 1]).expect("a header is text");
        Some(line.split('\t').collect())
    }

    fn bytes(&mut self, count: usize) -> &'a [u8] {
        let (bytes, rest) = self.rest.split_at(count);
        self.rest = rest;
        bytes
    }
}

/// A field as any number that fits.
fn field<T: TryFrom<i64>>(fields: &[&str], at: usize) -> T {
    let number: i64 = fields[at].parse().expect("a field is a number");
    let Ok(number) = T::try_from(number) else {
        panic!("{} does not fit", fields[at]);
    };
    number
}

fn place(fields: &[&str], at: usize) -> Place {
    Place::new(field(fields, at), field(fields, at + 1))
}

/// The number of a call's answer.
fn number(answer: Result<(), Refusal>) -> u32 {
    answer.map_or_else(Refusal::number, |()| 0)
}

/// How much was replayed.
#[derive(Debug, Default, PartialEq, Eq)]
pub struct Calls {
    pub calls: usize,
    pub words: usize,
    pub lists: usize,
}

/// Replays a list of calls.
pub fn calls(list: &[u8]) -> Calls {
    let mut list = List { rest: list };
    let mut desk = Desk::new();
    // Words that the list makes no desk.
    let mut no_desk = None;
    let mut done = Calls::default();
    while let Some(fields) = list.header() {
        match fields[0] {
            "new" => (desk, no_desk) = (Desk::new(), None),
            "lists" => {
                let records = list.bytes(field(&fields, 1));
                assert_eq!(desk.to_string().as_bytes(), records, "{fields:?}");
                done.lists += 1;
            }
            "word" => {
                let mut words = no_desk.unwrap_or_else(|| desk.words().to_vec());
                words[field::<usize>(&fields, 1)] = field(&fields, 2);
                no_desk = handed(&mut desk, words);
                done.words += 1;
            }
            "text" => {
                no_desk = None;
                read(&mut desk, list.bytes(field(&fields, 1)), &fields);
                done.calls += 1;
            }
            _ => {
                match &mut no_desk {
                    None => change(&mut desk, &fields),
                    Some(words) => refused_change(words, &fields),
                }
                done.calls += 1;
            }
        }
    }
    done
}

/// Takes words as the desk, or hands them back if they are none.
fn handed(desk: &mut Desk, words: Vec<u32>) -> Option<Vec<u32>> {
    match Desk::from_words(&words) {
        Ok(handed) => {
            *desk = handed;
            None
        }
        Err(refusal) => {
            assert_eq!(refusal, Refusal::OutOfRange);
            Some(words)
        }
    }
}

fn change(desk: &mut Desk, fields: &[&str]) {
    let before = desk.clone();
    let answer = call(desk, fields);
    let expected: u32 = field(fields, fields.len() - 1);
    assert_eq!(number(answer), expected, "{fields:?}");
    let changed = desk.words() != before.words();
    assert!(expected == 0 || !changed, "{fields:?} changed it");
}

/// A call on words that are no desk.
fn refused_change(words: &mut [u32], fields: &[&str]) {
    let before = words.to_vec();
    let number = raw_call(words, fields);
    assert_eq!(number, field::<u32>(fields, fields.len() - 1), "{fields:?}");
    assert_eq!(words, before, "{fields:?} changed it");
}

fn raw_call(words: &mut [u32], fields: &[&str]) -> u32 {
    let (desk, size) = (words.as_mut_ptr(), words.len());
    let id = || field(fields, 1);
    let step = |at| field(fields, at);
    // SAFETY: the pointer and the length are those of a slice.
    unsafe {
        match fields[0] {
            "box" => raw::add_box(desk, size, id(), step(2), step(3), step(4), step(5)),
            "port" => raw::add_port(desk, size, id(), step(2), step(3), field(fields, 4)),
            "net" => raw::add_net(desk, size, id()),
            "end" => raw::add_end(desk, size, id(), step(2), step(3), field(fields, 4)),
            "rbox" => raw::retire_box(desk, size, id()),
            "rport" => raw::retire_port(desk, size, id()),
            "rnet" => raw::retire_net(desk, size, id()),
            "rend" => raw::retire_end(desk, size, id()),
            "undo" => raw::undo(desk, size),
            word => panic!("no call is named {word}"),
        }
    }
}

fn call(desk: &mut Desk, fields: &[&str]) -> Result<(), Refusal> {
    match fields[0] {
        "box" => desk.add_box(field(fields, 1), place(fields, 2), place(fields, 4)),
        "port" => desk.add_port(field(fields, 1), place(fields, 2), field(fields, 4)),
        "net" => desk.add_net(field(fields, 1)),
        "end" => desk.add_end(field(fields, 1), place(fields, 2), field(fields, 4)),
        "rbox" => desk.retire_box(field(fields, 1)),
        "rport" => desk.retire_port(field(fields, 1)),
        "rnet" => desk.retire_net(field(fields, 1)),
        "rend" => desk.retire_end(field(fields, 1)),
        "undo" => desk.undo(),
        word => panic!("no call is named {word}"),
    }
}

fn read(desk: &mut Desk, text: &[u8], fields: &[&str]) {
    let (number, line, inner) = match desk.read_text(text) {
        Ok(()) => (0, 0, 0),
        Err(bad) => (bad.number(), bad.line, bad.inner_number()),
    };
    let expected = [2, 3, 4].map(|at| field::<u32>(fields, at));
    assert_eq!([number, line, inner], expected, "{fields:?}");
    assert_eq!(desk.copies(), 0, "{fields:?}: reading leaves no undo");
    assert!(
        number == 0 || desk.to_string().is_empty(),
        "{fields:?} is refused"
    );
}

#[derive(Debug, Default, PartialEq, Eq)]
pub struct Pages {
    pub pages: usize,
    pub refused: usize,
    pub listings: usize,
    pub searches: usize,
}

/// Replays a list of pages: refusals, listings and searches. Anchors, graphs and counts are no
/// call's answers and are passed over.
pub fn pages(list: &[u8]) -> Pages {
    let mut list = List { rest: list };
    let mut desk = Desk::new();
    let mut router = Router::new();
    let mut refused = None;
    let mut name = "";
    let mut done = Pages::default();
    while let Some(fields) = list.header() {
        if fields[0] == "counts" {
            continue;
        }
        let bytes = list.bytes(field(&fields, fields.len() - 1));
        let (told, header) = match fields[0] {
            "page" => {
                name = fields[1];
                refused = desk.read_text(bytes).err();
                done.pages += 1;
                continue;
            }
            "wires" if refused.is_some() => {
                done.refused += 1;
                (refused.map_or_else(String::new, told_refusal), &fields[..])
            }
            "wires" => {
                done.listings += 1;
                (listing(&mut router, &desk, &fields), &fields[..])
            }
            "search" => {
                done.searches += 1;
                (search(&mut router, &desk, &fields), &fields[..4])
            }
            _ => continue,
        };
        assert_eq!(told.as_bytes(), bytes, "{name}: {header:?}");
    }
    done
}

fn told_refusal(bad: BadLine) -> String {
    format!("refused\t{}\t{}\n", bad.line, bad.inner_number())
}

fn flag(fields: &[&str], at: usize) -> bool {
    fields[at] == "1"
}

fn listing(router: &mut Router, desk: &Desk, fields: &[&str]) -> String {
    match router.layout(desk, flag(fields, 1), flag(fields, 2)) {
        Ok(page) => page.to_string(),
        Err(refusal) => format!("page\t{}\n", refusal.number()),
    }
}

fn search(router: &mut Router, desk: &Desk, fields: &[&str]) -> String {
    let ends: Vec<_> = fields[5..fields.len() - 1]
        .chunks(2)
        .map(|end| place(end, 0))
        .collect();
    assert_eq!(ends.len(), field::<usize>(fields, 4));
    let line = match router.search(desk, flag(fields, 1), place(fields, 2), &ends) {
        Ok(line) => line,
        Err(refusal) => return format!("line\t{}\t0\n", refusal.number()),
    };
    let mut told = format!("line\t0\t{}\n", line.len());
    for node in line.nodes() {
        let onward = node.onward.map_or(0, clue_desk::Direction::bit);
        let (place, letter) = (node.place, node.kind.letter());
        writeln!(told, "{place}\t{letter}\t{onward}").expect("a string takes all");
    }
    told
}
