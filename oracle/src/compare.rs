//! What a program prints for many pages, beside what program `wires` must print.

use crate::listing;
use crate::page_text;
use crate::pages::{self, Kind};
use std::collections::BTreeMap;
use std::fmt;
use std::io::{self, ErrorKind, Write};
use std::process::{Command, Stdio};

/// Counts of what was compared, and the pages whose output differs.
#[derive(Default)]
pub struct Comparison {
    counts: BTreeMap<String, u64>,
    pub differing: Vec<String>,
}

impl fmt::Display for Comparison {
    fn fmt(&self, f: &mut fmt::Formatter<'_>) -> fmt::Result {
        for (what, count) in &self.counts {
            writeln!(f, "{count}\t{what}")?;
        }
        for name in &self.differing {
            writeln!(f, "{name} differs")?;
        }
        writeln!(f, "{}\tpages differ", self.differing.len())
    }
}

/// Takes the samples, the limit pages, the malformations and the generated pages of `count` seeds.
pub fn compare(program: &str, first: u64, count: u64) -> io::Result<Comparison> {
    let mut comparison = Comparison::default();
    let fixed = [
        ("samples", pages::samples()),
        ("limits", pages::limits()),
        ("malformations", pages::malformations()),
    ];
    for (kind, pages) in fixed {
        for (name, text) in pages {
            comparison.take(program, kind, &name, &text)?;
        }
    }
    for seed in first..first + count {
        let kind = Kind::of_seed(seed);
        let name = format!("{}-{seed}", kind.name());
        comparison.take(program, kind.name(), &name, &pages::page(kind, seed))?;
    }
    Ok(comparison)
}

impl Comparison {
    fn take(&mut self, program: &str, kind: &str, name: &str, text: &[u8]) -> io::Result<()> {
        let expected = wires(text);
        self.count("pages");
        self.count(&format!("pages: {kind}"));
        for line in expected.lines() {
            self.take_line(line);
        }
        if printed(program, text)? != expected.as_bytes() {
            self.differing.push(name.to_owned());
        }
        Ok(())
    }

    fn take_line(&mut self, line: &str) {
        let fields: Vec<_> = line.split('\t').collect();
        match fields[..] {
            ["refused", _, inner] => {
                self.count(&format!("pages refused with inner number {inner}"))
            }
            ["page", ..] => self.count("pages crowded"),
            ["net", _, number, ..] => self.count(&format!("nets with number {number}")),
            ["v", ..] => self.count("vertices"),
            ["j", ..] => self.count("junctions"),
            _ => self.count("other lines"),
        }
    }

    fn count(&mut self, what: &str) {
        *self.counts.entry(what.to_owned()).or_default() += 1;
    }
}

fn wires(text: &[u8]) -> String {
    match page_text::read(text) {
        Ok(lists) => listing::wires(&lists, true, true),
        Err(refusal) => listing::refused(refusal),
    }
}

/// What the program prints; it may leave the end of the text unread.
fn printed(program: &str, text: &[u8]) -> io::Result<Vec<u8>> {
    let mut child = Command::new(program)
        .stdin(Stdio::piped())
        .stdout(Stdio::piped())
        .spawn()?;
    let mut stdin = child.stdin.take().expect("it is piped");
    match stdin.write_all(text) {
        Err(error) if error.kind() != ErrorKind::BrokenPipe => return Err(error),
        _ => drop(stdin),
    }
    let output = child.wait_with_output()?;
    if !output.status.success() {
        return Err(io::Error::other(format!("{program}: {}", output.status)));
    }
    Ok(output.stdout)
}
