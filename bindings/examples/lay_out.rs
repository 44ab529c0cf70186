//! Lays a page text out, pruned and separated, and prints what program `wires` prints.
//!
//! `lay_out [FILE]`; without a file the text comes from standard input.

use clue_desk::{Desk, Refusal, Router};
use std::io::{self, Read, Write};
use std::{env, fs};

fn main() -> io::Result<()> {
    let text = match env::args_os().nth(1) {
        Some(path) => fs::read(path)?,
        None => {
            let mut text = Vec::new();
            io::stdin().read_to_end(&mut text)?;
            text
        }
    };
    io::stdout().write_all(listing(&text).as_bytes())
}

fn listing(text: &[u8]) -> String {
    let mut desk = Desk::new();
    if let Err(refused) = desk.read_text(text) {
        return format!("refused\t{}\t{}\n", refused.line, refused.inner_number());
    }
    match Router::new().layout(&desk, true, true) {
        Ok(page) => page.to_string(),
        Err(refusal) => format!("page\t{}\n", Refusal::number(refusal)),
    }
}
