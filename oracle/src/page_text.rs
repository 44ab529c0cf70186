//! Reading and writing a page text (document 01, 'Desk and page text').

use crate::desk::{Lists, Place, DONE};
use std::fmt::Write;

/// Bytes of a line with its LF: document 02, S-1; document 01 has 64.
const MAX_LINE: usize = 96;

/// Why a text was refused: the 1-based line and the inner number, 0 if the line is malformed.
#[derive(Debug, Clone, Copy, PartialEq, Eq)]
pub struct Refusal {
    pub line: usize,
    pub inner: u32,
}

/// The records of a text, or the first line that is malformed or refused.
pub fn read(text: &[u8]) -> Result<Lists, Refusal> {
    let mut lists = Lists::default();
    for (index, line) in text.split_inclusive(|&byte| byte == b'\n').enumerate() {
        let refused = |inner| Refusal {
            line: index + 1,
            inner,
        };
        let number = add_line(&mut lists, line).ok_or(refused(0))?;
        if number != DONE {
            return Err(refused(number));
        }
    }
    Ok(lists)
}

/// Adds one line's record and answers with its number; nothing if the line is malformed.
fn add_line(lists: &mut Lists, line: &[u8]) -> Option<u32> {
    if line.len() > MAX_LINE {
        return None;
    }
    let line = std::str::from_utf8(line.strip_suffix(b"\n")?).ok()?;
    let (word, fields) = match line.split_once('\t') {
        Some((word, rest)) => (word, rest.split('\t').map(plain_decimal).collect()),
        None => (line, Some(Vec::new())),
    };
    Some(match (word, fields?.as_slice()) {
        ("box", &[id, x0, y0, x1, y1]) => lists.add_box(id, Place::new(x0, y0), Place::new(x1, y1)),
        ("port", &[id, x, y, directions]) => lists.add_port(id, Place::new(x, y), directions),
        ("net", &[id]) => lists.add_net(id),
        ("end", &[id, x, y, mark]) => lists.add_end(id, Place::new(x, y), mark),
        _ => return None,
    })
}

/// An optional minus and digits, no leading zero, no −0. A number past 64 bits is out of every
/// field's range, so the greatest stands for it.
fn plain_decimal(field: &str) -> Option<i64> {
    let digits = field.strip_prefix('-').unwrap_or(field);
    let plain = !digits.is_empty()
        && digits.bytes().all(|byte| byte.is_ascii_digit())
        && (!digits.starts_with('0') || field == "0");
    plain.then(|| field.parse().unwrap_or(i64::MAX))
}

/// The records as a page text: boxes, ports, nets, ends in kept order.
pub fn write(lists: &Lists) -> String {
    let mut text = String::new();
    for b in &lists.boxes {
        let (min, max) = (b.min, b.max);
        let record = [b.id, min.x, min.y, max.x, max.y];
        push_line(&mut text, "box", &record);
    }
    for port in &lists.ports {
        let record = [port.box_id, port.at.x, port.at.y, port.directions];
        push_line(&mut text, "port", &record);
    }
    for &net in &lists.nets {
        push_line(&mut text, "net", &[net]);
    }
    for end in &lists.ends {
        let record = [end.net_id, end.at.x, end.at.y, end.mark];
        push_line(&mut text, "end", &record);
    }
    text
}

/// A word and numbers, parted by tabs and ended by LF.
pub fn push_line(text: &mut String, word: &str, fields: &[i64]) {
    text.push_str(word);
    for field in fields {
        write!(text, "\t{field}").expect("a string takes all");
    }
    text.push('\n');
}
