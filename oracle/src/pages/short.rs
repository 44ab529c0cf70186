//! Short texts with records in mixed order, whole or with a fault at any of their lines.

use crate::desk::{Lists, Place, DONE};
use crate::page_text::push_line;
use crate::random::Random;

/// The ids of good records, numbers out of the range of some or of all fields, and how many digits
/// make a line about as long as it may be.
pub struct Numbers {
    ids: [i64; 11],
    far: [&'static str; 12],
    digits: (i64, i64),
}

impl Numbers {
    /// About the limits of document 01.
    pub const SHORT_IDS: Self = Self {
        ids: [1, 1, 2, 2, 3, 3, 4, 5, 6, 17, 65_535],
        far: FAR_NUMBERS,
        digits: (40, 62),
    };

    /// About those of document 02, S-1.
    pub const LONG_IDS: Self = Self {
        ids: [
            1,
            65_537,
            65_537,
            131_073,
            2_147_483_647,
            2_147_483_648,
            2_147_483_649,
            4_294_901_761,
            4_294_967_294,
            4_294_967_295,
            4_294_967_295,
        ],
        far: LONG_FAR_NUMBERS,
        digits: (72, 94),
    };
}

/// A text of a few records; at times one of many nets or boxes, at or past the list's limit.
pub fn short(random: &mut Random, numbers: &Numbers) -> Vec<u8> {
    if random.percent(1) {
        return one_list(random);
    }
    let mut lines = records(random, numbers);
    if random.percent(45) {
        put_fault_in(&mut lines, random, numbers);
    }
    lines.concat().into_bytes()
}

fn line(word: &str, fields: &[i64]) -> String {
    let mut line = String::new();
    push_line(&mut line, word, fields);
    line
}

fn one_list(random: &mut Random) -> Vec<u8> {
    let count = random.between(63, 66);
    let lines: String = if random.percent(50) {
        (1..=count).map(|id| line("net", &[id])).collect()
    } else {
        (1..=count)
            .map(|id| line("box", &[id, 0, 0, 0, 0]))
            .collect()
    };
    lines.into_bytes()
}

/// Lines that all go, each after the lines that it needs.
fn records(random: &mut Random, numbers: &Numbers) -> Vec<String> {
    let mut lists = Lists::default();
    let mut lines = Vec::new();
    for _ in 0..random.pick(&[0, 2, 4, 6, 8, 10, 12, 14, 18, 40]) {
        let (done, line) = record(&mut lists, random, numbers);
        if done == DONE {
            lines.push(line);
        }
    }
    lines
}

fn record(lists: &mut Lists, random: &mut Random, numbers: &Numbers) -> (u32, String) {
    let id = random.pick(&numbers.ids);
    let reach = random.pick(&[4, 4, 300, 4_194_304]);
    let at = Place::new(random.between(-reach, reach), random.between(-reach, reach));
    match random.below(4) {
        0 => {
            let size = random.between(0, 4_194_304 - reach);
            let max = Place::new(at.x + size, at.y + random.between(0, size));
            let fields = [id, at.x, at.y, max.x, max.y];
            (lists.add_box(id, at, max), line("box", &fields))
        }
        1 => {
            let directions = random.between(0, 15);
            let number = lists.add_port(id, at, directions);
            (number, line("port", &[id, at.x, at.y, directions]))
        }
        2 => (lists.add_net(id), line("net", &[id])),
        _ => {
            let mark = random.between(0, 1);
            let number = lists.add_end(id, at, mark);
            (number, line("end", &[id, at.x, at.y, mark]))
        }
    }
}

/// Words that are no record's.
const WORDS: [&str; 9] = [
    "", " net", "Net", "nets", "bo", "boxx", "po rt", "ends", "0",
];

/// Fields that are no plain decimals.
const NO_DECIMALS: [&str; 16] = [
    "", "-", "+1", "01", "-01", "00", "-0", "--1", "1-", "1 ", " 1", "1.0", "1e1", "0x1", "x",
    "1\r",
];

const FAR_NUMBERS: [&str; 12] = [
    "0",
    "-1",
    "2",
    "16",
    "65536",
    "4194305",
    "-4194305",
    "4294967297",
    "-4294967295",
    "18446744073709551617",
    "-18446744073709551615",
    "340282366920938463463374607431768211457",
];

const LONG_FAR_NUMBERS: [&str; 12] = [
    "0",
    "-1",
    "1",
    "65536",
    "131072",
    "4194305",
    "-4294967295",
    "4294967296",
    "4294967297",
    "8589934593",
    "18446744073709551617",
    "-18446744073709551615",
];

fn put_fault_in(lines: &mut Vec<String>, random: &mut Random, numbers: &Numbers) {
    if lines.is_empty() {
        lines.push(
            random
                .pick(&["\n", "\t\n", "net", "x\n", "net\t0\n"])
                .into(),
        );
        return;
    }
    let at = random.below(lines.len());
    match random.below(12) {
        0 => set_field(&mut lines[at], 0, random.pick(&WORDS)),
        1 | 2 => set_any_field(&mut lines[at], random.pick(&NO_DECIMALS), random),
        3 | 4 => set_any_field(&mut lines[at], random.pick(&numbers.far), random),
        5 => set_any_field(&mut lines[at], &long_number(random, numbers), random),
        6 => lines[at] = other_field_count(&lines[at], random),
        7 => lines[at] = other_end(&lines[at], random),
        8 => lines.push(lines[at].clone()),
        9 => {
            lines.remove(at);
        }
        10 => {
            let other = random.below(lines.len());
            lines.swap(at, other);
        }
        _ => {
            let id = random.between(1, 9);
            let unknown = [line("port", &[id, 0, 0, 0]), line("end", &[id, 0, 0, 0])];
            lines.insert(at, unknown[random.below(2)].clone());
        }
    }
}

fn set_field(line: &mut String, index: usize, value: &str) {
    let end = line.len() - 1;
    let mut fields: Vec<_> = line[..end].split('\t').collect();
    fields[index] = value;
    *line = fields.join("\t") + "\n";
}

fn set_any_field(line: &mut String, value: &str, random: &mut Random) {
    let count = line.split('\t').count();
    set_field(line, 1 + random.below(count - 1), value);
}

/// A number with so many digits that its line is about as long as it may be.
fn long_number(random: &mut Random, numbers: &Numbers) -> String {
    let (least, most) = numbers.digits;
    "1".repeat(random.between(least, most) as usize)
}

fn other_field_count(line: &str, random: &mut Random) -> String {
    let line = &line[..line.len() - 1];
    match random.below(4) {
        0 => format!("{line}\t\n"),
        1 => format!("{line}\t1\n"),
        2 => format!("\t{line}\n"),
        _ => line[..line.rfind('\t').unwrap_or(0)].to_owned() + "\n",
    }
}

fn other_end(line: &str, random: &mut Random) -> String {
    let line = &line[..line.len() - 1];
    match random.below(6) {
        0 => line.to_owned(),
        1 => format!("{line}\r\n"),
        2 => format!("{line}\n\n"),
        3 => format!("{line} \n"),
        4 => format!("{line}\0\n"),
        _ => line.replacen('\t', " ", 1) + "\n",
    }
}
