//! Texts that are refused: each malformation, each inner number, and faults put in at random.

use super::{page, Kind};
use crate::random::Random;

/// One text for each malformation and each inner number that a few lines can meet.
pub fn malformations() -> Vec<(String, Vec<u8>)> {
    let mut texts = Vec::new();
    let add = |texts: &mut Vec<_>, group: &str, cases: &[&str]| {
        for (index, case) in cases.iter().enumerate() {
            texts.push((format!("{group}-{}", index + 1), case.as_bytes().to_vec()));
        }
    };
    add(&mut texts, "word", &WORDS);
    add(&mut texts, "fields", &FIELD_COUNTS);
    add(&mut texts, "decimal", &DECIMALS);
    add(&mut texts, "line", &LINES);
    add(&mut texts, "range", &RANGES);
    add(&mut texts, "live", &LIVE);
    add(&mut texts, "unknown", &UNKNOWN);
    add(&mut texts, "first", &FIRST_CONDITION);
    texts.push(("line-bytes".into(), b"net\t1\n\xFFnet\t2\n".to_vec()));
    texts.push(("line-nul".into(), b"net\t1\0\n".to_vec()));
    add(&mut texts, "id", &LONG_IDS);
    for (index, case) in line_lengths().into_iter().enumerate() {
        texts.push((format!("length-{}", index + 1), case.into_bytes()));
    }
    texts
}

const WORDS: [&str; 8] = [
    "\n",
    "\t\n",
    "nets\t1\n",
    "Net\t1\n",
    " net\t1\n",
    "net 1\n",
    "ne\t1\n",
    "net\t1\n\nnet\t2\n",
];

const FIELD_COUNTS: [&str; 11] = [
    "net\n",
    "net\t1\t1\n",
    "net\t1\t\n",
    "box\t1\t0\t0\t0\n",
    "box\t1\t0\t0\t0\t0\t0\n",
    "box\t1\t0\t0\t0\t0\nport\t1\t0\t0\n",
    "box\t1\t0\t0\t0\t0\nport\t1\t0\t0\t0\t0\n",
    "net\t1\nend\t1\t0\t0\n",
    "net\t1\nend\t1\t0\t0\t0\t0\n",
    "net\t\t1\n",
    "net\t1\nend\n",
];

const DECIMALS: [&str; 14] = [
    "net\t\n",
    "net\t-\n",
    "net\t+1\n",
    "net\t01\n",
    "net\t-01\n",
    "net\t00\n",
    "net\t--1\n",
    "net\t1 \n",
    "net\t1.0\n",
    "net\t1e1\n",
    "net\t0x1\n",
    "net\t1\nend\t1\t-0\t0\t0\n",
    "net\t1\nend\t1\t0\t0\t-0\n",
    "net\t1-\n",
];

const LINES: [&str; 8] = [
    "net\t1",
    "net\t1\nnet\t2",
    "net\t1\r\n",
    "net\t1\nnet\t2\r\n",
    // 64 bytes, 65 and 64; 64 without an LF.
    "net\t11111111111111111111111111111111111111111111111111111111111\n",
    "net\t111111111111111111111111111111111111111111111111111111111111\n",
    "net\t-1111111111111111111111111111111111111111111111111111111111\n",
    "net\t111111111111111111111111111111111111111111111111111111111111",
];

const RANGES: [&str; 28] = [
    "net\t0\n",
    "net\t65536\n",
    "net\t-1\n",
    "net\t4294967297\n",
    "net\t18446744073709551617\n",
    "net\t340282366920938463463374607431768211457\n",
    "box\t0\t0\t0\t0\t0\n",
    "box\t65536\t0\t0\t0\t0\n",
    "box\t1\t-4194305\t0\t0\t0\n",
    "box\t1\t0\t-4194305\t0\t0\n",
    "box\t1\t0\t0\t4194305\t0\n",
    "box\t1\t0\t0\t0\t4194305\n",
    "box\t1\t1\t0\t0\t0\n",
    "box\t1\t0\t1\t0\t0\n",
    "box\t1\t-4294967296\t0\t0\t0\n",
    "box\t1\t0\t0\t18446744073709551616\t0\n",
    "box\t1\t0\t0\t0\t0\nport\t0\t0\t0\t0\n",
    "box\t1\t0\t0\t0\t0\nport\t1\t4194305\t0\t0\n",
    "box\t1\t0\t0\t0\t0\nport\t1\t0\t-4194305\t0\n",
    "box\t1\t0\t0\t0\t0\nport\t1\t0\t0\t16\n",
    "box\t1\t0\t0\t0\t0\nport\t1\t0\t0\t-1\n",
    "net\t1\nend\t65536\t0\t0\t0\n",
    "net\t1\nend\t1\t-4194305\t0\t0\n",
    "net\t1\nend\t1\t0\t4194305\t0\n",
    "net\t1\nend\t1\t0\t0\t2\n",
    "net\t1\nend\t1\t0\t0\t-1\n",
    "net\t1\nend\t1\t4294967296\t0\t0\n",
    "net\t1\nend\t1\t0\t0\t4294967296\n",
];

const LIVE: [&str; 3] = [
    "box\t1\t0\t0\t0\t0\nbox\t1\t5\t5\t5\t5\n",
    "net\t1\nnet\t1\n",
    "net\t1\nbox\t1\t0\t0\t0\t0\nnet\t2\nnet\t1\n",
];

const UNKNOWN: [&str; 5] = [
    "port\t1\t0\t0\t0\n",
    "end\t1\t0\t0\t0\n",
    "net\t1\nport\t1\t0\t0\t0\n",
    "box\t1\t0\t0\t0\t0\nend\t1\t0\t0\t0\n",
    "end\t1\t0\t0\t0\nnet\t1\n",
];

/// Several conditions at once: malformed before 2, 2 before 3 and 4, the first line first.
const FIRST_CONDITION: [&str; 7] = [
    "net\t0\t\n",
    "box\t1\t0\t0\t0\t0\nbox\t1\t5\t5\t4\t5\n",
    "port\t1\t0\t0\t16\n",
    "end\t1\t0\t0\t2\n",
    "net\t0\nnets\n",
    "nets\nnet\t0\n",
    "net\t1\nnet\t1\nnet\t01\n",
];

/// Ids past 65,535: at and past the limit, and different ones that are alike in their low bits.
const LONG_IDS: [&str; 14] = [
    "net\t2147483647\nnet\t2147483648\nnet\t4294967295\n",
    "net\t4294967296\n",
    "net\t9999999999\n",
    "net\t-4294967295\n",
    "net\t04294967295\n",
    "box\t4294967295\t0\t0\t9\t9\nport\t4294967295\t0\t0\t15\n",
    "box\t4294967296\t0\t0\t0\t0\n",
    "box\t1\t0\t0\t0\t0\nport\t4294967297\t0\t0\t0\n",
    "net\t1\nend\t4294967297\t0\t0\t0\n",
    "net\t1\nnet\t65537\nnet\t2147483649\nnet\t1\n",
    "box\t65537\t0\t0\t0\t0\nport\t1\t0\t0\t0\n",
    "net\t65537\nend\t1\t0\t0\t0\n",
    "net\t1\nend\t65537\t0\t0\t0\n",
    "net\t4294967295\nnet\t4294967295\n",
];

/// Lines of 95, 96 and 97 bytes; of 96, negative and without an LF; of 96 and 97 with a coordinate.
fn line_lengths() -> [String; 7] {
    let net = |digits: usize| format!("net\t{}\n", "1".repeat(digits));
    let end = |digits: usize| format!("net\t1\nend\t1\t0\t{}\t0\n", "1".repeat(digits));
    [
        net(90),
        net(91),
        net(92),
        format!("net\t-{}\n", "1".repeat(90)),
        format!("net\t{}", "1".repeat(92)),
        end(85),
        end(86),
    ]
}

/// A dense page with one to three faults.
pub fn damaged(random: &mut Random) -> Vec<u8> {
    let seed = random.between(0, 1 << 40) as u64;
    let mut text = page(Kind::Dense, seed);
    for _ in 0..random.between(1, 3) {
        put_fault_in(&mut text, random);
    }
    text
}

fn put_fault_in(text: &mut Vec<u8>, random: &mut Random) {
    let at = random.below(text.len());
    let byte = random.pick(b"0123456789-\t\n\r x");
    match random.below(6) {
        0 => text[at] = byte,
        1 => text.insert(at, byte),
        2 if text.len() > 1 => {
            text.remove(at);
        }
        3 => text.truncate(at + 1),
        4 => swap_lines(text, random),
        _ => text.extend_from_slice(line_at(text, at).as_slice()),
    }
}

fn swap_lines(text: &mut Vec<u8>, random: &mut Random) {
    let mut lines: Vec<_> = text.split_inclusive(|&byte| byte == b'\n').collect();
    let (a, b) = (random.below(lines.len()), random.below(lines.len()));
    lines.swap(a, b);
    *text = lines.concat();
}

fn line_at(text: &[u8], at: usize) -> Vec<u8> {
    let is_end = |&byte: &u8| byte == b'\n';
    let start = text[..at].iter().rposition(is_end).map_or(0, |end| end + 1);
    let end = text[at..]
        .iter()
        .position(is_end)
        .map_or(text.len(), |end| at + end + 1);
    text[start..end].to_vec()
}
