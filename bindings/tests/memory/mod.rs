//! Lent memory of any size and content, and the raw calls on it.

use clue_desk::{raw, Desk, Place};
use clue_desk::{DESK_WORDS, JOINS_WORDS, LINE_NODES, NETS_WORDS, REFUSAL_WORDS, VERTICES};
use std::collections::HashMap;

/// A seeded source of words: SplitMix64.
pub struct Random(u64);

impl Random {
    pub fn new(seed: u64) -> Self {
        Self(seed)
    }

    pub fn word(&mut self) -> u32 {
        self.0 = self.0.wrapping_add(0x9E37_79B9_7F4A_7C15);
        let mut z = self.0;
        z = (z ^ (z >> 30)).wrapping_mul(0xBF58_476D_1CE4_E5B9);
        z = (z ^ (z >> 27)).wrapping_mul(0x94D0_49BB_1331_11EB);
        (z ^ (z >> 31)) as u32
    }

    pub fn below(&mut self, count: usize) -> usize {
        self.word() as usize % count
    }
}

/// Entries behind the size that a call asks for.
pub const SPARE: usize = 24;

pub const DESK: &str = "desk";

/// All outputs with the sizes that are asked for.
pub const OUTPUTS: [(&str, usize); 10] = [
    ("refusal", REFUSAL_WORDS),
    ("lx", LINE_NODES),
    ("ly", LINE_NODES),
    ("line kinds", LINE_NODES),
    ("dirs", LINE_NODES),
    ("nets", NETS_WORDS),
    ("x", VERTICES),
    ("y", VERTICES),
    ("kinds", VERTICES),
    ("joins", JOINS_WORDS),
];

/// A desk and every output, each with spare entries behind it. Outputs are kept as words.
#[derive(Clone, PartialEq, Eq)]
pub struct Memory {
    pub desk: Vec<u32>,
    pub refusal: Vec<u32>,
    pub outputs: HashMap<&'static str, Vec<u32>>,
}

/// How many entries of each slice are lent.
#[derive(Clone)]
pub struct Sizes(HashMap<&'static str, usize>);

impl Sizes {
    /// What is asked for, and no more.
    pub fn least() -> Self {
        let mut sizes = HashMap::from(OUTPUTS);
        sizes.insert(DESK, DESK_WORDS);
        Self(sizes)
    }

    pub fn with(mut self, name: &'static str, size: usize) -> Self {
        self.0.insert(name, size);
        self
    }

    pub fn of(&self, name: &str) -> usize {
        self.0[name]
    }
}

/// A slice that a call is lent and the least size of it.
#[derive(Debug, Clone, Copy)]
pub struct Slice {
    pub name: &'static str,
    pub least: usize,
}

#[derive(Debug, Clone)]
pub enum Call {
    ReadText(Vec<u8>),
    AddBox([u32; 5]),
    AddPort([u32; 4]),
    AddNet(u32),
    AddEnd([u32; 4]),
    RetireBox(u32),
    RetirePort(u32),
    RetireNet(u32),
    RetireEnd(u32),
    Undo,
    Search(u32, Place, Vec<i32>, Vec<i32>),
    Layout(u32, u32),
}

impl Memory {
    fn new(desk: &Desk, mut fill: impl FnMut() -> u32) -> Self {
        let mut words = desk.words().to_vec();
        words.extend((0..SPARE).map(|_| fill()));
        let mut outputs: HashMap<_, Vec<_>> = HashMap::new();
        for (name, size) in OUTPUTS {
            let bytes = name.ends_with("kinds") || name == "dirs";
            let entry = |word: u32| if bytes { word % 256 } else { word };
            let list = (0..size + SPARE).map(|_| entry(fill())).collect();
            outputs.insert(name, list);
        }
        let refusal = outputs.remove("refusal").expect("it is an output");
        Self {
            desk: words,
            refusal,
            outputs,
        }
    }

    /// A desk, and arbitrary entries in all outputs and behind the desk.
    pub fn arbitrary(random: &mut Random, desk: &Desk) -> Self {
        Self::new(desk, || random.word())
    }

    pub fn zeros(desk: &Desk) -> Self {
        Self::new(desk, || 0)
    }

    fn output(&mut self, name: &str) -> &mut Vec<u32> {
        match name {
            "refusal" => &mut self.refusal,
            _ => self.outputs.get_mut(name).expect("it is an output"),
        }
    }

    /// Zeros in what is lent of the call's outputs.
    pub fn with_zeros(mut self, call: &Call, sizes: &Sizes) -> Self {
        for Slice { name, .. } in call.outputs() {
            self.output(name)[..sizes.of(name)].fill(0);
        }
        self
    }

    /// What a call left here in just enough memory, as it stands in more memory: zeros behind the
    /// answer, and all that is not lent as it was before.
    pub fn in_place_of(mut self, before: &Self, call: &Call, sizes: &Sizes) -> Self {
        let mut whole = before.clone().with_zeros(call, sizes);
        whole.desk[..DESK_WORDS].copy_from_slice(&self.desk[..DESK_WORDS]);
        for Slice { name, least } in call.outputs() {
            let answer = self.output(name)[..least].to_vec();
            whole.output(name)[..least].copy_from_slice(&answer);
        }
        whole
    }

    /// Each slice beside another memory's.
    pub fn pairs<'a>(&'a self, other: &'a Self) -> Vec<(&'static str, &'a [u32], &'a [u32])> {
        let mut pairs: Vec<(_, &[u32], &[u32])> = vec![
            (DESK, &self.desk, &other.desk),
            ("refusal", &self.refusal, &other.refusal),
        ];
        for (name, list) in &self.outputs {
            pairs.push((name, list, &other.outputs[name]));
        }
        pairs
    }

    fn steps(&self, name: &str) -> Vec<i32> {
        self.outputs[name].iter().map(|&word| word as i32).collect()
    }

    fn bytes(&self, name: &str) -> Vec<u8> {
        self.outputs[name].iter().map(|&word| word as u8).collect()
    }

    fn put<T: Copy>(&mut self, name: &str, list: &[T], word: impl Fn(T) -> u32) {
        *self.output(name) = list.iter().map(|&entry| word(entry)).collect();
    }
}

impl Call {
    pub fn search(prune: u32, start: Place, ends: &[Place]) -> Self {
        let (ex, ey) = ends.iter().map(|end| (end.x, end.y)).unzip();
        Self::Search(prune, start, ex, ey)
    }

    /// The slices that have a least size.
    pub fn slices(&self) -> Vec<Slice> {
        let desk = Slice {
            name: DESK,
            least: DESK_WORDS,
        };
        std::iter::once(desk).chain(self.outputs()).collect()
    }

    pub fn outputs(&self) -> Vec<Slice> {
        let outputs = match self {
            Self::ReadText(_) => &OUTPUTS[..1],
            Self::Search(..) => &OUTPUTS[1..5],
            Self::Layout(..) => &OUTPUTS[5..],
            _ => &[],
        };
        let slice = |&(name, least)| Slice { name, least };
        outputs.iter().map(slice).collect()
    }

    /// Makes the call with as much of the memory as the sizes say; answers with its number.
    pub fn make(&self, memory: &mut Memory, sizes: &Sizes) -> u32 {
        let desk = memory.desk[..sizes.of(DESK)].as_mut_ptr();
        let size = sizes.of(DESK);
        let step = |word: u32| word as i32;
        // SAFETY: each pointer is that of a slice of at least the length beside it, and none overlap.
        unsafe {
            match self {
                Self::ReadText(text) => {
                    let refusal = &mut memory.refusal[..sizes.of("refusal")];
                    let (told, told_size) = (refusal.as_mut_ptr(), refusal.len());
                    raw::read_text(desk, size, text.as_ptr(), text.len(), told, told_size)
                }
                &Self::AddBox([id, x0, y0, x1, y1]) => {
                    raw::add_box(desk, size, id, step(x0), step(y0), step(x1), step(y1))
                }
                &Self::AddPort([id, x, y, directions]) => {
                    raw::add_port(desk, size, id, step(x), step(y), directions)
                }
                &Self::AddNet(id) => raw::add_net(desk, size, id),
                &Self::AddEnd([id, x, y, mark]) => {
                    raw::add_end(desk, size, id, step(x), step(y), mark)
                }
                &Self::RetireBox(id) => raw::retire_box(desk, size, id),
                &Self::RetirePort(at) => raw::retire_port(desk, size, at),
                &Self::RetireNet(id) => raw::retire_net(desk, size, id),
                &Self::RetireEnd(at) => raw::retire_end(desk, size, at),
                Self::Undo => raw::undo(desk, size),
                Self::Search(prune, start, ex, ey) => search(*prune, *start, ex, ey, memory, sizes),
                &Self::Layout(prune, separate) => layout(prune, separate, memory, sizes),
            }
        }
    }
}

unsafe fn search(
    prune: u32,
    start: Place,
    ex: &[i32],
    ey: &[i32],
    memory: &mut Memory,
    sizes: &Sizes,
) -> u32 {
    let (mut lx, mut ly) = (memory.steps("lx"), memory.steps("ly"));
    let (mut kinds, mut dirs) = (memory.bytes("line kinds"), memory.bytes("dirs"));
    let number = raw::search(
        memory.desk.as_ptr(),
        sizes.of(DESK),
        prune,
        start.x,
        start.y,
        ex.as_ptr(),
        ex.len(),
        ey.as_ptr(),
        ey.len(),
        lx.as_mut_ptr(),
        sizes.of("lx"),
        ly.as_mut_ptr(),
        sizes.of("ly"),
        kinds.as_mut_ptr(),
        sizes.of("line kinds"),
        dirs.as_mut_ptr(),
        sizes.of("dirs"),
    );
    memory.put("lx", &lx, |step| step as u32);
    memory.put("ly", &ly, |step| step as u32);
    memory.put("line kinds", &kinds, u32::from);
    memory.put("dirs", &dirs, u32::from);
    number
}

unsafe fn layout(prune: u32, separate: u32, memory: &mut Memory, sizes: &Sizes) -> u32 {
    let (mut x, mut y) = (memory.steps("x"), memory.steps("y"));
    let mut kinds = memory.bytes("kinds");
    let (mut nets, mut joins) = (
        memory.outputs["nets"].clone(),
        memory.outputs["joins"].clone(),
    );
    let number = raw::layout(
        memory.desk.as_ptr(),
        sizes.of(DESK),
        prune,
        separate,
        nets.as_mut_ptr(),
        sizes.of("nets"),
        x.as_mut_ptr(),
        sizes.of("x"),
        y.as_mut_ptr(),
        sizes.of("y"),
        kinds.as_mut_ptr(),
        sizes.of("kinds"),
        joins.as_mut_ptr(),
        sizes.of("joins"),
    );
    memory.put("x", &x, |step| step as u32);
    memory.put("y", &y, |step| step as u32);
    memory.put("kinds", &kinds, u32::from);
    memory.put("nets", &nets, |word| word);
    memory.put("joins", &joins, |word| word);
    number
}

// ---- what the words of a desk stand for, from 01 and the sizes alone

/// An area of a block: where it begins, the words of a row, the most rows.
const AREAS: [(usize, usize, usize); 4] =
    [(0, 5, 64), (321, 4, 256), (1_346, 1, 64), (1_411, 4, 256)];
const BLOCK: usize = 2_436;

fn rows(block: &[u32], (at, width, most): (usize, usize, usize)) -> Option<Vec<Vec<u32>>> {
    let count = block[at] as usize;
    let rows = (count <= most).then(|| &block[at + 1..][..count * width])?;
    Some(rows.chunks(width).map(<[u32]>::to_vec).collect())
}

/// The records of the lists now; none if a count is over its limit.
pub fn records(words: &[u32]) -> Option<Vec<Vec<Vec<u32>>>> {
    AREAS
        .map(|area| rows(&words[1..=BLOCK], area))
        .into_iter()
        .collect()
}

fn is_step(word: u32) -> bool {
    let step = i64::from(word) - (1 << 31);
    (-4_194_304..=4_194_304).contains(&step)
}

fn are_lists(block: &[u32]) -> bool {
    let lists: Option<Vec<_>> = AREAS.map(|area| rows(block, area)).into_iter().collect();
    let Some([boxes, ports, nets, ends]) = lists.as_deref() else {
        return false;
    };
    let is_id = |row: &[u32]| row[0] != 0;
    let are_distinct = |list: &[Vec<u32>]| {
        let mut ids: Vec<_> = list.iter().map(|row| row[0]).collect();
        ids.sort_unstable();
        ids.windows(2).all(|pair| pair[0] != pair[1])
    };
    let are_points = |list: &[Vec<u32>], owners: &[Vec<u32>], most: u32| {
        list.iter().all(|row| {
            is_id(row)
                && is_step(row[1])
                && is_step(row[2])
                && row[3] <= most
                && owners.iter().any(|owner| owner[0] == row[0])
        })
    };
    let are_boxes = boxes.iter().all(|row| {
        is_id(row)
            && row[1..].iter().all(|&word| is_step(word))
            && row[1] <= row[3]
            && row[2] <= row[4]
    });
    are_boxes
        && nets.iter().all(|row| is_id(row))
        && are_distinct(boxes)
        && are_distinct(nets)
        && are_points(ports, boxes, 15)
        && are_points(ends, nets, 1)
}

/// Undoes a change, if the entry applies: the last record of a kind goes (0 to 3), or a record comes back at its place (4 to 7).
fn take_entry(block: &mut [u32], entry: &[u32]) -> bool {
    let (area, width, most) = AREAS[entry[0] as usize % 4];
    let count = block[area] as usize;
    let place = entry[1] as usize;
    match entry[0] / 4 {
        0 if count > 0 => block[area] -= 1,
        1 if place <= count && count < most => {
            let at = area + 1 + place * width;
            block.copy_within(at..area + 1 + count * width, at + width);
            block[at..at + width].copy_from_slice(&entry[2..2 + width]);
            block[area] += 1;
        }
        _ => return false,
    }
    true
}

/// Whether words are a desk: the lists now keep 01's limits, and each undo entry, taken in turn, applies and leaves lists that
/// keep them.
pub fn is_desk(words: &[u32]) -> bool {
    let depth = words[0] as usize;
    let mut block = words[1..=BLOCK].to_vec();
    depth <= 32
        && are_lists(&block)
        && words[1 + BLOCK..]
            .chunks(7)
            .take(depth)
            .all(|entry| take_entry(&mut block, entry) && are_lists(&block))
}
