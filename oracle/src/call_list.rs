//! The fixed list of calls on a desk; docs/ORACLE.md describes its form.

mod handed;

use crate::desk::{Desk, Lists, Place, MAX_BOXES, MAX_ENDS, MAX_NETS, MAX_PORTS};
use crate::page_text::{self, push_line};
use crate::pages::{self, Kind, Numbers};
use crate::random::Random;

const READ: i64 = 0;
const REFUSED: i64 = 16;

/// One call on a desk, with its arguments as they are handed in.
#[derive(Debug, Clone)]
enum Call {
    Box(i64, Place, Place),
    Port(i64, Place, i64),
    Net(i64),
    End(i64, Place, i64),
    RetireBox(i64),
    RetirePort(i64),
    RetireNet(i64),
    RetireEnd(i64),
    Undo,
    Text(Vec<u8>),
}

impl Call {
    /// Its word in the list, and its arguments.
    fn line(&self) -> (&'static str, Vec<i64>) {
        match *self {
            Self::Box(id, min, max) => ("box", vec![id, min.x, min.y, max.x, max.y]),
            Self::Port(id, at, directions) => ("port", vec![id, at.x, at.y, directions]),
            Self::Net(id) => ("net", vec![id]),
            Self::End(id, at, mark) => ("end", vec![id, at.x, at.y, mark]),
            Self::RetireBox(id) => ("rbox", vec![id]),
            Self::RetirePort(place) => ("rport", vec![place]),
            Self::RetireNet(id) => ("rnet", vec![id]),
            Self::RetireEnd(place) => ("rend", vec![place]),
            Self::Undo => ("undo", vec![]),
            Self::Text(ref text) => ("text", vec![text.len() as i64]),
        }
    }

    /// Makes it; the answer's numbers.
    fn make(&self, desk: &mut Desk) -> Vec<i64> {
        let number = match *self {
            Self::Box(id, min, max) => desk.change(|lists| lists.add_box(id, min, max)),
            Self::Port(id, at, dirs) => desk.change(|lists| lists.add_port(id, at, dirs)),
            Self::Net(id) => desk.change(|lists| lists.add_net(id)),
            Self::End(id, at, mark) => desk.change(|lists| lists.add_end(id, at, mark)),
            Self::RetireBox(id) => desk.change(|lists| lists.retire_box(id)),
            Self::RetirePort(place) => desk.change(|lists| lists.retire_port(place as usize)),
            Self::RetireNet(id) => desk.change(|lists| lists.retire_net(id)),
            Self::RetireEnd(place) => desk.change(|lists| lists.retire_end(place as usize)),
            Self::Undo => desk.undo(),
            Self::Text(ref text) => return read(desk, text),
        };
        vec![number.into()]
    }
}

/// Reads a text; the number, the line and the inner number.
fn read(desk: &mut Desk, text: &[u8]) -> Vec<i64> {
    let (lists, answer) = match page_text::read(text) {
        Ok(lists) => (lists, vec![READ, 0, 0]),
        Err(refusal) => {
            let answer = vec![REFUSED, refusal.line as i64, refusal.inner.into()];
            (Lists::default(), answer)
        }
    };
    desk.replace(lists);
    answer
}

/// A desk, and the list of the calls on it so far.
#[derive(Default)]
struct Recorder {
    desk: Desk,
    list: Vec<u8>,
}

impl Recorder {
    /// Starts again with an empty desk.
    fn new_desk(&mut self) {
        self.desk = Desk::default();
        self.push("new", &[]);
    }

    /// Writes the records down.
    fn lists(&mut self) {
        let text = page_text::write(&self.desk.lists);
        self.push("lists", &[text.len() as i64]);
        self.list.extend_from_slice(text.as_bytes());
    }

    /// Makes a call on the desk, and writes it down with its answer.
    fn call(&mut self, call: Call) {
        let answer = call.make(&mut self.desk);
        self.answered(&call, answer);
    }

    fn answered(&mut self, call: &Call, answer: Vec<i64>) {
        let (word, fields) = call.line();
        self.push(word, &[fields, answer].concat());
        if let Call::Text(text) = call {
            self.list.extend_from_slice(text);
        }
    }

    /// Sets a word of the desk, past the book.
    fn word(&mut self, at: usize, word: u32) {
        self.push("word", &[at as i64, word.into()]);
    }

    fn calls(&mut self, calls: impl IntoIterator<Item = Call>) {
        for call in calls {
            self.call(call);
        }
    }

    fn push(&mut self, word: &str, fields: &[i64]) {
        let mut line = String::new();
        push_line(&mut line, word, fields);
        self.list.extend_from_slice(line.as_bytes());
    }
}

/// The fixed list.
pub fn fixed_list() -> Vec<u8> {
    let mut recorder = Recorder::default();
    for sequence in sequences() {
        recorder.new_desk();
        recorder.calls(sequence);
        recorder.lists();
    }
    for seed in 0..160 {
        let ids = if seed < 120 { SHORT_IDS } else { LONG_IDS };
        random_sequence(&mut recorder, &mut Random::new(seed), &ids);
    }
    for seed in 0..400 {
        let ids = if seed < 300 { SHORT_IDS } else { LONG_IDS };
        text_sequence(&mut recorder, &mut Random::new(seed), &ids);
    }
    handed::sequences(&mut recorder);
    recorder.list
}

/// A list of sequences from `count` seeds, for comparisons at scale.
pub fn generated_list(first: u64, count: u64) -> Vec<u8> {
    let mut recorder = Recorder::default();
    for seed in first..first + count {
        let ids = if seed % 4 < 3 { SHORT_IDS } else { LONG_IDS };
        random_sequence(&mut recorder, &mut Random::new(seed), &ids);
        text_sequence(&mut recorder, &mut Random::new(seed), &ids);
    }
    recorder.list
}

fn sequences() -> Vec<Vec<Call>> {
    vec![
        vec![Call::Undo],
        additions_and_undos(1, 2),
        additions_and_undos(32, 33),
        additions_and_undos(33, 33),
        additions_and_undos(40, 34),
        retirements_and_undos(),
        kept_order(),
        fields_out_of_range(),
        live_and_unknown(),
        in_use(),
        full_lists(),
        texts(),
        refused_texts(),
        undone_reference(),
        long_ids(),
    ]
}

const fn at(x: i64, y: i64) -> Place {
    Place::new(x, y)
}

fn small_box(id: i64) -> Call {
    Call::Box(id, at(10 * id, 0), at(10 * id + 5, 5))
}

fn undos(count: usize) -> impl Iterator<Item = Call> {
    std::iter::repeat_n(Call::Undo, count)
}

fn additions_and_undos(additions: i64, undone: usize) -> Vec<Call> {
    (1..=additions)
        .map(small_box)
        .chain(undos(undone))
        .collect()
}

/// Twenty additions and twenty retirements; the pile holds the last 32 of these changes.
fn retirements_and_undos() -> Vec<Call> {
    let additions = (1..=20).map(Call::Net);
    let retirements = (1..=20).rev().map(Call::RetireNet);
    additions.chain(retirements).chain(undos(33)).collect()
}

/// Retired from the middle, added last, undone into the old place.
fn kept_order() -> Vec<Call> {
    vec![
        small_box(3),
        small_box(1),
        small_box(2),
        Call::Port(1, at(1, 1), 1),
        Call::Port(2, at(2, 2), 2),
        Call::Port(3, at(3, 3), 4),
        Call::Port(1, at(1, 1), 1),
        Call::RetirePort(1),
        Call::RetirePort(1),
        Call::Port(3, at(7, 7), 8),
        Call::RetireBox(2),
        small_box(2),
        Call::Undo,
        Call::Undo,
        Call::Undo,
        Call::Undo,
        Call::Net(9),
        Call::Net(8),
        Call::End(8, at(0, 0), 0),
        Call::End(9, at(0, 0), 1),
        Call::End(8, at(4, 4), 0),
        Call::RetireEnd(0),
        Call::Undo,
        Call::RetireEnd(2),
        Call::RetireEnd(1),
        Call::RetireNet(9),
        Call::Net(9),
    ]
}

fn fields_out_of_range() -> Vec<Call> {
    const EDGE: i64 = 4_194_304;
    let mut calls = vec![
        Call::Box(1, at(-EDGE, -EDGE), at(EDGE, EDGE)),
        Call::Net(65_535),
    ];
    // Of these ids only 0 is out of range.
    for id in [0, 65_536, 4_294_967_295] {
        calls.extend([
            Call::Box(id, at(0, 0), at(0, 0)),
            Call::Port(id, at(0, 0), 0),
            Call::Net(id),
            Call::End(id, at(0, 0), 0),
            Call::RetireBox(id),
            Call::RetireNet(id),
        ]);
    }
    for out in [EDGE + 1, -EDGE - 1, i32::MAX.into(), i32::MIN.into()] {
        calls.extend([
            Call::Box(2, at(out, 0), at(EDGE, 0)),
            Call::Box(2, at(0, out), at(0, EDGE)),
            Call::Box(2, at(-EDGE, 0), at(out, 0)),
            Call::Box(2, at(0, -EDGE), at(0, out)),
            Call::Port(1, at(out, 0), 0),
            Call::Port(1, at(0, out), 0),
            Call::End(65_535, at(out, 0), 0),
            Call::End(65_535, at(0, out), 0),
        ]);
    }
    calls.extend([
        Call::Box(2, at(1, 0), at(0, 0)),
        Call::Box(2, at(0, 1), at(0, 0)),
        Call::Port(1, at(0, 0), 16),
        Call::Port(1, at(0, 0), 4_294_967_295),
        Call::End(65_535, at(0, 0), 2),
        Call::End(65_535, at(0, 0), 4_294_967_295),
        Call::Port(1, at(EDGE, -EDGE), 15),
        Call::End(65_535, at(-EDGE, EDGE), 1),
    ]);
    calls.extend(undos(5));
    calls
}

/// 3 and 4, after 2 where both hold.
fn live_and_unknown() -> Vec<Call> {
    vec![
        Call::Port(1, at(0, 0), 0),
        Call::End(1, at(0, 0), 0),
        Call::RetireBox(1),
        Call::RetireNet(1),
        Call::RetirePort(0),
        Call::RetireEnd(0),
        small_box(1),
        small_box(1),
        Call::Box(1, at(1, 1), at(0, 0)),
        Call::Net(1),
        Call::Net(1),
        Call::Port(2, at(0, 0), 0),
        Call::Port(2, at(0, 0), 16),
        Call::End(2, at(0, 0), 0),
        Call::End(2, at(0, 0), 2),
        Call::RetirePort(4_294_967_295),
        Call::RetireEnd(4_294_967_295),
        Call::RetireBox(2),
        Call::RetireNet(2),
        Call::RetireBox(1),
        Call::RetireBox(1),
        Call::Undo,
        Call::Undo,
        Call::RetireNet(1),
    ]
}

fn in_use() -> Vec<Call> {
    vec![
        small_box(1),
        Call::Port(1, at(0, 0), 15),
        Call::Net(7),
        Call::End(7, at(0, 0), 1),
        Call::RetireBox(1),
        Call::RetireNet(7),
        Call::RetirePort(1),
        Call::RetirePort(0),
        Call::RetireBox(1),
        Call::RetireEnd(1),
        Call::RetireEnd(0),
        Call::RetireNet(7),
        Call::Undo,
        Call::Undo,
        Call::RetireNet(7),
    ]
}

/// Each list filled, refused as full, and free again after a retirement.
fn full_lists() -> Vec<Call> {
    let mut calls: Vec<_> = (1..=MAX_BOXES as i64 + 1).map(small_box).collect();
    calls.extend(
        (0..=MAX_PORTS as i64).map(|port| Call::Port(1 + port % 64, at(port, -port), port % 16)),
    );
    calls.extend((1..=MAX_NETS as i64 + 1).map(Call::Net));
    calls.extend((0..=MAX_ENDS as i64).map(|end| Call::End(64 - end % 64, at(-end, end), end % 2)));
    calls.extend([
        small_box(64),
        Call::Box(65, at(1, 0), at(0, 0)),
        Call::Port(65, at(0, 0), 0),
        Call::Port(1, at(0, 0), 16),
        Call::Net(64),
        Call::Net(0),
        Call::End(65, at(0, 0), 0),
        Call::End(1, at(0, 0), 2),
        Call::RetirePort(256),
        Call::RetirePort(255),
        Call::Port(1, at(9, 9), 9),
        Call::Port(1, at(9, 9), 9),
        Call::RetireEnd(256),
        Call::RetireEnd(0),
        Call::End(1, at(9, 9), 1),
        Call::End(1, at(9, 9), 1),
        Call::RetireBox(64),
        Call::RetireNet(64),
    ]);
    calls.extend(undos(33));
    calls
}

/// A text read over a used desk empties lists and pile first.
fn texts() -> Vec<Call> {
    let text = |text: &str| Call::Text(text.into());
    vec![
        small_box(1),
        Call::Net(1),
        text("box\t5\t0\t0\t9\t9\nport\t5\t0\t4\t1\nnet\t2\nend\t2\t0\t4\t1\n"),
        Call::Undo,
        Call::RetireBox(1),
        Call::RetireBox(5),
        Call::RetirePort(0),
        Call::RetireBox(5),
        Call::Undo,
        Call::Undo,
        Call::Undo,
        Call::End(2, at(8, 8), 0),
        text(""),
        Call::Undo,
        Call::Net(2),
        text("net\t3\n"),
        text("net\t3\n"),
        Call::Net(3),
        Call::Net(4),
        Call::Undo,
        Call::Undo,
    ]
}

/// A refused text leaves an empty desk, whatever it was and wherever the fault stands.
fn refused_texts() -> Vec<Call> {
    let refused = |text: &str| {
        [
            Call::Net(7),
            Call::Text(text.into()),
            Call::Undo,
            Call::Net(7),
        ]
    };
    [
        "net\t1\nnet\t1\n",
        "net\t1\nnet\t2",
        "net\t1\nend\t1\t0\t0\t0\nend\t2\t0\t0\t0\n",
        "box\t1\t0\t0\t0\t0\nport\t1\t0\t0\t16\n",
        "\n",
        "net\t07\n",
    ]
    .into_iter()
    .flat_map(refused)
    .collect()
}

/// Undo takes back a box before a port could refer to it again.
fn undone_reference() -> Vec<Call> {
    vec![
        small_box(1),
        Call::Port(1, at(0, 0), 1),
        Call::Undo,
        Call::Undo,
        Call::Port(1, at(0, 0), 1),
        small_box(1),
        Call::Port(1, at(0, 0), 1),
        Call::RetirePort(0),
        Call::RetireBox(1),
        Call::Undo,
        Call::RetireBox(1),
        Call::Undo,
        Call::Undo,
        Call::RetireBox(1),
        Call::Undo,
        Call::Undo,
        Call::Undo,
    ]
}

/// The longest ids and ids that are alike in their low 16 or 31 bits: each added, in use, retired and
/// undone by itself.
fn long_ids() -> Vec<Call> {
    let ids = [1, 65_537, 2_147_483_649, 4_294_901_761, 4_294_967_295];
    let all = |call: fn(i64) -> Call| ids.map(call);
    let mut calls = Vec::new();
    calls.extend(all(|id| Call::Box(id, at(0, 0), at(5, 5))));
    calls.extend(all(|id| Call::Port(id, at(1, 2), id % 16)));
    calls.extend(all(Call::Net));
    calls.extend(all(|id| Call::End(id, at(1, 2), id % 2)));
    calls.extend(all(|id| Call::Box(id, at(0, 0), at(5, 5))));
    calls.extend(all(Call::Net));
    calls.extend(all(Call::RetireBox));
    calls.extend(all(Call::RetireNet));
    calls.extend([Call::RetirePort(4), Call::RetireEnd(4)]);
    calls.extend(all(Call::RetireBox));
    calls.extend(all(Call::RetireNet));
    calls.push(Call::Port(4_294_967_295, at(1, 2), 0));
    calls.push(Call::End(4_294_967_295, at(1, 2), 0));
    calls.extend(undos(3));
    calls.extend([
        Call::Undo,
        Call::RetireEnd(4),
        Call::RetireNet(4_294_967_295),
    ]);
    calls.extend([Call::Net(4_294_967_294), Call::Undo, Call::Undo]);
    calls
}

/// Ids of calls: few, some of them at and past document 01's limit, or alike in their low bits.
const SHORT_IDS: Ids = Ids {
    calls: [0, 1, 1, 2, 2, 3, 3, 4, 5, 65_535, 65_536],
    texts: Numbers::SHORT_IDS,
};
const LONG_IDS: Ids = Ids {
    calls: [
        0,
        1,
        1,
        65_537,
        65_537,
        2_147_483_648,
        2_147_483_649,
        4_294_901_761,
        4_294_967_294,
        4_294_967_295,
        4_294_967_295,
    ],
    texts: Numbers::LONG_IDS,
};

/// The ids of calls and those of texts.
struct Ids {
    calls: [i64; 11],
    texts: Numbers,
}

/// Some sixty calls on few ids, with runs of undos and now and then a text.
fn random_sequence(recorder: &mut Recorder, random: &mut Random, ids: &Ids) {
    recorder.new_desk();
    for _ in 0..random.between(20, 90) {
        let call = random_call(random, ids);
        let times = match call {
            Call::Undo if random.percent(15) => random.between(2, 34),
            _ => 1,
        };
        for _ in 0..times {
            recorder.call(call.clone());
        }
    }
    recorder.lists();
}

/// Some eight short texts, most of them followed by an undo, with a few calls between them and the
/// lists written down now and then.
fn text_sequence(recorder: &mut Recorder, random: &mut Random, ids: &Ids) {
    recorder.new_desk();
    for _ in 0..random.between(4, 12) {
        recorder.call(Call::Text(pages::short(random, &ids.texts)));
        if random.percent(25) {
            recorder.lists();
        }
        if random.percent(70) {
            recorder.call(Call::Undo);
        }
        for _ in 0..random.pick(&[0, 1, 3, 6]) {
            recorder.call(random_call(random, ids));
        }
    }
    recorder.lists();
}

fn random_call(random: &mut Random, ids: &Ids) -> Call {
    let id = random.pick(&ids.calls);
    let place = at(random.between(-4, 4), random.between(-4, 4));
    let list_place = random.pick(&[0, 0, 1, 2, 3, 9]);
    match random.below(100) {
        0..=15 => Call::Box(id, place, at(place.x + random.between(-1, 9), place.y + 3)),
        16..=31 => Call::Port(id, place, random.between(0, 16)),
        32..=44 => Call::Net(id),
        45..=60 => Call::End(id, place, random.between(0, 2)),
        61..=66 => Call::RetireBox(id),
        67..=72 => Call::RetirePort(list_place),
        73..=78 => Call::RetireNet(id),
        79..=84 => Call::RetireEnd(list_place),
        85..=97 => Call::Undo,
        _ => random_text(random),
    }
}

fn random_text(random: &mut Random) -> Call {
    let kind = random.pick(&[Kind::Dense, Kind::Damaged]);
    Call::Text(pages::page(kind, random.between(0, 999) as u64))
}
