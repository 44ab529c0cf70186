//! Desks that are handed in with words of the caller's: each kind of bad undo entry, bad lists, and
//! words that say nothing.

use super::{at, small_box, undos, Call, Recorder};
use crate::desk::{Desk, COORDINATES, IDS, MAX_COPIES, OUT_OF_RANGE};
use crate::desk_words::{self, entry, Kind, DEPTH, DESK, ORIGIN, PLACE, ROW};
use crate::page_text;

/// The first words of entries are below this.
const ENTRIES: u32 = 2 * Kind::ALL.len() as u32;

const GREATEST_ID: u32 = *IDS.end() as u32;

/// The words of the least and the greatest coordinate.
const LEAST: u32 = (ORIGIN + *COORDINATES.start()) as u32;
const GREATEST: u32 = (ORIGIN + *COORDINATES.end()) as u32;

/// Ids and places that no desk of these cases has.
const NEW: i64 = 900;
const UNKNOWN: i64 = 901;

/// Calls that make a desk, and the words that are set on it then.
struct Case {
    calls: Vec<Call>,
    set: Vec<(usize, u32)>,
}

impl Case {
    fn new(calls: Vec<Call>, set: impl Into<Vec<(usize, u32)>>) -> Self {
        Self {
            calls,
            set: set.into(),
        }
    }
}

pub(super) fn sequences(recorder: &mut Recorder) {
    for case in harmless() {
        taken(recorder, case);
    }
    for case in bad() {
        refused(recorder, case);
    }
    read_over(recorder);
}

/// Words that still make a desk, perhaps another one: the calls go by it.
fn taken(recorder: &mut Recorder, case: Case) {
    let mut words = made(recorder, case.calls);
    for (at, word) in case.set {
        recorder.word(at, word);
        words[at] = word;
    }
    recorder.desk = desk_words::desk(&words).expect("the words are a desk");
    as_the_book(recorder);
}

/// Words of which the last makes that they are no desk: every call gets 2, and nothing else once
/// they are set back.
fn refused(recorder: &mut Recorder, case: Case) {
    let words = made(recorder, case.calls);
    let mut handed = words.clone();
    for &(at, word) in &case.set {
        assert!(desk_words::desk(&handed).is_some(), "the last word tells");
        recorder.word(at, word);
        handed[at] = word;
    }
    assert!(desk_words::desk(&handed).is_none(), "no desk has them");
    for call in every_call() {
        recorder.answered(&call, vec![OUT_OF_RANGE.into()]);
    }
    for (at, _) in case.set {
        recorder.word(at, words[at]);
    }
    as_the_book(recorder);
}

/// A new desk after some calls, as words.
fn made(recorder: &mut Recorder, calls: Vec<Call>) -> Vec<u32> {
    recorder.new_desk();
    recorder.calls(calls);
    let words = desk_words::words(&recorder.desk);
    let again = desk_words::desk(&words);
    assert_eq!(again.as_ref(), Some(&recorder.desk), "the words are its");
    words
}

fn every_call() -> [Call; 9] {
    [
        small_box(NEW),
        Call::Port(1, at(0, 0), 0),
        Call::Net(NEW),
        Call::End(1, at(0, 0), 0),
        Call::RetireBox(2),
        Call::RetirePort(0),
        Call::RetireNet(2),
        Call::RetireEnd(0),
        Call::Undo,
    ]
}

/// The lists; refused calls, and done ones with their undos if the pile has room; then undos to the
/// pile's bottom.
fn as_the_book(recorder: &mut Recorder) {
    recorder.lists();
    recorder.calls([
        Call::Port(UNKNOWN, at(0, 0), 0),
        Call::End(UNKNOWN, at(0, 0), 0),
        Call::RetireBox(UNKNOWN),
        Call::RetireEnd(UNKNOWN),
    ]);
    let changes = [
        small_box(NEW),
        Call::Net(NEW),
        Call::RetireBox(NEW),
        Call::RetireNet(NEW),
    ];
    let depth = recorder.desk.pile.len();
    if depth + changes.len() <= MAX_COPIES {
        recorder.calls(changes);
        recorder.calls(undos(recorder.desk.pile.len() - depth));
    }
    recorder.call(Call::Undo);
    recorder.lists();
    recorder.calls(undos(depth));
    recorder.lists();
}

/// Two records of each kind. Nothing belongs to the second box and the second net.
fn records() -> Vec<Call> {
    vec![
        small_box(1),
        small_box(2),
        Call::Port(1, at(10, 2), 1),
        Call::Port(1, at(15, 3), 2),
        Call::Net(1),
        Call::Net(2),
        Call::End(1, at(10, 2), 1),
        Call::End(1, at(-7, 7), 0),
    ]
}

/// The words of the second box's greatest corner.
const GREATEST_CORNER: [u32; 2] = [ORIGIN as u32 + 25, ORIGIN as u32 + 5];

/// The records that additions leave, as a text: they are there, and no entry takes them out.
fn read(additions: Vec<Call>) -> Call {
    let mut desk = Desk::default();
    for addition in additions {
        addition.make(&mut desk);
    }
    Call::Text(page_text::write(&desk.lists).into_bytes())
}

/// One entry, which takes the last record of a kind out.
fn added(kind: Kind) -> Vec<Call> {
    let addition = match kind {
        Kind::Box => small_box(3),
        Kind::Port => Call::Port(1, at(11, 5), 4),
        Kind::Net => Call::Net(3),
        Kind::End => Call::End(1, at(8, 8), 0),
    };
    vec![read(records()), addition]
}

/// One entry, which brings the second record of a kind back, at place 1 behind the first.
fn retired(kind: Kind) -> Vec<Call> {
    let retirement = match kind {
        Kind::Box => Call::RetireBox(2),
        Kind::Port => Call::RetirePort(1),
        Kind::Net => Call::RetireNet(2),
        Kind::End => Call::RetireEnd(1),
    };
    vec![read(records()), retirement]
}

fn bad() -> Vec<Case> {
    [
        no_entries(),
        additions_of_nothing(),
        additions_in_use(),
        places_past_the_list(),
        ids_live_or_unknown(),
        fields_out_of_range(),
        full_lists(),
        not_the_latest(),
        only_before_another(),
        depths(),
        bad_lists(),
    ]
    .into_iter()
    .flatten()
    .collect()
}

/// First words that no entry has, in the place of each that one has.
fn no_entries() -> Vec<Case> {
    let desks = Kind::ALL
        .into_iter()
        .flat_map(|kind| [added(kind), retired(kind)]);
    let words = (ENTRIES..ENTRIES + 4).chain([u32::MAX]);
    let cases = desks.flat_map(|calls| {
        let case = move |word| Case::new(calls.clone(), [(entry(0), word)]);
        words.clone().map(case)
    });
    cases.collect()
}

/// The addition of a record that is not there: its list is empty from the start, or after the entry
/// before.
fn additions_of_nothing() -> Vec<Case> {
    let never = |kind| match kind {
        Kind::Net => vec![small_box(1)],
        _ => vec![Call::Net(1)],
    };
    let once = |kind| match kind {
        Kind::Box => vec![small_box(1), Call::Net(1)],
        Kind::Port => vec![small_box(1), Call::Port(1, at(0, 0), 1), Call::Net(1)],
        Kind::Net => vec![Call::Net(1), small_box(1)],
        Kind::End => vec![Call::Net(1), Call::End(1, at(0, 0), 1), small_box(1)],
    };
    let cases = Kind::ALL.into_iter().flat_map(|kind| {
        [never(kind), once(kind)].map(|calls| Case::new(calls, [(entry(0), kind.goes())]))
    });
    cases.collect()
}

/// The addition of a box that has a port, and of a net that has an end; a box and a net are left for
/// the entries behind.
fn additions_in_use() -> Vec<Case> {
    let of_a_box = vec![
        read(vec![small_box(1)]),
        small_box(2),
        Call::Port(2, at(0, 0), 1),
    ];
    let of_a_net = vec![
        read(vec![Call::Net(1)]),
        Call::Net(2),
        Call::End(2, at(0, 0), 1),
    ];
    vec![
        Case::new(of_a_box, [(entry(0), Kind::Box.goes())]),
        Case::new(of_a_net, [(entry(0), Kind::Net.goes())]),
    ]
}

/// A record that comes back past its list's end.
fn places_past_the_list() -> Vec<Case> {
    let cases = Kind::ALL.into_iter().flat_map(|kind| {
        [2, u32::MAX].map(|place| Case::new(retired(kind), [(entry(0) + PLACE, place)]))
    });
    cases.collect()
}

/// A box or net that comes back beside its like, and a port or end whose box or net is not there.
fn ids_live_or_unknown() -> Vec<Case> {
    let ids = [
        (Kind::Box, 1),
        (Kind::Net, 1),
        (Kind::Port, 3),
        (Kind::End, 3),
    ];
    ids.map(|(kind, id)| Case::new(retired(kind), [(entry(0) + ROW, id)]))
        .into()
}

/// Each field of a record that comes back, past its range; boxes with least above greatest.
fn fields_out_of_range() -> Vec<Case> {
    const NO_IDS: [u32; 1] = [0];
    const NO_STEPS: [u32; 4] = [LEAST - 1, GREATEST + 1, 0, u32::MAX];
    let fields: [(Kind, usize, &[u32]); 16] = [
        (Kind::Box, 0, &NO_IDS),
        (Kind::Box, 1, &NO_STEPS),
        (Kind::Box, 2, &NO_STEPS),
        (Kind::Box, 3, &NO_STEPS),
        (Kind::Box, 4, &NO_STEPS),
        (Kind::Box, 1, &[GREATEST_CORNER[0] + 1]),
        (Kind::Box, 2, &[GREATEST_CORNER[1] + 1]),
        (Kind::Port, 0, &NO_IDS),
        (Kind::Port, 1, &NO_STEPS),
        (Kind::Port, 2, &NO_STEPS),
        (Kind::Port, 3, &[16, u32::MAX]),
        (Kind::Net, 0, &NO_IDS),
        (Kind::End, 0, &NO_IDS),
        (Kind::End, 1, &NO_STEPS),
        (Kind::End, 2, &NO_STEPS),
        (Kind::End, 3, &[2, u32::MAX]),
    ];
    let cases = fields.into_iter().flat_map(|(kind, field, words)| {
        let case = move |&word| Case::new(retired(kind), [(entry(0) + ROW + field, word)]);
        words.iter().map(case)
    });
    cases.collect()
}

/// A record that comes back into a full list: one was retired and one added, and the addition's
/// entry is made one of another kind.
fn full_lists() -> Vec<Case> {
    let case = |kind: Kind| {
        let (retirement, addition) = match kind {
            Kind::Box => (Call::RetireBox(1), small_box(NEW)),
            Kind::Port => (Call::RetirePort(0), Call::Port(1, at(0, 0), 0)),
            Kind::Net => (Call::RetireNet(1), Call::Net(NEW)),
            Kind::End => (Call::RetireEnd(0), Call::End(1, at(0, 0), 0)),
        };
        let other = match kind {
            Kind::Net | Kind::End => Kind::Box,
            Kind::Box | Kind::Port => Kind::Net,
        };
        let calls = vec![Call::Text(full(kind)), retirement, addition];
        Case::new(calls, [(entry(0), other.goes())])
    };
    Kind::ALL.map(case).into()
}

/// A text that fills a kind's list, with a box and a net.
fn full(kind: Kind) -> Vec<u8> {
    let line = |number: usize| match kind {
        Kind::Box => format!("box\t{number}\t0\t0\t0\t0\n"),
        Kind::Port => format!("port\t1\t{number}\t0\t0\n"),
        Kind::Net => format!("net\t{number}\n"),
        Kind::End => format!("end\t1\t{number}\t0\t0\n"),
    };
    let owners = match kind {
        Kind::Box => "net\t1\n",
        Kind::Net => "box\t1\t0\t0\t0\t0\n",
        Kind::Port | Kind::End => "box\t1\t0\t0\t0\t0\nnet\t1\n",
    };
    let lines: String = (1..=kind.most()).map(line).collect();
    [owners, &lines].concat().into_bytes()
}

/// More additions than the pile holds.
fn full_pile() -> Vec<Call> {
    (1..=MAX_COPIES as i64 + 8).map(small_box).collect()
}

/// An entry of a full pile that is no entry, or the addition of a net that is not there.
fn not_the_latest() -> Vec<Case> {
    let words = [ENTRIES, Kind::Net.goes()];
    let cases = [1, MAX_COPIES / 2, MAX_COPIES - 1]
        .into_iter()
        .flat_map(|number| words.map(|word| Case::new(full_pile(), [(entry(number), word)])));
    cases.collect()
}

/// The second entry of two applies to the lists now, but not after the first.
fn only_before_another() -> Vec<Case> {
    let boxes = || read((1..=3).map(small_box).collect());
    let port = Call::Port(1, at(0, 0), 1);
    let end = Call::End(1, at(0, 0), 1);
    let port = read(vec![small_box(1), port]);
    let end = read(vec![Call::Net(1), end]);
    let goes = |kind: Kind| (entry(0), kind.goes());
    let cases = [
        // The last box goes, and the third one's place with it.
        (boxes(), Call::RetireBox(3), Call::Net(1), goes(Kind::Box)),
        // A box with the same id comes back first.
        (
            boxes(),
            Call::RetireBox(1),
            Call::RetireBox(2),
            (entry(0) + ROW, 1),
        ),
        // The port's box, the end's net goes.
        (port, Call::RetirePort(0), Call::Net(1), goes(Kind::Box)),
        (end, Call::RetireEnd(0), small_box(1), goes(Kind::Net)),
    ];
    cases
        .map(|(text, second, first, set)| Case::new(vec![text, second, first], [set]))
        .into()
}

/// A depth past the pile, and one that counts an entry behind the pile that is none.
fn depths() -> Vec<Case> {
    let depth = records().len();
    let behind = (entry(depth), ENTRIES);
    vec![
        Case::new(full_pile(), [(DEPTH, MAX_COPIES as u32 + 1)]),
        Case::new(full_pile(), [(DEPTH, u32::MAX)]),
        Case::new(records(), [behind, (DEPTH, depth as u32 + 1)]),
    ]
}

/// Lists now that no desk has, and a list to which the entries do not fit.
fn bad_lists() -> Vec<Case> {
    let field = |kind: Kind, field, word| (kind.row(1) + field, word);
    let counts = Kind::ALL.into_iter().flat_map(|kind| {
        let past = kind.most() as u32 + 1;
        [1, past, u32::MAX].map(|count| (kind.count(), count))
    });
    let fields = [
        field(Kind::Box, 0, 1),
        field(Kind::Box, 0, 0),
        field(Kind::Box, 3, LEAST),
        field(Kind::Box, 4, GREATEST + 1),
        field(Kind::Port, 0, 3),
        field(Kind::Port, 1, LEAST - 1),
        field(Kind::Port, 3, 16),
        field(Kind::Net, 0, 1),
        field(Kind::Net, 0, 0),
        field(Kind::End, 0, 3),
        field(Kind::End, 2, GREATEST + 1),
        field(Kind::End, 3, 2),
    ];
    let cases = counts.chain(fields);
    cases.map(|set| Case::new(records(), [set])).collect()
}

fn harmless() -> Vec<Case> {
    let mut cases = vec![
        Case::new(records(), filled(behind_all(2, records().len()))),
        Case::new(vec![], filled(Kind::ALL.into_iter().flat_map(first_row))),
        Case::new(vec![], filled(entry(0)..entry(2))),
        Case::new(records(), filled(unused(1))),
    ];
    let narrow = [Kind::Port, Kind::Net, Kind::End];
    cases.extend(narrow.map(|kind| Case::new(retired(kind), filled(unused(ROW + kind.width())))));
    cases.extend(at_the_limits());
    cases.extend(ids_alike());
    cases
}

fn filled(places: impl Iterator<Item = usize>) -> Vec<(usize, u32)> {
    places.map(|at| (at, u32::MAX)).collect()
}

/// All words behind as many records of each kind and as many entries.
fn behind_all(records: usize, depth: usize) -> impl Iterator<Item = usize> {
    let behind = move |kind: Kind| kind.row(records)..kind.row(kind.most());
    let lists = Kind::ALL.into_iter().flat_map(behind);
    lists.chain(entry(depth)..DESK)
}

fn first_row(kind: Kind) -> std::ops::Range<usize> {
    kind.row(0)..kind.row(1)
}

/// The words of the latest entry behind those that it uses.
fn unused(used: usize) -> std::ops::Range<usize> {
    entry(0) + used..entry(1)
}

/// The fields of a record that comes back at their limits, and its place at either end of the list.
fn at_the_limits() -> Vec<Case> {
    let field = |at, word| (entry(0) + ROW + at, word);
    let places = Kind::ALL.map(|kind| Case::new(retired(kind), [(entry(0) + PLACE, 0)]));
    let fields = [
        Case::new(
            retired(Kind::Box),
            [
                field(0, GREATEST_ID),
                field(1, LEAST),
                field(2, LEAST),
                field(3, GREATEST),
                field(4, GREATEST),
            ],
        ),
        Case::new(
            retired(Kind::Port),
            [
                field(0, 2),
                field(1, LEAST),
                field(2, GREATEST),
                field(3, 15),
            ],
        ),
        Case::new(retired(Kind::Net), [field(0, GREATEST_ID)]),
        Case::new(
            retired(Kind::End),
            [
                field(0, 2),
                field(1, GREATEST),
                field(2, LEAST),
                field(3, 1),
            ],
        ),
    ];
    places.into_iter().chain(fields).collect()
}

/// The second box, the second net, there or coming back, with an id that is alike to the first one's
/// in its low 16 or 31 bits.
fn ids_alike() -> Vec<Case> {
    let cases = [Kind::Box, Kind::Net].into_iter().flat_map(|kind| {
        [65_537, 2_147_483_649].into_iter().flat_map(move |id| {
            [
                Case::new(records(), [(kind.row(1), id)]),
                Case::new(retired(kind), [(entry(0) + ROW, id)]),
            ]
        })
    });
    cases.collect()
}

/// Reading takes any words.
fn read_over(recorder: &mut Recorder) {
    for at in [DEPTH, entry(0), Kind::Port.count()] {
        made(recorder, records());
        recorder.word(at, u32::MAX);
        recorder.call(Call::Text(b"box\t7\t0\t0\t9\t9\nnet\t7\n".to_vec()));
        as_the_book(recorder);
    }
}
