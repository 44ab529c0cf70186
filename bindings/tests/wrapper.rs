//! The wrapper's own types: 01's cases by hand, its refusals, the example, threads and the stack.

use clue_desk::{
    BadLine, Desk, Direction, JunctionKind, NodeKind, Place, Refusal, Router, VertexKind,
};
use clue_desk::{BOXES, COPIES, DESK_WORDS, ENDS, NEG_X, NETS, PORTS, POS_X, STACK, VERTICES};
use clue_desk::{BOXES_AT, BOX_WORDS, ENDS_AT, END_WORDS, NETS_AT, NET_ID_WORDS};
use clue_desk::{ENTRIES_AT, ENTRY_WORDS, ORIGIN, PORTS_AT, PORT_WORDS, UNDO_ADD, UNDO_RETIRE};
use clue_desk::{GREATEST_COORDINATE, GREATEST_ID, KIND_BOX, KIND_END, KIND_NET, KIND_PORT};
use std::io::Write;
use std::process::{Command, Stdio};
use std::thread;

const UNIT: i32 = clue_desk::STEPS;

fn at(x: i32, y: i32) -> Place {
    Place::new(x * UNIT, y * UNIT)
}

/// 01's sample page.
fn sample() -> Desk {
    let mut desk = Desk::new();
    desk.add_net(1).expect("it goes");
    desk.add_end(1, Place::new(0, 0), 0).expect("it goes");
    desk.add_end(1, Place::new(2_560, 5_120), 0)
        .expect("it goes");
    desk
}

#[test]
fn the_sample_is_laid_out() {
    let desk = sample();
    let mut router = Router::new();
    let page = router.layout(&desk, true, true).expect("it is not crowded");
    let nets: Vec<_> = page.nets().collect();
    assert_eq!(nets.len(), 1);
    assert_eq!((nets[0].id(), nets[0].routed()), (1, Ok(())));
    let vertices: Vec<_> = nets[0]
        .vertices()
        .map(|v| (v.place.x, v.place.y, v.kind))
        .collect();
    let expected = [
        (0, 0, VertexKind::RootStart),
        (1_280, 0, VertexKind::Dummy),
        (1_280, 0, VertexKind::Dummy),
        (2_560, 0, VertexKind::Normal),
        (2_560, 5_120, VertexKind::End(None)),
    ];
    assert_eq!(vertices, expected);
    assert_eq!(nets[0].junctions().len(), 0);
}

#[test]
fn junctions_are_counted_in_their_net() {
    let mut desk = Desk::new();
    for (id, y) in [(5, 0), (9, 300)] {
        desk.add_net(id).expect("it goes");
        for end in [at(0, y), at(1_000, y), at(500, y + 10)] {
            desk.add_end(id, end, 0).expect("it goes");
        }
    }
    let mut router = Router::new();
    let page = router.layout(&desk, true, true).expect("it is not crowded");
    for net in page.nets() {
        let vertices: Vec<_> = net.vertices().collect();
        let junctions: Vec<_> = net.junctions().collect();
        assert_eq!(
            (vertices.len(), junctions.len()),
            (8, 1),
            "net {}",
            net.id()
        );
        let joining = vertices[junctions[0].joining];
        assert_eq!(joining.kind, VertexKind::End(Some(junctions[0].kind)));
        assert!(junctions[0].vertex < junctions[0].joining);
        assert_eq!(junctions[0].kind, JunctionKind::LineSegment);
    }
}

#[test]
fn a_search_hands_its_line_back() {
    let desk = sample();
    let mut router = Router::new();
    let line = router
        .search(&desk, true, Place::new(0, 0), &[Place::new(2_560, 5_120)])
        .expect("there is one");
    let nodes: Vec<_> = line
        .nodes()
        .map(|node| (node.place, node.kind, node.onward))
        .collect();
    let expected = [
        (Place::new(0, 0), NodeKind::Start, Some(Direction::PosX)),
        (
            Place::new(2_560, 0),
            NodeKind::Normal,
            Some(Direction::PosY),
        ),
        (Place::new(2_560, 5_120), NodeKind::End, None),
    ];
    assert_eq!(nodes, expected);
    assert_eq!(line.len(), 3);

    let start = Place::new(0, 0);
    let line = router
        .search(&desk, false, start, &[start])
        .expect("a line of one node is found");
    assert_eq!(
        line.nodes().map(|node| node.kind).collect::<Vec<_>>(),
        [NodeKind::End]
    );
}

#[test]
fn a_search_is_refused() {
    let desk = sample();
    let mut router = Router::new();
    let mut refused = |start, ends: &[Place]| router.search(&desk, true, start, ends).err();
    let (known, unknown) = (Place::new(0, 0), Place::new(1, 1));
    assert_eq!(refused(known, &[]), Some(Refusal::NoLine));
    assert_eq!(refused(unknown, &[]), Some(Refusal::StartUnknown));
    assert_eq!(refused(known, &[known, unknown]), Some(Refusal::EndUnknown));
    assert_eq!(
        refused(Place::new(i32::MIN, 0), &[known]),
        Some(Refusal::OutOfRange)
    );
    assert_eq!(
        refused(known, &vec![known; 4_097]),
        Some(Refusal::OutOfRange)
    );
}

#[test]
fn refused_nets_say_why() {
    let mut desk = Desk::new();
    let nets: [&[Place]; 3] = [
        &[],
        &[at(0, 0), at(20, 0), at(10, 0)],
        &[at(0, 90), at(20, 90)],
    ];
    for (id, ends) in (1..).zip(nets) {
        desk.add_net(id).expect("it goes");
        for &end in ends {
            desk.add_end(id, end, 0).expect("it goes");
        }
    }
    desk.add_net(4).expect("it goes");
    for x in [777, 778] {
        desk.add_end(4, at(x, 777), 1).expect("it goes");
    }
    let mut router = Router::new();
    let page = router.layout(&desk, true, true).expect("it is not crowded");
    let answers: Vec<_> = page.nets().map(|net| net.routed()).collect();
    let expected = [
        Err(Refusal::TooFewEndpoints),
        Err(Refusal::OneNodeLine),
        Ok(()),
        Err(Refusal::EndpointUnknown),
    ];
    assert_eq!(answers, expected);
    for net in page.nets().filter(|net| net.routed().is_err()) {
        assert_eq!((net.vertices().len(), net.junctions().len()), (0, 0));
    }
}

/// A box with two ports, a net with an end, and then a port, the end and the net retired.
fn changed() -> Desk {
    let mut desk = Desk::new();
    assert_eq!(desk.add_box(1, at(0, 0), at(20, 20)), Ok(()));
    assert_eq!(desk.add_port(1, at(0, 10), NEG_X), Ok(()));
    assert_eq!(desk.add_port(1, at(20, 10), NEG_X + POS_X), Ok(()));
    assert_eq!(desk.add_net(7), Ok(()));
    assert_eq!(desk.add_end(7, at(0, 10), 1), Ok(()));
    assert_eq!(desk.retire_box(1), Err(Refusal::InUse));
    assert_eq!(desk.retire_net(7), Err(Refusal::InUse));
    assert_eq!(desk.retire_port(0), Ok(()));
    assert_eq!(desk.retire_end(0), Ok(()));
    assert_eq!(desk.retire_net(7), Ok(()));
    desk
}

#[test]
fn changes_are_made_and_undone() {
    let mut desk = changed();
    assert_eq!(desk.copies(), 8);
    let text = "box\t1\t0\t0\t5120\t5120\nport\t1\t5120\t2560\t3\n";
    assert_eq!(desk.to_string(), text);
    assert_eq!(desk.undo(), Ok(()));
    assert_eq!(desk.nets().collect::<Vec<_>>(), [7]);
    assert_eq!(desk.undo(), Ok(()));
    let ends: Vec<_> = desk
        .ends()
        .map(|end| (end.net_id, end.at, end.mark))
        .collect();
    assert_eq!(ends, [(7, at(0, 10), 1)]);
    assert_eq!(desk.undo(), Ok(()));
    let directions: Vec<_> = desk.ports().map(|port| port.directions).collect();
    assert_eq!(directions, [NEG_X, NEG_X + POS_X]);
    let boxes: Vec<_> = desk.boxes().map(|b| (b.id, b.min, b.max)).collect();
    assert_eq!(boxes, [(1, at(0, 0), at(20, 20))]);
    for _ in 0..5 {
        assert_eq!(desk.undo(), Ok(()));
    }
    assert_eq!(
        (desk.undo(), desk.to_string().as_str()),
        (Err(Refusal::NothingToUndo), "")
    );
}

/// The words of a place.
fn steps(at: Place) -> [u32; 2] {
    [at.x, at.y].map(|step| (i64::from(step) + i64::from(ORIGIN)) as u32)
}

/// A list of the desk, read out of the words by its constants.
fn rows(desk: &Desk, at: usize, width: usize) -> Vec<&[u32]> {
    let (count, rows) = (desk.words()[at] as usize, &desk.words()[at + 1..]);
    rows[..count * width].chunks(width).collect()
}

/// The first words of an undo entry, read in the same way; the latest is 0.
fn entry(desk: &Desk, number: usize, words: usize) -> &[u32] {
    let at = ENTRIES_AT + number * ENTRY_WORDS;
    &desk.words()[at..][..words]
}

#[test]
fn the_words_hold_the_records() {
    let (min, max) = (-GREATEST_COORDINATE, GREATEST_COORDINATE);
    let (least, greatest) = (Place::new(min, -1), Place::new(0, max));
    let mut desk = Desk::new();
    for id in [7, GREATEST_ID] {
        desk.add_box(id, least, greatest).expect("it goes");
        desk.add_port(id, greatest, id % 16).expect("it goes");
        desk.add_net(id).expect("it goes");
        desk.add_end(id, least, 1).expect("it goes");
    }
    let ([x0, y0], [x1, y1]) = (steps(least), steps(greatest));
    assert_eq!((x0, y0), (ORIGIN - max as u32, ORIGIN - 1));
    let boxes = [[7, x0, y0, x1, y1], [GREATEST_ID, x0, y0, x1, y1]];
    let ports = [[7, x1, y1, 7], [GREATEST_ID, x1, y1, 15]];
    let ends = [[7, x0, y0, 1], [GREATEST_ID, x0, y0, 1]];
    assert_eq!(rows(&desk, BOXES_AT, BOX_WORDS), boxes);
    assert_eq!(rows(&desk, PORTS_AT, PORT_WORDS), ports);
    assert_eq!(rows(&desk, NETS_AT, NET_ID_WORDS), [[7], [GREATEST_ID]]);
    assert_eq!(rows(&desk, ENDS_AT, END_WORDS), ends);
    assert_eq!(desk.words()[0], 8);
    for (number, kind) in [KIND_END, KIND_NET, KIND_PORT, KIND_BOX].iter().enumerate() {
        assert_eq!(entry(&desk, number, 1), [UNDO_ADD + kind]);
        assert_eq!(entry(&desk, number + 4, 1), [UNDO_ADD + kind]);
    }
    desk.retire_port(1).expect("it goes");
    let port = [UNDO_RETIRE + KIND_PORT, 1, GREATEST_ID, x1, y1, 15];
    assert_eq!(entry(&desk, 0, port.len()), port);
}

#[test]
fn the_latest_undo_entry_is_in_the_words() {
    let mut desk = changed();
    desk.retire_port(0).expect("it goes");
    desk.retire_box(1).expect("it goes");
    let ([x0, y0], [x1, y1]) = (steps(at(0, 0)), steps(at(20, 20)));
    let [left, middle] = steps(at(0, 10));
    let [right, _] = steps(at(20, 10));
    let retired: [&[u32]; 6] = [
        &[UNDO_RETIRE + KIND_BOX, 0, 1, x0, y0, x1, y1],
        &[UNDO_RETIRE + KIND_PORT, 0, 1, right, middle, NEG_X + POS_X],
        &[UNDO_RETIRE + KIND_NET, 0, 7],
        &[UNDO_RETIRE + KIND_END, 0, 7, left, middle, 1],
        &[UNDO_RETIRE + KIND_PORT, 0, 1, left, middle, NEG_X],
        &[UNDO_ADD + KIND_END],
    ];
    for (number, words) in retired.into_iter().enumerate() {
        assert_eq!(desk.words()[0] as usize, desk.copies());
        assert_eq!(desk.copies(), 10 - number);
        assert_eq!(entry(&desk, 0, words.len()), words);
        desk.undo().expect("there is an entry");
    }
}

#[test]
fn kept_words_are_a_desk_again() {
    let mut desk = changed();
    let mut kept = desk.words().to_vec();
    let mut again = Desk::from_words(&kept).expect("they are a desk");
    while again.undo().is_ok() {
        desk.undo().expect("both have an entry");
        assert_eq!(again.words(), desk.words());
    }
    assert_eq!(desk.copies(), 0);

    let refused = |words: &[u32]| Desk::from_words(words).err();
    assert_eq!(refused(&kept[..DESK_WORDS - 1]), Some(Refusal::TooSmall));
    kept.push(5);
    assert_eq!(refused(&kept), None);
    kept[ENTRIES_AT] = UNDO_RETIRE + KIND_END + 1;
    assert_eq!(refused(&kept), Some(Refusal::OutOfRange));
    assert_eq!(refused(&[0; DESK_WORDS]), None);
}

#[test]
fn changes_are_refused() {
    let mut desk = changed();
    let words = desk.words().to_vec();
    assert_eq!(
        desk.add_box(1, at(0, 0), at(20, 20)),
        Err(Refusal::LiveAlready)
    );
    assert_eq!(
        desk.add_box(2, at(1, 0), at(0, 0)),
        Err(Refusal::OutOfRange)
    );
    assert_eq!(desk.add_port(2, at(0, 10), NEG_X), Err(Refusal::Unknown));
    assert_eq!(desk.add_port(1, at(0, 10), 16), Err(Refusal::OutOfRange));
    assert_eq!(desk.add_net(0), Err(Refusal::OutOfRange));
    assert_eq!(desk.add_end(7, at(0, 10), 1), Err(Refusal::Unknown));
    assert_eq!(desk.retire_box(2), Err(Refusal::Unknown));
    assert_eq!(desk.retire_box(0), Err(Refusal::OutOfRange));
    assert_eq!(desk.retire_net(0), Err(Refusal::OutOfRange));
    assert_eq!(desk.retire_net(GREATEST_ID), Err(Refusal::Unknown));
    assert_eq!(desk.retire_port(1), Err(Refusal::Unknown));
    assert_eq!(desk.retire_end(0), Err(Refusal::Unknown));
    assert_eq!(desk.words(), words);
}

/// Ids of which no two are told apart by their low 16 bits alone.
const LONG_IDS: [u32; 4] = [1, 65_537, 2_147_483_649, 4_294_901_761];

#[test]
fn long_ids_are_added_retired_and_undone() {
    let mut desk = Desk::new();
    for id in LONG_IDS {
        desk.add_box(id, at(40, 0), at(60, 20)).expect("it goes");
        desk.add_net(id).expect("it goes");
        desk.add_end(id, at(0, 0), 0).expect("it goes");
        desk.add_end(id, at(10, 20), 0).expect("it goes");
    }
    let (all, text) = (desk.words().to_vec(), desk.to_string());
    let mut router = Router::new();
    let page = router.layout(&desk, true, true).expect("it is not crowded");
    let listed: Vec<_> = page.nets().map(|net| (net.id(), net.routed())).collect();
    assert_eq!(listed, LONG_IDS.map(|id| (id, Ok(()))));

    for id in LONG_IDS {
        let again = desk.add_box(id, at(40, 0), at(60, 20));
        assert_eq!(again, Err(Refusal::LiveAlready));
        assert_eq!(desk.retire_net(id), Err(Refusal::InUse));
        desk.retire_box(id).expect("it has no port");
        assert_eq!(desk.boxes().len(), LONG_IDS.len() - 1);
        assert!(desk.boxes().all(|b| b.id != id));
        assert_eq!(desk.add_port(id, at(40, 10), 1), Err(Refusal::Unknown));
        desk.undo().expect("the box comes back");
        assert_eq!(desk.words()[..ENTRIES_AT], all[..ENTRIES_AT]);
    }
    let mut read = Desk::new();
    assert_eq!(read.read_text(text.as_bytes()), Ok(()));
    assert_eq!(read.to_string(), text);
}

#[test]
fn lists_and_pile_have_their_limits() {
    let mut desk = Desk::new();
    for id in 1..=BOXES as u32 {
        desk.add_box(id, at(0, 0), at(0, 0)).expect("it goes");
    }
    assert_eq!(desk.add_box(100, at(0, 0), at(0, 0)), Err(Refusal::Full));
    for _ in 0..PORTS {
        desk.add_port(1, at(0, 0), 0).expect("it goes");
    }
    assert_eq!(desk.add_port(1, at(0, 0), 0), Err(Refusal::Full));
    for id in 1..=NETS as u32 {
        desk.add_net(id).expect("it goes");
    }
    assert_eq!(desk.add_net(100), Err(Refusal::Full));
    for _ in 0..ENDS {
        desk.add_end(1, at(0, 0), 0).expect("it goes");
    }
    assert_eq!(desk.add_end(1, at(0, 0), 0), Err(Refusal::Full));
    for _ in 0..COPIES {
        desk.undo().expect("there is an entry");
    }
    assert_eq!(desk.undo(), Err(Refusal::NothingToUndo));
    assert_eq!(desk.ends().len(), ENDS - COPIES);
}

#[test]
fn texts_are_read_and_refused() {
    let mut desk = sample();
    assert_eq!(desk.read_text(b"box\t5\t0\t0\t9\t9\nnet\t2\n"), Ok(()));
    assert_eq!(
        (desk.boxes().len(), desk.nets().len(), desk.copies()),
        (1, 1, 0)
    );

    let refused = |line, inner| Err(BadLine { line, inner });
    assert_eq!(
        desk.read_text(b"net\t1\nnet\t1\n"),
        refused(2, Some(Refusal::LiveAlready))
    );
    assert_eq!(
        (desk.to_string().as_str(), desk.copies()),
        ("", 0),
        "a refused text empties the desk"
    );
    assert_eq!(desk.read_text(b"net\t1\nnet\t2"), refused(2, None));
    let bad = desk.read_text(b"\n").expect_err("no record has no word");
    assert_eq!((bad.number(), bad.line, bad.inner_number()), (16, 1, 0));
    assert_eq!(bad.to_string(), "line 1 is malformed");
    let bad = desk.read_text(b"net\t0\n").expect_err("0 is no id");
    assert!(
        bad.to_string().starts_with("line 1: a field out of range"),
        "{bad}"
    );

    let text = sample().to_string();
    desk.read_text(text.as_bytes())
        .expect("records written are read back");
    assert_eq!(desk.to_string(), text);
}

#[test]
fn refusals_have_01s_numbers() {
    for (number, refusal) in (1..).zip(Refusal::ALL) {
        assert_eq!(refusal.number(), number);
        assert_eq!(Refusal::of(number), Some(refusal));
        assert_eq!(
            refusal.to_string(),
            format!("{} ({number})", refusal.meaning())
        );
    }
    assert_eq!(Refusal::of(0), None);
    assert_eq!(Refusal::of(17), None);
    assert_eq!(Refusal::of(u32::MAX), None);
}

fn lay_out(arguments: &[&str], text: &[u8]) -> String {
    let mut example = Command::new(env!("CARGO"));
    example.args(["run", "--offline", "--quiet", "--example", "lay_out", "--"]);
    let mut child = example
        .args(arguments)
        .current_dir(env!("CARGO_MANIFEST_DIR"))
        .stdin(Stdio::piped())
        .stdout(Stdio::piped())
        .spawn()
        .expect("cargo runs");
    child
        .stdin
        .take()
        .expect("it is piped")
        .write_all(text)
        .expect("it is read");
    let output = child.wait_with_output().expect("it ends");
    assert!(output.status.success());
    String::from_utf8(output.stdout).expect("a listing is text")
}

#[test]
fn the_example_prints_what_wires_prints() {
    let text = "net\t1\nend\t1\t0\t0\t0\nend\t1\t2560\t5120\t0\n";
    let listing = "net\t1\t0\t5\t0\nv\t0\t0\t0\tR\nv\t1\t1280\t0\tD\nv\t2\t1280\t0\tD\nv\t3\t2560\t0\tN\nv\t4\t2560\t5120\tE\n";
    assert_eq!(lay_out(&[], text.as_bytes()), listing);
    assert_eq!(lay_out(&[], b""), "");
    assert_eq!(lay_out(&[], b"net\t1\nnet\t01\n"), "refused\t2\t0\n");
    assert_eq!(lay_out(&[], b"net\t1\nnet\t1\n"), "refused\t2\t3\n");

    let path = std::path::Path::new(env!("CARGO_TARGET_TMPDIR")).join("sample.page");
    std::fs::write(&path, text).expect("the folder takes it");
    assert_eq!(
        lay_out(&[path.to_str().expect("a plain path")], b""),
        listing
    );
}

/// 64 nets with a branch each: 512 vertices.
fn full_page() -> Desk {
    let mut desk = Desk::new();
    for net in 0..NETS as i32 {
        let id = net as u32 + 1;
        desk.add_net(id).expect("it goes");
        for end in [at(0, 40 * net), at(1_000, 40 * net), at(500, 40 * net + 10)] {
            desk.add_end(id, end, 0).expect("it goes");
        }
    }
    desk
}

#[test]
fn calls_keep_to_the_stack() {
    let run = |stack, work: fn()| {
        let thread = thread::Builder::new().stack_size(stack).spawn(work);
        let thread = thread.expect("there is room for a thread");
        thread.join().expect("it ends well");
    };
    run(STACK, || {
        let desk = full_page();
        let mut router = Router::new();
        for prune in [false, true] {
            let page = router
                .layout(&desk, prune, true)
                .expect("it is not crowded");
            assert_eq!(
                page.nets().map(|net| net.vertices().len()).sum::<usize>(),
                VERTICES
            );
            let search = router.search(&desk, prune, at(0, 0), &[at(1_000, 2_520)]);
            search.expect("there is a line");
        }
    });
    run(32 * 1024, || {
        let mut desk = full_page();
        desk.undo().expect("there is an entry");
        desk.read_text(b"net\t1\n").expect("it is good");
    });
}

#[test]
fn threads_do_not_meet() {
    let listing = |seed: i32| {
        let mut desk = Desk::new();
        for id in 1..=8 {
            desk.add_net(id).expect("it goes");
            for end in 0..4 {
                let (x, y) = (
                    id as i32 * 37 + end * 101 + seed,
                    end * 53 + id as i32 * 11 * seed,
                );
                desk.add_end(id, at(x, y), 0).expect("it goes");
            }
        }
        let mut router = Router::new();
        let page = router.layout(&desk, true, true).expect("it is not crowded");
        page.to_string()
    };
    let alone: Vec<_> = (0..8).map(listing).collect();
    let threads: Vec<_> = (0..8)
        .map(|seed| thread::spawn(move || listing(seed)))
        .collect();
    for (thread, alone) in threads.into_iter().zip(alone) {
        assert_eq!(thread.join().expect("it ends well"), alone);
    }

    let desk = sample();
    thread::scope(|scope| {
        for _ in 0..4 {
            scope.spawn(|| {
                let mut router = Router::new();
                let page = router.layout(&desk, true, true).expect("it is not crowded");
                assert_eq!(page.nets().len(), 1);
            });
        }
    });
}
