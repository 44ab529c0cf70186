//! The raw calls with arbitrary memory: short buffers, long ones, words that are no desk.

mod memory;

use clue_desk::{Desk, Place, DESK_WORDS};
use clue_desk::{BOXES_AT, ENDS_AT, ENTRIES_AT, NETS_AT, PORTS_AT};
use memory::{is_desk, Call, Memory, Random, Sizes};

/// A desk with a few records and undo entries.
fn used_desk() -> Desk {
    let mut desk = Desk::new();
    let text = b"box\t1\t0\t0\t5120\t5120\nport\t1\t0\t2560\t1\nnet\t1\nend\t1\t0\t2560\t1\nend\t1\t-5120\t9000\t0\n";
    desk.read_text(text).expect("the text is good");
    desk.add_box(2, Place::new(9_000, 0), Place::new(9_500, 700))
        .expect("it goes");
    desk.add_port(2, Place::new(9_000, 300), 15)
        .expect("it goes");
    desk.add_net(7).expect("it goes");
    desk.retire_end(1).expect("it goes");
    desk.undo().expect("it goes");
    desk
}

/// Every call, with arguments that go on the used desk.
fn calls() -> Vec<Call> {
    vec![
        Call::ReadText(b"net\t1\nnet\t2\n".to_vec()),
        Call::ReadText(b"net\t1\nnet\t1\n".to_vec()),
        Call::AddBox([3, 0, 0, 10, 10]),
        Call::AddPort([1, 5, 5, 3]),
        Call::AddNet(3),
        Call::AddEnd([7, 5, 5, 0]),
        Call::RetireBox(1),
        Call::RetirePort(0),
        Call::RetireNet(7),
        Call::RetireEnd(0),
        Call::Undo,
        Call::search(1, Place::new(0, 2_560), &[Place::new(-5_120, 9_000)]),
        Call::search(0, Place::new(0, 2_560), &[]),
        Call::Layout(1, 1),
        Call::Layout(0, 0),
    ]
}

#[test]
fn a_short_buffer_gets_1_and_nothing_changes() {
    let random = &mut Random::new(1);
    for call in calls() {
        for slice in call.slices() {
            for size in [0, 1, slice.least / 2, slice.least - 1] {
                for desk in [used_desk(), Desk::new()] {
                    let mut memory = Memory::arbitrary(random, &desk);
                    let before = memory.clone();
                    let sizes = Sizes::least().with(slice.name, size);
                    assert_eq!(
                        call.make(&mut memory, &sizes),
                        1,
                        "{call:?}: {slice:?} of {size}"
                    );
                    assert!(
                        memory == before,
                        "{call:?}: {slice:?} of {size} changed something"
                    );
                }
            }
        }
    }
}

#[test]
fn several_short_buffers_get_1_and_nothing_changes() {
    let random = &mut Random::new(2);
    for call in calls() {
        for _ in 0..50 {
            let mut sizes = Sizes::least();
            let slices = call.slices();
            for slice in &slices {
                sizes = sizes.with(slice.name, random.below(slice.least + memory::SPARE + 1));
            }
            if slices
                .iter()
                .all(|slice| sizes.of(slice.name) >= slice.least)
            {
                continue;
            }
            let mut memory = Memory::arbitrary(random, &used_desk());
            let before = memory.clone();
            assert_eq!(call.make(&mut memory, &sizes), 1, "{call:?}");
            assert!(memory == before, "{call:?} changed something");
        }
    }
}

/// All slices long enough, by any length that the memory has.
fn long_enough(call: &Call, random: &mut Random) -> Sizes {
    call.slices().iter().fold(Sizes::least(), |sizes, slice| {
        sizes.with(slice.name, slice.least + random.below(memory::SPARE + 1))
    })
}

#[test]
fn words_that_are_no_desk_get_2_and_zeros() {
    let random = &mut Random::new(3);
    for round in 0..60 {
        for call in calls() {
            let mut memory = Memory::arbitrary(random, &used_desk());
            match round % 3 {
                0 => memory.desk.fill_with(|| random.word()),
                1 => memory.desk.fill_with(|| random.word() % 40),
                _ => memory.desk[0] = 33 + random.word() % 4_000_000_000,
            }
            if matches!(call, Call::ReadText(_)) {
                continue;
            }
            assert!(!is_desk(&memory.desk));
            let before = memory.clone();
            let sizes = long_enough(&call, random);
            assert_eq!(call.make(&mut memory, &sizes), 2, "{call:?}");
            assert!(memory == before.with_zeros(&call, &sizes), "{call:?}");
        }
    }
}

/// One word of a desk is changed: every call says 2 exactly if the words are no desk any more.
#[test]
fn a_changed_word_is_seen_or_harmless() {
    let random = &mut Random::new(4);
    let (mut bad, mut good) = (0, 0);
    let desk = used_desk();
    let lists = [0, BOXES_AT, PORTS_AT, NETS_AT, ENDS_AT];
    let parts = [&lists[..], &[ENTRIES_AT, ENTRIES_AT + 22]].concat();
    for _ in 0..3_000 {
        let call = calls().swap_remove(random.below(calls().len()));
        let mut memory = Memory::arbitrary(random, &desk);
        let at = parts[random.below(parts.len())] + random.below(22);
        memory.desk[at] = match random.below(4) {
            0 => random.word() % 9,
            1 => memory.desk[at].wrapping_add(1),
            2 => memory.desk[at].wrapping_sub(1),
            _ => random.word(),
        };
        if matches!(call, Call::ReadText(_)) {
            continue;
        }
        let is_desk = is_desk(&memory.desk);
        let before = memory.clone();
        let sizes = long_enough(&call, random);
        let number = call.make(&mut memory, &sizes);
        if is_desk {
            good += 1;
            assert!(number != 1 && number != 16, "{call:?} got {number}");
            assert!(
                number == 0 || memory == before.with_zeros(&call, &sizes),
                "{call:?}"
            );
        } else {
            bad += 1;
            assert_eq!(number, 2, "{call:?} after a change at {at}");
            assert!(memory == before.with_zeros(&call, &sizes), "{call:?}");
        }
    }
    assert!(bad > 300 && good > 300, "{bad} bad, {good} good");
}

#[test]
fn reading_takes_any_words() {
    let random = &mut Random::new(5);
    let texts: [(&[u8], u32, [u32; 2]); 4] = [
        (b"", 0, [0, 0]),
        (b"box\t1\t0\t0\t9\t9\nnet\t5\nend\t5\t1\t2\t0\n", 0, [0, 0]),
        (b"net\t1\nnet\t1\n", 16, [2, 3]),
        (b"net\t1\nnet", 16, [2, 0]),
    ];
    for (text, number, told) in texts {
        let mut fresh = Desk::new();
        let _ = fresh.read_text(text);
        let expected = memory::records(fresh.words());
        for _ in 0..20 {
            let mut memory = Memory::arbitrary(random, &used_desk());
            memory.desk.fill_with(|| random.word());
            let call = Call::ReadText(text.to_vec());
            let sizes = long_enough(&call, random);
            let before = memory.clone().with_zeros(&call, &sizes);
            assert_eq!(call.make(&mut memory, &sizes), number);
            assert_eq!(memory.refusal[..2], told);
            assert_eq!(memory.refusal[2..], before.refusal[2..]);
            assert_eq!(memory.desk[0], 0, "no undo entries");
            assert_eq!(memory::records(&memory.desk), expected);
            assert!(is_desk(&memory.desk));
            assert_eq!(memory.desk[DESK_WORDS..], before.desk[DESK_WORDS..]);
        }
    }
}

#[test]
fn arguments_out_of_range_get_2_and_zeros() {
    const EDGE: i32 = 4_194_304;
    let origin = Place::new(0, 0);
    let mut bad = vec![
        Call::Layout(2, 0),
        Call::Layout(0, 2),
        Call::Layout(u32::MAX, u32::MAX),
        Call::search(2, origin, &[origin]),
        Call::search(1, Place::new(EDGE + 1, 0), &[origin]),
        Call::search(1, Place::new(0, -EDGE - 1), &[origin]),
        Call::search(1, Place::new(i32::MIN, i32::MAX), &[]),
        Call::search(1, origin, &[origin, Place::new(0, EDGE + 1)]),
        Call::search(1, origin, &[Place::new(-EDGE - 1, 0), origin]),
        Call::search(1, origin, &vec![origin; 4_097]),
        Call::Search(1, origin, vec![0, 0], vec![0]),
        Call::Search(1, origin, vec![], vec![0]),
        Call::AddBox([0, 0, 0, 0, 0]),
        Call::AddBox([9, 1, 0, 0, 0]),
        Call::AddPort([1, 0, 0, 16]),
        Call::AddEnd([1, 0, 0, 2]),
        Call::AddNet(0),
        Call::RetireBox(0),
        Call::RetireNet(0),
    ];
    bad.extend(
        [i32::MIN, -EDGE - 1, EDGE + 1, i32::MAX].map(|out| Call::AddEnd([1, out as u32, 0, 0])),
    );
    let random = &mut Random::new(6);
    for call in bad {
        let mut memory = Memory::arbitrary(random, &used_desk());
        let before = memory.clone();
        let sizes = long_enough(&call, random);
        assert_eq!(call.make(&mut memory, &sizes), 2, "{call:?}");
        assert!(memory == before.with_zeros(&call, &sizes), "{call:?}");
    }
}

/// What the outputs held before, and how much longer they are, has no say; all behind the answer is
/// zeros, and what is not lent stays.
#[test]
fn outputs_do_not_depend_on_what_they_held() {
    let random = &mut Random::new(7);
    for call in calls() {
        let mut plain = Memory::zeros(&used_desk());
        let number = call.make(&mut plain, &Sizes::least());
        for _ in 0..20 {
            let mut memory = Memory::arbitrary(random, &used_desk());
            let before = memory.clone();
            let sizes = long_enough(&call, random);
            assert_eq!(call.make(&mut memory, &sizes), number, "{call:?}");
            let expected = plain.clone().in_place_of(&before, &call, &sizes);
            for (name, is, owed) in memory.pairs(&expected) {
                assert!(is == owed, "{call:?} leaves other {name}");
            }
        }
    }
}
