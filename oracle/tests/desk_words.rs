//! A desk in words: where each word stands, and words and desk back and forth.

use oracle::desk::{Desk, Place};
use oracle::desk_words::{self, entry, Kind, DESK};
use oracle::random::Random;

#[test]
fn each_word_has_its_place() {
    let mut desk = Desk::default();
    desk.change(|lists| lists.add_box(7, Place::new(-1, 0), Place::new(1, 2)));
    desk.change(|lists| lists.add_port(7, Place::new(1, 0), 2));
    desk.change(|lists| lists.add_net(65_535));
    desk.change(|lists| lists.add_end(65_535, Place::new(4, -4), 1));
    desk.change(|lists| lists.add_end(65_535, Place::new(5, -5), 0));
    desk.change(|lists| lists.retire_end(0));
    let words = desk_words::words(&desk);
    const ORIGIN: u32 = 1 << 31;
    let mut expected = vec![0; 2_661];
    expected[0] = 6;
    expected[1..7].copy_from_slice(&[1, 7, ORIGIN - 1, ORIGIN, ORIGIN + 1, ORIGIN + 2]);
    expected[322..327].copy_from_slice(&[1, 7, ORIGIN + 1, ORIGIN, 2]);
    expected[1_347..1_349].copy_from_slice(&[1, 65_535]);
    expected[1_412..1_417].copy_from_slice(&[1, 65_535, ORIGIN + 5, ORIGIN - 5, 0]);
    let last = [7, 0, 65_535, ORIGIN + 4, ORIGIN - 4, 1];
    expected[2_437..2_443].copy_from_slice(&last);
    for (number, goes) in (1..).zip([3, 3, 2, 1, 0]) {
        expected[2_437 + 7 * number] = goes;
    }
    assert_eq!(words, expected);
    assert_eq!((entry(32), DESK), (2_661, 2_661));
    let counts = Kind::ALL.map(Kind::count);
    assert_eq!(counts, [1, 322, 1_347, 1_412]);
}

fn change(desk: &mut Desk, random: &mut Random) {
    let id = random.between(1, 5);
    let at = Place::new(random.between(-4, 4), random.between(-4, 4));
    match random.below(10) {
        0 | 1 => desk.change(|lists| lists.add_box(id, at, at)),
        2 | 3 => desk.change(|lists| lists.add_port(id, at, id)),
        4 => desk.change(|lists| lists.add_net(id)),
        5 => desk.change(|lists| lists.add_end(id, at, id % 2)),
        6 => desk.change(|lists| lists.retire_box(id)),
        7 => desk.change(|lists| lists.retire_port(id as usize)),
        8 => desk.change(|lists| lists.retire_net(id)),
        _ => desk.change(|lists| lists.retire_end(id as usize)),
    };
}

#[test]
fn the_words_of_a_desk_stand_for_it() {
    for seed in 0..200 {
        let random = &mut Random::new(seed);
        let mut desk = Desk::default();
        for _ in 0..random.between(0, 90) {
            change(&mut desk, random);
            let again = desk_words::desk(&desk_words::words(&desk));
            assert_eq!(again.as_ref(), Some(&desk), "seed {seed}");
        }
    }
}
