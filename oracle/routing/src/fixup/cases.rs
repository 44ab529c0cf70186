//! Document 01's cases of tracks and overlaps, asked of the Rust's own functions.

use super::*;

#[test]
fn tracks_move_by_spacings_to_both_sides() {
    let moves: Vec<_> = (0..5)
        .map(|track| track_offset(track) * MIN_WIRE_SPACING)
        .collect();
    assert_eq!(
        moves,
        [fixed!(0), fixed!(5), fixed!(-5), fixed!(10), fixed!(-10)]
    );
}

fn run(start_inclusive: Fixed, end_inclusive: Fixed) -> VertexPair {
    VertexPair {
        start_inclusive,
        end_inclusive,
        net: Entity::PLACEHOLDER,
        index: 0,
        track: 0,
    }
}

#[test]
fn runs_5_apart_overlap_and_5_and_a_step_do_not() {
    let first = run(fixed!(0), fixed!(10));
    let near = run(fixed!(15), fixed!(20));
    let far = run(fixed!(15) + Fixed::EPSILON, fixed!(20));
    assert!(first.overlaps(&near) && near.overlaps(&first));
    assert!(!first.overlaps(&far) && !far.overlaps(&first));
}
