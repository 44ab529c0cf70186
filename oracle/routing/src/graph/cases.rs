//! Document 01's case of a box in the way, asked of the Rust's own function.

use super::*;

fn reaches(x2: Fixed) -> bool {
    let mut boxes = BoundingBoxList::default();
    let (mut horizontal, _) = boxes.build();
    horizontal.push(Segment {
        start_inclusive: fixed!(-10),
        end_inclusive: fixed!(10),
        value: HorizontalBoundingBox {
            id: Entity::from_raw(1),
            min_x: fixed!(90),
            max_x: fixed!(110),
        },
    });
    drop(horizontal);
    let bearing = boxes.iter_containing_horizontal(fixed!(0));
    points_have_horizontal_sightline(bearing, fixed!(0), x2, Entity::PLACEHOLDER)
}

#[test]
fn a_padded_edge_blocks_and_one_step_less_is_clear() {
    assert!(!reaches(fixed!(90)));
    assert!(reaches(fixed!(90) - Fixed::EPSILON));
}
