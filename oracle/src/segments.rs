//! Segments between two places, decided exactly.

use crate::desk::Place;

pub type Segment = (Place, Place);

/// On which side of the line through a segment a place is: -1 or 1, and 0 on the line.
fn side((a, b): Segment, at: Place) -> i64 {
    ((b.x - a.x) * (at.y - a.y) - (b.y - a.y) * (at.x - a.x)).signum()
}

/// Whether a place lies on a segment, its ends included.
pub fn lies_on(at: Place, (a, b): Segment) -> bool {
    side((a, b), at) == 0
        && (a.x.min(b.x)..=a.x.max(b.x)).contains(&at.x)
        && (a.y.min(b.y)..=a.y.max(b.y)).contains(&at.y)
}

/// Whether two segments have a place in common.
pub fn meet(one: Segment, two: Segment) -> bool {
    let ends_on = |(a, b), other| lies_on(a, other) || lies_on(b, other);
    let parts = |line, (a, b)| side(line, a) * side(line, b) < 0;
    ends_on(one, two) || ends_on(two, one) || (parts(one, two) && parts(two, one))
}

/// Whether a segment has a place inside a box, whose edges are not inside. A box without width or
/// height has no inside.
pub fn meets_inside((a, b): Segment, min: Place, max: Place) -> bool {
    let corners = [min, Place::new(min.x, max.y), max, Place::new(max.x, min.y)];
    let sides = corners.map(|corner| side((a, b), corner));
    (a == b || (sides.contains(&-1) && sides.contains(&1)))
        && (min.x < max.x && a.x.min(b.x) < max.x && min.x < a.x.max(b.x))
        && (min.y < max.y && a.y.min(b.y) < max.y && min.y < a.y.max(b.y))
}

/// Whether two axis-parallel segments share more than a place.
pub fn share_a_stretch((a, b): Segment, (c, d): Segment) -> bool {
    let level = [b, c, d].iter().all(|place| place.y == a.y);
    let upright = [b, c, d].iter().all(|place| place.x == a.x);
    (level && overlap((a.x, b.x), (c.x, d.x))) || (upright && overlap((a.y, b.y), (c.y, d.y)))
}

/// Whether two ranges share more than one number.
fn overlap((a, b): (i64, i64), (c, d): (i64, i64)) -> bool {
    a.min(b).max(c.min(d)) < a.max(b).min(c.max(d))
}
