//! Numbers, places and maps, from document 01's 'Numbers'.

use std::fmt;
use std::ops::{Add, AddAssign, Deref, DerefMut, Div, Mul, Neg, Sub};

/// A signed count of steps, 256 to the unit.
#[derive(Default, Debug, Clone, Copy, PartialEq, Eq, PartialOrd, Ord, Hash)]
pub struct Fixed(i64);

impl Fixed {
    pub const EPSILON: Self = Self(1);
    pub const MIN: Self = Self(i64::MIN);
    const STEPS: i64 = 256;

    pub const fn from_steps(steps: i64) -> Self {
        Self(steps)
    }

    pub const fn steps(self) -> i64 {
        self.0
    }

    pub const fn from_units(units: f64) -> Self {
        Self((units * Self::STEPS as f64) as i64)
    }

    pub const fn from_u16(units: u16) -> Self {
        Self(units as i64 * Self::STEPS)
    }

    pub const fn abs(self) -> Self {
        Self(self.0.abs())
    }

    pub fn sqr(self) -> Self {
        self * self
    }
}

macro_rules! fixed {
    ($units:literal) => {
        $crate::shims::digilogic_core::Fixed::from_units($units as f64)
    };
}

pub(crate) use fixed;

impl Add for Fixed {
    type Output = Self;

    fn add(self, other: Self) -> Self {
        Self(self.0 + other.0)
    }
}

impl AddAssign for Fixed {
    fn add_assign(&mut self, other: Self) {
        *self = *self + other;
    }
}

impl Sub for Fixed {
    type Output = Self;

    fn sub(self, other: Self) -> Self {
        Self(self.0 - other.0)
    }
}

impl Neg for Fixed {
    type Output = Self;

    fn neg(self) -> Self {
        Self(-self.0)
    }
}

impl Mul for Fixed {
    type Output = Self;

    /// floor(a × b / 256)
    fn mul(self, other: Self) -> Self {
        Self((self.0 * other.0).div_euclid(Self::STEPS))
    }
}

impl Div for Fixed {
    type Output = Self;

    /// floor(a × 256 / b), used on non-negatives
    fn div(self, other: Self) -> Self {
        debug_assert!(self.0 >= 0 && other.0 > 0);
        Self(self.0 * Self::STEPS / other.0)
    }
}

impl fmt::Display for Fixed {
    fn fmt(&self, f: &mut fmt::Formatter<'_>) -> fmt::Result {
        (self.0 as f64 / Self::STEPS as f64).fmt(f)
    }
}

pub type HashSet<T> = std::collections::HashSet<T, super::ahash::RandomState>;

type StdHashMap<K, V> = std::collections::HashMap<K, V, super::ahash::RandomState>;

/// A hash map that hands its entries out by rising key.
#[derive(Debug, Clone)]
pub struct HashMap<K, V>(StdHashMap<K, V>);

impl<K, V> Default for HashMap<K, V> {
    fn default() -> Self {
        Self(StdHashMap::default())
    }
}

impl<K, V> Deref for HashMap<K, V> {
    type Target = StdHashMap<K, V>;

    fn deref(&self) -> &Self::Target {
        &self.0
    }
}

impl<K, V> DerefMut for HashMap<K, V> {
    fn deref_mut(&mut self) -> &mut Self::Target {
        &mut self.0
    }
}

impl<K: Ord, V> IntoIterator for HashMap<K, V> {
    type Item = (K, V);
    type IntoIter = std::vec::IntoIter<(K, V)>;

    fn into_iter(self) -> Self::IntoIter {
        let mut entries: Vec<_> = self.0.into_iter().collect();
        entries.sort_unstable_by(|a, b| a.0.cmp(&b.0));
        if cfg!(feature = "falling_corridors") {
            entries.reverse();
        }
        entries.into_iter()
    }
}

impl<'a, K, V> IntoIterator for &'a HashMap<K, V> {
    type Item = (&'a K, &'a V);
    type IntoIter = std::collections::hash_map::Iter<'a, K, V>;

    fn into_iter(self) -> Self::IntoIter {
        self.0.iter()
    }
}

pub mod components {
    /// The relation of an entity to what it is a part of.
    pub struct Child;
}

pub mod transform {
    use super::Fixed;
    use std::ops::{Add, BitOrAssign, Deref, Mul, Neg, Sub};

    #[derive(Default, Debug, Clone, Copy, PartialEq, Eq, Hash)]
    pub struct Vec2 {
        pub x: Fixed,
        pub y: Fixed,
    }

    impl Vec2 {
        pub const fn splat(value: Fixed) -> Self {
            Self { x: value, y: value }
        }

        pub fn clamp(self, min: Self, max: Self) -> Self {
            Self {
                x: self.x.clamp(min.x, max.x),
                y: self.y.clamp(min.y, max.y),
            }
        }

        pub fn manhatten_distance_to(self, other: Self) -> Fixed {
            (self.x - other.x).abs() + (self.y - other.y).abs()
        }
    }

    impl Add for Vec2 {
        type Output = Self;

        fn add(self, other: Self) -> Self {
            Self {
                x: self.x + other.x,
                y: self.y + other.y,
            }
        }
    }

    impl Sub for Vec2 {
        type Output = Self;

        fn sub(self, other: Self) -> Self {
            self + -other
        }
    }

    impl Neg for Vec2 {
        type Output = Self;

        fn neg(self) -> Self {
            Self {
                x: -self.x,
                y: -self.y,
            }
        }
    }

    impl Mul<Fixed> for Vec2 {
        type Output = Self;

        fn mul(self, factor: Fixed) -> Self {
            Self {
                x: self.x * factor,
                y: self.y * factor,
            }
        }
    }

    #[derive(Debug, Clone, Copy, PartialEq, Eq)]
    pub enum Direction {
        NegX,
        PosX,
        NegY,
        PosY,
    }

    impl Direction {
        pub const ALL: [Self; 4] = [Self::NegX, Self::PosX, Self::NegY, Self::PosY];

        pub fn opposite(self) -> Self {
            match self {
                Self::NegX => Self::PosX,
                Self::PosX => Self::NegX,
                Self::NegY => Self::PosY,
                Self::PosY => Self::NegY,
            }
        }
    }

    /// A set of directions, as the sum of document 01's bits.
    #[derive(Default, Debug, Clone, Copy, PartialEq, Eq)]
    pub struct Directions(u8);

    impl Directions {
        pub const NEG_X: Self = Self(1);
        pub const POS_X: Self = Self(2);
        pub const NEG_Y: Self = Self(4);
        pub const POS_Y: Self = Self(8);
        pub const X: Self = Self(3);
        pub const Y: Self = Self(12);
        pub const ALL: Self = Self(15);

        pub const fn from_bits(bits: u8) -> Self {
            Self(bits)
        }

        pub const fn bits(self) -> u8 {
            self.0
        }

        pub const fn intersects(self, other: Self) -> bool {
            self.0 & other.0 != 0
        }

        pub const fn contains(self, other: Self) -> bool {
            self.0 & other.0 == other.0
        }
    }

    impl From<Direction> for Directions {
        fn from(direction: Direction) -> Self {
            match direction {
                Direction::NegX => Self::NEG_X,
                Direction::PosX => Self::POS_X,
                Direction::NegY => Self::NEG_Y,
                Direction::PosY => Self::POS_Y,
            }
        }
    }

    impl BitOrAssign for Directions {
        fn bitor_assign(&mut self, other: Self) {
            self.0 |= other.0;
        }
    }

    pub struct AbsoluteDirections(Directions);

    impl AbsoluteDirections {
        pub const fn new(directions: Directions) -> Self {
            Self(directions)
        }
    }

    impl Deref for AbsoluteDirections {
        type Target = Directions;

        fn deref(&self) -> &Directions {
            &self.0
        }
    }

    pub struct GlobalTransform {
        pub translation: Vec2,
    }

    impl GlobalTransform {
        pub const fn at(translation: Vec2) -> Self {
            Self { translation }
        }
    }

    #[derive(Clone, Copy)]
    pub struct AbsoluteBoundingBox {
        min: Vec2,
        max: Vec2,
    }

    impl AbsoluteBoundingBox {
        pub const fn new(min: Vec2, max: Vec2) -> Self {
            Self { min, max }
        }

        pub const fn min(&self) -> Vec2 {
            self.min
        }

        pub const fn max(&self) -> Vec2 {
            self.max
        }

        pub fn extrude(&self, amount: Vec2) -> Self {
            Self::new(self.min - amount, self.max + amount)
        }

        pub const fn corners(&self) -> [Vec2; 4] {
            let Self { min, max } = *self;
            [
                min,
                Vec2 { x: max.x, y: min.y },
                max,
                Vec2 { x: min.x, y: max.y },
            ]
        }
    }
}
