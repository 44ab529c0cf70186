//! Entities: numbers, and one that stands for none.

pub mod entity {
    use std::fmt;

    #[derive(Debug, Clone, Copy, PartialEq, Eq, PartialOrd, Ord)]
    pub struct Entity(u32);

    impl Entity {
        pub const PLACEHOLDER: Self = Self(u32::MAX);

        pub const fn from_raw(number: u32) -> Self {
            Self(number)
        }
    }

    impl fmt::Display for Entity {
        fn fmt(&self, f: &mut fmt::Formatter<'_>) -> fmt::Result {
            self.0.fmt(f)
        }
    }
}

pub mod prelude {
    pub use super::entity::Entity;
    pub use macros::Component;
}
