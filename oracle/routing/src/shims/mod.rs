//! The crates that the five files use, as far as they use them.

pub mod aery;
pub mod ahash;
pub mod bevy_ecs;
pub mod bevy_log;
pub mod digilogic_core;
pub mod priority_queue;
pub mod smallvec;

pub mod serde {
    pub use macros::{Deserialize, Serialize};
}

pub mod tracing {
    pub use macros::instrument;
}
