//! Relations between entities, walked in kept order.

use super::bevy_ecs::entity::Entity;

/// Rows that a relation can be joined with; an entity of another kind has none.
pub trait Rows {
    type Item<'a>
    where
        Self: 'a;

    fn row(&self, entity: Entity) -> Option<Self::Item<'_>>;
}

/// The rows of the related entities.
pub struct Joined<'a, 'q, Q> {
    entities: &'a [Entity],
    rows: &'q Q,
}

impl<'q, Q: Rows> Joined<'_, 'q, Q> {
    pub fn for_each<C: Into<prelude::JCF>>(self, mut visit: impl FnMut(Q::Item<'q>) -> C) {
        for row in self.entities.iter().filter_map(|&e| self.rows.row(e)) {
            if visit(row).into() == prelude::JCF::Exit {
                break;
            }
        }
    }
}

pub mod prelude {
    use super::operations::utils::RelationsItem;
    use super::{Joined, Rows};

    /// Whether a walk goes on; the name is the Rust's.
    #[allow(clippy::upper_case_acronyms)]
    #[derive(Debug, Clone, Copy, PartialEq, Eq)]
    pub enum JCF {
        Continue,
        Exit,
    }

    impl From<()> for JCF {
        fn from((): ()) -> Self {
            Self::Continue
        }
    }

    /// Walking a relation; `R` names the relation, as the Rust does.
    pub trait Join<'q, Q> {
        fn join<R>(&self, rows: &'q Q) -> Joined<'_, 'q, Q>;
    }

    impl<'q, Q: Rows, E> Join<'q, Q> for RelationsItem<'_, E> {
        fn join<R>(&self, rows: &'q Q) -> Joined<'_, 'q, Q> {
            Joined {
                entities: self.entities(),
                rows,
            }
        }
    }
}

pub mod operations {
    pub mod utils {
        use crate::shims::bevy_ecs::entity::Entity;
        use std::marker::PhantomData;

        /// The entities that stand in relation `R` to one entity.
        pub struct RelationsItem<'a, R> {
            entities: &'a [Entity],
            relation: PhantomData<R>,
        }

        impl<'a, R> RelationsItem<'a, R> {
            pub fn new(entities: &'a [Entity]) -> Self {
                Self {
                    entities,
                    relation: PhantomData,
                }
            }

            pub fn entities(&self) -> &'a [Entity] {
                self.entities
            }
        }
    }
}
