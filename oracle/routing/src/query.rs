//! Rows of entities, asked as the Rust asks its queries.

use crate::shims::aery::operations::utils::RelationsItem;
use crate::shims::aery::Rows;
use crate::shims::bevy_ecs::entity::Entity;
use crate::shims::digilogic_core::components::Child;
use crate::shims::digilogic_core::transform::{
    AbsoluteBoundingBox, AbsoluteDirections, GlobalTransform,
};
use crate::Vertices;

/// One kind of entity, by rising entity number.
pub struct Query<T> {
    rows: Vec<(Entity, T)>,
}

impl<T> Default for Query<T> {
    fn default() -> Self {
        Self { rows: Vec::new() }
    }
}

impl<T> Query<T> {
    /// Adds a row; entities come with rising numbers.
    pub fn push(&mut self, entity: Entity, row: T) {
        self.rows.push((entity, row));
    }

    fn place(&self, entity: Entity) -> Option<usize> {
        self.rows.binary_search_by_key(&entity, |row| row.0).ok()
    }

    pub fn row_mut(&mut self, entity: Entity) -> Option<&mut T> {
        let place = self.place(entity)?;
        Some(&mut self.rows[place].1)
    }
}

impl<T: Row> Query<T> {
    pub fn get(&self, entity: Entity) -> Option<T::Item<'_>> {
        let place = self.place(entity)?;
        Some(self.rows[place].1.item(entity))
    }
}

impl<T: Row> Rows for Query<T> {
    type Item<'a>
        = T::Item<'a>
    where
        Self: 'a;

    fn row(&self, entity: Entity) -> Option<Self::Item<'_>> {
        self.get(entity)
    }
}

/// What a query shows of one entity.
pub trait Row {
    type Item<'a>
    where
        Self: 'a;

    fn item(&self, entity: Entity) -> Self::Item<'_>;
}

pub struct Symbol {
    pub bounding_box: AbsoluteBoundingBox,
    pub children: Vec<Entity>,
}

impl Row for Symbol {
    type Item<'a> = ((Entity, &'a AbsoluteBoundingBox), RelationsItem<'a, Child>);

    fn item(&self, entity: Entity) -> Self::Item<'_> {
        (
            (entity, &self.bounding_box),
            RelationsItem::new(&self.children),
        )
    }
}

pub struct Port {
    pub transform: GlobalTransform,
    pub directions: AbsoluteDirections,
}

impl Row for Port {
    type Item<'a> = (&'a GlobalTransform, &'a AbsoluteDirections);

    fn item(&self, _entity: Entity) -> Self::Item<'_> {
        (&self.transform, &self.directions)
    }
}

#[derive(Default)]
pub struct Net {
    pub vertices: Vertices,
    pub children: Vec<Entity>,
}

impl Row for Net {
    type Item<'a> = ((Entity, &'a Vertices), RelationsItem<'a, Child>);

    fn item(&self, entity: Entity) -> Self::Item<'_> {
        ((entity, &self.vertices), RelationsItem::new(&self.children))
    }
}

type NetMut<'a> = ((Entity, &'a mut Vertices), RelationsItem<'a, Child>);

impl Query<Net> {
    pub fn get_mut(&mut self, entity: Entity) -> Option<NetMut<'_>> {
        let Net { vertices, children } = self.row_mut(entity)?;
        Some(((entity, vertices), RelationsItem::new(children)))
    }
}

pub struct Endpoint {
    pub transform: GlobalTransform,
    pub has_port: bool,
}

impl Row for Endpoint {
    type Item<'a> = (Entity, &'a GlobalTransform, bool);

    fn item(&self, entity: Entity) -> Self::Item<'_> {
        (entity, &self.transform, self.has_port)
    }
}
