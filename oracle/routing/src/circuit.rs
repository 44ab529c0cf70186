//! A page as the Rust's entities, and the calls of the Rust on it.

use crate::graph::{implicit_anchors, Graph};
use crate::path_finding::{PathFindResult, PathFinder};
use crate::query::{Endpoint, Net, Port, Symbol};
use crate::routing::{connect_net, connect_net_by_steps, RoutingError};
use crate::shims::aery::operations::utils::RelationsItem;
use crate::shims::bevy_ecs::entity::Entity;
use crate::shims::digilogic_core::transform::{
    AbsoluteBoundingBox, AbsoluteDirections, Directions, GlobalTransform, Vec2,
};
use crate::{fixup, CircuitTree, Vertex};

/// How much a net has after one of its wires is made.
#[derive(Debug, Clone, Copy, PartialEq, Eq)]
pub struct Step {
    pub vertices: usize,
    pub ends: usize,
}

impl Step {
    pub(crate) fn new(vertices: usize, ends: usize) -> Self {
        Self { vertices, ends }
    }
}

/// Symbols with ports and nets with endpoints, all in the order in which they were added.
#[derive(Default)]
pub struct Circuit {
    entities: u32,
    children: Vec<Entity>,
    tree: CircuitTree,
}

impl Circuit {
    fn spawn(&mut self) -> Entity {
        self.entities += 1;
        Entity::from_raw(self.entities)
    }

    pub fn add_symbol(&mut self, min: Vec2, max: Vec2) -> Entity {
        let entity = self.spawn();
        let symbol = Symbol {
            bounding_box: AbsoluteBoundingBox::new(min, max),
            children: Vec::new(),
        };
        self.tree.symbols.push(entity, symbol);
        self.children.push(entity);
        entity
    }

    pub fn add_port(&mut self, symbol: Entity, position: Vec2, directions: Directions) {
        let entity = self.spawn();
        let port = Port {
            transform: GlobalTransform::at(position),
            directions: AbsoluteDirections::new(directions),
        };
        self.tree.ports.push(entity, port);
        let symbol = self.tree.symbols.row_mut(symbol).expect("symbol is there");
        symbol.children.push(entity);
    }

    pub fn add_net(&mut self) -> Entity {
        let entity = self.spawn();
        self.tree.nets.push(entity, Net::default());
        self.children.push(entity);
        entity
    }

    pub fn add_endpoint(&mut self, net: Entity, position: Vec2, has_port: bool) {
        let entity = self.spawn();
        let endpoint = Endpoint {
            transform: GlobalTransform::at(position),
            has_port,
        };
        self.tree.endpoints.push(entity, endpoint);
        let net = self.tree.nets.row_mut(net).expect("net is there");
        net.children.push(entity);
    }

    pub fn implicit_anchors(&self) -> Vec<(Vec2, Directions)> {
        implicit_anchors(&RelationsItem::new(&self.children), &self.tree.symbols)
    }

    pub fn build_graph(&self, prune: bool) -> Graph {
        let mut graph = Graph::default();
        self.rebuild_graph(&mut graph, prune);
        graph
    }

    /// Builds the graph in one that was built before, as the Rust's own caller does.
    pub fn rebuild_graph(&self, graph: &mut Graph, prune: bool) {
        graph.build(&RelationsItem::new(&self.children), &self.tree, prune);
    }

    /// Routes one net; its vertices stay in the circuit.
    pub fn connect_net(&mut self, graph: &Graph, net: Entity) -> Result<(), RoutingError> {
        let ((_, vertices), children) = self.tree.nets.get_mut(net).expect("net is there");
        connect_net(graph, &mut vertices.0, &children, &self.tree.endpoints)
    }

    /// Routes one net apart from the circuit, telling of each wire made.
    pub fn connect_net_by_steps(
        &self,
        graph: &Graph,
        net: Entity,
        after: impl FnMut(Step),
    ) -> Result<(), RoutingError> {
        let (_, children) = self.tree.nets.get(net).expect("net is there");
        connect_net_by_steps(graph, &children, &self.tree.endpoints, after)
    }

    pub fn vertices(&self, net: Entity) -> &[Vertex] {
        let ((_, vertices), _) = self.tree.nets.get(net).expect("net is there");
        vertices
    }

    pub fn clear_vertices(&mut self, net: Entity) {
        let ((_, vertices), _) = self.tree.nets.get_mut(net).expect("net is there");
        vertices.0.clear();
    }

    pub fn separate_wires(&mut self) {
        fixup::separate_wires(&RelationsItem::new(&self.children), &mut self.tree.nets);
    }
}

/// The Rust's path finder, with the maps and the queue that it uses again.
#[derive(Default)]
pub struct Finder(PathFinder);

impl Finder {
    pub fn find_path_multi(
        &mut self,
        graph: &Graph,
        start: Vec2,
        ends: impl Iterator<Item = Vec2>,
    ) -> PathFindResult {
        self.0.find_path_multi(graph, start, ends)
    }
}

pub fn find_path(graph: &Graph, start: Vec2, end: Vec2) -> PathFindResult {
    PathFinder::default().find_path(graph, start, end)
}

pub fn find_path_multi(
    graph: &Graph,
    start: Vec2,
    ends: impl Iterator<Item = Vec2>,
) -> PathFindResult {
    Finder::default().find_path_multi(graph, start, ends)
}
