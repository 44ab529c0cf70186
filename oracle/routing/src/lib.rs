//! The Rust's `digilogic_routing`: five of its source files, unchanged, over small shims.
//!
//! This file stands for the Rust's lib.rs. It keeps the declarations that the five files ask for
//! and puts [`Circuit`] where the Rust has the systems of its entity framework.

mod bit_grid;
mod circuit;
mod query;
mod shims;

pub use circuit::{find_path, find_path_multi, Circuit, Finder, Step};
pub use graph::{Graph, Node};
pub use path_finding::{Path, PathFindResult, PathNode, PathNodeKind};
pub use routing::RoutingError;
pub use shims::bevy_ecs::entity::Entity;
pub use shims::digilogic_core::transform::{Direction, Directions, Vec2};
pub use shims::digilogic_core::Fixed;

use query::{Endpoint, Net, Port, Query, Symbol};
use shims::digilogic_core::fixed;
use shims::smallvec::SmallVec;
use std::ops::Deref;

/// Document 01's spacing; the Rust's lib.rs has 10 units.
#[cfg(not(feature = "lib_spacing"))]
const MIN_WIRE_SPACING: Fixed = fixed!(5);
#[cfg(feature = "lib_spacing")]
const MIN_WIRE_SPACING: Fixed = fixed!(10);

// The Rust's own text is taken as it stands: no warning in it is ours to act on.
#[allow(warnings, clippy::all)]
mod segment_tree {
    use crate::shims::{digilogic_core, serde};

    include!("../../../../shared/docs/src/crates/digilogic_routing/src/segment_tree.rs");
}

#[allow(warnings, clippy::all)]
mod graph {
    use crate::shims::{aery, bevy_ecs, digilogic_core, serde, tracing};

    include!("../../../../shared/docs/src/crates/digilogic_routing/src/graph.rs");

    /// The implicit anchors in the order in which [`Graph::build`] takes them.
    pub(crate) fn implicit_anchors(
        circuit_children: &RelationsItem<Child>,
        symbols: &SymbolQuery,
    ) -> Vec<(Vec2, Directions)> {
        let mut data = ThreadLocalData::default();
        generate_implicit_anchors(circuit_children, symbols, &mut data);
        data.implicit_anchors
            .iter()
            .map(|anchor| (anchor.position, anchor.connect_directions))
            .collect()
    }

    #[cfg(test)]
    mod cases;
}

#[allow(warnings, clippy::all)]
mod path_finding {
    use crate::shims::{ahash, bevy_log, digilogic_core, priority_queue, tracing};

    include!("../../../../shared/docs/src/crates/digilogic_routing/src/path_finding.rs");

    #[cfg(test)]
    mod cases;
}

#[allow(warnings, clippy::all)]
mod routing {
    use crate::shims::{aery, bevy_ecs, bevy_log, digilogic_core, smallvec};
    use crate::Step;

    include!("../../../../shared/docs/src/crates/digilogic_routing/src/routing.rs");

    /// What [`connect_net`] does, stopping after the root wire and after each branch wire to say
    /// how much there is. A branch wire is made by the Rust's own loop over a single endpoint.
    pub(crate) fn connect_net_by_steps(
        graph: &Graph,
        net_children: &RelationsItem<Child>,
        endpoints: &EndpointQuery,
        mut after: impl FnMut(Step),
    ) -> Result<(), RoutingError> {
        let mut data = ThreadLocalData::default();
        let mut vertices = Vec::new();
        let (start, end) =
            pick_root_path(net_children, endpoints).ok_or(RoutingError::NotEnoughEndpoints)?;

        route_root_wire(graph, &mut vertices, start, end, endpoints, &mut data)?;
        after(Step::new(vertices.len(), data.ends.len()));

        let roots = [start, end];
        for endpoint in net_children
            .entities()
            .iter()
            .filter(|e| !roots.contains(e))
        {
            let only = RelationsItem::new(std::slice::from_ref(endpoint));
            route_branch_wires(graph, &mut vertices, roots, &only, endpoints, &mut data)?;
            after(Step::new(vertices.len(), data.ends.len()));
        }

        Ok(())
    }
}

#[allow(warnings, clippy::all)]
mod fixup {
    use crate::shims::{aery, bevy_ecs, bevy_log, digilogic_core, smallvec, tracing};

    include!("../../../../shared/docs/src/crates/digilogic_routing/src/fixup.rs");

    #[cfg(test)]
    mod cases;
}

#[derive(Default, Debug, Clone, Copy, PartialEq, Eq)]
pub enum VertexKind {
    #[default]
    Normal,
    Dummy,
    WireStart {
        is_root: bool,
    },
    WireEnd {
        junction_kind: Option<JunctionKind>,
    },
}

#[derive(Default, Debug, Clone, Copy, PartialEq, Eq)]
pub enum JunctionKind {
    #[default]
    LineSegment,
    Corner,
}

#[derive(Default, Debug, Clone, Copy, PartialEq, Eq)]
pub struct Junction {
    pub vertex_index: u32,
    pub kind: JunctionKind,
}

#[derive(Default, Debug)]
pub struct Vertex {
    pub position: Vec2,
    pub kind: VertexKind,
    pub connected_junctions: SmallVec<[Junction; 2]>,
}

#[derive(Default, Debug)]
pub struct Vertices(Vec<Vertex>);

impl Deref for Vertices {
    type Target = Vec<Vertex>;

    fn deref(&self) -> &Self::Target {
        &self.0
    }
}

type SymbolQuery = Query<Symbol>;
type PortQuery = Query<Port>;
type NetQuery = Query<Net>;
type EndpointQuery = Query<Endpoint>;

#[derive(Default)]
struct CircuitTree {
    symbols: SymbolQuery,
    ports: PortQuery,
    nets: NetQuery,
    endpoints: EndpointQuery,
}
