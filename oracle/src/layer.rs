//! Document 01's numbers, laid over the Rust's outcomes.
//!
//! | number | the Rust's own? |
//! |---|---|
//! | 2 | no: the Rust takes every coordinate and any count of ends |
//! | 8 | no: the Rust goes on |
//! | 9, 10, 11 | yes: `InvalidStartPoint`, `InvalidEndPoint`, `NotFound` |
//! | 12 | yes: `NotEnoughEndpoints` |
//! | 13 | yes, `InvalidPoint`, but the Rust says so only when it gets to the endpoint |
//! | 14 | no: the Rust panics, "path too short" |
//! | 15 | no: the Rust goes on |
//! | 16 | no: the Rust has no page text; see `page_text` |

use crate::desk::{Lists, Place, OUT_OF_RANGE};
use crate::page::{position, Page, PageNet};
use digilogic_routing::{find_path_multi, Entity, Graph, Path, PathFindResult, RoutingError, Step};
use std::any::Any;
use std::panic::{self, AssertUnwindSafe};

const MAX_IMPLICIT_ANCHORS: usize = 2_048;
const MAX_NODES: usize = 4_096;
const MAX_VERTICES: usize = 512;
/// Ends of a net or of a search.
const MAX_PATH_ENDS: usize = 4_096;

pub const CROWDED: u32 = 8;
const START_UNKNOWN: u32 = 9;
const END_UNKNOWN: u32 = 10;
const NO_LINE: u32 = 11;
const TOO_FEW_ENDPOINTS: u32 = 12;
const ENDPOINT_UNKNOWN: u32 = 13;
const ONE_NODE_LINE: u32 = 14;
const OVER_LIMIT: u32 = 15;

/// The page is over a limit of the graph: number 8.
#[derive(Debug, Clone, Copy, PartialEq, Eq)]
pub struct Crowded;

/// What the Rust made of a net.
#[derive(Debug, Clone, Copy, PartialEq, Eq)]
pub enum Outcome {
    Connected,
    Refused(RoutingError),
    PathTooShort,
}

/// A page with its wires, and an answer for each net. A net not connected has no wires.
pub struct Layout<A> {
    pub page: Page,
    pub answers: Vec<A>,
}

/// The graph of a page within the limits.
pub fn build_graph(page: &Page, prune: bool) -> Result<Graph, Crowded> {
    if page.circuit.implicit_anchors().len() > MAX_IMPLICIT_ANCHORS {
        return Err(Crowded);
    }
    let graph = page.circuit.build_graph(false);
    if graph.nodes().len() > MAX_NODES {
        return Err(Crowded);
    }
    Ok(if prune {
        page.circuit.build_graph(true)
    } else {
        graph
    })
}

/// Lays a page out with document 01's numbers.
pub fn lay_out(lists: &Lists, prune: bool, separate: bool) -> Result<Layout<u32>, Crowded> {
    let mut page = Page::new(lists);
    let graph = build_graph(&page, prune)?;
    let mut vertices = 0;
    let answers = (0..page.nets.len())
        .map(|net| {
            let outcome = connect(&mut page, &graph, net);
            let number = number(&page, &graph, net, outcome, vertices);
            vertices += keep_wires(&mut page, net, number == 0);
            number
        })
        .collect();
    if separate {
        page.circuit.separate_wires();
    }
    Ok(Layout { page, answers })
}

/// Lays a page out with the Rust's outcomes alone.
pub fn lay_out_raw(lists: &Lists, prune: bool, separate: bool) -> Layout<Outcome> {
    let mut page = Page::new(lists);
    let graph = page.circuit.build_graph(prune);
    let answers = (0..page.nets.len())
        .map(|net| {
            let outcome = connect(&mut page, &graph, net);
            keep_wires(&mut page, net, outcome == Outcome::Connected);
            outcome
        })
        .collect();
    if separate {
        page.circuit.separate_wires();
    }
    Layout { page, answers }
}

fn connect(page: &mut Page, graph: &Graph, net: usize) -> Outcome {
    let entity = page.nets[net].entity;
    outcome(|| page.circuit.connect_net(graph, entity))
}

/// Clears the wires of a net that may not keep them; answers with the vertices left.
fn keep_wires(page: &mut Page, net: usize, keep: bool) -> usize {
    let entity = page.nets[net].entity;
    if !keep {
        page.circuit.clear_vertices(entity);
    }
    page.circuit.vertices(entity).len()
}

/// A net's number, tried in table order; `earlier` counts the vertices of nets that got 0.
fn number(page: &Page, graph: &Graph, net: usize, outcome: Outcome, earlier: usize) -> u32 {
    let PageNet {
        entity, endpoints, ..
    } = &page.nets[net];
    let known = |&endpoint| graph.find_node(endpoint).is_some();
    match outcome {
        Outcome::Refused(RoutingError::NotEnoughEndpoints) => TOO_FEW_ENDPOINTS,
        _ if !endpoints.iter().all(known) => ENDPOINT_UNKNOWN,
        _ if over_limit(page, graph, *entity, earlier) => OVER_LIMIT,
        Outcome::PathTooShort => ONE_NODE_LINE,
        Outcome::Connected => 0,
        Outcome::Refused(RoutingError::InvalidPoint) => unreachable!("every endpoint is known"),
    }
}

/// Whether a limit is passed by one of the wires that are made before a one-node line ends it.
fn over_limit(page: &Page, graph: &Graph, net: Entity, earlier: usize) -> bool {
    let mut steps = Vec::new();
    let after = |step| steps.push(step);
    outcome(|| page.circuit.connect_net_by_steps(graph, net, after));

    let made = steps.last().map_or(0, |step: &Step| step.vertices);
    assert_eq!(
        made,
        page.circuit.vertices(net).len(),
        "the steps are those of the whole"
    );
    steps
        .iter()
        .any(|step| earlier + step.vertices > MAX_VERTICES || step.ends > MAX_PATH_ENDS)
}

/// Runs the Rust; a panic other than "path too short" goes on.
fn outcome(connect: impl FnOnce() -> Result<(), RoutingError>) -> Outcome {
    match panic::catch_unwind(AssertUnwindSafe(connect)) {
        Ok(Ok(())) => Outcome::Connected,
        Ok(Err(error)) => Outcome::Refused(error),
        Err(panic) if is_path_too_short(panic.as_ref()) => Outcome::PathTooShort,
        Err(panic) => panic::resume_unwind(panic),
    }
}

/// Whether a panic is the one that the Rust is known for.
pub fn is_path_too_short(panic: &(dyn Any + Send)) -> bool {
    let literal = panic.downcast_ref::<&str>().copied();
    let message = literal.or_else(|| panic.downcast_ref::<String>().map(String::as_str));
    message == Some("path too short")
}

/// A search's number, and the line at 0.
pub fn search(lists: &Lists, prune: bool, start: Place, ends: &[Place]) -> (u32, Option<Path>) {
    let in_range = start.in_range() && ends.iter().all(|end| end.in_range());
    if !in_range || ends.len() > MAX_PATH_ENDS {
        return (OUT_OF_RANGE, None);
    }
    let Ok(graph) = build_graph(&Page::new(lists), prune) else {
        return (CROWDED, None);
    };
    let ends = ends.iter().map(|&end| position(end));
    match find_path_multi(&graph, position(start), ends) {
        PathFindResult::Found(path) => (0, Some(path)),
        PathFindResult::InvalidStartPoint => (START_UNKNOWN, None),
        PathFindResult::InvalidEndPoint => (END_UNKNOWN, None),
        PathFindResult::NotFound => (NO_LINE, None),
    }
}
