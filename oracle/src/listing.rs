//! Answers as text: what program `wires` prints, and dumps of anchors, graphs and lines.

use crate::desk::{Lists, Place};
use crate::layer::{self, Crowded, Layout, Outcome, CROWDED};
use crate::page::{Page, PageNet};
use crate::page_text::{push_line, Refusal};
use digilogic_routing::{
    Direction, Directions, Graph, JunctionKind, Node, PathNode, PathNodeKind, Vec2, Vertex,
    VertexKind,
};
use std::fmt::Write;

/// What program `wires` prints for a page that was read, with its two choices open.
pub fn wires(lists: &Lists, prune: bool, separate: bool) -> String {
    match layer::lay_out(lists, prune, separate) {
        Ok(layout) => nets(&layout, u32::to_string),
        Err(Crowded) => crowded(),
    }
}

/// The same with the Rust's own outcomes in place of document 01's numbers.
pub fn raw_wires(lists: &Lists, prune: bool, separate: bool) -> String {
    let layout = layer::lay_out_raw(lists, prune, separate);
    nets(&layout, |outcome| match outcome {
        Outcome::Connected => "connected".into(),
        Outcome::Refused(error) => format!("{error:?}"),
        Outcome::PathTooShort => "panicked: path too short".into(),
    })
}

pub fn refused(refusal: Refusal) -> String {
    let mut text = String::new();
    let fields = [refusal.line as i64, refusal.inner.into()];
    push_line(&mut text, "refused", &fields);
    text
}

pub fn crowded() -> String {
    let mut text = String::new();
    push_line(&mut text, "page", &[CROWDED.into()]);
    text
}

fn nets<A>(layout: &Layout<A>, shown: impl Fn(&A) -> String) -> String {
    let mut text = String::new();
    for (PageNet { id, entity, .. }, answer) in layout.page.nets.iter().zip(&layout.answers) {
        let vertices = layout.page.circuit.vertices(*entity);
        let junctions: usize = vertices.iter().map(|v| v.connected_junctions.len()).sum();
        let (answer, count) = (shown(answer), vertices.len());
        writeln!(text, "net\t{id}\t{answer}\t{count}\t{junctions}").expect("a string takes all");
        push_vertices(&mut text, vertices);
        push_junctions(&mut text, vertices);
    }
    text
}

fn push_vertices(text: &mut String, vertices: &[Vertex]) {
    for (index, Vertex { position, kind, .. }) in vertices.iter().enumerate() {
        let (x, y) = steps(*position);
        let letter = vertex_letter(*kind);
        writeln!(text, "v\t{index}\t{x}\t{y}\t{letter}").expect("a string takes all");
    }
}

fn push_junctions(text: &mut String, vertices: &[Vertex]) {
    for (index, vertex) in vertices.iter().enumerate() {
        for junction in &vertex.connected_junctions {
            let (joining, letter) = (junction.vertex_index, junction_letter(junction.kind));
            writeln!(text, "j\t{index}\t{joining}\t{letter}").expect("a string takes all");
        }
    }
}

fn vertex_letter(kind: VertexKind) -> char {
    match kind {
        VertexKind::WireStart { is_root: true } => 'R',
        VertexKind::WireStart { is_root: false } => 'B',
        VertexKind::Dummy => 'D',
        VertexKind::Normal => 'N',
        VertexKind::WireEnd {
            junction_kind: None,
        } => 'E',
        VertexKind::WireEnd {
            junction_kind: Some(kind),
        } => junction_letter(kind),
    }
}

fn junction_letter(kind: JunctionKind) -> char {
    match kind {
        JunctionKind::Corner => 'C',
        JunctionKind::LineSegment => 'L',
    }
}

fn steps(position: Vec2) -> (i64, i64) {
    (position.x.steps(), position.y.steps())
}

/// The implicit anchors in their order: x, y, directions.
pub fn anchors(lists: &Lists) -> String {
    let mut text = String::new();
    for (position, directions) in Page::new(lists).circuit.implicit_anchors() {
        let (x, y) = steps(position);
        writeln!(text, "{x}\t{y}\t{}", directions.bits()).expect("a string takes all");
    }
    text
}

/// The nodes: index, x, y, explicit, directions, the neighbours NegX, PosX, NegY, PosY.
pub fn graph(graph: &Graph) -> String {
    let mut text = String::new();
    for (index, node) in graph.nodes().iter().enumerate() {
        push_node(&mut text, index, node);
    }
    text
}

fn push_node(text: &mut String, index: usize, node: &Node) {
    let (x, y) = steps(node.position);
    let (explicit, directions) = (u8::from(node.is_explicit), node.legal_directions.bits());
    write!(text, "{index}\t{x}\t{y}\t{explicit}\t{directions}").expect("a string takes all");
    for direction in Direction::ALL {
        match node.get_neighbor(direction) {
            Some(neighbor) => write!(text, "\t{neighbor}"),
            None => write!(text, "\t-"),
        }
        .expect("a string takes all");
    }
    text.push('\n');
}

/// A search's number and count of nodes, then its line: x, y, kind, direction onward.
pub fn search(lists: &Lists, prune: bool, start: Place, ends: &[Place]) -> String {
    let (number, path) = layer::search(lists, prune, start, ends);
    let nodes = path.as_ref().map_or(&[][..], |path| path.nodes());
    let mut text = String::new();
    push_line(&mut text, "line", &[number.into(), nodes.len() as i64]);
    for node in nodes {
        push_path_node(&mut text, node);
    }
    text
}

fn push_path_node(text: &mut String, node: &PathNode) {
    let (x, y) = steps(node.position);
    let kind = match node.kind {
        PathNodeKind::Start => 'S',
        PathNodeKind::Normal => 'N',
        PathNodeKind::End => 'E',
        PathNodeKind::Waypoint => unreachable!("no line here has waypoints"),
    };
    let onward = node
        .bend_direction
        .map_or(0, |dir| Directions::from(dir).bits());
    writeln!(text, "{x}\t{y}\t{kind}\t{onward}").expect("a string takes all");
}
