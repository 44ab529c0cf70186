//! The Rust's own functions, called as its `route` calls them: entities stay, the graph, the path
//! finder and the vertices are used again.

use crate::timing::now;
use digilogic_routing::{Entity, Finder, Graph};
use oracle::desk::{Lists, Place};
use oracle::page::{position, Page};
use std::hint::black_box;

pub struct Rust {
    page: Page,
    nets: Vec<Entity>,
    graph: Graph,
    finder: Finder,
}

impl Rust {
    pub fn new(lists: &Lists) -> Self {
        let page = Page::new(lists);
        let nets = page.nets.iter().map(|net| net.entity).collect();
        Self {
            page,
            nets,
            graph: Graph::default(),
            finder: Finder::default(),
        }
    }

    fn build_graph(&mut self) {
        self.page.circuit.rebuild_graph(&mut self.graph, true);
    }

    fn connect_nets(&mut self) {
        for &net in &self.nets {
            // A net without enough endpoints or with an unknown one is refused, and the next goes on.
            let _ = black_box(self.page.circuit.connect_net(&self.graph, net));
        }
    }

    pub fn lay_out(&mut self, separate: bool) {
        self.build_graph();
        self.connect_nets();
        if separate {
            self.page.circuit.separate_wires();
        }
    }

    /// Seconds a run of the graph, the nets and the separation.
    pub fn parts(&mut self, runs: usize) -> [f64; 3] {
        let mut parts = [0.0; 3];
        for _ in 0..runs {
            let start = now();
            self.build_graph();
            let built = now();
            self.connect_nets();
            let connected = now();
            self.page.circuit.separate_wires();
            let times = [built - start, connected - built, now() - connected];
            for (part, time) in parts.iter_mut().zip(times) {
                *part += time / runs as f64;
            }
        }
        parts
    }

    pub fn search(&mut self, start: Place, end: Place) {
        self.build_graph();
        let ends = std::iter::once(position(end));
        black_box(
            self.finder
                .find_path_multi(&self.graph, position(start), ends),
        );
    }
}
