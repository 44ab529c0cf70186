//! Document 01's case of the penalty, read off the Rust's own scores.

use super::*;
use crate::Circuit;

/// The score of the only line: a straight run of `run`, a turn, and 100 units more.
fn score(run: Fixed) -> Fixed {
    let far = Vec2::splat(fixed!(5000));
    let start = Vec2::default();
    let end = Vec2 {
        x: run,
        y: fixed!(100),
    };
    let mut circuit = Circuit::default();
    let symbol = circuit.add_symbol(far, far);
    circuit.add_port(symbol, start, Directions::POS_X);
    circuit.add_port(symbol, end, Directions::NEG_Y);

    let graph = circuit.build_graph(false);
    let mut path_finder = PathFinder::default();
    let found = path_finder.find_path(&graph, start, end);
    assert!(matches!(found, PathFindResult::Found(_)));
    path_finder.g_score[&graph.find_node(end).unwrap()]
}

fn penalty(run: Fixed) -> Fixed {
    let first = fixed!(50);
    score(run) - first - run - fixed!(100)
}

#[test]
fn a_run_of_700_costs_50_and_one_of_800_costs_64() {
    assert_eq!(penalty(fixed!(700)), fixed!(50));
    assert_eq!(penalty(fixed!(800)), fixed!(64));
}
