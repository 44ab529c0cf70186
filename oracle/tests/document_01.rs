//! Document 01's sample and its cases at the edges, as far as they concern whole pages. The cases
//! of single functions stand beside the Rust's files in `routing/src`.

use oracle::desk::{Desk, Lists, Place, DONE, NOTHING_TO_UNDO};
use oracle::layer;
use oracle::listing;
use oracle::page::Page;
use oracle::page_text;

const UNIT: i64 = 256;

fn units(x: i64, y: i64) -> Place {
    Place::new(x * UNIT, y * UNIT)
}

fn page(text: &str) -> Lists {
    page_text::read(text.replace(' ', "\t").as_bytes()).expect("the page is read")
}

fn wires(lists: &Lists) -> String {
    listing::wires(lists, true, true).replace('\t', " ")
}

fn one_net(ends: &[Place]) -> Lists {
    let mut lists = Lists::default();
    lists.add_net(1);
    for &end in ends {
        lists.add_end(1, end, 0);
    }
    lists
}

fn nodes(lists: &Lists, prune: bool) -> usize {
    let graph = layer::build_graph(&Page::new(lists), prune).expect("the page is not crowded");
    graph.nodes().len()
}

fn search_number(lists: &Lists, start: Place, ends: &[Place]) -> u32 {
    let (pruned, _) = layer::search(lists, true, start, ends);
    let (unpruned, _) = layer::search(lists, false, start, ends);
    assert_eq!(pruned, unpruned);
    pruned
}

#[test]
fn sample() {
    let lists = page("net 1\nend 1 0 0 0\nend 1 2560 5120 0\n");
    let expected = "net 1 0 5 0\nv 0 0 0 R\nv 1 1280 0 D\nv 2 1280 0 D\nv 3 2560 0 N\n\
                    v 4 2560 5120 E\n";
    assert_eq!(wires(&lists), expected);
}

#[test]
fn empty_text_prints_nothing() {
    assert_eq!(wires(&page("")), "");
}

#[test]
fn padded_edge_blocks_a_line() {
    let mut lists = one_net(&[units(0, 0), units(90, 0)]);
    lists.add_box(1, units(100, 0), units(100, 0));
    assert_eq!(search_number(&lists, units(0, 0), &[units(90, 0)]), 11);

    let before = Place::new(90 * UNIT - 1, 0);
    lists.ends[1].at = before;
    assert_eq!(search_number(&lists, units(0, 0), &[before]), 0);
}

#[test]
fn root_pair_is_first_and_third() {
    let lists = one_net(&[units(0, 0), units(30, 30), units(10, 0)]);
    let listing = wires(&lists);
    let root: Vec<_> = listing.lines().skip(1).take(4).collect();
    assert_eq!(root[0], "v 0 0 0 R");
    assert_eq!(root[3], "v 3 2560 0 E");
}

#[test]
fn two_boxes() {
    let mut lists = Lists::default();
    lists.add_box(1, units(0, 0), units(20, 20));
    lists.add_box(2, units(100, 0), units(120, 20));
    let expected = "7681\t2560\t3\n23039\t2560\t3\n15360\t-2559\t12\n15360\t7679\t12\n";
    assert_eq!(listing::anchors(&lists), expected);
    assert_eq!((nodes(&lists, false), nodes(&lists, true)), (5, 5));
}

#[test]
fn one_box_with_three_ports() {
    let mut lists = Lists::default();
    lists.add_box(1, units(1000, 1000), units(1000, 1000));
    lists.add_port(1, units(0, 0), 2);
    lists.add_port(1, units(20, 0), 1);
    lists.add_port(1, units(10, 40), 0);
    assert_eq!((nodes(&lists, false), nodes(&lists, true)), (4, 3));
    assert_eq!(search_number(&lists, units(0, 0), &[units(10, 40)]), 11);
    assert_eq!(search_number(&lists, units(0, 0), &[]), 11);
    assert_eq!(search_number(&lists, units(1, 1), &[]), 9);
}

#[test]
fn three_endpoints_in_a_row() {
    let lists = one_net(&[units(0, 0), units(20, 0), units(10, 0)]);
    assert_eq!(wires(&lists), "net 1 14 0 0\n");
}

#[test]
fn the_33rd_undo_in_a_row_finds_nothing() {
    let mut desk = Desk::default();
    for id in 1..=33 {
        assert_eq!(desk.change(|lists| lists.add_net(id)), DONE);
    }
    for _ in 0..32 {
        assert_eq!(desk.undo(), DONE);
    }
    assert_eq!(desk.undo(), NOTHING_TO_UNDO);
    assert_eq!(desk.lists.nets, [1]);
}

#[test]
fn thirteen_comes_before_fourteen_and_a_one_node_line_is_found() {
    let mut lists = one_net(&[units(0, 0), units(20, 0), units(10, 0)]);
    lists.add_end(1, units(7, 7), 1);
    assert_eq!(wires(&lists), "net 1 13 0 0\n");
    let line = listing::search(&lists, true, units(10, 0), &[units(10, 0)]);
    assert_eq!(line, "line\t0\t1\n2560\t0\tE\t0\n");
}
