//! How often wires do what a reader may not expect: a branch that ends on nothing, two nets on one
//! stretch, a fallback wire through a box.

use crate::desk::{ClueBox, Lists, Place};
use crate::layer::{self, Crowded};
use crate::page_text;
use crate::pages::{self, Kind};
use crate::segments::{lies_on, meet, meets_inside, share_a_stretch, Segment};
use digilogic_routing::{Vertex, VertexKind};
use std::collections::{BTreeMap, BTreeSet};
use std::fmt;

/// Document 01's padding of a box, 10 units in steps.
const PADDING: i64 = 2_560;

const FOUND: &str = "found";
const FALLBACK: &str = "fallback";

/// A wire from its start vertex to its end vertex.
struct Wire {
    places: Vec<Place>,
    /// [`FALLBACK`] if its start is not followed by a dummy, else [`FOUND`].
    made: &'static str,
    /// Its end carries a junction.
    is_branch: bool,
}

/// Counts over many pages.
#[derive(Default)]
pub struct Findings {
    counts: BTreeMap<String, u64>,
}

impl fmt::Display for Findings {
    fn fmt(&self, f: &mut fmt::Formatter<'_>) -> fmt::Result {
        for (what, count) in &self.counts {
            writeln!(f, "{count}\t{what}")?;
        }
        Ok(())
    }
}

/// Takes the realistic pages of `count` seeds.
pub fn findings(first: u64, count: u64) -> Findings {
    let mut findings = Findings::default();
    for seed in first..first + count {
        let text = pages::page(Kind::Realistic, seed);
        findings.take_page(&page_text::read(&text).expect("a realistic page is read"));
    }
    findings
}

/// The wires of each net with number 0.
fn wires_of_nets(lists: &Lists, separate: bool) -> Result<Vec<Vec<Wire>>, Crowded> {
    let layout = layer::lay_out(lists, true, separate)?;
    let answered = layout.page.nets.iter().zip(&layout.answers);
    let connected = answered.filter(|&(_, &number)| number == 0);
    Ok(connected
        .map(|(net, _)| wires(layout.page.circuit.vertices(net.entity)))
        .collect())
}

fn wires(vertices: &[Vertex]) -> Vec<Wire> {
    vertices
        .chunk_by(|before, _| !matches!(before.kind, VertexKind::WireEnd { .. }))
        .map(Wire::new)
        .collect()
}

impl Findings {
    /// Takes a page, pruned, before separation and after it.
    pub fn take_page(&mut self, lists: &Lists) {
        self.count("pages", true);
        match (wires_of_nets(lists, false), wires_of_nets(lists, true)) {
            (Ok(before), Ok(after)) => self.take(lists, &before, &after),
            _ => self.count("pages crowded", true),
        }
    }

    /// How often it was so.
    pub fn get(&self, what: &str) -> u64 {
        self.counts.get(what).copied().unwrap_or_default()
    }

    fn take(&mut self, lists: &Lists, before: &[Vec<Wire>], after: &[Vec<Wire>]) {
        let layouts = [("before", before), ("after", after)];
        let [shared_before, shared_after] = layouts.map(|(when, nets)| {
            for wires in nets {
                self.take_net(when, wires);
                for wire in wires {
                    self.take_wire(when, wire, lists);
                }
            }
            let shared = sharing(nets);
            let what = format!("pages with two nets on one stretch, {when}");
            self.count(&what, !shared.is_empty());
            shared
        });
        let is_new = !shared_after.is_subset(&shared_before);
        self.count("pages with two nets on one stretch only after", is_new);
    }

    fn take_net(&mut self, when: &str, wires: &[Wire]) {
        let off: BTreeSet<_> = (0..wires.len())
            .filter(|&index| wires[index].is_branch && ends_on_nothing(wires, index))
            .map(|index| wires[index].made)
            .collect();
        let what = |branch: &str| format!("nets with a {branch} that ends on nothing, {when}");
        self.count(&format!("nets with number 0, {when}"), true);
        self.count(&what("branch"), !off.is_empty());
        for made in [FOUND, FALLBACK] {
            self.count(&what(&format!("{made} branch")), off.contains(made));
        }
        self.count(&format!("nets in pieces, {when}"), is_in_pieces(wires));
    }

    fn take_wire(&mut self, when: &str, wire: &Wire, lists: &Lists) {
        let mut boxes = lists.boxes.iter();
        let what = |through: &str| format!("{} wires{through}, {when}", wire.made);
        let inside = boxes.clone().any(|b| wire.crosses(b, 0));
        let padded = boxes.clone().any(|b| wire.crosses(b, PADDING));
        let own = boxes.any(|b| wire.crosses(b, 0) && wire.ends_at_port_of(b, lists));
        self.count(&what(""), true);
        self.count(&what(" through a box"), inside);
        self.count(&what(" through a padded box"), padded);
        self.count(&what(" through the box of a port of theirs"), own);
    }

    /// Counts one more if it is so; what is never so is told with 0.
    fn count(&mut self, what: &str, is_so: bool) {
        *self.counts.entry(what.to_owned()).or_default() += u64::from(is_so);
    }
}

impl Wire {
    fn new(vertices: &[Vertex]) -> Self {
        let place = |v: &Vertex| Place::new(v.position.x.steps(), v.position.y.steps());
        let no_junction = VertexKind::WireEnd {
            junction_kind: None,
        };
        Self {
            places: vertices.iter().map(place).collect(),
            made: match vertices[1].kind {
                VertexKind::Dummy => FOUND,
                _ => FALLBACK,
            },
            is_branch: vertices[vertices.len() - 1].kind != no_junction,
        }
    }

    fn start(&self) -> Place {
        self.places[0]
    }

    fn end(&self) -> Place {
        self.places[self.places.len() - 1]
    }

    fn segments(&self) -> impl Iterator<Item = Segment> + '_ {
        self.places.windows(2).map(|pair| (pair[0], pair[1]))
    }

    fn touches(&self, other: &Wire) -> bool {
        self.segments()
            .any(|one| other.segments().any(|two| meet(one, two)))
    }

    fn crosses(&self, b: &ClueBox, padding: i64) -> bool {
        let min = Place::new(b.min.x - padding, b.min.y - padding);
        let max = Place::new(b.max.x + padding, b.max.y + padding);
        self.segments().any(|part| meets_inside(part, min, max))
    }

    fn ends_at_port_of(&self, b: &ClueBox, lists: &Lists) -> bool {
        let mut ports = lists.ports.iter().filter(|port| port.box_id == b.id);
        ports.any(|port| port.at == self.start() || port.at == self.end())
    }
}

/// Whether a wire's end lies on no segment of the net's other wires.
fn ends_on_nothing(wires: &[Wire], index: usize) -> bool {
    let (earlier, later) = (&wires[..index], &wires[index + 1..]);
    let mut others = earlier.iter().chain(later).flat_map(Wire::segments);
    !others.any(|segment| lies_on(wires[index].end(), segment))
}

/// Whether some wires of a net are reached from its first one by no wires that touch.
fn is_in_pieces(wires: &[Wire]) -> bool {
    let (mut reached, mut rest): (Vec<&Wire>, Vec<&Wire>) =
        (wires[..1].iter().collect(), wires[1..].iter().collect());
    loop {
        let touching = |wire: &&Wire| reached.iter().any(|other| wire.touches(other));
        let (more, fewer): (Vec<_>, Vec<_>) = rest.into_iter().partition(touching);
        if more.is_empty() {
            return !fewer.is_empty();
        }
        reached.extend(more);
        rest = fewer;
    }
}

/// The pairs of nets that share a stretch.
fn sharing(nets: &[Vec<Wire>]) -> BTreeSet<(usize, usize)> {
    let segments = |net: usize| nets[net].iter().flat_map(Wire::segments);
    let share = |one, two| segments(one).any(|a| segments(two).any(|b| share_a_stretch(a, b)));
    let pairs = (0..nets.len()).flat_map(|two| (0..two).map(move |one| (one, two)));
    pairs.filter(|&(one, two)| share(one, two)).collect()
}
