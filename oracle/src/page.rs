//! A page's records as the Rust's entities.

use crate::desk::{Lists, Place};
use digilogic_routing::{Circuit, Directions, Entity, Fixed, Vec2};

pub struct Page {
    pub circuit: Circuit,
    pub nets: Vec<PageNet>,
}

pub struct PageNet {
    pub id: i64,
    pub entity: Entity,
    pub endpoints: Vec<Vec2>,
}

impl Page {
    pub fn new(lists: &Lists) -> Self {
        let mut circuit = Circuit::default();
        add_symbols(&mut circuit, lists);
        let nets = lists
            .nets
            .iter()
            .map(|&id| add_net(&mut circuit, lists, id))
            .collect();
        Self { circuit, nets }
    }
}

fn add_symbols(circuit: &mut Circuit, lists: &Lists) {
    for b in &lists.boxes {
        let symbol = circuit.add_symbol(position(b.min), position(b.max));
        for port in lists.ports.iter().filter(|port| port.box_id == b.id) {
            let directions = Directions::from_bits(port.directions as u8);
            circuit.add_port(symbol, position(port.at), directions);
        }
    }
}

fn add_net(circuit: &mut Circuit, lists: &Lists, id: i64) -> PageNet {
    let entity = circuit.add_net();
    let mut endpoints = Vec::new();
    for end in lists.ends.iter().filter(|end| end.net_id == id) {
        endpoints.push(position(end.at));
        circuit.add_endpoint(entity, position(end.at), end.mark == 1);
    }
    PageNet {
        id,
        entity,
        endpoints,
    }
}

pub fn position(place: Place) -> Vec2 {
    Vec2 {
        x: Fixed::from_steps(place.x),
        y: Fixed::from_steps(place.y),
    }
}
