//! Rings with so many circuits, which the controller opened one by one.

use super::longest::{filled, tour};
use super::rings::even;
use crate::circuit::Circuit;
use crate::opening::{Move, MOVES_MOST};
use crate::random::Random;
use crate::table::Table;

/// A ring with the most ports, spread evenly, and so many circuits between nodes in any order.
pub fn opened(nodes: u8, circuits: usize, random: &mut Random) -> Table {
    let ports = even(usize::from(nodes));
    let mut table = Table::make(nodes, &ports).expect("the ports are those of a ring");
    let mut wanted = circuit_for_each_port(nodes, table.ring_ports(), random);
    random.shuffle(&mut wanted);
    for circuit in wanted.into_iter().take(circuits) {
        let new = filled(circuit, &table, random);
        let mut moves = [Move::default(); MOVES_MOST];
        table.open_on_good_table(new, &mut moves).expect("both of the circuit's ports are free");
    }
    table
}

/// Circuits that use every port: tours of all nodes, and one of those that have a port more, of
/// which there is never one alone, as no ring of 3 to 64 nodes leaves 1 of 192 ports over.
pub fn circuit_for_each_port(nodes: u8, ring_ports: u32, random: &mut Random) -> Vec<Circuit> {
    let (tours, rest) = (ring_ports / u32::from(nodes), ring_ports % u32::from(nodes));
    let mut circuits = tour(rest as u8, random);
    for _ in 0..tours {
        circuits.extend(tour(nodes, random));
    }
    circuits
}
