//! What the load reports reach.

use super::Coverage;
use super::Event::*;
use crate::circuit::Circuit;
use crate::place::Direction::{self, Clockwise, Counterclockwise};
use crate::table::{Table, NODES_MOST};

impl Coverage {
    /// Counts a report by what its ring holds and how its loads go from link to link.
    pub(super) fn saw_load(&mut self, table: &Table, loads: &[u8]) {
        self.saw(Load);
        self.saw_if(table.circuits().next().is_none(), LoadOfNone);
        self.saw_if(table.nodes == NODES_MOST, LoadOfLargestRing);
        self.saw_if(table.pairs().next().is_some(), LoadOfPair);
        for (way, first) in [(Clockwise, 0), (Counterclockwise, 1)] {
            let circuits = circuits_set_up(table, way);
            let is_over_last_link =
                |circuit: &Circuit| circuit.uses_link(table.nodes, way, table.nodes);
            self.saw_if(circuits.iter().any(is_over_last_link), LoadOverLastLink(way));
            let begins_where_one_ends =
                |a: &Circuit| circuits.iter().any(|b| a.source == b.destination);
            self.saw_if(circuits.iter().any(begins_where_one_ends), LoadBeginsAndEnds(way));
            let loads: Vec<u8> = loads.iter().skip(first).step_by(2).copied().collect();
            self.saw_if(loads.windows(2).any(|links| links[1] < links[0]), LoadFalls(way));
        }
    }
}

fn circuits_set_up(table: &Table, way: Direction) -> Vec<Circuit> {
    let there = table.lightpaths().filter(|lightpath| lightpath.place.direction() == way);
    there.map(|lightpath| lightpath.circuit).collect()
}
