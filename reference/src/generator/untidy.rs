//! Tables with much to tidy: circuits alone at their places, many of them adjacent.

use std::cmp::Reverse;

use super::longest::filled;
use super::opened::circuit_for_each_port;
use super::rings::even;
use super::tables::one_more;
use crate::circuit::can_share;
use crate::place::Place;
use crate::random::Random;
use crate::table::{Lightpath, Table, PLACES};

/// A table of the ring with these ports, with all places lit but for a few and none shared. Most
/// adjacent pairs stand in the one direction in which they cannot share, so that they are passed
/// over; of some circuits it is left to chance.
pub fn untidy(ports: &[u8], random: &mut Random) -> Table {
    let mut table = Table::make(ports.len() as u8, ports).expect("the ports are those of a ring");
    let unlit = *random.pick(&[0, 0, 0, 1, 3]);
    let most_tries = *random.pick(&[2, 8, 24]);
    let by_chance = *random.pick(&[0, 5, 20]);
    for _ in unlit..table.places_in_use() {
        let tries = if random.percent(by_chance) { 2 } else { most_tries };
        let drawn = (0..tries).filter_map(|_| one_more(&table, 0, random));
        if let Some(Lightpath { circuit, place }) = drawn.min_by_key(|new| ease(&table, *new)) {
            table.set_up(circuit, place);
        }
    }
    table
}

/// With how many of the nonsharing circuits the new one can be joined at once; and then to how
/// many it is adjacent but cannot, most of them first.
fn ease(table: &Table, new: Lightpath) -> (usize, Reverse<usize>) {
    let (mut joined, mut passed_over) = (0, 0);
    for old in table.nonsharing().filter(|old| old.circuit.is_adjacent_to(new.circuit)) {
        let can_share_at =
            |place: Place| can_share(table.nodes, place.direction(), old.circuit, new.circuit);
        if can_share_at(old.place) || can_share_at(new.place) {
            joined += 1;
        } else {
            passed_over += 1;
        }
    }
    (joined, Reverse(passed_over))
}

/// A ring with the most ports, spread evenly, and a circuit alone at every place.
pub fn crowded(nodes: u8, random: &mut Random) -> Table {
    let ports = even(usize::from(nodes));
    let mut table = Table::make(nodes, &ports).expect("the ports are those of a ring");
    let mut circuits = circuit_for_each_port(nodes, table.ring_ports(), random);
    random.shuffle(&mut circuits);
    for (place, circuit) in (0..PLACES as u8).zip(circuits) {
        table.set_up(filled(circuit, &table, random), Place(place));
    }
    table
}

#[cfg(test)]
mod tests {
    use super::*;
    use crate::generator::rings::Shape;

    #[test]
    fn untidy_tables_meet_the_ring_rules_and_share_no_place() {
        let mut random = Random::new(1);
        let mut full = 0;
        for shape in [Shape::Small, Shape::Middling, Shape::Large] {
            for _ in 0..100 {
                let table = untidy(&shape.ports(&mut random), &mut random);
                assert!(table.meets_ring_rules());
                assert_eq!(table.pairs().count(), 0);
                full += usize::from(table.nonsharing().count() == table.places_in_use());
            }
        }
        assert!(full > 50, "{full} tables have all places lit");
    }
}
