//! Tables that meet the ring rules with circuits wherever they may stand, as no row of openings
//! leaves them; and tables that break a ring rule.

use super::traffic::{new_circuit, off_ring, some_of, Ends};
use crate::circuit::{can_share, Circuit};
use crate::place::Place;
use crate::random::Random;
use crate::table::{Channel, Lightpath, Table, NODE_PORTS_MOST};

/// In how many of a hundred circuits of a table another one's return is wanted.
const RETURNS: usize = 25;

/// A table of the ring with these ports, from no circuit up to as many as find room; or one with
/// all places lit and hardly any shared, so that the next opening has to move circuits.
pub fn scattered(ports: &[u8], random: &mut Random) -> Table {
    let mut table = Table::make(ports.len() as u8, ports).expect("the ports are those of a ring");
    let (circuits, share) = if random.percent(50) {
        (table.places_in_use(), 2)
    } else {
        (random.between(0, table.ring_ports() as usize), 50)
    };
    for _ in 0..circuits {
        if let Some(Lightpath { circuit, place }) = one_more(&table, share, random) {
            table.set_up(circuit, place);
        }
    }
    table
}

/// One circuit more and a place for it: in so many of a hundred one where it shares.
pub fn one_more(table: &Table, share: usize, random: &mut Random) -> Option<Lightpath> {
    let mut ends = Ends::free(table)?;
    ends.add_returns(table.circuits());
    let (source, destination) = ends.draw(RETURNS, random);
    if source == destination {
        return None;
    }
    let circuit = new_circuit(table, source, destination, random);
    let (mut shared, mut unlit) = (Vec::new(), Vec::new());
    for place in (0..table.places_in_use() as u8).map(Place) {
        match table.channels[place.index()] {
            Channel::Unlit => unlit.push(place),
            Channel::One(old) if can_share(table.nodes, place.direction(), old, circuit) => {
                shared.push(place);
            }
            _ => {}
        }
    }
    let places = if unlit.is_empty() || random.percent(share) { shared } else { unlit };
    Some(Lightpath { circuit, place: some_of(&places, random)? })
}

/// The table with no account at any circuit.
pub fn without_accounts(mut table: Table) -> Table {
    for channel in &mut table.channels {
        match channel {
            Channel::Unlit => {}
            Channel::One(circuit) => circuit.account = 0,
            Channel::Two(first, second) => (first.account, second.account) = (0, 0),
        }
    }
    table
}

/// Changes the table so that it mostly breaks one of the rules for circuits.
pub fn break_rule(table: &mut Table, random: &mut Random) {
    let lightpaths: Vec<Lightpath> = table.lightpaths().collect();
    let (Some(a), Some(b)) = (some_of(&lightpaths, random), some_of(&lightpaths, random)) else {
        return;
    };
    let odd_node = off_ring(table, random);
    match random.below(9) {
        0 => change(table, a, |circuit| circuit.source = odd_node),
        1 => change(table, a, |circuit| circuit.destination = odd_node),
        2 => change(table, a, |circuit| circuit.destination = circuit.source),
        3 => change(table, a, |circuit| circuit.number = b.circuit.number),
        4 | 5 => turn_pairs(table),
        6 => put_together(table, random),
        7 => table.channels.swap(a.place.index(), a.place.index() ^ 1),
        _ => move_port(table, random),
    }
}

fn change(table: &mut Table, at: Lightpath, change: impl FnOnce(&mut Circuit)) {
    match &mut table.channels[at.place.index()] {
        Channel::Two(_, second) if *second == at.circuit => change(second),
        Channel::One(first) | Channel::Two(first, _) => change(first),
        Channel::Unlit => {}
    }
}

/// Puts the higher number first at each place.
fn turn_pairs(table: &mut Table) {
    for channel in &mut table.channels {
        if let Channel::Two(first, second) = *channel {
            *channel = Channel::Two(second, first);
        }
    }
}

/// Puts two circuits that stand alone at the place of one of them; mostly they cannot share.
fn put_together(table: &mut Table, random: &mut Random) {
    let alone: Vec<Lightpath> = table.nonsharing().collect();
    let (Some(a), Some(b)) = (some_of(&alone, random), some_of(&alone, random)) else {
        return;
    };
    if a != b {
        table.take_down(b.circuit.number, b.place);
        table.set_up(b.circuit, a.place);
    }
}

/// Gives a port of one node to another, so that the ring has as many as before.
fn move_port(table: &mut Table, random: &mut Random) {
    let nodes = usize::from(table.nodes);
    let (from, to) = (random.below(nodes), random.below(nodes));
    if table.ports[from] > 0 && table.ports[to] < NODE_PORTS_MOST {
        table.ports[from] -= 1;
        table.ports[to] += 1;
    }
}

#[cfg(test)]
mod tests {
    use super::*;
    use crate::generator::rings::Shape;
    use crate::place::Direction;
    use crate::table::Rule;

    fn tables(count: usize, random: &mut Random) -> Vec<Table> {
        let shapes = [Shape::Small, Shape::Middling, Shape::Large];
        let one = |index: usize| {
            let ports = shapes[index % shapes.len()].ports(random);
            scattered(&ports, random)
        };
        (0..count).map(one).collect()
    }

    #[test]
    fn scattered_tables_meet_the_ring_rules() {
        let tables = tables(300, &mut Random::new(1));
        assert!(tables.iter().all(Table::meets_ring_rules));
        assert!(tables.iter().any(|table| table.circuits().next().is_none()));
        let is_full = |table: &Table| table.nonsharing().count() == table.places_in_use();
        assert!(tables.iter().any(|table| table.nodes == 64 && is_full(table)));
    }

    #[test]
    fn a_circuit_and_its_return_share_each_way_or_stand_alone() {
        let tables = tables(300, &mut Random::new(3));
        for way in [Direction::Clockwise, Direction::Counterclockwise] {
            let shares = |(place, a, b): (Place, Circuit, Circuit)| {
                place.direction() == way && a.is_return_of(b)
            };
            assert!(tables.iter().any(|table| table.pairs().any(shares)), "{way:?}");
        }
        let stand_alone = |table: &Table| {
            let is_return = |a: Lightpath, b: Lightpath| a.circuit.is_return_of(b.circuit);
            table.nonsharing().any(|a| table.nonsharing().any(|b| is_return(a, b)))
        };
        assert!(tables.iter().any(stand_alone));
    }

    #[test]
    fn each_rule_for_circuits_is_broken() {
        let mut random = Random::new(2);
        let mut broken = Vec::new();
        for mut table in tables(600, &mut random) {
            break_rule(&mut table, &mut random);
            broken.extend(table.broken_rule());
        }
        broken.sort();
        broken.dedup();
        assert_eq!(broken, [Rule::Ends, Rule::Numbers, Rule::Ports, Rule::Order, Rule::Sharing]);
    }
}
