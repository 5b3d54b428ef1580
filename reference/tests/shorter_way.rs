//! Step 2 of an opening: the shorter way first.

mod common;

use std::cmp::Ordering;
use std::collections::BTreeMap;

use common::{circuit, open, plan_tables, put, ring, ring_of_01, ring_with_return, standing};
use second_controller::circuit::{can_share, Circuit};
use second_controller::generator::Kind;
use second_controller::opening::Opening;
use second_controller::place::Direction::{self, Clockwise, Counterclockwise};
use second_controller::place::Place;
use second_controller::random::Random;
use second_controller::table::{Channel, Table, NODES_LEAST, NODES_MOST};

/// The place of a circuit between the nodes, which is opened without a move.
fn place(table: &Table, source: u8, destination: u8) -> u8 {
    let opening = open(&mut table.clone(), circuit(1_000_000, source, destination)).unwrap();
    assert_eq!((opening.moves, opening.looks), (0, 0));
    opening.place.0
}

#[test]
fn a_circuit_goes_where_it_uses_fewer_links() {
    let five = ring(&[1; 5]);
    assert_eq!([2, 3, 4, 5].map(|destination| place(&five, 1, destination)), [0, 0, 1, 1]);
    assert_eq!([5, 1, 2, 3].map(|destination| place(&five, 4, destination)), [0, 0, 1, 1]);
    let largest = ring(&[3; 64]);
    assert_eq!([32, 34, 64].map(|destination| place(&largest, 1, destination)), [0, 1, 1]);
    assert_eq!([1, 31, 33].map(|destination| place(&largest, 64, destination)), [0, 0, 1]);
}

#[test]
fn with_as_many_links_either_way_it_goes_clockwise() {
    for nodes in (4..=64).step_by(2) {
        let fresh = ring(&vec![1; usize::from(nodes)]);
        for source in 1..=nodes {
            let after = |hops: u8| (source + hops - 1) % nodes + 1;
            let half = nodes / 2;
            let places = [half - 1, half, half + 1].map(|hops| place(&fresh, source, after(hops)));
            assert_eq!(places, [0, 0, 1], "{nodes} nodes, from {source}");
        }
    }
}

/// 2→4, 4→5 and 4→2 are adjacent to none from 1 to 3 or 5.
#[test]
fn a_lower_unlit_place_of_the_longer_way_is_passed_over() {
    let clockwise = [(0, circuit(1, 2, 4)), (2, circuit(2, 4, 5)), (4, circuit(3, 4, 2))];
    for (lit, expected) in [(0, 0), (1, 2), (2, 4), (3, 6)] {
        assert_eq!(place(&standing(&[2; 5], &clockwise[..lit]), 1, 3), expected);
    }
    let counterclockwise = clockwise.map(|(place, circuit)| (place + 1, circuit));
    for (lit, expected) in [(0, 1), (1, 3), (2, 5), (3, 7)] {
        assert_eq!(place(&standing(&[2; 5], &counterclockwise[..lit]), 1, 5), expected);
    }
}

/// Six nodes with places 0 to 3; 3→4, 5→6 and 4→5 are adjacent to none between 1 and 2.
#[test]
fn the_longer_way_is_for_a_circuit_whose_shorter_way_is_full() {
    let lit_at = |places: &[u8]| {
        let circuits = [circuit(1, 3, 4), circuit(2, 5, 6), circuit(3, 4, 5)];
        let lit: Vec<_> = places.iter().copied().zip(circuits).collect();
        standing(&[1; 6], &lit)
    };
    assert_eq!(place(&lit_at(&[0, 2]), 1, 2), 1);
    assert_eq!(place(&lit_at(&[0, 2, 1]), 1, 2), 3);
    assert_eq!(place(&lit_at(&[1, 3]), 2, 1), 0);
    assert_eq!(place(&lit_at(&[1, 3, 0]), 2, 1), 2);
    // One place of the shorter way is left.
    assert_eq!(place(&lit_at(&[0, 1, 3]), 1, 2), 2);
    assert_eq!(place(&lit_at(&[0, 1, 2]), 2, 1), 3);
}

/// On six nodes 1→4 uses three links either way; 2→3 and 5→6 are not adjacent to it.
#[test]
fn with_as_many_links_either_way_it_goes_counterclockwise_where_clockwise_is_full() {
    let lit = [(0, circuit(1, 2, 3)), (2, circuit(2, 5, 6))];
    assert_eq!(place(&standing(&[1; 6], &lit), 1, 4), 1);
    assert_eq!(place(&standing(&[1; 6], &lit[..1]), 1, 4), 2);
}

/// On six nodes 6→1 uses one link clockwise; on five 5→4 uses one counterclockwise.
#[test]
fn step_3_comes_where_both_ways_are_full() {
    let (mut table, new) = ring_with_return(0, 1);
    assert_eq!(new, circuit(6, 6, 1));
    let opening = open(&mut table.clone(), new);
    assert_eq!(opening, Ok(Opening { place: Place(1), moves: 1, looks: 1 }));
    // 5 stands alone at place 3; without it the longer way has an unlit place.
    table.close(5).unwrap();
    assert_eq!(place(&table, 6, 1), 3);
    let opening = open(&mut ring_of_01(), circuit(15, 5, 4));
    assert_eq!(opening, Ok(Opening { place: Place(2), moves: 3, looks: 2 }));
}

/// With k ports at each of six nodes 2 × W is 4 × k. All places of one direction below it are lit by
/// circuits from three of the nodes to the other three, as the new one is.
#[test]
fn a_place_at_2_w_or_above_is_not_taken() {
    for ports in 1..=32 {
        let lit_by = |first: u8, circuits: [(u8, u8); 2]| {
            let places = (first..4 * ports).step_by(2);
            let lit = (0..).zip(places).map(|(number, place)| {
                let (source, destination) = circuits[number as usize % 2];
                (place, circuit(number, source, destination))
            });
            standing(&[ports; 6], &lit.collect::<Vec<_>>())
        };
        assert_eq!(place(&lit_by(0, [(1, 5), (2, 6)]), 3, 4), 1, "{ports} ports");
        assert_eq!(place(&lit_by(1, [(6, 2), (5, 1)]), 4, 3), 0, "{ports} ports");
    }
}

#[test]
fn step_1_comes_first_and_knows_no_shorter_way() {
    // 2→3 could be joined clockwise at place 2, and place 0 is unlit; it uses four of five links.
    let table = standing(&[2; 5], &[(1, circuit(1, 3, 2)), (2, circuit(2, 3, 4))]);
    assert_eq!(place(&table, 2, 3), 1);
    // 3→2 could be joined counterclockwise at place 1, and place 3 is unlit.
    let table = standing(&[2; 5], &[(0, circuit(1, 2, 3)), (1, circuit(2, 2, 1))]);
    assert_eq!(place(&table, 3, 2), 0);
}

/// A table in which each direction is unlit, lit here and there, or full as far as ports permit.
fn table_at_random(nodes: u8, random: &mut Random) -> Table {
    let ports: Vec<u8> = (0..nodes).map(|_| random.below(4) as u8).collect();
    let mut table = ring(&ports);
    let shares = [(); 2].map(|()| *random.pick(&[0, 60, 100, 100]));
    let mut lit: Vec<u8> = (0..table.places_in_use() as u8).collect();
    lit.retain(|&place| random.percent(shares[usize::from(place % 2)]));
    random.shuffle(&mut lit);
    let [sources, destinations] = [(); 2].map(|()| ports_in_any_order(&ports, random));
    let ends = sources.into_iter().zip(destinations).filter(|(from, to)| from != to);
    for ((number, place), (source, destination)) in (0..).zip(lit).zip(ends) {
        put(&mut table, Place(place), circuit(number, source, destination));
    }
    table
}

/// Each node as often as it has ports.
fn ports_in_any_order(ports: &[u8], random: &mut Random) -> Vec<u8> {
    let each = (1..).zip(ports).map(|(node, &count)| vec![node; usize::from(count)]);
    let mut nodes = each.collect::<Vec<_>>().concat();
    random.shuffle(&mut nodes);
    nodes
}

/// Tables of every number of nodes, and tables as the planning program's lines leave them.
fn many_tables() -> Vec<Table> {
    let mut random = Random::new(61);
    let mut many = Vec::new();
    for nodes in NODES_LEAST..=NODES_MOST {
        many.extend((0..25).map(|_| table_at_random(nodes, &mut random)));
    }
    for kind in [Kind::Small, Kind::Mixed, Kind::Large] {
        many.extend(plan_tables(kind, 62, 6000, 7));
    }
    many
}

fn links_used(table: &Table, new: Circuit, way: Direction) -> usize {
    (1..=table.nodes).filter(|&link| new.uses_link(link, way, table.nodes)).count()
}

/// Step 1 as document 01 says it.
fn place_to_join(table: &Table, new: Circuit) -> Option<Place> {
    let fits = |place: Place, old| can_share(table.nodes, place.direction(), old, new);
    (0..128).map(Place).find(
        |&place| matches!(table.channels[place.index()], Channel::One(old) if fits(place, old)),
    )
}

/// The unlit places below 2 × W: first those where the circuit uses fewer links, then clockwise
/// ones, then the lowest.
fn unlit_places(table: &Table, new: Circuit) -> Vec<Place> {
    let ring_ports: u32 = table.ports.iter().copied().map(u32::from).sum();
    let mut unlit: Vec<Place> = (0..2 * ring_ports.div_ceil(3) as u8).map(Place).collect();
    unlit.retain(|place| table.channels[place.index()] == Channel::Unlit);
    let [clockwise, counterclockwise] =
        [Clockwise, Counterclockwise].map(|way| links_used(table, new, way));
    unlit.sort_by_key(|&Place(place)| match place % 2 {
        0 => (clockwise, 0, place),
        _ => (counterclockwise, 1, place),
    });
    unlit
}

fn has_free_ports(table: &Table, new: Circuit) -> bool {
    let sent = table.circuits().filter(|old| old.source == new.source).count();
    let received = table.circuits().filter(|old| old.destination == new.destination).count();
    sent < table.ports_at(new.source) as usize
        && received < table.ports_at(new.destination) as usize
}

/// Which way step 2 went, and how its links compare with those of the other way.
type Sort = (Direction, Ordering);

/// Holds an opening with both ports free to documents 01 and 02; gives its sort if step 2 serves it.
fn check_opening(table: &Table, new: Circuit) -> Option<Sort> {
    let opening = open(&mut table.clone(), new).unwrap();
    let unlit = unlit_places(table, new);
    if let Some(place) = place_to_join(table, new) {
        assert_eq!(opening, Opening { place, moves: 0, looks: 0 }, "{new:?} on {table:?}");
        return None;
    }
    let Some(&place) = unlit.first() else {
        assert!((1..=3).contains(&opening.moves), "{new:?} on {table:?}");
        return None;
    };
    assert_eq!(opening, Opening { place, moves: 0, looks: 0 }, "{new:?} on {table:?}");
    let is_short =
        |place: &Place| links_used(table, new, place.direction()) <= usize::from(table.nodes) / 2;
    assert!(is_short(&place) || !unlit.iter().any(is_short), "{new:?} on {table:?}");
    let way = place.direction();
    let [links, others] = [way, way.other()].map(|way| links_used(table, new, way));
    Some((way, links.cmp(&others)))
}

#[test]
fn every_opening_by_step_2_takes_the_place_that_document_02_names() {
    let mut random = Random::new(63);
    let mut by_step_2: BTreeMap<Sort, usize> = BTreeMap::new();
    let mut by_nodes = [0; NODES_MOST as usize + 1];
    for table in many_tables() {
        let nodes = usize::from(table.nodes);
        for _ in 0..12 {
            let source = random.below(nodes);
            let hops = if random.percent(20) { nodes / 2 } else { random.between(1, nodes - 1) };
            let destination = (source + hops) % nodes;
            let new = circuit(1_000_000, source as u8 + 1, destination as u8 + 1);
            if !has_free_ports(&table, new) {
                continue;
            }
            if let Some(sort) = check_opening(&table, new) {
                *by_step_2.entry(sort).or_default() += 1;
                by_nodes[nodes] += 1;
            }
        }
    }
    for way in [Clockwise, Counterclockwise] {
        for ordering in [Ordering::Less, Ordering::Equal, Ordering::Greater] {
            let count = by_step_2.get(&(way, ordering)).copied().unwrap_or(0);
            assert!(count > 50, "{count} openings {way:?}, links {ordering:?}");
        }
    }
    let fewest = by_nodes[usize::from(NODES_LEAST)..].iter().min().unwrap();
    assert!(*fewest > 20, "{fewest} openings on some number of nodes");
}
