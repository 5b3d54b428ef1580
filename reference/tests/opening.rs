//! Opening and closing: the steps, the moves, the looks and the refusals.

mod common;

use common::{
    check_moves, circuit, circuits_by_number, open, record, ring, ring_of_01,
    ring_where_first_fits, ring_where_second_fits, ring_with_return, standing, tables, UNWRITTEN,
};
use second_controller::circuit::Circuit;
use second_controller::generator::Kind;
use second_controller::opening::{Move, Opening};
use second_controller::place::{Direction, Place};
use second_controller::random::Random;
use second_controller::refusal::Refusal;
use second_controller::table::{Channel, Table};

fn answer(place: u8, moves: usize, looks: u32) -> Result<Opening, Refusal> {
    Ok(Opening { place: Place(place), moves, looks })
}

#[test]
fn step_1_comes_before_a_free_place() {
    let mut table = ring(&[2; 5]);
    assert_eq!(open(&mut table, circuit(7, 1, 3)), answer(0, 0, 0));
    assert_eq!(open(&mut table, circuit(3, 3, 4)), answer(0, 0, 0));
    assert_eq!(table.channels[0], Channel::Two(circuit(3, 3, 4), circuit(7, 1, 3)));
}

#[test]
fn step_1_takes_the_lowest_place_that_fits() {
    let circuits = [(0, circuit(1, 2, 5)), (2, circuit(2, 1, 3)), (4, circuit(3, 1, 3))];
    let mut table = standing(&[2; 5], &circuits);
    assert_eq!(open(&mut table, circuit(4, 3, 4)), answer(2, 0, 0));
}

#[test]
fn circuits_without_a_common_link_do_not_share_unless_adjacent() {
    let mut table = ring(&[2; 5]);
    open(&mut table, circuit(1, 1, 2)).unwrap();
    assert_eq!(open(&mut table, circuit(2, 3, 4)), answer(2, 0, 0));
}

#[test]
fn step_1_joins_a_circuit_and_its_return_either_way() {
    for place in [0, 1, 2, 3] {
        let mut table = standing(&[2; 5], &[(place, circuit(1, 2, 3))]);
        assert_eq!(open(&mut table, circuit(2, 3, 2)), answer(place, 0, 0));
        let pair = Channel::Two(circuit(1, 2, 3), circuit(2, 3, 2));
        assert_eq!(table.channels[usize::from(place)], pair);
    }
}

#[test]
fn step_1_takes_the_lower_of_two_returns_whatever_their_directions() {
    for (lower, higher) in [(0, 1), (1, 2), (0, 2), (1, 3)] {
        let circuits = [(lower, circuit(1, 2, 3)), (higher, circuit(2, 2, 3))];
        let mut table = standing(&[2; 5], &circuits);
        assert_eq!(open(&mut table, circuit(3, 3, 2)), answer(lower, 0, 0));
    }
}

#[test]
fn one_hop_less_or_more_than_n_is_joined_one_way_only() {
    let opening = |place: u8, destination: u8| {
        let mut table = standing(&[2; 5], &[(place, circuit(1, 2, 4))]);
        open(&mut table, circuit(2, 4, destination))
    };
    // 2→4 with 4→1 totals 4, with 4→3 it totals 6; where they are not joined, the shorter way of
    // 4→1 is clockwise, to place 0, and that of 4→3 counterclockwise, to place 1.
    assert_eq!((opening(0, 1), opening(1, 1)), (answer(0, 0, 0), answer(0, 0, 0)));
    assert_eq!((opening(0, 3), opening(1, 3)), (answer(1, 0, 0), answer(1, 0, 0)));
}

#[test]
fn step_3b_of_document_01_moves_three() {
    let mut table = ring_of_01();
    let mut list = [UNWRITTEN; 4];
    assert_eq!(table.open(circuit(15, 5, 4), &mut list), answer(2, 3, 2));
    assert_eq!(list, [record(12, 1, 0), record(11, 0, 1), record(13, 2, 1), UNWRITTEN]);
    assert_eq!(table.channels[0], Channel::One(circuit(12, 2, 3)));
    assert_eq!(table.channels[1], Channel::Two(circuit(11, 1, 5), circuit(13, 4, 1)));
    assert_eq!(table.channels[2], Channel::One(circuit(15, 5, 4)));
    assert_eq!(table.channels[3], Channel::One(circuit(14, 3, 2)));
}

/// Six nodes, three wavelengths, all places lit; three moves lead to the next table.
fn full_ring() -> Table {
    let circuits = [
        (0, circuit(101, 3, 5)),
        (1, circuit(102, 6, 5)),
        (2, circuit(103, 1, 4)),
        (3, circuit(104, 1, 2)),
        (4, circuit(105, 4, 3)),
        (5, circuit(106, 2, 1)),
    ];
    let mut table = standing(&[2, 1, 2, 1, 2, 1], &circuits);
    assert_eq!(open(&mut table, circuit(107, 3, 1)), answer(4, 3, 4));
    table
}

#[test]
fn step_3b_with_the_new_circuit_moves_two_over_a_shared_lowest_place() {
    let mut table = full_ring();
    let mut list = [UNWRITTEN; 3];
    assert!(matches!(table.channels[1], Channel::Two(..)));
    assert_eq!(table.open(circuit(108, 5, 3), &mut list), answer(3, 2, 5));
    assert_eq!(list, [record(104, 3, 0), record(102, 0, 3), UNWRITTEN]);
    assert_eq!(table.channels[0], Channel::One(circuit(104, 1, 2)));
    assert_eq!(table.channels[3], Channel::Two(circuit(102, 6, 5), circuit(108, 5, 3)));
}

#[test]
fn step_3a_keeps_the_lower_place_where_both_fit() {
    let mut table = full_ring();
    open(&mut table, circuit(108, 5, 3)).unwrap();
    let mut list = [UNWRITTEN; 3];
    assert_eq!(table.open(circuit(109, 5, 6), &mut list), answer(4, 1, 2));
    assert_eq!(list, [record(107, 4, 0), UNWRITTEN, UNWRITTEN]);
    assert_eq!(table.channels[0], Channel::Two(circuit(104, 1, 2), circuit(107, 3, 1)));
    assert_eq!(table.channels[4], Channel::One(circuit(109, 5, 6)));
}

#[test]
fn step_3a_keeps_the_first_member_where_only_it_fits() {
    let (mut table, new) = ring_where_first_fits();
    let mut list = [UNWRITTEN; 3];
    assert_eq!(table.open(new, &mut list), answer(3, 1, 3));
    assert_eq!(list, [record(4, 3, 0), UNWRITTEN, UNWRITTEN]);
}

#[test]
fn step_3a_keeps_the_second_member_where_only_it_fits() {
    let (mut table, new) = ring_where_second_fits();
    let mut list = [UNWRITTEN; 3];
    assert_eq!(table.open(new, &mut list), answer(0, 1, 3));
    assert_eq!(list, [record(1, 0, 3), UNWRITTEN, UNWRITTEN]);
}

#[test]
fn step_3a_keeps_the_lower_place_of_a_circuit_and_its_return() {
    // The last column is the looks: between places 1 and 3 stands a circuit alone at place 2.
    for (lower, higher, looks) in [(0, 1, 1), (1, 2, 1), (0, 2, 1), (1, 3, 2)] {
        let (mut table, new) = ring_with_return(lower, higher);
        let mut list = [UNWRITTEN; 3];
        assert_eq!(table.open(new, &mut list), answer(higher, 1, looks), "{lower} {higher}");
        assert_eq!(list, [record(2, higher, lower), UNWRITTEN, UNWRITTEN]);
        let pair = Channel::Two(circuit(1, 2, 3), circuit(2, 3, 2));
        assert_eq!(table.channels[usize::from(lower)], pair);
        assert_eq!(table.channels[usize::from(higher)], Channel::One(new));
    }
}

/// The circuit with an account of its own.
fn billed(circuit: Circuit) -> Circuit {
    Circuit { account: u32::MAX - circuit.number, ..circuit }
}

/// The table with an account at every circuit.
fn all_billed(table: &Table) -> Table {
    let mut table = table.clone();
    for channel in &mut table.channels {
        *channel = match *channel {
            Channel::Unlit => Channel::Unlit,
            Channel::One(circuit) => Channel::One(billed(circuit)),
            Channel::Two(first, second) => Channel::Two(billed(first), billed(second)),
        };
    }
    table
}

#[test]
fn accounts_go_with_their_circuits_and_change_no_opening() {
    let openings = [
        (ring(&[1; 5]), circuit(1, 1, 2)),
        ring_where_first_fits(),
        (full_ring(), circuit(108, 5, 3)),
        (ring_of_01(), circuit(15, 5, 4)),
    ];
    for (moves, (mut table, new)) in openings.into_iter().enumerate() {
        let mut with_accounts = all_billed(&table);
        let opening = open(&mut table, new).unwrap();
        assert_eq!(opening.moves, moves);
        assert_eq!(open(&mut with_accounts, billed(new)), Ok(opening));
        assert_eq!(with_accounts, all_billed(&table));
    }
}

/// Whether the pair of 3b, which stands where x was, totals N.
fn is_3b_of_return(after: &Table, list: &[Move]) -> bool {
    match after.channels[list[0].from.index()] {
        Channel::Two(a, b) => a.hops(after.nodes) + b.hops(after.nodes) == after.nodes,
        _ => panic!("3b puts a pair together"),
    }
}

#[test]
fn step_3b_never_has_a_circuit_and_its_return() {
    let mut openings = 0;
    for table in tables(Kind::Small, 12, 20_000, 3) {
        for source in 1..=table.nodes {
            for destination in 1..=table.nodes {
                let mut after = table.clone();
                let mut list = [UNWRITTEN; 3];
                let opening = after.open(circuit(1_000_000, source, destination), &mut list);
                if opening.is_ok_and(|opening| opening.moves >= 2) {
                    assert!(!is_3b_of_return(&after, &list), "{table:?} {source} {destination}");
                    openings += 1;
                }
            }
        }
    }
    assert!(openings > 50, "{openings} openings by 3b");
}

#[test]
fn each_refusal_of_an_opening() {
    let mut table = ring(&[1, 1, 2, 0, 2]);
    open(&mut table, circuit(1, 1, 2)).unwrap();
    for (source, destination) in [(0, 1), (1, 0), (6, 1), (1, 6), (255, 255)] {
        let refused = open(&mut table, circuit(2, source, destination));
        assert_eq!(refused, Err(Refusal::OffRing));
    }
    assert_eq!(open(&mut table, circuit(2, 3, 3)), Err(Refusal::SameEnds));
    assert_eq!(open(&mut table, circuit(1, 3, 5)), Err(Refusal::NumberLive));
    assert_eq!(open(&mut table, circuit(2, 1, 3)), Err(Refusal::NoTransmitter));
    assert_eq!(open(&mut table, circuit(2, 4, 3)), Err(Refusal::NoTransmitter));
    assert_eq!(open(&mut table, circuit(2, 3, 2)), Err(Refusal::NoReceiver));
    assert_eq!(open(&mut table, circuit(2, 3, 4)), Err(Refusal::NoReceiver));
    let short = table.open(circuit(2, 3, 5), &mut [UNWRITTEN; 2]);
    assert_eq!(short, Err(Refusal::ShortMoveList));
    assert!(open(&mut table, circuit(2, 2, 1)).is_ok(), "a node that receives can still send");
}

#[test]
fn faults_of_an_opening_are_named_in_order() {
    let mut table = ring(&[1; 5]);
    open(&mut table, circuit(1, 1, 2)).unwrap();
    let mut broken = table.clone();
    broken.ports[5] = 1;
    assert_eq!(broken.open(circuit(1, 9, 9), &mut []), Err(Refusal::BrokenTable));
    assert_eq!(table.open(circuit(1, 9, 9), &mut []), Err(Refusal::ShortMoveList));
    assert_eq!(open(&mut table, circuit(1, 9, 9)), Err(Refusal::OffRing));
    assert_eq!(open(&mut table, circuit(1, 1, 1)), Err(Refusal::SameEnds));
    assert_eq!(open(&mut table, circuit(1, 1, 2)), Err(Refusal::NumberLive));
    assert_eq!(open(&mut table, circuit(2, 1, 2)), Err(Refusal::NoTransmitter));
}

#[test]
fn a_refused_opening_changes_nothing() {
    let mut table = ring_of_01();
    let before = table.clone();
    let mut list = [UNWRITTEN; 3];
    assert_eq!(table.open(circuit(16, 1, 2), &mut list), Err(Refusal::NoTransmitter));
    assert_eq!((table, list), (before, [UNWRITTEN; 3]));
}

#[test]
fn closing_one_of_two_leaves_the_other_alone() {
    let mut table = ring(&[2; 5]);
    open(&mut table, circuit(7, 1, 3)).unwrap();
    open(&mut table, circuit(3, 3, 4)).unwrap();
    assert_eq!(table.close(3), Ok(()));
    assert_eq!(table.channels[0], Channel::One(circuit(7, 1, 3)));
    assert_eq!(table.close(7), Ok(()));
    assert_eq!(table, ring(&[2; 5]));
}

#[test]
fn closing_one_of_two_leaves_the_account_of_the_other() {
    let [one, two] = [circuit(1, 1, 3), circuit(2, 3, 4)].map(billed);
    for (closed, other) in [(one, two), (two, one)] {
        let mut table = standing(&[2; 5], &[(0, one), (0, two)]);
        assert_eq!(table.close(closed.number), Ok(()));
        assert_eq!(table, standing(&[2; 5], &[(0, other)]));
    }
}

#[test]
fn each_refusal_of_a_closing() {
    let mut table = ring_of_01();
    let before = table.clone();
    assert_eq!(table.close(15), Err(Refusal::NumberNotLive));
    assert_eq!(table, before);
    assert_eq!(Table::blank().close(15), Err(Refusal::BrokenTable));
}

/// What the customer's third demand says of an opening that is not refused.
fn check_opening(before: &Table, new: Circuit) {
    let mut after = before.clone();
    let mut list = [UNWRITTEN; 3];
    let Ok(opening) = after.open(new, &mut list) else {
        assert_eq!((&after, list), (before, [UNWRITTEN; 3]));
        return;
    };
    assert!(after.meets_ring_rules());
    assert_eq!((after.nodes, after.ports), (before.nodes, before.ports));
    assert_eq!(after.place_of(new.number), Some(opening.place));
    let mut circuits: Vec<Circuit> = before.circuits().chain([new]).collect();
    circuits.sort_by_key(|circuit| circuit.number);
    assert_eq!(circuits, circuits_by_number(&after));
    check_moves(before, &after, &list[..opening.moves]);
    assert_eq!(list[opening.moves..], [UNWRITTEN; 3][opening.moves..]);
    assert!(opening.looks <= 8256);
    assert!((1..=after.nodes).all(|link| one_lightpath_each(&after, link)));
}

fn one_lightpath_each(table: &Table, link: u8) -> bool {
    (0u8..).zip(&table.channels).all(|(place, channel)| {
        let direction: Direction = Place(place).direction();
        channel.circuits().filter(|circuit| circuit.uses_link(link, direction, table.nodes)).count()
            <= 1
    })
}

#[test]
fn openings_on_generated_tables_keep_the_third_demand() {
    let mut random = Random::new(1);
    for kind in [Kind::Small, Kind::Mixed, Kind::Large] {
        for table in tables(kind, 11, 4000, 7) {
            let mut node = || random.between(1, usize::from(table.nodes)) as u8;
            for number in [1_000_000, 2_000_000, 3_000_000] {
                check_opening(&table, circuit(number, node(), node()));
            }
        }
    }
}
