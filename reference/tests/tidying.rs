//! Tidying: rounds of each kind, the refusals, and what holds of every tidying.

mod common;

use std::sync::LazyLock;

use common::{
    check_moves, circuit, circuits_by_number, plan_tables, put, record, ring, standing, UNWRITTEN,
};
use second_controller::circuit::can_share;
use second_controller::form;
use second_controller::generator::{self, Kind};
use second_controller::opening::Move;
use second_controller::place::Direction::{self, Clockwise, Counterclockwise};
use second_controller::place::Place;
use second_controller::random::Random;
use second_controller::refusal::Refusal;
use second_controller::table::{Channel, Lightpath, Table, NODES_LEAST, NODES_MOST};
use second_controller::tidying::Tidying;

/// Tidies with a list longer than it needs to be: the rounds and the moves.
fn tidy(table: &mut Table) -> (usize, Vec<Move>) {
    let mut list = [UNWRITTEN; 130];
    let Tidying { rounds, moves } = table.tidy(&mut list).unwrap();
    assert!(list[moves..].iter().all(|&unwritten| unwritten == UNWRITTEN));
    (rounds, list[..moves].to_vec())
}

/// Six nodes with two ports each: four wavelengths, places 0 to 7.
const SIX: [u8; 6] = [2; 6];

/// Tidying joins circuits 1 and 2, which stand alone at these places, in one round.
fn check_pair(ends: [(u8, u8); 2], places: [u8; 2], expected: &[Move]) {
    let [one, two] = [circuit(1, ends[0].0, ends[0].1), circuit(2, ends[1].0, ends[1].1)];
    let mut table = standing(&SIX, &[(places[0], one), (places[1], two)]);
    assert_eq!(tidy(&mut table), (1, expected.to_vec()), "{ends:?} at {places:?}");
    let place = expected[0].to.0;
    assert_eq!(table, standing(&SIX, &[(place, one), (place, two)]), "{ends:?} at {places:?}");
}

/// 1→3 with 3→4, 3 of 6 hops, shares clockwise; 1→5 with 5→4, 9 hops, counterclockwise.
const FITS_CLOCKWISE: [(u8, u8); 2] = [(1, 3), (3, 4)];
const FITS_COUNTERCLOCKWISE: [(u8, u8); 2] = [(1, 5), (5, 4)];

#[test]
fn the_first_member_stays_where_only_it_fits() {
    check_pair(FITS_CLOCKWISE, [0, 1], &[record(2, 1, 0)]);
    check_pair(FITS_CLOCKWISE, [2, 7], &[record(2, 7, 2)]);
    check_pair(FITS_COUNTERCLOCKWISE, [1, 2], &[record(2, 2, 1)]);
    check_pair(FITS_COUNTERCLOCKWISE, [3, 6], &[record(2, 6, 3)]);
}

#[test]
fn the_second_member_stays_where_only_it_fits() {
    check_pair(FITS_CLOCKWISE, [1, 2], &[record(1, 1, 2)]);
    check_pair(FITS_CLOCKWISE, [5, 6], &[record(1, 5, 6)]);
    check_pair(FITS_COUNTERCLOCKWISE, [0, 1], &[record(1, 0, 1)]);
    check_pair(FITS_COUNTERCLOCKWISE, [2, 7], &[record(1, 2, 7)]);
}

#[test]
fn the_lower_place_stays_where_both_fit() {
    check_pair(FITS_CLOCKWISE, [0, 2], &[record(2, 2, 0)]);
    check_pair(FITS_CLOCKWISE, [6, 4], &[record(1, 6, 4)]);
    check_pair(FITS_COUNTERCLOCKWISE, [1, 3], &[record(2, 3, 1)]);
    check_pair(FITS_COUNTERCLOCKWISE, [7, 5], &[record(1, 7, 5)]);
}

#[test]
fn the_lower_place_of_a_circuit_and_its_return_stays_whatever_their_directions() {
    for places in [[0, 1], [0, 2], [1, 2], [1, 3], [2, 7], [5, 6]] {
        let [lower, higher] = places;
        check_pair([(2, 3), (3, 2)], places, &[record(2, higher, lower)]);
        check_pair([(2, 3), (3, 2)], [higher, lower], &[record(1, higher, lower)]);
    }
}

#[test]
fn both_move_to_the_lowest_unlit_place_where_neither_fits() {
    check_pair(FITS_CLOCKWISE, [1, 3], &[record(1, 1, 0), record(2, 3, 0)]);
    check_pair(FITS_CLOCKWISE, [7, 5], &[record(2, 5, 0), record(1, 7, 0)]);
    check_pair(FITS_COUNTERCLOCKWISE, [0, 2], &[record(1, 0, 1), record(2, 2, 1)]);
    check_pair(FITS_COUNTERCLOCKWISE, [6, 4], &[record(2, 4, 1), record(1, 6, 1)]);
}

/// 5, at the lowest place of the direction, is adjacent to none; the lowest unlit place of all
/// is of the other direction.
#[test]
fn both_move_past_a_lit_place_the_lower_old_place_first() {
    let circuits = [(0, circuit(5, 2, 5)), (3, circuit(9, 1, 3)), (5, circuit(4, 3, 4))];
    let mut table = standing(&SIX, &circuits);
    assert_eq!(tidy(&mut table), (1, vec![record(9, 3, 2), record(4, 5, 2)]));
    let pair = [(2, circuit(4, 3, 4)), (2, circuit(9, 1, 3))];
    assert_eq!(table, standing(&SIX, &[&circuits[..1], &pair].concat()));

    let circuits = [(1, circuit(5, 2, 3)), (2, circuit(9, 1, 5)), (4, circuit(4, 5, 4))];
    let mut table = standing(&SIX, &circuits);
    assert_eq!(tidy(&mut table), (1, vec![record(9, 2, 3), record(4, 4, 3)]));
    let pair = [(3, circuit(4, 5, 4)), (3, circuit(9, 1, 5))];
    assert_eq!(table, standing(&SIX, &[&circuits[..1], &pair].concat()));
}

/// Of 1, 2 and 3 each can be joined with each: 1→3, 3→4 and 4→1, all at clockwise places.
#[test]
fn the_first_pair_by_first_member_then_second_is_joined() {
    let circuits = [(0, circuit(3, 4, 1)), (2, circuit(1, 1, 3)), (4, circuit(2, 3, 4))];
    let mut table = standing(&SIX, &circuits);
    assert_eq!(tidy(&mut table), (1, vec![record(1, 2, 0)]));
    let pair = [(0, circuit(1, 1, 3)), (0, circuit(3, 4, 1))];
    assert_eq!(table, standing(&SIX, &[&pair, &circuits[2..]].concat()));
}

/// The pair of places 0 and 6 comes before that of 2 and 4, though its second member comes later.
#[test]
fn the_first_member_counts_before_the_second() {
    let circuits = [
        (0, circuit(1, 1, 2)),
        (2, circuit(3, 4, 5)),
        (4, circuit(4, 5, 6)),
        (6, circuit(2, 2, 3)),
    ];
    let mut table = standing(&SIX, &circuits);
    assert_eq!(tidy(&mut table), (2, vec![record(2, 6, 0), record(4, 4, 2)]));
}

/// Circuits from 1 to 3 are adjacent to none. Those through 2 fit clockwise, where every place is
/// lit, and stand counterclockwise; the pair after theirs is joined, which leaves that so.
#[test]
fn a_pair_is_passed_over_and_a_later_one_joined() {
    let ports = [3, 1, 3, 1, 1];
    let circuits = [
        (0, circuit(1, 1, 3)),
        (1, circuit(2, 1, 2)),
        (2, circuit(3, 4, 5)),
        (3, circuit(4, 2, 3)),
        (4, circuit(5, 1, 3)),
        (5, circuit(6, 5, 4)),
    ];
    let mut table = standing(&ports, &circuits);
    assert_eq!(tidy(&mut table), (1, vec![record(6, 5, 2)]));
    let mut joined = circuits;
    joined[5].0 = 2;
    assert_eq!(table, standing(&ports, &joined));
}

/// All four places are lit. 2 joins 1, and 3 and 4 move to the place that it has left.
#[test]
fn a_place_freed_by_one_round_is_used_by_a_later_one() {
    let ports = [1; 6];
    let [one, two, three, four] =
        [circuit(1, 1, 2), circuit(2, 2, 3), circuit(3, 4, 5), circuit(4, 5, 6)];
    let mut table = standing(&ports, &[(0, one), (1, three), (2, two), (3, four)]);
    assert_eq!(tidy(&mut table), (2, vec![record(2, 2, 0), record(3, 1, 2), record(4, 3, 2)]));
    assert_eq!(table, standing(&ports, &[(0, one), (0, two), (2, three), (2, four)]));
}

/// 2 and 4 fit clockwise, where every place is lit, until 5 joins 3 and leaves place 4; their pair
/// comes before that of 3 and 5. Place 5, unlit from the start, is of the other direction.
#[test]
fn a_pair_passed_over_is_joined_once_a_place_is_unlit() {
    let ports = [1; 8];
    let [one, two, three, four, five] =
        [circuit(1, 4, 8), circuit(2, 1, 2), circuit(3, 5, 6), circuit(4, 2, 3), circuit(5, 6, 7)];
    let circuits = [(0, one), (1, two), (2, three), (3, four), (4, five)];
    let mut table = standing(&ports, &circuits);
    assert_eq!(tidy(&mut table), (2, vec![record(5, 4, 2), record(2, 1, 4), record(4, 3, 4)]));
    let joined = [(0, one), (2, three), (2, five), (4, two), (4, four)];
    assert_eq!(table, standing(&ports, &joined));
}

#[test]
fn nothing_to_tidy() {
    // Every clockwise place is lit, by circuits adjacent to none; 4 and 5 fit clockwise.
    let passed_over = [
        (0, circuit(1, 1, 3)),
        (2, circuit(2, 1, 3)),
        (4, circuit(3, 1, 3)),
        (1, circuit(4, 1, 2)),
        (3, circuit(5, 2, 3)),
    ];
    let tables = [
        ring(&[0; 3]),
        ring(&[3; 64]),
        standing(&SIX, &[(5, circuit(1, 1, 3))]),
        standing(&SIX, &[(0, circuit(1, 1, 3)), (3, circuit(2, 1, 3)), (4, circuit(3, 2, 4))]),
        standing(&SIX, &[(0, circuit(1, 1, 3)), (0, circuit(2, 3, 4)), (2, circuit(3, 4, 1))]),
        standing(&[4, 1, 4], &passed_over),
    ];
    for table in tables {
        let mut tidied = table.clone();
        assert_eq!(tidy(&mut tidied), (0, vec![]));
        assert_eq!(tidied, table);
    }
}

#[test]
fn at_most_64_rounds() {
    let there = (0..64).map(|number| (2 * number as u8, circuit(number, 1, 2)));
    let back = (64..128).map(|number| (2 * (number - 64) as u8 + 1, circuit(number, 2, 1)));
    let circuits: Vec<_> = there.chain(back).collect();
    let mut table = standing(&[64; 3], &circuits);
    let expected = (0..64).map(|round: u8| record(64 + u32::from(round), 2 * round + 1, 2 * round));
    assert_eq!(tidy(&mut table), (64, expected.collect()));
    assert_eq!(lit(&table), 64);
}

#[test]
fn fewer_than_128_records_are_refused_and_a_broken_table_before_that() {
    let pair = [(1, circuit(1, 1, 3)), (3, circuit(2, 3, 4))];
    for table in [standing(&SIX, &pair), ring(&SIX), ring(&[0; 3])] {
        for records in [0, 3, 64, 127] {
            let (mut tidied, mut list) = (table.clone(), vec![UNWRITTEN; records]);
            assert_eq!(tidied.tidy(&mut list), Err(Refusal::ShortMoveList));
            assert_eq!((tidied, list), (table.clone(), vec![UNWRITTEN; records]));
        }
        assert!(table.clone().tidy(&mut [UNWRITTEN; 128]).is_ok());
    }
    let mut broken = standing(&SIX, &pair);
    broken.ports[6] = 1;
    for table in [broken, Table::blank()] {
        for records in [0, 127, 128] {
            let (mut tidied, mut list) = (table.clone(), vec![UNWRITTEN; records]);
            assert_eq!(tidied.tidy(&mut list), Err(Refusal::BrokenTable));
            assert_eq!((tidied, list), (table.clone(), vec![UNWRITTEN; records]));
        }
    }
}

fn lit(table: &Table) -> usize {
    table.channels.iter().filter(|&&channel| channel != Channel::Unlit).count()
}

/// Tables as lines leave them; rings of every size with a circuit alone at every place, and such
/// with more and more of these closed; rings of every size after openings and closings; and rings
/// whose tidying passes many pairs over.
static MANY_TABLES: LazyLock<Vec<Table>> = LazyLock::new(many_tables);

fn many_tables() -> Vec<Table> {
    let mut many = Vec::new();
    for kind in [Kind::Small, Kind::Mixed, Kind::Large] {
        many.extend(plan_tables(kind, 21, 18_000, 5));
    }
    let mut random = Random::new(22);
    for nodes in NODES_LEAST..=NODES_MOST {
        for seed in 0..3 {
            let crowded = form::read(&generator::crowded_form(nodes, seed)).unwrap();
            many.extend(with_closings(crowded, &mut random));
            let opened = form::read(&generator::form(nodes, 192, seed)).unwrap();
            many.extend(with_closings(opened, &mut random));
        }
    }
    many.extend((0..5).map(|seed| form::read(&generator::dear_form(seed)).unwrap()));
    many
}

/// The table, and what is left of it after some closings, and after some more.
fn with_closings(mut table: Table, random: &mut Random) -> Vec<Table> {
    let mut left = vec![table.clone()];
    for _ in 0..3 {
        let mut numbers: Vec<u32> = table.circuits().map(|circuit| circuit.number).collect();
        random.shuffle(&mut numbers);
        numbers.truncate(numbers.len() / 4);
        numbers.into_iter().for_each(|number| table.close(number).unwrap());
        left.push(table.clone());
    }
    left
}

#[test]
fn the_tables_are_of_every_size_full_and_crowded() {
    let many = &*MANY_TABLES;
    assert!(many.len() > 5000, "{} tables", many.len());
    let is_full = |table: &&Table| table.nonsharing().count() == table.places_in_use();
    let full: Vec<&Table> = many.iter().filter(is_full).collect();
    for nodes in NODES_LEAST..=NODES_MOST {
        assert!(full.iter().any(|table| table.nodes == nodes), "{nodes} nodes, all places lit");
        assert!(many.iter().any(|table| table.nodes == nodes && !is_full(&table)), "{nodes} nodes");
    }
    let small = full.iter().filter(|table| (1..=12).contains(&table.places_in_use()));
    assert!(small.count() > 50, "small rings with all places lit");
}

/// The first pair that can be joined and a direction for it, as document 02 says.
fn first_pair(table: &Table) -> Option<(Lightpath, Lightpath, Direction)> {
    let alone: Vec<Lightpath> = table.nonsharing().collect();
    let places = table.places_in_use();
    let has_unlit =
        |way| unlit_places(table, way).next().is_some_and(|place| place.index() < places);
    for (index, &a) in alone.iter().enumerate() {
        for &b in &alone[index + 1..] {
            let can_be_joined = |way: &Direction| {
                let stands_so = [a, b].iter().any(|member| member.place.direction() == *way);
                can_share(table.nodes, *way, a.circuit, b.circuit) && (stands_so || has_unlit(*way))
            };
            if let Some(way) = [Clockwise, Counterclockwise].into_iter().find(can_be_joined) {
                return Some((a, b, way));
            }
        }
    }
    None
}

fn unlit_places(table: &Table, way: Direction) -> impl Iterator<Item = Place> + '_ {
    let places = (0..128).map(Place).filter(move |place| place.direction() == way);
    places.filter(|place| table.channels[place.index()] == Channel::Unlit)
}

/// The moves of one round, as document 02 says.
fn moves_of_round(table: &Table) -> Option<Vec<Move>> {
    let (a, b, way) = first_pair(table)?;
    let fits =
        |member: Lightpath| can_share(table.nodes, member.place.direction(), a.circuit, b.circuit);
    let to = match (fits(a), fits(b)) {
        (true, _) => return Some(vec![record(b.circuit.number, b.place.0, a.place.0)]),
        (false, true) => return Some(vec![record(a.circuit.number, a.place.0, b.place.0)]),
        (false, false) => unlit_places(table, way).next().unwrap(),
    };
    Some([a, b].map(|member| record(member.circuit.number, member.place.0, to.0)).to_vec())
}

/// Takes the circuit of the record off its old place.
fn take_down(table: &mut Table, record: &Move) {
    assert_eq!(table.place_of(record.number), Some(record.from));
    table.close(record.number).unwrap();
}

/// Sets the circuit of the record, as it is in the table `from`, up at its new place.
fn set_up(table: &mut Table, record: &Move, from: &Table) {
    let moved = from.circuits().find(|circuit| circuit.number == record.number).unwrap();
    put(table, record.to, moved);
}

/// Moves the circuits one after the other; the ring rules are met all the time.
fn move_each(before: &Table, moves: &[Move]) -> Table {
    let mut table = before.clone();
    for record in moves {
        take_down(&mut table, record);
        assert!(table.meets_ring_rules());
        set_up(&mut table, record, before);
        assert!(table.meets_ring_rules());
    }
    table
}

/// Takes all listed circuits down before any is set up.
fn move_all(before: &Table, moves: &[Move]) -> Table {
    let mut table = before.clone();
    moves.iter().for_each(|record| take_down(&mut table, record));
    moves.iter().for_each(|record| set_up(&mut table, record, before));
    table
}

/// Every round joins the first pair that can be joined and lowers the lit places by one. Gives the
/// places of the pairs.
fn check_rounds(before: &Table, rounds: usize, moves: &[Move]) -> Vec<[Place; 2]> {
    let mut table = before.clone();
    let mut left = moves;
    let mut pairs = Vec::new();
    for round in 0..rounds {
        pairs.extend(first_pair(&table).map(|(a, b, _)| [a.place, b.place]));
        let expected = moves_of_round(&table).expect("a pair can be joined");
        let (made, rest) = left.split_at(expected.len());
        assert_eq!(made, expected);
        table = move_each(&table, made);
        left = rest;
        assert_eq!(lit(&table), lit(before) - round - 1);
    }
    assert_eq!(left, []);
    assert_eq!(moves_of_round(&table), None, "rounds go on until no pair can be joined");
    pairs
}

#[test]
fn what_holds_of_every_tidying() {
    let mut starts_anew = 0;
    for before in MANY_TABLES.iter() {
        let mut after = before.clone();
        let (rounds, moves) = tidy(&mut after);
        assert!(rounds <= 64 && moves.len() <= 128);
        assert_eq!(lit(&after), lit(before) - rounds);
        assert!(after.meets_ring_rules());
        assert_eq!((after.nodes, after.ports), (before.nodes, before.ports));
        assert_eq!(circuits_by_number(&after), circuits_by_number(before));
        check_moves(before, &after, &moves);
        let pairs = check_rounds(before, rounds, &moves);
        starts_anew += pairs.windows(2).filter(|pairs| pairs[1] < pairs[0]).count();
        assert_eq!(move_each(before, &moves), after);
        assert_eq!(move_all(before, &moves), after);
        let mut again = after.clone();
        assert_eq!(tidy(&mut again), (0, vec![]));
        assert_eq!(again, after);
    }
    assert!(starts_anew > 100, "{starts_anew} pairs that come before the one of the round before");
}

#[test]
fn tidyings_have_none_to_64_rounds() {
    let (mut most_rounds, mut most_moves, mut none, mut both_moved) = (0, 0, 0, 0);
    for table in MANY_TABLES.iter() {
        let (rounds, moves) = tidy(&mut table.clone());
        most_rounds = most_rounds.max(rounds);
        most_moves = most_moves.max(moves.len());
        none += usize::from(rounds == 0);
        both_moved += moves.len() - rounds;
    }
    assert_eq!(most_rounds, 64);
    assert!(most_moves > 75, "{most_moves} moves");
    assert!(none > 500, "{none} tables with nothing to tidy");
    assert!(both_moved > 5000, "{both_moved} rounds in which both moved");
}

/// Opens between the nodes, with a number that is not live: served exactly if both ports are free.
fn check_opening(table: &Table, source: u8, destination: u8) {
    let sent = table.circuits().filter(|circuit| circuit.source == source).count();
    let received = table.circuits().filter(|circuit| circuit.destination == destination).count();
    let expected = if sent == table.ports_at(source) as usize {
        Some(Refusal::NoTransmitter)
    } else if received == table.ports_at(destination) as usize {
        Some(Refusal::NoReceiver)
    } else {
        None
    };
    let number = (0..).find(|&number| table.place_of(number).is_none()).unwrap();
    let mut after = table.clone();
    let opening = after.open(circuit(number, source, destination), &mut [UNWRITTEN; 3]);
    assert_eq!(opening.err(), expected, "{source} to {destination} on {table:?}");
    assert!(after.meets_ring_rules());
}

#[test]
fn openings_after_a_tidying_are_served_while_their_ports_are_free() {
    let mut random = Random::new(23);
    for table in MANY_TABLES.iter() {
        let mut table = table.clone();
        tidy(&mut table);
        let nodes = usize::from(table.nodes);
        for _ in 0..12 {
            let (source, step) = (random.below(nodes), random.between(1, nodes - 1));
            let destination = (source + step) % nodes;
            check_opening(&table, source as u8 + 1, destination as u8 + 1);
        }
    }
}
