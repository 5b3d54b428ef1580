//! Making a ring, its wavelengths, and the ring rules.

mod common;

use common::{circuit, open, ring};
use second_controller::circuit::Circuit;
use second_controller::refusal::Refusal;
use second_controller::table::{wavelengths_for, Channel, Rule, Table};

#[test]
fn wavelengths_are_a_third_of_the_ports_rounded_up() {
    assert_eq!([5, 6, 7, 0].map(wavelengths_for), [2, 2, 3, 0]);
    assert_eq!([1, 3, 192].map(wavelengths_for), [1, 1, 64]);
    assert_eq!(ring(&[1; 5]).wavelengths(), 2);
    assert_eq!(ring(&[0; 3]).wavelengths(), 0);
}

#[test]
fn a_ring_has_3_to_64_nodes_and_as_many_port_counts() {
    assert_eq!(Table::make(2, &[1; 2]), Err(Refusal::RingSize));
    assert_eq!(Table::make(65, &[1; 65]), Err(Refusal::RingSize));
    assert_eq!(Table::make(3, &[1; 2]), Err(Refusal::RingSize));
    assert_eq!(Table::make(3, &[1; 4]), Err(Refusal::RingSize));
    assert!(Table::make(3, &[1; 3]).is_ok());
    assert!(Table::make(64, &[1; 64]).is_ok());
}

#[test]
fn ports_are_limited_at_a_node_and_over_the_ring() {
    assert_eq!(Table::make(3, &[65, 0, 0]), Err(Refusal::NodePorts));
    assert_eq!(Table::make(4, &[64, 64, 64, 1]), Err(Refusal::RingPorts));
    assert!(Table::make(4, &[64, 64, 64, 0]).is_ok());
}

#[test]
fn faults_of_a_ring_are_named_in_the_order_1_2_3() {
    assert_eq!(Table::make(2, &[65, 255]), Err(Refusal::RingSize));
    assert_eq!(Table::make(3, &[64, 64, 65]), Err(Refusal::NodePorts));
}

#[test]
fn a_made_ring_meets_the_rules_and_the_blank_table_does_not() {
    assert!(ring(&[64; 3]).meets_ring_rules());
    assert!(!Table::blank().meets_ring_rules());
}

/// A ring of 5 nodes after some breach of a rule.
fn broken(breach: impl FnOnce(&mut Table)) -> Table {
    let mut table = ring(&[2; 5]);
    open(&mut table, circuit(1, 1, 3)).unwrap();
    open(&mut table, circuit(2, 3, 4)).unwrap();
    assert!(matches!(table.channels[0], Channel::Two(..)));
    breach(&mut table);
    table
}

#[test]
fn each_ring_rule_can_be_broken() {
    let (one, two) = (circuit(1, 1, 3), circuit(2, 3, 4));
    let at = |place: usize, channel: Channel| broken(|table| table.channels[place] = channel);
    let alone = |circuit: Circuit| at(3, Channel::One(circuit));
    assert!(broken(|_| {}).meets_ring_rules());
    assert!(alone(circuit(3, 5, 1)).meets_ring_rules());
    let tables = [
        broken(|table| table.nodes = 2),
        broken(|table| table.nodes = 65),
        broken(|table| table.ports[0] = 65),
        broken(|table| table.ports[..4].fill(64)),
        broken(|table| table.ports[5] = 1),
        broken(|table| table.ports[0] = 0),
        broken(|table| table.ports[3] = 0),
        at(8, Channel::One(circuit(3, 5, 1))),
        alone(circuit(3, 0, 1)),
        alone(circuit(3, 6, 1)),
        alone(circuit(3, 1, 6)),
        alone(circuit(3, 5, 5)),
        alone(circuit(2, 5, 1)),
        at(0, Channel::Two(two, one)),
        at(0, Channel::Two(one, circuit(2, 4, 5))),
        at(0, Channel::Two(one, circuit(2, 3, 2))),
        at(1, Channel::Two(circuit(5, 2, 3), circuit(6, 3, 4))),
    ];
    for (case, table) in tables.iter().enumerate() {
        assert!(!table.meets_ring_rules(), "case {case}");
    }
}

#[test]
fn two_at_a_place_share_in_its_direction_and_with_n_hops_in_either() {
    let with_1_to_3 = |destination: u8, place: usize| {
        let pair = Channel::Two(circuit(5, 1, 3), circuit(6, 3, destination));
        broken(|table| table.channels[place] = pair).broken_rule()
    };
    for place in 2..6 {
        let clockwise = place % 2 == 0;
        assert_eq!(with_1_to_3(5, place), (!clockwise).then_some(Rule::Sharing), "4 hops");
        assert_eq!(with_1_to_3(1, place), None, "5 hops");
        assert_eq!(with_1_to_3(2, place), clockwise.then_some(Rule::Sharing), "6 hops");
    }
}
