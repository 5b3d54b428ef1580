//! The circuits to a node and the list of all nodes: the planning program's lines `to` and `nodes`,
//! and what such lines count as.

mod common;

use common::{answer, answer_on, circuit, coverage_of, plan_tables, ring_of_01, standing};
use second_controller::coverage::{Event, LookupEvent, NodesEvent};
use second_controller::generator::Kind;
use second_controller::lookup::{circuits_from, circuits_to, nodes};
use second_controller::refusal::Refusal;
use second_controller::table::Lightpath;

/// To node 1 three circuits, opened out of order; 30 goes the shorter way, counterclockwise.
const OPENINGS: [&str; 5] =
    ["ring 5 3 1 1 1 1", "open 9 5 1 0 0", "open 30 2 1 0 0", "open 4 4 1 0 0", "open 7 1 4 8 9"];

/// The answers to lines after these openings.
fn after_openings(lines: &[&str]) -> String {
    let output = answer(&[&OPENINGS[..], lines].concat());
    let opened: String = answer(&OPENINGS);
    output.strip_prefix(&opened).unwrap().to_string()
}

#[test]
fn the_circuits_to_a_node_by_rising_number() {
    let placed = after_openings(&["circuits"]);
    let place = |number: u32| {
        let line = placed.lines().find(|line| line.starts_with(&format!("circuit {number} ")));
        line.unwrap().rsplit(' ').next().unwrap().to_string()
    };
    let output = format!(
        "to 1 circuits 3\ncircuit 4 from 4 place {}\ncircuit 9 from 5 place {}\n\
        circuit 30 from 2 place {}\n",
        place(4),
        place(9),
        place(30)
    );
    assert_eq!(after_openings(&["to 1"]), output);
    assert_eq!(after_openings(&["to 01"]), output);
    assert_eq!(after_openings(&["to 3"]), "to 3 circuits 0\n");
    assert_eq!(after_openings(&["to 0", "to 6", "to 255"]), "to refused 10\n".repeat(3));
}

#[test]
fn the_ports_of_each_node() {
    let output = "nodes 5\nnode 1 ports 3 sends 1 receives 3\nnode 2 ports 1 sends 1 receives 0\n\
        node 3 ports 1 sends 0 receives 0\nnode 4 ports 1 sends 1 receives 1\n\
        node 5 ports 1 sends 1 receives 0\n";
    assert_eq!(after_openings(&["nodes"]), output);
    let output = "ring 3 wavelengths 0\nnodes 3\nnode 1 ports 0 sends 0 receives 0\n\
        node 2 ports 0 sends 0 receives 0\nnode 3 ports 0 sends 0 receives 0\n";
    assert_eq!(answer(&["ring 3 0 0 0", "nodes"]), output);
}

#[test]
fn after_moves_and_closings() {
    let lines = ["open 15 5 4 0 0", "to 3", "close 12", "to 3", "nodes"];
    let output = answer_on(&ring_of_01(), &lines);
    let expected = "to 3 circuits 1\ncircuit 12 from 2 place 0\nclose 12\nto 3 circuits 0\n\
        nodes 5\nnode 1 ports 1 sends 1 receives 1\nnode 2 ports 1 sends 0 receives 1\n\
        node 3 ports 1 sends 1 receives 0\nnode 4 ports 1 sends 1 receives 1\n\
        node 5 ports 1 sends 1 receives 1\n";
    assert!(output.ends_with(expected), "{output}");
}

#[test]
fn lines_that_are_refused() {
    let lines = [
        "to", "to ", " to 1", "to  1", "to 1 ", "to 1 2", "to 256", "to 00257", "to -1", "to +1",
        "to x", "to\t1", "To 1", "too 1", "to1", "nodes 1", "nodes ", " nodes", "Nodes", "node",
        "node 1",
    ];
    for line in lines {
        assert_eq!(after_openings(&[line]), "line refused\n", "{line}");
        assert_eq!(answer(&[line]), "line refused\n", "{line}");
    }
    assert_eq!(answer(&["to 1", "to 0", "nodes"]), "line refused\n".repeat(3));
}

#[test]
fn of_all_nodes() {
    for table in plan_tables(Kind::Mixed, 62, 20_000, 53) {
        let listed = nodes(&table);
        assert!(listed.iter().map(|node| node.node).eq(1..=table.nodes));
        let mut looked_up: Vec<Lightpath> = Vec::new();
        for node in listed {
            let found = circuits_to(&table, node.node).unwrap();
            assert!(found.iter().all(|lightpath| lightpath.circuit.destination == node.node));
            assert!(found.windows(2).all(|two| two[0].circuit.number < two[1].circuit.number));
            assert_eq!(node.receives, found.len());
            assert_eq!(node.sends, circuits_from(&table, node.node).unwrap().len());
            assert_eq!(node.ports, table.ports_at(node.node));
            looked_up.extend(found);
        }
        looked_up.sort_by_key(|lightpath| (lightpath.place, lightpath.circuit.number));
        assert!(looked_up.into_iter().eq(table.lightpaths()));
        assert_eq!(circuits_to(&table, 0), Err(Refusal::OffRing));
        assert_eq!(circuits_to(&table, table.nodes + 1), Err(Refusal::OffRing));
    }
}

/// The events of these that the last of the lines reached.
fn reached(events: impl Iterator<Item = Event>, lines: &[&str]) -> Vec<Event> {
    let (_, before) = lines.split_last().unwrap();
    let [coverage, before] = [lines, before].map(coverage_of);
    let came = |event: &Event| coverage.count(*event) > before.count(*event);
    events.filter(came).collect()
}

#[test]
fn what_lookups_count_as() {
    use LookupEvent::*;
    let of = |lines: &[&str]| -> Vec<LookupEvent> {
        let sort = |event| match event {
            Event::Received(sort) => sort,
            _ => panic!("{event} is no lookup of the circuits to a node"),
        };
        reached(LookupEvent::all().into_iter().map(Event::Received), lines)
            .into_iter()
            .map(sort)
            .collect()
    };
    let ring = "ring 5 2 1 1 1 1";
    assert_eq!(of(&[ring, "to 1"]), [Found, NoCircuit]);
    assert_eq!(of(&[ring, "open 1 2 3 0 0", "to 1"]), [Found, NoCircuit, NoCircuitOfSome]);
    assert_eq!(of(&[ring, "open 1 2 3 0 0", "to 3"]), [Found, OneCircuit]);
    let closed = [ring, "open 1 2 1 0 0", "open 2 3 1 0 0", "close 1", "to 1"];
    assert_eq!(of(&closed), [Found, OneCircuit, AfterClosing]);
    assert_eq!(of(&[ring, "to 0"]), [Refused(10), RefusedZero]);
    assert_eq!(of(&[ring, "to 6"]), [Refused(10), RefusedNext]);
    assert_eq!(of(&[ring, "to"]), [NoNode]);
    assert_eq!(of(&[ring, "to 1 2"]), [WordAfter]);
    assert_eq!(of(&[ring, "to -1"]), [OddNode]);
    assert_eq!(of(&[ring, "to 256"]), [WideNode]);
    assert_eq!(coverage_of(&["to 1", "nodes"]).count(Event::RefusedBeforeTable("to")), 1);
}

#[test]
fn what_lists_of_nodes_count_as() {
    use NodesEvent::*;
    let of = |lines: &[&str]| -> Vec<NodesEvent> {
        let sort = |event| match event {
            Event::Nodes(sort) => sort,
            _ => panic!("{event} is no list of nodes"),
        };
        reached(NodesEvent::all().into_iter().map(Event::Nodes), lines)
            .into_iter()
            .map(sort)
            .collect()
    };
    let ring = "ring 4 2 2 2 2";
    assert_eq!(of(&[ring, "nodes"]), [Listed, NoneOnRing]);
    assert_eq!(of(&["ring 4 1 1 0 1", "nodes"]), [Listed, NoneOnRing, WithoutPort]);
    assert_eq!(of(&[ring, "open 1 1 2 0 0", "nodes"]), [Listed]);
    let taken = [ring, "open 1 1 2 0 0", "open 2 1 3 0 0", "nodes"];
    assert_eq!(of(&taken), [Listed, SendersTaken]);
    let taken = [ring, "open 1 1 2 0 0", "open 2 3 2 0 0", "nodes"];
    assert_eq!(of(&taken), [Listed, ReceiversTaken]);
    let closed = [ring, "open 1 1 2 0 0", "open 2 2 3 0 0", "close 1", "nodes"];
    assert_eq!(of(&closed), [Listed, AfterChange]);
    assert_eq!(of(&[ring, "nodes 1"]), [NodesWordAfter]);
    let table = standing(&[1; 64], &[(0, circuit(1, 1, 64))]);
    let read = common::read_line(&table);
    assert_eq!(of(&[&read, "nodes"]), [Listed, OfLargestRing, SendersTaken, ReceiversTaken]);
}
