//! Lookups by node: the planning program's line `from`, what such lines count as, and the program to
//! be timed.

mod common;

use std::process::Output;

use common::{
    answer, answer_on, circuit, coverage_of, plan_tables, read_line, ring, ring_of_01, run_on_form,
    standing,
};
use second_controller::circuit::Circuit;
use second_controller::coverage::{Event, LookupEvent};
use second_controller::form;
use second_controller::generator::{self, Kind};
use second_controller::lookup::circuits_from;
use second_controller::plan::LINE_MOST;
use second_controller::refusal::Refusal;
use second_controller::table::{Lightpath, Table};
use LookupEvent::*;

/// From node 1 three circuits, opened out of order: 9 and 4 use fewer links clockwise, 30
/// counterclockwise. 7, from node 2, goes on where 9 ends and joins it.
const OPENINGS: [&str; 5] =
    ["ring 5 3 1 1 1 1", "open 9 1 2 0 0", "open 30 1 5 0 0", "open 4 1 3 0 0", "open 7 2 4 8 9"];

/// The answers to lines after these openings.
fn after_openings(lines: &[&str]) -> String {
    let output = answer(&[&OPENINGS[..], lines].concat());
    let openings = "ring 5 wavelengths 3\nopen 9 place 0 moves 0 looks 0\n\
        open 30 place 1 moves 0 looks 0\nopen 4 place 2 moves 0 looks 0\n\
        open 7 place 0 moves 0 looks 0\n";
    output.strip_prefix(openings).unwrap().to_string()
}

#[test]
fn the_circuits_of_a_node_by_rising_number() {
    let output = "from 1 circuits 3\ncircuit 4 to 3 place 2\ncircuit 9 to 2 place 0\n\
        circuit 30 to 5 place 1\n";
    assert_eq!(after_openings(&["from 1"]), output);
    assert_eq!(after_openings(&["from 2"]), "from 2 circuits 1\ncircuit 7 to 4 place 0\n");
}

#[test]
fn a_node_that_sends_none() {
    let output = "from 3 circuits 0\nfrom 4 circuits 0\nfrom 5 circuits 0\n";
    assert_eq!(after_openings(&["from 3", "from 4", "from 5"]), output);
    let output = "ring 3 wavelengths 0\nfrom 1 circuits 0\nfrom 3 circuits 0\n";
    assert_eq!(answer(&["ring 3 0 0 0", "from 1", "from 3"]), output);
}

#[test]
fn numbers_of_every_size() {
    let circuits = [
        (1, circuit(u32::MAX, 2, 1)),
        (2, circuit(0, 2, 3)),
        (4, circuit(1 << 31, 2, 4)),
        (5, circuit(10, 2, 5)),
    ];
    let output = "from 2 circuits 4\ncircuit 0 to 3 place 2\ncircuit 10 to 5 place 5\n\
        circuit 2147483648 to 4 place 4\ncircuit 4294967295 to 1 place 1\n";
    assert_eq!(answer_on(&standing(&[1, 4, 1, 1, 1], &circuits), &["from 2"]), output);
}

/// Between the same ends, each alone at the next clockwise place.
#[test]
fn sixty_four_circuits_of_one_node_opened_by_falling_number() {
    let mut lines = vec!["ring 3 64 64 64".to_string()];
    lines.extend((1..=64).rev().map(|number| format!("open {number} 3 1 0 0")));
    lines.push("from 3".to_string());
    let lines: Vec<&str> = lines.iter().map(String::as_str).collect();
    let mut listed = "from 3 circuits 64\n".to_string();
    for number in 1..=64 {
        listed += &format!("circuit {number} to 1 place {}\n", 2 * (64 - number));
    }
    assert!(answer(&lines).ends_with(&listed));
}

#[test]
fn a_node_that_is_not_on_the_ring() {
    for node in ["0", "00", "6", "64", "65", "128", "255", "000255"] {
        assert_eq!(after_openings(&[&format!("from {node}")]), "from refused 10\n", "{node}");
    }
    let largest = standing(&[1; 64], &[(0, circuit(5, 64, 1))]);
    let output = "from 64 circuits 1\ncircuit 5 to 1 place 0\nfrom refused 10\n";
    assert_eq!(answer_on(&largest, &["from 64", "from 65"]), output);
}

#[test]
fn the_node_is_printed_as_a_value() {
    let listed = "from 2 circuits 1\ncircuit 7 to 4 place 0\n";
    for node in ["02", "002", "0000000002"] {
        assert_eq!(after_openings(&[&format!("from {node}")]), listed);
    }
    let of_length = |length: usize| format!("from {:0>1$}", 2, length - "from ".len());
    assert_eq!(of_length(257).len(), 257);
    assert_eq!(after_openings(&[&of_length(257)]), listed);
    assert_eq!(after_openings(&[&of_length(LINE_MOST)]), listed);
    assert_eq!(after_openings(&[&of_length(LINE_MOST + 1)]), "line refused\n");
}

#[test]
fn lines_that_are_refused() {
    let many_digits = format!("from {}", "1".repeat(300));
    let lines = [
        "from",
        "from ",
        " from 1",
        "from  1",
        "from 1 ",
        "from 1 2",
        "from 1 1",
        "from 0 0",
        "from 256",
        "from 257",
        "from 00256",
        "from 65537",
        "from 4294967297",
        "from 18446744073709551617",
        "from 340282366920938463463374607431768211457",
        &many_digits,
        "from -1",
        "from -0",
        "from +1",
        "from 1.0",
        "from 0x1",
        "from 1,2",
        "from x",
        "from -",
        "from @",
        "from\t1",
        "from 1\r",
        "From 1",
        "FROM 1",
        "froms 1",
        "fro 1",
        "from1",
    ];
    for line in lines {
        assert_eq!(after_openings(&[line]), "line refused\n", "{line}");
    }
}

#[test]
fn a_lookup_needs_a_table() {
    let lines = ["from 1", "from 0", "ring 2 1 1", "from 1", "read -", "from 1"];
    let output = "line refused\nline refused\nring refused 1\nline refused\nread refused 30\n\
        line refused\n";
    assert_eq!(answer(&lines), output);
}

#[test]
fn the_table_stays_as_it_was() {
    let before = after_openings(&["write"]);
    let after = after_openings(&["from 1", "from 3", "from 0", "from 256", "write"]);
    assert!(after.ends_with(&format!("from refused 10\nline refused\n{before}")), "{after}");
}

#[test]
fn after_closings() {
    let lines = ["close 9", "from 1", "close 30", "close 4", "from 1", "from 2"];
    let output = "close 9\nfrom 1 circuits 2\ncircuit 4 to 3 place 2\ncircuit 30 to 5 place 1\n\
        close 30\nclose 4\nfrom 1 circuits 0\nfrom 2 circuits 1\ncircuit 7 to 4 place 0\n";
    assert_eq!(after_openings(&lines), output);
    // 7 stands alone at place 0, and the new 9 goes on where it ends.
    let lines = ["close 9", "open 9 4 1 0 0", "from 1", "from 4"];
    let output = "close 9\nopen 9 place 0 moves 0 looks 0\n\
        from 1 circuits 2\ncircuit 4 to 3 place 2\ncircuit 30 to 5 place 1\n\
        from 4 circuits 1\ncircuit 9 to 1 place 0\n";
    assert_eq!(after_openings(&lines), output);
}

/// Document 01's opening of 15 moves 12 to place 0, and 11 and 13 to place 1.
#[test]
fn after_an_opening_that_moves_others() {
    let lookups = ["from 1", "from 2", "from 3", "from 4", "from 5"];
    let before = "from 1 circuits 1\ncircuit 11 to 5 place 0\n\
        from 2 circuits 1\ncircuit 12 to 3 place 1\n\
        from 3 circuits 1\ncircuit 14 to 2 place 3\n\
        from 4 circuits 1\ncircuit 13 to 1 place 2\n\
        from 5 circuits 0\n";
    assert_eq!(answer_on(&ring_of_01(), &lookups), before);
    let after = "from 1 circuits 1\ncircuit 11 to 5 place 1\n\
        from 2 circuits 1\ncircuit 12 to 3 place 0\n\
        from 3 circuits 1\ncircuit 14 to 2 place 3\n\
        from 4 circuits 1\ncircuit 13 to 1 place 1\n\
        from 5 circuits 1\ncircuit 15 to 4 place 2\n";
    let output = answer_on(&ring_of_01(), &[&["open 15 5 4 0 0"][..], &lookups].concat());
    let opening = "open 15 place 2 moves 3 looks 2\n\
        move 12 from 1 to 0\nmove 11 from 0 to 1\nmove 13 from 2 to 1\n";
    assert_eq!(output, format!("{opening}{after}"));
}

/// 1→3 and 3→4 stand counterclockwise and are joined clockwise.
#[test]
fn after_a_tidying() {
    let table = standing(&[1; 5], &[(1, circuit(9, 1, 3)), (3, circuit(4, 3, 4))]);
    let lines = ["from 1", "tidy", "from 1", "from 3"];
    let output = "from 1 circuits 1\ncircuit 9 to 3 place 1\n\
        tidy rounds 1 moves 2\nmove 9 from 1 to 0\nmove 4 from 3 to 0\n\
        from 1 circuits 1\ncircuit 9 to 3 place 0\nfrom 3 circuits 1\ncircuit 4 to 4 place 0\n";
    assert_eq!(answer_on(&table, &lines), output);
}

#[test]
fn another_table_is_looked_up_from_then_on() {
    let table = standing(&[1; 6], &[(3, circuit(2, 6, 5))]);
    let output = after_openings(&["from 6", &read_line(&table), "from 1", "from 6"]);
    let expected = "from refused 10\nread 6 wavelengths 2\nfrom 1 circuits 0\n\
        from 6 circuits 1\ncircuit 2 to 5 place 3\n";
    assert_eq!(output, expected);
    let output = after_openings(&["ring 4 1 1 1 1", "from 1", "from 5"]);
    assert_eq!(output, "ring 4 wavelengths 2\nfrom 1 circuits 0\nfrom refused 10\n");
}

#[test]
fn the_lookups_of_all_nodes_are_the_circuits() {
    for table in plan_tables(Kind::Mixed, 61, 20_000, 53) {
        let mut looked_up: Vec<Lightpath> = Vec::new();
        for node in 1..=table.nodes {
            let found = circuits_from(&table, node).unwrap();
            assert!(found.iter().all(|lightpath| lightpath.circuit.source == node));
            assert!(found.windows(2).all(|two| two[0].circuit.number < two[1].circuit.number));
            looked_up.extend(found);
        }
        looked_up.sort_by_key(|lightpath| (lightpath.place, lightpath.circuit.number));
        assert!(looked_up.into_iter().eq(table.lightpaths()));
        assert_eq!(circuits_from(&table, 0), Err(Refusal::OffRing));
        assert_eq!(circuits_from(&table, table.nodes + 1), Err(Refusal::OffRing));
    }
}

/// The events of the last of the lines, each of which came once.
fn events(lines: &[&str]) -> Vec<LookupEvent> {
    let (_, before) = lines.split_last().unwrap();
    let [coverage, before] = [lines, before].map(coverage_of);
    let came = |event: Event| coverage.count(event) - before.count(event);
    let reached =
        LookupEvent::all().into_iter().map(Event::Lookup).filter(|&event| came(event) > 0);
    let of_lookup = |event: Event| match event {
        Event::Lookup(lookup) if came(event) == 1 => lookup,
        _ => panic!("{event} came more than once"),
    };
    reached.map(of_lookup).collect()
}

/// The events of looking the node up on the table.
fn events_on(table: &Table, node: u8) -> Vec<LookupEvent> {
    events(&[&read_line(table), &format!("from {node}")])
}

#[test]
fn lookups_by_what_is_found() {
    let one = circuit(1, 2, 4);
    let table = standing(&[2; 5], &[(2, one)]);
    assert_eq!(events_on(&ring(&[2; 5]), 2), [Found, NoCircuit]);
    assert_eq!(events_on(&table, 1), [Found, NoCircuit, NoCircuitOfSome]);
    assert_eq!(events_on(&table, 2), [Found, OneCircuit]);
    let two = |number, place| {
        let other = circuit(number, 2, 3);
        events_on(&standing(&[1, 3, 1, 1, 1], &[(2, one), (place, other)]), 2)
    };
    assert_eq!(two(7, 3), [Found, SeveralCircuits]);
    assert_eq!(two(0, 1), [Found, SeveralCircuits]);
    assert_eq!(two(7, 1), [Found, SeveralCircuits, PlaceFalls]);
    assert_eq!(two(0, 3), [Found, SeveralCircuits, PlaceFalls]);
    let full = standing(&[2; 5], &[(2, one), (4, circuit(7, 2, 3))]);
    assert_eq!(events_on(&full, 2), [Found, SeveralCircuits, EveryPort]);
    let shared = standing(&[2; 5], &[(2, one), (2, circuit(3, 4, 5))]);
    assert_eq!(events_on(&shared, 2), [Found, OneCircuit, OneOfTwo]);
    assert_eq!(events_on(&shared, 4), [Found, OneCircuit, OneOfTwo]);
}

#[test]
fn lookups_on_rings_at_their_limits() {
    let last = standing(&[2; 5], &[(0, circuit(1, 5, 1))]);
    assert_eq!(events_on(&last, 5), [Found, OneCircuit, LastNode]);
    let largest = standing(&[2; 64], &[(0, circuit(1, 63, 1)), (2, circuit(2, 64, 1))]);
    assert_eq!(events_on(&largest, 63), [Found, OneCircuit, LargestRing]);
    assert_eq!(events_on(&largest, 64), [Found, OneCircuit, LastNode, LargestRing]);
    let many = |count: u8| {
        let circuits: Vec<(u8, Circuit)> =
            (0..count).map(|index| (2 * index, circuit(u32::from(index), 1, 2))).collect();
        events_on(&standing(&[64; 3], &circuits), 1)
    };
    assert_eq!(many(63), [Found, SeveralCircuits]);
    assert_eq!(many(64), [Found, SeveralCircuits, EveryPort, MostCircuits]);
}

#[test]
fn lookups_after_moves_and_closings() {
    let read = read_line(&ring_of_01());
    let opening = "open 15 5 4 0 0";
    let found = [Found, OneCircuit];
    assert_eq!(events(&[&read, "from 2"]), found);
    assert_eq!(events(&[&read, opening, "from 2"]), [Found, OneCircuit, AfterMove]);
    assert_eq!(events(&[&read, opening, "from 3"]), found, "14 was not moved");
    // This 12 was not moved; it joins 14, its return.
    let again = [&read, opening, "close 12", "open 12 2 3 0 0", "from 2"];
    assert_eq!(events(&again), [Found, OneCircuit, OneOfTwo, AfterClosing]);
    assert_eq!(events(&[&read, "close 12", "from 2"]), [Found, NoCircuit, NoCircuitOfSome]);
    assert_eq!(events(&[&read, "close 12", "from 1"]), found);
    assert_eq!(events(&[&read, opening, &read, "from 2"]), found);
    let untidy = standing(&[1; 5], &[(1, circuit(9, 1, 3)), (3, circuit(4, 3, 4))]);
    let moved = [Found, OneCircuit, OneOfTwo, AfterMove];
    assert_eq!(events(&[&read_line(&untidy), "tidy", "from 1"]), moved);
}

#[test]
fn refused_lookups() {
    let on_ring = |line: &str| events(&["ring 5 1 1 1 1 1", line]);
    assert_eq!(on_ring("from 0"), [Refused(10), RefusedZero]);
    assert_eq!(on_ring("from 6"), [Refused(10), RefusedNext]);
    assert_eq!(on_ring("from 7"), [Refused(10)]);
    assert_eq!(on_ring("from 255"), [Refused(10), RefusedWidest]);
    assert_eq!(on_ring("from"), [NoNode]);
    for line in ["from 1 2", "from x 2", "from 256 1 1"] {
        assert_eq!(on_ring(line), [WordAfter], "{line}");
    }
    for line in ["from -1", "from +256", "from x"] {
        assert_eq!(on_ring(line), [OddNode], "{line}");
    }
    for line in ["from 256", "from 00257", "from 18446744073709551617"] {
        assert_eq!(on_ring(line), [WideNode], "{line}");
    }
    let coverage = coverage_of(&["from 1", "from 9", "from x", "ring 3 1 1 1", "from ", "From 1"]);
    assert_eq!(coverage.count(Event::RefusedBeforeTable("from")), 2);
    assert_eq!(coverage.count(Event::Lookup(OddNode)), 1);
    assert_eq!(coverage.count(Event::RefusedSpaces), 1);
    assert_eq!(coverage.count(Event::RefusedOther), 1);
    assert_eq!(coverage_of(&["ring 3 1 1 1", "from 01"]).count(Event::LeadingZeroGood), 1);
}

fn reference_from(arguments: &[&str], form: &[u8]) -> Output {
    run_on_form(env!("CARGO_BIN_EXE_reference-from"), arguments, form)
}

fn form_of(table: &Table) -> Vec<u8> {
    let mut form = [0; form::FORM_MOST];
    let length = form::write(table, &mut form).unwrap();
    form[..length].to_vec()
}

/// From node 1 come 4 + 7 × 2 + 2 = 20 and 9 + 7 × 3 + 1 = 31, from node 3 comes 5 + 7 × 4 + 3 = 36:
/// (20 × 31 + 31) × 31 + 36 = 20217, and from there on 20217 × 31 + 20 and so forth.
#[test]
fn the_program_to_be_timed_writes_the_checksum() {
    let circuits = [(1, circuit(9, 1, 3)), (2, circuit(4, 1, 2)), (3, circuit(5, 3, 4))];
    let form = form_of(&standing(&[2; 5], &circuits));
    for (count, checksum) in [("1", 20_217u32), ("2", 602_304_864), ("3", 3_185_828_249)] {
        let Output { status, stdout, stderr } = reference_from(&[count], &form);
        assert!(status.success() && stderr.is_empty(), "{count}");
        assert_eq!(stdout, checksum.to_be_bytes(), "{count}");
    }
    let widest = form_of(&standing(&[1; 3], &[(0, circuit(u32::MAX, 3, 1))]));
    assert_eq!(reference_from(&["1"], &widest).stdout, [0, 0, 0, 6]);
    assert_eq!(reference_from(&["9"], &form_of(&ring(&[1; 3]))).stdout, [0; 4]);
}

#[test]
fn the_program_to_be_timed_refuses_bad_forms_and_arguments() {
    let form = generator::form(64, 192, 1);
    let refused = reference_from(&["1"], &form[..9]);
    assert_eq!((refused.status.code(), refused.stdout), (Some(1), vec![]));
    assert_eq!(refused.stderr, b"reference-from: read refused 30\n");
    let lines: [&[&str]; 6] = [&[], &["0"], &["x"], &["-1"], &["1", "1"], &["--walk", "1"]];
    for arguments in lines {
        let refused = reference_from(arguments, &form);
        assert_eq!((refused.status.code(), refused.stdout), (Some(2), vec![]), "{arguments:?}");
        assert!(refused.stderr.starts_with(b"usage: reference-from "), "{arguments:?}");
    }
}
