//! Circuits, rings and tables for the tests, of which each test file uses some.
#![allow(dead_code)]

use std::io::Write;
use std::process::{Command, Output, Stdio};

use second_controller::circuit::Circuit;
use second_controller::coverage::Coverage;
use second_controller::form::{write, FORM_MOST};
use second_controller::generator::{Generator, Kind};
use second_controller::opening::{Move, Opening};
use second_controller::place::Place;
use second_controller::plan::{hexadecimal, run, Planner};
use second_controller::program::Program;
use second_controller::refusal::Refusal;
use second_controller::table::{Channel, Table};

pub fn circuit(number: u32, source: u8, destination: u8) -> Circuit {
    Circuit { number, source, destination, remark: 0, account: 0 }
}

pub fn ring(ports: &[u8]) -> Table {
    Table::make(ports.len() as u8, ports).unwrap()
}

/// A table with these circuits at their places, the lower number of two given first.
pub fn standing(ports: &[u8], circuits: &[(u8, Circuit)]) -> Table {
    let mut table = ring(ports);
    for &(place, circuit) in circuits {
        let alone = table.channels[usize::from(place)].circuits().next();
        assert!(alone.is_none_or(|first| first.number < circuit.number));
        put(&mut table, Place(place), circuit);
    }
    assert!(table.meets_ring_rules());
    table
}

/// Sets the circuit up at the place, where at most one is.
pub fn put(table: &mut Table, place: Place, circuit: Circuit) {
    let channel = &mut table.channels[place.index()];
    *channel = match *channel {
        Channel::Unlit => Channel::One(circuit),
        Channel::One(other) if other.number < circuit.number => Channel::Two(other, circuit),
        Channel::One(other) => Channel::Two(circuit, other),
        Channel::Two(..) => panic!("three circuits at {place:?}"),
    };
}

pub fn record(number: u32, from: u8, to: u8) -> Move {
    Move { number, from: Place(from), to: Place(to) }
}

/// What stands in a lent list where nothing was written.
pub const UNWRITTEN: Move = Move { number: 999, from: Place(99), to: Place(98) };

pub fn circuits_by_number(table: &Table) -> Vec<Circuit> {
    let mut circuits: Vec<Circuit> = table.circuits().collect();
    circuits.sort_by_key(|circuit| circuit.number);
    circuits
}

/// The records name each circuit of the first table that has another place in the second once, with
/// both places.
pub fn check_moves(before: &Table, after: &Table, list: &[Move]) {
    let place = |table: &Table, number| table.place_of(number).unwrap();
    let mut moved: Vec<u32> = before.circuits().map(|circuit| circuit.number).collect();
    moved.retain(|&number| place(before, number) != place(after, number));
    let mut listed: Vec<u32> = list.iter().map(|record| record.number).collect();
    moved.sort();
    listed.sort();
    assert_eq!(moved, listed);
    for record in list {
        assert_eq!(record.from, place(before, record.number));
        assert_eq!(record.to, place(after, record.number));
    }
}

/// The table on which document 01 opens 15: 12 and its return 14 both stand alone.
pub fn ring_of_01() -> Table {
    let circuits = [
        (0, circuit(11, 1, 5)),
        (1, circuit(12, 2, 3)),
        (2, circuit(13, 4, 1)),
        (3, circuit(14, 3, 2)),
    ];
    standing(&[1; 5], &circuits)
}

/// A ring and an opening by 3a: of 1→3 and 5→1, which fit clockwise, the first stands so.
pub fn ring_where_first_fits() -> (Table, Circuit) {
    let circuits = [
        (0, circuit(1, 1, 3)),
        (1, circuit(2, 4, 5)),
        (2, circuit(3, 2, 4)),
        (3, circuit(4, 5, 1)),
    ];
    (standing(&[1; 5], &circuits), circuit(5, 3, 2))
}

/// A ring and an opening by 3a: of 1→4 and 4→2, which fit counterclockwise, the second stands so.
pub fn ring_where_second_fits() -> (Table, Circuit) {
    let circuits = [
        (0, circuit(1, 1, 4)),
        (1, circuit(2, 2, 5)),
        (2, circuit(3, 5, 3)),
        (3, circuit(4, 4, 2)),
    ];
    (standing(&[1; 5], &circuits), circuit(5, 3, 1))
}

/// A ring of six nodes with every place lit: circuit 1 and its return 2 stand alone at these two
/// places and are the first pair of step 3. The opening beside it can join none: its hops and
/// those of 5, the other one alone, fit only in the direction in which 5 does not stand.
pub fn ring_with_return(lower: u8, higher: u8) -> (Table, Circuit) {
    let (others, new) = match (lower, higher) {
        (0, 1) => ([(2, 1, 4), (2, 4, 5), (3, 5, 6)], circuit(6, 6, 1)),
        (0, 2) => ([(1, 1, 5), (1, 5, 4), (3, 4, 6)], circuit(6, 6, 1)),
        (1, 2) => ([(0, 1, 4), (0, 4, 5), (3, 5, 6)], circuit(6, 6, 1)),
        (1, 3) => ([(0, 4, 6), (0, 6, 1), (2, 1, 5)], circuit(6, 5, 4)),
        _ => panic!("no such ring is at hand"),
    };
    let mut circuits = vec![(lower, circuit(1, 2, 3)), (higher, circuit(2, 3, 2))];
    for (number, (place, source, destination)) in (3..).zip(others) {
        circuits.push((place, circuit(number, source, destination)));
    }
    (standing(&[1; 6], &circuits), new)
}

/// Opens with a list of three records.
pub fn open(table: &mut Table, circuit: Circuit) -> Result<Opening, Refusal> {
    table.open(circuit, &mut [Move::default(); 3])
}

/// The line that reads the table.
pub fn read_line(table: &Table) -> String {
    let mut form = [0; FORM_MOST];
    let length = write(table, &mut form).unwrap();
    format!("read {}", hexadecimal(&form[..length]))
}

/// The answers to lines of a planner that relies on its table and one that checks it.
pub fn answer(lines: &[&str]) -> String {
    let script = lines.join("\n");
    let outputs = [Planner::new(), Planner::checking_rules()].map(|mut planner| {
        let mut output = Vec::new();
        run(&mut planner, &mut script.as_bytes(), &mut output).unwrap();
        String::from_utf8(output).unwrap()
    });
    assert_eq!(outputs[0], outputs[1]);
    outputs[0].clone()
}

/// The answers to lines after the table was read.
pub fn answer_on(table: &Table, lines: &[&str]) -> String {
    let output = answer(&[&[&read_line(table)[..]], lines].concat());
    let (_, rest) = output.split_once('\n').unwrap();
    rest.to_string()
}

/// Runs a program to be timed, given by its path, on a form.
pub fn run_on_form(program: &str, arguments: &[&str], form: &[u8]) -> Output {
    let mut running = Command::new(program)
        .args(arguments)
        .stdin(Stdio::piped())
        .stdout(Stdio::piped())
        .stderr(Stdio::piped())
        .spawn()
        .unwrap();
    // With bad arguments the form is not read.
    let _ = running.stdin.take().unwrap().write_all(form);
    running.wait_with_output().unwrap()
}

/// What the planner's lines reach.
pub fn coverage_of(lines: &[&str]) -> Coverage {
    let mut coverage = Coverage::of(Program::Plan);
    let mut planner = Planner::new();
    for line in lines {
        coverage.run_plan_line(&mut planner, line.as_bytes());
    }
    coverage
}

/// Tables as generated scripts leave them, one of every `step` lines.
pub fn tables(kind: Kind, seed: u64, lines: usize, step: usize) -> Vec<Table> {
    tables_of(Program::Script, kind, seed, lines, step)
}

/// Tables as the planning program's lines leave them, which read forms with circuits wherever they
/// may stand.
pub fn plan_tables(kind: Kind, seed: u64, lines: usize, step: usize) -> Vec<Table> {
    tables_of(Program::Plan, kind, seed, lines, step)
}

fn tables_of(program: Program, kind: Kind, seed: u64, lines: usize, step: usize) -> Vec<Table> {
    let mut generator = Generator::new(program, kind, seed);
    let mut planner = Planner::new();
    let mut tables = Vec::new();
    for line in 0..lines {
        planner.run_line(&generator.next_line());
        if line % step == 0 {
            tables.extend(planner.table().cloned());
        }
    }
    tables
}
