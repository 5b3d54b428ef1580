//! Rings and steps made by hand, through the same answers that `ringplan` gives.

use std::rc::Rc;

use ringpage::step::{outcome_of, Step};
use ringpage::table::Table;

use super::links::walk;

/// Number, source, destination, place.
pub type Row = (u32, u8, u8, u8);

/// The answers to `write`, `circuits` and `load` for a ring with these circuits.
pub struct Answers {
    pub form: String,
    pub circuits: Vec<String>,
    pub load: String,
}

pub fn answers(ports: &[u8], rows: &[Row]) -> Answers {
    let nodes = ports.len() as u8;
    let mut rows = rows.to_vec();
    rows.sort_by_key(|&(number, _, _, place)| (place, number));
    let mut loads = vec![0; 2 * ports.len()];
    let mut circuits = vec![format!("circuits {}", rows.len())];
    for (number, source, destination, place) in rows {
        circuits.push(format!(
            "circuit {number} from {source} to {destination} remark 0 account 0 place {place}"
        ));
        for link in walk(nodes, source, destination, place) {
            loads[2 * usize::from(link - 1) + usize::from(place % 2)] += 1;
        }
    }
    let load = loads.iter().fold("load".to_string(), |line, load| format!("{line} {load}"));
    let hex: String = ports.iter().map(|count| format!("{count:02x}")).collect();
    Answers { form: format!("write 100 {nodes:02x}{hex}00"), circuits, load }
}

impl Answers {
    pub fn table(&self) -> Table {
        Table::from_answers(&self.form, &self.circuits, &self.load).expect("answers that fit")
    }
}

pub fn table(ports: &[u8], rows: &[Row]) -> Table {
    answers(ports, rows).table()
}

pub fn step(request: &str, answer: &str, before: Option<Table>, after: Option<Table>) -> Step {
    let answer: Vec<String> = answer.lines().map(String::from).collect();
    Step {
        number: 1,
        request: request.into(),
        outcome: outcome_of(&answer).expect("an answer that is understood"),
        answer,
        before: before.map(Rc::new),
        after: after.map(Rc::new),
    }
}

/// A question, which leaves the ring as it is.
pub fn still(table: &Table) -> Step {
    step("load", "load ..", Some(table.clone()), Some(table.clone()))
}

pub const FILLING_PORTS: [u8; 6] = [2, 1, 2, 1, 2, 1];

/// A ring with every place lit, before circuit 107 is opened.
pub const FILLED: [Row; 6] = [
    (101, 3, 5, 0),
    (102, 6, 5, 1),
    (103, 1, 4, 2),
    (104, 1, 2, 3),
    (105, 4, 3, 4),
    (106, 2, 1, 5),
];

pub const AFTER_107: [Row; 7] = [
    (102, 6, 5, 0),
    (101, 3, 5, 1),
    (105, 4, 3, 1),
    (103, 1, 4, 2),
    (104, 1, 2, 3),
    (107, 3, 1, 4),
    (106, 2, 1, 5),
];

pub fn opening_107() -> Step {
    step(
        "open 107 3 1 0 0",
        "open 107 place 4 moves 3 looks 4\nmove 102 from 1 to 0\nmove 101 from 0 to 1\n\
         move 105 from 4 to 1",
        Some(table(&FILLING_PORTS, &FILLED)),
        Some(table(&FILLING_PORTS, &AFTER_107)),
    )
}

pub const MONTH_PORTS: [u8; 8] = [2, 1, 2, 1, 2, 1, 2, 1];

/// A ring after a busy month: every place lit, no circuit with another.
pub const BUSY_MONTH: [Row; 8] = [
    (201, 6, 2, 0),
    (202, 5, 1, 1),
    (203, 5, 4, 2),
    (211, 7, 3, 3),
    (205, 8, 6, 4),
    (206, 4, 3, 5),
    (209, 1, 5, 6),
    (210, 3, 8, 7),
];

pub const TIDIED: [Row; 8] = [
    (202, 5, 1, 1),
    (209, 1, 5, 1),
    (210, 3, 8, 3),
    (211, 7, 3, 3),
    (203, 5, 4, 5),
    (206, 4, 3, 5),
    (201, 6, 2, 7),
    (205, 8, 6, 7),
];

pub fn tidying() -> Step {
    step(
        "tidy",
        "tidy rounds 4 moves 5\nmove 209 from 6 to 1\nmove 203 from 2 to 5\nmove 210 from 7 to 3\n\
         move 201 from 0 to 7\nmove 205 from 4 to 7",
        Some(table(&MONTH_PORTS, &BUSY_MONTH)),
        Some(table(&MONTH_PORTS, &TIDIED)),
    )
}

/// The most there can be: 64 nodes, 192 circuits of the widest numbers, every port in use. Each
/// clockwise place has a circuit to the next node and its return.
pub fn largest() -> (Vec<u8>, Vec<Row>) {
    let mut rows = Vec::new();
    for wavelength in 0..64_u8 {
        let node = |ahead: u8| (wavelength + ahead) % 64 + 1;
        let number = u32::MAX - 3 * u32::from(wavelength);
        rows.push((number - 1, node(0), node(1), 2 * wavelength));
        rows.push((number, node(1), node(0), 2 * wavelength));
        rows.push((number - 2, node(0), node(32), 2 * wavelength + 1));
    }
    (vec![3; 64], rows)
}
