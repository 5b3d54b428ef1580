//! The longest forms: every node and place, every port in use, each circuit with its optional fields.

use super::plan_lines::read;
use super::rings::even;
use super::traffic::free_number;
use crate::circuit::{can_share, Circuit};
use crate::form::form_of;
use crate::place::Place;
use crate::random::Random;
use crate::table::{Table, NODES_MOST, PLACES};

/// How many forms a script goes through before the first comes again.
const FORMS: usize = 48;

/// Lines that read the forms in turn and have each written back.
#[derive(Default)]
pub struct Longest {
    forms: Vec<Vec<u8>>,
    lines: usize,
}

impl Longest {
    pub fn next_line(&mut self, random: &mut Random) -> Vec<u8> {
        let (turn, is_writing) = (self.lines / 2 % FORMS, self.lines % 2 == 1);
        self.lines += 1;
        if is_writing {
            return b"write".to_vec();
        }
        if turn == self.forms.len() {
            self.forms.push(form_of(&full_table(random)));
        }
        read(&self.forms[turn])
    }
}

/// A table with all places lit and all ports in use. Each circuit of a first tour of the nodes
/// shares with the one of a second tour that goes on from its destination; those of a third tour
/// stand alone.
fn full_table(random: &mut Random) -> Table {
    let ports = even(usize::from(NODES_MOST));
    let mut table = Table::make(NODES_MOST, &ports).expect("the ports are those of a ring");
    let mut unlit: Vec<Place> = (0..PLACES as u8).map(Place).collect();
    random.shuffle(&mut unlit);
    let [first, second, third] = [(); 3].map(|()| tour(NODES_MOST, random));
    for a in first {
        let b = circuit_from(a.destination, &second);
        let fits = |place: &Place| can_share(NODES_MOST, place.direction(), a, b);
        let place = unlit.swap_remove(unlit.iter().position(fits).expect("each way has places"));
        table.set_up(filled(a, &table, random), place);
        table.set_up(filled(b, &table, random), place);
    }
    for (alone, place) in third.into_iter().zip(unlit) {
        table.set_up(filled(alone, &table, random), place);
    }
    table
}

/// A circuit from each of the nodes up to the last to the next one of a round through them in any
/// order.
pub fn tour(last: u8, random: &mut Random) -> Vec<Circuit> {
    let mut nodes: Vec<u8> = (1..=last).collect();
    random.shuffle(&mut nodes);
    let next = nodes.iter().cycle().skip(1);
    let circuit = |(&source, &destination)| Circuit { source, destination, ..Circuit::default() };
    nodes.iter().zip(next).map(circuit).collect()
}

fn circuit_from(node: u8, tour: &[Circuit]) -> Circuit {
    *tour.iter().find(|circuit| circuit.source == node).expect("a tour has every node")
}

/// The circuit with a number that is not live, a remark and an account.
pub fn filled(circuit: Circuit, table: &Table, random: &mut Random) -> Circuit {
    Circuit {
        number: free_number(table, random),
        remark: random.between(1, usize::from(u16::MAX)) as u16,
        account: random.between(1, u32::MAX as usize) as u32,
        ..circuit
    }
}
