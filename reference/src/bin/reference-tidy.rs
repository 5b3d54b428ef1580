//! Tidies the table of a saved form many times over, to be timed: standard input to standard output.

use std::hint::black_box;
use std::io::{self, Write};
use std::process::ExitCode;

use second_controller::form::{self, FORM_MOST};
use second_controller::opening::Move;
use second_controller::table::Table;
use second_controller::tidying::{Tidying, RECORDS_LEAST};
use second_controller::timed::{read_table, run_counted};

const USAGE: &str = "usage: reference-tidy COUNT < form > tidied
  tidy the form's table COUNT times, each time anew, and write what the last time gave: a byte each
  for the rounds and the moves, six bytes for each move, and the form of the tidied table";

fn main() -> ExitCode {
    run_counted("reference-tidy", USAGE, run)
}

fn run(count: u64) -> Result<(), String> {
    let table = read_table()?;
    let mut list = [Move::default(); RECORDS_LEAST];
    let (mut tidied, mut tidying) = (Table::blank(), Tidying::default());
    for _ in 0..count {
        tidied = black_box(&table).clone();
        tidying = tidied.tidy_good_table(black_box(&mut list)).expect("the list is long enough");
    }
    let output = bytes(tidying.rounds, &list[..tidying.moves], &tidied);
    io::stdout().write_all(&output).map_err(|error| error.to_string())
}

/// Rounds and moves, a byte each; of each move the number, highest byte first, and both places; and
/// the form.
fn bytes(rounds: usize, moves: &[Move], table: &Table) -> Vec<u8> {
    let mut bytes = vec![rounds as u8, moves.len() as u8];
    for Move { number, from, to } in moves {
        bytes.extend(number.to_be_bytes());
        bytes.extend([from.0, to.0]);
    }
    let mut form = [0; FORM_MOST];
    let length = form::write(table, &mut form).expect("a tidied table meets the ring rules");
    bytes.extend(&form[..length]);
    bytes
}
