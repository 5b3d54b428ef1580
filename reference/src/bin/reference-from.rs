//! Looks up every node of a saved form's ring many times over, to be timed: standard input to
//! standard output.

use std::hint::black_box;
use std::io::{self, Write};
use std::process::ExitCode;

use second_controller::lookup::list_circuits_from;
use second_controller::table::Lightpath;
use second_controller::timed::{read_table, run_counted};

const USAGE: &str = "usage: reference-from COUNT < form > checksum
  look up the circuits from each node, 1 to N in turn, COUNT times over, and write a checksum of all
  of them: four bytes, highest first";

fn main() -> ExitCode {
    run_counted("reference-from", USAGE, run)
}

/// Each lookup is as if the table were another; the checksum goes on through all of them.
fn run(count: u64) -> Result<(), String> {
    let table = read_table()?;
    let mut list = Vec::new();
    let mut checksum = 0;
    for _ in 0..count {
        for node in 1..=table.nodes {
            list_circuits_from(black_box(&table), node, &mut list);
            checksum = list.iter().fold(checksum, checksum_with);
        }
    }
    io::stdout().write_all(&checksum.to_be_bytes()).map_err(|error| error.to_string())
}

/// The checksum times 31, and the number, 7 times the destination and the place of one circuit more,
/// modulo 2^32.
fn checksum_with(checksum: u32, Lightpath { circuit, place }: &Lightpath) -> u32 {
    let ends = 7 * u32::from(circuit.destination) + u32::from(place.0);
    checksum.wrapping_mul(31).wrapping_add(circuit.number).wrapping_add(ends)
}
