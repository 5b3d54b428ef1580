//! Makes the load report of a saved form many times over, to be timed: standard input to standard
//! output.

use std::hint::black_box;
use std::io::{self, Write};
use std::process::ExitCode;

use second_controller::arguments::Arguments;
use second_controller::report::{loads_afresh, loads_in_one_walk};
use second_controller::table::Table;
use second_controller::timed::read_table;

const USAGE: &str = "usage: reference-load --walk|--afresh COUNT < form > report
  --walk     make the report COUNT times by a running load from link to link
  --afresh   make it COUNT times by counting afresh for each link";

/// How the report is made, and how many times.
enum Task {
    Walk(u64),
    Afresh(u64),
}

fn main() -> ExitCode {
    let task = match Task::read() {
        Ok(task) => task,
        Err(message) => {
            eprintln!("reference-load: {message}\n{USAGE}");
            return ExitCode::from(2);
        }
    };
    match task.run() {
        Ok(()) => ExitCode::SUCCESS,
        Err(message) => {
            eprintln!("reference-load: {message}");
            ExitCode::FAILURE
        }
    }
}

impl Task {
    fn read() -> Result<Task, String> {
        let words = std::env::args().skip(1);
        let arguments = Arguments::read(words, &["--walk", "--afresh"], &[])?;
        let count = |name| arguments.needed_number_within(name, 1..=u64::MAX);
        match (arguments.has("--walk"), arguments.has("--afresh")) {
            (true, false) => Ok(Task::Walk(count("--walk")?)),
            (false, true) => Ok(Task::Afresh(count("--afresh")?)),
            _ => Err("either --walk or --afresh is needed".to_string()),
        }
    }

    fn run(&self) -> Result<(), String> {
        let table = read_table()?;
        let report = match *self {
            Task::Walk(count) => last_report(&table, count, loads_in_one_walk),
            Task::Afresh(count) => last_report(&table, count, loads_afresh),
        };
        io::stdout().write_all(&report).map_err(|error| error.to_string())
    }
}

/// Has the report filled so many times, each time as if the table and the report were others.
fn last_report(table: &Table, count: u64, fill: impl Fn(&Table, &mut [u8])) -> Vec<u8> {
    let mut report = vec![0; 2 * usize::from(table.nodes)];
    for _ in 0..count {
        fill(black_box(table), black_box(&mut report));
    }
    report
}
