//! What the programs to be timed share: the form on standard input, and how often its table is used.

use std::io::{self, Read};
use std::process::ExitCode;

use crate::form;
use crate::table::Table;

/// The table of the form on standard input, or why there is none.
pub fn read_table() -> Result<Table, String> {
    let mut form = Vec::new();
    io::stdin().read_to_end(&mut form).map_err(|error| error.to_string())?;
    form::read(&form).map_err(|refusal| format!("read refused {}", refusal.number()))
}

/// Runs a program whose only argument is a count, and says why where it cannot.
pub fn run_counted(name: &str, usage: &str, run: fn(u64) -> Result<(), String>) -> ExitCode {
    let Some(count) = only_count() else {
        eprintln!("{usage}");
        return ExitCode::from(2);
    };
    match run(count) {
        Ok(()) => ExitCode::SUCCESS,
        Err(message) => {
            eprintln!("{name}: {message}");
            ExitCode::FAILURE
        }
    }
}

/// The count that is the program's only argument.
fn only_count() -> Option<u64> {
    let mut arguments = std::env::args().skip(1);
    let count = arguments.next()?.parse().ok()?;
    (count > 0 && arguments.next().is_none()).then_some(count)
}
