//! The second controller's planning program: standard input to standard output.

use std::io::{self, BufReader, BufWriter};
use std::process::ExitCode;

use second_controller::plan::{self, Planner};

const USAGE: &str = "usage: reference-plan [--check] < script
  --check   check the ring rules at every opening, closing and tidying";

fn main() -> ExitCode {
    let arguments: Vec<String> = std::env::args().skip(1).collect();
    let arguments: Vec<&str> = arguments.iter().map(String::as_str).collect();
    let mut planner = match arguments[..] {
        [] => Planner::new(),
        ["--check"] => Planner::checking_rules(),
        _ => {
            eprintln!("{USAGE}");
            return ExitCode::from(2);
        }
    };
    let mut input = BufReader::new(io::stdin().lock());
    let mut output = BufWriter::new(io::stdout().lock());
    match plan::run(&mut planner, &mut input, &mut output) {
        Ok(()) => ExitCode::SUCCESS,
        Err(error) => {
            eprintln!("reference-plan: {error}");
            ExitCode::FAILURE
        }
    }
}
