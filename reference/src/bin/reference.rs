//! The second controller's script program: standard input to standard output.

use std::io::{self, BufReader, BufWriter};
use std::process::ExitCode;

use second_controller::script::{self, Desk};

const USAGE: &str = "usage: reference [--check] < script
  --check   check the ring rules at every opening and closing";

const BUFFER: usize = 1 << 16;

fn main() -> ExitCode {
    let arguments: Vec<String> = std::env::args().skip(1).collect();
    let arguments: Vec<&str> = arguments.iter().map(String::as_str).collect();
    let mut desk = match arguments[..] {
        [] => Desk::new(),
        ["--check"] => Desk::checking_rules(),
        _ => {
            eprintln!("{USAGE}");
            return ExitCode::from(2);
        }
    };
    let mut input = BufReader::with_capacity(BUFFER, io::stdin().lock());
    let mut output = BufWriter::with_capacity(BUFFER, io::stdout().lock());
    match script::run(&mut desk, &mut input, &mut output) {
        Ok(()) => ExitCode::SUCCESS,
        Err(error) => {
            eprintln!("reference: {error}");
            ExitCode::FAILURE
        }
    }
}
