//! Prints a long script made from a seed, what such a script reaches, or the form of a ring with circuits.

use std::io::{self, Write};
use std::process::ExitCode;

use second_controller::arguments::Arguments;
use second_controller::comparison::Expected;
use second_controller::generator::{self, Kind};
use second_controller::program::Program;
use second_controller::table::{NODES_LEAST, NODES_MOST, RING_PORTS_MOST};

const USAGE: &str = "usage: generate --seed S --lines N [--kind KIND] [--plan] [--stats]
  --kind      small, large, mixed (if not given), light or forms
  --plan      lines of every kind that the planning program takes
  --stats     print how often each step and refusal comes, in place of the script
       generate --form --seed S --nodes N --circuits C
       generate --form --seed S [--nodes N] --crowded
       generate --form --seed S --dear
  --form      the saved form of a ring, in place of a script
  --nodes     the nodes of the ring, 3 to 64 (64 for --crowded if not given)
  --circuits  the circuits opened on it, 1 to 192
  --crowded   a circuit alone at each of 128 places, so that there is much to tidy
  --dear      64 nodes, as crowded, and tidying passes many pairs over in every round";

fn main() -> ExitCode {
    match run() {
        Ok(()) => ExitCode::SUCCESS,
        Err(message) => {
            eprintln!("generate: {message}\n{USAGE}");
            ExitCode::from(2)
        }
    }
}

fn run() -> Result<(), String> {
    let words: Vec<String> = std::env::args().skip(1).collect();
    let output =
        if words.iter().any(|word| word == "--form") { form(words)? } else { script(words)? };
    io::stdout().write_all(&output).map_err(|error| error.to_string())
}

/// A script, or what it reaches.
fn script(words: Vec<String>) -> Result<Vec<u8>, String> {
    let arguments =
        Arguments::read(words, &["--seed", "--lines", "--kind"], &["--plan", "--stats"])?;
    let seed = arguments.needed_number("--seed")?;
    let lines = arguments.needed_number("--lines")?;
    let name = arguments.text("--kind").unwrap_or("mixed");
    let kind = Kind::named(name).ok_or(format!("{name} is not a kind"))?;
    let program = if arguments.has("--plan") { Program::Plan } else { Program::Script };
    let script = generator::script(program, kind, seed, lines);
    if !arguments.has("--stats") {
        return Ok(script);
    }
    let coverage = Expected::of(program, &script).coverage;
    Ok(format!("{:>10}  lines\n{coverage}", coverage.lines).into_bytes())
}

/// The saved form of a ring with circuits.
fn form(words: Vec<String>) -> Result<Vec<u8>, String> {
    let flags = ["--form", "--crowded", "--dear"];
    let arguments = Arguments::read(words, &["--seed", "--nodes", "--circuits"], &flags)?;
    let seed = arguments.needed_number("--seed")?;
    match ["--circuits", "--crowded", "--dear"].map(|name| arguments.has(name)) {
        [true, false, false] => {
            let limits = 1..=u64::from(RING_PORTS_MOST);
            let circuits = arguments.needed_number_within("--circuits", limits)?;
            Ok(generator::form(nodes(&arguments)?, circuits as usize, seed))
        }
        [false, true, false] if !arguments.has("--nodes") => {
            Ok(generator::crowded_form(NODES_MOST, seed))
        }
        [false, true, false] => Ok(generator::crowded_form(nodes(&arguments)?, seed)),
        [false, false, true] if !arguments.has("--nodes") => Ok(generator::dear_form(seed)),
        [false, false, true] => Err("--dear takes no --nodes".to_string()),
        _ => Err("one of --circuits, --crowded and --dear is needed".to_string()),
    }
}

fn nodes(arguments: &Arguments) -> Result<u8, String> {
    let limits = u64::from(NODES_LEAST)..=u64::from(NODES_MOST);
    Ok(arguments.needed_number_within("--nodes", limits)? as u8)
}
