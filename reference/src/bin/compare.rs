//! Runs a script program on generated scripts and compares it with the second controller.

use std::io::{self, Write};
use std::path::PathBuf;
use std::process::ExitCode;

use second_controller::arguments::Arguments;
use second_controller::comparison::{run_program, Expected};
use second_controller::coverage::Coverage;
use second_controller::generator::{self, Kind};
use second_controller::program::Program;

const USAGE: &str =
    "usage: compare --program PATH --seeds A..B --lines N [--kind KIND] [--plan] [--complete]
  --seeds      one script for each seed from A to B, both included
  --lines      the lines of each script
  --kind       small, large, mixed (if not given), light or forms
  --plan       the program takes the planning program's lines, and scripts have every kind of them
  --complete   end with 1 where a kind of line, answer or refusal was never reached";

/// Output past the expected is read this far, so that a difference can be shown.
const OUTPUT_TOO_MUCH: usize = 1 << 16;

struct Task {
    path: PathBuf,
    program: Program,
    seeds: std::ops::RangeInclusive<u64>,
    lines: u64,
    kind_name: String,
    kind: Kind,
    must_be_complete: bool,
}

fn main() -> ExitCode {
    let task = match Task::read() {
        Ok(task) => task,
        Err(message) => {
            eprintln!("compare: {message}\n{USAGE}");
            return ExitCode::from(2);
        }
    };
    let (text, code) = match task.compare_all() {
        Ok(coverage) if task.must_be_complete && !coverage.missing().is_empty() => {
            (task.totals(&coverage), ExitCode::FAILURE)
        }
        Ok(coverage) => (task.totals(&coverage), ExitCode::SUCCESS),
        Err(message) => (message + "\n", ExitCode::FAILURE),
    };
    // A reader that has gone away does not change the outcome.
    let _ = io::stdout().write_all(text.as_bytes());
    code
}

impl Task {
    fn read() -> Result<Task, String> {
        let words = std::env::args().skip(1);
        let names = ["--program", "--seeds", "--lines", "--kind"];
        let arguments = Arguments::read(words, &names, &["--plan", "--complete"])?;
        let kind_name = arguments.text("--kind").unwrap_or("mixed").to_string();
        Ok(Task {
            path: PathBuf::from(arguments.needed_text("--program")?),
            program: if arguments.has("--plan") { Program::Plan } else { Program::Script },
            must_be_complete: arguments.has("--complete"),
            seeds: arguments.needed_range("--seeds")?,
            lines: arguments.needed_number("--lines")?,
            kind: Kind::named(&kind_name).ok_or(format!("{kind_name} is not a kind"))?,
            kind_name,
        })
    }

    /// The coverage of all scripts together, or the first difference in words.
    fn compare_all(&self) -> Result<Coverage, String> {
        let mut coverage = Coverage::of(self.program);
        for seed in self.seeds.clone() {
            let script = generator::script(self.program, self.kind, seed, self.lines);
            let expected = Expected::of(self.program, &script);
            self.compare(seed, &script, &expected)?;
            coverage.add(&expected.coverage);
        }
        Ok(coverage)
    }

    fn compare(&self, seed: u64, script: &[u8], expected: &Expected) -> Result<(), String> {
        let program = self.path.display();
        let most = expected.output.len() + OUTPUT_TOO_MUCH;
        let run = run_program(&self.path, script, most)
            .map_err(|error| format!("{program} could not be run: {error}"))?;
        let status = run.status;
        if let Some(difference) = expected.first_difference(&run.output) {
            let (kind, lines) = (&self.kind_name, difference.line_number);
            let plan = if self.program == Program::Plan { " --plan" } else { "" };
            return Err(format!(
                "difference with seed {seed}, {difference}\
                 again with: generate{plan} --kind {kind} --seed {seed} --lines {lines}\n\
                 program ended: {status}"
            ));
        }
        if !status.success() {
            return Err(format!(
                "seed {seed}: all answers equal, but {program} ended with {status}"
            ));
        }
        if let Some(fault) = expected.fault_said(&run.said) {
            return Err(format!("seed {seed}: all answers equal by {program}; {fault}"));
        }
        Ok(())
    }

    fn totals(&self, coverage: &Coverage) -> String {
        let (first, last) = (self.seeds.start(), self.seeds.end());
        let (lines, kind) = (coverage.lines, &self.kind_name);
        let missing: Vec<String> =
            coverage.missing().iter().map(|event| event.to_string().trim().to_string()).collect();
        let not_reached = if missing.is_empty() {
            String::new()
        } else {
            format!("not reached: {}\n", missing.join("; "))
        };
        format!(
            "no difference: {lines} lines compared, seeds {first}..{last}, kind {kind}\n\
             {coverage}{not_reached}"
        )
    }
}
