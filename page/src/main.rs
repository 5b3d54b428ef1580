//! `ringpage`: a script in, a page out.

use std::env;
use std::ffi::OsString;
use std::fs::{self, File};
use std::io::{self, Write};
use std::os::fd::AsFd;
use std::path::Path;
use std::process::ExitCode;

use ringpage::arguments::{parse, Order, USAGE};
use ringpage::day::{self, Choice, Day};
use ringpage::page::page;
use ringpage::picture::picture;
use ringpage::ringplan::{self, Failure};
use ringpage::saving::Saving;

const PROGRAM: &str = "target/bin/ringplan";

fn main() -> ExitCode {
    let arguments: Vec<OsString> = env::args_os().skip(1).collect();
    let done = match parse(&arguments) {
        Ok(order) => make(order),
        Err(fault) => return fail(&fault, 2),
    };
    match done {
        Ok(()) => ExitCode::SUCCESS,
        Err(failure) => fail(&failure.to_string(), 1),
    }
}

fn fail(sentence: &str, status: u8) -> ExitCode {
    // Where nobody hears it, the status says it.
    let _ = writeln!(io::stderr(), "ringpage: {sentence}");
    ExitCode::from(status)
}

fn make(order: Order) -> Result<(), Failure> {
    match order {
        Order::Help => print(USAGE),
        Order::Page { script, steps, saving } => {
            let day = run(&script, steps, saving)?;
            print(&page(&name(&script), &day))?;
            report(&day.failed)
        }
        Order::Svg { script, step, saving } => {
            let day = run(&script, Some((step, step)), saving)?;
            print(&day.steps.iter().map(picture).collect::<String>())?;
            report(&day.failed)
        }
    }
}

/// The lines whose file could not be had are a failure, though the page is there.
fn report(failed: &[usize]) -> Result<(), Failure> {
    match failed {
        [] => Ok(()),
        [line] => Err(Failure(format!("the page is made, but the file of line {line} failed"))),
        [first, ..] => Err(Failure(format!(
            "the page is made, but the files of {} lines failed, first that of line {first}",
            failed.len()
        ))),
    }
}

fn run(path: &Path, steps: Choice, saving: Saving) -> Result<Day, Failure> {
    let script = fs::read(path).map_err(|error| {
        Failure(format!("the script {} cannot be read: {error}", path.display()))
    })?;
    let program = env::var_os("RINGPLAN").unwrap_or_else(|| PROGRAM.into());
    ringplan::run(Path::new(&program), |plan| day::run(plan, &script, steps, saving))
}

/// The script's name without its folder.
fn name(path: &Path) -> String {
    ringplan::printable(path.file_name().unwrap_or_default().to_string_lossy().as_bytes())
}

/// Through a descriptor of its own: the library's standard output takes what goes to a descriptor
/// that cannot be written for written.
fn print(text: &str) -> Result<(), Failure> {
    let out = io::stdout().as_fd().try_clone_to_owned().map(File::from);
    out.and_then(|mut out| out.write_all(text.as_bytes()))
        .map_err(|error| Failure(format!("the page cannot be written: {error}")))
}
