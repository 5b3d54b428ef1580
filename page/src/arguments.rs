//! The command line.

use std::ffi::OsString;
use std::path::PathBuf;

use crate::day::Choice;
use crate::saving::Saving;

pub const USAGE: &str = "\
usage: ringpage [--steps A..B] [--write] SCRIPT > PAGE.html
       ringpage --svg N [--write] SCRIPT > STEP.svg

Runs each line of SCRIPT through ringplan and writes a page to standard output that
shows every step: the request, the answer, what happened in words, and the ring drawn.
The page is one file; it works offline, on a projector and on paper.
Making it changes no file: a line `write @PATH` is drawn and not run, and a later
`read @PATH` of the same PATH reads the ring that it would have saved.

  --steps A..B   shows the steps A to B; without it the last 200 are shown
  --svg N        writes one picture of step N instead
  --write        runs each line `write @PATH` too, and so writes the files
  --help         prints this

The program is target/bin/ringplan; the environment variable RINGPLAN names another.
Status 1: the script cannot be read, ringplan cannot be run, the page cannot be
written, or the page is made and a file of the script cannot be had. Status 2: the
command line is not understood. What ringplan says on standard error is passed on.
";

#[derive(PartialEq, Eq, Debug)]
pub enum Order {
    Help,
    Page { script: PathBuf, steps: Choice, saving: Saving },
    Svg { script: PathBuf, step: usize, saving: Saving },
}

/// What the arguments, without the program's name, ask for; or what is wrong with them.
pub fn parse(arguments: &[OsString]) -> Result<Order, String> {
    if arguments.iter().any(|argument| argument == "--help") {
        return Ok(Order::Help);
    }
    let (mut steps, mut svg, mut script, mut saving) = (None, None, None, Saving::Drawn);
    let mut rest = arguments.iter();
    while let Some(argument) = rest.next() {
        match argument.to_str() {
            Some("--steps") => steps = Some(range(value("--steps", rest.next())?)?),
            Some("--svg") => svg = Some(step(value("--svg", rest.next())?)?),
            Some("--write") => saving = Saving::Run,
            Some(option) if option.starts_with('-') => {
                return Err(format!("unknown option {option}"));
            }
            _ if script.is_some() => return Err("one script at a time".into()),
            _ => script = Some(PathBuf::from(argument)),
        }
    }
    let script = script.ok_or("which script? ringpage --help tells more")?;
    match (svg, steps) {
        (Some(_), Some(_)) => Err("--svg takes one step, so --steps does not go with it".into()),
        (Some(step), None) => Ok(Order::Svg { script, step, saving }),
        (None, steps) => Ok(Order::Page { script, steps, saving }),
    }
}

fn value<'a>(option: &str, value: Option<&'a OsString>) -> Result<&'a str, String> {
    value.and_then(|word| word.to_str()).ok_or(format!("{option} needs a value"))
}

fn step(word: &str) -> Result<usize, String> {
    match word.parse() {
        Ok(number) if number >= 1 => Ok(number),
        _ => Err(format!("steps are counted from 1, and {word} is none")),
    }
}

fn range(word: &str) -> Result<(usize, usize), String> {
    let (first, last) =
        word.split_once("..").ok_or(format!("--steps takes A..B, and {word} is none"))?;
    let (first, last) = (step(first)?, step(last)?);
    if first <= last {
        Ok((first, last))
    } else {
        Err(format!("--steps {word} ends before it begins"))
    }
}

#[cfg(test)]
mod tests {
    use super::*;

    fn parsed(line: &str) -> Result<Order, String> {
        parse(&line.split_whitespace().map(OsString::from).collect::<Vec<_>>())
    }

    #[test]
    fn orders() {
        let page = |steps, saving| Ok(Order::Page { script: "day".into(), steps, saving });
        assert_eq!(parsed("day"), page(None, Saving::Drawn));
        assert_eq!(parsed("--steps 2..9 day"), page(Some((2, 9)), Saving::Drawn));
        assert_eq!(parsed("day --steps 2..9"), page(Some((2, 9)), Saving::Drawn));
        assert_eq!(parsed("--write day"), page(None, Saving::Run));
        assert_eq!(parsed("day --steps 2..9 --write"), page(Some((2, 9)), Saving::Run));
        let svg = |saving| Ok(Order::Svg { script: "day".into(), step: 7, saving });
        assert_eq!(parsed("--svg 7 day"), svg(Saving::Drawn));
        assert_eq!(parsed("--svg 7 --write day"), svg(Saving::Run));
        assert_eq!(parsed("--svg --help"), Ok(Order::Help));
    }

    #[test]
    fn what_is_not_understood() {
        for line in [
            "",
            "--page day",
            "--writes day",
            "-x",
            "day night",
            "--steps day",
            "--steps 0..3 day",
            "--steps 4..3 day",
            "--steps 3 day",
            "--svg 0 day",
            "--svg x day",
            "day --svg",
            "--svg 1 --steps 1..2 day",
        ] {
            let said = parsed(line).unwrap_err();
            assert!(!said.is_empty() && !said.contains('\n'), "{line}: {said}");
        }
    }
}
