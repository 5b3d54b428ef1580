//! A script run line by line: the steps that the page shows.

use std::io::{BufRead, Write};
use std::rc::Rc;

use crate::ringplan::{printable, Failure, Ringplan};
use crate::saving::{Files, Saving};
use crate::step::Step;
use crate::table::Table;

/// As many steps are shown, the last ones, where none are chosen.
pub const SHOWN_MOST: usize = 200;

#[derive(PartialEq, Eq, Debug)]
pub struct Day {
    /// The lines of the whole script.
    pub lines: usize,
    /// The steps shown, one after the other.
    pub steps: Vec<Step>,
    /// The lines run whose file could not be had.
    pub failed: Vec<usize>,
}

/// The steps from the first to the last chosen, both included and counted from 1.
pub type Choice = Option<(usize, usize)>;

/// Runs a script and keeps the steps chosen. The lines before them are run too, but the ring is
/// asked for only where it is shown.
pub fn run<R: BufRead, W: Write>(
    plan: &mut Ringplan<R, W>,
    script: &[u8],
    choice: Choice,
    saving: Saving,
) -> Result<Day, Failure> {
    let lines = lines_of(script);
    let (first, last) = shown(lines.len(), choice)?;
    let mut files = Files::new(saving);
    for (index, line) in lines[..first - 1].iter().enumerate() {
        files.ask(plan, index + 1, line)?;
    }
    let mut steps = Vec::new();
    let mut before = if first > 1 { plan.table()?.map(Rc::new) } else { None };
    for number in first..=last {
        let step = take_step(plan, &mut files, number, lines[number - 1], before)?;
        before = step.after.clone();
        steps.push(step);
    }
    Ok(Day { lines: lines.len(), steps, failed: files.failed })
}

fn take_step<R: BufRead, W: Write>(
    plan: &mut Ringplan<R, W>,
    files: &mut Files,
    number: usize,
    line: &[u8],
    before: Option<Rc<Table>>,
) -> Result<Step, Failure> {
    let request = printable(line);
    let (answer, outcome) = files.ask(plan, number, line)?;
    let after = plan.table()?.map(Rc::new);
    let answer = answer.iter().map(|line| printable(line.as_bytes())).collect();
    Ok(Step { number, request, answer, outcome, before, after })
}

/// A line ends at LF; a last line without one is a line too.
fn lines_of(script: &[u8]) -> Vec<&[u8]> {
    let whole = script.strip_suffix(b"\n").unwrap_or(script);
    if script.is_empty() {
        Vec::new()
    } else {
        whole.split(|&byte| byte == b'\n').collect()
    }
}

/// The first and the last step shown of a script; the last is below the first where it is empty.
fn shown(lines: usize, choice: Choice) -> Result<(usize, usize), Failure> {
    match choice {
        None => Ok((lines.saturating_sub(SHOWN_MOST) + 1, lines)),
        Some((first, last)) if first <= lines => Ok((first, last.min(lines))),
        Some((first, _)) => {
            Err(Failure(format!("there is no step {first}: the script has {lines} lines")))
        }
    }
}

#[cfg(test)]
mod tests {
    use super::*;

    #[test]
    fn lines_end_at_lf() {
        let none: [&[u8]; 0] = [];
        assert_eq!(lines_of(b""), none);
        assert_eq!(lines_of(b"\n"), [b""]);
        assert_eq!(lines_of(b"a\n\nb"), [b"a".as_slice(), b"", b"b"]);
        assert_eq!(lines_of(b"a\nb\n"), [b"a", b"b"]);
    }

    #[test]
    fn the_last_200_steps_are_shown_where_none_are_chosen() {
        assert_eq!(shown(0, None), Ok((1, 0)));
        assert_eq!(shown(200, None), Ok((1, 200)));
        assert_eq!(shown(1000, None), Ok((801, 1000)));
        assert_eq!(shown(1000, Some((5, 7))), Ok((5, 7)));
        assert_eq!(shown(10, Some((5, 70))), Ok((5, 10)));
        let beyond = shown(10, Some((11, 12))).unwrap_err().to_string();
        assert_eq!(beyond, "there is no step 11: the script has 10 lines");
    }

    const END: &str = "read refused 30\n";

    #[test]
    fn each_step_has_the_ring_before_and_after() {
        let ring = |circuits: &str, load: &str| {
            format!("circuits {circuits}{END}load {load}\n{END}write 20 03010101\n{END}")
        };
        let empty = ring("0\n", "0 0 0 0 0 0");
        let lit = ring("1\ncircuit 9 from 1 to 2 remark 0 account 0 place 0\n", "1 0 0 0 0 0");
        let answers =
            format!("ring 3 wavelengths 1\n{END}{empty}open 9 place 0 moves 0 looks 0\n{END}{lit}");
        let mut plan = Ringplan::over(answers.as_bytes(), Vec::new());
        let day = run(&mut plan, b"ring 3 1 1 1\nopen 9 1 2 0 0", None, Saving::Drawn).unwrap();
        assert_eq!((day.lines, day.steps.len()), (2, 2));
        assert_eq!(day.steps[0].before, None);
        assert_eq!(day.steps[0].after, day.steps[1].before);
        assert_eq!(day.steps[1].after.as_ref().unwrap().circuits[0].number, 9);

        let skipped =
            format!("ring 3 wavelengths 1\n{END}{empty}open 9 place 0 moves 0 looks 0\n{END}{lit}");
        let mut plan = Ringplan::over(skipped.as_bytes(), Vec::new());
        let chosen =
            run(&mut plan, b"ring 3 1 1 1\nopen 9 1 2 0 0", Some((2, 2)), Saving::Drawn).unwrap();
        assert_eq!(chosen.steps[..], day.steps[1..]);
    }
}
