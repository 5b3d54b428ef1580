//! Lines that save the ring to a file. A page changes no file, so they are not run unless that is
//! asked for; a line that reads such a file back gets the form that it would have had.

use std::collections::BTreeMap;
use std::io::{BufRead, Write};

use crate::ringplan::{printable, Failure, Ringplan};
use crate::step::{outcome_of, Outcome};

/// What stands in place of the answer to a line that was not run.
pub const NOT_RUN: &str = "not run";

/// `ringplan` refuses a longer line.
const LINE_MOST: usize = 8192;

#[derive(Clone, Copy, PartialEq, Eq, Debug)]
pub enum Saving {
    /// Lines that save to a file are drawn and not run.
    Drawn,
    /// They are run as all others are.
    Run,
}

/// The files of a script.
pub struct Files {
    saving: Saving,
    /// Those that lines not run would have written.
    unwritten: BTreeMap<Vec<u8>, Unwritten>,
    /// The lines whose file could not be had.
    pub failed: Vec<usize>,
}

struct Unwritten {
    line: usize,
    /// The form in hexadecimal digits.
    form: String,
}

impl Files {
    pub fn new(saving: Saving) -> Files {
        Files { saving, unwritten: BTreeMap::new(), failed: Vec::new() }
    }

    /// The answer to a line of the script, by its number, and what it says.
    pub fn ask<R: BufRead, W: Write>(
        &mut self,
        plan: &mut Ringplan<R, W>,
        number: usize,
        line: &[u8],
    ) -> Result<(Vec<String>, Outcome), Failure> {
        let drawn = if self.saving == Saving::Drawn { path(b"write @", line) } else { None };
        if let Some(path) = drawn {
            return self.keep(plan, number, line, path);
        }
        let kept = path(b"read @", line).and_then(|path| self.unwritten.get(path));
        let read_back = kept.map(|kept| format!("read {}", kept.form));
        let answer = plan.ask(read_back.as_deref().map_or(line, str::as_bytes))?;
        let outcome = understood(line, &answer)?;
        if outcome == Outcome::Failed {
            self.failed.push(number);
        }
        match (kept, outcome) {
            (Some(kept), Outcome::Read) => Ok((answer, Outcome::ReadBack { line: kept.line })),
            (_, outcome) => Ok((answer, outcome)),
        }
    }

    /// Keeps the form that the file of a line would have. Before the first ring there is none, and
    /// the line is refused as it would be if it were run.
    fn keep<R: BufRead, W: Write>(
        &mut self,
        plan: &mut Ringplan<R, W>,
        number: usize,
        line: &[u8],
        path: &[u8],
    ) -> Result<(Vec<String>, Outcome), Failure> {
        let answer = plan.ask(b"write")?;
        if let ["write", _, form] = answer[0].split(' ').collect::<Vec<_>>()[..] {
            let unwritten = Unwritten { line: number, form: form.into() };
            self.unwritten.insert(path.to_vec(), unwritten);
            return Ok((vec![NOT_RUN.into()], Outcome::NotRun));
        }
        let outcome = understood(line, &answer)?;
        Ok((answer, outcome))
    }
}

fn understood(line: &[u8], answer: &[String]) -> Result<Outcome, Failure> {
    outcome_of(answer).ok_or_else(|| {
        Failure(format!("ringplan's answer to `{}` is not understood", printable(line)))
    })
}

/// The path after these first bytes of a line, where `ringplan` would take the line; where it would
/// not, or the path is empty, no file is touched.
fn path<'a>(first: &[u8], line: &'a [u8]) -> Option<&'a [u8]> {
    let path = line.strip_prefix(first)?;
    (!path.is_empty() && !path.contains(&b' ') && line.len() <= LINE_MOST).then_some(path)
}

#[cfg(test)]
mod tests {
    use super::*;

    const END: &str = "read refused 30\n";

    /// What was answered to the lines, and what `ringplan` was asked, without the marks.
    fn asked(saving: Saving, lines: &[&str], answers: &str) -> (Vec<Outcome>, Vec<String>) {
        let mut requests = Vec::new();
        let mut plan = Ringplan::over(answers.as_bytes(), &mut requests);
        let mut files = Files::new(saving);
        let ask = |(index, line): (usize, &&str)| {
            files.ask(&mut plan, index + 1, line.as_bytes()).unwrap().1
        };
        let outcomes = lines.iter().enumerate().map(ask).collect();
        let requests = String::from_utf8(requests).unwrap();
        let requests = requests.lines().filter(|&line| line != "read -").map(String::from);
        (outcomes, requests.collect())
    }

    #[test]
    fn a_line_that_saves_is_not_run() {
        let answers = format!("write 29 0a0b\n{END}read 5 wavelengths 2\n{END}");
        let lines = ["write @a", "read @a"];
        let (outcomes, requests) = asked(Saving::Drawn, &lines, &answers);
        assert_eq!(outcomes, [Outcome::NotRun, Outcome::ReadBack { line: 1 }]);
        assert_eq!(requests, ["write", "read 0a0b"]);
        let answers = format!("write 29\n{END}read 5 wavelengths 2\n{END}");
        let (outcomes, requests) = asked(Saving::Run, &lines, &answers);
        assert_eq!(outcomes, [Outcome::Told, Outcome::Read]);
        assert_eq!(requests, lines);
    }

    #[test]
    fn the_last_form_is_read_back_and_other_files_are_read() {
        let answers = format!(
            "write 29 0a\n{END}write 29 0b\n{END}read failed\n{END}read 5 wavelengths 2\n{END}"
        );
        let lines = ["write @a", "write @a", "read @b", "read @a"];
        let (outcomes, requests) = asked(Saving::Drawn, &lines, &answers);
        let read_back = Outcome::ReadBack { line: 2 };
        assert_eq!(outcomes, [Outcome::NotRun, Outcome::NotRun, Outcome::Failed, read_back]);
        assert_eq!(requests, ["write", "write", "read @b", "read 0b"]);
    }

    #[test]
    fn nothing_is_kept_of_a_line_that_would_save_nothing() {
        let answers = format!("line refused\n{END}read failed\n{END}");
        let (outcomes, requests) = asked(Saving::Drawn, &["write @a", "read @a"], &answers);
        assert_eq!(outcomes, [Outcome::LineRefused, Outcome::Failed]);
        assert_eq!(requests, ["write", "read @a"]);
        let long = "a".repeat(LINE_MOST - "write @".len() + 1);
        for path in ["", "a b", &long] {
            let lines = [&format!("write @{path}")[..], &format!("read @{path}")];
            let answers = format!("line refused\n{END}line refused\n{END}");
            let (outcomes, requests) = asked(Saving::Drawn, &lines, &answers);
            assert_eq!(outcomes, [Outcome::LineRefused, Outcome::LineRefused]);
            assert_eq!(requests, lines);
        }
    }
}
