//! Comparing a script program's output, byte for byte, with the second controller's.

use std::fmt;
use std::io::{self, Read, Write};
use std::path::Path;
use std::process::{Child, Command, ExitStatus, Stdio};
use std::thread;

use crate::coverage::{Coverage, Event};
use crate::lines::for_each_line;
use crate::plan::Planner;
use crate::program::Program;
use crate::script::Desk;

/// What the second controller answers to a script.
pub struct Expected {
    pub output: Vec<u8>,
    pub coverage: Coverage,
    lines: Vec<Line>,
}

/// A line of the script, and where its answer ends in the output.
struct Line {
    text: Vec<u8>,
    answer_end: usize,
}

impl Expected {
    /// Runs the script with the ring rules checked at every opening and closing.
    pub fn of(program: Program, script: &[u8]) -> Expected {
        match program {
            Program::Script => {
                let mut desk = Desk::checking_rules();
                Expected::collect(program, script, |coverage, line, output| {
                    coverage.run_line(&mut desk, line).write(output)
                })
            }
            Program::Plan => {
                let mut planner = Planner::checking_rules();
                Expected::collect(program, script, |coverage, line, output| {
                    coverage.run_plan_line(&mut planner, line).write(output)
                })
            }
        }
    }

    /// Has each line run and its answer written to the output.
    fn collect(
        program: Program,
        script: &[u8],
        mut run_line: impl FnMut(&mut Coverage, &[u8], &mut Vec<u8>) -> io::Result<()>,
    ) -> Expected {
        let mut coverage = Coverage::of(program);
        let mut output = Vec::new();
        let mut lines = Vec::new();
        let all_run = for_each_line(&mut &script[..], program.line_most(), |line| {
            run_line(&mut coverage, line, &mut output)?;
            lines.push(Line { text: line.to_vec(), answer_end: output.len() });
            Ok(())
        });
        all_run.expect("reading and writing in memory do not fail");
        Expected { output, coverage, lines }
    }

    /// What is wrong with what a program said on standard error: each file that fails has a line
    /// there, and nothing else has.
    pub fn fault_said(&self, said: &[u8]) -> Option<String> {
        let failed =
            self.coverage.count(Event::ReadFailed) + self.coverage.count(Event::WriteFailed);
        let lines: Vec<&[u8]> = said.split_inclusive(|&byte| byte == b'\n').collect();
        (lines.len() as u64 != failed).then(|| {
            let first = lines.first().map_or(String::new(), |line| {
                format!(", first: {}", line.strip_suffix(b"\n").unwrap_or(line).escape_ascii())
            });
            format!("{failed} files failed, but {} lines on standard error{first}", lines.len())
        })
    }

    /// The first line that the other output answers otherwise.
    pub fn first_difference(&self, other: &[u8]) -> Option<Difference> {
        if self.output == other {
            return None;
        }
        let same = self.output.iter().zip(other).take_while(|(a, b)| a == b).count();
        let index = self.lines.partition_point(|line| line.answer_end <= same);
        let start = if index == 0 { 0 } else { self.lines[index - 1].answer_end };
        let (text, answer) = match self.lines.get(index) {
            Some(line) => (line.text.clone(), &self.output[start..line.answer_end]),
            None => (Vec::new(), &[][..]),
        };
        let answer_lines = answer.iter().filter(|&&byte| byte == b'\n').count().max(1);
        Some(Difference {
            line_number: index + 1,
            line: text,
            reference: answer.to_vec(),
            program: first_lines(&other[start..], answer_lines).to_vec(),
        })
    }
}

/// The first so many lines, with their line ends.
fn first_lines(output: &[u8], count: usize) -> &[u8] {
    let ends = output.iter().enumerate().filter(|(_, &byte)| byte == b'\n');
    match ends.map(|(at, _)| at + 1).nth(count - 1) {
        Some(end) => &output[..end],
        None => output,
    }
}

/// A line answered otherwise; after the script's last line, what is printed too much.
#[derive(Clone, PartialEq, Eq, Debug)]
pub struct Difference {
    pub line_number: usize,
    pub line: Vec<u8>,
    pub reference: Vec<u8>,
    pub program: Vec<u8>,
}

impl fmt::Display for Difference {
    fn fmt(&self, f: &mut fmt::Formatter) -> fmt::Result {
        writeln!(f, "line {}: {}", self.line_number, self.line.escape_ascii())?;
        write_answer(f, "reference", &self.reference)?;
        write_answer(f, "program", &self.program)
    }
}

fn write_answer(f: &mut fmt::Formatter, who: &str, answer: &[u8]) -> fmt::Result {
    if answer.is_empty() {
        writeln!(f, "  {who}: no more output")?;
    }
    for line in answer.split_inclusive(|&byte| byte == b'\n') {
        let text = line.strip_suffix(b"\n").unwrap_or(line);
        let end = if text.len() == line.len() { " (no line end)" } else { "" };
        writeln!(f, "  {who}: {}{end}", text.escape_ascii())?;
    }
    Ok(())
}

/// What a program printed, said on standard error and ended with.
pub struct Run {
    pub output: Vec<u8>,
    pub said: Vec<u8>,
    pub status: ExitStatus,
}

/// Runs the program on the script; what it prints and what it says are read no further than `most`
/// bytes each.
pub fn run_program(program: &Path, script: &[u8], most: usize) -> io::Result<Run> {
    let mut command = Command::new(program);
    command.stdin(Stdio::piped()).stdout(Stdio::piped()).stderr(Stdio::piped());
    let mut child = command.spawn()?;
    let mut input = child.stdin.take().expect("the child's input is piped");
    let errors = child.stderr.take().expect("the child's standard error is piped");
    // Threads of their own, as the program may answer before it has read all, and say much.
    let (output, said) = thread::scope(|scope| {
        scope.spawn(move || {
            // A program that stops reading shows in its output.
            let _ = input.write_all(script);
        });
        let said = scope.spawn(move || {
            let mut said = Vec::new();
            errors.take(most as u64).read_to_end(&mut said).map(|_| said)
        });
        (read_output(&mut child, most), said.join().expect("reading does not panic"))
    });
    Ok(Run { output: output?, said: said?, status: child.wait()? })
}

fn read_output(child: &mut Child, most: usize) -> io::Result<Vec<u8>> {
    let mut output = Vec::new();
    let pipe = child.stdout.take().expect("the child's output is piped");
    pipe.take(most as u64).read_to_end(&mut output)?;
    if output.len() == most {
        child.kill()?;
    }
    Ok(output)
}

#[cfg(test)]
mod tests {
    use super::*;

    const SCRIPT: &[u8] = b"ring 3 1 1 1\nopen 1 1 2 0 0\nclose 2\n";

    fn difference(program: &str) -> Option<Difference> {
        Expected::of(Program::Script, SCRIPT).first_difference(program.as_bytes())
    }

    #[test]
    fn equal_output_has_no_difference() {
        let equal = "ring 3 wavelengths 1\nopen 1 place 0 moves 0 looks 0\nclose refused 15\n";
        assert_eq!(difference(equal), None);
    }

    #[test]
    fn a_changed_answer_is_shown_with_its_line() {
        let changed = "ring 3 wavelengths 1\nopen 1 place 0 moves 0 looks 1\nclose refused 15\n";
        let found = difference(changed).unwrap();
        assert_eq!((found.line_number, &found.line[..]), (2, &b"open 1 1 2 0 0"[..]));
        assert_eq!(found.reference, b"open 1 place 0 moves 0 looks 0\n");
        assert_eq!(found.program, b"open 1 place 0 moves 0 looks 1\n");
    }

    #[test]
    fn missing_and_additional_output_are_differences() {
        let cut = difference("ring 3 wavelengths 1\n").unwrap();
        assert_eq!((cut.line_number, &cut.program[..]), (2, &b""[..]));
        let more = "ring 3 wavelengths 1\nopen 1 place 0 moves 0 looks 0\nclose refused 15\nmore\n";
        let more = difference(more).unwrap();
        assert_eq!((more.line_number, &more.program[..]), (4, &b"more\n"[..]));
        assert_eq!(more.reference, b"");
    }

    #[test]
    fn an_answer_of_several_lines_is_shown_whole() {
        let script = b"ring 3 1 1 1\nopen 7 1 2 0 9\ncircuits\nload\n";
        let expected = Expected::of(Program::Plan, script);
        let list = "circuits 1\ncircuit 7 from 1 to 2 remark 0 account 9 place 0\n";
        let output = String::from_utf8(expected.output.clone()).unwrap();
        let changed = output.replace("place 0\nload", "place 1\nload");
        let found = expected.first_difference(changed.as_bytes()).unwrap();
        assert_eq!((found.line_number, &found.line[..]), (3, &b"circuits"[..]));
        assert_eq!(found.reference, list.as_bytes());
        assert_eq!(found.program, list.replace("place 0", "place 1").as_bytes());
    }

    #[test]
    fn each_file_that_fails_has_a_line_on_standard_error() {
        let expected = Expected::of(Program::Plan, b"read @\nring 3 1 1 1\nwrite @\nload\n");
        assert_eq!(
            expected.output,
            b"read failed\nring 3 wavelengths 1\nwrite failed\nload 0 0 0 0 0 0\n"
        );
        assert_eq!(expected.fault_said(b"one\ntwo\n"), None);
        let fault = expected.fault_said(b"one\n").unwrap();
        assert_eq!(fault, "2 files failed, but 1 lines on standard error, first: one");
        assert!(expected.fault_said(b"").is_some() && expected.fault_said(b"1\n2\n3").is_some());
        assert_eq!(Expected::of(Program::Script, SCRIPT).fault_said(b""), None);
    }

    #[test]
    fn what_a_program_prints_and_says_is_kept_apart() {
        let run = run_program(Path::new("cat"), SCRIPT, 100).unwrap();
        assert_eq!((&run.output[..], &run.said[..]), (SCRIPT, &b""[..]));
        let run = run_program(Path::new("/bin/sh"), b"echo 1; echo 2 >&2; exit 3\n", 100).unwrap();
        assert_eq!((&run.output[..], &run.said[..]), (&b"1\n"[..], &b"2\n"[..]));
        assert_eq!(run.status.code(), Some(3));
    }
}
