//! Talking to `ringplan` over its two pipes: a line in, the lines of its answer out.

use std::fmt;
use std::io::{self, BufRead, BufReader, Write};
use std::os::unix::process::ExitStatusExt;
use std::path::Path;
use std::process::{Child, ChildStderr, ChildStdin, ChildStdout, Command, Stdio};
use std::thread;

use crate::table::Table;

/// Why there is no page, in one sentence.
#[derive(PartialEq, Eq, Debug)]
pub struct Failure(pub String);

impl fmt::Display for Failure {
    fn fmt(&self, out: &mut fmt::Formatter) -> fmt::Result {
        out.write_str(&self.0)
    }
}

/// Asked after every line. It is refused whatever the table, and changes nothing, so its answer
/// shows where the answer before it ends, however many lines that one has.
const END_MARK: &str = "read -";
const END_ANSWER: &str = "read refused 30";

/// More lines than any answer has.
const ANSWER_MOST: usize = 10_000;

pub struct Ringplan<R, W> {
    answers: R,
    requests: W,
}

/// A program that was started, asked over its pipes.
pub type Started = Ringplan<BufReader<ChildStdout>, ChildStdin>;

/// Starts the program, has it asked, and waits for its end. What it says on standard error is
/// passed on.
pub fn run<T>(
    program: &Path,
    work: impl FnOnce(&mut Started) -> Result<T, Failure>,
) -> Result<T, Failure> {
    let mut child = Command::new(program)
        .stdin(Stdio::piped())
        .stdout(Stdio::piped())
        .stderr(Stdio::piped())
        .spawn()
        .map_err(|error| {
            Failure(format!("ringplan cannot be started from {}: {error}", program.display()))
        })?;
    let streams = (child.stdout.take(), child.stdin.take(), child.stderr.take());
    let (Some(answers), Some(requests), Some(said)) = streams else {
        return Err(stopped(child, Failure("ringplan has not its three streams".into())));
    };
    let hearing = thread::spawn(|| pass_on(said));
    let mut plan = Ringplan::over(BufReader::new(answers), requests);
    let done = match work(&mut plan) {
        Ok(made) => {
            drop(plan);
            finished(child).map(|()| made)
        }
        Err(failure) => Err(stopped(child, failure)),
    };
    // It only reads and writes, so it ends when the program has.
    let _ = hearing.join();
    done
}

/// Passes on what the program says as it comes, also where nobody hears it.
fn pass_on(said: ChildStderr) {
    let mut said = BufReader::new(said);
    let mut line = Vec::new();
    while said.read_until(b'\n', &mut line).is_ok_and(|length| length > 0) {
        let _ = io::stderr().write_all(&line);
        line.clear();
    }
}

/// Waits for a program whose requests have ended, so that it ends by itself.
fn finished(mut child: Child) -> Result<(), Failure> {
    match child.wait() {
        Ok(status) if status.success() => Ok(()),
        Ok(status) => Err(Failure(format!("ringplan answered all lines, but ended with {status}"))),
        Err(error) => Err(Failure(format!("ringplan cannot be waited for: {error}"))),
    }
}

/// Ends a program after a failure. The status of one that has ended by itself is told too; one that
/// has not is killed.
fn stopped(mut child: Child, failure: Failure) -> Failure {
    let _ = child.kill();
    match child.wait() {
        Ok(status) if !status.success() && status.signal() != Some(KILLED) => {
            Failure(format!("{failure} ({status})"))
        }
        _ => failure,
    }
}

/// The signal by which a program is killed here.
const KILLED: i32 = 9;

impl<R: BufRead, W: Write> Ringplan<R, W> {
    pub fn over(answers: R, requests: W) -> Self {
        Ringplan { answers, requests }
    }

    /// Sends one line, given without its line end, and takes the lines of its answer.
    pub fn ask(&mut self, line: &[u8]) -> Result<Vec<String>, Failure> {
        self.send(line).map_err(|_| ended(line))?;
        let mut answer = vec![self.answer_line(line)?];
        while answer.len() <= ANSWER_MOST {
            let next = self.answer_line(line)?;
            if next == END_ANSWER {
                return Ok(answer);
            }
            answer.push(next);
        }
        Err(Failure(format!("ringplan's answer to `{}` does not end", printable(line))))
    }

    fn send(&mut self, line: &[u8]) -> io::Result<()> {
        let request = [line, b"\n", END_MARK.as_bytes(), b"\n"].concat();
        self.requests.write_all(&request)?;
        self.requests.flush()
    }

    fn answer_line(&mut self, request: &[u8]) -> Result<String, Failure> {
        let mut line = Vec::new();
        match self.answers.read_until(b'\n', &mut line) {
            Ok(_) if line.pop() == Some(b'\n') => Ok(String::from_utf8_lossy(&line).into_owned()),
            _ => Err(ended(request)),
        }
    }

    /// What stands on the ring now; nothing before the first ring.
    pub fn table(&mut self) -> Result<Option<Table>, Failure> {
        let circuits = self.ask(b"circuits")?;
        if circuits == ["line refused"] {
            return Ok(None);
        }
        let load = self.ask(b"load")?;
        let form = self.ask(b"write")?;
        match Table::from_answers(&form[0], &circuits, &load[0]) {
            Some(table) => Ok(Some(table)),
            None => {
                Err(Failure("ringplan's answers to circuits, load and write do not fit".into()))
            }
        }
    }
}

fn ended(request: &[u8]) -> Failure {
    Failure(format!("ringplan ended before it had answered `{}`", printable(request)))
}

/// The most characters of a line that are shown.
const SHOWN_MOST: usize = 300;

/// A line as text that can be printed: control characters as their pictures, a long line cut.
pub fn printable(line: &[u8]) -> String {
    let text = String::from_utf8_lossy(line);
    let mut shown: String = text.chars().take(SHOWN_MOST).map(picture).collect();
    if text.chars().nth(SHOWN_MOST).is_some() {
        shown.push_str(&format!(" .. ({} bytes)", line.len()));
    }
    shown
}

fn picture(character: char) -> char {
    match u32::from(character) {
        code @ 0..=0x1f => char::from_u32(0x2400 + code).unwrap_or('\u{fffd}'),
        0x7f => '\u{2421}',
        0x80..=0x9f | 0xfffe | 0xffff => '\u{fffd}',
        _ => character,
    }
}

#[cfg(test)]
mod tests {
    use super::*;

    fn recorded(answers: &str) -> Ringplan<&[u8], Vec<u8>> {
        Ringplan::over(answers.as_bytes(), Vec::new())
    }

    #[test]
    fn an_answer_ends_before_the_mark() {
        let mut plan = recorded(
            "open 7 place 0 moves 1 looks 1\nmove 3 from 0 to 2\nread refused 30\n\
             close 7\nread refused 30\n",
        );
        let opened = plan.ask(b"open 7 1 2 0 0").unwrap();
        assert_eq!(opened, ["open 7 place 0 moves 1 looks 1", "move 3 from 0 to 2"]);
        assert_eq!(plan.ask(b"close 7").unwrap(), ["close 7"]);
        assert_eq!(plan.requests, b"open 7 1 2 0 0\nread -\nclose 7\nread -\n");
    }

    #[test]
    fn a_script_may_ask_what_the_mark_asks() {
        let mut plan = recorded("read refused 30\nread refused 30\n");
        assert_eq!(plan.ask(b"read -").unwrap(), ["read refused 30"]);
    }

    #[test]
    fn a_program_that_ends_early_is_named() {
        let said = |answers| recorded(answers).ask(b"close 7").unwrap_err().to_string();
        let expected = "ringplan ended before it had answered `close 7`";
        assert_eq!(said(""), expected);
        assert_eq!(said("close 7\n"), expected);
        assert_eq!(said("close 7\nread refu"), expected);
    }

    #[test]
    fn a_missing_program_and_one_that_answers_nothing() {
        let said =
            |program| run(Path::new(program), |plan| plan.ask(b"close 7")).unwrap_err().to_string();
        let missing = said("/no/such/ringplan");
        assert!(missing.starts_with("ringplan cannot be started from /no/such/ringplan: "));
        assert_eq!(missing.lines().count(), 1);
        let ended = "ringplan ended before it had answered `close 7`";
        assert_eq!(said("true"), ended);
        assert_eq!(said("false"), format!("{ended} (exit status: 1)"));
    }

    #[test]
    fn a_program_is_waited_for() {
        let of_thread = "/proc/thread-self/children";
        if !Path::new(of_thread).exists() {
            return;
        }
        let children = || std::fs::read_to_string(of_thread).unwrap().split_whitespace().count();
        assert_eq!(run(Path::new("cat"), |_| Ok(children())), Ok(1));
        assert_eq!(children(), 0);
        let failure = run(Path::new("cat"), |_| Err::<(), _>(Failure("no page".into())));
        assert_eq!((failure, children()), (Err(Failure("no page".into())), 0));
    }

    #[test]
    fn a_status_is_looked_at() {
        let asked_nothing = run(Path::new("false"), |_| Ok(()));
        let expected = "ringplan answered all lines, but ended with exit status: 1";
        assert_eq!(asked_nothing, Err(Failure(expected.into())));
    }

    #[test]
    fn the_table_comes_from_three_answers() {
        let end = "read refused 30\n";
        let answers = format!(
            "circuits 1\ncircuit 9 from 1 to 2 remark 0 account 0 place 0\n{end}\
             load 1 0 0 0 0 0\n{end}write 29 03010101{}\n{end}",
            "00".repeat(25)
        );
        let table = recorded(&answers).table().unwrap().unwrap();
        assert_eq!((table.nodes(), table.places(), table.circuits.len()), (3, 2, 1));
        let none = format!("line refused\n{end}");
        assert_eq!(recorded(&none).table().unwrap(), None);
        let garbled = answers.replace("from 1", "from 4");
        assert!(recorded(&garbled).table().is_err());
    }

    #[test]
    fn lines_are_shown_as_text_whatever_their_bytes() {
        assert_eq!(printable(b"ring 3 1 1 1\r"), "ring 3 1 1 1\u{240d}");
        assert_eq!(printable(b"\0\x7f\xff"), "\u{2400}\u{2421}\u{fffd}");
        assert!(printable(&[b'7'; 9000]).ends_with("77 .. (9000 bytes)"));
    }
}
