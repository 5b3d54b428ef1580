//! The planner's program: every call of the controller, line by line.
//! It answers the lines of `ringplan` but `show`, which is for people and is refused here.

use std::ffi::OsStr;
use std::io::{self, BufRead, Write};
use std::os::unix::ffi::OsStrExt;
use std::path::{Path, PathBuf};

use crate::circuit::Circuit;
use crate::files;
use crate::form::{self, form_of};
use crate::grid::FrequencyPlan;
use crate::lines::{for_each_line, number, signed_number, words};
use crate::lookup::{circuits_from, circuits_to, nodes, NodeUse};
use crate::opening::Move;
use crate::place::Wavelength;
use crate::refusal::Refusal;
use crate::report;
use crate::script::{self, byte, four_bytes, write_move, Desk, Request};
use crate::table::{Lightpath, Table};
use crate::tidying::RECORDS_LEAST;

/// The longest line taken, without its line end; the script program's lines keep their own limit.
pub const LINE_MOST: usize = 8192;

/// A line that is well formed.
#[derive(Clone, PartialEq, Eq, Debug)]
pub enum Command {
    Script(Request),
    Read(Source),
    Frequency { plan: FrequencyPlan, wavelength: u32 },
    Wavelength { plan: FrequencyPlan, frequency: u32 },
    Tidy,
    Ask(Question),
}

/// Where a saved form comes from.
#[derive(Clone, PartialEq, Eq, Debug)]
pub enum Source {
    Line(Vec<u8>),
    File(PathBuf),
}

/// What is asked of the table in force; it stays as it is.
#[derive(Clone, PartialEq, Eq, Debug)]
pub enum Question {
    Write,
    WriteFile(PathBuf),
    Load,
    Link { link: u64, wavelength: u64, direction: u64 },
    Circuits,
    From { node: u8 },
    To { node: u8 },
    Nodes,
}

#[derive(Clone, PartialEq, Eq, Debug)]
pub enum Answer {
    /// The script program's own, and `line refused`.
    Script(script::Answer),
    Read {
        nodes: u8,
        wavelengths: u32,
    },
    ReadRefused(Refusal),
    ReadFailed,
    Frequency(u32),
    FrequencyRefused(Refusal),
    Wavelength(Wavelength),
    WavelengthRefused(Refusal),
    Tidied {
        rounds: usize,
        moves: Vec<Move>,
    },
    Written(Vec<u8>),
    FileWritten {
        length: usize,
    },
    WriteFailed,
    /// Link 1 clockwise, link 1 counterclockwise, link 2 and so on.
    Load(Vec<u8>),
    Link(Option<u32>),
    LinkRefused(Refusal),
    /// By rising place, the lower number first.
    Circuits(Vec<Lightpath>),
    /// Those that the node sends, by rising number.
    From {
        node: u8,
        lightpaths: Vec<Lightpath>,
    },
    FromRefused(Refusal),
    /// Those that the node receives, by rising number.
    To {
        node: u8,
        lightpaths: Vec<Lightpath>,
    },
    ToRefused(Refusal),
    Nodes(Vec<NodeUse>),
}

const LINE_REFUSED: Answer = Answer::Script(script::Answer::LineRefused);

/// The order desk with the planner's and the monitor's questions.
#[derive(Default)]
pub struct Planner {
    desk: Desk,
}

impl Planner {
    /// A planner that relies on its table, which only its own lines change.
    pub fn new() -> Planner {
        Planner::default()
    }

    /// A planner that has the ring rules checked at every opening, closing and tidying.
    pub fn checking_rules() -> Planner {
        Planner { desk: Desk::checking_rules() }
    }

    pub fn table(&self) -> Option<&Table> {
        self.desk.table()
    }

    /// Runs one line, given without its line end.
    pub fn run_line(&mut self, line: &[u8]) -> Answer {
        match parse(line) {
            Some(Command::Script(request)) => Answer::Script(self.desk.run(&request)),
            Some(Command::Read(source)) => self.read(source),
            Some(Command::Frequency { plan, wavelength }) => frequency(plan, wavelength),
            Some(Command::Wavelength { plan, frequency }) => wavelength(plan, frequency),
            Some(Command::Tidy) => self.tidy(),
            Some(Command::Ask(question)) => match self.table() {
                Some(table) => question.answer(table),
                None => LINE_REFUSED,
            },
            None => LINE_REFUSED,
        }
    }

    fn read(&mut self, source: Source) -> Answer {
        let form = match source {
            Source::Line(form) => form,
            Source::File(path) => match files::read(&path) {
                Ok(form) => form,
                Err(_) => return Answer::ReadFailed,
            },
        };
        match form::read(&form) {
            Ok(table) => {
                let answer = Answer::Read { nodes: table.nodes, wavelengths: table.wavelengths() };
                self.desk.put_in_force(table);
                answer
            }
            Err(refusal) => Answer::ReadRefused(refusal),
        }
    }

    fn tidy(&mut self) -> Answer {
        let mut list = [Move::default(); RECORDS_LEAST];
        let Some(tidied) = self.desk.tidy(&mut list) else {
            return LINE_REFUSED;
        };
        let tidying = tidied.expect("the table in force meets the ring rules");
        Answer::Tidied { rounds: tidying.rounds, moves: list[..tidying.moves].to_vec() }
    }
}

fn frequency(plan: FrequencyPlan, wavelength: u32) -> Answer {
    match plan.frequency(wavelength) {
        Ok(frequency) => Answer::Frequency(frequency),
        Err(refusal) => Answer::FrequencyRefused(refusal),
    }
}

fn wavelength(plan: FrequencyPlan, frequency: u32) -> Answer {
    match plan.wavelength(frequency) {
        Ok(wavelength) => Answer::Wavelength(wavelength),
        Err(refusal) => Answer::WavelengthRefused(refusal),
    }
}

impl Question {
    fn answer(&self, table: &Table) -> Answer {
        match self {
            Question::Write => Answer::Written(form_of(table)),
            Question::WriteFile(path) => write_file(table, path),
            Question::Load => Answer::Load(loads(table)),
            &Question::Link { link, wavelength, direction } => {
                match report::circuit_on_link(table, link, wavelength, direction) {
                    Ok(number) => Answer::Link(number),
                    Err(refusal) => Answer::LinkRefused(refusal),
                }
            }
            Question::Circuits => Answer::Circuits(table.lightpaths().collect()),
            &Question::From { node } => match circuits_from(table, node) {
                Ok(lightpaths) => Answer::From { node, lightpaths },
                Err(refusal) => Answer::FromRefused(refusal),
            },
            &Question::To { node } => match circuits_to(table, node) {
                Ok(lightpaths) => Answer::To { node, lightpaths },
                Err(refusal) => Answer::ToRefused(refusal),
            },
            Question::Nodes => Answer::Nodes(nodes(table)),
        }
    }
}

fn write_file(table: &Table, path: &Path) -> Answer {
    let form = form_of(table);
    match files::write(path, &form) {
        Ok(()) => Answer::FileWritten { length: form.len() },
        Err(_) => Answer::WriteFailed,
    }
}

fn loads(table: &Table) -> Vec<u8> {
    let mut loads = vec![0; 2 * usize::from(table.nodes)];
    report::load(table, &mut loads).expect("the table in force meets the ring rules");
    loads
}

/// The command of a line, or nothing where the line is to be refused.
pub fn parse(line: &[u8]) -> Option<Command> {
    if line.len() > LINE_MOST {
        return None;
    }
    let mut words = words(line);
    let command = match words.next()? {
        b"read" => Command::Read(source(words.next()?)?),
        b"frequency" => Command::Frequency {
            plan: frequency_plan(&mut words)?,
            wavelength: four_bytes(words.next()?)?,
        },
        b"wavelength" => Command::Wavelength {
            plan: frequency_plan(&mut words)?,
            frequency: four_bytes(words.next()?)?,
        },
        b"tidy" => Command::Tidy,
        b"write" => Command::Ask(match words.next() {
            None => Question::Write,
            Some(word) => Question::WriteFile(path(word)?),
        }),
        b"load" => Command::Ask(Question::Load),
        b"link" => Command::Ask(Question::Link {
            link: number(words.next()?, u64::MAX)?,
            wavelength: number(words.next()?, u64::MAX)?,
            direction: number(words.next()?, u64::MAX)?,
        }),
        b"circuits" => Command::Ask(Question::Circuits),
        b"from" => Command::Ask(Question::From { node: byte(words.next()?)? }),
        b"to" => Command::Ask(Question::To { node: byte(words.next()?)? }),
        b"nodes" => Command::Ask(Question::Nodes),
        _ => return script::parse(line).map(Command::Script),
    };
    match words.next() {
        None => Some(command),
        Some(_) => None,
    }
}

/// A plan as two words name it.
fn frequency_plan<'a>(words: &mut impl Iterator<Item = &'a [u8]>) -> Option<FrequencyPlan> {
    Some(FrequencyPlan {
        spacing: four_bytes(words.next()?)?,
        start: signed_number(words.next()?)?,
    })
}

/// A saved form: `@` and a path, hexadecimal digits, or `-` for no bytes.
fn source(word: &[u8]) -> Option<Source> {
    match word {
        b"" => None,
        b"-" => Some(Source::Line(Vec::new())),
        [b'@', ..] => path(word).map(Source::File),
        _ => bytes_of(word).map(Source::Line),
    }
}

fn path(word: &[u8]) -> Option<PathBuf> {
    word.strip_prefix(b"@").map(|path| PathBuf::from(OsStr::from_bytes(path)))
}

/// The bytes of an even number of hexadecimal digits, 0 to 9 and a to f.
fn bytes_of(word: &[u8]) -> Option<Vec<u8>> {
    let pairs = word.chunks_exact(2);
    if !pairs.remainder().is_empty() {
        return None;
    }
    pairs.map(|pair| Some(16 * digit(pair[0])? + digit(pair[1])?)).collect()
}

fn digit(byte: u8) -> Option<u8> {
    match byte {
        b'0'..=b'9' => Some(byte - b'0'),
        b'a'..=b'f' => Some(byte - b'a' + 10),
        _ => None,
    }
}

impl Answer {
    /// Writes the answer's lines.
    pub fn write(&self, out: &mut impl Write) -> io::Result<()> {
        match self {
            Answer::Script(answer) => answer.write(out),
            Answer::Read { nodes, wavelengths } => {
                writeln!(out, "read {nodes} wavelengths {wavelengths}")
            }
            Answer::ReadRefused(refusal) => writeln!(out, "read refused {}", refusal.number()),
            Answer::ReadFailed => writeln!(out, "read failed"),
            Answer::Frequency(frequency) => writeln!(out, "frequency {frequency}"),
            Answer::FrequencyRefused(refusal) => {
                writeln!(out, "frequency refused {}", refusal.number())
            }
            Answer::Wavelength(wavelength) => writeln!(out, "wavelength {}", wavelength.0),
            Answer::WavelengthRefused(refusal) => {
                writeln!(out, "wavelength refused {}", refusal.number())
            }
            Answer::Tidied { rounds, moves } => {
                writeln!(out, "tidy rounds {rounds} moves {}", moves.len())?;
                moves.iter().try_for_each(|record| write_move(record, out))
            }
            Answer::Written(form) => writeln!(out, "write {} {}", form.len(), hexadecimal(form)),
            Answer::FileWritten { length } => writeln!(out, "write {length}"),
            Answer::WriteFailed => writeln!(out, "write failed"),
            Answer::Load(loads) => {
                write!(out, "load")?;
                loads.iter().try_for_each(|count| write!(out, " {count}"))?;
                writeln!(out)
            }
            Answer::Link(Some(number)) => writeln!(out, "link circuit {number}"),
            Answer::Link(None) => writeln!(out, "link none"),
            Answer::LinkRefused(refusal) => writeln!(out, "link refused {}", refusal.number()),
            Answer::Circuits(lightpaths) => {
                writeln!(out, "circuits {}", lightpaths.len())?;
                lightpaths.iter().try_for_each(|lightpath| write_lightpath(lightpath, out))
            }
            Answer::From { node, lightpaths } => {
                writeln!(out, "from {node} circuits {}", lightpaths.len())?;
                lightpaths.iter().try_for_each(|lightpath| write_sent(lightpath, out))
            }
            Answer::FromRefused(refusal) => writeln!(out, "from refused {}", refusal.number()),
            Answer::To { node, lightpaths } => {
                writeln!(out, "to {node} circuits {}", lightpaths.len())?;
                lightpaths.iter().try_for_each(|lightpath| write_received(lightpath, out))
            }
            Answer::ToRefused(refusal) => writeln!(out, "to refused {}", refusal.number()),
            Answer::Nodes(nodes) => {
                writeln!(out, "nodes {}", nodes.len())?;
                nodes.iter().try_for_each(|node| write_node(node, out))
            }
        }
    }
}

fn write_lightpath(lightpath: &Lightpath, out: &mut impl Write) -> io::Result<()> {
    let Circuit { number, source, destination, remark, account } = lightpath.circuit;
    write!(out, "circuit {number} from {source} to {destination} ")?;
    writeln!(out, "remark {remark} account {account} place {}", lightpath.place.0)
}

/// A circuit among those of its source.
fn write_sent(lightpath: &Lightpath, out: &mut impl Write) -> io::Result<()> {
    let Circuit { number, destination, .. } = lightpath.circuit;
    writeln!(out, "circuit {number} to {destination} place {}", lightpath.place.0)
}

/// A circuit among those of its destination.
fn write_received(lightpath: &Lightpath, out: &mut impl Write) -> io::Result<()> {
    let Circuit { number, source, .. } = lightpath.circuit;
    writeln!(out, "circuit {number} from {source} place {}", lightpath.place.0)
}

fn write_node(node: &NodeUse, out: &mut impl Write) -> io::Result<()> {
    let NodeUse { node, ports, sends, receives } = node;
    writeln!(out, "node {node} ports {ports} sends {sends} receives {receives}")
}

/// The bytes as pairs of digits, as a line gives a saved form.
pub fn hexadecimal(bytes: &[u8]) -> String {
    const DIGITS: &[u8; 16] = b"0123456789abcdef";
    let digit = |value: u8| char::from(DIGITS[usize::from(value)]);
    bytes.iter().flat_map(|byte| [digit(byte / 16), digit(byte % 16)]).collect()
}

/// Runs a whole script; each answer goes out before the next line is read.
pub fn run(
    planner: &mut Planner,
    input: &mut impl BufRead,
    output: &mut impl Write,
) -> io::Result<()> {
    for_each_line(input, LINE_MOST, |line| {
        planner.run_line(line).write(output)?;
        output.flush()
    })
}
