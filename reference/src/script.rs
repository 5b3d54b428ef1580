//! The script program: requests in lines, and their answers.

use std::io::{self, BufRead, Write};

use crate::circuit::Circuit;
use crate::lines::{for_each_line, number, words};
use crate::opening::{Move, Opening, MOVES_MOST};
use crate::refusal::Refusal;
use crate::table::Table;
use crate::tidying::Tidying;

/// The longest line taken, without its line end.
pub const LINE_MOST: usize = 256;

/// A line that is a well-formed request.
#[derive(Clone, PartialEq, Eq, Debug)]
pub enum Request {
    Ring { nodes: u8, ports: Vec<u8> },
    Open(Circuit),
    Close(u32),
}

#[derive(Clone, Copy, PartialEq, Eq, Debug)]
pub enum Answer {
    Ring {
        nodes: u8,
        wavelengths: u32,
    },
    RingRefused(Refusal),
    /// The moves made are the first of the three records.
    Opened {
        number: u32,
        opening: Opening,
        moves: [Move; MOVES_MOST],
    },
    OpenRefused {
        number: u32,
        refusal: Refusal,
    },
    Closed {
        number: u32,
    },
    CloseRefused(Refusal),
    LineRefused,
}

/// The order desk: the table in force, if a ring was accepted, and what runs lines on it.
#[derive(Default)]
pub struct Desk {
    table: Option<Table>,
    check_rules: bool,
}

impl Desk {
    /// A desk that relies on its table, since only its own requests change it.
    pub fn new() -> Desk {
        Desk::default()
    }

    /// A desk that has the ring rules checked at every opening, closing and tidying.
    pub fn checking_rules() -> Desk {
        Desk { table: None, check_rules: true }
    }

    pub fn table(&self) -> Option<&Table> {
        self.table.as_ref()
    }

    /// Runs one line, given without its line end.
    pub fn run_line(&mut self, line: &[u8]) -> Answer {
        match parse(line) {
            Some(request) => self.run(&request),
            None => Answer::LineRefused,
        }
    }

    /// Runs a request, which needs a table unless it is for a ring.
    pub fn run(&mut self, request: &Request) -> Answer {
        match request {
            Request::Ring { nodes, ports } => self.ring(*nodes, ports),
            Request::Open(circuit) => self.open(*circuit),
            Request::Close(number) => self.close(*number),
        }
    }

    /// Takes a table that meets the ring rules in place of its own.
    pub(crate) fn put_in_force(&mut self, table: Table) {
        self.table = Some(table);
    }

    /// Tidies the table in force, if there is one.
    pub(crate) fn tidy(&mut self, list: &mut [Move]) -> Option<Result<Tidying, Refusal>> {
        let table = self.table.as_mut()?;
        Some(if self.check_rules { table.tidy(list) } else { table.tidy_good_table(list) })
    }

    fn ring(&mut self, nodes: u8, ports: &[u8]) -> Answer {
        match Table::make(nodes, ports) {
            Ok(table) => {
                let wavelengths = table.wavelengths();
                self.put_in_force(table);
                Answer::Ring { nodes, wavelengths }
            }
            Err(refusal) => Answer::RingRefused(refusal),
        }
    }

    fn open(&mut self, circuit: Circuit) -> Answer {
        let Some(table) = &mut self.table else {
            return Answer::LineRefused;
        };
        let number = circuit.number;
        let mut moves = [Move::default(); MOVES_MOST];
        let opening = if self.check_rules {
            table.open(circuit, &mut moves)
        } else {
            table.open_on_good_table(circuit, &mut moves)
        };
        match opening {
            Ok(opening) => Answer::Opened { number, opening, moves },
            Err(refusal) => Answer::OpenRefused { number, refusal },
        }
    }

    fn close(&mut self, number: u32) -> Answer {
        let Some(table) = &mut self.table else {
            return Answer::LineRefused;
        };
        let closing =
            if self.check_rules { table.close(number) } else { table.close_on_good_table(number) };
        match closing {
            Ok(()) => Answer::Closed { number },
            Err(refusal) => Answer::CloseRefused(refusal),
        }
    }
}

/// The request of a line, or nothing where the line is to be refused.
pub fn parse(line: &[u8]) -> Option<Request> {
    if line.len() > LINE_MOST {
        return None;
    }
    let mut words = words(line);
    let request = match words.next()? {
        b"ring" => Request::Ring {
            nodes: byte(words.next()?)?,
            ports: words.by_ref().map(byte).collect::<Option<Vec<u8>>>()?,
        },
        b"open" => Request::Open(Circuit {
            number: four_bytes(words.next()?)?,
            source: byte(words.next()?)?,
            destination: byte(words.next()?)?,
            remark: two_bytes(words.next()?)?,
            account: four_bytes(words.next()?)?,
        }),
        b"close" => Request::Close(four_bytes(words.next()?)?),
        _ => return None,
    };
    match words.next() {
        None => Some(request),
        Some(_) => None,
    }
}

pub(crate) fn byte(word: &[u8]) -> Option<u8> {
    number(word, u64::from(u8::MAX)).map(|value| value as u8)
}

fn two_bytes(word: &[u8]) -> Option<u16> {
    number(word, u64::from(u16::MAX)).map(|value| value as u16)
}

pub(crate) fn four_bytes(word: &[u8]) -> Option<u32> {
    number(word, u64::from(u32::MAX)).map(|value| value as u32)
}

impl Answer {
    /// Writes the answer's lines.
    pub fn write(&self, out: &mut impl Write) -> io::Result<()> {
        match self {
            Answer::Ring { nodes, wavelengths } => {
                writeln!(out, "ring {nodes} wavelengths {wavelengths}")
            }
            Answer::RingRefused(refusal) => writeln!(out, "ring refused {}", refusal.number()),
            Answer::Opened { number, opening, moves } => {
                let Opening { place, moves: made, looks } = opening;
                writeln!(out, "open {number} place {} moves {made} looks {looks}", place.0)?;
                moves[..*made].iter().try_for_each(|record| write_move(record, out))
            }
            Answer::OpenRefused { number, refusal } => {
                writeln!(out, "open {number} refused {}", refusal.number())
            }
            Answer::Closed { number } => writeln!(out, "close {number}"),
            Answer::CloseRefused(refusal) => writeln!(out, "close refused {}", refusal.number()),
            Answer::LineRefused => writeln!(out, "line refused"),
        }
    }
}

pub(crate) fn write_move(record: &Move, out: &mut impl Write) -> io::Result<()> {
    let Move { number, from, to } = record;
    writeln!(out, "move {number} from {} to {}", from.0, to.0)
}

/// Runs a whole script at the desk.
pub fn run(desk: &mut Desk, input: &mut impl BufRead, output: &mut impl Write) -> io::Result<()> {
    for_each_line(input, LINE_MOST, |line| desk.run_line(line).write(output))?;
    output.flush()
}
