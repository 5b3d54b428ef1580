//! Long scripts from a seed, made to reach every step and every refusal often.
//! The second controller runs along, so that the next line knows what is live.

mod bad_lines;
mod dear;
mod forms;
mod grid_lines;
mod longest;
mod lookup_lines;
mod opened;
mod plan_lines;
mod rings;
mod tables;
mod traffic;
mod untidy;

use crate::circuit::Circuit;
use crate::form::form_of;
use crate::plan::{Answer, Planner};
use crate::program::Program;
use crate::random::Random;
use crate::script::{Request, LINE_MOST};
use crate::table::Table;

use dear::dear;
use longest::Longest;
use opened::opened;
use rings::Shape;
use traffic::Tide;
use untidy::crowded;

#[derive(Clone, Copy, PartialEq, Eq, Debug)]
pub enum Kind {
    /// Rings of 3 to 8 nodes with few ports, each for a short while.
    Small,
    /// Rings of 64 nodes with 192 ports, near capacity.
    Large,
    /// Small, large and middling rings in turn.
    Mixed,
    /// One ring with few circuits and few faults.
    Light,
    /// No traffic: the longest forms, each read and written back by the planning program.
    Forms,
}

impl Kind {
    pub fn named(name: &str) -> Option<Kind> {
        match name {
            "small" => Some(Kind::Small),
            "large" => Some(Kind::Large),
            "mixed" => Some(Kind::Mixed),
            "light" => Some(Kind::Light),
            "forms" => Some(Kind::Forms),
            _ => None,
        }
    }

    /// Whether programs are timed on such scripts, which are to run on the rings that they name.
    fn is_timed(self) -> bool {
        matches!(self, Kind::Large | Kind::Light)
    }

    /// How often, in a thousand lines, other lines than plain traffic come.
    fn odds(self) -> Odds {
        match self {
            Kind::Small | Kind::Mixed => Odds { bad_line: 60, bad_ring: 15, bad_request: 100 },
            Kind::Large => Odds { bad_line: 15, bad_ring: 3, bad_request: 40 },
            Kind::Light => Odds { bad_line: 2, bad_ring: 1, bad_request: 5 },
            Kind::Forms => Odds { bad_line: 0, bad_ring: 0, bad_request: 0 },
        }
    }
}

/// How many of a hundred lines for the planning program are of its own kinds.
const PLAN_LINES: usize = 44;

struct Odds {
    bad_line: usize,
    bad_ring: usize,
    bad_request: usize,
}

/// A whole script; the last line of some has no line end.
pub fn script(program: Program, kind: Kind, seed: u64, lines: u64) -> Vec<u8> {
    let mut generator = Generator::new(program, kind, seed);
    let mut script = Vec::new();
    for _ in 0..lines {
        script.extend(generator.next_line());
        script.push(b'\n');
    }
    let last_is_empty = script.ends_with(b"\n\n") || script == b"\n";
    if seed % 4 == 3 && !last_is_empty {
        script.pop();
    }
    script
}

/// The saved form of a ring of 3 to 64 nodes with so many circuits, at most 192.
pub fn form(nodes: u8, circuits: usize, seed: u64) -> Vec<u8> {
    form_of(&opened(nodes, circuits, &mut Random::new(seed)))
}

/// The saved form of a ring of 3 to 64 nodes with a circuit alone at each of its 128 places.
pub fn crowded_form(nodes: u8, seed: u64) -> Vec<u8> {
    form_of(&crowded(nodes, &mut Random::new(seed)))
}

/// The saved form of a ring whose tidying passes many pairs over in every round.
pub fn dear_form(seed: u64) -> Vec<u8> {
    form_of(&dear(&mut Random::new(seed)))
}

pub struct Generator {
    program: Program,
    kind: Kind,
    random: Random,
    planner: Planner,
    tide: Tide,
    lines_left_on_ring: usize,
    /// What follows the reading of a table that was made for it.
    following: Option<Vec<u8>>,
    saved_forms: Vec<Vec<u8>>,
    longest: Longest,
}

impl Generator {
    pub fn new(program: Program, kind: Kind, seed: u64) -> Generator {
        Generator {
            program,
            kind,
            random: Random::new(seed),
            planner: Planner::new(),
            tide: Tide::default(),
            lines_left_on_ring: 0,
            following: None,
            saved_forms: Vec::new(),
            longest: Longest::default(),
        }
    }

    /// The next line, without its line end.
    pub fn next_line(&mut self) -> Vec<u8> {
        let line = match (self.following.take(), self.program) {
            (Some(line), _) => line,
            _ if self.kind == Kind::Forms => self.longest.next_line(&mut self.random),
            (None, Program::Plan) if self.random.percent(PLAN_LINES) => self.plan_line(),
            _ => self.script_line(),
        };
        let ports = self.planner.table().map(|table| table.ports);
        let answer = self.planner.run_line(&line);
        if let (Answer::Read { .. }, Some(table)) = (answer, self.planner.table()) {
            if ports != Some(table.ports) {
                self.settle(table.ring_ports() as usize);
            }
        }
        line
    }

    /// Traffic for another ring that was read.
    fn settle(&mut self, ring_ports: usize) {
        self.lines_left_on_ring = Shape::Small.stay(self.kind, &mut self.random);
        self.tide = Tide::choose(Shape::Middling, ring_ports, &mut self.random);
    }

    /// A line of the script program.
    fn script_line(&mut self) -> Vec<u8> {
        let Odds { bad_line, bad_ring, bad_request } = self.kind.odds();
        let draw = self.random.below(1000);
        if draw < bad_line {
            return self.bad_line();
        }
        if draw < bad_line + bad_ring {
            let request = rings::refused(&mut self.random);
            return self.dressed(&request);
        }
        let request = if draw < bad_line + bad_ring + bad_request {
            self.bad_request()
        } else {
            self.plain_request()
        };
        self.dressed(&request)
    }

    /// A request that is mostly served: traffic, or a new ring when the old has had its time.
    fn plain_request(&mut self) -> Request {
        match self.planner.table() {
            Some(table) if self.lines_left_on_ring > 0 => {
                self.lines_left_on_ring -= 1;
                self.tide.request(table, &mut self.random)
            }
            None if self.kind != Kind::Light && self.random.percent(self.patience()) => {
                self.bad_request()
            }
            _ => self.new_ring(),
        }
    }

    /// In how many of a hundred requests the first ring is waited for; more kinds of line are to
    /// come before it in scripts for the planning program.
    fn patience(&self) -> usize {
        match self.program {
            Program::Script => 60,
            Program::Plan => 80,
        }
    }

    /// A request that is mostly refused, by what the table holds.
    fn bad_request(&mut self) -> Request {
        let before_any_ring = Table::blank();
        let table = self.planner.table().unwrap_or(&before_any_ring);
        traffic::refused(table, &mut self.random)
    }

    fn new_ring(&mut self) -> Request {
        let shape = Shape::choose(self.kind, &mut self.random);
        let ports = shape.ports(&mut self.random);
        let ring_ports = ports.iter().map(|&count| usize::from(count)).sum();
        self.lines_left_on_ring = shape.stay(self.kind, &mut self.random);
        self.tide = Tide::choose(shape, ring_ports, &mut self.random);
        rings::request(ports)
    }

    /// The request as a line, now and then with leading zeros or filled up to 256 bytes.
    fn dressed(&mut self, request: &Request) -> Vec<u8> {
        let mut line = plain(request);
        if self.kind == Kind::Light {
            return line;
        }
        if self.random.percent(5) {
            let zeros = self.random.between(1, 4);
            self.insert_zeros(&mut line, zeros);
        } else if self.random.below(400) == 0 {
            self.fill_with_zeros(&mut line, LINE_MOST);
        }
        line
    }

    fn fill_with_zeros(&mut self, line: &mut Vec<u8>, length: usize) {
        self.insert_zeros(line, length.saturating_sub(line.len()));
    }

    /// Puts zeros before the digits of one of the line's numbers.
    fn insert_zeros(&mut self, line: &mut Vec<u8>, zeros: usize) {
        let spaces: Vec<usize> = (0..line.len()).filter(|&at| line[at] == b' ').collect();
        let number = *self.random.pick(&spaces) + 1;
        let has_sign = line.get(number) == Some(&b'-');
        let at = number + usize::from(has_sign);
        line.splice(at..at, std::iter::repeat_n(b'0', zeros));
    }
}

/// The request as a line, without leading zeros.
fn plain(request: &Request) -> Vec<u8> {
    let text = match request {
        Request::Ring { nodes, ports } => {
            let mut text = format!("ring {nodes}");
            ports.iter().for_each(|count| text.push_str(&format!(" {count}")));
            text
        }
        Request::Open(Circuit { number, source, destination, remark, account }) => {
            format!("open {number} {source} {destination} {remark} {account}")
        }
        Request::Close(number) => format!("close {number}"),
    };
    text.into_bytes()
}
