//! Lines that only the planning program takes, and such lines spoilt.
//! None of them names a file that there is.

use super::grid_lines::grid_words;
use super::Generator;
use crate::place::Direction;
use crate::plan::{hexadecimal, LINE_MOST};
use crate::random::Random;
use crate::table::{Lightpath, Table};

/// How many of a hundred such lines more are on frequency plans before the first table, where most
/// others are refused.
const GRID_LINES_BEFORE_TABLE: usize = 20;

/// How many of a hundred of the others then tidy.
const TIDYINGS_BEFORE_TABLE: usize = 5;

impl Generator {
    pub(super) fn plan_line(&mut self) -> Vec<u8> {
        if self.planner.table().is_none() {
            if self.random.percent(GRID_LINES_BEFORE_TABLE) {
                return self.grid_line();
            }
            if self.random.percent(TIDYINGS_BEFORE_TABLE) {
                return b"tidy".to_vec();
            }
        }
        match self.random.below(100) {
            0..=25 => self.read_line(),
            26..=35 => {
                self.save_form();
                b"write".to_vec()
            }
            36..=43 => b"load".to_vec(),
            44..=60 => self.link_line(),
            61..=65 => b"circuits".to_vec(),
            66 => self.random.pick(&["read @", "write @"]).as_bytes().to_vec(),
            67..=77 => self.grid_line(),
            78 => b"tidy".to_vec(),
            79 | 80 => self.read_to_tidy(),
            81..=91 => self.lookup_line(),
            _ => self.bad_plan_line(),
        }
    }

    fn read_line(&mut self) -> Vec<u8> {
        let good = if self.planner.table().is_some() { 35 } else { 20 };
        let form = if self.random.percent(good) { self.good_form() } else { self.damaged_form() };
        read(&form)
    }

    /// The form of a table with much to tidy; the line after it tidies.
    fn read_to_tidy(&mut self) -> Vec<u8> {
        self.following = Some(b"tidy".to_vec());
        read(&self.untidy_form())
    }

    fn link_line(&mut self) -> Vec<u8> {
        let line = self.link_question();
        self.at_times_with_zeros(line)
    }

    /// The line, at times with zeros before a number, at times with as many as fit.
    pub(super) fn at_times_with_zeros(&mut self, mut line: Vec<u8>) -> Vec<u8> {
        match self.random.below(100) {
            0..=9 => {
                let zeros = self.random.between(1, 40);
                self.insert_zeros(&mut line, zeros);
            }
            10 => self.fill_with_zeros(&mut line, LINE_MOST),
            _ => {}
        }
        line
    }

    /// The line with zeros up to more than 8,192 bytes, or with a space too many.
    pub(super) fn long_or_spaced(&mut self, mut line: Vec<u8>) -> Vec<u8> {
        if self.random.percent(40) {
            self.fill_with_zeros(&mut line, LINE_MOST + 1);
            return line;
        }
        let mut spaces: Vec<usize> = (0..line.len()).filter(|&at| line[at] == b' ').collect();
        spaces.extend([0, line.len()]);
        line.insert(*self.random.pick(&spaces), b' ');
        line
    }

    fn link_question(&mut self) -> Vec<u8> {
        let before_any_ring = Table::blank();
        let table = self.planner.table().unwrap_or(&before_any_ring);
        let mut numbers = match self.random.below(2) {
            0 => link_of_a_lightpath(table, &mut self.random),
            _ => any_link(table, &mut self.random),
        };
        if self.random.percent(45) {
            spoil(&mut numbers, table, &mut self.random);
        }
        let [link, wavelength, direction] = numbers;
        format!("link {link} {wavelength} {direction}").into_bytes()
    }

    /// A line that the planning program refuses, or at least a likely one.
    fn bad_plan_line(&mut self) -> Vec<u8> {
        match self.random.below(8) {
            0 => self.with_odd_digits(),
            1 => self.with_odd_digit(),
            2 => self.with_number_over_64_bits(),
            3 => self.over_8192_bytes(),
            4 => self.with_byte_changed(),
            5 => self.not_in_force(),
            _ => self.with_odd_words(),
        }
    }

    fn with_odd_digits(&mut self) -> Vec<u8> {
        let mut line = read(&self.good_form());
        match self.random.below(3) {
            0 => line.push(b'0'),
            _ => line.truncate(line.len() - 1),
        }
        line
    }

    /// A reading with a capital digit, or with a byte that is no digit.
    fn with_odd_digit(&mut self) -> Vec<u8> {
        let mut line = read(&self.good_form());
        let digits = b"read ".len();
        let at = self.random.between(digits + 1, line.len() - 1);
        line[at] = *self.random.pick(b"AAABCDEFFFgG-x/:`@ ");
        line
    }

    fn with_number_over_64_bits(&mut self) -> Vec<u8> {
        let wide = match self.random.below(4) {
            0 => (1u128 << 64).to_string(),
            1 => ((1u128 << 64) + self.random.below(9) as u128).to_string(),
            2 => (u128::MAX - self.random.below(9) as u128).to_string(),
            _ => "9".repeat(self.random.between(21, 300)),
        };
        let templates = ["link W 0 0", "link 1 W 0", "link 1 0 W", "link W W W"];
        self.random.pick(&templates).replace('W', &wide).into_bytes()
    }

    fn over_8192_bytes(&mut self) -> Vec<u8> {
        let length = match self.random.below(20) {
            0..=9 => LINE_MOST + 1,
            10 => 2 * LINE_MOST + 1,
            11 if self.random.percent(20) => self.random.between(60_000, 140_000),
            _ => self.random.between(LINE_MOST + 1, LINE_MOST + 100),
        };
        if self.random.percent(50) {
            let mut line = self.link_question();
            self.fill_with_zeros(&mut line, length);
            return line;
        }
        let mut line = read(&self.good_form());
        line.resize(length, b'0');
        line
    }

    /// A good line with one byte changed, which may still be good.
    fn with_byte_changed(&mut self) -> Vec<u8> {
        let mut line = match self.random.below(8) {
            0 => b"load".to_vec(),
            1 => b"write".to_vec(),
            2 => b"circuits".to_vec(),
            3 => b"tidy".to_vec(),
            4 => read(&self.good_form()),
            5 => grid_words(&mut self.random).join(" ").into_bytes(),
            6 => self.lookup(),
            _ => self.link_question(),
        };
        let at = self.random.below(line.len());
        line[at] = *self.random.pick(b"0123456789 abcdef-A\r\0\xC3");
        line
    }

    /// Lines that other releases may take.
    fn not_in_force(&mut self) -> Vec<u8> {
        let lines = [
            "ends 1 1 2",
            "ports 1 1 1",
            "drain",
            "join -",
            "keep a",
            "drop a",
            "back a",
            "plans",
            "batch 1,1,2,0",
        ];
        self.random.pick(&lines).as_bytes().to_vec()
    }

    fn with_odd_words(&mut self) -> Vec<u8> {
        let lines = [
            "read",
            "read ",
            "read  ",
            "read --",
            "read -0",
            "read - -",
            "read 0",
            "read 0x",
            "read 00 00",
            "read  00",
            " read 00",
            "read 00 ",
            "read\t00",
            "Read 00",
            "READ -",
            "reads 00",
            "write ",
            "write  ",
            "write -",
            "write x",
            "write 00",
            "write x@y",
            "write w @",
            " write",
            "Write",
            "writes",
            "write write",
            "load ",
            " load",
            "load 1",
            "Load",
            "loads",
            "load load",
            "circuits ",
            " circuits",
            "circuits 0",
            "circuit",
            "Circuits",
            "circuits circuits",
            "link",
            "link ",
            "link 1",
            "link 1 0",
            "link 1 0 ",
            "link 1 0 0 ",
            "link 1 0 0 0",
            "link  1 0 0",
            "link 1  0 0",
            " link 1 0 0",
            "link -1 0 0",
            "link 1 0 +1",
            "link a 0 0",
            "link 1 0x0 0",
            "link 1,0,0",
            "Link 1 0 0",
            "links 1 0 0",
            "tidy ",
            " tidy",
            "tidy 0",
            "tidy 1",
            "tidy 128",
            "tidy tidy",
            "tidy @",
            "Tidy",
            "TIDY",
            "tidying",
            "tid",
        ];
        self.random.pick(&lines).as_bytes().to_vec()
    }
}

pub(super) fn read(form: &[u8]) -> Vec<u8> {
    let digits = if form.is_empty() { "-".to_string() } else { hexadecimal(form) };
    format!("read {digits}").into_bytes()
}

/// The link, wavelength and direction of a lightpath, if there is one.
fn link_of_a_lightpath(table: &Table, random: &mut Random) -> [u64; 3] {
    let lightpaths: Vec<Lightpath> = table.lightpaths().collect();
    if lightpaths.is_empty() {
        return any_link(table, random);
    }
    let Lightpath { circuit, place } = *random.pick(&lightpaths);
    let direction = place.direction();
    let uses = |&link: &u8| circuit.uses_link(link, direction, table.nodes);
    let links: Vec<u8> = (1..=table.nodes).filter(uses).collect();
    let counterclockwise = direction == Direction::Counterclockwise;
    [u64::from(*random.pick(&links)), u64::from(place.0 / 2), u64::from(counterclockwise)]
}

fn any_link(table: &Table, random: &mut Random) -> [u64; 3] {
    let nodes = usize::from(table.nodes);
    let wavelengths = table.wavelengths() as usize;
    [random.between(1, nodes.max(1)), random.below(wavelengths.max(1)), random.below(2)]
        .map(|number| number as u64)
}

/// Puts one, two or three of the numbers off their range.
fn spoil(numbers: &mut [u64; 3], table: &Table, random: &mut Random) {
    let above = [u64::from(table.nodes) + 1, u64::from(table.wavelengths()), 2];
    let first = random.below(3);
    for (index, number) in numbers.iter_mut().enumerate() {
        if index == first || random.percent(20) {
            *number = off_range(*number, above[index], random);
        }
    }
    if random.percent(5) {
        numbers[0] = 0;
    }
}

/// The first number too high or the next, or a good one with a high bit, which must not be lost.
fn off_range(good: u64, above: u64, random: &mut Random) -> u64 {
    match random.below(8) {
        0 | 1 => above,
        2 => above + 1,
        3 => u64::MAX - random.below(3) as u64,
        _ => good + (1 << *random.pick(&[7, 8, 16, 31, 32, 33, 48, 63])),
    }
}
