//! Lines that the script program refuses, whatever the table: good requests spoilt, and others.

use super::rings::{self, Shape};
use super::{plain, Generator};
use crate::script::LINE_MOST;

impl Generator {
    pub(super) fn bad_line(&mut self) -> Vec<u8> {
        match self.random.below(10) {
            0 => Vec::new(),
            1 => self.with_odd_space(),
            2 => self.with_odd_byte(),
            3 | 4 => self.with_wide_number(),
            5 => self.too_long(),
            6 => self.with_field_too_many_or_few(),
            7 => self.with_odd_word(),
            8 => self.with_odd_number(),
            _ => self.of_any_bytes(),
        }
    }

    /// A good line to spoil; it is not run.
    fn good_line(&mut self) -> Vec<u8> {
        let request = if self.random.percent(15) {
            rings::request(Shape::Small.ports(&mut self.random))
        } else {
            self.bad_request()
        };
        plain(&request)
    }

    fn with_odd_space(&mut self) -> Vec<u8> {
        let mut line = self.good_line();
        let space = line.iter().position(|&byte| byte == b' ').unwrap_or(0);
        match self.random.below(4) {
            0 => line.insert(space, b' '),
            1 => line.insert(0, b' '),
            2 => line.push(b' '),
            _ => line[space] = b'\t',
        }
        line
    }

    /// A CR at the end, or a NUL, CR or high byte somewhere.
    fn with_odd_byte(&mut self) -> Vec<u8> {
        let mut line = self.good_line();
        let at = self.random.between(0, line.len());
        match self.random.below(6) {
            0 | 1 => line.push(b'\r'),
            2 => line.insert(at, b'\0'),
            3 => line.insert(at, b'\r'),
            4 => line.insert(at, 0xFF),
            _ => line.insert(at, self.random.between(128, 254) as u8),
        }
        line
    }

    /// One number too wide for its field, by one, by a full turn of some width, or by far.
    fn with_wide_number(&mut self) -> Vec<u8> {
        let most =
            *self.random.pick(&[u64::from(u8::MAX), u64::from(u16::MAX), u64::from(u32::MAX)]);
        let wide = match self.random.below(5) {
            0 => (most + 1).to_string(),
            1 => (most + 1 + self.random.below(20) as u64).to_string(),
            2 => (u128::from(u64::MAX) + 1 + self.random.below(20) as u128).to_string(),
            3 => "1".repeat(self.random.between(11, 200)),
            _ => format!("{:0>30}", most + 1),
        };
        let template = match most {
            255 => *self.random.pick(&[
                "open 7 W 2 0 0",
                "open 7 1 W 0 0",
                "ring W 1 1 1",
                "ring 3 1 W 1",
                "ring 2 W",
            ]),
            65535 => "open 7 1 2 W 0",
            _ => *self.random.pick(&["open W 1 2 0 0", "open 7 1 2 0 W", "close W"]),
        };
        template.replace('W', &wide).into_bytes()
    }

    /// 257 bytes that would be a good request but for their length, or far more.
    fn too_long(&mut self) -> Vec<u8> {
        let mut line = self.good_line();
        let length = match self.random.below(8) {
            0..=3 => LINE_MOST + 1,
            4 => self.random.between(LINE_MOST + 1, 2 * LINE_MOST + 2),
            5 => self.random.between(LINE_MOST + 1, 5000),
            6 if self.random.percent(5) => self.random.between(60_000, 140_000),
            _ => 2 * LINE_MOST,
        };
        self.fill_with_zeros(&mut line, length);
        line
    }

    fn with_field_too_many_or_few(&mut self) -> Vec<u8> {
        let mut line = self.good_line();
        if self.random.percent(50) {
            line.extend(b" 0");
        } else {
            let last_space = line.iter().rposition(|&byte| byte == b' ').unwrap_or(0);
            line.truncate(last_space);
        }
        line
    }

    fn with_odd_word(&mut self) -> Vec<u8> {
        let words = [
            "Open 1 1 2 0 0",
            "OPEN 1 1 2 0 0",
            "opens 1 1 2 0 0",
            "ope 1 1 2 0 0",
            "clos 1",
            "closed 1",
            "Ring 3 1 1 1",
            "rings 3 1 1 1",
            "ring",
            "open",
            "close",
            "load",
            "link 1 0 0",
            "# remark",
            "1",
            "3 1 1 1",
            "ring3 1 1 1",
        ];
        self.random.pick(&words).as_bytes().to_vec()
    }

    /// A sign, a point, a letter or a comma in the first number or the last.
    fn with_odd_number(&mut self) -> Vec<u8> {
        let mut line = self.good_line();
        let first = line.iter().position(|&byte| byte == b' ').unwrap_or(0) + 1;
        let last = line.iter().rposition(|&byte| byte == b' ').unwrap_or(0) + 1;
        let odd = *self.random.pick(b"+-.,xae_/:");
        let at = *self.random.pick(&[first, last, line.len()]);
        line.insert(at, odd);
        line
    }

    /// Any bytes but LF, or a good line with one byte changed, which may still be good; where
    /// programs are timed, it is no ring.
    fn of_any_bytes(&mut self) -> Vec<u8> {
        if self.random.percent(50) {
            let mut line = self.good_line();
            let is_ring = line.starts_with(b"ring") && self.kind.is_timed();
            let at = self.random.below(if is_ring { b"ring".len() } else { line.len() });
            line[at] = *self.random.pick(b"0123456789 aoc-\0\xC3");
            return line;
        }
        let length = self.random.between(1, 40);
        (0..length).map(|_| self.any_byte()).collect()
    }

    fn any_byte(&mut self) -> u8 {
        match self.random.below(256) as u8 {
            b'\n' => b' ',
            byte => byte,
        }
    }
}
