//! Lines on frequency plans: there and back, good and refused, and such lines spoilt.

use super::Generator;
use crate::grid::{ANCHOR, SPACINGS, START_MOST, WAVELENGTHS};
use crate::random::Random;

const LAST_WAVELENGTH: i64 = WAVELENGTHS as i64 - 1;
const LAST_START: i64 = START_MOST as i64;

/// The words of a line: its first, SPACING, START, and WAVELENGTH or FREQUENCY.
type Words = [String; 4];

impl Generator {
    pub(super) fn grid_line(&mut self) -> Vec<u8> {
        let words = grid_words(&mut self.random);
        if self.random.percent(25) {
            return self.bad_grid_line(words);
        }
        self.at_times_with_zeros(words.join(" ").into_bytes())
    }

    /// A line on a frequency plan that is refused, whatever its numbers are.
    fn bad_grid_line(&mut self, mut words: Words) -> Vec<u8> {
        match self.random.below(20) {
            0..=4 => words[2] = odd_start(&words[2], &mut self.random),
            5..=7 => words[2] = wide_start(&words[2], &mut self.random),
            8..=10 => put_wide_number(&mut words, &mut self.random),
            11..=13 => put_odd_number(&mut words, &mut self.random),
            14 | 15 => return words[..self.random.between(1, 3)].join(" ").into_bytes(),
            16 | 17 => words[3] += *self.random.pick(&[" 0", " -0", " 63", " x"]),
            18 => put_odd_word(&mut words, &mut self.random),
            _ => return self.long_or_spaced(words.join(" ").into_bytes()),
        }
        words.join(" ").into_bytes()
    }
}

/// A well-formed line, which may be refused by its numbers.
pub(super) fn grid_words(random: &mut Random) -> Words {
    let (spacing, start) = (spacing(random), start(random));
    let start_word = match start {
        0 if random.percent(40) => "-0".to_string(),
        _ => start.to_string(),
    };
    let (word, last) = match random.below(2) {
        0 => ("frequency", wavelength(random)),
        _ => ("wavelength", frequency(spacing, start, random)),
    };
    [word.to_string(), spacing.to_string(), start_word, last.to_string()]
}

/// One of the four, or in one of eight some other count.
fn spacing(random: &mut Random) -> i64 {
    let good = i64::from(*random.pick(&SPACINGS));
    match random.below(40) {
        0 => 0,
        1 => good + *random.pick(&[-1, 1]),
        2 => good + (1 << *random.pick(&[8, 16, 24, 31])),
        3 => *random.pick(&[12, 25, 50, 100, 375, 750, 2000, 12_500, 50_000]),
        4 => u32::MAX.into(),
        _ => good,
    }
}

/// Within the range and at its ends, just outside, or far away.
fn start(random: &mut Random) -> i64 {
    let inside = random.below(2 * START_MOST as usize + 1) as i64 - LAST_START;
    let sign = *random.pick(&[-1, 1]);
    match random.below(40) {
        0..=7 => sign * LAST_START,
        8..=10 => 0,
        11 | 12 => sign,
        13 | 14 => sign * (LAST_START + 1),
        15 => sign * random.between(202, 10_000) as i64,
        16 => inside + sign * (1 << *random.pick(&[9, 16, 24, 30])),
        17 => i32::MIN.into(),
        18 => i32::MAX.into(),
        _ => inside,
    }
}

/// One of the plan, or in a quarter above 63.
fn wavelength(random: &mut Random) -> i64 {
    match random.below(40) {
        0..=3 => LAST_WAVELENGTH + 1,
        4 => 255,
        5 => 256,
        6 | 7 => u32::MAX.into(),
        8 | 9 => good_wavelength(random) + (1 << *random.pick(&[6, 7, 8, 16, 31])),
        _ => good_wavelength(random),
    }
}

fn good_wavelength(random: &mut Random) -> i64 {
    match random.below(5) {
        0 => 0,
        1 => LAST_WAVELENGTH,
        _ => random.below(WAVELENGTHS) as i64,
    }
}

/// One that the plan has, one beside its points, below it, above it, or far away.
fn frequency(spacing: i64, start: i64, random: &mut Random) -> i64 {
    // Plans far away have points of more than 64 bits.
    let point =
        |wavelength: i64| i128::from(ANCHOR) + i128::from(start + wavelength) * i128::from(spacing);
    let spacing = i128::from(spacing);
    let within_spacing = [1, spacing / 2, (spacing + 1) / 2, spacing - 1];
    let some = point(good_wavelength(random));
    let frequency = match random.below(40) {
        0..=3 => point(0) - random.pick(&within_spacing),
        4 => point(-1),
        5 => point(-(random.between(1, 300) as i64)),
        6..=9 => some + random.pick(&within_spacing),
        10 | 11 => some - 1,
        12 | 13 => point(LAST_WAVELENGTH + 1),
        14 => point(LAST_WAVELENGTH + random.between(1, 300) as i64),
        15 => 0,
        16 => u32::MAX.into(),
        17 => some + (1 << *random.pick(&[8, 16, 24, 31])),
        18 => random.between(1_500_000, 2_300_000) as i128,
        _ => some,
    };
    frequency.clamp(0, u32::MAX.into()) as i64
}

/// What is no number with or without a sign.
fn odd_start(start: &str, random: &mut Random) -> String {
    let digits = start.trim_start_matches('-');
    match random.below(9) {
        0 | 1 => format!("+{digits}"),
        2 | 3 => format!("--{digits}"),
        4 | 5 => "-".to_string(),
        6 => format!("{digits}-"),
        7 => random.pick(&["+", "--", "-+", "+-3", "-+3", "0-3", "-0-3"]).to_string(),
        _ => format!("-{}", random.pick(&["x", "3.0", "0x3", "3,0", "n", "3-3"])),
    }
}

/// Just below the least number of 32 bits or above the most, a good start but for higher bits, or
/// far more digits.
fn wide_start(start: &str, random: &mut Random) -> String {
    let sign = *random.pick(&["", "-"]);
    let digits = start.trim_start_matches('-');
    match random.below(6) {
        0 | 1 => (i64::from(i32::MIN) - 1).to_string(),
        2 | 3 => (i64::from(i32::MAX) + 1).to_string(),
        4 => format!("{sign}{}", with_high_bit(digits, random)),
        _ => format!("{sign}{}", "9".repeat(random.between(10, 200))),
    }
}

fn put_wide_number(words: &mut Words, random: &mut Random) {
    let word = &mut words[*random.pick(&[1, 3])];
    *word = match random.below(3) {
        0 => (1u64 << 32).to_string(),
        1 => with_high_bit(word, random),
        _ => "9".repeat(random.between(11, 200)),
    };
}

/// The number with a bit more, above 32 bits.
fn with_high_bit(digits: &str, random: &mut Random) -> String {
    let number: u128 = digits.parse().expect("the word has digits only");
    (number + (1 << *random.pick(&[32, 33, 63, 64]))).to_string()
}

/// A sign or another byte at a number that takes none.
fn put_odd_number(words: &mut Words, random: &mut Random) {
    let word = &mut words[*random.pick(&[1, 3])];
    *word = match random.below(6) {
        0 | 1 => format!("-{word}"),
        2 => format!("+{word}"),
        3 => random.pick(&["-0", "-", "x", "0x7d"]).to_string(),
        _ => format!("{word}{}", random.pick(&["-", ".0", ",", "x", "GHz"])),
    };
}

fn put_odd_word(words: &mut Words, random: &mut Random) {
    let others = match words[0].as_str() {
        "frequency" => ["Frequency", "FREQUENCY", "frequenc", "frequencys", "frequencies"],
        _ => ["Wavelength", "WAVELENGTH", "wavelengt", "wavelengths", "wave"],
    };
    words[0] = random.pick(&others).to_string();
}
