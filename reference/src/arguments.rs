//! Command lines of the form `--name value`, for the programs of this package.

use std::collections::BTreeMap;
use std::ops::RangeInclusive;

#[derive(Debug)]
pub struct Arguments {
    values: BTreeMap<String, String>,
}

impl Arguments {
    /// Reads the words; names in `flags` stand without a value, those in `named` take one.
    pub fn read(
        words: impl IntoIterator<Item = String>,
        named: &[&str],
        flags: &[&str],
    ) -> Result<Arguments, String> {
        let mut values = BTreeMap::new();
        let mut words = words.into_iter();
        while let Some(name) = words.next() {
            let value = if flags.contains(&name.as_str()) {
                String::new()
            } else if named.contains(&name.as_str()) {
                words.next().ok_or(format!("{name} needs a value"))?
            } else {
                return Err(format!("{name} is not an option"));
            };
            values.insert(name, value);
        }
        Ok(Arguments { values })
    }

    pub fn has(&self, name: &str) -> bool {
        self.values.contains_key(name)
    }

    pub fn text(&self, name: &str) -> Option<&str> {
        self.values.get(name).map(String::as_str)
    }

    pub fn needed_text(&self, name: &str) -> Result<&str, String> {
        self.text(name).ok_or(format!("{name} is missing"))
    }

    pub fn needed_number(&self, name: &str) -> Result<u64, String> {
        number(self.needed_text(name)?)
    }

    pub fn needed_number_within(
        &self,
        name: &str,
        limits: RangeInclusive<u64>,
    ) -> Result<u64, String> {
        let number = self.needed_number(name)?;
        if limits.contains(&number) {
            Ok(number)
        } else {
            Err(format!("{name} {number} is not from {} to {}", limits.start(), limits.end()))
        }
    }

    /// A range `A..B`, both ends included, or a single number.
    pub fn needed_range(&self, name: &str) -> Result<RangeInclusive<u64>, String> {
        let text = self.needed_text(name)?;
        let (first, last) = text.split_once("..").unwrap_or((text, text));
        Ok(number(first)?..=number(last)?)
    }
}

fn number(text: &str) -> Result<u64, String> {
    text.parse().map_err(|_| format!("{text} is not a number"))
}

#[cfg(test)]
mod tests {
    use super::*;

    fn read(line: &str) -> Result<Arguments, String> {
        let words = line.split_whitespace().map(String::from);
        Arguments::read(words, &["--seeds", "--lines"], &["--stats"])
    }

    #[test]
    fn options_are_read() {
        let arguments = read("--lines 20 --stats --seeds 3..5").unwrap();
        assert_eq!(arguments.needed_number("--lines"), Ok(20));
        assert_eq!(arguments.needed_range("--seeds"), Ok(3..=5));
        assert!(arguments.has("--stats"));
        assert_eq!(read("--seeds 7").unwrap().needed_range("--seeds"), Ok(7..=7));
    }

    #[test]
    fn faults_are_told() {
        assert_eq!(read("--other").unwrap_err(), "--other is not an option");
        assert_eq!(read("--lines").unwrap_err(), "--lines needs a value");
        assert!(read("--lines x").unwrap().needed_number("--lines").is_err());
        assert!(read("").unwrap().needed_range("--seeds").is_err());
        let twenty_within =
            |limits| read("--lines 20").unwrap().needed_number_within("--lines", limits);
        assert_eq!(twenty_within(1..=20), Ok(20));
        assert_eq!(twenty_within(21..=64).unwrap_err(), "--lines 20 is not from 21 to 64");
    }
}
