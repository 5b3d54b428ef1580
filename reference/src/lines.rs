//! Lines of input, and the words and numbers in them.

use std::io::{self, BufRead, Read};

/// Hands over each line without its line end; of one over `most` bytes, enough to tell.
pub fn for_each_line(
    input: &mut impl BufRead,
    most: usize,
    mut take: impl FnMut(&[u8]) -> io::Result<()>,
) -> io::Result<()> {
    let mut line = Vec::with_capacity(most + 1);
    while read_line(input, most, &mut line)? {
        take(&line)?;
    }
    Ok(())
}

/// Reads the next line; false at the end of the input.
fn read_line(input: &mut impl BufRead, most: usize, line: &mut Vec<u8>) -> io::Result<bool> {
    line.clear();
    input.by_ref().take(most as u64 + 1).read_until(b'\n', line)?;
    if line.last() == Some(&b'\n') {
        line.pop();
        return Ok(true);
    }
    if line.len() > most {
        input.skip_until(b'\n')?;
    }
    Ok(!line.is_empty())
}

/// The words of a line: what single spaces part, so that two spaces have an empty word between.
pub fn words(line: &[u8]) -> impl Iterator<Item = &[u8]> {
    line.split(|&byte| byte == b' ')
}

/// The value of a word of digits, if it is at most `most`; leading zeros count for nothing.
pub fn number(word: &[u8], most: u64) -> Option<u64> {
    if word.is_empty() {
        return None;
    }
    let mut value: u64 = 0;
    for &byte in word {
        if !byte.is_ascii_digit() {
            return None;
        }
        value = value.checked_mul(10)?.checked_add(u64::from(byte - b'0'))?;
        if value > most {
            return None;
        }
    }
    Some(value)
}

/// The value of a number of 32 bits that has `-` before its digits where it is below zero.
pub fn signed_number(word: &[u8]) -> Option<i32> {
    let (digits, sign, most) = match word.strip_prefix(b"-") {
        Some(digits) => (digits, -1, i64::from(i32::MIN).unsigned_abs()),
        None => (word, 1, i32::MAX as u64),
    };
    number(digits, most).map(|value| (sign * value as i64) as i32)
}
