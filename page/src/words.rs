//! What happened in a step, in words. All of it is read off the answers: the page does not know
//! how `ringplan` decides.

use crate::opening;
use crate::refusal;
use crate::step::{Move, Outcome, Step};
use crate::table::Table;
use crate::tidying;

/// A step told: the main point, the reasons one by one, and what a desk does next if it must.
#[derive(PartialEq, Eq, Debug, Default)]
pub struct Telling {
    pub point: String,
    pub reasons: Vec<String>,
    pub next: Option<String>,
}

impl Telling {
    pub fn plain(point: impl Into<String>) -> Telling {
        Telling { point: point.into(), ..Telling::default() }
    }
}

pub fn tell(step: &Step) -> Telling {
    match &step.outcome {
        Outcome::Opened { number, moves, looks } => opening::tell(step, *number, moves, *looks),
        Outcome::Refused { number } => refusal::tell(step, *number),
        Outcome::LineRefused => refusal::tell_line(step),
        Outcome::Failed => Telling {
            point: "The file cannot be had, so nothing was done.".into(),
            reasons: Vec::new(),
            next: Some("Look up the file's path, and whether it may be read or written.".into()),
        },
        Outcome::Ring => step.after.as_deref().map_or_else(Telling::default, |ring| Telling {
            point: format!("A ring of {} nodes was lit. {}", ring.nodes(), dimensions(ring)),
            reasons: earlier_ring(step),
            next: None,
        }),
        Outcome::Read => tell_reading(step, ""),
        Outcome::ReadBack { line } => tell_reading(
            step,
            &format!(" It is the ring that line {line}, which was not run, would have saved."),
        ),
        Outcome::NotRun => Telling::plain(
            "This line saves the ring to a file. It was not run, since a page changes no file; \
             ringpage --write runs it.",
        ),
        Outcome::Closed { number } => tell_closing(step, *number),
        Outcome::Tidied { rounds, moves } => tidying::tell(step, *rounds, moves),
        Outcome::Frequency { count } => tell_answer(format!(
            "By this plan the wavelength has the frequency {}, both ways round.",
            frequency(*count)
        )),
        Outcome::Wavelength { number } => tell_answer(format!(
            "By this plan the frequency is wavelength {number}: {} on a ring that has it.",
            places(*number)
        )),
        Outcome::Told if step.request.starts_with("write @") => {
            Telling::plain("The ring was saved to the file, and stays as it is.")
        }
        Outcome::Told => tell_answer(told(&step.answer[0])),
    }
}

fn tell_answer(told: String) -> Telling {
    Telling::plain(told + " Nothing changed.")
}

fn told(answer: &str) -> String {
    let words: Vec<&str> = answer.split(' ').collect();
    match words[..] {
        ["link", "circuit", number] => format!("Circuit {number} runs there."),
        ["link", "none"] => "No circuit runs there.".into(),
        ["load", ..] => "The loads of all links were asked for.".into(),
        ["circuits", ..] => "The running circuits were asked for.".into(),
        ["ring", "of", ..] => "A picture of the ring was asked for.".into(),
        ["write", ..] => "The ring was saved.".into(),
        _ => "A question was answered.".into(),
    }
}

fn dimensions(ring: &Table) -> String {
    let pairs = count(ring.port_pairs().into(), "pair");
    match ring.places() {
        0 => "No node has a transmitter or receiver, so there is no wavelength.".into(),
        places => format!(
            "Its {pairs} of transmitter and receiver, divided by three and rounded up, give {} \
             each way round: places 0 to {}. Even places run clockwise, odd ones counterclockwise.",
            count(ring.wavelengths().into(), "wavelength"),
            places - 1
        ),
    }
}

fn earlier_ring(step: &Step) -> Vec<String> {
    match &step.before {
        Some(ring) if !ring.circuits.is_empty() => vec![format!(
            "The earlier ring is gone, and with it its {}.",
            count(ring.circuits.len(), "circuit")
        )],
        _ => Vec::new(),
    }
}

fn tell_reading(step: &Step, source: &str) -> Telling {
    step.after.as_deref().map_or_else(Telling::default, |ring| Telling {
        point: format!(
            "A saved ring of {} nodes was read, with {}.{source} {}",
            ring.nodes(),
            count(ring.circuits.len(), "circuit"),
            dimensions(ring)
        ),
        reasons: earlier_ring(step),
        next: None,
    })
}

fn tell_closing(step: &Step, number: u32) -> Telling {
    let closed = step.before.as_deref().and_then(|ring| ring.find(number));
    let (Some(closed), Some(after)) = (closed, step.after.as_deref()) else {
        return Telling::plain(format!("Circuit {number} was closed."));
    };
    let place = closed.place;
    let left = match after.at(place).next() {
        Some(other) => format!("Circuit {} now stands alone at place {place}.", other.number),
        None => format!("Place {place} is free now."),
    };
    Telling {
        point: format!("Circuit {number} was closed, and nothing moved. {left}"),
        reasons: vec![format!(
            "A transmitter at node {} and a receiver at node {} are free again.",
            closed.source, closed.destination
        )],
        next: None,
    }
}

/// A count with its noun: `1 circuit`, `3 circuits`.
pub fn count(number: usize, noun: &str) -> String {
    match number {
        1 => format!("1 {noun}"),
        _ => format!("{number} {noun}s"),
    }
}

/// How many moves there were: `three moves`.
pub fn told_moves(moves: &[Move]) -> String {
    let noun = if moves.len() == 1 { "move" } else { "moves" };
    format!("{} {noun}", spelled(moves.len()))
}

pub fn told_move(made: &Move) -> String {
    format!("{} moved from place {} to place {}", made.number, made.from, made.to)
}

/// A count of 100 MHz, and the same in THz: `1929500 (192.95 THz)`.
pub fn frequency(count: u32) -> String {
    let part = format!("{:04}", count % 10_000);
    let (tenths, rest) = part.split_at(1);
    format!("{count} ({}.{tenths}{} THz)", count / 10_000, rest.trim_end_matches('0'))
}

/// The two places of a wavelength.
fn places(wavelength: u8) -> String {
    let even = 2 * u32::from(wavelength);
    format!("place {even} clockwise and place {} counterclockwise", even + 1)
}

/// A small number as a word.
pub fn spelled(number: usize) -> String {
    match number {
        0 => "no".into(),
        1 => "one".into(),
        2 => "two".into(),
        3 => "three".into(),
        4 => "four".into(),
        _ => number.to_string(),
    }
}

/// `1st`, `2nd`, `3rd`, `4th`, .., `11th`.
pub fn ordinal(number: u32) -> String {
    let ending = match (number % 10, number % 100) {
        (_, 11..=13) => "th",
        (1, _) => "st",
        (2, _) => "nd",
        (3, _) => "rd",
        _ => "th",
    };
    format!("{number}{ending}")
}

/// Numbers in a sentence: `1`, `1 and 2`, `1, 2 and 3`.
pub fn listed<T: ToString>(items: &[T]) -> String {
    let items: Vec<String> = items.iter().map(T::to_string).collect();
    match items.split_last() {
        None => String::new(),
        Some((last, [])) => last.clone(),
        Some((last, front)) => format!("{} and {last}", front.join(", ")),
    }
}

/// The first letter made a capital.
pub fn capital(text: &str) -> String {
    let mut characters = text.chars();
    characters.next().map_or_else(String::new, |first| {
        first.to_uppercase().collect::<String>() + characters.as_str()
    })
}

#[cfg(test)]
mod tests {
    use super::*;

    #[test]
    fn numbers_in_sentences() {
        let ordinals: Vec<String> = [1, 2, 3, 4, 11, 12, 13, 21, 112].map(ordinal).into();
        assert_eq!(ordinals, ["1st", "2nd", "3rd", "4th", "11th", "12th", "13th", "21st", "112th"]);
        assert_eq!(count(1, "move"), "1 move");
        assert_eq!(count(0, "move"), "0 moves");
        assert_eq!(listed(&[1]), "1");
        assert_eq!(listed(&[1, 2, 3]), "1, 2 and 3");
        assert_eq!(listed::<u8>(&[]), "");
        assert_eq!(capital("both"), "Both");
        assert_eq!(spelled(3), "three");
    }

    #[test]
    fn frequencies_are_exact_in_terahertz() {
        for (count, expected) in [
            (1_929_500, "1929500 (192.95 THz)"),
            (1_930_000, "1930000 (193.0 THz)"),
            (1_930_002, "1930002 (193.0002 THz)"),
            (1_930_500, "1930500 (193.05 THz)"),
            (1_931_000, "1931000 (193.1 THz)"),
            (1_963_875, "1963875 (196.3875 THz)"),
            (2_000_000, "2000000 (200.0 THz)"),
            (0, "0 (0.0 THz)"),
            (1, "1 (0.0001 THz)"),
            (u32::MAX, "4294967295 (429496.7295 THz)"),
        ] {
            assert_eq!(frequency(count), expected);
        }
    }

    #[test]
    fn a_wavelength_has_two_places() {
        assert_eq!(places(0), "place 0 clockwise and place 1 counterclockwise");
        assert_eq!(places(63), "place 126 clockwise and place 127 counterclockwise");
    }
}
