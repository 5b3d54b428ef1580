//! One step of the day as data: the request, the answer, and the ring before and after.

use std::rc::Rc;

use crate::table::{Circuit, Table};

/// A running circuit that changed its place.
#[derive(Clone, Copy, PartialEq, Eq, Debug)]
pub struct Move {
    pub number: u32,
    pub from: u8,
    pub to: u8,
}

/// What the answer says, as far as the page tells it in words.
#[derive(Clone, PartialEq, Eq, Debug)]
pub enum Outcome {
    /// A new ring.
    Ring,
    /// A ring from a saved form.
    Read,
    /// A ring from the form that the file of this line of the script would have had.
    ReadBack {
        line: usize,
    },
    Opened {
        number: u32,
        moves: Vec<Move>,
        looks: u32,
    },
    Closed {
        number: u32,
    },
    /// Circuits that stood apart were joined, two in each round.
    Tidied {
        rounds: usize,
        moves: Vec<Move>,
    },
    Refused {
        number: u32,
    },
    LineRefused,
    /// `read` or `write` of a file that cannot be had.
    Failed,
    /// A line that saves to a file, which a page does not run.
    NotRun,
    /// The frequency of a wavelength by a plan, in counts of 100 MHz.
    Frequency {
        count: u32,
    },
    /// The wavelength of a plan at a frequency.
    Wavelength {
        number: u8,
    },
    /// The answer to another question. No question changes anything.
    Told,
}

#[derive(Clone, PartialEq, Eq, Debug)]
pub struct Step {
    /// The line of the script, from 1.
    pub number: usize,
    pub request: String,
    pub answer: Vec<String>,
    pub outcome: Outcome,
    /// Nothing where no ring was lit yet.
    pub before: Option<Rc<Table>>,
    pub after: Option<Rc<Table>>,
}

/// What a circuit of the ring after a step went through in it.
#[derive(Clone, Copy, PartialEq, Eq, Debug)]
pub enum Mark {
    Same,
    New,
    /// From that place.
    Moved(u8),
}

impl Step {
    /// The words of the request.
    pub fn words(&self) -> Vec<&str> {
        self.request.split(' ').collect()
    }

    /// A number of the request, by the position of its word.
    pub fn asked(&self, position: usize) -> Option<u32> {
        self.words().get(position)?.parse().ok()
    }

    /// The ring before, if the step changed what stands on that very ring.
    fn changed(&self) -> Option<&Table> {
        match self.outcome {
            Outcome::Opened { .. } | Outcome::Closed { .. } | Outcome::Tidied { .. } => {
                self.before.as_deref()
            }
            _ => None,
        }
    }

    pub fn mark(&self, circuit: &Circuit) -> Mark {
        match self.changed().map(|before| before.find(circuit.number)) {
            None => Mark::Same,
            Some(None) => Mark::New,
            Some(Some(old)) if old.place == circuit.place => Mark::Same,
            Some(Some(old)) => Mark::Moved(old.place),
        }
    }

    /// The circuits of the ring before that have left their places: moved or closed.
    pub fn left(&self) -> Vec<&Circuit> {
        let (Some(before), Some(after)) = (self.changed(), self.after.as_deref()) else {
            return Vec::new();
        };
        let place_after = |circuit: &Circuit| after.find(circuit.number).map(|found| found.place);
        before.circuits.iter().filter(|c| place_after(c) != Some(c.place)).collect()
    }

    pub fn moves(&self) -> &[Move] {
        match &self.outcome {
            Outcome::Opened { moves, .. } | Outcome::Tidied { moves, .. } => moves,
            _ => &[],
        }
    }
}

/// What an answer says; its first line tells the kind.
pub fn outcome_of(answer: &[String]) -> Option<Outcome> {
    let words: Vec<&str> = answer.first()?.split(' ').collect();
    Some(match words[..] {
        ["line", "refused"] => Outcome::LineRefused,
        ["ring" | "close" | "tidy" | "read" | "link" | "from" | "to" | "frequency"
        | "wavelength", "refused", refusal]
        | ["open", _, "refused", refusal] => Outcome::Refused { number: refusal.parse().ok()? },
        ["ring", _, "wavelengths", _] => Outcome::Ring,
        ["read", _, "wavelengths", _] => Outcome::Read,
        ["open", number, "place", _, "moves", _, "looks", looks] => Outcome::Opened {
            number: number.parse().ok()?,
            moves: moves_of(answer)?,
            looks: looks.parse().ok()?,
        },
        ["close", number] => Outcome::Closed { number: number.parse().ok()? },
        ["tidy", "rounds", rounds, "moves", _] => {
            Outcome::Tidied { rounds: rounds.parse().ok()?, moves: moves_of(answer)? }
        }
        ["read" | "write", "failed"] => Outcome::Failed,
        ["frequency", count] => Outcome::Frequency { count: count.parse().ok()? },
        ["wavelength", number] => Outcome::Wavelength { number: number.parse().ok()? },
        _ => Outcome::Told,
    })
}

/// The moves of an answer, which stand after its first line.
fn moves_of(answer: &[String]) -> Option<Vec<Move>> {
    answer.iter().skip(1).map(|line| move_of(line)).collect()
}

/// A line `move NUMBER from PLACE to PLACE`.
fn move_of(line: &str) -> Option<Move> {
    let words: Vec<&str> = line.split(' ').collect();
    match words[..] {
        ["move", number, "from", from, "to", to] => Some(Move {
            number: number.parse().ok()?,
            from: from.parse().ok()?,
            to: to.parse().ok()?,
        }),
        _ => None,
    }
}

#[cfg(test)]
mod tests {
    use super::*;

    fn outcome(answer: &str) -> Option<Outcome> {
        outcome_of(&answer.lines().map(String::from).collect::<Vec<_>>())
    }

    #[test]
    fn each_kind_of_answer() {
        assert_eq!(outcome("line refused"), Some(Outcome::LineRefused));
        assert_eq!(outcome("ring 5 wavelengths 2"), Some(Outcome::Ring));
        assert_eq!(outcome("read 5 wavelengths 2"), Some(Outcome::Read));
        assert_eq!(outcome("close 13"), Some(Outcome::Closed { number: 13 }));
        assert_eq!(outcome("write failed"), Some(Outcome::Failed));
        assert_eq!(outcome("link none"), Some(Outcome::Told));
        assert_eq!(outcome("frequency 1929500"), Some(Outcome::Frequency { count: 1_929_500 }));
        assert_eq!(outcome("wavelength 63"), Some(Outcome::Wavelength { number: 63 }));
        assert_eq!(outcome("from 2 circuits 0"), Some(Outcome::Told));
        for line in [
            "ring",
            "open 3",
            "close",
            "tidy",
            "read",
            "link",
            "from",
            "to",
            "frequency",
            "wavelength",
        ] {
            let refused = outcome(&format!("{line} refused 16"));
            assert_eq!(refused, Some(Outcome::Refused { number: 16 }), "{line}");
        }
        let opened = outcome("open 15 place 2 moves 1 looks 2\nmove 12 from 1 to 0");
        let moves = vec![Move { number: 12, from: 1, to: 0 }];
        assert_eq!(opened, Some(Outcome::Opened { number: 15, moves, looks: 2 }));
        let tidied = outcome("tidy rounds 1 moves 2\nmove 7 from 1 to 4\nmove 9 from 3 to 4");
        let moves = [(7, 1), (9, 3)].map(|(number, from)| Move { number, from, to: 4 }).into();
        assert_eq!(tidied, Some(Outcome::Tidied { rounds: 1, moves }));
        let none = Outcome::Tidied { rounds: 0, moves: Vec::new() };
        assert_eq!(outcome("tidy rounds 0 moves 0"), Some(none));
        assert_eq!(outcome(""), None);
        assert_eq!(outcome("open 15 place 2 moves 1 looks 2\nmove 12"), None);
        assert_eq!(outcome("tidy rounds 1 moves 1\nmove 12"), None);
        assert_eq!(outcome("tidy rounds none moves 0"), None);
        assert_eq!(outcome("frequency 192.95"), None);
        assert_eq!(outcome("wavelength none"), None);
    }

    fn step(outcome: Outcome) -> Step {
        let circuit = |number, place| Circuit {
            number,
            source: number as u8,
            destination: number as u8 % 3 + 1,
            remark: 0,
            account: 0,
            place,
        };
        let table =
            |circuits| Some(Rc::new(Table { ports: vec![2, 2, 2], circuits, loads: vec![0; 6] }));
        Step {
            number: 1,
            request: "open 03 1 x".into(),
            answer: Vec::new(),
            outcome,
            before: table(vec![circuit(1, 0), circuit(2, 2)]),
            after: table(vec![circuit(2, 0), circuit(3, 3)]),
        }
    }

    #[test]
    fn the_rings_before_and_after_tell_what_is_new_moved_and_left() {
        for outcome in [
            Outcome::Opened { number: 3, moves: Vec::new(), looks: 0 },
            Outcome::Closed { number: 1 },
            Outcome::Tidied { rounds: 1, moves: Vec::new() },
        ] {
            let step = step(outcome);
            let after = step.after.clone().unwrap();
            assert_eq!(step.mark(&after.circuits[0]), Mark::Moved(2));
            assert_eq!(step.mark(&after.circuits[1]), Mark::New);
            assert_eq!(step.left().iter().map(|c| c.number).collect::<Vec<_>>(), [1, 2]);
        }
    }

    #[test]
    fn another_ring_marks_nothing() {
        let step = step(Outcome::Ring);
        let after = step.after.clone().unwrap();
        assert!(after.circuits.iter().all(|circuit| step.mark(circuit) == Mark::Same));
        assert!(step.left().is_empty());
    }

    #[test]
    fn numbers_of_the_request_are_read_by_value() {
        let step = step(Outcome::LineRefused);
        assert_eq!((step.asked(1), step.asked(3), step.asked(4)), (Some(3), None, None));
    }
}
