//! A circuit's two ways round in words: over how many links it runs, and over how many it would run
//! the other way.

use std::cmp::Ordering;

use crate::step::Move;
use crate::table::{Circuit, Table};
use crate::words::count;

/// A circuit's way round at its place beside the other one.
pub struct Way {
    /// The links that it uses.
    links: usize,
    /// The links that it would use the other way round.
    other: usize,
}

impl Way {
    pub fn of(circuit: &Circuit, nodes: u8) -> Way {
        let links = circuit.links(nodes).len();
        Way { links, other: usize::from(nodes) - links }
    }

    /// Whether it is the shorter way, neither, or the longer one.
    pub fn length(&self) -> Ordering {
        self.links.cmp(&self.other)
    }

    /// `1 link instead of 4`, or `3 links either way round`.
    pub fn told(&self) -> String {
        let links = count(self.links, "link");
        match self.length() {
            Ordering::Equal => format!("{links} either way round"),
            _ => format!("{links} instead of {}", self.other),
        }
    }

    /// `its longer way round, 4 links instead of 1`; nothing where it is not the longer one.
    pub fn longer(&self) -> Option<String> {
        self.named().filter(|_| self.length() == Ordering::Greater)
    }

    /// `its shorter way round, 1 link instead of 4`; nothing where both ways have as many links.
    fn named(&self) -> Option<String> {
        let name = match self.length() {
            Ordering::Less => "shorter",
            Ordering::Equal => return None,
            Ordering::Greater => "longer",
        };
        Some(format!("its {name} way round, {}", self.told()))
    }
}

/// The moved circuits that run over fewer or more links than before, with how many.
pub fn turned(before: &Table, after: &Table, moves: &[Move]) -> Option<String> {
    let told = moves.iter().filter_map(|made| {
        let (old, new) = (before.find(made.number)?, after.find(made.number)?);
        let way = Way::of(new, after.nodes()).named()?;
        (old.direction() != new.direction()).then(|| format!("{} now runs {way}.", made.number))
    });
    let told: Vec<String> = told.collect();
    (!told.is_empty()).then(|| told.join(" "))
}
