//! Counts of what a script reached: each step, each refusal, each sort of line.

mod event;
mod events;
mod grid;
mod load;
mod lookup;
mod plan;
mod script;
mod tidying;

use std::collections::{BTreeMap, BTreeSet};
use std::fmt;

use crate::circuit::Circuit;
use crate::program::Program;
use crate::table::Table;

pub use event::Event;
pub use grid::{GridEvent, LineFault, Off, Way};
pub use lookup::{LookupEvent, NodesEvent};
pub use tidying::TidyingEvent;

#[derive(Clone, PartialEq, Eq, Debug)]
pub struct Coverage {
    program: Program,
    pub lines: u64,
    pub most_looks: u32,
    pub most_rounds: usize,
    counts: BTreeMap<Event, u64>,
    /// The numbers of live circuits that were moved on the present table.
    moved: BTreeSet<u32>,
    /// The nodes from which a circuit was closed on the present table.
    closed_from: BTreeSet<u8>,
    /// The nodes to which one was closed.
    closed_to: BTreeSet<u8>,
    /// Whether a tidying has joined circuits on the present table.
    is_tidied: bool,
}

impl Coverage {
    pub fn of(program: Program) -> Coverage {
        Coverage {
            program,
            lines: 0,
            most_looks: 0,
            most_rounds: 0,
            counts: BTreeMap::new(),
            moved: BTreeSet::new(),
            closed_from: BTreeSet::new(),
            closed_to: BTreeSet::new(),
            is_tidied: false,
        }
    }

    pub fn count(&self, event: Event) -> u64 {
        self.counts.get(&event).copied().unwrap_or(0)
    }

    /// The events that the program's scripts can show.
    fn events(&self) -> Vec<Event> {
        match self.program {
            Program::Script => Event::of_script(),
            Program::Plan => [Event::of_script(), Event::of_plan()].concat(),
        }
    }

    /// The events that were not reached.
    pub fn missing(&self) -> Vec<Event> {
        self.events().into_iter().filter(|&event| self.count(event) == 0).collect()
    }

    pub fn add(&mut self, other: &Coverage) {
        self.lines += other.lines;
        self.most_looks = self.most_looks.max(other.most_looks);
        self.most_rounds = self.most_rounds.max(other.most_rounds);
        for (&event, count) in &other.counts {
            *self.counts.entry(event).or_default() += count;
        }
    }

    /// Nothing has been moved or closed yet on the table that is in force now.
    fn saw_new_table(&mut self) {
        self.moved.clear();
        self.closed_from.clear();
        self.closed_to.clear();
        self.is_tidied = false;
    }

    fn saw(&mut self, event: Event) {
        *self.counts.entry(event).or_default() += 1;
    }

    fn saw_if(&mut self, stands: bool, event: Event) {
        if stands {
            self.saw(event);
        }
    }
}

impl fmt::Display for Coverage {
    fn fmt(&self, f: &mut fmt::Formatter) -> fmt::Result {
        for event in self.events() {
            writeln!(f, "{:>10}  {event}", self.count(event))?;
        }
        if self.program == Program::Plan {
            writeln!(f, "{:>10}  most rounds of one tidying", self.most_rounds)?;
        }
        writeln!(f, "{:>10}  most looks of one opening", self.most_looks)
    }
}

/// The table before a line, by which it is told what the line reached.
struct Before {
    table: Option<Table>,
}

impl Before {
    fn of(table: Option<&Table>) -> Before {
        Before { table: table.cloned() }
    }

    fn had_table(&self) -> bool {
        self.table.is_some()
    }

    /// The live circuit of this number.
    fn circuit(&self, number: u32) -> Option<Circuit> {
        self.table.as_ref()?.circuits().find(|circuit| circuit.number == number)
    }

    fn shared_places(&self) -> usize {
        self.table.as_ref().map_or(0, shared_places)
    }
}

fn shared_places(table: &Table) -> usize {
    table.pairs().count()
}

#[cfg(test)]
mod tests {
    use super::*;
    use crate::comparison::Expected;
    use crate::generator::{script, Kind};

    #[test]
    fn what_is_counted_is_in_the_report_once() {
        for program in [Program::Script, Program::Plan] {
            let reported = Coverage::of(program).events();
            let different: BTreeSet<Event> = reported.iter().copied().collect();
            assert_eq!(different.len(), reported.len());
            for seed in 1..=4 {
                let coverage =
                    Expected::of(program, &script(program, Kind::Mixed, seed, 5000)).coverage;
                for event in coverage.counts.keys() {
                    assert!(different.contains(event), "{event:?} is not in the report");
                }
            }
        }
    }
}
