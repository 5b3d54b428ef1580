//! What the lines of the planning program reach.

use std::collections::BTreeSet;

use super::grid::sort_of_odd_grid;
use super::lookup::sort_of_odd_lookup;
use super::script::{narrow, sort_of_odd_account, sort_of_odd_bytes};
use super::tidying::sort_of_odd_tidying;
use super::Event::*;
use super::{Before, Coverage, Event};
use crate::circuit::Circuit;
use crate::form;
use crate::lines::words;
use crate::place::Direction::{Clockwise, Counterclockwise};
use crate::place::Place;
use crate::plan::{parse, Answer, Command, Planner, Question, Source, LINE_MOST};
use crate::report::circuit_on_link;
use crate::script;
use crate::table::{Channel, Table};

impl Coverage {
    /// Runs the line at the planner, counts what it reached and gives its answer.
    pub fn run_plan_line(&mut self, planner: &mut Planner, line: &[u8]) -> Answer {
        let before = Before::of(planner.table());
        let answer = planner.run_line(line);
        self.lines += 1;
        match &answer {
            Answer::Script(script::Answer::LineRefused) => self.saw(sort_of_refused(line)),
            Answer::Script(script_answer) => {
                self.saw_script_answer(line, script_answer, &before, planner.table());
            }
            _ => self.saw_plan_answer(line, &answer, &before, planner.table()),
        }
        answer
    }

    fn saw_plan_answer(
        &mut self,
        line: &[u8],
        answer: &Answer,
        before: &Before,
        table: Option<&Table>,
    ) {
        self.saw_if(line.len() == LINE_MOST, Exactly8192Good);
        match (answer, table) {
            (Answer::Read { .. }, Some(table)) => self.saw_read(before, table),
            (Answer::ReadRefused(_), _) => self.saw_refused_form(line),
            (Answer::ReadFailed, _) => self.saw(ReadFailed),
            (Answer::Frequency(_) | Answer::FrequencyRefused(_), _)
            | (Answer::Wavelength(_) | Answer::WavelengthRefused(_), _) => {
                self.saw_grid(line, before);
            }
            (Answer::Tidied { rounds, moves }, _) => {
                let untidied = before.table.as_ref().expect("a tidying has a table");
                self.saw_tidying(untidied, *rounds, moves);
            }
            (Answer::Written(_) | Answer::FileWritten { .. }, Some(table)) => {
                self.saw(Written);
                self.saw_accounts_shown(table, WrittenWithAccount, WrittenAfterMove);
            }
            (Answer::WriteFailed, _) => self.saw(WriteFailed),
            (Answer::Load(loads), Some(table)) => self.saw_load(table, loads),
            (Answer::Link(_) | Answer::LinkRefused(_), Some(table)) => {
                self.saw_link(line, answer, table);
            }
            (Answer::Circuits(circuits), Some(table)) => {
                self.saw(Circuits);
                self.saw_if(circuits.is_empty(), CircuitsNone);
                self.saw_accounts_shown(table, CircuitsWithAccount, CircuitsAfterMove);
            }
            (Answer::From { .. } | Answer::FromRefused(_), Some(table))
            | (Answer::To { .. } | Answer::ToRefused(_), Some(table)) => {
                self.saw_lookup(line, answer, table);
            }
            (Answer::Nodes(nodes), _) => self.saw_nodes(nodes),
            _ => unreachable!("there is no such answer without a table"),
        }
    }

    /// Counts an answer that shows accounts, and whether a circuit that has one was moved before.
    fn saw_accounts_shown(&mut self, table: &Table, shown: Event, after_move: Event) {
        let mut with_account = table.circuits().filter(|circuit| circuit.account != 0).peekable();
        self.saw_if(with_account.peek().is_some(), shown);
        let was_moved = |circuit: Circuit| self.moved.contains(&circuit.number);
        let is_after_move = with_account.any(was_moved);
        self.saw_if(is_after_move, after_move);
    }

    fn saw_read(&mut self, before: &Before, table: &Table) {
        self.saw_new_table();
        self.saw(Read);
        self.saw(if before.had_table() { ReadReplaced } else { ReadBeforeRing });
        self.saw_if(table.circuits().any(|circuit| circuit.remark != 0), ReadWithRemark);
        let has_account = table.circuits().any(|circuit| circuit.account != 0);
        self.saw_if(has_account, ReadWithAccount);
        self.saw_if(!has_account && table.circuits().next().is_some(), ReadWithoutAccount);
        self.saw_if(table.pairs().next().is_some(), ReadWithPair);
        for way in [Clockwise, Counterclockwise] {
            let is_return = |(place, a, b): (Place, Circuit, Circuit)| {
                place.direction() == way && a.is_return_of(b)
            };
            self.saw_if(table.pairs().any(is_return), ReadWithReturn(way));
        }
        let field_maps: BTreeSet<u8> =
            table.channels.iter().copied().filter_map(form::field_map).collect();
        field_maps.into_iter().for_each(|bits| self.saw(ReadFieldMap(bits)));
    }

    fn saw_refused_form(&mut self, line: &[u8]) {
        if let Some(Command::Read(Source::Line(form))) = parse(line) {
            if let Err(fault) = form::decode(&form) {
                self.saw(ReadFault(fault));
            }
        }
    }

    fn saw_link(&mut self, line: &[u8], answer: &Answer, table: &Table) {
        self.saw_numbers(line);
        let Some(Command::Ask(Question::Link { link, wavelength, direction })) = parse(line) else {
            unreachable!("the line asks of a link");
        };
        if let Answer::LinkRefused(refusal) = answer {
            self.saw(LinkRefused(refusal.number()));
            let [link, wavelength, direction] =
                [link, wavelength, direction].map(|number| number % 256);
            let wrapped = circuit_on_link(table, link, wavelength, direction);
            self.saw_if(wrapped.is_ok(), LinkRefusedWide);
            return;
        }
        let channel = table.channels[2 * wavelength as usize + direction as usize];
        if matches!(answer, Answer::Link(Some(_))) {
            self.saw(LinkCircuit);
            self.saw_if(matches!(channel, Channel::Two(..)), LinkOfPair);
        } else {
            self.saw(LinkNone);
            self.saw_if(channel != Channel::Unlit, LinkNoneThoughLit);
        }
    }
}

fn sort_of_refused(line: &[u8]) -> Event {
    let word = words(line).next().unwrap_or_default();
    if line.len() > LINE_MOST {
        RefusedOver8192
    } else if matches!(word, b"ring" | b"open" | b"close") && line.len() > script::LINE_MOST {
        RefusedTooLong
    } else if let Some(command) = parse(line) {
        sort_before_table(&command)
    } else if let Some(sort) = sort_of_odd_bytes(line) {
        sort
    } else if let Some(sort) = sort_of_odd_form(line) {
        sort
    } else if let Some(sort) = sort_of_odd_grid(line) {
        sort
    } else if let Some(sort) = sort_of_odd_lookup(line) {
        sort
    } else if let Some(sort) = sort_of_odd_tidying(line) {
        sort
    } else if let Some(sort) = sort_of_odd_account(line) {
        sort
    } else if parse(&narrow(line)).is_some() {
        RefusedWideNumber
    } else {
        RefusedOther
    }
}

/// The sort of a well-formed line that came before the first table.
fn sort_before_table(command: &Command) -> Event {
    match command {
        Command::Script(_) => RefusedBeforeRing,
        Command::Read(_) | Command::Frequency { .. } | Command::Wavelength { .. } => {
            unreachable!("the line needs no table")
        }
        Command::Tidy => RefusedBeforeTable("tidy"),
        Command::Ask(Question::Write | Question::WriteFile(_)) => RefusedBeforeTable("write"),
        Command::Ask(Question::Load) => RefusedBeforeTable("load"),
        Command::Ask(Question::Link { .. }) => RefusedBeforeTable("link"),
        Command::Ask(Question::Circuits) => RefusedBeforeTable("circuits"),
        Command::Ask(Question::From { .. }) => RefusedBeforeTable("from"),
        Command::Ask(Question::To { .. }) => RefusedBeforeTable("to"),
        Command::Ask(Question::Nodes) => RefusedBeforeTable("nodes"),
    }
}

/// The sort of a reading or writing whose form or path is not well formed.
fn sort_of_odd_form(line: &[u8]) -> Option<Event> {
    let words: Vec<&[u8]> = words(line).collect();
    match words[..] {
        [b"write", _] => Some(RefusedNoPath),
        [b"read", digits] if !digits.iter().all(u8::is_ascii_hexdigit) => None,
        [b"read", digits] if digits.len() % 2 == 1 => Some(RefusedOddDigits),
        [b"read", _] => Some(RefusedCapitalDigit),
        _ => None,
    }
}
