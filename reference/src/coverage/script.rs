//! What the lines of the script program reach.

use std::cmp::Ordering;
use std::collections::BTreeSet;

use super::Event::*;
use super::{shared_places, Before, Coverage, Event};
use crate::circuit::{can_share, Circuit};
use crate::lines::words;
use crate::opening::{Move, Opening};
use crate::place::Place;
use crate::script::{parse, Answer, Desk, Request, LINE_MOST};
use crate::table::Table;

impl Coverage {
    /// Runs the line at the desk, counts what it reached and gives its answer.
    pub fn run_line(&mut self, desk: &mut Desk, line: &[u8]) -> Answer {
        let before = Before::of(desk.table());
        let answer = desk.run_line(line);
        self.lines += 1;
        if answer == Answer::LineRefused {
            self.saw(sort_of_refused(line));
        } else {
            self.saw_script_answer(line, &answer, &before, desk.table());
        }
        answer
    }

    /// Counts what a line reached that was not refused; the table is the one after it.
    pub(super) fn saw_script_answer(
        &mut self,
        line: &[u8],
        answer: &Answer,
        before: &Before,
        table: Option<&Table>,
    ) {
        match *answer {
            Answer::Ring { .. } => {
                self.saw_new_table();
                self.saw(RingAccepted);
                self.saw_if(before.had_table(), RingReplaced);
            }
            Answer::RingRefused(refusal) => self.saw(RingRefused(refusal.number())),
            Answer::Opened { number, opening, ref moves } => {
                let table = table.expect("an opening has a table");
                let opened = table.circuits().find(|circuit| circuit.number == number);
                let new = opened.expect("an opening sets its circuit up");
                self.saw_opening(table, new, opening, &moves[..opening.moves]);
                self.saw_accounts(table, new, &moves[..opening.moves]);
                self.saw_opening_after_tidying(opening.moves);
            }
            Answer::OpenRefused { refusal, .. } => self.saw(OpenRefused(refusal.number())),
            Answer::Closed { number } => {
                self.saw(Closed);
                self.moved.remove(&number);
                let closed = before.circuit(number);
                self.closed_from.extend(closed.map(|closed| closed.source));
                self.closed_to.extend(closed.map(|closed| closed.destination));
                let left_one_alone = table.map_or(0, shared_places) < before.shared_places();
                self.saw_if(left_one_alone, ClosedOneOfTwo);
            }
            Answer::CloseRefused(refusal) => self.saw(CloseRefused(refusal.number())),
            Answer::LineRefused => unreachable!("the line was not refused"),
        }
        self.saw_if(line.len() == LINE_MOST, Exactly256Good);
        self.saw_numbers(line);
    }

    fn saw_opening(&mut self, table: &Table, new: Circuit, opening: Opening, moves: &[Move]) {
        self.most_looks = self.most_looks.max(opening.looks);
        match *moves {
            [] => self.saw_unmoving(table, new, opening.place),
            [moved] => self.saw_3a(table, moved),
            [from_c, to_c, ..] => self.saw_3b(table, moves.len(), from_c, to_c),
        }
    }

    /// Steps 1 and 2. The places of the other direction are lit or unlit as they were before.
    fn saw_unmoving(&mut self, table: &Table, new: Circuit, place: Place) {
        let way = place.direction();
        let [links, other_links] = [way, way.other()].map(|way| new.links(way, table.nodes));
        let other_unlit = table.lowest_unlit_in(way.other());
        if let Some((a, b)) = table.pair_at(place) {
            self.saw(Step1);
            self.saw_if(a.is_return_of(b), Step1Return(way));
            self.saw_if(links > other_links && other_unlit.is_some(), Step1Longer(way));
            return;
        }
        self.saw(Step2);
        let is_first = (links, way) < (other_links, way.other());
        assert!(is_first || other_unlit.is_none(), "step 2 tries the shorter way first");
        self.saw(match links.cmp(&other_links) {
            Ordering::Less => Step2Shorter(way),
            Ordering::Equal => Step2Equal(way),
            Ordering::Greater => Step2Longer(way),
        });
        self.saw_if(other_unlit.is_some_and(|other| other < place), Step2PassedOver(way));
    }

    fn saw_3a(&mut self, table: &Table, Move { from, to, .. }: Move) {
        let (a, b) = table.pair_at(to).expect("3a puts a pair together");
        let (stayed, moved) = (to.direction(), from.direction());
        // The one that stayed stood in a fitting direction; the pair's first had the lower place.
        self.saw(if can_share(table.nodes, moved, a, b) {
            Step3aBothFit
        } else if to < from {
            Step3aFirstFits
        } else {
            Step3aSecondFits
        });
        self.saw_if(a.is_return_of(b), Step3aReturn { stayed, moved });
    }

    /// The first move is that of x from c, the second that of the pair's first member to c.
    fn saw_3b(&mut self, table: &Table, moves: usize, from_c: Move, to_c: Move) {
        let (a, b) = table.pair_at(to_c.to).expect("3b puts a pair together");
        assert!(!a.is_return_of(b), "a circuit and its return never come to 3b");
        self.saw(if moves == 2 { Step3bWithNew } else { Step3bOld });
        // Places 0 and 1 are the lowest of their directions.
        self.saw_if(from_c.from.0 >= 2, Step3bOverShared);
    }

    /// The accounts of the circuit opened and of those moved.
    fn saw_accounts(&mut self, table: &Table, new: Circuit, moves: &[Move]) {
        self.saw_if(new.account != 0, OpenedWithAccount);
        self.saw_if(new.account == u32::MAX, OpenedWithWidestAccount);
        self.saw_moves(table, moves, MovedWithAccount { moves: moves.len() });
    }

    /// Remembers the circuits moved, and counts the event if one of them has an account.
    pub(super) fn saw_moves(&mut self, table: &Table, moves: &[Move], with_account: Event) {
        let moved: BTreeSet<u32> = moves.iter().map(|record| record.number).collect();
        let has_account =
            |circuit: Circuit| circuit.account != 0 && moved.contains(&circuit.number);
        self.saw_if(table.circuits().any(has_account), with_account);
        self.moved.extend(moved);
    }

    /// Counts a good line whose numbers have leading zeros.
    pub(super) fn saw_numbers(&mut self, line: &[u8]) {
        let zero_leads = |word: &[u8]| {
            let digits = word.strip_prefix(b"-").unwrap_or(word);
            digits.len() > 1 && digits[0] == b'0'
        };
        self.saw_if(words(line).any(zero_leads), LeadingZeroGood);
    }
}

fn sort_of_refused(line: &[u8]) -> Event {
    if line.len() > LINE_MOST {
        RefusedTooLong
    } else if parse(line).is_some() {
        RefusedBeforeRing
    } else if let Some(sort) = sort_of_odd_bytes(line) {
        sort
    } else if let Some(sort) = sort_of_odd_account(line) {
        sort
    } else if parse(&narrow(line)).is_some() {
        RefusedWideNumber
    } else {
        RefusedOther
    }
}

/// The sort of a line that is empty or has bytes or spaces that no line has.
pub(super) fn sort_of_odd_bytes(line: &[u8]) -> Option<Event> {
    if line.is_empty() {
        Some(RefusedEmpty)
    } else if line.contains(&b'\r') {
        Some(RefusedCr)
    } else if line.contains(&0) {
        Some(RefusedNul)
    } else if line.iter().any(|&byte| byte > 127) {
        Some(RefusedHighByte)
    } else if words(line).any(<[u8]>::is_empty) {
        Some(RefusedSpaces)
    } else {
        None
    }
}

/// The sort of an opening that is good but for its account, or for what follows it.
pub(super) fn sort_of_odd_account(line: &[u8]) -> Option<Event> {
    let opens = |line: &[u8]| matches!(parse(line), Some(Request::Open(_)));
    let opens_with_account = |line: &[u8]| opens(&[line, b" 0"].concat());
    if opens_with_account(line) {
        return Some(RefusedNoAccount);
    }
    let last_space = line.iter().rposition(|&byte| byte == b' ')?;
    let (front, last_word) = (&line[..last_space], &line[last_space + 1..]);
    if opens(front) {
        Some(RefusedAfterAccount)
    } else if !opens_with_account(front) {
        None
    } else if last_word.iter().all(u8::is_ascii_digit) {
        Some(RefusedWideAccount)
    } else {
        Some(RefusedOddAccount)
    }
}

/// The line with every number replaced by 0.
pub(super) fn narrow(line: &[u8]) -> Vec<u8> {
    let mut narrow = Vec::new();
    for word in words(line) {
        let is_number = word.iter().all(u8::is_ascii_digit);
        narrow.extend(if is_number { b"0" } else { word });
        narrow.push(b' ');
    }
    narrow.pop();
    narrow
}
