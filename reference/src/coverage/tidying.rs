//! What tidyings reach: their rounds are told from the records of the moves.

use super::event::BOTH_WAYS;
use super::events::events;
use super::{Coverage, Event};
use crate::circuit::can_share;
use crate::lines::words;
use crate::opening::Move;
use crate::place::Direction::{self, Clockwise, Counterclockwise};
use crate::place::Place;
use crate::table::{Channel, Lightpath, Table, NODES_MOST};
use TidyingEvent::*;

events! {
    /// What a tidying can show.
    pub enum TidyingEvent {
        /// Every one, in the order of the report.
        all {
            Tidied => "tidy";
            NoRound => "  of these: no round";
            /// No round, though two nonsharing circuits are adjacent.
            NoRoundThoughAdjacent => "  of these: no round, though circuits alone are adjacent";
            SeveralRounds => "  of these: several rounds";
            /// 64 nodes, with a round.
            LargestRing => "  of these: 64 nodes, with a round";
            /// Every place below 2 × W lit before it, with a round.
            FullRing => "  of these: every place lit, with a round";
            /// A circuit with an account is moved.
            MovedWithAccount => "  of these: a circuit with an account is moved";
            /// A round in which only the member at the lower place stood in a fitting direction,
            /// this one.
            LowerFits(way: Direction) in BOTH_WAYS =>
                "round: only the lower place is {way}, as it fits";
            HigherFits(way: Direction) in BOTH_WAYS =>
                "round: only the higher place is {way}, as it fits";
            BothFit { stayed: Direction, moved: Direction } in [
                (Clockwise, Clockwise),
                (Counterclockwise, Counterclockwise),
                (Clockwise, Counterclockwise),
                (Counterclockwise, Clockwise),
            ] =>
                "round: {}", both_fit(stayed, moved);
            /// A round in which both moved to an unlit place of this direction.
            BothMoved(way: Direction) in BOTH_WAYS => "round: both move to an unlit place {way}";
            /// That place was lit before the first round.
            ToFreedPlace => "  of these: the place was lit before the first round";
            /// A round before whose pair another was passed over, which can share in this direction
            /// only.
            PassedOver(way: Direction) in BOTH_WAYS =>
                "round: a pair before it that fits {way} is passed over";
            /// A round whose pair comes before that of the round before it.
            BeforeLast => "round: its pair comes before that of the round before it";
            /// An opening on a table that was tidied, with a round, since it came into force.
            OpenedAfter => "open after a tidying with a round";
            OpenedAfterWithMoves => "  of these: with moves";
            /// A refused line: `tidy` with a word after it.
            WordAfter => "line refused: tidy with a word after it";
        }
    }
}

fn both_fit(stayed: Direction, moved: Direction) -> String {
    if stayed == moved {
        format!("both places are {stayed}, as it fits")
    } else {
        format!("a circuit and its return stood both ways, and share {stayed}")
    }
}

impl Coverage {
    /// Counts a tidying, given the table before it.
    pub(super) fn saw_tidying(&mut self, untidied: &Table, rounds: usize, moves: &[Move]) {
        self.most_rounds = self.most_rounds.max(rounds);
        self.is_tidied |= rounds > 0;
        let is_full = untidied.channels[..untidied.places_in_use()]
            .iter()
            .all(|&channel| channel != Channel::Unlit);
        let has_adjacent = adjacent_pairs(untidied).next().is_some();
        self.saw_tidying_if(true, Tidied);
        self.saw_tidying_if(rounds == 0, NoRound);
        self.saw_tidying_if(rounds == 0 && has_adjacent, NoRoundThoughAdjacent);
        self.saw_tidying_if(rounds > 1, SeveralRounds);
        self.saw_tidying_if(rounds > 0 && untidied.nodes == NODES_MOST, LargestRing);
        self.saw_tidying_if(rounds > 0 && is_full, FullRing);
        self.saw_moves(untidied, moves, Event::Tidying(MovedWithAccount));
        assert_eq!(self.saw_rounds(untidied, moves), rounds, "the records are those of the rounds");
    }

    /// Counts each round and gives their number.
    fn saw_rounds(&mut self, untidied: &Table, moves: &[Move]) -> usize {
        let mut table = untidied.clone();
        let mut moves = moves.iter().copied();
        let mut last: Option<Round> = None;
        let mut rounds = 0;
        while let Some(round) = Round::next(&table, &mut moves) {
            self.saw_tidying_if(true, round.sort(table.nodes));
            let is_freed = untidied.channels[round.place.index()] != Channel::Unlit;
            self.saw_tidying_if(round.both_move() && is_freed, ToFreedPlace);
            for way in [Clockwise, Counterclockwise] {
                let is_passed_over = |pair: [Lightpath; 2]| {
                    places(pair) < places(round.pair) && fits(table.nodes, way, pair)
                };
                self.saw_tidying_if(adjacent_pairs(&table).any(is_passed_over), PassedOver(way));
            }
            let is_before = |last: Round| places(round.pair) < places(last.pair);
            self.saw_tidying_if(last.is_some_and(is_before), BeforeLast);
            round.carry_out(&mut table);
            last = Some(round);
            rounds += 1;
        }
        rounds
    }

    /// Counts an opening that may follow a tidying.
    pub(super) fn saw_opening_after_tidying(&mut self, moves: usize) {
        self.saw_tidying_if(self.is_tidied, OpenedAfter);
        self.saw_tidying_if(self.is_tidied && moves > 0, OpenedAfterWithMoves);
    }

    fn saw_tidying_if(&mut self, stands: bool, event: TidyingEvent) {
        self.saw_if(stands, Event::Tidying(event));
    }
}

/// The adjacent pairs of nonsharing circuits, by first member, then second.
fn adjacent_pairs(table: &Table) -> impl Iterator<Item = [Lightpath; 2]> + '_ {
    let pairs = table.nonsharing().flat_map(|a| {
        let after = table.nonsharing().filter(move |b| b.place > a.place);
        after.map(move |b| [a, b])
    });
    pairs.filter(|[a, b]| a.circuit.is_adjacent_to(b.circuit))
}

/// The places of a pair, by which pairs are in order.
fn places([a, b]: [Lightpath; 2]) -> [Place; 2] {
    [a.place, b.place]
}

fn fits(nodes: u8, way: Direction, [a, b]: [Lightpath; 2]) -> bool {
    can_share(nodes, way, a.circuit, b.circuit)
}

/// A pair that was joined, the lower place first, and where it shares now.
#[derive(Clone, Copy)]
struct Round {
    pair: [Lightpath; 2],
    place: Place,
}

impl Round {
    /// The round of the next record, with the one after it where the place is unlit.
    fn next(table: &Table, moves: &mut impl Iterator<Item = Move>) -> Option<Round> {
        let first = moves.next()?;
        let moved = alone_at(table, first.from);
        let other = match table.channels[first.to.index()] {
            Channel::Unlit => alone_at(table, moves.next().expect("both move there").from),
            _ => alone_at(table, first.to),
        };
        let mut pair = [moved, other];
        pair.sort_by_key(|member| member.place);
        Some(Round { pair, place: first.to })
    }

    fn both_move(self) -> bool {
        self.pair.iter().all(|member| member.place != self.place)
    }

    fn sort(self, nodes: u8) -> TidyingEvent {
        let [lower, higher] = self.pair.map(|member| member.place.direction());
        match [lower, higher].map(|way| fits(nodes, way, self.pair)) {
            [true, true] => BothFit { stayed: lower, moved: higher },
            [true, false] => LowerFits(lower),
            [false, true] => HigherFits(higher),
            [false, false] => BothMoved(self.place.direction()),
        }
    }

    fn carry_out(self, table: &mut Table) {
        for Lightpath { circuit, place } in self.pair {
            table.take_down(circuit.number, place);
            table.set_up(circuit, self.place);
        }
    }
}

fn alone_at(table: &Table, place: Place) -> Lightpath {
    match table.channels[place.index()] {
        Channel::One(circuit) => Lightpath { circuit, place },
        _ => panic!("tidying joins nonsharing circuits"),
    }
}

/// The sort of a tidying that is not well formed.
pub(super) fn sort_of_odd_tidying(line: &[u8]) -> Option<Event> {
    let is_tidying = words(line).next() == Some(b"tidy");
    is_tidying.then_some(Event::Tidying(WordAfter))
}
