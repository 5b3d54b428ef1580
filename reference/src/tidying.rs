//! Tidying: pairs of nonsharing circuits are joined, one pair a round, until none can be (request
//! E5 of document 02, after the defragmentation of source document 001).

use crate::circuit::can_share;
use crate::opening::Move;
use crate::place::{Direction, Place};
use crate::refusal::Refusal;
use crate::table::{Lightpath, Table, PLACES};

/// The fewest records that a lent list may have.
pub const RECORDS_LEAST: usize = 128;

#[derive(Clone, Copy, PartialEq, Eq, Debug, Default)]
pub struct Tidying {
    pub rounds: usize,
    pub moves: usize,
}

/// A pair that can be joined, the lower place first, and the place where it will share.
struct Joining {
    pair: [Lightpath; 2],
    place: Place,
}

impl Table {
    /// Tidies and writes as many records as there are moves, in their order.
    pub fn tidy(&mut self, list: &mut [Move]) -> Result<Tidying, Refusal> {
        if !self.meets_ring_rules() {
            return Err(Refusal::BrokenTable);
        }
        self.tidy_good_table(list)
    }

    /// Tidying of a table known to meet the ring rules.
    pub fn tidy_good_table(&mut self, list: &mut [Move]) -> Result<Tidying, Refusal> {
        if list.len() < RECORDS_LEAST {
            return Err(Refusal::ShortMoveList);
        }
        let places_in_use = self.places_in_use();
        let mut nonsharing = Vec::with_capacity(PLACES);
        let mut tidying = Tidying::default();
        loop {
            nonsharing.clear();
            nonsharing.extend(self.nonsharing().filter(|old| old.place.index() < places_in_use));
            let Some(joining) = self.first_joining(&nonsharing) else {
                return Ok(tidying);
            };
            tidying.moves += self.join(&joining, &mut list[tidying.moves..]);
            tidying.rounds += 1;
        }
    }

    /// The first pair that can be joined, by first member, then second.
    fn first_joining(&self, nonsharing: &[Lightpath]) -> Option<Joining> {
        let unlit = [Direction::Clockwise, Direction::Counterclockwise]
            .map(|direction| self.lowest_unlit_in(direction));
        for (index, &a) in nonsharing.iter().enumerate() {
            for &b in &nonsharing[index + 1..] {
                if a.circuit.is_adjacent_to(b.circuit) {
                    if let Some(place) = self.place_to_join(a, b, unlit) {
                        return Some(Joining { pair: [a, b], place });
                    }
                }
            }
        }
        None
    }

    /// Where an adjacent pair can be joined: at a member's place in a direction in which it can
    /// share, at the lower one if both are; otherwise at the lowest unlit place in that direction.
    fn place_to_join(
        &self,
        a: Lightpath,
        b: Lightpath,
        unlit: [Option<Place>; 2],
    ) -> Option<Place> {
        let can_share_at =
            |place: &Place| can_share(self.nodes, place.direction(), a.circuit, b.circuit);
        let of_member = [a.place, b.place].into_iter().find(can_share_at);
        of_member.or_else(|| unlit.into_iter().flatten().find(can_share_at))
    }

    /// Moves those of the pair that stand elsewhere to the place, the lower old place first.
    fn join(&mut self, joining: &Joining, list: &mut [Move]) -> usize {
        let to = joining.place;
        let mut moves = 0;
        for old in joining.pair.iter().filter(|old| old.place != to) {
            self.take_down(old.circuit.number, old.place);
            self.set_up(old.circuit, to);
            list[moves] = Move { number: old.circuit.number, from: old.place, to };
            moves += 1;
        }
        moves
    }
}
