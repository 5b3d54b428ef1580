//! Opening a circuit: Algorithm 1 of source document 000 with the choices of documents 01 and 02.

use crate::circuit::{can_share, Circuit};
use crate::place::Place;
use crate::refusal::Refusal;
use crate::table::{Lightpath, Table};

/// The most moves of an opening, and the fewest records that a lent list may have.
pub const MOVES_MOST: usize = 3;

#[derive(Clone, Copy, PartialEq, Eq, Debug, Default)]
pub struct Move {
    pub number: u32,
    pub from: Place,
    pub to: Place,
}

#[derive(Clone, Copy, PartialEq, Eq, Debug)]
pub struct Opening {
    pub place: Place,
    pub moves: usize,
    /// The pairs tested in step 3, the one found included.
    pub looks: u32,
}

/// The first adjacent pair of step 3, the lower place first.
enum Pair {
    Old(Lightpath, Lightpath),
    WithNew(Lightpath),
}

/// Which old circuits move where, in the order listed, and where the new one goes.
struct Plan {
    moves: Vec<(Lightpath, Place)>,
    place: Place,
}

impl Table {
    /// Opens the circuit and writes as many records as there are moves.
    pub fn open(&mut self, new: Circuit, list: &mut [Move]) -> Result<Opening, Refusal> {
        if !self.meets_ring_rules() {
            return Err(Refusal::BrokenTable);
        }
        self.open_on_good_table(new, list)
    }

    /// Opening on a table known to meet the ring rules.
    pub(crate) fn open_on_good_table(
        &mut self,
        new: Circuit,
        list: &mut [Move],
    ) -> Result<Opening, Refusal> {
        if list.len() < MOVES_MOST {
            return Err(Refusal::ShortMoveList);
        }
        self.check_request(new)?;
        let free = self.first_to_share_with(new).or_else(|| self.lowest_unlit_for(new));
        if let Some(place) = free {
            self.set_up(new, place);
            return Ok(Opening { place, moves: 0, looks: 0 });
        }
        Ok(self.rearrange(new, list))
    }

    fn check_request(&self, new: Circuit) -> Result<(), Refusal> {
        if !self.is_on_ring(new.source) || !self.is_on_ring(new.destination) {
            return Err(Refusal::OffRing);
        }
        if new.source == new.destination {
            return Err(Refusal::SameEnds);
        }
        let (mut live, mut sent, mut received) = (false, 0, 0);
        for circuit in self.circuits() {
            live |= circuit.number == new.number;
            sent += u32::from(circuit.source == new.source);
            received += u32::from(circuit.destination == new.destination);
        }
        if live {
            return Err(Refusal::NumberLive);
        }
        if sent >= self.ports_at(new.source) {
            return Err(Refusal::NoTransmitter);
        }
        if received >= self.ports_at(new.destination) {
            return Err(Refusal::NoReceiver);
        }
        Ok(())
    }

    /// Step 1: the place of the first nonsharing circuit that the new one can join.
    fn first_to_share_with(&self, new: Circuit) -> Option<Place> {
        self.nonsharing()
            .find(|old| can_share(self.nodes, old.place.direction(), old.circuit, new))
            .map(|old| old.place)
    }

    /// Step 2: the lowest unlit place below 2 × W where the new one goes its shorter way, or if
    /// there is none, where it goes the other way.
    fn lowest_unlit_for(&self, new: Circuit) -> Option<Place> {
        let shorter = new.shorter_way(self.nodes);
        self.lowest_unlit_in(shorter).or_else(|| self.lowest_unlit_in(shorter.other()))
    }

    /// Step 3: the new circuit finds its place by moving one, two or three others.
    fn rearrange(&mut self, new: Circuit, list: &mut [Move]) -> Opening {
        let nonsharing: Vec<Lightpath> = self.nonsharing().collect();
        let (pair, looks) = first_adjacent_pair(&nonsharing, new)
            .expect("a full ring with both ports free has an adjacent pair");
        let plan = match pair {
            Pair::Old(a, b) => self.plan_for_old(a, b, &nonsharing),
            Pair::WithNew(a) => self.plan_with_new(a, new, &nonsharing),
        };
        self.carry_out(&plan, new);
        for (record, (old, to)) in list.iter_mut().zip(&plan.moves) {
            *record = Move { number: old.circuit.number, from: old.place, to: *to };
        }
        Opening { place: plan.place, moves: plan.moves.len(), looks }
    }

    /// The pair is of two old circuits: 3a where one stands where the pair can share, else 3b.
    fn plan_for_old(&self, a: Lightpath, b: Lightpath, nonsharing: &[Lightpath]) -> Plan {
        let can_share_at =
            |place: Place| can_share(self.nodes, place.direction(), a.circuit, b.circuit);
        if can_share_at(a.place) {
            return Plan { moves: vec![(b, a.place)], place: b.place };
        }
        if can_share_at(b.place) {
            return Plan { moves: vec![(a, b.place)], place: a.place };
        }
        let x = lowest_where(can_share_at, nonsharing);
        Plan { moves: vec![(x, a.place), (a, x.place), (b, x.place)], place: b.place }
    }

    /// The pair has the new circuit: 3b with two moves, since step 1 found nothing to join.
    fn plan_with_new(&self, a: Lightpath, new: Circuit, nonsharing: &[Lightpath]) -> Plan {
        let can_share_at = |place: Place| can_share(self.nodes, place.direction(), a.circuit, new);
        let x = lowest_where(can_share_at, nonsharing);
        Plan { moves: vec![(x, a.place), (a, x.place)], place: x.place }
    }

    /// All listed circuits are taken down before any is set up.
    fn carry_out(&mut self, plan: &Plan, new: Circuit) {
        for (old, _) in &plan.moves {
            self.take_down(old.circuit.number, old.place);
        }
        for (old, to) in &plan.moves {
            self.set_up(old.circuit, *to);
        }
        self.set_up(new, plan.place);
    }
}

/// The first adjacent pair by first member, then second, the new circuit being last;
/// and the number of pairs tested, that one included.
fn first_adjacent_pair(nonsharing: &[Lightpath], new: Circuit) -> Option<(Pair, u32)> {
    let mut looks = 0;
    for (index, &a) in nonsharing.iter().enumerate() {
        for &b in &nonsharing[index + 1..] {
            looks += 1;
            if a.circuit.is_adjacent_to(b.circuit) {
                return Some((Pair::Old(a, b), looks));
            }
        }
        looks += 1;
        if a.circuit.is_adjacent_to(new) {
            return Some((Pair::WithNew(a), looks));
        }
    }
    None
}

/// The nonsharing circuit at the lowest place where the pair can share.
fn lowest_where(can_share_at: impl Fn(Place) -> bool, nonsharing: &[Lightpath]) -> Lightpath {
    *nonsharing
        .iter()
        .find(|old| can_share_at(old.place))
        .expect("a full ring with both ports free has a nonsharing circuit each way")
}
