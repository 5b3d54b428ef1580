//! Rings whose tidying is dear: in every round it passes the same pairs over.

use super::longest::filled;
use crate::circuit::Circuit;
use crate::place::{Direction, Place};
use crate::random::Random;
use crate::table::{Table, NODES_MOST, PLACES, RING_PORTS_MOST};

/// A ring of 64 nodes with a circuit alone at every place. Circuits to and from a hub, 256 adjacent
/// pairs, stand counterclockwise at the lower places and fit clockwise only; beside them stand
/// circuits past the hub, adjacent to none. At the higher places each clockwise circuit is to be
/// joined by one that stands counterclockwise, so that no clockwise place becomes unlit.
pub fn dear(random: &mut Random) -> Table {
    let roles = Roles::draw(random);
    let mut table = Table::make(NODES_MOST, &roles.ports()).expect("the ports are those of a ring");
    let half = PLACES as u8 / 2;
    let groups = [
        (0, Direction::Clockwise, roles.past_hub(random)),
        (0, Direction::Counterclockwise, roles.at_hub()),
        (half, Direction::Clockwise, roles.chained(0)),
        (half, Direction::Counterclockwise, roles.chained(1)),
    ];
    for (first, direction, mut circuits) in groups {
        random.shuffle(&mut circuits);
        let places = (first..).map(Place).filter(|place| place.direction() == direction);
        for (circuit, place) in circuits.into_iter().zip(places) {
            table.set_up(filled(circuit, &table, random), place);
        }
    }
    table
}

/// How many nodes send to the hub, receive from it, or are in the chain.
const NODES_OF_ROLE: usize = 16;

/// The circuits past the hub from each sender and to each receiver.
const PAST_HUB: usize = 2;

/// The circuits from each node of the chain to the next.
const CHAINED: usize = 4;

/// What the nodes do, each role in clockwise order.
struct Roles {
    senders: Vec<u8>,
    hub: u8,
    receivers: Vec<u8>,
    chain: Vec<u8>,
}

impl Roles {
    /// Clockwise from any node the senders, the hub, the receivers, and the chain among the rest.
    fn draw(random: &mut Random) -> Roles {
        let first = random.below(usize::from(NODES_MOST)) as u8;
        let mut nodes = (first..first + NODES_MOST).map(|node| node % NODES_MOST + 1);
        let senders = nodes.by_ref().take(NODES_OF_ROLE).collect();
        let hub = nodes.next().expect("there are more nodes than senders");
        let receivers = nodes.by_ref().take(NODES_OF_ROLE).collect();
        let mut chain: Vec<u8> = nodes.collect();
        while chain.len() > NODES_OF_ROLE {
            chain.remove(random.below(chain.len()));
        }
        Roles { senders, hub, receivers, chain }
    }

    /// A port for each circuit; the hub has those left over.
    fn ports(&self) -> [u8; NODES_MOST as usize] {
        let mut ports = [0; NODES_MOST as usize];
        let mut give = |node: u8, count: usize| ports[usize::from(node) - 1] = count as u8;
        let at_ends = 1 + PAST_HUB;
        self.senders.iter().chain(&self.receivers).for_each(|&node| give(node, at_ends));
        self.chain.iter().for_each(|&node| give(node, CHAINED));
        let given = NODES_OF_ROLE * (2 * at_ends + CHAINED);
        give(self.hub, RING_PORTS_MOST as usize - given);
        ports
    }

    /// From each sender to the hub, and from there to each receiver.
    fn at_hub(&self) -> Vec<Circuit> {
        let to_hub = self.senders.iter().map(|&sender| circuit(sender, self.hub));
        let from_hub = self.receivers.iter().map(|&receiver| circuit(self.hub, receiver));
        to_hub.chain(from_hub).collect()
    }

    /// From the senders to the receivers in any order.
    fn past_hub(&self, random: &mut Random) -> Vec<Circuit> {
        let mut receivers = self.receivers.repeat(PAST_HUB);
        random.shuffle(&mut receivers);
        let senders = self.senders.iter().cycle();
        senders.zip(receivers).map(|(&sender, receiver)| circuit(sender, receiver)).collect()
    }

    /// From every other node of the chain, beginning with the first or the second, to the next.
    fn chained(&self, first: usize) -> Vec<Circuit> {
        let next = self.chain.iter().cycle().skip(1);
        let circuits = self.chain.iter().zip(next).map(|(&node, &next)| circuit(node, next));
        circuits.skip(first).step_by(2).collect::<Vec<_>>().repeat(CHAINED)
    }
}

fn circuit(source: u8, destination: u8) -> Circuit {
    Circuit { source, destination, ..Circuit::default() }
}
