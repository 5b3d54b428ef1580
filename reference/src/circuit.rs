//! A circuit: its hops, its links, and with which others it can share.

use crate::place::Direction;

#[derive(Clone, Copy, PartialEq, Eq, Debug, Default)]
pub struct Circuit {
    pub number: u32,
    pub source: u8,
    pub destination: u8,
    /// 0 for none.
    pub remark: u16,
    /// 0 for none.
    pub account: u32,
}

impl Circuit {
    /// The links from source clockwise to destination; both ends must be on the ring.
    pub fn hops(self, nodes: u8) -> u8 {
        (self.destination + nodes - self.source) % nodes
    }

    /// How many links the circuit uses when it is set up in this direction.
    pub fn links(self, direction: Direction, nodes: u8) -> u8 {
        match direction {
            Direction::Clockwise => self.hops(nodes),
            Direction::Counterclockwise => nodes - self.hops(nodes),
        }
    }

    /// The direction in which the circuit uses fewer links, clockwise when equal.
    pub fn shorter_way(self, nodes: u8) -> Direction {
        let [clockwise, counterclockwise] = [Direction::Clockwise, Direction::Counterclockwise]
            .map(|direction| self.links(direction, nodes));
        if counterclockwise < clockwise {
            Direction::Counterclockwise
        } else {
            Direction::Clockwise
        }
    }

    /// Whether the destination of one is the source of the other.
    pub fn is_adjacent_to(self, other: Circuit) -> bool {
        self.destination == other.source || other.destination == self.source
    }

    /// Whether the two run there and back between the same nodes: adjacent, with N hops in total.
    pub fn is_return_of(self, other: Circuit) -> bool {
        self.source == other.destination && self.destination == other.source
    }

    /// Whether the circuit, set up in this direction, runs over the link.
    pub fn uses_link(self, link: u8, direction: Direction, nodes: u8) -> bool {
        let links_past_source = (link + nodes - self.source) % nodes;
        let clockwise = links_past_source < self.hops(nodes);
        clockwise == (direction == Direction::Clockwise)
    }
}

/// Whether the two are adjacent and can share in this direction: with fewer hops than N in total
/// clockwise, with more counterclockwise, and with exactly N in both directions.
pub fn can_share(nodes: u8, direction: Direction, a: Circuit, b: Circuit) -> bool {
    let total = || a.hops(nodes) + b.hops(nodes);
    a.is_adjacent_to(b)
        && match direction {
            Direction::Clockwise => total() <= nodes,
            Direction::Counterclockwise => total() >= nodes,
        }
}

#[cfg(test)]
mod tests {
    use super::*;
    use Direction::{Clockwise, Counterclockwise};

    fn circuit(source: u8, destination: u8) -> Circuit {
        Circuit { source, destination, ..Circuit::default() }
    }

    #[test]
    fn pairs_of_the_papers() {
        assert_eq!(sharing_directions(5, circuit(1, 4), circuit(4, 2)), [Counterclockwise]);
        assert_eq!(sharing_directions(5, circuit(1, 3), circuit(3, 4)), [Clockwise]);
        assert_eq!(sharing_directions(5, circuit(1, 3), circuit(2, 3)), []);
        assert!(circuit(1, 4).is_adjacent_to(circuit(4, 2)));
        assert!(circuit(4, 2).is_adjacent_to(circuit(1, 4)));
        assert!(!circuit(1, 3).is_adjacent_to(circuit(2, 3)));
        let there_and_back = sharing_directions(5, circuit(2, 3), circuit(3, 2));
        assert_eq!(there_and_back, [Clockwise, Counterclockwise]);
    }

    #[test]
    fn a_total_next_to_n_is_shared_one_way() {
        assert_eq!(sharing_directions(5, circuit(2, 4), circuit(4, 1)), [Clockwise]);
        assert_eq!(sharing_directions(5, circuit(2, 4), circuit(4, 3)), [Counterclockwise]);
        assert_eq!(sharing_directions(64, circuit(1, 64), circuit(63, 1)), [Counterclockwise]);
        assert_eq!(sharing_directions(64, circuit(1, 63), circuit(64, 1)), [Clockwise]);
    }

    fn sharing_directions(nodes: u8, a: Circuit, b: Circuit) -> Vec<Direction> {
        let mut directions = vec![Clockwise, Counterclockwise];
        directions.retain(|&direction| can_share(nodes, direction, a, b));
        directions
    }

    #[test]
    fn hops_run_clockwise_through_the_last_link() {
        assert_eq!(circuit(1, 5).hops(5), 4);
        assert_eq!(circuit(5, 1).hops(5), 1);
        assert_eq!(circuit(64, 63).hops(64), 63);
    }

    #[test]
    fn each_link_is_used_in_one_direction() {
        let links = |direction| {
            (1..=5).filter(|&link| circuit(4, 1).uses_link(link, direction, 5)).collect::<Vec<u8>>()
        };
        assert_eq!(links(Clockwise), [4, 5]);
        assert_eq!(links(Counterclockwise), [1, 2, 3]);
    }

    #[test]
    fn the_links_of_each_way_are_those_used_and_both_ways_total_n() {
        for nodes in 3..=9 {
            for circuit in circuits(nodes) {
                for direction in [Clockwise, Counterclockwise] {
                    let is_used = |&link: &u8| circuit.uses_link(link, direction, nodes);
                    let used = (1..=nodes).filter(is_used).count();
                    let links = usize::from(circuit.links(direction, nodes));
                    assert_eq!(links, used, "{circuit:?} {direction:?} on {nodes} nodes");
                }
                let both = [Clockwise, Counterclockwise].map(|way| circuit.links(way, nodes));
                assert_eq!(both[0] + both[1], nodes, "{circuit:?} on {nodes} nodes");
            }
        }
    }

    #[test]
    fn the_shorter_way_uses_at_most_half_of_the_links_and_is_clockwise_when_equal() {
        for nodes in 3..=9 {
            for circuit in circuits(nodes) {
                let shorter = circuit.shorter_way(nodes);
                let [links, others] =
                    [shorter, shorter.other()].map(|way| circuit.links(way, nodes));
                assert!(links <= others, "{circuit:?} on {nodes} nodes");
                assert!(links < others || shorter == Clockwise, "{circuit:?} on {nodes} nodes");
            }
        }
    }

    #[test]
    fn shorter_ways_of_a_ring_of_64_nodes() {
        let ways = |source, destinations: [u8; 3]| {
            destinations.map(|destination| circuit(source, destination).shorter_way(64))
        };
        assert_eq!(ways(1, [32, 33, 34]), [Clockwise, Clockwise, Counterclockwise]);
        assert_eq!(ways(40, [7, 8, 9]), [Clockwise, Clockwise, Counterclockwise]);
    }

    #[test]
    fn two_have_no_link_in_common_where_they_can_share() {
        for nodes in 3..=9 {
            for (a, b) in pairs(nodes) {
                for direction in sharing_directions(nodes, a, b) {
                    let uses = |c: Circuit, link| c.uses_link(link, direction, nodes);
                    let common = |&link: &u8| uses(a, link) && uses(b, link);
                    assert_eq!((1..=nodes).find(common), None, "{a:?} {b:?} on {nodes} nodes");
                }
            }
        }
    }

    #[test]
    fn adjacent_pairs_can_share_and_in_both_directions_exactly_there_and_back() {
        for nodes in 3..=9 {
            for (a, b) in pairs(nodes) {
                let directions = sharing_directions(nodes, a, b).len();
                let is_total_n = a.is_adjacent_to(b) && a.hops(nodes) + b.hops(nodes) == nodes;
                assert_eq!(directions > 0, a.is_adjacent_to(b), "{a:?} {b:?} on {nodes} nodes");
                assert_eq!(directions == 2, is_total_n, "{a:?} {b:?} on {nodes} nodes");
                assert_eq!(a.is_return_of(b), is_total_n, "{a:?} {b:?} on {nodes} nodes");
            }
        }
    }

    /// Every circuit of a ring.
    fn circuits(nodes: u8) -> Vec<Circuit> {
        let mut circuits = Vec::new();
        for source in 1..=nodes {
            circuits
                .extend((1..=nodes).filter(|&end| end != source).map(|end| circuit(source, end)));
        }
        circuits
    }

    /// Every circuit of a ring with every one, in both orders.
    fn pairs(nodes: u8) -> Vec<(Circuit, Circuit)> {
        let circuits = circuits(nodes);
        circuits.iter().flat_map(|&a| circuits.iter().map(move |&b| (a, b))).collect()
    }
}
