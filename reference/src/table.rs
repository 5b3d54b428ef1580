//! The ring table: its nodes, ports and places, the ring rules, making and closing.

use crate::circuit::{can_share, Circuit};
use crate::place::{Direction, Place, Wavelength};
use crate::refusal::Refusal;

pub const NODES_LEAST: u8 = 3;
pub const NODES_MOST: u8 = 64;
pub const NODE_PORTS_MOST: u8 = 64;
pub const RING_PORTS_MOST: u32 = 192;
pub const PLACES: usize = 128;

/// What stands at a directed wavelength place.
#[derive(Clone, Copy, PartialEq, Eq, Debug)]
pub enum Channel {
    Unlit,
    One(Circuit),
    /// The lower number first.
    Two(Circuit, Circuit),
}

impl Channel {
    pub fn circuits(&self) -> impl Iterator<Item = Circuit> {
        let (first, second) = match *self {
            Channel::Unlit => (None, None),
            Channel::One(circuit) => (Some(circuit), None),
            Channel::Two(first, second) => (Some(first), Some(second)),
        };
        first.into_iter().chain(second)
    }

    /// The channel with one circuit more.
    fn with(self, circuit: Circuit) -> Channel {
        match self {
            Channel::Unlit => Channel::One(circuit),
            Channel::One(other) if other.number < circuit.number => Channel::Two(other, circuit),
            Channel::One(other) => Channel::Two(circuit, other),
            Channel::Two(..) => panic!("a place holds at most two circuits"),
        }
    }

    /// The channel with this number taken off; the other circuit, if any, stands alone.
    fn without(self, number: u32) -> Channel {
        match self {
            Channel::Two(first, second) if first.number == number => Channel::One(second),
            Channel::Two(first, second) if second.number == number => Channel::One(first),
            Channel::One(circuit) if circuit.number == number => Channel::Unlit,
            _ => panic!("the circuit to take off stands at its place"),
        }
    }
}

/// A circuit at its place.
#[derive(Clone, Copy, PartialEq, Eq, Debug)]
pub struct Lightpath {
    pub circuit: Circuit,
    pub place: Place,
}

#[derive(Clone, PartialEq, Eq, Debug)]
pub struct Table {
    pub nodes: u8,
    /// The ports of node i stand at i − 1; those beyond N are 0.
    pub ports: [u8; NODES_MOST as usize],
    pub channels: [Channel; PLACES],
}

/// The ring rules, in the order in which they are looked at.
#[derive(Clone, Copy, PartialEq, Eq, PartialOrd, Ord, Debug)]
pub enum Rule {
    /// Nodes and ports within their limits.
    Limits,
    /// Unused ports are 0 and the places from 2 × W up unlit.
    UnusedFields,
    /// Source and destination on the ring and different.
    Ends,
    /// Live numbers distinct.
    Numbers,
    /// No node sends or receives more circuits than it has ports.
    Ports,
    /// The lower number first at a place.
    Order,
    /// Two at a place are adjacent and can share in its direction.
    Sharing,
}

/// W, the wavelengths in each direction: a third of the ports, rounded up.
pub fn wavelengths_for(ring_ports: u32) -> u32 {
    ring_ports.div_ceil(3)
}

impl Table {
    /// The table of all zeros; it breaks the ring rules.
    pub fn blank() -> Table {
        Table { nodes: 0, ports: [0; NODES_MOST as usize], channels: [Channel::Unlit; PLACES] }
    }

    /// A ring with no circuit, or the first fault of the planner's in the order 1, 2, 3.
    pub fn make(nodes: u8, ports: &[u8]) -> Result<Table, Refusal> {
        if !(NODES_LEAST..=NODES_MOST).contains(&nodes) || ports.len() != usize::from(nodes) {
            return Err(Refusal::RingSize);
        }
        if ports.iter().any(|&count| count > NODE_PORTS_MOST) {
            return Err(Refusal::NodePorts);
        }
        let mut table = Table::blank();
        table.nodes = nodes;
        table.ports[..ports.len()].copy_from_slice(ports);
        if table.ring_ports() > RING_PORTS_MOST {
            return Err(Refusal::RingPorts);
        }
        Ok(table)
    }

    /// K, the ports of all nodes together.
    pub fn ring_ports(&self) -> u32 {
        self.ports.iter().map(|&count| u32::from(count)).sum()
    }

    pub fn wavelengths(&self) -> u32 {
        wavelengths_for(self.ring_ports())
    }

    /// 2 × W: the places from here up stay unlit.
    pub fn places_in_use(&self) -> usize {
        2 * self.wavelengths() as usize
    }

    pub fn is_on_ring(&self, node: u8) -> bool {
        (1..=self.nodes).contains(&node)
    }

    pub fn ports_at(&self, node: u8) -> u32 {
        u32::from(self.ports[usize::from(node) - 1])
    }

    pub fn circuits(&self) -> impl Iterator<Item = Circuit> + '_ {
        self.channels.iter().flat_map(Channel::circuits)
    }

    /// Every circuit with its place: by rising place, the lower number first.
    pub fn lightpaths(&self) -> impl Iterator<Item = Lightpath> + '_ {
        (0u8..).zip(&self.channels).flat_map(|(place, channel)| {
            channel.circuits().map(move |circuit| Lightpath { circuit, place: Place(place) })
        })
    }

    /// The circuits alone at their places, by rising place.
    pub fn nonsharing(&self) -> impl Iterator<Item = Lightpath> + '_ {
        (0u8..).zip(&self.channels).filter_map(|(place, channel)| match *channel {
            Channel::One(circuit) => Some(Lightpath { circuit, place: Place(place) }),
            _ => None,
        })
    }

    /// The lowest unlit place below 2 × W in this direction.
    pub(crate) fn lowest_unlit_in(&self, direction: Direction) -> Option<Place> {
        let wavelengths = (0..self.wavelengths() as u8).map(Wavelength);
        let mut places = wavelengths.map(|wavelength| wavelength.place(direction));
        places.find(|place| self.channels[place.index()] == Channel::Unlit)
    }

    pub fn place_of(&self, number: u32) -> Option<Place> {
        let holds = |channel: &Channel| channel.circuits().any(|circuit| circuit.number == number);
        let index = self.channels.iter().position(holds)?;
        Some(Place(index as u8))
    }

    pub(crate) fn set_up(&mut self, circuit: Circuit, place: Place) {
        let channel = &mut self.channels[place.index()];
        *channel = channel.with(circuit);
    }

    pub(crate) fn take_down(&mut self, number: u32, place: Place) {
        let channel = &mut self.channels[place.index()];
        *channel = channel.without(number);
    }

    /// Takes the circuit off and moves none.
    pub fn close(&mut self, number: u32) -> Result<(), Refusal> {
        if !self.meets_ring_rules() {
            return Err(Refusal::BrokenTable);
        }
        self.close_on_good_table(number)
    }

    /// Closing on a table known to meet the ring rules.
    pub(crate) fn close_on_good_table(&mut self, number: u32) -> Result<(), Refusal> {
        let place = self.place_of(number).ok_or(Refusal::NumberNotLive)?;
        self.take_down(number, place);
        Ok(())
    }

    pub fn meets_ring_rules(&self) -> bool {
        self.broken_rule().is_none()
    }

    /// The first ring rule that does not hold; the ends must be on the ring before hops and ports
    /// are looked at.
    pub fn broken_rule(&self) -> Option<Rule> {
        if !self.limits_hold() {
            Some(Rule::Limits)
        } else if !self.unused_fields_are_zero() {
            Some(Rule::UnusedFields)
        } else if !self.circuits().all(|circuit| self.ends_are_good(circuit)) {
            Some(Rule::Ends)
        } else if !self.numbers_are_distinct() {
            Some(Rule::Numbers)
        } else if !self.ports_suffice() {
            Some(Rule::Ports)
        } else if !self.pairs_are_in_order() {
            Some(Rule::Order)
        } else if !self.pairs_can_share() {
            Some(Rule::Sharing)
        } else {
            None
        }
    }

    fn limits_hold(&self) -> bool {
        (NODES_LEAST..=NODES_MOST).contains(&self.nodes)
            && self.ports.iter().all(|&count| count <= NODE_PORTS_MOST)
            && self.ring_ports() <= RING_PORTS_MOST
    }

    fn unused_fields_are_zero(&self) -> bool {
        let beyond_ring = &self.ports[usize::from(self.nodes)..];
        let beyond_wavelengths = &self.channels[self.places_in_use()..];
        beyond_ring.iter().all(|&count| count == 0)
            && beyond_wavelengths.iter().all(|&channel| channel == Channel::Unlit)
    }

    fn ends_are_good(&self, circuit: Circuit) -> bool {
        self.is_on_ring(circuit.source)
            && self.is_on_ring(circuit.destination)
            && circuit.source != circuit.destination
    }

    fn numbers_are_distinct(&self) -> bool {
        let mut numbers: Vec<u32> = self.circuits().map(|circuit| circuit.number).collect();
        numbers.sort_unstable();
        numbers.windows(2).all(|neighbours| neighbours[0] != neighbours[1])
    }

    fn ports_suffice(&self) -> bool {
        let mut sent = [0u32; NODES_MOST as usize + 1];
        let mut received = [0u32; NODES_MOST as usize + 1];
        for circuit in self.circuits() {
            sent[usize::from(circuit.source)] += 1;
            received[usize::from(circuit.destination)] += 1;
        }
        (1..=self.nodes).all(|node| {
            let ports = self.ports_at(node);
            sent[usize::from(node)] <= ports && received[usize::from(node)] <= ports
        })
    }

    fn pairs_are_in_order(&self) -> bool {
        self.pairs().all(|(_, first, second)| first.number < second.number)
    }

    fn pairs_can_share(&self) -> bool {
        self.pairs()
            .all(|(place, first, second)| can_share(self.nodes, place.direction(), first, second))
    }

    /// The two circuits that share the place, if two do.
    pub(crate) fn pair_at(&self, place: Place) -> Option<(Circuit, Circuit)> {
        match self.channels[place.index()] {
            Channel::Two(first, second) => Some((first, second)),
            _ => None,
        }
    }

    /// The places with two circuits, and these.
    pub(crate) fn pairs(&self) -> impl Iterator<Item = (Place, Circuit, Circuit)> + '_ {
        let places = (0..PLACES as u8).map(Place);
        places.filter_map(|place| self.pair_at(place).map(|(first, second)| (place, first, second)))
    }
}
