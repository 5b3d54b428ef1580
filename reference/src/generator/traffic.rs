//! Openings and closings on the ring in force, served and refused ones.

use super::rings::Shape;
use crate::circuit::{can_share, Circuit};
use crate::opening::{Move, Opening, MOVES_MOST};
use crate::place::Place;
use crate::random::Random;
use crate::script::Request;
use crate::table::{wavelengths_for, Lightpath, Table, NODES_MOST};

/// Openings looked at before one is asked for.
const TRIES: usize = 24;

/// What an opening is worth at most.
const WORTH_MOST: usize = 2;

/// How the circuits of a ring grow in number and fall between two marks.
#[derive(Default)]
pub struct Tide {
    rising: bool,
    /// Circuits at which the tide turns to fall.
    high: usize,
    /// Circuits at which it turns to rise again.
    low: usize,
    /// Whether to keep off sharing, so that places run out before ports.
    spreads: bool,
    /// Whether half of the nodes only send or only receive, so that searches are long.
    apart: bool,
    /// In how many of a hundred openings the return of a live circuit is wanted.
    returns: usize,
}

impl Tide {
    /// A tide for a ring with so many ports.
    pub fn choose(shape: Shape, ports: usize, random: &mut Random) -> Tide {
        let plain = Tide { rising: true, high: ports, ..Tide::default() };
        if shape == Shape::Light {
            return Tide { high: ports / 5, low: ports / 10, ..plain };
        }
        let plain = Tide { returns: *random.pick(&[0, 40]), ..plain };
        if random.percent(25) {
            return Tide { low: random.between(ports / 2, ports), ..plain };
        }
        // With hardly any sharing, all places are lit from 2 × W circuits on.
        let places = 2 * wavelengths_for(ports as u32) as usize;
        let apart = random.percent(25);
        let most = if apart { places + ports / 12 } else { ports };
        Tide {
            high: random.between(places.min(most), most),
            low: places.saturating_sub(random.below(3)),
            spreads: true,
            apart,
            ..plain
        }
    }

    /// The next opening or closing.
    pub fn request(&mut self, table: &Table, random: &mut Random) -> Request {
        let live = table.circuits().count();
        if live >= self.high {
            self.rising = false;
        } else if live <= self.low {
            self.rising = true;
        }
        let opens = random.percent(if self.rising { 85 } else { 25 });
        if opens {
            match self.opening(table, random) {
                Some(circuit) => return Request::Open(circuit),
                None => self.rising = false,
            }
        }
        Request::Close(self.closing(table, random))
    }

    /// An opening with both ports free, if one is found: the first, or the one worth most.
    fn opening(&self, table: &Table, random: &mut Random) -> Option<Circuit> {
        let ends = self.ends(table)?;
        let wanted = if self.spreads { WORTH_MOST } else { 0 };
        let mut best = None;
        for _ in 0..TRIES {
            let (source, destination) = ends.draw(self.returns, random);
            if source == destination {
                continue;
            }
            let circuit = new_circuit(table, source, destination, random);
            let worth = if self.spreads { worth(table, circuit) } else { 0 };
            if best.is_none_or(|(most, _)| worth > most) {
                best = Some((worth, circuit));
            }
            if worth >= wanted {
                break;
            }
        }
        best.map(|(_, circuit)| circuit)
    }

    /// What openings are drawn from. If the circuits are to spread, returns are those of circuits
    /// that share: the others would be joined.
    fn ends(&self, table: &Table) -> Option<Ends> {
        let mut ends = Ends::free(table)?;
        if self.apart {
            ends.keep_apart(table.nodes / 4);
        }
        if self.spreads {
            ends.add_returns(table.pairs().flat_map(|(_, a, b)| [a, b]));
        } else {
            ends.add_returns(table.circuits());
        }
        Some(ends)
    }

    /// A live number, rather one of two at a place if the circuits are to spread.
    fn closing(&self, table: &Table, random: &mut Random) -> u32 {
        if self.spreads && random.percent(97) {
            if let Some(number) = some_of(&self.partings(table), random) {
                return number;
            }
        }
        live_number(table, random).unwrap_or_else(|| number(random))
    }

    /// The numbers of those that share whose closing is worth most.
    fn partings(&self, table: &Table) -> Vec<u32> {
        let mut partings = Vec::new();
        for (place, a, b) in table.pairs() {
            for (closed, left) in [(a, b), (b, a)] {
                partings.push((self.worth_alone(table, left, place), closed.number));
            }
        }
        let most = partings.iter().map(|&(worth, _)| worth).max();
        partings.retain(|&(worth, _)| Some(worth) == most);
        partings.into_iter().map(|(_, number)| number).collect()
    }

    /// What a closing is worth that leaves this circuit alone: most where returns are sold and its
    /// return stands alone too, some where it runs the longer way and will be hard to join.
    fn worth_alone(&self, table: &Table, left: Circuit, place: Place) -> usize {
        let is_return = |old: Lightpath| old.circuit.is_return_of(left);
        if self.returns > 0 && table.nonsharing().any(is_return) {
            2
        } else {
            usize::from(is_long(table.nodes, left, place))
        }
    }
}

/// What the opening is worth to scripts that are to reach step 3: nothing by step 1, most where it
/// is by two moves, or where the circuit will be hard to join.
fn worth(table: &Table, circuit: Circuit) -> usize {
    let joins =
        |old: Lightpath| can_share(table.nodes, old.place.direction(), old.circuit, circuit);
    if table.nonsharing().any(joins) {
        return 0;
    }
    let mut moves = [Move::default(); MOVES_MOST];
    match table.clone().open_on_good_table(circuit, &mut moves) {
        Ok(Opening { moves: 2, .. }) => WORTH_MOST,
        Ok(Opening { moves: 0, place, .. }) if is_long(table.nodes, circuit, place) => WORTH_MOST,
        _ => 1,
    }
}

/// Whether the lightpath runs over more than half of the ring, so that few others can join it.
fn is_long(nodes: u8, circuit: Circuit, place: Place) -> bool {
    2 * circuit.links(place.direction(), nodes) > nodes
}

/// An opening or closing that is refused, or at least a likely one.
pub fn refused(table: &Table, random: &mut Random) -> Request {
    let live = live_number(table, random);
    let (source, destination) = (any_node(table, random), any_node(table, random));
    let mut circuit = new_circuit(table, source, destination, random);
    let ports = Ports::of(table);
    match random.below(8) {
        0 => circuit.source = off_ring(table, random),
        1 => circuit.destination = off_ring(table, random),
        2 => circuit.destination = circuit.source,
        3 => circuit.number = live.unwrap_or(circuit.number),
        4 => {
            let full = ports.nodes(|node| ports.transmitters_left[node] == 0);
            circuit.source = some_of(&full, random).unwrap_or(circuit.source);
        }
        5 => {
            let free = ports.free_senders();
            let full = ports.nodes(|node| ports.receivers_left[node] == 0);
            circuit.source = some_of(&free, random).unwrap_or(circuit.source);
            circuit.destination = some_of(&full, random).unwrap_or(circuit.destination);
        }
        6 => return Request::Close(free_number(table, random)),
        _ => several_faults(&mut circuit, table, live, random),
    }
    Request::Open(circuit)
}

/// More than one fault at once, for the order in which they are named.
fn several_faults(circuit: &mut Circuit, table: &Table, live: Option<u32>, random: &mut Random) {
    if random.percent(60) {
        circuit.number = live.unwrap_or(circuit.number);
    }
    if random.percent(40) {
        circuit.destination = circuit.source;
    }
    if random.percent(30) {
        circuit.source = off_ring(table, random);
    }
    if random.percent(20) {
        circuit.destination = circuit.source;
    }
}

/// Nodes between which both ports are free.
pub struct Ends {
    sources: Vec<u8>,
    destinations: Vec<u8>,
    /// Sources and destinations of returns.
    returns: Vec<(u8, u8)>,
}

impl Ends {
    /// The nodes with a free transmitter and those with a free receiver, if there are both.
    pub fn free(table: &Table) -> Option<Ends> {
        let ports = Ports::of(table);
        let (sources, destinations) = (ports.free_senders(), ports.free_receivers());
        let has_both = !sources.is_empty() && !destinations.is_empty();
        has_both.then(|| Ends { sources, destinations, returns: Vec::new() })
    }

    /// Leaves the ways from a quarter of the nodes, in the middle of the first half, to the others of
    /// that half on either side, if there are some, and then those within the other half.
    fn keep_apart(&mut self, quarter: u8) {
        let before = quarter / 2;
        let sends = |&node: &u8| node > before && node <= before + quarter;
        let receives = |node: &u8| *node <= 2 * quarter && !sends(node);
        let does_both = |&node: &u8| node > 2 * quarter;
        let Ends { sources, destinations, .. } = self;
        if sources.iter().any(sends) && destinations.iter().any(receives) {
            sources.retain(sends);
            destinations.retain(receives);
        } else if sources.iter().any(does_both) && destinations.iter().any(does_both) {
            sources.retain(does_both);
            destinations.retain(does_both);
        }
    }

    /// Adds the ends of these circuits' returns, where they are among the sources and destinations.
    pub fn add_returns(&mut self, circuits: impl Iterator<Item = Circuit>) {
        let ends = circuits.map(|circuit| (circuit.destination, circuit.source));
        let are_free = |(source, destination): &(u8, u8)| {
            self.sources.contains(source) && self.destinations.contains(destination)
        };
        self.returns.extend(ends.filter(are_free));
    }

    /// A source and a destination: in so many of a hundred those of a return, if there is one.
    pub fn draw(&self, returns: usize, random: &mut Random) -> (u8, u8) {
        if random.percent(returns) && !self.returns.is_empty() {
            return *random.pick(&self.returns);
        }
        (*random.pick(&self.sources), *random.pick(&self.destinations))
    }
}

/// The free ports of each node of a ring; node 0 is no node.
struct Ports {
    nodes: u8,
    transmitters_left: [u32; NODES_MOST as usize + 1],
    receivers_left: [u32; NODES_MOST as usize + 1],
}

impl Ports {
    fn of(table: &Table) -> Ports {
        let mut free = [0; NODES_MOST as usize + 1];
        for node in 1..=table.nodes {
            free[usize::from(node)] = table.ports_at(node);
        }
        let mut ports = Ports { nodes: table.nodes, transmitters_left: free, receivers_left: free };
        for circuit in table.circuits() {
            ports.transmitters_left[usize::from(circuit.source)] -= 1;
            ports.receivers_left[usize::from(circuit.destination)] -= 1;
        }
        ports
    }

    /// The nodes with a free transmitter.
    fn free_senders(&self) -> Vec<u8> {
        self.nodes(|node| self.transmitters_left[node] > 0)
    }

    /// The nodes with a free receiver.
    fn free_receivers(&self) -> Vec<u8> {
        self.nodes(|node| self.receivers_left[node] > 0)
    }

    fn nodes(&self, wanted: impl Fn(usize) -> bool) -> Vec<u8> {
        (1..=self.nodes).filter(|&node| wanted(usize::from(node))).collect()
    }
}

pub fn some_of<T: Copy>(items: &[T], random: &mut Random) -> Option<T> {
    if items.is_empty() {
        None
    } else {
        Some(*random.pick(items))
    }
}

pub fn any_node(table: &Table, random: &mut Random) -> u8 {
    random.between(1, usize::from(table.nodes).max(1)) as u8
}

pub fn off_ring(table: &Table, random: &mut Random) -> u8 {
    let above = usize::from(table.nodes) + 1;
    match random.below(4) {
        0 => 0,
        1 => above as u8,
        2 => 255,
        _ => random.between(above, 255) as u8,
    }
}

/// A circuit whose number is not live.
pub fn new_circuit(table: &Table, source: u8, destination: u8, random: &mut Random) -> Circuit {
    let number = free_number(table, random);
    Circuit { number, source, destination, remark: remark(random), account: account(random) }
}

fn remark(random: &mut Random) -> u16 {
    match random.below(8) {
        0 => u16::MAX,
        1 | 2 => random.between(1, usize::from(u16::MAX)) as u16,
        _ => 0,
    }
}

/// Mostly none or one of a few accounts that come again, but every size of account, and such as
/// have all their ones in one byte.
fn account(random: &mut Random) -> u32 {
    match random.below(16) {
        0 => u32::MAX,
        1 => 1 << *random.pick(&[8, 16, 24, 31]),
        2 => random.draw() as u32,
        3..=8 => random.between(1, 40) as u32,
        _ => 0,
    }
}

/// Small numbers mostly, so that numbers come again, but every size of number.
fn number(random: &mut Random) -> u32 {
    match random.below(16) {
        0 => 0,
        1 => u32::MAX - random.below(3) as u32,
        2..=5 => random.draw() as u32,
        _ => random.below(600) as u32,
    }
}

fn live_number(table: &Table, random: &mut Random) -> Option<u32> {
    let live: Vec<u32> = table.circuits().map(|circuit| circuit.number).collect();
    some_of(&live, random)
}

pub fn free_number(table: &Table, random: &mut Random) -> u32 {
    loop {
        let number = number(random);
        if table.place_of(number).is_none() {
            return number;
        }
    }
}
