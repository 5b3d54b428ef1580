//! Rings to generate: their nodes and ports, and rings that are refused.

use super::Kind;
use crate::random::Random;
use crate::script::Request;
use crate::table::{NODES_LEAST, NODES_MOST, NODE_PORTS_MOST, RING_PORTS_MOST};

#[derive(Clone, Copy, PartialEq, Eq, Debug)]
pub enum Shape {
    /// 3 to 8 nodes, 0 to 6 ports each.
    Small,
    /// Any number of nodes and ports.
    Middling,
    /// 64 nodes and 192 ports.
    Large,
    /// 16 nodes of 4 ports.
    Light,
}

impl Shape {
    pub fn choose(kind: Kind, random: &mut Random) -> Shape {
        match kind {
            Kind::Small => Shape::Small,
            Kind::Large | Kind::Forms => Shape::Large,
            // Small rings stay for fewer lines, so they come more often.
            Kind::Mixed => match random.below(8) {
                0 => Shape::Large,
                1 => Shape::Middling,
                _ => Shape::Small,
            },
            Kind::Light => Shape::Light,
        }
    }

    /// For how many lines of traffic the ring stays.
    pub fn stay(self, kind: Kind, random: &mut Random) -> usize {
        match self {
            Shape::Small => random.between(10, 150),
            Shape::Middling => random.between(100, 800),
            Shape::Large if kind == Kind::Large => random.between(1000, 6000),
            Shape::Large => random.between(400, 1600),
            Shape::Light => usize::MAX,
        }
    }

    /// The ports of each node of a new ring.
    pub fn ports(self, random: &mut Random) -> Vec<u8> {
        match self {
            Shape::Small => small(random),
            Shape::Middling => middling(random),
            Shape::Large => large(random),
            Shape::Light => vec![4; 16],
        }
    }
}

pub fn request(ports: Vec<u8>) -> Request {
    Request::Ring { nodes: ports.len() as u8, ports }
}

fn small(random: &mut Random) -> Vec<u8> {
    let nodes = random.between(3, 8);
    match random.below(5) {
        0 => vec![1; nodes],
        1 => vec![random.between(1, 3) as u8; nodes],
        2 => (0..nodes).map(|_| random.between(0, 3) as u8).collect(),
        3 => (0..nodes).map(|_| random.between(1, 2) as u8).collect(),
        _ => (0..nodes).map(|_| random.between(2, 6) as u8).collect(),
    }
}

fn middling(random: &mut Random) -> Vec<u8> {
    let nodes = random.between(usize::from(NODES_LEAST), usize::from(NODES_MOST));
    let ring_ports = random.between(0, RING_PORTS_MOST as usize);
    scattered(nodes, nodes, ring_ports, random)
}

/// The ports even, scattered, or at some of the nodes only.
fn large(random: &mut Random) -> Vec<u8> {
    let nodes = usize::from(NODES_MOST);
    let ring_ports = RING_PORTS_MOST as usize;
    match random.below(3) {
        0 => even(nodes),
        1 => scattered(nodes, nodes, ring_ports, random),
        _ => {
            let hubs = random.between(3, nodes);
            scattered(nodes, hubs, ring_ports, random)
        }
    }
}

/// The most ports that a ring may have, spread evenly; those left over are at the first nodes.
pub fn even(nodes: usize) -> Vec<u8> {
    let ring_ports = RING_PORTS_MOST as usize;
    let (each, left_over) = (ring_ports / nodes, ring_ports % nodes);
    (0..nodes).map(|node| (each + usize::from(node < left_over)) as u8).collect()
}

/// The ring's ports thrown one by one on nodes of which only so many take any.
fn scattered(nodes: usize, hubs: usize, ring_ports: usize, random: &mut Random) -> Vec<u8> {
    let most = (hubs * usize::from(NODE_PORTS_MOST)).min(ring_ports);
    let first = random.below(nodes);
    let mut ports = vec![0; nodes];
    let mut thrown = 0;
    while thrown < most {
        let node = (first + random.below(hubs) * (nodes / hubs)) % nodes;
        if ports[node] < NODE_PORTS_MOST {
            ports[node] += 1;
            thrown += 1;
        }
    }
    ports
}

/// A well-formed ring line that is refused with 1, 2 or 3.
pub fn refused(random: &mut Random) -> Request {
    match random.below(7) {
        0 => wrong_nodes(random),
        1 | 2 => wrong_length(random),
        3 | 4 => wide_port(random),
        _ => many_ports(random),
    }
}

fn wrong_nodes(random: &mut Random) -> Request {
    let nodes = *random.pick(&[0, 1, 2, 65, 66, 128, 255]);
    let length = *random.pick(&[0, 1, 2, 3, usize::from(nodes)]);
    let port = *random.pick(&[0, 1, 9, 65]);
    Request::Ring { nodes, ports: vec![port; length.min(100)] }
}

fn wrong_length(random: &mut Random) -> Request {
    let mut ports = middling(random);
    let nodes = ports.len() as u8;
    match random.below(4) {
        0 => ports.clear(),
        1 => ports.push(random.between(0, 255) as u8),
        _ => ports.truncate(random.below(ports.len())),
    }
    Request::Ring { nodes, ports }
}

fn wide_port(random: &mut Random) -> Request {
    let mut ports = if random.percent(50) { small(random) } else { middling(random) };
    let node = random.below(ports.len());
    ports[node] = *random.pick(&[65, 66, 100, 193, 255]);
    request(ports)
}

/// 193 ports or more, none of the nodes having over 64.
fn many_ports(random: &mut Random) -> Request {
    let nodes = random.between(4, usize::from(NODES_MOST));
    let most = nodes * usize::from(NODE_PORTS_MOST);
    let ring_ports = match random.below(3) {
        0 => 193,
        1 => random.between(193, 256.min(most)),
        _ => random.between(193, most),
    };
    request(scattered(nodes, nodes, ring_ports, random))
}
