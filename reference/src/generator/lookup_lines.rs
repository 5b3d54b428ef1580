//! Lookups by node: of nodes with several circuits, one or none, of nodes off the ring, and such
//! lines spoilt; and lists of all nodes.

use super::opened::opened;
use super::plan_lines::read;
use super::traffic::{any_node, off_ring, some_of};
use super::{Generator, Kind};
use crate::circuit::Circuit;
use crate::form::form_of;
use crate::random::Random;
use crate::table::Table;

impl Generator {
    pub(super) fn lookup_line(&mut self) -> Vec<u8> {
        match self.random.below(100) {
            0..=24 => self.bad_lookup_line(),
            28..=45 => b"nodes".to_vec(),
            25..=27 if self.kind == Kind::Mixed => self.read_to_look_up(),
            _ => {
                let line = self.lookup();
                self.at_times_with_zeros(line)
            }
        }
    }

    /// The form of a ring with few nodes that have many circuits each; the line after it looks one
    /// of them up.
    fn read_to_look_up(&mut self) -> Vec<u8> {
        let nodes = *self.random.pick(&[3, 3, 4, 6]);
        let circuits = *self.random.pick(&[192, 192, 191, 150]);
        let node = self.random.between(1, usize::from(nodes));
        let end = end(&mut self.random);
        self.following = Some(format!("{} {node}", end.word()).into_bytes());
        read(&form_of(&opened(nodes, circuits, &mut self.random)))
    }

    /// A well-formed line, in a quarter refused for its node.
    pub(super) fn lookup(&mut self) -> Vec<u8> {
        let before_any_ring = Table::blank();
        let table = self.planner.table().unwrap_or(&before_any_ring);
        let end = end(&mut self.random);
        let node = if self.random.percent(25) {
            off_ring(table, &mut self.random)
        } else {
            node_on_ring(table, end, &mut self.random)
        };
        format!("{} {node}", end.word()).into_bytes()
    }

    /// A lookup that is refused, whatever its node is.
    fn bad_lookup_line(&mut self) -> Vec<u8> {
        let line = String::from_utf8(self.lookup()).expect("the line has letters and digits only");
        let (first, node) = line.split_once(' ').expect("the line has two words");
        let node = node.to_string();
        let mut line = format!("{first} ").into_bytes();
        let word = match self.random.below(22) {
            0 | 1 => return first.as_bytes().to_vec(),
            20 | 21 => return format!("nodes {node}").into_bytes(),
            2..=4 => node + *self.random.pick(&[" 0", " 1", " 1 2", " x", " circuits", " -"]),
            5..=9 => odd_node(&node, &mut self.random),
            10..=15 => wide_node(&node, &mut self.random),
            16 | 17 => {
                let others = ["From", "TO", "fro", "froms", "form", "too", "node", "circuit"];
                return format!("{} {node}", self.random.pick(&others)).into_bytes();
            }
            _ => {
                line.extend(node.bytes());
                return self.long_or_spaced(line);
            }
        };
        line.extend(word.bytes());
        line
    }
}

/// The end of circuits at which a node is looked up.
#[derive(Clone, Copy)]
enum End {
    Source,
    Destination,
}

impl End {
    /// The first word of a line that looks a node up at this end.
    fn word(self) -> &'static str {
        match self {
            End::Source => "from",
            End::Destination => "to",
        }
    }

    fn node(self, circuit: Circuit) -> u8 {
        match self {
            End::Source => circuit.source,
            End::Destination => circuit.destination,
        }
    }
}

fn end(random: &mut Random) -> End {
    *random.pick(&[End::Source, End::Destination])
}

/// Any node of the ring, or one with no circuit at this end, one, or several, if there is such a
/// node.
fn node_on_ring(table: &Table, end: End, random: &mut Random) -> u8 {
    let at = |node: u8| table.circuits().filter(|&circuit| end.node(circuit) == node).count();
    let wanted = match random.below(8) {
        0 => 0..=0,
        1 => 1..=1,
        2..=5 => 2..=usize::MAX,
        _ => 0..=usize::MAX,
    };
    let nodes: Vec<u8> = (1..=table.nodes).filter(|&node| wanted.contains(&at(node))).collect();
    some_of(&nodes, random).unwrap_or_else(|| any_node(table, random))
}

/// What has a sign or is no number.
fn odd_node(node: &str, random: &mut Random) -> String {
    match random.below(5) {
        0 => format!("-{node}"),
        1 => format!("+{node}"),
        2 => format!("{node}{}", random.pick(&["-", ".0", ",1", "x", "..3"])),
        3 => format!("0x{node}"),
        _ => random.pick(&["-", "-0", "x", "a", "@", "*", "all", "node"]).to_string(),
    }
}

/// A node above 255: the first ones, one that is good but for higher bits, or far more digits.
fn wide_node(node: &str, random: &mut Random) -> String {
    let value: u128 = node.parse().expect("the word has digits only");
    match random.below(6) {
        0 | 1 => "256".to_string(),
        2 => random.between(257, 999).to_string(),
        3 => (value + (1 << *random.pick(&[8, 9, 16, 31, 32, 63, 64]))).to_string(),
        4 => format!("{:0>30}", value + 256),
        _ => "9".repeat(random.between(3, 200)),
    }
}
