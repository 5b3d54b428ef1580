//! What lookups by node and lists of all nodes reach.

use super::events::events;
use super::{Coverage, Event};
use crate::lines::words;
use crate::lookup::NodeUse;
use crate::plan::{parse, Answer, Command, Question};
use crate::refusal::Refusal;
use crate::table::{Channel, Lightpath, Table, NODES_MOST, NODE_PORTS_MOST};
use LookupEvent::*;
use NodesEvent::*;

/// The event that a sort is, of the circuits from a node or of those to it.
type End = fn(LookupEvent) -> Event;

events! {
    /// What a lookup can show, of the circuits from a node or of those to it; the first word of the
    /// line, `from` or `to`, tells which.
    pub enum LookupEvent(first: &str) {
        /// Every one, in the order of the report.
        all {
            Found => "{first}";
            NoCircuit => "  of these: no circuit";
            /// No circuit, though the ring has some.
            NoCircuitOfSome => "  of these: no circuit, though other nodes have some";
            OneCircuit => "  of these: one circuit";
            SeveralCircuits => "  of these: several circuits";
            /// The order by number is not that by place.
            PlaceFalls => "  of these: a higher number at a lower place";
            /// Several circuits, as many as the node has ports.
            EveryPort => "  of these: several circuits, as many as the node has ports";
            /// 64 circuits, the most that a node sends or receives.
            MostCircuits => "  of these: 64 circuits";
            /// Node N, with a circuit.
            LastNode => "  of these: node N, with a circuit";
            /// 64 nodes, with a circuit.
            LargestRing => "  of these: 64 nodes, with a circuit";
            /// One of the circuits is one of two at its place.
            OneOfTwo => "  of these: a circuit is one of two at its place";
            /// One of the circuits was moved on the present table.
            AfterMove => "  of these: a circuit was moved before";
            /// A circuit of the node was closed on the present table, and there is another.
            AfterClosing => "  of these: with a circuit, and one of the node was closed before";
            Refused(number: u8) in [10] => "{first} refused {number}";
            RefusedZero => "  of these: node 0";
            /// Refused, with node N + 1.
            RefusedNext => "  of these: node N + 1";
            /// Refused, with node 255.
            RefusedWidest => "  of these: node 255";
            /// A refused line: the first word alone.
            NoNode => "line refused: {first} without a node";
            /// A refused line: more than one word after the first.
            WordAfter => "line refused: {first} with a word after the node";
            OddNode => "line refused: {first} with a node that has a sign or is no number";
            WideNode => "line refused: {first} with a node above 255";
        }
    }
}

events! {
    /// What a list of all nodes can show.
    pub enum NodesEvent {
        /// Every one, in the order of the report.
        all {
            Listed => "nodes";
            /// The ring has no circuit.
            NoneOnRing => "  of these: no circuit";
            /// 64 nodes, with a circuit.
            OfLargestRing => "  of these: 64 nodes, with a circuit";
            /// A node has no port.
            WithoutPort => "  of these: a node has no port";
            /// Every transmitter of a node is taken, and not every receiver.
            SendersTaken => "  of these: every transmitter of a node is taken, not every receiver";
            /// Every receiver of a node is taken, and not every transmitter.
            ReceiversTaken => "  of these: every receiver of a node is taken, not every transmitter";
            /// A circuit was moved or closed on the present table.
            AfterChange => "  of these: a circuit was moved or closed before";
            /// A refused line: `nodes` with a word after it.
            NodesWordAfter => "line refused: nodes with a word after it";
        }
    }
}

impl Coverage {
    /// Counts a well-formed lookup.
    pub(super) fn saw_lookup(&mut self, line: &[u8], answer: &Answer, table: &Table) {
        self.saw_numbers(line);
        match (parse(line), answer) {
            (_, Answer::From { node, lightpaths }) => {
                let was_closed = self.closed_from.contains(node);
                self.saw_found(table, *node, lightpaths, was_closed, Event::Lookup);
            }
            (_, Answer::To { node, lightpaths }) => {
                let was_closed = self.closed_to.contains(node);
                self.saw_found(table, *node, lightpaths, was_closed, Event::Received);
            }
            (Some(Command::Ask(Question::From { node })), Answer::FromRefused(refusal)) => {
                self.saw_off_ring(table, node, refusal, Event::Lookup);
            }
            (Some(Command::Ask(Question::To { node })), Answer::ToRefused(refusal)) => {
                self.saw_off_ring(table, node, refusal, Event::Received);
            }
            _ => unreachable!("the line looks a node up"),
        }
    }

    fn saw_off_ring(&mut self, table: &Table, node: u8, refusal: &Refusal, end: End) {
        self.saw(end(Refused(refusal.number())));
        self.saw_if(node == 0, end(RefusedZero));
        self.saw_if(node == table.nodes + 1, end(RefusedNext));
        self.saw_if(node == u8::MAX, end(RefusedWidest));
    }

    /// Counts what was found by how many circuits it is, and where they stand.
    fn saw_found(
        &mut self,
        table: &Table,
        node: u8,
        found: &[Lightpath],
        was_closed: bool,
        end: End,
    ) {
        self.saw(end(Found));
        self.saw(end(sort_of_count(found.len())));
        if found.is_empty() {
            self.saw_if(table.circuits().next().is_some(), end(NoCircuitOfSome));
            return;
        }
        let is_full = found.len() == table.ports_at(node) as usize;
        let one_of_two =
            |old: &Lightpath| matches!(table.channels[old.place.index()], Channel::Two(..));
        let was_moved = found.iter().any(|old| self.moved.contains(&old.circuit.number));
        self.saw_if(found.windows(2).any(|two| two[1].place < two[0].place), end(PlaceFalls));
        self.saw_if(found.len() > 1 && is_full, end(EveryPort));
        self.saw_if(found.len() == usize::from(NODE_PORTS_MOST), end(MostCircuits));
        self.saw_if(node == table.nodes, end(LastNode));
        self.saw_if(table.nodes == NODES_MOST, end(LargestRing));
        self.saw_if(found.iter().any(one_of_two), end(OneOfTwo));
        self.saw_if(was_moved, end(AfterMove));
        self.saw_if(was_closed, end(AfterClosing));
    }

    /// Counts a list of all nodes.
    pub(super) fn saw_nodes(&mut self, nodes: &[NodeUse]) {
        let has_circuit = nodes.iter().any(|node| node.sends > 0);
        let takes = |node: &NodeUse| {
            let ports = node.ports as usize;
            (node.sends == ports, node.receives == ports)
        };
        let is_changed = !self.moved.is_empty() || !self.closed_from.is_empty();
        self.saw(Event::Nodes(Listed));
        self.saw_if(!has_circuit, Event::Nodes(NoneOnRing));
        let is_largest = nodes.len() == usize::from(NODES_MOST);
        self.saw_if(is_largest && has_circuit, Event::Nodes(OfLargestRing));
        self.saw_if(nodes.iter().any(|node| node.ports == 0), Event::Nodes(WithoutPort));
        let senders_taken = nodes.iter().any(|node| takes(node) == (true, false));
        self.saw_if(senders_taken, Event::Nodes(SendersTaken));
        let receivers_taken = nodes.iter().any(|node| takes(node) == (false, true));
        self.saw_if(receivers_taken, Event::Nodes(ReceiversTaken));
        self.saw_if(is_changed, Event::Nodes(AfterChange));
    }
}

fn sort_of_count(count: usize) -> LookupEvent {
    match count {
        0 => NoCircuit,
        1 => OneCircuit,
        _ => SeveralCircuits,
    }
}

/// The sort of a lookup that is not well formed.
pub(super) fn sort_of_odd_lookup(line: &[u8]) -> Option<Event> {
    let words: Vec<&[u8]> = words(line).collect();
    let (first, others) = words.split_first()?;
    let end: End = match *first {
        b"from" => Event::Lookup,
        b"to" => Event::Received,
        b"nodes" if !others.is_empty() => return Some(Event::Nodes(NodesWordAfter)),
        _ => return None,
    };
    Some(end(match others {
        [] => NoNode,
        [node] if node.iter().all(u8::is_ascii_digit) => WideNode,
        [_] => OddNode,
        _ => WordAfter,
    }))
}
