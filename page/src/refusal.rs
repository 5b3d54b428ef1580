//! Refusals in words: what each means, and what a desk does next.

use std::fmt::Display;
use std::str::FromStr;

use crate::step::Step;
use crate::table::{Circuit, Table};
use crate::words::{capital, count, frequency, listed, Telling};

/// The words of an opening: `open` and its five numbers.
const OPENING_WORDS: usize = 6;

/// The words of a line that names a plan of frequencies: `frequency` or `wavelength` and its three
/// numbers.
const PLAN_WORDS: usize = 4;

/// A line that is no request.
pub fn tell_line(step: &Step) -> Telling {
    let first = step.words()[0];
    let words = step.request.split_whitespace().count();
    let (reason, next) = match step.before {
        None if !matches!(first, "frequency" | "wavelength") => (
            "No ring is lit yet, so only a line that lights or reads one, or asks for a frequency \
             or its wavelength, can be taken.",
            "Light a ring first, or correct the line.",
        ),
        Some(_) if first == "open" && words != OPENING_WORDS => (
            "An opening has five numbers: the circuit's own, its source, its destination, its \
             remark and its account. A remark or account of 0 is none.",
            "Correct the line.",
        ),
        Some(_) if first == "tidy" => (
            "Tidying takes the whole ring as it is: nothing stands after the word, not even a space.",
            "Correct the line.",
        ),
        _ => (
            "It may have a misspelt word, two spaces, a word too many or too few, a sign, point or \
             comma that may not stand there, a number too wide for its field, or too many bytes.",
            "Correct the line.",
        ),
    };
    Telling {
        point: "The line is no request, so nothing was done.".into(),
        reasons: vec![reason.into()],
        next: Some(next.into()),
    }
}

/// A request refused by its number in document 01.
pub fn tell(step: &Step, number: u32) -> Telling {
    let (point, next) = match (step.words()[0], number) {
        ("ring", _) => ring(step, number),
        ("read", _) => form(number),
        ("link", _) => link(step, number),
        ("frequency" | "wavelength", _) => plan(step, number),
        _ => order(step, number),
    };
    Telling {
        point,
        reasons: vec![format!("Refusal {number}. A refused request changes nothing.")],
        next: Some(next.into()),
    }
}

type Told = (String, &'static str);

fn ring(step: &Step, number: u32) -> Told {
    let ports: Vec<u32> = (2..step.words().len()).filter_map(|word| step.asked(word)).collect();
    match number {
        1 => (
            format!(
                "A ring has 3 to 64 nodes and a port count for each; this line has {} and {}.",
                count(step.asked(1).unwrap_or(0) as usize, "node"),
                count(ports.len(), "port count")
            ),
            "Count the port counts.",
        ),
        2 => (
            match ports.iter().position(|&ports| ports > 64) {
                Some(index) => {
                    format!("Node {} has {} ports; 64 is the most.", index + 1, ports[index])
                }
                None => "A port count is above 64.".into(),
            },
            "Split the node, or correct the count.",
        ),
        _ => (
            format!("All {} ports together are above 192.", ports.iter().sum::<u32>()),
            "Take fewer ports, or a second ring.",
        ),
    }
}

fn form(number: u32) -> Told {
    let what = match number {
        1 => "The saved form is of a ring that has not 3 to 64 nodes.",
        2 => "The saved form has a port count above 64.",
        3 => "The ports of the saved form are together above 192.",
        30 => "The saved form is cut short.",
        31 => "The saved form has a field with a value that is not allowed.",
        32 => "The saved form goes on after its last record.",
        _ => "The saved form breaks a ring rule.",
    };
    (what.into(), "Ask for the form again, from whoever saved it.")
}

fn link(step: &Step, number: u32) -> Told {
    let word = |position: usize| step.words().get(position).copied().unwrap_or("").to_string();
    match number {
        10 => (format!("There is no link {} on this ring.", word(1)), "Look up the link's number."),
        16 => (
            format!("There is no wavelength {} on this ring.", word(2)),
            "Look up the wavelength's number.",
        ),
        _ => (
            format!("There is no direction {}.", word(3)),
            "Ask for 0, clockwise, or 1, counterclockwise.",
        ),
    }
}

fn plan(step: &Step, number: u32) -> Told {
    match number {
        41 => (
            format!("The spacing{} is not 125, 250, 500 or 1000.", aside(planned::<u32>(step, 1))),
            "Write it in counts of 100 MHz: 50 GHz is 500, and 50 is refused.",
        ),
        42 => (
            format!("The starting n{} is not -200 to 200.", aside(planned::<i32>(step, 2))),
            "Look the plan up; to begin further from 193.1 THz, take a wider spacing.",
        ),
        16 => (
            format!("The wavelength{} is above 63.", aside(planned::<u32>(step, 3))),
            "Look up the wavelength's number; if this is a place, halve it and round down.",
        ),
        _ => (
            format!(
                "The frequency{} is that of no wavelength of the plan: it is below the plan, above \
                 it, or between two of its points.",
                aside(planned(step, 3).map(frequency))
            ),
            "Look up spacing and start, or measure again; another ring may have another plan.",
        ),
    }
}

/// A number of a line that names a plan; nothing where the line is too long to be shown whole.
fn planned<T: FromStr>(step: &Step, position: usize) -> Option<T> {
    let words = step.words();
    words.get(position).filter(|_| words.len() == PLAN_WORDS)?.parse().ok()
}

fn aside<T: Display>(said: Option<T>) -> String {
    said.map_or_else(String::new, |said| format!(", {said},"))
}

fn order(step: &Step, number: u32) -> Told {
    let asked = |position: usize| step.asked(position).unwrap_or(0);
    let (circuit, source, destination) = (asked(1), asked(2), asked(3));
    let table = step.before.as_deref();
    match number {
        10 => (off_ring(source, destination, table), "Look up the site's node number."),
        11 => (
            format!("The circuit would begin and end at the same node, {source}."),
            "Correct the order.",
        ),
        12 => (
            format!("A circuit {circuit} is running already{}.", ends(circuit, table)),
            "Take another number, or close that circuit first.",
        ),
        13 => (
            all_busy("transmitter", source, "", &users(table, source, Table::sent_from)),
            "Offer another source, or wait until a circuit from there is closed.",
        ),
        14 => (
            all_busy(
                "receiver",
                destination,
                "The far end is busy: ",
                &users(table, destination, Table::received_at),
            ),
            "Offer another destination, or wait until a circuit to there is closed.",
        ),
        15 => (format!("No running circuit has the number {circuit}."), "Look the number up."),
        _ => (format!("The request was refused by {number}."), "Look the number up."),
    }
}

fn off_ring(source: u32, destination: u32, table: Option<&Table>) -> String {
    let nodes = table.map_or(0, |table| u32::from(table.nodes()));
    let off: Vec<u32> =
        [source, destination].into_iter().filter(|node| !(1..=nodes).contains(node)).collect();
    let nodes_off = if off.len() == 1 { "Node" } else { "Nodes" };
    let are = if off.len() == 1 { "is" } else { "are" };
    format!("{nodes_off} {} {are} not on the ring, which has nodes 1 to {nodes}.", listed(&off))
}

fn ends(number: u32, table: Option<&Table>) -> String {
    table.and_then(|table| table.find(number)).map_or_else(String::new, |circuit| {
        format!(", from node {} to node {}", circuit.source, circuit.destination)
    })
}

/// The numbers of the circuits that use a node's ports of one kind.
fn users(table: Option<&Table>, node: u32, of: fn(&Table, u8) -> Vec<&Circuit>) -> Vec<u32> {
    let circuits = table.zip(u8::try_from(node).ok()).map(|(table, node)| of(table, node));
    circuits.unwrap_or_default().iter().map(|circuit| circuit.number).collect()
}

/// A node without a free port of one kind, and who uses them.
fn all_busy(port: &str, node: u32, lead: &str, users: &[u32]) -> String {
    let busy = match users.len() {
        0 => format!("node {node} has no {port} at all"),
        1 => format!("{lead}node {node} has one {port}, and circuit {} uses it", users[0]),
        2 => format!("{lead}both {port}s at node {node} are in use, by circuits {}", listed(users)),
        all @ 3..=6 => format!(
            "{lead}all {all} {port}s at node {node} are in use, by circuits {}",
            listed(users)
        ),
        all => format!("{lead}all {all} {port}s at node {node} are in use"),
    };
    format!(
        "{}. This is not a full ring: a ring is never full while both ends have a free port.",
        capital(&busy)
    )
}
