//! The links that a drawing shows, read off its coordinates, against those of the answer to
//! `circuits`. Nothing here uses the page's own idea of which links a circuit uses.

use std::collections::BTreeMap;
use std::f64::consts::PI;

use ringpage::chart::Layout;
use ringpage::table::Table;

use super::xml::{parse, Element};

/// The links of each circuit by number, rising.
pub type Links = BTreeMap<u32, Vec<u8>>;

/// The links from a source to a destination, node by node: even places go clockwise.
pub fn walk(nodes: u8, source: u8, destination: u8, place: u8) -> Vec<u8> {
    let mut links = Vec::new();
    let mut node = source;
    while node != destination {
        let next = node % nodes + 1;
        let last = if node == 1 { nodes } else { node - 1 };
        let (link, reached) = match place % 2 {
            0 => (node, next),
            _ => (last, last),
        };
        links.push(link);
        node = reached;
    }
    links.sort_unstable();
    links
}

/// The links of each line of the answer to `circuits`.
pub fn answered(nodes: u8, circuits: &[String]) -> Links {
    let row = |line: &String| {
        let words: Vec<&str> = line.split(' ').collect();
        let number = |word: &str| {
            let position = words.iter().position(|&found| found == word).expect("a word");
            words[position + 1].parse::<u32>().expect("a number")
        };
        let byte = |word| number(word) as u8;
        (number("circuit"), walk(nodes, byte("from"), byte("to"), byte("place")))
    };
    circuits[1..].iter().map(row).collect()
}

/// The links of each arc of a ring's drawing.
pub fn arcs(nodes: u8, ring: &str) -> Links {
    let elements = parse(ring).expect("well-formed");
    let size: f64 = number(elements[0].attribute("viewBox").split(' ').nth(2).expect("a width"));
    let paths = elements.iter().filter(|found| found.name == "path" && found.has("data-circuit"));
    paths.map(|path| (circuit(path), covered(nodes, size / 2.0, path.attribute("d")))).collect()
}

/// A path `Mx yAr r 0 large sweep x y`: the links whose middle it passes.
fn covered(nodes: u8, centre: f64, path: &str) -> Vec<u8> {
    let spaced = path.replace(['M', 'A'], " ");
    let numbers: Vec<f64> = spaced.split_whitespace().map(number).collect();
    let [x, y, _, _, _, large, sweep, to_x, to_y] = numbers[..] else { panic!("an arc: {path}") };
    let turn = |from: f64, to: f64| (to - from).rem_euclid(2.0 * PI);
    let angle = |x: f64, y: f64| (y - centre).atan2(x - centre);
    let (first, last) = match sweep as u8 {
        1 => (angle(x, y), angle(to_x, to_y)),
        _ => (angle(to_x, to_y), angle(x, y)),
    };
    assert_eq!(large == 1.0, turn(first, last) > PI, "the larger arc: {path}");
    let middle = |link: &u8| 2.0 * PI * (f64::from(*link) - 0.5) / f64::from(nodes) - PI / 2.0;
    (1..=nodes).filter(|link| turn(first, middle(link)) < turn(first, last)).collect()
}

/// The links of each circuit's cells in a chart.
pub fn cells(table: &Table, chart: &str) -> Links {
    let layout = Layout::of(table);
    let mut links = Links::new();
    for run in parse(chart).expect("well-formed") {
        if run.name == "rect" && run.has("data-circuit") {
            let at = |name| number(run.attribute(name));
            let left = (at("x") - layout.left) / layout.cell;
            let right = left + at("width") / layout.cell;
            let middle = |link: &u8| f64::from(*link) - 0.5;
            let within = (1..=table.nodes()).filter(|l| (left..right).contains(&middle(l)));
            links.entry(circuit(&run)).or_default().extend(within);
        }
    }
    links.values_mut().for_each(|found| found.sort_unstable());
    links
}

fn circuit(element: &Element) -> u32 {
    element.attribute("data-circuit").parse().expect("a circuit's number")
}

fn number(text: &str) -> f64 {
    text.parse().unwrap_or_else(|_| panic!("no number: {text}"))
}
