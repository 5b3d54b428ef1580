//! A node of the ring's drawing, with its transmitters and receivers.

use std::fmt::Write;

use crate::drawing::tenth;
use crate::ring::Layout;
use crate::table::Table;

pub fn draw(out: &mut String, table: &Table, node: u8, layout: &Layout) {
    let ports = usize::from(table.ports[usize::from(node) - 1]);
    let (sent, received) = (table.sent_from(node).len(), table.received_at(node).len());
    let angle = layout.angle(node.into());
    let (x, y) = layout.point(layout.rim, angle);
    let disc = layout.disc();
    let _ = writeln!(
        out,
        "<g class=\"node\"><title>node {node}: {sent} of {ports} transmitters in use, {received} of \
         {ports} receivers in use</title><circle cx=\"{0}\" cy=\"{1}\" r=\"{2}\"/>\
         <text class=\"mid strong\" x=\"{0}\" y=\"{1}\" dy=\"0.35em\" font-size=\"{2}\">{node}</text>",
        tenth(x),
        tenth(y),
        tenth(disc)
    );
    let unit = layout.unit;
    let (x, _) = layout.point(layout.rim + disc + 38.0 * unit, angle);
    let (_, y) = layout.point(layout.rim + disc + 24.0 * unit, angle);
    if ports <= 4 && table.nodes() <= 16 {
        let row =
            |letter, used, pip, up: f64| pips(letter, used, ports, pip, (x, y + up * unit), unit);
        out.push_str(&row("T", sent, TRIANGLE, -2.0));
        out.push_str(&row("R", received, SQUARE, 14.0));
    } else {
        for (letter, used, up) in [("T", sent, -2.0), ("R", received, 10.0)] {
            let _ = writeln!(
                out,
                "<text class=\"mid\" x=\"{}\" y=\"{}\" font-size=\"{}\">{letter} {used}/{ports}</text>",
                tenth(x),
                tenth(y + up * unit),
                tenth(11.0 * unit)
            );
        }
    }
    out.push_str("</g>\n");
}

const TRIANGLE: &[(f64, f64)] = &[(0.0, 0.0), (4.5, -9.0), (9.0, 0.0)];
const SQUARE: &[(f64, f64)] = &[(0.5, 0.0), (0.5, -8.0), (8.5, -8.0), (8.5, 0.0)];

/// A row of a node's ports of one kind: those in use filled, the free ones hollow.
fn pips(
    letter: &str,
    used: usize,
    ports: usize,
    shape: &[(f64, f64)],
    (x, y): (f64, f64),
    unit: f64,
) -> String {
    let left = x - unit * (12.0 + 12.0 * ports as f64) / 2.0;
    let mut out = format!(
        "<text x=\"{}\" y=\"{}\" font-size=\"{}\">{letter}</text>",
        tenth(left),
        tenth(y),
        tenth(11.0 * unit)
    );
    for port in 0..ports {
        let class = if port < used { "used" } else { "free" };
        let start = left + unit * (12.0 + 12.0 * port as f64);
        let points: Vec<String> = shape
            .iter()
            .map(|(dx, dy)| format!("{},{}", tenth(start + unit * dx), tenth(y + unit * dy)))
            .collect();
        let _ = writeln!(out, "<polygon class=\"{class}\" points=\"{}\"/>", points.join(" "));
    }
    out
}
