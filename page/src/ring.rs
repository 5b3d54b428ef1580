//! The ring: nodes round a circle, a radius for each place, an arc for each lightpath.

use std::f64::consts::PI;
use std::fmt::Write;

use crate::drawing::{class_of, escaped, named, tenth, Drawing, View};
use crate::nodes;
use crate::table::{Circuit, Direction, Table};
use crate::words::count;

/// Where things stand. Place 0 is outermost, and the two places of a wavelength are neighbours.
pub struct Layout {
    nodes: f64,
    /// From one place's radius to the next, without the gap between wavelengths.
    spacing: f64,
    /// The radius of place 0.
    outer: f64,
    /// The radius on which the nodes stand.
    pub rim: f64,
    /// By how much nodes and texts grow on a large ring, which is shown at the same size.
    pub unit: f64,
}

const GAP: f64 = 0.35;
const INNER: f64 = 60.0;
/// The least spacing at which every circuit is labelled, and at which the places' circles are drawn.
const LABEL_SPACING: f64 = 13.0;
const TRACK_SPACING: f64 = 8.0;

impl Layout {
    pub fn of(table: &Table) -> Layout {
        let places = f64::from(table.places());
        let nodes = f64::from(table.nodes());
        let spacing = (300.0 / places.max(1.0)).clamp(5.0, 26.0);
        let depth = places * spacing * (1.0 + GAP / 2.0);
        let outer = (INNER + depth).max(8.0 * nodes).max(190.0);
        let unit = (outer / 300.0).max(1.0);
        Layout { nodes, spacing, outer, rim: outer + 34.0 * unit, unit }
    }

    pub fn size(&self) -> f64 {
        2.0 * (self.rim + 88.0 * self.unit)
    }

    pub fn radius(&self, place: u8) -> f64 {
        let gaps = f64::from(place / 2) * GAP;
        self.outer - self.spacing * (f64::from(place) + gaps)
    }

    /// The angle of a node, or of a point between two: node 1 is at the top, and angles grow
    /// clockwise.
    pub fn angle(&self, node: f64) -> f64 {
        2.0 * PI * (node - 1.0) / self.nodes - PI / 2.0
    }

    pub fn point(&self, radius: f64, angle: f64) -> (f64, f64) {
        let centre = self.size() / 2.0;
        (centre + radius * angle.cos(), centre + radius * angle.sin())
    }

    /// The radius of a node.
    pub fn disc(&self) -> f64 {
        (17.0 * self.unit).min(0.8 * PI * self.rim / self.nodes)
    }

    /// The width of an arc's line.
    fn stroke(&self) -> f64 {
        self.spacing * if self.spacing >= LABEL_SPACING { 0.34 } else { 0.55 }
    }

    /// How far an arc keeps from the spokes at its ends, as an angle.
    fn inset(&self, radius: f64) -> f64 {
        (0.25 * self.spacing + 2.0).min(0.4 * PI * radius / self.nodes) / radius
    }

    /// The path of a circuit at a radius: it begins at its source and ends at its destination.
    fn arc(&self, circuit: &Circuit, radius: f64) -> Arc {
        let links = circuit.links(self.nodes as u8).len() as f64;
        let inset = self.inset(radius);
        let sign = match circuit.direction() {
            Direction::Clockwise => 1.0,
            Direction::Counterclockwise => -1.0,
        };
        let first = self.angle(circuit.source.into()) + sign * inset;
        let span = 2.0 * PI * links / self.nodes - 2.0 * inset;
        Arc { radius, first, span, sign }
    }

    /// The old place of a circuit, a little outside its radius, so that what stands there now is
    /// seen too.
    fn ghost(&self, circuit: &Circuit) -> Arc {
        self.arc(circuit, self.radius(circuit.place) + 0.42 * self.spacing)
    }
}

struct Arc {
    radius: f64,
    first: f64,
    span: f64,
    sign: f64,
}

impl Arc {
    fn at(&self, part: f64) -> f64 {
        self.first + self.sign * part * self.span
    }

    fn path(&self, layout: &Layout) -> String {
        let (x, y) = layout.point(self.radius, self.at(0.0));
        let (to_x, to_y) = layout.point(self.radius, self.at(1.0));
        let radius = tenth(self.radius);
        let large = u8::from(self.span > PI);
        let sweep = u8::from(self.sign > 0.0);
        format!(
            "M{} {}A{radius} {radius} 0 {large} {sweep} {} {}",
            tenth(x),
            tenth(y),
            tenth(to_x),
            tenth(to_y)
        )
    }
}

pub fn draw(view: View) -> Drawing {
    let layout = Layout::of(view.table);
    let mut out = String::new();
    head(&mut out, view);
    ground(&mut out, view.table, &layout);
    link_numbers(&mut out, view.table, &layout);
    for ghost in view.ghosts() {
        draw_ghost(&mut out, ghost, &layout);
    }
    for circuit in &view.table.circuits {
        underlay(&mut out, view, circuit, &layout);
    }
    lightpaths(&mut out, view, Direction::Clockwise, &layout);
    lightpaths(&mut out, view, Direction::Counterclockwise, &layout);
    for ghost in view.ghosts() {
        ghost_label(&mut out, view, ghost, &layout);
    }
    for circuit in &view.table.circuits {
        label(&mut out, view, circuit, &layout);
    }
    place_numbers(&mut out, view.table, &layout);
    for node in 1..=view.table.nodes() {
        nodes::draw(&mut out, view.table, node, &layout);
    }
    Drawing { width: layout.size(), height: layout.size(), body: out }
}

fn head(out: &mut String, view: View) {
    let table = view.table;
    let _ = write!(
        out,
        "<title>The ring {} step {}: {} nodes, {}</title>\n\
         <desc>Nodes stand clockwise, node 1 at the top. Each circuit is an arc from its source \
         to its destination, on the radius of its place; place 0 is outermost. Clockwise arcs are \
         solid, counterclockwise ones are dashed.</desc>\n",
        view.when(),
        view.step.number,
        table.nodes(),
        count(table.circuits.len(), "circuit")
    );
}

/// The fibres, the spokes of the nodes, and the circles of the places with their numbers.
fn ground(out: &mut String, table: &Table, layout: &Layout) {
    let centre = tenth(layout.size() / 2.0);
    for fibre in [-3.0, 3.0] {
        let radius = tenth(layout.rim + fibre * layout.unit);
        let _ = writeln!(out, r#"<circle class="rim" cx="{centre}" cy="{centre}" r="{radius}"/>"#);
    }
    let innermost = layout.radius(table.places().saturating_sub(1)) - layout.spacing * 0.6;
    for node in 1..=table.nodes() {
        let angle = layout.angle(node.into());
        let (x1, y1) = layout.point(layout.rim, angle);
        let (x2, y2) = layout.point(innermost, angle);
        let [x1, y1, x2, y2] = [x1, y1, x2, y2].map(tenth);
        let _ = writeln!(
            out,
            "<line class=\"spoke\" x1=\"{x1}\" y1=\"{y1}\" x2=\"{x2}\" y2=\"{y2}\"/>"
        );
    }
    let tracks = if layout.spacing >= TRACK_SPACING { table.places() } else { 0 };
    for place in 0..tracks {
        let radius = tenth(layout.radius(place));
        let _ =
            writeln!(out, r#"<circle class="track" cx="{centre}" cy="{centre}" r="{radius}"/>"#);
    }
}

/// Link numbers thin out: none where the nodes stand too close.
fn link_numbers(out: &mut String, table: &Table, layout: &Layout) {
    if table.nodes() > 32 {
        return;
    }
    let word = if table.nodes() > 16 { "" } else { "link " };
    for link in 1..=table.nodes() {
        let angle = layout.angle(f64::from(link) + 0.5);
        let place = (layout.rim + 14.0 * layout.unit, angle);
        let text = format!("{word}{link}");
        turned(out, layout, place, 11.0 * layout.unit, "faint", &text);
    }
}

/// The places' numbers on the spoke of node 1, where there is room.
fn place_numbers(out: &mut String, table: &Table, layout: &Layout) {
    if layout.spacing >= LABEL_SPACING {
        for place in 0..table.places() {
            let at = (layout.radius(place), layout.angle(1.0));
            turned(out, layout, at, 0.42 * layout.spacing, "halo faint", &place.to_string());
        }
    }
}

/// A text along the circle at a radius and angle, never upside down.
fn turned(out: &mut String, layout: &Layout, at: (f64, f64), font: f64, class: &str, text: &str) {
    let (radius, angle) = at;
    let (x, y) = layout.point(radius, angle);
    let degrees = angle.to_degrees() + 90.0;
    let degrees = if angle.sin() > 0.01 { degrees - 180.0 } else { degrees };
    let _ = writeln!(
        out,
        "<text class=\"mid {class}\" font-size=\"{}\" dy=\"0.35em\" \
         transform=\"translate({} {}) rotate({})\">{}</text>",
        tenth(font),
        tenth(x),
        tenth(y),
        tenth(degrees),
        escaped(text)
    );
}

/// What lies below the arc of a circuit that is new or has moved, so that it stands out.
fn underlay(out: &mut String, view: View, circuit: &Circuit, layout: &Layout) {
    let mark = view.mark_class(circuit);
    let stroke = layout.stroke();
    let width = match mark {
        "new" => (2.6 * stroke).max(6.0 * layout.unit),
        "moved" => (1.6 * stroke).max(3.5 * layout.unit),
        _ => return,
    };
    let _ = writeln!(
        out,
        "<path class=\"under {mark}\" stroke-width=\"{}\" d=\"{}\"/>",
        tenth(width),
        layout.arc(circuit, layout.radius(circuit.place)).path(layout)
    );
}

/// The lightpaths of one direction: clockwise ones solid, the others dashed.
fn lightpaths(out: &mut String, view: View, direction: Direction, layout: &Layout) {
    let stroke = layout.stroke();
    let dashes = match direction {
        Direction::Clockwise => "none".into(),
        Direction::Counterclockwise => format!("{} {}", tenth(1.8 * stroke), tenth(0.5 * stroke)),
    };
    let _ = writeln!(
        out,
        "<g class=\"arcs {}\" stroke-width=\"{}\" stroke-dasharray=\"{dashes}\">",
        class_of(direction),
        tenth(stroke)
    );
    for circuit in view.table.circuits.iter().filter(|c| c.direction() == direction) {
        let _ = writeln!(
            out,
            "<path data-circuit=\"{}\" d=\"{}\"><title>{}</title></path>",
            circuit.number,
            layout.arc(circuit, layout.radius(circuit.place)).path(layout),
            escaped(&told(view, circuit))
        );
    }
    out.push_str("</g>\n");
}

/// A circuit in words, for a pointer that rests on it and for screen readers.
fn told(view: View, circuit: &Circuit) -> String {
    let note = view.note(circuit);
    let note = if note.is_empty() { note } else { format!(", {note}") };
    let way = circuit.direction().word();
    format!("circuit {}, place {}, {way}{note}", named(circuit), circuit.place)
}

/// Numbers thin out: on a ring of many places only what is new or has moved is labelled.
fn label(out: &mut String, view: View, circuit: &Circuit, layout: &Layout) {
    let mark = view.mark_class(circuit);
    let roomy = layout.spacing >= LABEL_SPACING;
    if mark.is_empty() && !roomy {
        return;
    }
    let font = if roomy { (0.6 * layout.spacing).max(10.0) } else { 13.0 * layout.unit };
    let class = if mark.is_empty() { "halo" } else { "halo strong" };
    let at = (layout.radius(circuit.place), label_angle(circuit, layout));
    let text = format!("{} {mark}", circuit.number);
    turned(out, layout, at, font, class, text.trim_end());
}

fn draw_ghost(out: &mut String, circuit: &Circuit, layout: &Layout) {
    let _ = writeln!(
        out,
        "<path class=\"ghost\" stroke-width=\"{}\" d=\"{}\"><title>{} stood here, at place {}\
         </title></path>",
        tenth((0.12 * layout.spacing).max(1.2 * layout.unit)),
        layout.ghost(circuit).path(layout),
        circuit.number,
        circuit.place
    );
}

fn ghost_label(out: &mut String, view: View, circuit: &Circuit, layout: &Layout) {
    if layout.spacing < LABEL_SPACING {
        return;
    }
    let arc = layout.ghost(circuit);
    let angle = clear(&arc, &labels_near(view, circuit.place, layout), layout);
    let text = format!("{} was here", circuit.number);
    turned(out, layout, (arc.radius, angle), 0.4 * layout.spacing, "halo faint", &text);
}

/// Where a circuit's label stands: the spoke of node 1 is for the places' numbers.
fn label_angle(circuit: &Circuit, layout: &Layout) -> f64 {
    let arc = layout.arc(circuit, layout.radius(circuit.place));
    clear(&arc, &[layout.angle(1.0)], layout)
}

/// The angles of the texts at a place and at the next one outside.
fn labels_near(view: View, place: u8, layout: &Layout) -> Vec<f64> {
    let near = [Some(place), place.checked_sub(1)];
    let circuits = view.table.circuits.iter().filter(|c| near.contains(&Some(c.place)));
    circuits.map(|circuit| label_angle(circuit, layout)).chain([layout.angle(1.0)]).collect()
}

/// The first of some angles on an arc that keeps clear of other labels, or else its middle.
fn clear(arc: &Arc, others: &[f64], layout: &Layout) -> f64 {
    let near = (70.0 * layout.unit / arc.radius).cos();
    let parts = [0.5, 0.4, 0.6, 0.3, 0.7, 0.2, 0.8];
    let is_clear = |part: &f64| others.iter().all(|other| (arc.at(*part) - other).cos() < near);
    arc.at(parts.into_iter().find(is_clear).unwrap_or(0.5))
}
