//! The chart: places down, links across, a cell for each link that a circuit uses, loads below.

use std::fmt::Write;

use crate::drawing::{class_of, escaped, named, tenth, turn, Drawing, View, CHARACTER, FONT};
use crate::table::{Circuit, Direction, Table};

/// What a run keeps from the lines above and below it.
const INSET: f64 = 3.0;

/// Sizes of a chart.
pub struct Layout {
    /// Where link 1 begins.
    pub left: f64,
    /// Where place 0 begins.
    top: f64,
    /// The width of a link.
    pub cell: f64,
    /// The height of a place.
    row: f64,
    nodes: u8,
    places: u8,
}

impl Layout {
    pub fn of(table: &Table) -> Layout {
        let nodes = table.nodes();
        Layout {
            left: 118.0,
            top: 40.0,
            cell: (540.0 / f64::from(nodes)).clamp(15.0, 84.0),
            row: if table.places() > 32 { 18.0 } else { 26.0 },
            nodes,
            places: table.places(),
        }
    }

    fn right(&self) -> f64 {
        self.left + self.cell * f64::from(self.nodes)
    }

    fn bottom(&self) -> f64 {
        self.top + self.row * f64::from(self.places)
    }

    fn link(&self, link: u8) -> f64 {
        self.left + self.cell * f64::from(link - 1)
    }

    fn place(&self, place: u8) -> f64 {
        self.top + self.row * f64::from(place)
    }
}

pub fn draw(view: View) -> Drawing {
    let layout = Layout::of(view.table);
    let notes = place_notes(view);
    let width = layout.right() + 16.0 + CHARACTER * longest_note(view) as f64;
    let height = layout.bottom() + 2.0 * layout.row + 12.0;
    let mut out = String::new();
    let _ = write!(
        out,
        "<title>Places and links {} step {}</title>\n<desc>{}</desc>\n",
        view.when(),
        view.step.number,
        escaped(&in_words(view))
    );
    for ghost in view.ghosts() {
        draw_ghost(&mut out, ghost, &layout);
    }
    for circuit in &view.table.circuits {
        runs(&mut out, view, circuit, &layout);
    }
    grid(&mut out, &layout);
    for circuit in &view.table.circuits {
        number(&mut out, view, circuit, &layout);
    }
    for (place, note) in (0..).zip(&notes) {
        place_texts(&mut out, place, note, &layout);
    }
    link_texts(&mut out, view.table, &layout);
    Drawing { width, height, body: out }
}

/// The whole chart as text, for screen readers.
fn in_words(view: View) -> String {
    let table = view.table;
    let place = |place| {
        let way = Direction::of(place).word();
        format!("Place {place}, {way}: {}.", place_note(view, place))
    };
    let places: Vec<String> = (0..table.places()).map(place).collect();
    let load = |link: usize| {
        let (clockwise, counterclockwise) = (table.loads[2 * link], table.loads[2 * link + 1]);
        format!("link {} {clockwise} and {counterclockwise}", link + 1)
    };
    let loads: Vec<String> = (0..table.ports.len()).map(load).collect();
    format!("{} Loads clockwise and counterclockwise: {}.", places.join(" "), loads.join(", "))
}

fn place_notes(view: View) -> Vec<String> {
    (0..view.table.places()).map(|place| place_note(view, place)).collect()
}

/// The characters of the longest note, of both charts where a step has two, so that they are drawn
/// to the same scale.
fn longest_note(view: View) -> usize {
    let both = View::before_moves(view.step).into_iter().chain(View::after(view.step));
    let notes = both.flat_map(place_notes);
    notes.map(|note| note.chars().count()).max().unwrap_or(0)
}

/// Who stands at a place, and what the step did to them.
fn place_note(view: View, place: u8) -> String {
    let told: Vec<String> = view
        .table
        .at(place)
        .map(|circuit| match view.note(circuit) {
            note if note.is_empty() => named(circuit),
            note => format!("{} ({note})", named(circuit)),
        })
        .collect();
    if told.is_empty() {
        "free".into()
    } else {
        told.join(" + ")
    }
}

/// The lines that part places and links; they also part a run of links into its cells.
fn grid(out: &mut String, layout: &Layout) {
    let (left, right) = (tenth(layout.left), tenth(layout.right()));
    let (top, bottom) = (tenth(layout.top), tenth(layout.bottom()));
    let mut path = String::new();
    for link in 1..=layout.nodes + 1 {
        let _ = write!(path, "M{} {top}V{bottom}", tenth(layout.link(link)));
    }
    for place in 0..=layout.places {
        let _ = write!(path, "M{left} {}H{right}", tenth(layout.place(place)));
    }
    let _ = writeln!(out, "<path class=\"grid\" d=\"{path}\"/>");
}

/// The links of a circuit as first and last of each run of neighbours in the chart.
fn runs_of(circuit: &Circuit, nodes: u8) -> Vec<(u8, u8)> {
    let mut links = circuit.links(nodes);
    links.sort_unstable();
    let mut runs: Vec<(u8, u8)> = Vec::new();
    for link in links {
        match runs.last_mut() {
            Some((_, last)) if *last + 1 == link => *last = link,
            _ => runs.push((link, link)),
        }
    }
    runs
}

fn rect(layout: &Layout, place: u8, (first, last): (u8, u8), inset: f64) -> String {
    format!(
        "x=\"{}\" y=\"{}\" width=\"{}\" height=\"{}\"",
        tenth(layout.link(first)),
        tenth(layout.place(place) + inset),
        tenth(layout.cell * f64::from(last - first + 1)),
        tenth(layout.row - 2.0 * inset)
    )
}

fn runs(out: &mut String, view: View, circuit: &Circuit, layout: &Layout) {
    let first = view.table.at(circuit.place).next();
    let second = if first == Some(circuit) { "" } else { " second" };
    let way = class_of(circuit.direction());
    let mark = view.mark_class(circuit);
    for run in runs_of(circuit, layout.nodes) {
        let _ = writeln!(
            out,
            "<rect class=\"run {way}{second} {mark}\" data-circuit=\"{}\" {}/>",
            circuit.number,
            rect(layout, circuit.place, run, INSET)
        );
    }
}

fn draw_ghost(out: &mut String, circuit: &Circuit, layout: &Layout) {
    for run in runs_of(circuit, layout.nodes) {
        let _ = writeln!(
            out,
            "<rect class=\"ghost\" {}><title>{} stood here</title></rect>",
            rect(layout, circuit.place, run, 1.0),
            circuit.number
        );
    }
}

/// The number in the longest run, where it has room; it stands beside the chart in any case.
fn number(out: &mut String, view: View, circuit: &Circuit, layout: &Layout) {
    let runs = runs_of(circuit, layout.nodes);
    let Some(&(first, last)) = runs.iter().max_by_key(|(first, last)| last - first) else {
        return;
    };
    let text = circuit.number.to_string();
    let width = layout.cell * f64::from(last - first + 1);
    if width < CHARACTER * text.len() as f64 + 6.0 {
        return;
    }
    let strong = if view.mark_class(circuit).is_empty() { "" } else { " strong" };
    let _ = writeln!(
        out,
        "<text class=\"mid halo{strong}\" x=\"{}\" y=\"{}\">{text}</text>",
        tenth(layout.link(first) + width / 2.0),
        tenth(layout.place(circuit.place) + layout.row / 2.0 + 4.5)
    );
}

/// The place's number and direction to the left, who stands there to the right.
fn place_texts(out: &mut String, place: u8, note: &str, layout: &Layout) {
    let y = tenth(layout.place(place) + layout.row / 2.0 + 4.5);
    let faint = if note == "free" { " class=\"faint\"" } else { "" };
    let _ = writeln!(
        out,
        "<text class=\"end\" x=\"{}\" y=\"{y}\">place {place} \u{b7} \u{3bb}{} {}\
         </text><text{faint} x=\"{}\" y=\"{y}\">{}</text>",
        tenth(layout.left - 8.0),
        place / 2,
        turn(Direction::of(place)),
        tenth(layout.right() + 8.0),
        escaped(note)
    );
}

/// The links' numbers and the nodes that each joins above, the loads each way below.
fn link_texts(out: &mut String, table: &Table, layout: &Layout) {
    let font = if layout.cell < 20.0 { 10.0 } else { FONT };
    let _ = writeln!(out, "<g font-size=\"{font}\">");
    let mut text = |class: &str, x: f64, y: f64, text: String| {
        let (x, y) = (tenth(x), tenth(y));
        let _ = writeln!(out, "<text class=\"{class}\" x=\"{x}\" y=\"{y}\">{text}</text>");
    };
    let loads = [layout.bottom() + 18.0, layout.bottom() + 18.0 + layout.row];
    let names = [
        (18.0, "link"),
        (34.0, "joins nodes"),
        (loads[0], "load \u{21bb}"),
        (loads[1], "load \u{21ba}"),
    ];
    for (y, name) in names {
        if layout.cell >= 40.0 || name != "joins nodes" {
            text("end strong", layout.left - 8.0, y, name.into());
        }
    }
    for link in 1..=layout.nodes {
        let x = layout.link(link) + layout.cell / 2.0;
        text("mid strong", x, 18.0, link.to_string());
        if layout.cell >= 40.0 {
            let next = link % layout.nodes + 1;
            text("mid faint", x, 34.0, format!("{link}\u{2013}{next}"));
        }
        for (way, y) in loads.into_iter().enumerate() {
            text("mid", x, y, table.loads[2 * usize::from(link - 1) + way].to_string());
        }
    }
    out.push_str("</g>\n");
}
