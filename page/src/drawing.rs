//! What both drawings use: text made safe for XML, coordinates, and the classes of their lines.

use crate::step::{Mark, Step};
use crate::table::{Circuit, Direction, Table};

/// The looks of both drawings, for the page and for a picture by itself.
pub const STYLE: &str = include_str!("drawing.css");

/// Arrowheads, and the hatching of the second circuit at a shared place.
pub const DEFINITIONS: &str = include_str!("definitions.svg");

/// The font's size in a chart, and about the width of its characters.
pub const FONT: f64 = 13.0;
pub const CHARACTER: f64 = 7.2;

/// A drawing: its size, and what stands within its `svg` element.
pub struct Drawing {
    pub width: f64,
    pub height: f64,
    pub body: String,
}

impl Drawing {
    /// The whole element, with further attributes.
    pub fn svg(&self, attributes: &str) -> String {
        format!(
            "<svg xmlns=\"http://www.w3.org/2000/svg\" role=\"img\" font-size=\"{FONT}\" \
             viewBox=\"0 0 {} {}\" {attributes}>\n{}</svg>\n",
            tenth(self.width),
            tenth(self.height),
            self.body
        )
    }

    /// Drawn at its own size.
    pub fn sized(&self) -> String {
        let (width, height) = (tenth(self.width), tenth(self.height));
        self.svg(&format!("width=\"{width}\" height=\"{height}\""))
    }
}

pub fn escaped(text: &str) -> String {
    text.replace('&', "&amp;").replace('<', "&lt;").replace('>', "&gt;").replace('"', "&quot;")
}

/// A coordinate, to a tenth.
pub fn tenth(value: f64) -> String {
    let rounded = (value * 10.0).round() / 10.0;
    if rounded == 0.0 {
        "0".into()
    } else {
        rounded.to_string()
    }
}

pub fn class_of(direction: Direction) -> &'static str {
    match direction {
        Direction::Clockwise => "cw",
        Direction::Counterclockwise => "ccw",
    }
}

pub fn turn(direction: Direction) -> &'static str {
    match direction {
        Direction::Clockwise => "\u{21bb}",
        Direction::Counterclockwise => "\u{21ba}",
    }
}

/// Which of a step's two rings is drawn.
#[derive(Clone, Copy, PartialEq, Eq, Debug)]
pub enum Moment {
    Before,
    After,
}

/// One ring of a step, to be drawn.
#[derive(Clone, Copy)]
pub struct View<'a> {
    pub step: &'a Step,
    pub table: &'a Table,
    pub moment: Moment,
}

impl<'a> View<'a> {
    pub fn before(step: &'a Step) -> Option<View<'a>> {
        let table = step.before.as_deref()?;
        Some(View { step, table, moment: Moment::Before })
    }

    /// The ring before, where the step moved circuits, so that both are worth a chart.
    pub fn before_moves(step: &'a Step) -> Option<View<'a>> {
        View::before(step).filter(|_| !step.moves().is_empty())
    }

    pub fn after(step: &'a Step) -> Option<View<'a>> {
        let table = step.after.as_deref()?;
        Some(View { step, table, moment: Moment::After })
    }

    /// The class of a circuit that the step is about: `new`, `moved` or, before it, `leaving`.
    pub fn mark_class(&self, circuit: &Circuit) -> &'static str {
        match (self.moment, self.step.mark(circuit)) {
            (Moment::Before, _) if self.leaves(circuit) => "leaving",
            (Moment::After, Mark::New) => "new",
            (Moment::After, Mark::Moved(_)) => "moved",
            _ => "",
        }
    }

    fn leaves(&self, circuit: &Circuit) -> bool {
        self.step.left().iter().any(|left| left.number == circuit.number)
    }

    /// What the step does to a circuit, in a few words; nothing where it stays as it is.
    pub fn note(&self, circuit: &Circuit) -> String {
        match (self.moment, self.step.mark(circuit)) {
            (Moment::Before, _) if self.leaves(circuit) => {
                let after = self.step.after.as_deref();
                match after.and_then(|after| after.find(circuit.number)) {
                    Some(moved) => format!("moves to {}", moved.place),
                    None => "closes".into(),
                }
            }
            (Moment::After, Mark::New) => "new".into(),
            (Moment::After, Mark::Moved(place)) => format!("moved from {place}"),
            _ => String::new(),
        }
    }

    /// The old places, shown faintly in the drawing of the ring after.
    pub fn ghosts(&self) -> Vec<&'a Circuit> {
        match self.moment {
            Moment::Before => Vec::new(),
            Moment::After => self.step.left(),
        }
    }

    pub fn when(&self) -> &'static str {
        match self.moment {
            Moment::Before => "before",
            Moment::After => "after",
        }
    }
}

/// A circuit named with its ends and, if it has one, its account: `101: 3\u{2192}5, account 7`.
pub fn named(circuit: &Circuit) -> String {
    let account = match circuit.account {
        0 => String::new(),
        account => format!(", account {account}"),
    };
    format!("{}: {}\u{2192}{}{account}", circuit.number, circuit.source, circuit.destination)
}

#[cfg(test)]
mod tests {
    use super::*;

    #[test]
    fn text_is_safe_in_xml() {
        assert_eq!(escaped("a<b & \"c\">"), "a&lt;b &amp; &quot;c&quot;&gt;");
    }

    #[test]
    fn coordinates_have_one_decimal_at_most() {
        assert_eq!([12.0, 12.34, -0.04, -3.25].map(tenth), ["12", "12.3", "0", "-3.3"]);
    }
}
