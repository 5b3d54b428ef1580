//! One step as a picture that stands by itself: request, answer, the point, ring and charts.

use std::fmt::Write;

use crate::drawing::{escaped, tenth, Drawing, View, DEFINITIONS, STYLE};
use crate::step::Step;
use crate::words::tell;
use crate::{chart, ring};

/// A line of text has at most as many characters, and is so high.
const LINE_MOST: usize = 110;
const LINE: f64 = 24.0;

/// The ring's width here, and that of the text at least.
const RING: f64 = 620.0;
const TEXT: f64 = 1000.0;

pub fn picture(step: &Step) -> String {
    let mut lines = vec![format!("Step {}: {}", step.number, step.request)];
    lines.extend(wrapped(&step.answer.join(", ")));
    lines.extend(wrapped(&tell(step).point));
    let title = escaped(&lines[0]);
    let mut body = format!(
        "<title>{title}</title>\n<style>\n{STYLE}</style>\n{DEFINITIONS}\
         <rect width=\"100%\" height=\"100%\" fill=\"#fff\"/>\n"
    );
    for (index, line) in lines.iter().enumerate() {
        text(&mut body, 20.0, 30.0 + LINE * index as f64, line);
    }
    let top = 30.0 + LINE * lines.len() as f64;
    let (width, height) = match View::after(step) {
        None => (0.0, 0.0),
        Some(after) => side_by_side(&mut body, step, after, top),
    };
    Drawing { width: width.max(TEXT), height: top + height, body }.sized()
}

/// The ring to the left and the charts to the right of it, from a height on.
fn side_by_side(out: &mut String, step: &Step, after: View, top: f64) -> (f64, f64) {
    put(out, &ring::draw(after), (0.0, top), (RING, RING));
    let (mut y, mut width) = (top + 20.0, 0.0_f64);
    for (view, caption) in [(View::before_moves(step), "Before"), (Some(after), "After")] {
        let Some(view) = view else { continue };
        let chart = chart::draw(view);
        text(out, RING, y, caption);
        put(out, &chart, (RING, y + 8.0), (chart.width, chart.height));
        width = width.max(chart.width);
        y += chart.height + 50.0;
    }
    (RING + width + 20.0, RING.max(y - top))
}

/// A drawing put at a point, with a size.
fn put(out: &mut String, drawing: &Drawing, (x, y): (f64, f64), (width, height): (f64, f64)) {
    let [x, y, width, height] = [x, y, width, height].map(tenth);
    let at = format!("x=\"{x}\" y=\"{y}\" width=\"{width}\" height=\"{height}\"");
    out.push_str(&drawing.svg(&at));
}

fn text(out: &mut String, x: f64, y: f64, text: &str) {
    let _ = writeln!(
        out,
        "<text class=\"strong\" x=\"{}\" y=\"{}\" font-size=\"17\">{}</text>",
        tenth(x),
        tenth(y),
        escaped(text)
    );
}

/// A text cut into lines between its words.
fn wrapped(text: &str) -> Vec<String> {
    let mut lines: Vec<String> = Vec::new();
    for word in text.split(' ') {
        match lines.last_mut() {
            Some(line) if line.len() + word.len() < LINE_MOST => {
                line.push(' ');
                line.push_str(word);
            }
            _ => lines.push(word.into()),
        }
    }
    lines
}

#[cfg(test)]
mod tests {
    use super::*;

    #[test]
    fn long_texts_are_cut_between_words() {
        let text = ["word"; 60].join(" ");
        let lines = wrapped(&text);
        assert!(lines.len() == 3 && lines.iter().all(|line| line.len() <= LINE_MOST));
        assert_eq!(lines.join(" "), text);
    }
}
