//! The page: one file, each step a section, and a few lines of script to go through them.

use std::fmt::Write;

use crate::chart;
use crate::day::{Day, SHOWN_MOST};
use crate::drawing::{escaped, View, DEFINITIONS, STYLE};
use crate::ring;
use crate::step::Step;
use crate::words::{tell, Telling};

const PAGE_STYLE: &str = include_str!("page.css");
const SCRIPT: &str = include_str!("page.js");
const READING: &str = include_str!("reading.html");

pub fn page(name: &str, day: &Day) -> String {
    let mut out = String::new();
    let name = escaped(name);
    let _ = write!(
        out,
        "<!DOCTYPE html>\n<html xmlns=\"http://www.w3.org/1999/xhtml\" lang=\"en\" xml:lang=\"en\">\n\
         <head>\n<meta charset=\"utf-8\"/>\n\
         <meta name=\"viewport\" content=\"width=device-width, initial-scale=1\"/>\n\
         <title>{name}: the ring, step by step</title>\n<style>\n{STYLE}{PAGE_STYLE}</style>\n</head>\n\
         <body>\n<svg class=\"definitions\" xmlns=\"http://www.w3.org/2000/svg\" width=\"0\" \
         height=\"0\" aria-hidden=\"true\">\n{DEFINITIONS}</svg>\n\
         <header>\n<h1>{name}: the ring, step by step</h1>\n<p>{}</p>\n{READING}</header>\n",
        shown(day)
    );
    if let (Some(first), Some(last)) = (day.steps.first(), day.steps.last()) {
        controls(&mut out, first.number, last.number);
        contents(&mut out, day);
        let _ = write!(out, "<script>\n{SCRIPT}</script>\n");
    }
    out.push_str("<main>\n");
    for step in &day.steps {
        section(&mut out, step);
    }
    out.push_str("</main>\n</body>\n</html>\n");
    out
}

/// Which steps the page has.
fn shown(day: &Day) -> String {
    let (Some(first), Some(last)) = (day.steps.first(), day.steps.last()) else {
        return "The script has no line.".into();
    };
    match (day.steps.len(), day.lines) {
        (all, lines) if all == lines => format!("All {lines} lines of the script are shown."),
        (SHOWN_MOST, lines) if last.number == lines => format!(
            "The script has {lines} lines; the last {SHOWN_MOST} are shown. \
             <code>--steps A..B</code> shows others."
        ),
        (_, lines) => format!(
            "The script has {lines} lines; lines {} to {} are shown.",
            first.number, last.number
        ),
    }
}

fn controls(out: &mut String, first: usize, last: usize) {
    let _ = write!(
        out,
        "<div class=\"controls\" role=\"group\" aria-label=\"Stepping\">\n\
         <button type=\"button\" id=\"first\">First</button>\n\
         <button type=\"button\" id=\"back\">\u{25c0} Back</button>\n\
         <input type=\"range\" id=\"slider\" min=\"{first}\" max=\"{last}\" value=\"{first}\" \
         step=\"1\" aria-label=\"Step\"/>\n\
         <button type=\"button\" id=\"next\">Next \u{25b6}</button>\n\
         <button type=\"button\" id=\"last\">Last</button>\n\
         <output id=\"where\" for=\"slider\" aria-live=\"polite\">Step {first} of {last}</output>\n\
         </div>\n"
    );
}

fn contents(out: &mut String, day: &Day) {
    out.push_str("<details class=\"contents\">\n<summary>All steps</summary>\n<nav aria-label=\"Steps\">\n<ul>\n");
    for step in &day.steps {
        let _ = writeln!(
            out,
            "<li><a href=\"#step-{0}\">{0} <code>{1}</code></a> <span>{2}</span></li>",
            step.number,
            escaped(&step.request),
            escaped(&step.answer[0])
        );
    }
    out.push_str("</ul>\n</nav>\n</details>\n");
}

fn section(out: &mut String, step: &Step) {
    let number = step.number;
    let _ = write!(
        out,
        "<section class=\"step{}\" id=\"step-{number}\" aria-labelledby=\"head-{number}\">\n\
         <h2 id=\"head-{number}\"><a href=\"#step-{number}\">Step {number}</a> <code>{}</code></h2>\n\
         <div class=\"told\">\n<pre class=\"answer\" role=\"group\" aria-label=\"Answer\">{}</pre>\n",
        if step.after.is_some() { "" } else { " bare" },
        escaped(&step.request),
        escaped(&step.answer.join("\n"))
    );
    words(out, &tell(step));
    out.push_str("</div>\n");
    match View::after(step) {
        None => {
            out.push_str("<p class=\"none\">No ring is lit yet, so there is nothing to draw.</p>\n")
        }
        Some(after) => drawings(out, step, after),
    }
    out.push_str("</section>\n");
}

fn words(out: &mut String, telling: &Telling) {
    let _ =
        write!(out, "<div class=\"words\">\n<p class=\"point\">{}</p>\n", escaped(&telling.point));
    let (open, item, close) =
        if telling.reasons.len() > 2 { ("<ol>\n", "li", "</ol>\n") } else { ("", "p", "") };
    out.push_str(open);
    for reason in &telling.reasons {
        let _ = writeln!(out, "<{item}>{}</{item}>", escaped(reason));
    }
    out.push_str(close);
    if let Some(next) = &telling.next {
        let _ = writeln!(
            out,
            "<p class=\"next\"><strong>What a desk does next:</strong> {}</p>",
            escaped(next)
        );
    }
    out.push_str("</div>\n");
}

/// The ring, and its chart; before it the chart of the ring before, where circuits moved.
fn drawings(out: &mut String, step: &Step, after: View) {
    let ring = ring::draw(after);
    let large = if ring.width > 1000.0 { " large" } else { "" };
    let _ = write!(
        out,
        "<figure class=\"ring scroll{large}\" tabindex=\"0\" aria-label=\"The ring\">\n{}</figure>\n\
         <div class=\"charts\">\n",
        ring.svg("")
    );
    match View::before_moves(step) {
        Some(before) => {
            chart(out, before, "Before");
            chart(out, after, "After");
        }
        None => chart(out, after, "Places and links"),
    }
    out.push_str("</div>\n");
}

fn chart(out: &mut String, view: View, caption: &str) {
    let _ = write!(
        out,
        "<figure class=\"chart\">\n<figcaption>{caption}</figcaption>\n\
         <div class=\"scroll\" role=\"group\" tabindex=\"0\" aria-label=\"{caption}\">\n{}</div>\n</figure>\n",
        chart::draw(view).sized()
    );
}
