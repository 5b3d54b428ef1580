//! What the lines on frequency plans reach.

use std::cmp::Ordering;
use std::fmt;

use super::events::events;
use super::{Before, Coverage, Event};
use crate::grid::{FrequencyPlan, SPACINGS, START_MOST, WAVELENGTHS};
use crate::lines::{signed_number, words};
use crate::plan::{parse, Command};
use crate::refusal::Refusal;
use GridEvent::*;

/// Which of the two lines it is: from a wavelength to its frequency, or back.
#[derive(Clone, Copy, PartialEq, Eq, PartialOrd, Ord, Debug)]
pub enum Way {
    There,
    Back,
}

events! {
    /// What such a line can show.
    pub enum GridEvent(way: Way) {
        /// What is found, and what any plan is refused for.
        of_plan {
            /// An answer on a plan of this spacing.
            Found { spacing: u32 } in SPACINGS => "{way} with spacing {spacing}";
            /// An answer on a plan with such a starting n.
            StartBelowZero => "  of {way}: starting n below 0";
            StartAboveZero => "  of {way}: starting n above 0";
            /// Wavelength 0 where the plan starts at −200.
            LowestPoint => "  of {way}: starting n -200 and wavelength 0";
            /// Wavelength 63 where the plan starts at 200.
            HighestPoint => "  of {way}: starting n 200 and wavelength 63";
            /// A well-formed line whose starting n of 0 has a sign.
            StartMinusZero => "{way} with a starting n of -0";
            /// A well-formed line before there is a table.
            BeforeTable => "{way} before the first table";
            SpacingRefused => "{way} refused 41";
            /// Refused for its spacing, though a fault that comes later is there too.
            SpacingRefusedFirst => "  of these: with a later fault too";
            StartRefused => "{way} refused 42";
            /// Refused for its start, though a fault that comes later is there too.
            StartRefusedFirst => "  of these: with a later fault too";
        }

        /// What the way from a wavelength to its frequency is refused for.
        of_wavelength {
            WavelengthRefused => "{way} refused 16";
        }

        /// What the way back is refused for: where the frequency lies.
        of_frequency {
            FrequencyRefused(off: Off) in Off::all() => "{way} refused 43: {}", off.words();
        }

        /// What lines that are not well formed show.
        of_odd_line {
            LineRefused(fault: LineFault) in LineFault::all() =>
                "line refused: {way} {}", fault.words();
        }
    }
}

events! {
    /// Where a frequency lies that is none of the plan's.
    pub enum Off {
        /// Every one, in the order of the report.
        all {
            Below => "below the plan by a spacing or more";
            LessThanSpacingBelow => "below the plan by less than a spacing";
            Between => "between two points";
            Above => "above the plan";
        }
    }
}

events! {
    /// Why a line is not well formed.
    pub enum LineFault {
        /// Every one, in the order of the report.
        all {
            TooFewWords => "with a word too few";
            TooManyWords => "with a word too many";
            /// The start has a sign that none may have, or is no number.
            OddStart => "whose start has an odd sign or is no number";
            WideStart => "whose start is too wide";
            /// Another word has a sign or is no number.
            OddNumber => "with another number that has a sign or is none";
            WideNumber => "with another number too wide";
        }
    }
}

/// Every event that lines on frequency plans can show, in the order of the report.
pub(super) fn there_and_back() -> Vec<(Way, GridEvent)> {
    let of = |way, own: Vec<GridEvent>| {
        let events = [GridEvent::of_plan(), own, GridEvent::of_odd_line()].concat();
        events.into_iter().map(move |event| (way, event))
    };
    let there = of(Way::There, GridEvent::of_wavelength());
    there.chain(of(Way::Back, GridEvent::of_frequency())).collect()
}

impl Coverage {
    /// Counts what a well-formed line on a frequency plan reached.
    pub(super) fn saw_grid(&mut self, line: &[u8], before: &Before) {
        self.saw_numbers(line);
        let (way, mut events) = match parse(line) {
            Some(Command::Frequency { plan, wavelength }) => (Way::There, there(plan, wavelength)),
            Some(Command::Wavelength { plan, frequency }) => (Way::Back, back(plan, frequency)),
            _ => unreachable!("the line is on a frequency plan"),
        };
        if !before.had_table() {
            events.push(BeforeTable);
        }
        if has_minus_zero(line) {
            events.push(StartMinusZero);
        }
        events.into_iter().for_each(|event| self.saw(Event::Grid(way, event)));
    }
}

fn has_minus_zero(line: &[u8]) -> bool {
    let start = words(line).nth(2).unwrap_or_default();
    start.starts_with(b"-") && signed_number(start) == Some(0)
}

fn there(plan: FrequencyPlan, wavelength: u32) -> Vec<GridEvent> {
    let is_above = wavelength as usize >= WAVELENGTHS;
    match plan.frequency(wavelength) {
        Ok(_) => found(plan, wavelength),
        Err(Refusal::NoSpacing) => spacing_refused(!plan.has_good_start() || is_above),
        Err(Refusal::NoStart) => start_refused(is_above),
        Err(_) => vec![WavelengthRefused],
    }
}

fn back(plan: FrequencyPlan, frequency: u32) -> Vec<GridEvent> {
    match plan.wavelength(frequency) {
        Ok(wavelength) => found(plan, wavelength.0.into()),
        Err(Refusal::NoSpacing) => {
            spacing_refused(!plan.has_good_start() || !is_on_a_plan(&SPACINGS, frequency))
        }
        Err(Refusal::NoStart) => start_refused(!is_on_a_plan(&[plan.spacing], frequency)),
        Err(_) => vec![FrequencyRefused(off(plan, frequency))],
    }
}

fn found(plan: FrequencyPlan, wavelength: u32) -> Vec<GridEvent> {
    let least = -(START_MOST as i32);
    let most = START_MOST as i32;
    let last = WAVELENGTHS as u32 - 1;
    let mut events = vec![Found { spacing: plan.spacing }];
    match plan.start.cmp(&0) {
        Ordering::Less => events.push(StartBelowZero),
        Ordering::Greater => events.push(StartAboveZero),
        Ordering::Equal => {}
    }
    if (plan.start, wavelength) == (least, 0) {
        events.push(LowestPoint);
    } else if (plan.start, wavelength) == (most, last) {
        events.push(HighestPoint);
    }
    events
}

fn spacing_refused(has_later_fault: bool) -> Vec<GridEvent> {
    let events = [SpacingRefused, SpacingRefusedFirst];
    events[..1 + usize::from(has_later_fault)].to_vec()
}

fn start_refused(has_later_fault: bool) -> Vec<GridEvent> {
    let events = [StartRefused, StartRefusedFirst];
    events[..1 + usize::from(has_later_fault)].to_vec()
}

/// Whether some plan of one of the spacings has the frequency.
fn is_on_a_plan(spacings: &[u32], frequency: u32) -> bool {
    let most = START_MOST as i32;
    let has_it = |spacing: u32| {
        let mut plans = (-most..=most).map(|start| FrequencyPlan { spacing, start });
        plans.any(|plan| plan.wavelength(frequency).is_ok())
    };
    spacings.iter().copied().any(has_it)
}

/// Where a frequency lies that the plan does not have.
fn off(plan: FrequencyPlan, frequency: u32) -> Off {
    let points = plan.points().expect("only the frequency is at fault");
    let (first, last) = (points[0], points[WAVELENGTHS - 1]);
    if frequency > last {
        Off::Above
    } else if frequency > first {
        Off::Between
    } else if first - frequency < plan.spacing {
        Off::LessThanSpacingBelow
    } else {
        Off::Below
    }
}

/// The sort of a line on a frequency plan that is not well formed.
pub(super) fn sort_of_odd_grid(line: &[u8]) -> Option<Event> {
    let mut words = words(line);
    let way = match words.next()? {
        b"frequency" => Way::There,
        b"wavelength" => Way::Back,
        _ => return None,
    };
    let numbers: Vec<&[u8]> = words.collect();
    let fault = match numbers[..] {
        [spacing, start, last] => fault_of(spacing, start, last),
        _ if numbers.len() < 3 => LineFault::TooFewWords,
        _ => LineFault::TooManyWords,
    };
    Some(Event::Grid(way, LineRefused(fault)))
}

/// What is wrong with one of the numbers; signs go before widths.
fn fault_of(spacing: &[u8], start: &[u8], last: &[u8]) -> LineFault {
    let is_number = |word: &[u8]| !word.is_empty() && word.iter().all(u8::is_ascii_digit);
    if !is_number(start.strip_prefix(b"-").unwrap_or(start)) {
        LineFault::OddStart
    } else if !is_number(spacing) || !is_number(last) {
        LineFault::OddNumber
    } else if signed_number(start).is_none() {
        LineFault::WideStart
    } else {
        LineFault::WideNumber
    }
}

impl fmt::Display for Way {
    fn fmt(&self, f: &mut fmt::Formatter) -> fmt::Result {
        f.write_str(match self {
            Way::There => "frequency",
            Way::Back => "wavelength",
        })
    }
}
