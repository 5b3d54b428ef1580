//! An opening in words: where the new circuit went, and why others moved.

use std::cmp::Ordering;

use crate::pair::{links_in_words, meeting, Pair};
use crate::step::{Move, Step};
use crate::table::{Circuit, Direction, Table};
use crate::ways::{turned, Way};
use crate::words::{capital, listed, ordinal, told_move, told_moves, Telling};

pub fn tell(step: &Step, number: u32, moves: &[Move], looks: u32) -> Telling {
    let rings = step.before.as_deref().zip(step.after.as_deref());
    let opened = rings.and_then(|(before, after)| Some((before, after, after.find(number)?)));
    let Some((before, after, new)) = opened else {
        return Telling::plain(format!("Circuit {number} was opened."));
    };
    if moves.is_empty() {
        return match after.partner(new) {
            Some(partner) => joined(new, partner, before),
            None => alone(new, before),
        };
    }
    match put_together(before, after)[..] {
        [(a, b)] => Rearranged { pair: Pair { before, after, a, b }, new, moves, looks }.tell(),
        _ => Telling {
            point: format!(
                "Circuit {number} took place {} after {}.",
                new.place,
                told_moves(moves)
            ),
            reasons: moves.iter().map(|made| told_move(made) + ".").collect(),
            next: None,
        },
    }
}

fn joined(new: &Circuit, partner: &Circuit, before: &Table) -> Telling {
    let used = |circuit: &Circuit| {
        format!("{} uses {}", circuit.number, links_in_words(&circuit.links(before.nodes())))
    };
    let mut reasons = vec![format!(
        "{} stood alone at place {}, which runs {}. There {}, and {}: no link in common, so one \
         wavelength carries both.",
        partner.number,
        new.place,
        new.direction().word(),
        used(partner),
        used(new)
    )];
    reasons.extend(longer_to_share(new, before));
    reasons.push("No other circuit had to move.".into());
    Telling {
        point: format!(
            "Circuit {} joined circuit {} at place {}: {}.",
            new.number,
            partner.number,
            new.place,
            meeting(partner, new)
        ),
        reasons,
        next: None,
    }
}

/// That a circuit shares although that is its longer way round, and a place of the shorter one that
/// it left free for it.
fn longer_to_share(new: &Circuit, before: &Table) -> Option<String> {
    let longer = Way::of(new, before.nodes()).longer()?;
    let free = match before.lowest_free_place(new.direction().opposite()) {
        Some(place) => format!(" It shares, although place {place} of its shorter way was free."),
        None => String::new(),
    };
    Some(format!("{} runs {longer}.{free}", new.number))
}

fn alone(new: &Circuit, before: &Table) -> Telling {
    let reason = if before.circuits.is_empty() {
        "The ring was empty.".into()
    } else {
        format!("No circuit that stood alone could share its place with {}.", new.number)
    };
    Telling {
        point: format!("Circuit {} took {}.", new.number, free_place(new, before)),
        reasons: vec![reason, "No other circuit had to move.".into()],
        next: None,
    }
}

/// The place that a circuit has alone. The ring before shows whether it was the lowest free one, and
/// whether one of the other way round was free too.
fn free_place(new: &Circuit, before: &Table) -> String {
    let place = new.place;
    let (to, fro) = (new.direction(), new.direction().opposite());
    let lowest = before.lowest_free_place(to) == Some(place);
    let only = before.lowest_free_place(fro).is_none();
    let way = Way::of(new, before.nodes());
    let (links, to, fro) = (way.told(), to.word(), fro.word());
    match way.length() {
        Ordering::Less if lowest => {
            format!("the lowest free place of its shorter way round, place {place}, {to}: {links}")
        }
        Ordering::Equal if lowest && new.direction() == Direction::Clockwise => {
            format!("the lowest free place {to}, place {place}: {links}")
        }
        Ordering::Equal if lowest && only => format!(
            "the lowest free place {to}, place {place}: {links}, and no {fro} place was free"
        ),
        Ordering::Greater if lowest && only => format!(
            "the lowest free place of its longer way round, place {place}, {to}: {links}, since no \
             {fro} place was free"
        ),
        _ => format!("a free place, place {place}, {to}"),
    }
}

/// The circuits that share a place now and did not before.
fn put_together<'a>(before: &Table, after: &'a Table) -> Vec<(&'a Circuit, &'a Circuit)> {
    let place_before = |circuit: &Circuit| before.find(circuit.number).map(|old| old.place);
    let pairs = after.circuits.windows(2).filter(|pair| pair[0].place == pair[1].place);
    pairs
        .filter(|pair| {
            let (a, b) = (place_before(&pair[0]), place_before(&pair[1]));
            a.is_none() || a != b
        })
        .map(|pair| (&pair[0], &pair[1]))
        .collect()
}

/// An opening that moved others, with the two circuits that it put together.
struct Rearranged<'a> {
    pair: Pair<'a>,
    new: &'a Circuit,
    moves: &'a [Move],
    looks: u32,
}

impl Rearranged<'_> {
    fn tell(&self) -> Telling {
        let mut reasons = Vec::new();
        if self.pair.before.is_full() {
            reasons.push(format!(
                "No place was free: all {} had a circuit. Two circuits that stood alone had to \
                 share one place, so that one place became free.",
                self.pair.before.places()
            ));
        }
        reasons.push(self.found());
        reasons.push(self.pair.direction());
        reasons.extend(self.room());
        reasons.push(self.pair_moved());
        reasons.push(self.placed());
        reasons.extend(turned(self.pair.before, self.pair.after, self.moves));
        Telling { point: self.point(), reasons, next: None }
    }

    fn point(&self) -> String {
        let room = match self.made_room()[..] {
            [] => String::new(),
            ref others => format!(", {} made room", listed(others)),
        };
        let full =
            if self.pair.before.is_full() { "No place was free: circuits " } else { "Circuits " };
        format!(
            "{full}{} and {} were put together{room}, {}. Circuit {} is at place {}.",
            self.pair.a.number,
            self.pair.b.number,
            told_moves(self.moves),
            self.new.number,
            self.new.place
        )
    }

    /// The circuits that moved without being of the pair.
    fn made_room(&self) -> Vec<u32> {
        let of_pair = |number| number == self.pair.a.number || number == self.pair.b.number;
        self.moves.iter().map(|made| made.number).filter(|&number| !of_pair(number)).collect()
    }

    fn found(&self) -> String {
        let (a, b) = (self.pair.a, self.pair.b);
        format!(
            "Pairs of the circuits that stood alone, {} among them, were looked at in order. The \
             {} pair, {} and {}, was the first in which one ends where the other begins: {}.",
            self.new.number,
            ordinal(self.looks),
            a.number,
            b.number,
            meeting(a, b)
        )
    }

    /// How the circuits that are not of the pair made room for it.
    fn room(&self) -> Vec<String> {
        let rooms = self.made_room();
        let told = self.moves.iter().filter(|made| rooms.contains(&made.number));
        told.map(|made| {
            let left = match self.pair.before.at(made.to).next() {
                Some(owner) => format!(", which {} left", owner.number),
                None => String::new(),
            };
            let way = self.pair.a.direction().word();
            format!(
                "{} stood alone at place {}, which runs {way}. It made room there: it moved to \
                 place {}{left}.",
                made.number, made.from, made.to
            )
        })
        .collect()
    }

    fn pair_moved(&self) -> String {
        let rooms = self.made_room();
        let told = self.moves.iter().filter(|made| !rooms.contains(&made.number)).map(told_move);
        let told = told.collect::<Vec<_>>().join(", and ");
        format!("{told}. There the two share.")
    }

    fn placed(&self) -> String {
        let new = self.new;
        let moves = capital(&told_moves(self.moves));
        let numbers: Vec<u32> = self.moves.iter().map(|made| made.number).collect();
        let numbers = listed(&numbers);
        let at = match self.pair.after.partner(new) {
            Some(partner) => format!("joined {} at place {}", partner.number, new.place),
            None => match self.pair.before.at(new.place).next() {
                Some(owner) => format!("took place {}, which {} left", new.place, owner.number),
                None => format!("took place {}", new.place),
            },
        };
        let longer = match Way::of(new, self.pair.after.nodes()).longer() {
            Some(longer) => format!(" It runs {longer}."),
            None => String::new(),
        };
        format!("{} {at}.{longer} {moves} in all: {numbers}.", new.number)
    }
}
