//! A tidying in words: which circuits each round joined and where, and what fell dark.

use crate::pair::{meeting, Pair};
use crate::step::{Move, Step};
use crate::table::{Circuit, Direction, Table};
use crate::ways::turned;
use crate::words::{capital, count, listed, told_move, Telling};

/// The rounds are told with their reasons where there are at most so many.
const EXPLAINED_MOST: usize = 8;

/// The circuits that stand alone are named where there are at most so many.
const NAMED_MOST: usize = 6;

pub fn tell(step: &Step, rounds: usize, moves: &[Move]) -> Telling {
    let Some((before, after)) = step.before.as_deref().zip(step.after.as_deref()) else {
        return Telling::plain("The ring was tidied.");
    };
    if rounds == 0 && moves.is_empty() {
        return nothing_joined(after);
    }
    let tidied = format!(
        "The ring was tidied in {} with {}",
        count(rounds, "round"),
        count(moves.len(), "move")
    );
    let joined: Option<Vec<Round>> =
        rounds_of(moves).map(|moves| Round::of(before, after, moves)).collect();
    match joined {
        Some(joined) if joined.len() == rounds => Telling {
            point: format!(
                "{tidied}: circuits ran at {}, and run at {} now.",
                count(lit(before).len(), "place"),
                lit(after).len()
            ),
            reasons: round_by_round(&joined)
                .into_iter()
                .chain(turned(before, after, moves).filter(|_| rounds <= EXPLAINED_MOST))
                .chain(dark(before, after))
                .collect(),
            next: None,
        },
        _ => Telling {
            point: tidied + ".",
            reasons: moves.iter().map(|made| told_move(made) + ".").collect(),
            next: None,
        },
    }
}

/// The moves of each round: they go to one place, and no other round joins circuits there.
fn rounds_of(moves: &[Move]) -> impl Iterator<Item = &[Move]> {
    moves.chunk_by(|one, next| one.to == next.to)
}

fn nothing_joined(table: &Table) -> Telling {
    let alone: Vec<&Circuit> =
        table.circuits.iter().filter(|circuit| table.partner(circuit).is_none()).collect();
    let reason = match &alone[..] {
        [] if table.circuits.is_empty() => "The ring has no circuits.".into(),
        [] => "No circuit stands alone.".into(),
        [one] => format!("Only circuit {} stands alone, at place {}.", one.number, one.place),
        some if some.len() <= NAMED_MOST => {
            let numbers: Vec<u32> = some.iter().map(|circuit| circuit.number).collect();
            format!("Circuits {} stand alone.", listed(&numbers))
        }
        many => format!("{} circuits stand alone.", many.len()),
    };
    Telling {
        point: "No two circuits could be joined, so nothing moved.".into(),
        reasons: vec![reason],
        next: None,
    }
}

fn round_by_round(rounds: &[Round]) -> Vec<String> {
    let told = (1..).zip(rounds).map(|(number, round)| {
        let done = round.done(number, rounds);
        if rounds.len() > EXPLAINED_MOST {
            return done;
        }
        let Pair { a, b, .. } = round.pair;
        format!("{done} {}. {}", capital(&meeting(a, b)), round.pair.direction())
    });
    told.collect()
}

/// Two circuits that a round joined, and its moves: one where the other circuit stayed, or two.
struct Round<'a> {
    pair: Pair<'a>,
    moves: &'a [Move],
}

impl<'a> Round<'a> {
    /// Nothing where the moves are not those of one round.
    fn of(before: &'a Table, after: &'a Table, moves: &'a [Move]) -> Option<Round<'a>> {
        let mut at = after.at(moves.first()?.to);
        let (a, b) = (at.next()?, at.next()?);
        let of_pair = moves.iter().all(|made| [a.number, b.number].contains(&made.number));
        (of_pair && moves.len() <= 2).then_some(Round { pair: Pair { before, after, a, b }, moves })
    }

    /// What the round did, as one of the two kinds: one circuit stayed, or both came.
    fn done(&self, number: usize, rounds: &[Round]) -> String {
        let Pair { a, b, .. } = self.pair;
        let place = a.place;
        let kind = match self.moves {
            [one] => {
                let stayed = if one.number == a.number { b } else { a };
                format!(
                    ": {} stayed, and {} came to it from place {}",
                    stayed.number, one.number, one.from
                )
            }
            two => {
                let came: Vec<String> = two
                    .iter()
                    .map(|one| format!("{} from place {}", one.number, one.from))
                    .collect();
                format!(", {}: both came, {}", self.was_free(rounds), listed(&came))
            }
        };
        format!(
            "Round {number} joined {} and {} at place {place}, {}{kind}.",
            a.number,
            b.number,
            wavelength(place)
        )
    }

    /// Since when nothing ran at the place to which both came.
    fn was_free(&self, rounds: &[Round]) -> String {
        let place = self.pair.a.place;
        let left = (1..).zip(rounds).find_map(|(number, round)| {
            let made = round.moves.iter().find(|made| made.from == place)?;
            Some(format!("which {} left in round {number}", made.number))
        });
        left.unwrap_or_else(|| "which was free".into())
    }
}

/// A place as its wavelength and way round.
fn wavelength(place: u8) -> String {
    format!("wavelength {} {}", place / 2, Direction::of(place).word())
}

/// The places at which circuits run, rising.
fn lit(table: &Table) -> Vec<u8> {
    (0..table.places()).filter(|&place| table.at(place).next().is_some()).collect()
}

/// The places at which circuits ran and run no more.
fn dark(before: &Table, after: &Table) -> Option<String> {
    let now = lit(after);
    let mut places = lit(before);
    places.retain(|place| !now.contains(place));
    let ways = [Direction::Clockwise, Direction::Counterclockwise].map(|way| {
        let of_way = places.iter().filter(|&&place| Direction::of(place) == way);
        let numbers: Vec<u8> = of_way.map(|place| place / 2).collect();
        (!numbers.is_empty()).then(|| format!("{} {}", many("wavelength", &numbers), way.word()))
    });
    let ways: Vec<String> = ways.into_iter().flatten().collect();
    (!places.is_empty()).then(|| {
        format!("Nothing runs any more at {}: {} fell dark.", many("place", &places), listed(&ways))
    })
}

/// Numbers with their noun: `place 3`, `places 3 and 5`.
fn many(noun: &str, numbers: &[u8]) -> String {
    let ending = if numbers.len() == 1 { "" } else { "s" };
    format!("{noun}{ending} {}", listed(numbers))
}

#[cfg(test)]
mod tests {
    use super::*;

    #[test]
    fn moves_to_one_place_are_one_round() {
        let moved = |number, from, to| Move { number, from, to };
        let moves = [moved(1, 2, 0), moved(2, 1, 6), moved(3, 7, 6), moved(4, 3, 4)];
        let rounds: Vec<usize> = rounds_of(&moves).map(<[Move]>::len).collect();
        assert_eq!(rounds, [1, 2, 1]);
        assert_eq!(rounds_of(&[]).count(), 0);
    }
}
