//! Two circuits that have come to share a place, in words: where they meet, which way round they
//! fit, and which of them had to move.

use crate::table::{Circuit, Table};
use crate::words::{capital, count, listed};

/// Two circuits that share a place now and did not before, as they stand now.
pub struct Pair<'a> {
    pub before: &'a Table,
    pub after: &'a Table,
    pub a: &'a Circuit,
    pub b: &'a Circuit,
}

impl Pair<'_> {
    /// Why the pair shares the way round that it does, and who had to move for that.
    pub fn direction(&self) -> String {
        let stood = self.stood();
        if self.there_and_back() {
            return format!("A pair that runs there and back can share either way round. {stood}");
        }
        let way = self.a.direction();
        let clash = self.a.common_links(self.b, way.opposite(), self.after.nodes());
        format!(
            "{} both would need {}, so there they cannot share. {} they have no link in common. \
             {stood}",
            capital(way.opposite().word()),
            links_in_words(&clash),
            capital(way.word())
        )
    }

    fn there_and_back(&self) -> bool {
        there_and_back(self.a, self.b)
    }

    /// Which way the old members of the pair stood, and so who had to move.
    fn stood(&self) -> String {
        let way = self.a.direction();
        let fro = way.opposite().word();
        let right = if self.there_and_back() { "where they fit" } else { way.word() };
        let old = [self.a, self.b].into_iter().filter_map(|new| self.before.find(new.number));
        let (fitting, other): (Vec<&Circuit>, Vec<&Circuit>) =
            old.partition(|circuit| self.there_and_back() || circuit.direction() == way);
        match (&fitting[..], &other[..]) {
            ([a, b], _) => {
                let (low, high) = (a.place.min(b.place), a.place.max(b.place));
                let kept = if self.a.place == low { "lower" } else { "higher" };
                format!(
                    "Both stood {right} already (places {low} and {high}), so only one had to \
                     move: the {kept} place stayed."
                )
            }
            ([a], _) => format!(
                "{} stood {right} already (place {}), so only the other had to move.",
                a.number, a.place
            ),
            (_, [a, b]) => format!(
                "But both stood {fro} (places {} and {}), so both had to move.",
                a.place, b.place
            ),
            (_, [a]) => {
                format!("But {} stood {fro} (place {}), so it had to move.", a.number, a.place)
            }
            _ => String::new(),
        }
    }
}

/// Where one of two circuits ends and the other begins.
pub fn meeting(a: &Circuit, b: &Circuit) -> String {
    if there_and_back(a, b) {
        return format!(
            "{} and {} run there and back between nodes {} and {}",
            a.number, b.number, a.source, a.destination
        );
    }
    let (ends, begins) = if a.destination == b.source { (a, b) } else { (b, a) };
    format!("{} ends at node {}, where {} begins", ends.number, begins.source, begins.number)
}

/// Whether each of two circuits begins where the other ends.
fn there_and_back(a: &Circuit, b: &Circuit) -> bool {
    a.destination == b.source && b.destination == a.source
}

pub fn links_in_words(links: &[u8]) -> String {
    let mut links = links.to_vec();
    links.sort_unstable();
    match links.len() {
        1 => format!("link {}", links[0]),
        2..=6 => format!("links {}", listed(&links)),
        many => count(many, "link"),
    }
}
