//! What stands on the ring at one moment: port counts, circuits at their places, link loads.

/// Which way round a lightpath runs.
#[derive(Clone, Copy, PartialEq, Eq, Debug)]
pub enum Direction {
    Clockwise,
    Counterclockwise,
}

impl Direction {
    /// Even places run clockwise, odd ones counterclockwise.
    pub fn of(place: u8) -> Direction {
        match place % 2 {
            0 => Direction::Clockwise,
            _ => Direction::Counterclockwise,
        }
    }

    pub fn opposite(self) -> Direction {
        match self {
            Direction::Clockwise => Direction::Counterclockwise,
            Direction::Counterclockwise => Direction::Clockwise,
        }
    }

    pub fn word(self) -> &'static str {
        match self {
            Direction::Clockwise => "clockwise",
            Direction::Counterclockwise => "counterclockwise",
        }
    }
}

#[derive(Clone, Copy, PartialEq, Eq, Debug)]
pub struct Circuit {
    pub number: u32,
    pub source: u8,
    pub destination: u8,
    /// 0 for none.
    pub remark: u16,
    /// 0 for none.
    pub account: u32,
    pub place: u8,
}

impl Circuit {
    pub fn direction(&self) -> Direction {
        Direction::of(self.place)
    }

    /// The links clockwise from source to destination.
    pub fn hops(&self, nodes: u8) -> u8 {
        (self.destination + nodes - self.source) % nodes
    }

    /// The links that it would use in a direction, in the order of travel. Link i joins node i to
    /// the next one clockwise.
    pub fn links_in(&self, direction: Direction, nodes: u8) -> Vec<u8> {
        let first = self.source - 1;
        match direction {
            Direction::Clockwise => {
                (0..self.hops(nodes)).map(|step| (first + step) % nodes + 1).collect()
            }
            Direction::Counterclockwise => (1..=nodes - self.hops(nodes))
                .map(|step| (first + nodes - step) % nodes + 1)
                .collect(),
        }
    }

    /// The links that it uses at its place.
    pub fn links(&self, nodes: u8) -> Vec<u8> {
        self.links_in(self.direction(), nodes)
    }

    /// The links that both would use in a direction, by rising number.
    pub fn common_links(&self, other: &Circuit, direction: Direction, nodes: u8) -> Vec<u8> {
        let others = other.links_in(direction, nodes);
        let mut common = self.links_in(direction, nodes);
        common.retain(|link| others.contains(link));
        common.sort_unstable();
        common
    }
}

#[derive(Clone, PartialEq, Eq, Debug)]
pub struct Table {
    /// Of node 1, node 2, ..: as many transmitters as receivers.
    pub ports: Vec<u8>,
    /// By rising place, the lower number first.
    pub circuits: Vec<Circuit>,
    /// Link 1 clockwise, link 1 counterclockwise, link 2 ..
    pub loads: Vec<u8>,
}

impl Table {
    /// The table of the answers to `write`, `circuits` and `load`, if they fit together. Of the
    /// saved form only the node and port counts at its front are read.
    pub fn from_answers(form: &str, circuits: &[String], load: &str) -> Option<Table> {
        let table = Table {
            ports: ports_of(form)?,
            circuits: circuits
                .iter()
                .skip(1)
                .map(|line| circuit_of(line))
                .collect::<Option<_>>()?,
            loads: load
                .strip_prefix("load ")?
                .split(' ')
                .map(|word| word.parse().ok())
                .collect::<Option<_>>()?,
        };
        let counted = circuits.first()? == &format!("circuits {}", table.circuits.len());
        let loads_fit = table.loads.len() == 2 * table.ports.len();
        (counted && loads_fit && table.circuits.iter().all(|c| table.holds(c))).then_some(table)
    }

    /// Whether a circuit's ends and place can be drawn on this ring.
    fn holds(&self, circuit: &Circuit) -> bool {
        let on_ring = |node: u8| (1..=self.nodes()).contains(&node);
        on_ring(circuit.source)
            && on_ring(circuit.destination)
            && circuit.source != circuit.destination
            && circuit.place < self.places()
    }

    pub fn nodes(&self) -> u8 {
        self.ports.len() as u8
    }

    pub fn port_pairs(&self) -> u16 {
        self.ports.iter().map(|&count| u16::from(count)).sum()
    }

    /// A third of the port pairs, rounded up.
    pub fn wavelengths(&self) -> u8 {
        self.port_pairs().div_ceil(3) as u8
    }

    pub fn places(&self) -> u8 {
        2 * self.wavelengths()
    }

    pub fn find(&self, number: u32) -> Option<&Circuit> {
        self.circuits.iter().find(|circuit| circuit.number == number)
    }

    pub fn at(&self, place: u8) -> impl Iterator<Item = &Circuit> {
        self.circuits.iter().filter(move |circuit| circuit.place == place)
    }

    /// The circuit that shares its place.
    pub fn partner(&self, circuit: &Circuit) -> Option<&Circuit> {
        self.at(circuit.place).find(|other| other.number != circuit.number)
    }

    /// Of the places that run in a direction.
    pub fn lowest_free_place(&self, direction: Direction) -> Option<u8> {
        self.free_places().find(|&place| Direction::of(place) == direction)
    }

    pub fn is_full(&self) -> bool {
        self.free_places().next().is_none()
    }

    fn free_places(&self) -> impl Iterator<Item = u8> + '_ {
        (0..self.places()).filter(|&place| self.at(place).next().is_none())
    }

    pub fn sent_from(&self, node: u8) -> Vec<&Circuit> {
        self.circuits.iter().filter(|circuit| circuit.source == node).collect()
    }

    pub fn received_at(&self, node: u8) -> Vec<&Circuit> {
        self.circuits.iter().filter(|circuit| circuit.destination == node).collect()
    }
}

fn ports_of(form: &str) -> Option<Vec<u8>> {
    let hex = form.strip_prefix("write ")?.split_once(' ')?.1;
    let byte = |index: usize| u8::from_str_radix(hex.get(2 * index..2 * index + 2)?, 16).ok();
    let nodes = byte(0).filter(|nodes| (3..=64).contains(nodes))?;
    let ports: Vec<u8> = (1..=usize::from(nodes)).map(byte).collect::<Option<_>>()?;
    let total: u32 = ports.iter().map(|&count| u32::from(count)).sum();
    (total <= 192).then_some(ports)
}

/// A line `circuit NUMBER from SOURCE to DESTINATION remark REMARK account ACCOUNT place PLACE`.
fn circuit_of(line: &str) -> Option<Circuit> {
    let mut words = line.split(' ');
    let mut after = |name: &str| {
        words.next().filter(|&word| word == name)?;
        words.next()
    };
    let circuit = Circuit {
        number: after("circuit")?.parse().ok()?,
        source: after("from")?.parse().ok()?,
        destination: after("to")?.parse().ok()?,
        remark: after("remark")?.parse().ok()?,
        account: after("account")?.parse().ok()?,
        place: after("place")?.parse().ok()?,
    };
    words.next().is_none().then_some(circuit)
}

#[cfg(test)]
mod tests {
    use super::*;

    fn circuit(source: u8, destination: u8, place: u8) -> Circuit {
        Circuit { number: 7, source, destination, remark: 0, account: 0, place }
    }

    fn lines(text: &str) -> Vec<String> {
        text.lines().map(String::from).collect()
    }

    #[test]
    fn each_way_round_uses_the_links_that_the_other_does_not() {
        assert_eq!(circuit(3, 5, 0).links(6), [3, 4]);
        assert_eq!(circuit(3, 5, 1).links(6), [2, 1, 6, 5]);
        assert_eq!(circuit(4, 3, 0).links(6), [4, 5, 6, 1, 2]);
        assert_eq!(circuit(4, 3, 1).links(6), [3]);
        assert_eq!(circuit(64, 1, 0).links(64), [64]);
        assert_eq!(circuit(1, 64, 1).links(64), [64]);
        for (source, destination) in [(1, 2), (2, 1), (1, 3), (3, 2)] {
            let mut all = circuit(source, destination, 0).links(3);
            all.extend(circuit(source, destination, 1).links(3));
            all.sort_unstable();
            assert_eq!(all, [1, 2, 3]);
        }
    }

    #[test]
    fn links_that_two_would_use() {
        let (a, b) = (circuit(3, 5, 0), circuit(4, 3, 0));
        assert_eq!(a.common_links(&b, Direction::Clockwise, 6), [4]);
        assert_eq!(a.common_links(&b, Direction::Counterclockwise, 6), []);
    }

    #[test]
    fn answers_make_a_table() {
        let circuits = lines(
            "circuits 2\ncircuit 1 from 1 to 2 remark 0 account 0 place 0\n\
             circuit 4294967295 from 2 to 1 remark 65535 account 4294967294 place 0",
        );
        let table = Table::from_answers("write 9 03020100ff", &circuits, "load 1 0 1 0 1 0");
        let table = table.unwrap();
        assert_eq!(table.ports, [2, 1, 0]);
        assert_eq!((table.wavelengths(), table.places()), (1, 2));
        let Circuit { number, remark, account, .. } = table.circuits[1];
        assert_eq!((number, remark, account), (4294967295, 65535, 4294967294));
        assert_eq!(table.partner(&table.circuits[0]), Some(&table.circuits[1]));
        let lowest = [Direction::Clockwise, Direction::Counterclockwise]
            .map(|direction| table.lowest_free_place(direction));
        assert_eq!((lowest, table.is_full()), ([None, Some(1)], false));
        assert_eq!(table.sent_from(2), [&table.circuits[1]]);
        assert_eq!(table.received_at(2), [&table.circuits[0]]);
    }

    #[test]
    fn answers_that_do_not_fit_make_none() {
        let one = |line: &str| lines(&format!("circuits 1\n{line}"));
        let made = |form: &str, circuits: &[String], load: &str| {
            Table::from_answers(form, circuits, load).is_some()
        };
        let good = one("circuit 1 from 1 to 2 remark 0 account 0 place 0");
        let (form, load) = ("write 9 03020100", "load 1 0 0 0 0 0");
        assert!(made(form, &good, load));
        assert!(!made("write 9 0302", &good, load));
        assert!(!made("write failed", &good, load));
        assert!(!made("write 9 02010100", &good, load));
        assert!(!made(form, &good, "load 1 0 0 0"));
        assert!(!made(form, &good, "load 1 0 0 0 0 x"));
        assert!(!made(form, &[], load));
        assert!(!made(form, &lines("circuits 1"), load));
        for bad in [
            "from 4 to 2 remark 0 account 0 place 0",
            "from 1 to 1 remark 0 account 0 place 0",
            "from 1 to 2 remark 0 account 0 place 2",
            "from 1 to 2 remark 0 account 4294967296 place 0",
            "from 1 to 2 remark 0 account 0 place 0 place",
            "from 1 to 2 remark 0 place 0",
            "place 0",
        ] {
            assert!(!made(form, &one(&format!("circuit 1 {bad}")), load), "{bad}");
        }
    }
}
