//! The load report and the one-link question.

use crate::form;
use crate::place::{Direction, Place, Wavelength};
use crate::refusal::Refusal;
use crate::table::{Table, NODES_MOST};

/// The answer of the one-link question where no circuit uses the link.
pub const NO_CIRCUIT: u64 = 1 << 32;

/// Writes each link's lightpaths clockwise and then counterclockwise.
pub fn load(table: &Table, buffer: &mut [u8]) -> Result<(), Refusal> {
    if !table.meets_ring_rules() {
        return Err(Refusal::BrokenTable);
    }
    let report = buffer.get_mut(..2 * usize::from(table.nodes)).ok_or(Refusal::ShortBuffer)?;
    loads_in_one_walk(table, report);
    Ok(())
}

/// Fills the report, 2 × N bytes, of a table that meets the ring rules: a running load each way,
/// carried from link to link.
pub fn loads_in_one_walk(table: &Table, report: &mut [u8]) {
    let (mut clockwise, mut counterclockwise) = (Walk::new(), Walk::new());
    for channels in table.channels.chunks_exact(2) {
        channels[0].circuits().for_each(|c| clockwise.add(c.source, c.destination));
        channels[1].circuits().for_each(|c| counterclockwise.add(c.destination, c.source));
    }
    for (node, loads) in (1..).zip(report.chunks_exact_mut(2)) {
        loads[0] = clockwise.load_past(node);
        loads[1] = counterclockwise.load_past(node);
    }
}

/// The lightpaths of one direction as a walk clockwise from link 1 to link N meets them: it comes
/// to those that run counterclockwise at their destination and leaves them at their source.
struct Walk {
    /// Those over the link walked last; before link 1, those over link N.
    load: u8,
    /// Those that the walk comes to at each node, and those that it leaves; node 0 is no node.
    begin: [u8; NODES_MOST as usize + 1],
    end: [u8; NODES_MOST as usize + 1],
}

impl Walk {
    fn new() -> Walk {
        let none = [0; NODES_MOST as usize + 1];
        Walk { load: 0, begin: none, end: none }
    }

    /// Takes in a lightpath that the walk comes to at the first node and leaves at the last.
    fn add(&mut self, first: u8, last: u8) {
        self.begin[usize::from(first)] += 1;
        self.end[usize::from(last)] += 1;
        self.load += u8::from(last < first);
    }

    /// Goes past the node and gives the load of the link that follows it.
    fn load_past(&mut self, node: usize) -> u8 {
        self.load += self.begin[node];
        self.load -= self.end[node];
        self.load
    }
}

/// Fills the report, 2 × N bytes, of a table that meets the ring rules, with every lightpath
/// looked at anew for each link.
pub fn loads_afresh(table: &Table, report: &mut [u8]) {
    for (link, loads) in (1..).zip(report.chunks_exact_mut(2)) {
        loads[0] = lightpaths_over(table, link, Direction::Clockwise);
        loads[1] = lightpaths_over(table, link, Direction::Counterclockwise);
    }
}

fn lightpaths_over(table: &Table, link: u8, direction: Direction) -> u8 {
    let mut count = 0;
    for (place, channel) in (0u8..).zip(&table.channels) {
        if Place(place).direction() == direction {
            let using = channel.circuits().filter(|c| c.uses_link(link, direction, table.nodes));
            count += using.count() as u8;
        }
    }
    count
}

/// What runs on a link of the form's table, as a 64-bit answer: the circuit's number, 2^32 for
/// none, or 2^32 plus the number of a refusal.
pub fn link_question(form: &[u8], link: u64, wavelength: u64, direction: u64) -> u64 {
    let answer =
        form::read(form).and_then(|table| circuit_on_link(&table, link, wavelength, direction));
    match answer {
        Ok(Some(number)) => u64::from(number),
        Ok(None) => NO_CIRCUIT,
        Err(refusal) => NO_CIRCUIT + u64::from(refusal.number()),
    }
}

/// The circuit on the link at this wavelength and direction, on a table that meets the ring rules.
pub fn circuit_on_link(
    table: &Table,
    link: u64,
    wavelength: u64,
    direction: u64,
) -> Result<Option<u32>, Refusal> {
    if link == 0 || link > u64::from(table.nodes) {
        return Err(Refusal::OffRing);
    }
    if wavelength >= u64::from(table.wavelengths()) {
        return Err(Refusal::NoWavelength);
    }
    let direction = match direction {
        0 => Direction::Clockwise,
        1 => Direction::Counterclockwise,
        _ => return Err(Refusal::NoDirection),
    };
    let place = Wavelength(wavelength as u8).place(direction);
    let user = table.channels[place.index()]
        .circuits()
        .find(|circuit| circuit.uses_link(link as u8, direction, table.nodes));
    Ok(user.map(|circuit| circuit.number))
}
