//! The saved form of a ring table: writing and reading.

use crate::circuit::Circuit;
use crate::refusal::Refusal;
use crate::table::{Channel, Rule, Table, NODES_LEAST, NODES_MOST, PLACES, RING_PORTS_MOST};

const MAP_BYTES: usize = PLACES / 8;

/// The bytes of a circuit's number, source and destination, of its remark and of its account.
pub(crate) const CIRCUIT_BYTES: usize = 6;
pub(crate) const REMARK_BYTES: usize = 2;
pub(crate) const ACCOUNT_BYTES: usize = 4;

/// The longest form: the most nodes, every place lit, and a circuit with a remark and an account
/// from each port.
pub const FORM_MOST: usize = 1
    + NODES_MOST as usize
    + MAP_BYTES
    + PLACES
    + RING_PORTS_MOST as usize * (CIRCUIT_BYTES + REMARK_BYTES + ACCOUNT_BYTES);

/// The bits of a record's field map.
pub(crate) const FIRST_REMARK: u8 = 1 << 0;
pub(crate) const SECOND_PRESENT: u8 = 1 << 1;
pub(crate) const SECOND_REMARK: u8 = 1 << 2;
pub(crate) const FIRST_ACCOUNT: u8 = 1 << 3;
pub(crate) const SECOND_ACCOUNT: u8 = 1 << 4;

const KNOWN_BITS: u8 =
    FIRST_REMARK | SECOND_PRESENT | SECOND_REMARK | FIRST_ACCOUNT | SECOND_ACCOUNT;

/// Writes the form to the front of the buffer and answers with its length.
pub fn write(table: &Table, buffer: &mut [u8]) -> Result<usize, Refusal> {
    if !table.meets_ring_rules() {
        return Err(Refusal::BrokenTable);
    }
    let form = form_of(table);
    let front = buffer.get_mut(..form.len()).ok_or(Refusal::ShortBuffer)?;
    front.copy_from_slice(&form);
    Ok(form.len())
}

/// The form, whether or not the table meets the ring rules.
pub(crate) fn form_of(table: &Table) -> Vec<u8> {
    let mut form = vec![table.nodes];
    form.extend(&table.ports[..usize::from(table.nodes)]);
    form.extend(map_of(table));
    for channel in &table.channels {
        if let Some(field_map) = field_map(*channel) {
            form.push(field_map);
            channel.circuits().for_each(|circuit| write_circuit(circuit, &mut form));
        }
    }
    form
}

/// Place p is bit p modulo 8 of byte p / 8.
fn map_of(table: &Table) -> [u8; MAP_BYTES] {
    let mut map = [0; MAP_BYTES];
    for (place, channel) in table.channels.iter().enumerate() {
        if *channel != Channel::Unlit {
            map[place / 8] |= 1 << (place % 8);
        }
    }
    map
}

/// The field map of the place's record, if it has one.
pub(crate) fn field_map(channel: Channel) -> Option<u8> {
    let of_first = |circuit: Circuit| {
        bit_if(circuit.remark != 0, FIRST_REMARK) | bit_if(circuit.account != 0, FIRST_ACCOUNT)
    };
    let of_second = |circuit: Circuit| {
        bit_if(circuit.remark != 0, SECOND_REMARK) | bit_if(circuit.account != 0, SECOND_ACCOUNT)
    };
    match channel {
        Channel::Unlit => None,
        Channel::One(circuit) => Some(of_first(circuit)),
        Channel::Two(first, second) => Some(of_first(first) | SECOND_PRESENT | of_second(second)),
    }
}

fn bit_if(stands: bool, bit: u8) -> u8 {
    if stands {
        bit
    } else {
        0
    }
}

fn write_circuit(circuit: Circuit, form: &mut Vec<u8>) {
    form.extend(circuit.number.to_be_bytes());
    form.push(circuit.source);
    form.push(circuit.destination);
    if circuit.remark != 0 {
        form.extend(circuit.remark.to_be_bytes());
    }
    if circuit.account != 0 {
        form.extend(circuit.account.to_be_bytes());
    }
}

/// What is wrong with a form, in more detail than the refusal says.
#[derive(Clone, Copy, PartialEq, Eq, PartialOrd, Ord, Debug)]
pub enum Fault {
    /// A fault of the ring itself.
    Ring(Refusal),
    Cut,
    /// An account ends early, or is missing at the end of the form.
    AccountCut,
    /// The map has a bit at 2 × W or above.
    HighPlace,
    /// The field map has one of the bits 5 to 7.
    UnknownField,
    /// The field map has bit 2 without bit 1.
    RemarkOfNone,
    /// The field map has bit 4 without bit 1.
    AccountOfNone,
    /// A remark of 0 is written.
    RemarkOfZero,
    /// An account of 0 is written.
    AccountOfZero,
    Tail,
    Rule(Rule),
}

impl Fault {
    pub fn refusal(self) -> Refusal {
        match self {
            Fault::Ring(refusal) => refusal,
            Fault::Cut | Fault::AccountCut => Refusal::FormCut,
            Fault::HighPlace
            | Fault::UnknownField
            | Fault::RemarkOfNone
            | Fault::AccountOfNone
            | Fault::RemarkOfZero
            | Fault::AccountOfZero => Refusal::FormField,
            Fault::Tail => Refusal::FormTail,
            Fault::Rule(_) => Refusal::FormRules,
        }
    }
}

/// The table of the form, or the refusal of the first fault.
pub fn read(form: &[u8]) -> Result<Table, Refusal> {
    decode(form).map_err(Fault::refusal)
}

/// The table of the form, or the first fault from left to right.
pub fn decode(form: &[u8]) -> Result<Table, Fault> {
    let mut fields = Fields { rest: form };
    let nodes = fields.byte()?;
    if !(NODES_LEAST..=NODES_MOST).contains(&nodes) {
        return Err(Fault::Ring(Refusal::RingSize));
    }
    let ports = fields.bytes(usize::from(nodes))?;
    let mut table = Table::make(nodes, ports).map_err(Fault::Ring)?;
    let map: [u8; MAP_BYTES] = fields.array()?;
    let places_in_use = table.places_in_use();
    if (places_in_use..PLACES).any(|place| is_lit(&map, place)) {
        return Err(Fault::HighPlace);
    }
    for place in (0..places_in_use).filter(|&place| is_lit(&map, place)) {
        table.channels[place] = fields.record()?;
    }
    if !fields.rest.is_empty() {
        return Err(Fault::Tail);
    }
    match table.broken_rule() {
        Some(rule) => Err(Fault::Rule(rule)),
        None => Ok(table),
    }
}

fn is_lit(map: &[u8; MAP_BYTES], place: usize) -> bool {
    map[place / 8] >> (place % 8) & 1 == 1
}

/// What is still to be read of a form.
struct Fields<'a> {
    rest: &'a [u8],
}

impl<'a> Fields<'a> {
    /// The next field; one cut short is refused before its content is judged.
    fn bytes(&mut self, count: usize) -> Result<&'a [u8], Fault> {
        let (field, rest) = self.rest.split_at_checked(count).ok_or(Fault::Cut)?;
        self.rest = rest;
        Ok(field)
    }

    fn array<const COUNT: usize>(&mut self) -> Result<[u8; COUNT], Fault> {
        let field = self.bytes(COUNT)?;
        Ok(field.try_into().expect("a field has the length asked for"))
    }

    fn byte(&mut self) -> Result<u8, Fault> {
        let [byte] = self.array()?;
        Ok(byte)
    }

    fn record(&mut self) -> Result<Channel, Fault> {
        let field_map = self.byte()?;
        let has = |bit| field_map & bit != 0;
        if has(!KNOWN_BITS) {
            return Err(Fault::UnknownField);
        }
        if has(SECOND_REMARK) && !has(SECOND_PRESENT) {
            return Err(Fault::RemarkOfNone);
        }
        if has(SECOND_ACCOUNT) && !has(SECOND_PRESENT) {
            return Err(Fault::AccountOfNone);
        }
        let first = self.circuit(has(FIRST_REMARK), has(FIRST_ACCOUNT))?;
        if !has(SECOND_PRESENT) {
            return Ok(Channel::One(first));
        }
        let second = self.circuit(has(SECOND_REMARK), has(SECOND_ACCOUNT))?;
        Ok(Channel::Two(first, second))
    }

    fn circuit(&mut self, has_remark: bool, has_account: bool) -> Result<Circuit, Fault> {
        let number = u32::from_be_bytes(self.array()?);
        let source = self.byte()?;
        let destination = self.byte()?;
        let remark = if has_remark { self.remark()? } else { 0 };
        let account = if has_account { self.account()? } else { 0 };
        Ok(Circuit { number, source, destination, remark, account })
    }

    fn remark(&mut self) -> Result<u16, Fault> {
        match u16::from_be_bytes(self.array()?) {
            0 => Err(Fault::RemarkOfZero),
            remark => Ok(remark),
        }
    }

    fn account(&mut self) -> Result<u32, Fault> {
        let field = self.array().map_err(|_| Fault::AccountCut)?;
        match u32::from_be_bytes(field) {
            0 => Err(Fault::AccountOfZero),
            account => Ok(account),
        }
    }
}
