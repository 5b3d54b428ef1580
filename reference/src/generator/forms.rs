//! Saved forms to read: good ones, and ones with each fault that a refusal names.

use super::rings::Shape;
use super::tables::{break_rule, scattered, without_accounts};
use super::traffic::some_of;
use super::untidy::untidy;
use super::Generator;
use crate::form::{
    form_of, ACCOUNT_BYTES, CIRCUIT_BYTES, FIRST_ACCOUNT, FIRST_REMARK, REMARK_BYTES,
    SECOND_ACCOUNT, SECOND_PRESENT, SECOND_REMARK,
};
use crate::random::Random;
use crate::table::{Table, NODE_PORTS_MOST, PLACES};

/// Saved forms that are remembered.
const SAVED_MOST: usize = 8;

/// In how many of a hundred tables no circuit has an account, as in forms saved before.
const WITHOUT_ACCOUNTS: usize = 25;

/// The longest form that a line has room for.
const FORM_ON_LINE_MOST: usize = 4093;

impl Generator {
    /// The form of the table in force, one saved before, or one of a table never seen.
    pub(super) fn good_form(&mut self) -> Vec<u8> {
        match (self.random.below(10), self.planner.table()) {
            (0..=6, Some(table)) => form_of(table),
            (7, _) if !self.saved_forms.is_empty() => self.random.pick(&self.saved_forms).clone(),
            _ => form_of(&self.scattered_table()),
        }
    }

    /// The form of a table with much to tidy.
    pub(super) fn untidy_form(&mut self) -> Vec<u8> {
        let ports = Shape::choose(self.kind, &mut self.random).ports(&mut self.random);
        form_of(&untidy(&ports, &mut self.random))
    }

    /// Remembers the form of the table in force, in place of an old one if there are enough.
    pub(super) fn save_form(&mut self) {
        let Some(table) = self.planner.table() else {
            return;
        };
        let form = form_of(table);
        if self.saved_forms.len() < SAVED_MOST {
            self.saved_forms.push(form);
        } else {
            self.saved_forms[self.random.below(SAVED_MOST)] = form;
        }
    }

    /// A form that is mostly refused, by one fault or two.
    pub(super) fn damaged_form(&mut self) -> Vec<u8> {
        let mut table = match self.planner.table() {
            Some(table) if self.random.percent(60) => table.clone(),
            _ => self.scattered_table(),
        };
        if self.random.percent(40) {
            break_rule(&mut table, &mut self.random);
            return form_of(&table);
        }
        let mut form = damaged(&table, &mut self.random);
        match self.random.below(10) {
            0 => cut(&mut form, &mut self.random),
            1 => lengthen(&mut form, &mut self.random),
            _ => {}
        }
        form
    }

    fn scattered_table(&mut self) -> Table {
        let shape = Shape::choose(self.kind, &mut self.random);
        let ports = shape.ports(&mut self.random);
        let table = scattered(&ports, &mut self.random);
        if self.random.percent(WITHOUT_ACCOUNTS) {
            without_accounts(table)
        } else {
            table
        }
    }
}

/// The table's form with one fault in its bytes.
fn damaged(table: &Table, random: &mut Random) -> Vec<u8> {
    let mut form = form_of(table);
    let map = 1 + usize::from(table.nodes);
    match random.below(15) {
        0 => form[0] = *random.pick(&[0, 1, 2, 65, 66, 128, 255]),
        1 => form[0] = form[0].wrapping_add_signed(*random.pick(&[-1, 1])),
        2 => form[random.between(1, map - 1)] = random.between(65, 255) as u8,
        3 => form[1..map].iter_mut().take(random.between(3, 5)).for_each(|k| *k = NODE_PORTS_MOST),
        4 => set_bit(&mut form[map..], random.between(table.places_in_use().min(127), PLACES - 1)),
        5 => set_bit(&mut form[map..], random.below(table.places_in_use().max(1))),
        6..=8 => damage_field_map(&mut form, random),
        9 | 10 => write_zero(&mut form, random),
        11 => cut_optional(&mut form, random),
        12 => cut(&mut form, random),
        13 => lengthen(&mut form, random),
        _ => {
            let at = random.below(form.len());
            form[at] = random.below(256) as u8;
        }
    }
    form
}

/// Place p is bit p modulo 8 of byte p / 8.
fn set_bit(map: &mut [u8], place: usize) {
    map[place / 8] |= 1 << (place % 8);
}

fn cut(form: &mut Vec<u8>, random: &mut Random) {
    let length = if random.percent(30) {
        form.len().saturating_sub(random.between(1, 3))
    } else {
        random.below(form.len() + 1)
    };
    form.truncate(length);
}

fn lengthen(form: &mut Vec<u8>, random: &mut Random) {
    let room = FORM_ON_LINE_MOST.saturating_sub(form.len()).max(1);
    let more = match random.below(20) {
        0 => room,
        1 => random.between(1, room),
        _ => random.between(1, 9),
    };
    form.extend((0..more).map(|_| random.below(256) as u8));
}

/// A field of a circuit that is written only where the field map of its record has its bit.
#[derive(Clone, Copy)]
struct Optional {
    record: usize,
    bit: u8,
    /// Where the field begins, or would begin.
    at: usize,
    bytes: usize,
}

impl Optional {
    fn is_written(self, form: &[u8]) -> bool {
        form[self.record] & self.bit != 0
    }
}

/// The bits and widths of a circuit's optional fields, in their order.
const OF_FIRST: [(u8, usize); 2] = [(FIRST_REMARK, REMARK_BYTES), (FIRST_ACCOUNT, ACCOUNT_BYTES)];
const OF_SECOND: [(u8, usize); 2] =
    [(SECOND_REMARK, REMARK_BYTES), (SECOND_ACCOUNT, ACCOUNT_BYTES)];

/// The optional fields of every circuit of a good form, written or not.
fn optional_fields(form: &[u8]) -> Vec<Optional> {
    let mut fields = Vec::new();
    let mut at = 1 + usize::from(form[0]) + PLACES / 8;
    while at < form.len() {
        let record = at;
        let has_second = form[record] & SECOND_PRESENT != 0;
        at += 1;
        for of_circuit in [OF_FIRST, OF_SECOND].iter().take(1 + usize::from(has_second)) {
            at += CIRCUIT_BYTES;
            for &(bit, bytes) in of_circuit {
                let field = Optional { record, bit, at, bytes };
                fields.push(field);
                at += if field.is_written(form) { bytes } else { 0 };
            }
        }
    }
    fields
}

/// A bit that none may be, one that needs a second circuit without it, or one too many or few.
fn damage_field_map(form: &mut [u8], random: &mut Random) {
    let Some(Optional { record, bit, .. }) = some_of(&optional_fields(form), random) else {
        return;
    };
    let alone = form[record] & (FIRST_REMARK | FIRST_ACCOUNT);
    form[record] = match random.below(6) {
        0 | 1 => form[record] | 1 << random.between(5, 7),
        2 => alone | SECOND_REMARK,
        3 => alone | SECOND_ACCOUNT,
        4 => form[record] ^ bit,
        _ => form[record] ^ SECOND_PRESENT,
    };
}

/// A remark or account of 0 written; now and then the form ends within it or right after.
fn write_zero(form: &mut Vec<u8>, random: &mut Random) {
    let Some(field) = some_of(&optional_fields(form), random) else {
        return;
    };
    let Optional { record, bit, at, bytes } = field;
    if field.is_written(form) {
        form[at..at + bytes].fill(0);
    } else {
        form[record] |= bit;
        form.splice(at..at, vec![0; bytes]);
    }
    match random.below(5) {
        0 => form.truncate(at + random.below(bytes)),
        1 => form.truncate(at + bytes),
        _ => {}
    }
}

/// Ends the form where a written remark or account begins, or within it.
fn cut_optional(form: &mut Vec<u8>, random: &mut Random) {
    let mut fields = optional_fields(form);
    fields.retain(|field| field.is_written(form));
    if let Some(Optional { at, bytes, .. }) = some_of(&fields, random) {
        form.truncate(at + random.below(bytes));
    }
}
