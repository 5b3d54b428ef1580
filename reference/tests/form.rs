//! The saved form: writing, reading and the faults of a form.

mod common;

use common::{circuit, open, ring, ring_of_01, standing, tables};
use second_controller::circuit::Circuit;
use second_controller::form::{read, write, FORM_MOST};
use second_controller::generator::Kind;
use second_controller::refusal::Refusal;
use second_controller::table::Table;

fn form_of(table: &Table) -> Vec<u8> {
    let mut buffer = vec![0xEE; FORM_MOST + 7];
    let length = write(table, &mut buffer).unwrap();
    assert!(length <= FORM_MOST);
    assert!(buffer[length..].iter().all(|&byte| byte == 0xEE));
    buffer.truncate(length);
    buffer
}

fn with_11_alone() -> Table {
    let mut table = ring(&[1; 5]);
    open(&mut table, circuit(11, 1, 5)).unwrap();
    table
}

/// Bytes of a form where the map and the records of `with_11_alone` begin.
const MAP: usize = 6;
const RECORD: usize = 22;

#[test]
fn circuit_11_alone_is_29_bytes() {
    let form = form_of(&with_11_alone());
    assert_eq!(form.len(), 29);
    assert_eq!(form[MAP], 2);
    assert_eq!(form[..MAP], [5, 1, 1, 1, 1, 1]);
    assert_eq!(form[RECORD..], [0, 0, 0, 0, 11, 1, 5]);
}

#[test]
fn two_at_a_place_with_remarks() {
    let mut table = ring(&[1; 3]);
    open(&mut table, Circuit { remark: 0x0102, ..circuit(0xA1B2C3D4, 1, 2) }).unwrap();
    open(&mut table, Circuit { remark: 7, ..circuit(5, 2, 3) }).unwrap();
    let record = [7, 0, 0, 0, 5, 2, 3, 0, 7, 0xA1, 0xB2, 0xC3, 0xD4, 1, 2, 1, 2];
    assert_eq!(form_of(&table)[4 + 16..], record);
}

/// Every port of 64 nodes in use by a circuit to the next node, each with a remark and an account:
/// two at each clockwise place and one at each counterclockwise one.
fn largest() -> Table {
    let next = |node: u8| node % 64 + 1;
    let from = |node: u8, number: u32| Circuit {
        remark: u16::MAX,
        account: u32::MAX,
        ..circuit(number, node, next(node))
    };
    let mut circuits = Vec::new();
    for node in 1..=64 {
        let (place, number) = (2 * (node - 1), 3 * u32::from(node));
        circuits.push((place, from(node, number)));
        circuits.push((place, from(next(node), number + 1)));
        circuits.push((place + 1, from(node, number + 2)));
    }
    standing(&[3; 64], &circuits)
}

#[test]
fn the_longest_form_is_2513_bytes() {
    let form = form_of(&largest());
    assert_eq!((form.len(), FORM_MOST), (2513, 2513));
    assert_eq!(read(&form), Ok(largest()));
    assert_eq!(write(&largest(), &mut [0; 2512]), Err(Refusal::ShortBuffer));
    assert_eq!(read(&form[..2512]), Err(Refusal::FormCut));
    assert_eq!(read(&[&form[..], &[0]].concat()), Err(Refusal::FormTail));
}

#[test]
fn writing_refuses_a_broken_table_and_then_a_short_buffer() {
    let mut buffer = [0xEE; 28];
    assert_eq!(write(&Table::blank(), &mut buffer), Err(Refusal::BrokenTable));
    assert_eq!(write(&Table::blank(), &mut []), Err(Refusal::BrokenTable));
    assert_eq!(write(&with_11_alone(), &mut buffer), Err(Refusal::ShortBuffer));
    assert_eq!(buffer, [0xEE; 28]);
}

#[test]
fn a_form_read_back_gives_the_table_written() {
    for kind in [Kind::Small, Kind::Mixed, Kind::Large] {
        for table in tables(kind, 21, 6000, 11) {
            assert_eq!(read(&form_of(&table)), Ok(table));
        }
    }
}

#[test]
fn a_form_cut_anywhere_is_refused_with_30() {
    for kind in [Kind::Small, Kind::Large] {
        for table in tables(kind, 31, 3000, 97) {
            let form = form_of(&table);
            for length in 0..form.len() {
                assert_eq!(read(&form[..length]), Err(Refusal::FormCut), "{length} bytes");
            }
        }
    }
}

/// The form of circuit 11 alone, changed.
fn changed(change: impl FnOnce(&mut Vec<u8>)) -> Result<Table, Refusal> {
    let mut form = form_of(&with_11_alone());
    change(&mut form);
    read(&form)
}

#[test]
fn faults_of_the_ring_in_a_form() {
    assert_eq!(changed(|form| form[0] = 2), Err(Refusal::RingSize));
    assert_eq!(changed(|form| form[0] = 65), Err(Refusal::RingSize));
    assert_eq!(read(&[65]), Err(Refusal::RingSize));
    assert_eq!(changed(|form| form[5] = 65), Err(Refusal::NodePorts));
    assert_eq!(changed(|form| form[1..5].fill(64)), Err(Refusal::RingPorts));
    assert_eq!(read(&[4, 64, 65, 64, 64]), Err(Refusal::NodePorts));
    assert_eq!(read(&[4, 65, 64, 64]), Err(Refusal::FormCut));
}

#[test]
fn faults_of_the_fields_in_a_form() {
    assert_eq!(changed(|form| form[MAP] |= 1 << 4), Err(Refusal::FormField));
    assert_eq!(changed(|form| form[MAP + 15] = 128), Err(Refusal::FormField));
    assert_eq!(read(&[&[3, 1, 1, 1][..], &[255; 15]].concat()), Err(Refusal::FormCut));
}

fn has(bits: u8, bit: u8) -> bool {
    bits >> bit & 1 == 1
}

/// Whether a record may have this field map: no bit from 5 up, and neither 2 nor 4 without 1.
fn is_field_map(bits: u8) -> bool {
    bits >> 5 == 0 && (has(bits, 1) || !has(bits, 2) && !has(bits, 4))
}

/// The record of 11, and of 12 where bit 1 stands, with the other fields that the map names.
fn record_with(bits: u8) -> Vec<u8> {
    let mut record = vec![bits, 0, 0, 0, 11, 1, 5];
    let fields: [(u8, &[u8]); 5] = [
        (0, &[1, 2]),
        (3, &[3, 4, 5, 6]),
        (1, &[0, 0, 0, 12, 5, 1]),
        (2, &[0, 7]),
        (4, &[0, 8, 0, 0]),
    ];
    for (bit, field) in fields {
        if has(bits, bit) {
            record.extend(field);
        }
    }
    record
}

/// The ring of five nodes with the circuits of that record.
fn table_with(bits: u8) -> Table {
    let remark = |bit, remark: u16| if has(bits, bit) { remark } else { 0 };
    let account = |bit, account: u32| if has(bits, bit) { account } else { 0 };
    let first =
        Circuit { remark: remark(0, 0x0102), account: account(3, 0x03040506), ..circuit(11, 1, 5) };
    let second =
        Circuit { remark: remark(2, 7), account: account(4, 0x00080000), ..circuit(12, 5, 1) };
    let circuits = [(0, first), (0, second)];
    standing(&[1; 5], &circuits[..1 + usize::from(has(bits, 1))])
}

#[test]
fn every_field_map_is_read_and_written_back() {
    let field_maps: Vec<u8> = (0..=255).filter(|&bits| is_field_map(bits)).collect();
    assert_eq!(field_maps.len(), 20);
    for bits in field_maps {
        let form = form_of_five(1, &[&record_with(bits)]);
        assert_eq!(read(&form), Ok(table_with(bits)), "{bits:05b}");
        assert_eq!(form_of(&table_with(bits)), form, "{bits:05b}");
    }
}

#[test]
fn any_other_field_map_is_named_as_soon_as_it_is_there() {
    for bits in (0..=255).filter(|&bits| !is_field_map(bits)) {
        assert_eq!(read(&form_of_five(1, &[&[bits]])), Err(Refusal::FormField), "{bits:08b}");
    }
}

#[test]
fn a_written_remark_of_0_is_named_as_soon_as_it_is_whole() {
    let with_remark = |tail: &'static [u8], field_map| {
        changed(move |form| {
            form[RECORD] = field_map;
            form.extend(tail);
        })
    };
    assert_eq!(with_remark(&[0, 0], 1), Err(Refusal::FormField));
    assert_eq!(with_remark(&[0], 1), Err(Refusal::FormCut));
    assert_eq!(with_remark(&[0, 0], 3), Err(Refusal::FormField));
    assert!(with_remark(&[0, 1], 1).is_ok());
}

#[test]
fn a_written_account_of_0_is_named_as_soon_as_it_is_whole() {
    let first = |field_map: u8, tail: &[u8]| {
        let record = [&[field_map, 0, 0, 0, 11, 1, 5][..], tail].concat();
        read(&form_of_five(1, &[&record])).map(|_| ())
    };
    assert_eq!(first(0b01000, &[]), Err(Refusal::FormCut));
    assert_eq!(first(0b01000, &[0; 3]), Err(Refusal::FormCut));
    assert_eq!(first(0b01000, &[0; 4]), Err(Refusal::FormField));
    assert_eq!(first(0b01010, &[0; 4]), Err(Refusal::FormField), "a second circuit is due");
    assert_eq!(first(0b01000, &[1, 0, 0, 0]), Ok(()));
    assert_eq!(first(0b01000, &[0, 0, 0, 1]), Ok(()));
    assert_eq!(first(0b01001, &[0, 0]), Err(Refusal::FormField), "the remark comes first");
    assert_eq!(first(0b01001, &[0, 1, 0, 0, 0]), Err(Refusal::FormCut));
    assert_eq!(first(0b01001, &[0, 1, 0, 0, 0, 0]), Err(Refusal::FormField));
    let second = |tail: &[u8]| first(0b10010, &[&[0, 0, 0, 12, 5, 1][..], tail].concat());
    assert_eq!(second(&[]), Err(Refusal::FormCut));
    assert_eq!(second(&[0; 3]), Err(Refusal::FormCut));
    assert_eq!(second(&[0; 4]), Err(Refusal::FormField));
    assert_eq!(second(&[0, 0, 1, 0]), Ok(()));
}

#[test]
fn a_form_saved_before_has_account_0_throughout_and_is_written_back_the_same() {
    let records: [&[u8]; 2] = [
        &[0b00111, 0, 0, 0, 11, 1, 5, 0, 7, 0, 0, 0, 12, 5, 1, 1, 2],
        &[0b00000, 0, 0, 0, 13, 2, 3],
    ];
    let form = form_of_five(0b11, &records);
    let table = read(&form).unwrap();
    assert!(table.circuits().all(|circuit| circuit.account == 0));
    assert_eq!(form_of(&table), form);
}

#[test]
fn bytes_after_the_last_record_come_before_the_rules() {
    assert_eq!(changed(|form| form.push(0)), Err(Refusal::FormTail));
    let off_ring = |form: &mut Vec<u8>| form[RECORD + 5] = 9;
    assert_eq!(changed(off_ring), Err(Refusal::FormRules));
    let off_ring_with_tail = |form: &mut Vec<u8>| {
        off_ring(form);
        form.push(0);
    };
    assert_eq!(changed(off_ring_with_tail), Err(Refusal::FormTail));
}

#[test]
fn a_form_that_breaks_a_ring_rule() {
    // Both at place 0, which is clockwise.
    let second = |number: u8, source, destination| {
        changed(move |form| {
            form[MAP] = 1;
            form[RECORD] = 2;
            form.extend([0, 0, 0, number, source, destination]);
        })
    };
    assert!(second(12, 5, 1).is_ok());
    assert_eq!(second(11, 5, 1), Err(Refusal::FormRules), "a number twice");
    assert_eq!(second(10, 5, 1), Err(Refusal::FormRules), "the higher number first");
    assert_eq!(second(12, 2, 3), Err(Refusal::FormRules), "not adjacent");
    assert_eq!(second(12, 5, 4), Err(Refusal::FormRules), "not in this direction");
    assert_eq!(second(12, 5, 5), Err(Refusal::FormRules), "equal ends");
    assert_eq!(changed(|form| form[1] = 0), Err(Refusal::FormRules), "no port");
}

/// A ring of five nodes with a port each, of which these places of the first eight are lit.
fn form_of_five(lit: u8, records: &[&[u8]]) -> Vec<u8> {
    let mut form = vec![5, 1, 1, 1, 1, 1, lit];
    form.extend([0; 15]);
    form.extend(records.concat());
    form
}

#[test]
fn a_circuit_and_its_return_are_read_at_every_place() {
    for place in 0..4 {
        let record = [2, 0, 0, 0, 12, 2, 3, 0, 0, 0, 14, 3, 2];
        let form = form_of_five(1 << place, &[&record]);
        let table = standing(&[1; 5], &[(place, circuit(12, 2, 3)), (place, circuit(14, 3, 2))]);
        assert_eq!(read(&form), Ok(table.clone()));
        assert_eq!(form_of(&table), form);
    }
}

#[test]
fn two_with_other_hops_are_read_at_places_of_one_direction() {
    // 2→4 with 4→1 totals 4, with 4→3 it totals 6.
    let record = |destination| [2, 0, 0, 0, 1, 2, 4, 0, 0, 0, 2, 4, destination];
    for place in 0..4 {
        let read_at = |destination| read(&form_of_five(1 << place, &[&record(destination)]));
        let (fewer, more) = (read_at(1), read_at(3));
        let (good, refused) = if place % 2 == 0 { (fewer, more) } else { (more, fewer) };
        assert!(good.is_ok(), "place {place}");
        assert_eq!(refused, Err(Refusal::FormRules), "place {place}");
    }
}

/// Document 01's own tables before 15 and at the end, in which 12 and its return 14 stand alone.
#[test]
fn forms_of_the_release_before_are_read() {
    let before_15 = form_of_five(
        0b1111,
        &[
            &[0, 0, 0, 0, 11, 1, 5],
            &[0, 0, 0, 0, 12, 2, 3],
            &[0, 0, 0, 0, 13, 4, 1],
            &[0, 0, 0, 0, 14, 3, 2],
        ],
    );
    assert_eq!(read(&before_15), Ok(ring_of_01()));
    let after_16 = form_of_five(
        0b1111,
        &[
            &[0, 0, 0, 0, 12, 2, 3],
            &[2, 0, 0, 0, 11, 1, 5, 0, 0, 0, 16, 4, 1],
            &[0, 0, 0, 0, 15, 5, 4],
            &[0, 0, 0, 0, 14, 3, 2],
        ],
    );
    let circuits = [
        (0, circuit(12, 2, 3)),
        (1, circuit(11, 1, 5)),
        (1, circuit(16, 4, 1)),
        (2, circuit(15, 5, 4)),
        (3, circuit(14, 3, 2)),
    ];
    assert_eq!(read(&after_16), Ok(standing(&[1; 5], &circuits)));
}
