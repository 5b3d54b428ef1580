//! The load report and the one-link question.

mod common;

use std::process::Output;

use common::{circuit, open, plan_tables, ring, run_on_form, standing, tables};
use second_controller::form::{self, FORM_MOST};
use second_controller::generator::{self, Kind};
use second_controller::place::Direction::{self, Clockwise, Counterclockwise};
use second_controller::place::Wavelength;
use second_controller::refusal::Refusal;
use second_controller::report::{link_question, load, loads_afresh, loads_in_one_walk, NO_CIRCUIT};
use second_controller::table::{Table, NODES_LEAST, NODES_MOST, RING_PORTS_MOST};

fn form_of(table: &Table) -> Vec<u8> {
    let mut buffer = vec![0; FORM_MOST];
    let length = form::write(table, &mut buffer).unwrap();
    buffer.truncate(length);
    buffer
}

/// 1→3 and 3→4 clockwise at place 0, 2→1 counterclockwise at place 1.
fn small_table() -> Table {
    let mut table = ring(&[1; 5]);
    for new in [circuit(1, 1, 3), circuit(2, 2, 1), circuit(3, 3, 4)] {
        open(&mut table, new).unwrap();
    }
    table
}

#[test]
fn the_load_counts_each_way_and_leaves_the_rest() {
    let mut buffer = [0xEE; 12];
    assert_eq!(load(&small_table(), &mut buffer), Ok(()));
    assert_eq!(buffer, [1, 1, 1, 0, 1, 0, 0, 0, 0, 0, 0xEE, 0xEE]);
}

#[test]
fn the_load_refuses_a_broken_table_and_then_a_short_buffer() {
    let mut buffer = [0xEE; 9];
    assert_eq!(load(&Table::blank(), &mut []), Err(Refusal::BrokenTable));
    assert_eq!(load(&small_table(), &mut buffer), Err(Refusal::ShortBuffer));
    assert_eq!(buffer, [0xEE; 9]);
}

/// On five nodes, two lightpaths each way over link 5: one at a shared place and one alone.
fn table_over_link_5() -> Table {
    let circuits = [
        (0, circuit(1, 4, 2)),
        (0, circuit(2, 2, 3)),
        (1, circuit(3, 1, 4)),
        (1, circuit(4, 4, 3)),
        (2, circuit(5, 3, 1)),
        (3, circuit(6, 2, 5)),
    ];
    standing(&[2; 5], &circuits)
}

/// Clockwise 4→2 runs over links 4, 5 and 1, 2→3 over 2, 3→1 over 3, 4 and 5; counterclockwise
/// 1→4 runs over 5 and 4, 4→3 over 3, 2→5 over 1 and 5.
#[test]
fn a_walk_with_lightpaths_over_the_last_link_each_way() {
    let by_hand = [1, 1, 1, 0, 1, 1, 2, 1, 2, 2];
    for fill in [loads_in_one_walk, loads_afresh] {
        let mut report = [0xEE; 10];
        fill(&table_over_link_5(), &mut report);
        assert_eq!(report, by_hand);
    }
}

/// Tables of every size of ring, from none to all of the circuits that their ports permit, as
/// openings leave them; and tables with circuits wherever they may stand.
fn many_tables() -> Vec<Table> {
    let mut many = plan_tables(Kind::Mixed, 42, 30_000, 17);
    for nodes in NODES_LEAST..=NODES_MOST {
        let most = RING_PORTS_MOST as usize;
        for (seed, circuits) in (0..).zip((0..=most).step_by(6)) {
            many.push(form::read(&generator::form(nodes, circuits, seed)).unwrap());
        }
    }
    many
}

/// The report in memory that held something else before.
fn report_by(fill: impl Fn(&Table, &mut [u8]), table: &Table) -> Vec<u8> {
    let mut report = vec![0xEE; 2 * usize::from(table.nodes)];
    fill(table, &mut report);
    report
}

#[test]
fn the_walk_gives_what_counting_afresh_gives() {
    let many = many_tables();
    assert!(many.len() > 3500);
    let live = |table: &Table| table.circuits().count();
    for nodes in NODES_LEAST..=NODES_MOST {
        let mut of_size = many.iter().filter(|table| table.nodes == nodes);
        assert!(of_size.clone().any(|table| live(table) == 0), "{nodes} nodes, empty");
        assert!(of_size.any(|table| live(table) == 192), "{nodes} nodes, full");
    }
    for table in many {
        let [walk, afresh] = [loads_in_one_walk, loads_afresh].map(|fill| report_by(fill, &table));
        assert_eq!(walk, afresh, "{table:?}");
    }
}

/// The lightpaths of this direction from the node and those to it.
fn from_and_to(table: &Table, node: u8, direction: Direction) -> (usize, usize) {
    let there = table.lightpaths().filter(|lightpath| lightpath.place.direction() == direction);
    let (mut from, mut to) = (0, 0);
    for lightpath in there {
        from += usize::from(lightpath.circuit.source == node);
        to += usize::from(lightpath.circuit.destination == node);
    }
    (from, to)
}

#[test]
fn the_load_grows_and_falls_by_what_begins_and_ends_between_two_links() {
    for table in many_tables() {
        let mut report = [0; 2 * NODES_MOST as usize];
        load(&table, &mut report).unwrap();
        let load = |link: u8, way: usize| usize::from(report[2 * usize::from(link - 1) + way]);
        for link in 1..=table.nodes {
            let next = if link == table.nodes { 1 } else { link + 1 };
            // Link i goes from node i to the next, so that link `next` begins at the node between.
            let (from, to) = from_and_to(&table, next, Clockwise);
            assert_eq!(load(next, 0) + to, load(link, 0) + from, "link {link} of {table:?}");
            let (from, to) = from_and_to(&table, next, Counterclockwise);
            assert_eq!(load(next, 1) + from, load(link, 1) + to, "link {link} of {table:?}");
        }
    }
}

fn reference_load(arguments: &[&str], form: &[u8]) -> Output {
    run_on_form(env!("CARGO_BIN_EXE_reference-load"), arguments, form)
}

#[test]
fn the_program_to_be_timed_writes_the_report() {
    let form = form_of(&table_over_link_5());
    for way in ["--walk", "--afresh"] {
        for count in ["1", "3"] {
            let Output { status, stdout, stderr } = reference_load(&[way, count], &form);
            assert!(status.success() && stderr.is_empty(), "{way} {count}");
            assert_eq!(stdout, [1, 1, 1, 0, 1, 1, 2, 1, 2, 2], "{way} {count}");
        }
    }
}

#[test]
fn the_program_to_be_timed_refuses_bad_forms_and_arguments() {
    let form = form_of(&table_over_link_5());
    let refused = reference_load(&["--walk", "1"], &form[..9]);
    assert_eq!((refused.status.code(), refused.stdout), (Some(1), vec![]));
    assert_eq!(refused.stderr, b"reference-load: read refused 30\n");
    let lines: [&[&str]; 6] = [
        &[],
        &["--walk"],
        &["--walk", "0"],
        &["--afresh", "x"],
        &["--walk", "1", "--afresh", "1"],
        &["--both", "1"],
    ];
    for arguments in lines {
        let refused = reference_load(arguments, &form);
        assert_eq!((refused.status.code(), refused.stdout), (Some(2), vec![]), "{arguments:?}");
        assert!(refused.stderr.starts_with(b"reference-load: "), "{arguments:?}");
    }
}

#[test]
fn the_link_question_finds_the_circuit_on_the_link() {
    let form = form_of(&small_table());
    let clockwise = |link| link_question(&form, link, 0, 0);
    assert_eq!([1, 2, 3].map(clockwise), [1, 1, 3]);
    assert_eq!([4, 5].map(clockwise), [NO_CIRCUIT; 2]);
    assert_eq!(link_question(&form, 1, 0, 1), 2);
    assert_eq!(link_question(&form, 2, 0, 1), NO_CIRCUIT);
    assert_eq!(link_question(&form, 1, 1, 0), NO_CIRCUIT);
}

#[test]
fn each_refusal_of_the_link_question_in_order() {
    let form = form_of(&small_table());
    let refused = |number: u64| NO_CIRCUIT + number;
    assert_eq!(link_question(&[], 9, 9, 9), refused(30));
    assert_eq!(link_question(&form[..28], 9, 9, 9), refused(30));
    assert_eq!(link_question(&form, 0, 9, 9), refused(10));
    assert_eq!(link_question(&form, 6, 9, 9), refused(10));
    assert_eq!(link_question(&form, 1, 2, 9), refused(16));
    assert_eq!(link_question(&form, 1, 1, 2), refused(17));
    assert_eq!(link_question(&form, (1 << 32) + 1, 0, 0), refused(10));
    assert_eq!(link_question(&form, 1, 1 << 8, 0), refused(16));
    assert_eq!(link_question(&form, 1, 0, 1 << 32), refused(17));
}

#[test]
fn the_link_questions_add_up_to_the_load() {
    for table in tables(Kind::Mixed, 41, 4000, 401) {
        let form = form_of(&table);
        let mut report = [0; 128];
        load(&table, &mut report).unwrap();
        for link in 1..=u64::from(table.nodes) {
            for direction in [0, 1] {
                let lit = (0..u64::from(table.wavelengths())).filter(|&wavelength| {
                    link_question(&form, link, wavelength, direction) < NO_CIRCUIT
                });
                let at = 2 * (link as usize - 1) + direction as usize;
                assert_eq!(lit.count(), usize::from(report[at]));
            }
        }
    }
}

#[test]
fn wavelength_63_is_places_126_and_127() {
    assert_eq!(Wavelength(63).place(Counterclockwise).index(), 127);
}
