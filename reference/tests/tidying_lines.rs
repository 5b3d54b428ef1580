//! The planning program's line `tidy`, what such lines count as, and the program to be timed.

mod common;

use std::process::Output;

use common::{answer, answer_on, circuit, coverage_of, read_line, ring, run_on_form, standing};
use second_controller::circuit::Circuit;
use second_controller::coverage::{Event, TidyingEvent};
use second_controller::form;
use second_controller::generator;
use second_controller::place::Direction::{Clockwise, Counterclockwise};
use second_controller::table::Table;
use TidyingEvent::*;

/// 1→3 and 3→4 stand counterclockwise, and fit clockwise.
fn untidy_table() -> Table {
    standing(&[1; 5], &[(1, circuit(9, 1, 3)), (3, circuit(4, 3, 4))])
}

#[test]
fn a_tidying_and_its_moves() {
    let output = "tidy rounds 1 moves 2\nmove 9 from 1 to 0\nmove 4 from 3 to 0\n";
    assert_eq!(answer_on(&untidy_table(), &["tidy"]), output);
    let lines = ["ring 5 2 2 2 2 2", "open 1 2 4 0 0", "open 2 1 3 0 0", "open 3 3 2 0 0", "tidy"];
    let output = answer(&lines);
    // 3 could share with 1 and with 2 counterclockwise, where neither stands, so it took an unlit
    // place.
    let end = "open 3 place 1 moves 0 looks 0\ntidy rounds 1 moves 1\nmove 1 from 0 to 1\n";
    assert!(output.ends_with(end), "{output}");
}

#[test]
fn the_tidied_table_is_in_force() {
    let lines = ["tidy", "tidy", "circuits", "open 5 4 5 0 0"];
    let output = "tidy rounds 1 moves 2\nmove 9 from 1 to 0\nmove 4 from 3 to 0\n\
        tidy rounds 0 moves 0\n\
        circuits 2\ncircuit 4 from 3 to 4 remark 0 account 0 place 0\n\
        circuit 9 from 1 to 3 remark 0 account 0 place 0\n\
        open 5 place 2 moves 0 looks 0\n";
    assert_eq!(answer_on(&untidy_table(), &lines), output);
    assert_eq!(answer_on(&ring(&[0; 3]), &["tidy"]), "tidy rounds 0 moves 0\n");
}

#[test]
fn remarks_and_accounts_go_with_their_circuits() {
    let [nine, four] = [circuit(9, 1, 3), circuit(4, 3, 4)].map(|circuit| Circuit {
        remark: circuit.number as u16 + 1,
        account: u32::MAX - circuit.number,
        ..circuit
    });
    let output = answer_on(&standing(&[1; 5], &[(1, nine), (3, four)]), &["tidy", "write"]);
    let tidied = read_line(&standing(&[1; 5], &[(0, four), (0, nine)]));
    let form = tidied.strip_prefix("read ").unwrap();
    assert!(output.ends_with(&format!("write {} {form}\n", form.len() / 2)), "{output}");
}

#[test]
fn tidying_needs_a_table_and_takes_no_word() {
    assert_eq!(
        answer(&["tidy", "read -", "tidy"]),
        "line refused\nread refused 30\nline refused\n"
    );
    let lines = [
        "tidy ",
        " tidy",
        "tidy 1",
        "tidy 128",
        "tidy tidy",
        "tidy  1",
        "Tidy",
        "TIDY",
        "tidying",
        "tid",
        "tidy\r",
        "tidy\t",
    ];
    for line in lines {
        assert_eq!(answer_on(&untidy_table(), &[line]), "line refused\n", "{line}");
    }
    // The table stays as it was.
    let kept = answer_on(&untidy_table(), &["tidy 1", "tidy"]);
    assert!(kept.starts_with("line refused\ntidy rounds 1 moves 2\n"), "{kept}");
}

/// The events of the table's tidying, each of which came once.
fn events(table: &Table) -> Vec<TidyingEvent> {
    let coverage = coverage_of(&[&read_line(table), "tidy"]);
    let events = TidyingEvent::all().into_iter().map(Event::Tidying);
    let reached = events.filter(|&event| coverage.count(event) > 0);
    let of_tidying = |event: Event| match event {
        Event::Tidying(tidying) if coverage.count(event) == 1 => tidying,
        _ => panic!("{event} came more than once"),
    };
    reached.map(of_tidying).collect()
}

/// The event of the one round that joins circuits with these ends at these places.
fn round(ends: [(u8, u8); 2], places: [u8; 2]) -> TidyingEvent {
    let circuits = [1, 2].map(|number| {
        let (source, destination) = ends[number - 1];
        (places[number - 1], circuit(number as u32, source, destination))
    });
    let mut events = events(&standing(&[2; 6], &circuits));
    assert_eq!(events.remove(0), Tidied);
    assert_eq!(events.len(), 1);
    events[0]
}

#[test]
fn rounds_by_the_members_that_fit() {
    let (clockwise, counterclockwise) = ([(1, 3), (3, 4)], [(1, 5), (5, 4)]);
    assert_eq!(round(clockwise, [0, 1]), LowerFits(Clockwise));
    assert_eq!(round(counterclockwise, [1, 2]), LowerFits(Counterclockwise));
    assert_eq!(round(clockwise, [1, 2]), HigherFits(Clockwise));
    assert_eq!(round(counterclockwise, [0, 1]), HigherFits(Counterclockwise));
    assert_eq!(round(clockwise, [1, 3]), BothMoved(Clockwise));
    assert_eq!(round(counterclockwise, [0, 2]), BothMoved(Counterclockwise));
    let both = |stayed, moved| BothFit { stayed, moved };
    assert_eq!(round(clockwise, [0, 2]), both(Clockwise, Clockwise));
    assert_eq!(round(counterclockwise, [3, 1]), both(Counterclockwise, Counterclockwise));
    let there_and_back = [(2, 3), (3, 2)];
    assert_eq!(round(there_and_back, [0, 1]), both(Clockwise, Counterclockwise));
    assert_eq!(round(there_and_back, [2, 1]), both(Counterclockwise, Clockwise));
    assert_eq!(round(there_and_back, [2, 4]), both(Clockwise, Clockwise));
}

#[test]
fn tidyings_by_their_rounds() {
    assert_eq!(events(&ring(&[1; 5])), [Tidied, NoRound]);
    let alone = standing(&[1; 64], &[(0, circuit(1, 1, 3)), (1, circuit(2, 4, 5))]);
    assert_eq!(events(&alone), [Tidied, NoRound]);
    let pair = standing(&[1; 64], &[(0, circuit(1, 1, 3)), (1, circuit(2, 3, 5))]);
    assert_eq!(events(&pair), [Tidied, LargestRing, LowerFits(Clockwise)]);
    let billed = Circuit { account: 7, ..circuit(2, 3, 5) };
    let moved = standing(&[1; 5], &[(0, circuit(1, 1, 3)), (1, billed)]);
    assert_eq!(events(&moved), [Tidied, MovedWithAccount, LowerFits(Clockwise)]);
    let stayed = standing(&[1; 5], &[(2, billed), (3, circuit(3, 1, 3))]);
    assert_eq!(events(&stayed), [Tidied, LowerFits(Clockwise)]);
    // Every place is lit; the place that 2 leaves is used by 3 and 4.
    let [one, two, three, four] =
        [circuit(1, 1, 2), circuit(2, 2, 3), circuit(3, 4, 5), circuit(4, 5, 6)];
    let full = standing(&[1; 6], &[(0, one), (1, three), (2, two), (3, four)]);
    let both = BothFit { stayed: Clockwise, moved: Clockwise };
    let expected = [Tidied, SeveralRounds, FullRing, both, BothMoved(Clockwise), ToFreedPlace];
    assert_eq!(events(&full), expected);
}

#[test]
fn pairs_that_are_passed_over() {
    // 2 and 4 fit clockwise, where every place is lit.
    let past = |number| circuit(number, 1, 3);
    let circuits = [(0, past(1)), (1, circuit(2, 1, 2)), (3, circuit(4, 2, 3)), (4, past(5))];
    let none = standing(&[4, 1, 4], &[&circuits[..], &[(2, past(3))]].concat());
    assert_eq!(events(&none), [Tidied, NoRound, NoRoundThoughAdjacent]);
    let later = [(2, circuit(3, 4, 5)), (5, circuit(6, 5, 4))];
    let table = standing(&[3, 1, 3, 1, 1], &[&circuits[..], &later].concat());
    let both = BothFit { stayed: Clockwise, moved: Counterclockwise };
    assert_eq!(events(&table), [Tidied, FullRing, both, PassedOver(Clockwise)]);
    // 1 and 3, of 8 hops on five nodes, fit counterclockwise, where every place is lit.
    let past = |number| circuit(number, 2, 5);
    let circuits = [(0, circuit(1, 2, 1)), (1, past(2)), (2, circuit(3, 1, 5)), (5, past(6))];
    let later = [(3, circuit(4, 3, 4)), (4, circuit(5, 4, 3))];
    let table = standing(&[1, 3, 1, 1, 3], &[&circuits[..], &later].concat());
    let both = BothFit { stayed: Counterclockwise, moved: Clockwise };
    assert_eq!(events(&table), [Tidied, FullRing, both, PassedOver(Counterclockwise)]);
}

#[test]
fn a_pair_joined_after_a_later_one() {
    let circuits = [
        (0, circuit(1, 4, 8)),
        (1, circuit(2, 1, 2)),
        (2, circuit(3, 5, 6)),
        (3, circuit(4, 2, 3)),
        (4, circuit(5, 6, 7)),
    ];
    let both = BothFit { stayed: Clockwise, moved: Clockwise };
    let expected = [
        Tidied,
        SeveralRounds,
        both,
        BothMoved(Clockwise),
        ToFreedPlace,
        PassedOver(Clockwise),
        BeforeLast,
    ];
    assert_eq!(events(&standing(&[1; 8], &circuits)), expected);
}

#[test]
fn openings_after_a_tidying() {
    let read = read_line(&untidy_table());
    let opens = |lines: &[&str]| {
        let coverage = coverage_of(lines);
        let count = |event| coverage.count(Event::Tidying(event));
        (count(OpenedAfter), count(OpenedAfterWithMoves))
    };
    assert_eq!(opens(&[&read, "open 5 4 5 0 0"]), (0, 0));
    assert_eq!(opens(&[&read, "tidy", "open 5 4 5 0 0", "tidy", "open 6 5 1 0 0"]), (2, 0));
    assert_eq!(opens(&[&read, "tidy", "open 5 9 9 0 0", "close 9"]), (0, 0));
    for new_table in [&read, "ring 5 1 1 1 1 1"] {
        assert_eq!(opens(&[&read, "tidy", new_table, "open 5 4 5 0 0"]), (0, 0));
    }
    let nothing_to_tidy = read_line(&standing(&[1; 5], &[(1, circuit(9, 1, 3))]));
    assert_eq!(opens(&[&nothing_to_tidy, "tidy", "open 5 4 5 0 0"]), (0, 0));
}

#[test]
fn an_account_that_a_tidying_moved_is_shown() {
    let billed = Circuit { account: 7, ..circuit(9, 1, 3) };
    let read = read_line(&standing(&[1; 5], &[(1, billed), (3, circuit(4, 3, 4))]));
    let coverage = coverage_of(&[&read, "write", "tidy", "write", "circuits"]);
    assert_eq!(coverage.count(Event::WrittenAfterMove), 1);
    assert_eq!(coverage.count(Event::CircuitsAfterMove), 1);
}

#[test]
fn refused_lines_that_would_tidy() {
    let coverage = coverage_of(&["tidy", "tidy 1", "ring 3 1 1 1", "tidy 128", "tidy ", "Tidy"]);
    assert_eq!(coverage.count(Event::RefusedBeforeTable("tidy")), 1);
    assert_eq!(coverage.count(Event::Tidying(WordAfter)), 2);
    assert_eq!(coverage.count(Event::RefusedSpaces), 1);
    assert_eq!(coverage.count(Event::RefusedOther), 1);
}

fn reference_tidy(arguments: &[&str], form: &[u8]) -> Output {
    run_on_form(env!("CARGO_BIN_EXE_reference-tidy"), arguments, form)
}

/// 258 and 7 move from places 1 and 3 to place 0.
#[test]
fn the_program_to_be_timed_writes_what_a_tidying_gives() {
    let ports = [1; 5];
    let [one, two] = [circuit(258, 1, 3), circuit(7, 3, 4)];
    let mut buffer = [0; form::FORM_MOST];
    let mut form_of = |table: &Table| {
        let length = form::write(table, &mut buffer).unwrap();
        buffer[..length].to_vec()
    };
    let untidied = form_of(&standing(&ports, &[(1, one), (3, two)]));
    let tidied = form_of(&standing(&ports, &[(0, two), (0, one)]));
    let moves = [1, 2, 0, 0, 1, 2, 1, 0, 0, 0, 0, 7, 3, 0];
    for count in ["1", "3"] {
        let Output { status, stdout, stderr } = reference_tidy(&[count], &untidied);
        assert!(status.success() && stderr.is_empty(), "{count}");
        assert_eq!(stdout, [&moves[..], &tidied].concat(), "{count}");
    }
    let again = reference_tidy(&["1"], &tidied);
    assert_eq!(again.stdout, [&[0, 0][..], &tidied].concat());
}

#[test]
fn the_program_to_be_timed_refuses_bad_forms_and_arguments() {
    let form = generator::crowded_form(64, 1);
    let refused = reference_tidy(&["1"], &form[..9]);
    assert_eq!((refused.status.code(), refused.stdout), (Some(1), vec![]));
    assert_eq!(refused.stderr, b"reference-tidy: read refused 30\n");
    let lines: [&[&str]; 6] = [&[], &["0"], &["x"], &["-1"], &["1", "1"], &["--walk", "1"]];
    for arguments in lines {
        let refused = reference_tidy(arguments, &form);
        assert_eq!((refused.status.code(), refused.stdout), (Some(2), vec![]), "{arguments:?}");
        assert!(refused.stderr.starts_with(b"usage: reference-tidy "), "{arguments:?}");
    }
}
