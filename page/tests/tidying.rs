//! Tidyings told in words, from answers made by hand.

mod common;

use common::rings::{
    step, table, tidying, Row, AFTER_107, BUSY_MONTH, FILLING_PORTS, MONTH_PORTS, TIDIED,
};
use ringpage::words::{tell, Telling};

#[test]
fn which_circuits_each_round_joined_and_where() {
    let told = tell(&tidying());
    assert_eq!(
        told.point,
        "The ring was tidied in 4 rounds with 5 moves: circuits ran at 8 places, and run at 4 now."
    );
    assert_eq!(
        told.reasons,
        [
            "Round 1 joined 202 and 209 at place 1, wavelength 0 counterclockwise: 202 stayed, and \
             209 came to it from place 6. 202 and 209 run there and back between nodes 5 and 1. A \
             pair that runs there and back can share either way round. Both stood where they fit \
             already (places 1 and 6), so only one had to move: the lower place stayed.",
            "Round 2 joined 203 and 206 at place 5, wavelength 2 counterclockwise: 206 stayed, and \
             203 came to it from place 2. 203 ends at node 4, where 206 begins. Clockwise both \
             would need links 1, 2, 5, 6, 7 and 8, so there they cannot share. Counterclockwise \
             they have no link in common. 206 stood counterclockwise already (place 5), so only \
             the other had to move.",
            "Round 3 joined 210 and 211 at place 3, wavelength 1 counterclockwise: 211 stayed, and \
             210 came to it from place 7. 211 ends at node 3, where 210 begins. Clockwise both \
             would need link 7, so there they cannot share. Counterclockwise they have no link in \
             common. Both stood counterclockwise already (places 3 and 7), so only one had to \
             move: the lower place stayed.",
            "Round 4 joined 201 and 205 at place 7, wavelength 3 counterclockwise, which 210 left \
             in round 3: both came, 201 from place 0 and 205 from place 4. 205 ends at node 6, \
             where 201 begins. Clockwise both would need links 1 and 8, so there they cannot \
             share. Counterclockwise they have no link in common. But both stood clockwise (places \
             0 and 4), so both had to move.",
            "203 now runs its shorter way round, 1 link instead of 7. 205 now runs its shorter way \
             round, 2 links instead of 6.",
            "Nothing runs any more at places 0, 2, 4 and 6: wavelengths 0, 1, 2 and 3 clockwise \
             fell dark.",
        ]
    );
    assert_eq!(told.next, None);
}

/// A tidying of a ring of six nodes, told.
fn on_six(answer: &str, before: &[Row], after: &[Row]) -> Telling {
    let ring = |rows| Some(table(&[2; 6], rows));
    tell(&step("tidy", answer, ring(before), ring(after)))
}

#[test]
fn both_come_to_a_place_that_was_free() {
    let told = on_six(
        "tidy rounds 1 moves 2\nmove 7 from 1 to 0\nmove 8 from 3 to 0",
        &[(7, 1, 3, 1), (8, 3, 4, 3), (9, 2, 3, 4)],
        &[(7, 1, 3, 0), (8, 3, 4, 0), (9, 2, 3, 4)],
    );
    assert_eq!(
        told.point,
        "The ring was tidied in 1 round with 2 moves: circuits ran at 3 places, and run at 2 now."
    );
    assert_eq!(
        told.reasons,
        [
            "Round 1 joined 7 and 8 at place 0, wavelength 0 clockwise, which was free: both came, \
             7 from place 1 and 8 from place 3. 7 ends at node 3, where 8 begins. Counterclockwise \
             both would need links 4, 5 and 6, so there they cannot share. Clockwise they have no \
             link in common. But both stood counterclockwise (places 1 and 3), so both had to move.",
            "7 now runs its shorter way round, 2 links instead of 4. 8 now runs its shorter way \
             round, 1 link instead of 5.",
            "Nothing runs any more at places 1 and 3: wavelengths 0 and 1 counterclockwise fell \
             dark.",
        ]
    );
}

#[test]
fn wavelengths_fall_dark_each_way_round() {
    let told = on_six(
        "tidy rounds 2 moves 2\nmove 2 from 2 to 1\nmove 4 from 5 to 4",
        &[(1, 2, 3, 1), (2, 3, 2, 2), (3, 4, 5, 4), (4, 5, 6, 5)],
        &[(1, 2, 3, 1), (2, 3, 2, 1), (3, 4, 5, 4), (4, 5, 6, 4)],
    );
    assert_eq!(
        told.reasons[3],
        "Nothing runs any more at places 2 and 5: wavelength 1 clockwise and wavelength 2 \
         counterclockwise fell dark."
    );
}

#[test]
fn a_tidied_circuit_may_run_its_longer_way_round() {
    let told = on_six(
        "tidy rounds 1 moves 2\nmove 7 from 0 to 1\nmove 8 from 2 to 1",
        &[(7, 1, 3, 0), (8, 3, 2, 2)],
        &[(7, 1, 3, 1), (8, 3, 2, 1)],
    );
    assert_eq!(
        told.reasons[1],
        "7 now runs its longer way round, 4 links instead of 2. 8 now runs its shorter way round, \
         1 link instead of 5."
    );
}

#[test]
fn a_tidying_that_joined_nothing_names_who_stands_alone() {
    let told = |rows: &[Row]| on_six("tidy rounds 0 moves 0", rows, rows);
    for (rows, expected) in [
        (&[][..], "The ring has no circuits."),
        (&[(1, 2, 3, 1), (2, 3, 2, 1)], "No circuit stands alone."),
        (&[(1, 2, 3, 1)], "Only circuit 1 stands alone, at place 1."),
        (&[(1, 2, 3, 1), (2, 4, 5, 2), (3, 2, 6, 3)], "Circuits 1, 2 and 3 stand alone."),
    ] {
        let point = "No two circuits could be joined, so nothing moved.";
        let reasons = vec![expected.into()];
        assert_eq!(told(rows), Telling { point: point.into(), reasons, next: None });
    }
    let many: Vec<Row> = (0..7).map(|place| (u32::from(place), 1, 2, place)).collect();
    assert_eq!(told(&many).reasons, ["7 circuits stand alone."]);
}

#[test]
fn answers_that_do_not_fit_together_are_told_move_by_move() {
    let told = |answer: &str, after: &[Row]| {
        let ring = |rows| Some(table(&MONTH_PORTS, rows));
        tell(&step("tidy", answer, ring(&BUSY_MONTH), ring(after)))
    };
    for (answer, after) in [
        ("tidy rounds 1 moves 1\nmove 209 from 6 to 1", &BUSY_MONTH),
        ("tidy rounds 2 moves 1\nmove 209 from 6 to 1", &TIDIED),
        ("tidy rounds 1 moves 1\nmove 201 from 0 to 1", &TIDIED),
    ] {
        let Telling { point, reasons, .. } = told(answer, after);
        assert!(point.starts_with("The ring was tidied in ") && point.ends_with(" with 1 move."));
        assert!(reasons.len() == 1 && reasons[0].ends_with(" to place 1."), "{reasons:?}");
    }
}

#[test]
fn refused_lines() {
    let told = |line: &str, before: Option<_>| {
        tell(&step(line, "line refused", before.clone(), before)).reasons
    };
    let ring = || Some(table(&FILLING_PORTS, &AFTER_107));
    for line in ["tidy 128", "tidy ", "tidy now"] {
        assert_eq!(
            told(line, ring()),
            ["Tidying takes the whole ring as it is: nothing stands after the word, not even a \
              space."]
        );
        assert!(told(line, None)[0].starts_with("No ring is lit yet,"));
    }
    assert!(told("tidy", None)[0].starts_with("No ring is lit yet,"));
    assert!(told("tidying", ring())[0].contains("misspelt"));
}
