//! Steps told in words, from answers made by hand.

mod common;

use common::rings::{opening_107, step, table, Row, AFTER_107, FILLING_PORTS};
use ringpage::ringplan::printable;
use ringpage::step::Step;
use ringpage::words::{tell, Telling};

fn on_filling(request: &str, answer: &str, before: &[Row], after: &[Row]) -> Telling {
    let ring = |rows| Some(table(&FILLING_PORTS, rows));
    tell(&step(request, answer, ring(before), ring(after)))
}

/// The rows with some replaced by number, and others added.
fn with(rows: &[Row], changed: &[Row]) -> Vec<Row> {
    let kept = rows.iter().filter(|row| changed.iter().all(|other| other.0 != row.0));
    kept.chain(changed).copied().collect()
}

fn without(rows: &[Row], number: u32) -> Vec<Row> {
    rows.iter().filter(|row| row.0 != number).copied().collect()
}

fn after_108() -> Vec<Row> {
    with(&AFTER_107, &[(104, 1, 2, 0), (102, 6, 5, 3), (108, 5, 3, 3)])
}

#[test]
fn why_107_needed_three_moves() {
    let told = tell(&opening_107());
    assert_eq!(
        told.point,
        "No place was free: circuits 101 and 105 were put together, 102 made room, three moves. Circuit \
         107 is at place 4."
    );
    assert_eq!(
        told.reasons,
        [
            "No place was free: all 6 had a circuit. Two circuits that stood alone had to share \
             one place, so that one place became free.",
            "Pairs of the circuits that stood alone, 107 among them, were looked at in order. The \
             4th pair, 101 and 105, was the first in which one ends where the other begins: 105 \
             ends at node 3, where 101 begins.",
            "Clockwise both would need link 4, so there they cannot share. Counterclockwise they \
             have no link in common. But both stood clockwise (places 0 and 4), so both had to \
             move.",
            "102 stood alone at place 1, which runs counterclockwise. It made room there: it moved \
             to place 0, which 101 left.",
            "101 moved from place 0 to place 1, and 105 moved from place 4 to place 1. There the \
             two share.",
            "107 took place 4, which 105 left. It runs its longer way round, 4 links instead of 2. \
             Three moves in all: 102, 101 and 105.",
            "102 now runs its longer way round, 5 links instead of 1. 101 now runs its longer way \
             round, 4 links instead of 2. 105 now runs its shorter way round, 1 link instead of 5.",
        ]
    );
    assert_eq!(told.next, None);
}

#[test]
fn a_pair_with_the_new_circuit() {
    let told = on_filling(
        "open 108 5 3 0 0",
        "open 108 place 3 moves 2 looks 5\nmove 104 from 3 to 0\nmove 102 from 0 to 3",
        &AFTER_107,
        &after_108(),
    );
    assert_eq!(
        told.point,
        "No place was free: circuits 102 and 108 were put together, 104 made room, two moves. Circuit \
         108 is at place 3."
    );
    assert_eq!(
        told.reasons[2..],
        [
            "Clockwise both would need links 1, 2 and 6, so there they cannot share. \
             Counterclockwise they have no link in common. But 102 stood clockwise (place 0), so \
             it had to move.",
            "104 stood alone at place 3, which runs counterclockwise. It made room there: it moved \
             to place 0, which 102 left.",
            "102 moved from place 0 to place 3. There the two share.",
            "108 joined 102 at place 3. Two moves in all: 104 and 102.",
            "104 now runs its shorter way round, 1 link instead of 5. 102 now runs its shorter way \
             round, 1 link instead of 5.",
        ]
    );
}

#[test]
fn a_pair_that_stands_the_right_way_already() {
    let before = after_108();
    let told = on_filling(
        "open 109 5 6 0 0",
        "open 109 place 4 moves 1 looks 2\nmove 107 from 4 to 0",
        &before,
        &with(&before, &[(107, 3, 1, 0), (109, 5, 6, 4)]),
    );
    assert_eq!(
        told.point,
        "No place was free: circuits 104 and 107 were put together, one move. Circuit 109 is at \
         place 4."
    );
    assert_eq!(
        told.reasons[2],
        "Counterclockwise both would need link 2, so there they cannot share. Clockwise they have \
         no link in common. Both stood clockwise already (places 0 and 4), so only one had to move: \
         the lower place stayed."
    );
    assert_eq!(told.reasons[4..], ["109 took place 4, which 107 left. One move in all: 107."]);
}

fn on_six(request: &str, answer: &str, before: &[Row], after: &[Row]) -> Telling {
    let ring = |rows| Some(table(&[1; 6], rows));
    tell(&step(request, answer, ring(before), ring(after)))
}

#[test]
fn a_pair_there_and_back_can_share_either_way() {
    let before = [(3, 1, 4, 0), (4, 4, 5, 0), (1, 2, 3, 1), (2, 3, 2, 2), (5, 5, 6, 3)];
    let told = on_six(
        "open 6 6 1 0 0",
        "open 6 place 2 moves 1 looks 1\nmove 2 from 2 to 1",
        &before,
        &with(&before, &[(2, 3, 2, 1), (6, 6, 1, 2)]),
    );
    assert_eq!(
        told.point,
        "No place was free: circuits 1 and 2 were put together, one move. Circuit 6 is at place 2."
    );
    assert_eq!(
        told.reasons[1..],
        [
            "Pairs of the circuits that stood alone, 6 among them, were looked at in order. The 1st \
             pair, 1 and 2, was the first in which one ends where the other begins: 1 and 2 run \
             there and back between nodes 2 and 3.",
            "A pair that runs there and back can share either way round. Both stood where they fit already \
             (places 1 and 2), so only one had to move: the lower place stayed.",
            "2 moved from place 2 to place 1. There the two share.",
            "6 took place 2, which 2 left. One move in all: 2.",
            "2 now runs its shorter way round, 1 link instead of 5.",
        ]
    );
}

#[test]
fn a_pair_there_and_back_that_stood_one_way() {
    let before = [(3, 4, 6, 0), (4, 6, 1, 0), (2, 3, 2, 1), (5, 1, 5, 2), (1, 2, 3, 3)];
    let told = on_six(
        "open 6 5 4 0 0",
        "open 6 place 3 moves 1 looks 2\nmove 1 from 3 to 1",
        &before,
        &with(&before, &[(1, 2, 3, 1), (6, 5, 4, 3)]),
    );
    assert_eq!(
        told.reasons[2..4],
        [
            "A pair that runs there and back can share either way round. Both stood where they fit already \
             (places 1 and 3), so only one had to move: the lower place stayed.",
            "1 moved from place 3 to place 1. There the two share.",
        ]
    );
}

#[test]
fn a_circuit_that_joins_names_where_the_two_meet() {
    let alone = without(&AFTER_107, 105);
    let joins = |request: &str, row: Row| {
        let answer = format!("open {} place {} moves 0 looks 0", row.0, row.3);
        on_filling(request, &answer, &alone, &with(&alone, &[row])).point
    };
    assert_eq!(
        joins("open 110 4 3 0 0", (110, 4, 3, 1)),
        "Circuit 110 joined circuit 101 at place 1: 110 ends at node 3, where 101 begins."
    );
    assert_eq!(
        joins("open 111 5 4 0 0", (111, 5, 4, 1)),
        "Circuit 111 joined circuit 101 at place 1: 101 ends at node 5, where 111 begins."
    );
}

#[test]
fn a_circuit_joins_its_return_either_way() {
    let back = |place: u8| {
        on_filling(
            "open 112 2 1 0 0",
            &format!("open 112 place {place} moves 0 looks 0"),
            &[(104, 1, 2, place)],
            &[(104, 1, 2, place), (112, 2, 1, place)],
        )
    };
    assert_eq!(
        back(0).point,
        "Circuit 112 joined circuit 104 at place 0: 104 and 112 run there and back between nodes 1 \
         and 2."
    );
    assert_eq!(
        back(0).reasons[0],
        "104 stood alone at place 0, which runs clockwise. There 104 uses link 1, and 112 uses \
         links 2, 3, 4, 5 and 6: no link in common, so one wavelength carries both."
    );
    assert_eq!(
        back(3).reasons[0],
        "104 stood alone at place 3, which runs counterclockwise. There 104 uses links 2, 3, 4, 5 \
         and 6, and 112 uses link 1: no link in common, so one wavelength carries both."
    );
}

#[test]
fn a_circuit_that_shares_the_longer_way_round() {
    let joins = |before: &[Row], row: Row| on_six_opened(before, row).reasons[1..].join(" ");
    let alone = (61, 1, 2, 0);
    assert_eq!(
        joins(&[alone, (63, 5, 3, 1)], (64, 2, 1, 0)),
        "64 runs its longer way round, 5 links instead of 1. It shares, although place 3 of its \
         shorter way was free. No other circuit had to move."
    );
    assert_eq!(
        joins(&[alone, (63, 5, 3, 1), (65, 4, 5, 3)], (64, 2, 1, 0)),
        "64 runs its longer way round, 5 links instead of 1. No other circuit had to move."
    );
    for (row, other) in [((61, 1, 4, 0), (64, 4, 1, 0)), (alone, (64, 2, 4, 0))] {
        assert_eq!(joins(&[row], other), "No other circuit had to move.");
    }
}

/// An opening on a ring of six nodes that moved nobody, told.
fn on_six_opened(before: &[Row], row: Row) -> Telling {
    let (number, source, destination, place) = row;
    on_six(
        &format!("open {number} {source} {destination} 0 0"),
        &format!("open {number} place {place} moves 0 looks 0"),
        before,
        &with(before, &[row]),
    )
}

#[test]
fn a_circuit_that_stays_alone_took_the_lowest_free_place_of_a_way_round() {
    let clockwise = [(61, 1, 2, 0), (62, 3, 6, 2)];
    for (before, row, expected) in [
        (
            &[][..],
            (61, 1, 2, 0),
            "the lowest free place of its shorter way round, place 0, clockwise: 1 link instead of \
             5.",
        ),
        (
            &clockwise[..1],
            (62, 3, 6, 2),
            "the lowest free place clockwise, place 2: 3 links either way round.",
        ),
        (
            &clockwise[..],
            (63, 5, 3, 1),
            "the lowest free place of its shorter way round, place 1, counterclockwise: 2 links \
             instead of 4.",
        ),
        (
            &clockwise[..],
            (64, 4, 5, 1),
            "the lowest free place of its longer way round, place 1, counterclockwise: 5 links \
             instead of 1, since no clockwise place was free.",
        ),
        (
            &clockwise[..],
            (65, 2, 5, 1),
            "the lowest free place counterclockwise, place 1: 3 links either way round, and no \
             clockwise place was free.",
        ),
    ] {
        let told = on_six_opened(before, row);
        assert_eq!(told.point, format!("Circuit {} took {expected}", row.0));
        let reason = match before {
            [] => "The ring was empty.".into(),
            _ => format!("No circuit that stood alone could share its place with {}.", row.0),
        };
        assert_eq!(told.reasons, [reason, "No other circuit had to move.".into()]);
    }
}

#[test]
fn a_place_is_not_explained_by_what_the_ring_before_does_not_show() {
    for (before, row, expected) in [
        (&[][..], (61, 1, 2, 2), "place 2, clockwise"),
        (&[], (61, 1, 6, 0), "place 0, clockwise"),
        (&[], (61, 1, 4, 1), "place 1, counterclockwise"),
        (&[(60, 3, 4, 1)], (61, 1, 4, 3), "place 3, counterclockwise"),
        (&[(60, 3, 4, 0), (59, 5, 6, 2)], (61, 1, 2, 3), "place 3, counterclockwise"),
    ] {
        let expected = format!("Circuit 61 took a free place, {expected}.");
        assert_eq!(on_six_opened(before, row).point, expected);
    }
}

#[test]
fn closing() {
    let closed = |number: u32| {
        let request = format!("close {number}");
        on_filling(&request, &request, &AFTER_107, &without(&AFTER_107, number)).point
    };
    assert_eq!(
        closed(105),
        "Circuit 105 was closed, and nothing moved. Circuit 101 now stands alone at place 1."
    );
    assert_eq!(closed(103), "Circuit 103 was closed, and nothing moved. Place 2 is free now.");
}

#[test]
fn rings() {
    let ring = |ports: &[u8], before| {
        tell(&step("ring ..", "ring 3 wavelengths 1", before, Some(table(ports, &[]))))
    };
    assert_eq!(
        ring(&[2, 1, 1], None).point,
        "A ring of 3 nodes was lit. Its 4 pairs of transmitter and receiver, divided by three and \
         rounded up, give 2 wavelengths each way round: places 0 to 3. Even places run clockwise, \
         odd ones counterclockwise."
    );
    assert!(ring(&[0, 0, 0], None).point.ends_with("so there is no wavelength."));
    let before = Some(table(&[1, 1, 1], &[(7, 1, 2, 0)]));
    assert_eq!(
        ring(&[1, 1, 1], before).reasons,
        ["The earlier ring is gone, and with it its 1 circuit."]
    );
}

fn refused(request: &str, answer: &str) -> (String, String) {
    let told = on_filling(request, answer, &AFTER_107, &AFTER_107);
    (told.point, told.next.expect("what a desk does next"))
}

#[test]
fn refusals_say_who_is_in_the_way() {
    for (request, answer, expected) in [
        ("ring 2 1 1", "ring refused 1", "this line has 2 nodes and 2 port counts."),
        ("ring 3 1 65 1", "ring refused 2", "Node 2 has 65 ports; 64 is the most."),
        ("ring 4 64 64 64 1", "ring refused 3", "All 193 ports together are above 192."),
        (
            "open 9 1 7 0 0",
            "open 9 refused 10",
            "Node 7 is not on the ring, which has nodes 1 to 6.",
        ),
        ("open 9 0 7 0 0", "open 9 refused 10", "Nodes 0 and 7 are not on the ring,"),
        ("open 9 2 2 0 0", "open 9 refused 11", "begin and end at the same node, 2."),
        ("open 101 5 6 0 0", "open 101 refused 12", "is running already, from node 3 to node 5."),
        (
            "open 9 2 4 0 0",
            "open 9 refused 13",
            "Node 2 has one transmitter, and circuit 106 uses it.",
        ),
        (
            "open 9 1 3 0 0",
            "open 9 refused 13",
            "Both transmitters at node 1 are in use, by circuits 103 and 104.",
        ),
        (
            "open 9 5 2 0 0",
            "open 9 refused 14",
            "The far end is busy: node 2 has one receiver, and circuit 104 uses it.",
        ),
        ("close 9", "close refused 15", "No running circuit has the number 9."),
        ("link 7 0 0", "link refused 10", "There is no link 7 on this ring."),
        ("link 1 3 0", "link refused 16", "There is no wavelength 3 on this ring."),
        ("link 1 0 2", "link refused 17", "There is no direction 2."),
        ("read -", "read refused 30", "The saved form is cut short."),
        ("read 00", "read refused 1", "a ring that has not 3 to 64 nodes."),
    ] {
        let (point, next) = refused(request, answer);
        assert!(point.contains(expected), "{request}: {point}");
        assert!(next.ends_with('.'), "{request}: {next}");
    }
}

/// A line that needs no ring, told before any is lit and on a ring that fills up: the same words.
fn with_and_without_a_ring(request: &str, answer: &str) -> Telling {
    let alone = tell(&step(request, answer, None, None));
    assert_eq!(on_filling(request, answer, &AFTER_107, &AFTER_107), alone, "{request}");
    alone
}

const NO_WAVELENGTH: &str =
    "is that of no wavelength of the plan: it is below the plan, above it, or between two of its \
     points.";

#[test]
fn refusals_of_frequencies() {
    let spacing = "Write it in counts of 100 MHz: 50 GHz is 500, and 50 is refused.";
    let start = "Look the plan up; to begin further from 193.1 THz, take a wider spacing.";
    let wavelength =
        "Look up the wavelength's number; if this is a place, halve it and round down.";
    let frequency =
        "Look up spacing and start, or measure again; another ring may have another plan.";
    let nowhere = |frequency: &str| format!("The frequency, {frequency}, {NO_WAVELENGTH}");
    for (request, number, point, next) in [
        ("frequency 50 -3 0", 41, "The spacing, 50, is not 125, 250, 500 or 1000.".into(), spacing),
        ("frequency 500 -201 0", 42, "The starting n, -201, is not -200 to 200.".into(), start),
        ("frequency 500 201 64", 42, "The starting n, 201, is not -200 to 200.".into(), start),
        ("frequency 500 -3 064", 16, "The wavelength, 64, is above 63.".into(), wavelength),
        ("wavelength 0 -3 1", 41, "The spacing, 0, is not 125, 250, 500 or 1000.".into(), spacing),
        (
            "wavelength 500 -2147483648 1",
            42,
            "The starting n, -2147483648, is not -200 to 200.".into(),
            start,
        ),
        ("wavelength 500 -3 1930002", 43, nowhere("1930002 (193.0002 THz)"), frequency),
        ("wavelength 500 -3 4294967295", 43, nowhere("4294967295 (429496.7295 THz)"), frequency),
    ] {
        let kind = request.split(' ').next().unwrap_or("");
        let told = with_and_without_a_ring(request, &format!("{kind} refused {number}"));
        let reason = format!("Refusal {number}. A refused request changes nothing.");
        assert_eq!(told, Telling { point, reasons: vec![reason], next: Some(next.into()) });
    }
}

#[test]
fn a_number_that_is_not_shown_whole_is_not_named() {
    let zeros = "0".repeat(400);
    for (request, answer, expected) in [
        (format!("frequency {zeros}50 -3 0"), "frequency refused 41", "The spacing is not 125,"),
        (format!("frequency 500 -{zeros}201 0"), "frequency refused 42", "The starting n is not"),
        (format!("frequency 500 -3 {zeros}64"), "frequency refused 16", "The wavelength is above"),
        (
            format!("wavelength 500 -3 {zeros}7"),
            "wavelength refused 43",
            "The frequency is that of",
        ),
    ] {
        let point = with_and_without_a_ring(&printable(request.as_bytes()), answer).point;
        assert!(point.starts_with(expected), "{point}");
    }
}

#[test]
fn a_busy_far_end_is_never_a_full_ring() {
    let (point, next) = refused("open 9 5 2 0 0", "open 9 refused 14");
    assert_eq!(
        point,
        "The far end is busy: node 2 has one receiver, and circuit 104 uses it. This is not a full \
         ring: a ring is never full while both ends have a free port."
    );
    assert_eq!(next, "Offer another destination, or wait until a circuit to there is closed.");
}

#[test]
fn a_node_without_ports() {
    let ring = || Some(table(&[1, 1, 0], &[]));
    let told = |request, answer| tell(&step(request, answer, ring(), ring())).point;
    let from = told("open 9 3 1 0 0", "open 9 refused 13");
    assert!(from.starts_with("Node 3 has no transmitter at all. This is not a full ring:"));
    let to = told("open 9 1 3 0 0", "open 9 refused 14");
    assert!(to.starts_with("Node 3 has no receiver at all. This is not a full ring:"));
}

#[test]
fn refused_lines() {
    let told = |before: Option<_>| -> Telling {
        let step: Step = step("opne 1 2 3 0", "line refused", before.clone(), before);
        tell(&step)
    };
    assert_eq!(
        told(None).reasons,
        ["No ring is lit yet, so only a line that lights or reads one, or asks for a frequency or \
          its wavelength, can be taken."]
    );
    assert!(told(Some(table(&[1, 1, 1], &[]))).reasons[0].contains("misspelt"));
    let opening = |line| {
        let ring = || Some(table(&[1, 1, 1], &[]));
        tell(&step(line, "line refused", ring(), ring())).reasons[0].contains("five numbers")
    };
    assert!(opening("open 1 2 3 0") && opening("open 1 2 3 0 0 0"));
    assert!(!opening("open 1 2 3 0 x") && !opening("open 1 2  3 0 0"));
}

#[test]
fn refused_lines_that_need_no_ring() {
    for line in ["frequency 500 +3 0", "frequency 12.5 -3 0", "wavelength 500 -3 1,929,500"] {
        let told = with_and_without_a_ring(line, "line refused");
        assert!(
            told.reasons[0].contains("a sign, point or comma that may not stand there"),
            "{line}"
        );
        assert_eq!(told.next.as_deref(), Some("Correct the line."));
    }
}

#[test]
fn questions_change_nothing() {
    for (answer, expected) in [
        ("link circuit 101", "Circuit 101 runs there. Nothing changed."),
        ("link none", "No circuit runs there. Nothing changed."),
        ("load 0 0 0 0 0 0", "The loads of all links were asked for. Nothing changed."),
        ("write 29 0301", "The ring was saved. Nothing changed."),
        (
            "ring of 3 nodes, 1 wavelengths each way, 0 circuits\nlink   from  1  2  3",
            "A picture of the ring was asked for. Nothing changed.",
        ),
        ("anything", "A question was answered. Nothing changed."),
    ] {
        assert_eq!(on_filling("..", answer, &[], &[]).point, expected);
    }
}

#[test]
fn frequencies_and_their_wavelengths() {
    for (request, answer, expected) in [
        (
            "frequency 500 -3 0",
            "frequency 1929500",
            "By this plan the wavelength has the frequency 1929500 (192.95 THz), both ways round. \
             Nothing changed.",
        ),
        (
            "frequency 125 200 63",
            "frequency 1963875",
            "By this plan the wavelength has the frequency 1963875 (196.3875 THz), both ways round. \
             Nothing changed.",
        ),
        (
            "wavelength 500 -3 1930000",
            "wavelength 1",
            "By this plan the frequency is wavelength 1: place 2 clockwise and place 3 \
             counterclockwise on a ring that has it. Nothing changed.",
        ),
        (
            "wavelength 500 -3 1961000",
            "wavelength 63",
            "By this plan the frequency is wavelength 63: place 126 clockwise and place 127 \
             counterclockwise on a ring that has it. Nothing changed.",
        ),
    ] {
        assert_eq!(with_and_without_a_ring(request, answer), Telling::plain(expected));
    }
}
