//! The drawings by themselves, on the smallest and the largest ring, and against wrong answers.

mod common;

use std::rc::Rc;

use common::links::{answered, arcs, cells, Links};
use common::rings::{
    answers, largest, opening_107, still, table, tidying, Answers, Row, AFTER_107, FILLED,
    FILLING_PORTS,
};
use common::xml::parse;
use ringpage::drawing::View;
use ringpage::step::Step;
use ringpage::{chart, ring};

/// The ring and the chart after a step.
fn drawn(step: &Step) -> (String, String) {
    let view = View::after(step).expect("a ring");
    (ring::draw(view).svg(""), chart::draw(view).sized())
}

/// Whether both drawings of a ring show each circuit of an answer on its links, and no others.
fn shows(answers: &Answers, drawn_from: &Answers) -> (bool, bool) {
    let table = drawn_from.table();
    let (ring, chart) = drawn(&still(&table));
    let expected = answered(table.nodes(), &answers.circuits);
    (arcs(table.nodes(), &ring) == expected, cells(&table, &chart) == expected)
}

fn assert_shown(ports: &[u8], rows: &[Row]) {
    let answers = answers(ports, rows);
    assert_eq!(shows(&answers, &answers), (true, true), "{ports:?} {rows:?}");
}

#[test]
fn each_circuit_is_drawn_over_its_links() {
    assert_shown(&FILLING_PORTS, &AFTER_107);
    let (ports, rows) = largest();
    assert_shown(&ports, &rows);
}

#[test]
fn every_circuit_of_the_smallest_ring() {
    for place in [0, 1] {
        for (source, destination) in [(1, 2), (1, 3), (2, 1), (2, 3), (3, 1), (3, 2)] {
            assert_shown(&[1, 1, 1], &[(7, source, destination, place)]);
        }
    }
    assert_shown(&[1, 1, 1], &[]);
    assert_shown(&[0, 0, 0], &[]);
}

#[test]
fn an_arc_over_a_wrong_link_is_noticed() {
    let right = answers(&FILLING_PORTS, &AFTER_107);
    for (line, from, to) in [
        (1, "from 6 to 5", "from 6 to 4"),
        (2, "from 3 to 5", "from 4 to 5"),
        (3, "place 1", "place 0"),
        (6, "from 3 to 1", "from 1 to 3"),
    ] {
        let mut wrong = answers(&FILLING_PORTS, &AFTER_107);
        assert!(wrong.circuits[line].contains(from), "{}", wrong.circuits[line]);
        wrong.circuits[line] = wrong.circuits[line].replace(from, to);
        assert_eq!(shows(&right, &wrong), (false, false), "{}", wrong.circuits[line]);
    }
    let mut short = answers(&FILLING_PORTS, &AFTER_107);
    short.circuits.pop();
    short.circuits[0] = "circuits 6".into();
    assert_eq!(shows(&right, &short), (false, false));
}

#[test]
fn the_cells_of_a_link_are_its_loads() {
    let (ports, rows) = largest();
    let table = table(&ports, &rows);
    let (_, chart) = drawn(&still(&table));
    let mut loads = vec![0; 2 * ports.len()];
    for (number, links) in cells(&table, &chart) {
        let way = usize::from(table.find(number).expect("a circuit").place % 2);
        links.iter().for_each(|link| loads[2 * usize::from(link - 1) + way] += 1);
    }
    assert_eq!(loads, table.loads);
}

#[test]
fn places_have_radii_of_their_own_from_the_outside_in() {
    let (ports, rows) = largest();
    let layout = ring::Layout::of(&table(&ports, &rows));
    let radii: Vec<f64> = (0..128).map(|place| layout.radius(place)).collect();
    assert!(radii.windows(2).all(|pair| pair[0] - pair[1] >= 5.0));
    assert!(radii[0] < layout.rim && radii[127] > 0.0);
}

#[test]
fn all_coordinates_are_within_the_drawing() {
    for (ports, rows) in [largest(), (vec![1, 1, 1], vec![(7, 1, 3, 0)]), (vec![64; 3], vec![])] {
        let (ring, chart) = drawn(&still(&table(&ports, &rows)));
        for drawing in [ring, chart] {
            assert!(!drawing.contains("NaN") && !drawing.contains("inf"));
            let elements = parse(&drawing).expect("well-formed");
            let view: Vec<f64> =
                elements[0].attribute("viewBox").split(' ').map(|n| n.parse().unwrap()).collect();
            for (axis, most) in [("x", view[2]), ("y", view[3]), ("cx", view[2]), ("cy", view[3])] {
                for element in elements.iter().filter(|element| element.has(axis)) {
                    let value: f64 = element.attribute(axis).parse().unwrap();
                    assert!((0.0..=most).contains(&value), "{element:?}");
                }
            }
        }
    }
}

/// How many elements of a drawing have a class.
fn classes(drawing: &str, class: &str) -> usize {
    let of_class = |e: &&common::xml::Element| e.attribute("class").split(' ').any(|c| c == class);
    parse(drawing).unwrap().iter().filter(of_class).count()
}

/// The circuits of a chart's runs whose class ends so.
fn numbers(chart: &str, class: &str) -> Vec<u32> {
    let elements = parse(chart).unwrap();
    let of_class = elements.iter().filter(|e| e.attribute("class").ends_with(class));
    of_class.map(|e| e.attribute("data-circuit").parse().unwrap()).collect()
}

#[test]
fn new_moved_and_old_places_are_marked() {
    let (ring, chart) = drawn(&opening_107());
    assert_eq!(["new", "moved", "ghost"].map(|class| classes(&ring, class)), [1, 3, 3]);
    assert_eq!(numbers(&chart, " new"), [107]);
    assert_eq!(numbers(&chart, " moved"), [102, 102, 101, 101, 105]);
    for text in ["107 new", "101 moved", "105 was here"] {
        assert!(ring.contains(&format!(">{text}</text>")), "{text}");
    }
}

#[test]
fn a_tidying_is_drawn_before_and_after_with_each_move_marked() {
    let step = tidying();
    let (ring, after) = drawn(&step);
    assert_eq!(["new", "moved", "ghost"].map(|class| classes(&ring, class)), [0, 5, 5]);
    for text in ["209 moved", "209 was here", "205 moved", "205 was here"] {
        assert!(ring.contains(&format!(">{text}</text>")), "{text}");
    }
    let before = chart::draw(View::before_moves(&step).expect("the ring before")).sized();
    assert_eq!(numbers(&before, " leaving"), [201, 201, 203, 203, 205, 205, 209, 210, 210]);
    assert_eq!(numbers(&after, " moved"), [209, 210, 210, 203, 201, 205]);
    assert!(before.contains(">205: 8\u{2192}6 (moves to 7)</text>"));
    assert!(
        after.contains(">201: 6\u{2192}2 (moved from 0) + 205: 8\u{2192}6 (moved from 4)</text>")
    );
    assert_eq!(after.matches(">free</text>").count(), 4);
}

#[test]
fn an_account_is_named_with_its_circuit_before_and_after_a_move() {
    let billed = |rows: &[Row]| {
        let mut answers = answers(&FILLING_PORTS, rows);
        let of_101 = answers.circuits.iter_mut().find(|line| line.starts_with("circuit 101 "));
        let of_101 = of_101.expect("the line of 101");
        *of_101 = of_101.replace("account 0", "account 4294967295");
        Some(Rc::new(answers.table()))
    };
    let step = Step { before: billed(&FILLED), after: billed(&AFTER_107), ..opening_107() };
    let before = chart::draw(View::before(&step).expect("a ring")).sized();
    let (ring, after) = drawn(&step);
    assert!(before.contains(">101: 3\u{2192}5, account 4294967295 (moves to 1)</text>"));
    assert!(after.contains(">101: 3\u{2192}5, account 4294967295 (moved from 0) + 105: 4\u{2192}3"));
    assert!(ring.contains("<title>circuit 101: 3\u{2192}5, account 4294967295, place 1, "));
    assert!(!after.contains("account 0"));
}

#[test]
fn the_two_of_a_shared_place_are_told_apart_by_hatching() {
    let (_, chart) = drawn(&opening_107());
    let second: Vec<String> = parse(&chart)
        .unwrap()
        .iter()
        .filter(|element| element.attribute("class").contains("second"))
        .map(|element| element.attribute("data-circuit").to_string())
        .collect();
    assert_eq!(second, ["105"]);
}

#[test]
fn ports_in_use_are_drawn_and_told() {
    let (ring, _) = drawn(&opening_107());
    assert!(
        ring.contains("<title>node 5: 0 of 2 transmitters in use, 2 of 2 receivers in use</title>")
    );
    let used = parse(&ring).unwrap().iter().filter(|e| e.attribute("class") == "used").count();
    assert_eq!(used, 2 * AFTER_107.len());
    let free = parse(&ring).unwrap().iter().filter(|e| e.attribute("class") == "free").count();
    assert_eq!(free, 2 * (9 - AFTER_107.len()));
    let (ports, rows) = largest();
    let (ring, _) = drawn(&still(&table(&ports, &rows)));
    assert_eq!(ring.matches(">T 3/3</text>").count(), 64);
}

#[test]
fn labels_thin_out_on_a_large_ring_and_the_chart_names_every_circuit() {
    let (ports, rows) = largest();
    let (ring, chart) = drawn(&still(&table(&ports, &rows)));
    let texts: Links = rows.iter().map(|row| (row.0, Vec::new())).collect();
    for number in texts.keys() {
        assert!(!ring.contains(&format!(">{number}</text>")));
        assert!(ring.contains(&format!("<title>circuit {number}: ")));
        assert!(chart.contains(&format!("{number}: ")), "{number}");
    }
}
