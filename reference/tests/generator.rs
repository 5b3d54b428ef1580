//! The generator: the same seed gives the same script, and scripts reach what they are for.

use std::collections::BTreeSet;

use second_controller::comparison::Expected;
use second_controller::coverage::{Coverage, Event};
use second_controller::form::{read, FORM_MOST};
use second_controller::generator::{crowded_form, dear_form, form, script, Generator, Kind};
use second_controller::opening::Move;
use second_controller::place::Direction::{Clockwise, Counterclockwise};
use second_controller::plan::{hexadecimal, parse, Answer, Command, Planner, Question, Source};
use second_controller::program::Program;
use second_controller::script;
use second_controller::table::{Channel, Table};

const PROGRAMS: [Program; 2] = [Program::Script, Program::Plan];
const KINDS: [Kind; 5] = [Kind::Small, Kind::Large, Kind::Mixed, Kind::Light, Kind::Forms];

fn coverage(program: Program, kind: Kind, seed: u64, lines: u64) -> Coverage {
    Expected::of(program, &script(program, kind, seed, lines)).coverage
}

/// The coverage of the scripts with seeds from 1 to the last.
fn coverage_to(last_seed: u64, program: Program, kind: Kind, lines: u64) -> Coverage {
    let mut reached = Coverage::of(program);
    for seed in 1..=last_seed {
        reached.add(&coverage(program, kind, seed, lines));
    }
    reached
}

#[test]
fn a_seed_gives_one_script_and_another_seed_another() {
    for program in PROGRAMS {
        let of_seed = |seed| script(program, Kind::Mixed, seed, 500);
        assert_eq!(of_seed(5), of_seed(5));
        assert_ne!(of_seed(5), of_seed(6));
    }
}

#[test]
fn a_shorter_script_is_the_front_of_a_longer_one() {
    for program in PROGRAMS {
        for seed in 0..8 {
            let short = script(program, Kind::Small, seed, 300);
            assert!(script(program, Kind::Small, seed, 400).starts_with(&short));
        }
    }
}

#[test]
fn scripts_have_the_lines_asked_for() {
    for program in PROGRAMS {
        for kind in KINDS {
            for seed in 0..4 {
                assert_eq!(coverage(program, kind, seed, 250).lines, 250);
            }
        }
    }
}

#[test]
fn mixed_scripts_reach_every_step_and_refusal() {
    let reached = coverage_to(8, Program::Script, Kind::Mixed, 5000);
    assert_eq!(reached.missing(), []);
}

#[test]
fn mixed_plan_scripts_reach_every_kind_of_line_answer_and_refusal() {
    let reached = coverage_to(60, Program::Plan, Kind::Mixed, 600);
    assert_eq!(reached.missing(), []);
}

#[test]
fn small_and_large_scripts_reach_every_step() {
    for kind in [Kind::Small, Kind::Large] {
        let reached = coverage_to(5, Program::Script, kind, 20_000);
        for step in [Event::Step3aBothFit, Event::Step3aFirstFits, Event::Step3aSecondFits] {
            assert!(reached.count(step) > 30, "{kind:?} {step}");
        }
        for step in [Event::Step3bWithNew, Event::Step3bOld, Event::Step3bOverShared] {
            assert!(reached.count(step) > 15, "{kind:?} {step}");
        }
        for way in [Clockwise, Counterclockwise] {
            for step in [Event::Step1Return(way), Event::Step1Longer(way)] {
                assert!(reached.count(step) > 500, "{kind:?} {step}");
            }
            for step in [Event::Step2Shorter(way), Event::Step2PassedOver(way)] {
                assert!(reached.count(step) > 500, "{kind:?} {step}");
            }
            assert!(reached.count(Event::Step2Longer(way)) > 200, "{kind:?} {way:?}");
            assert!(reached.count(Event::Step2Equal(way)) > 2, "{kind:?} {way:?}");
            for moved in [Clockwise, Counterclockwise] {
                let step = Event::Step3aReturn { stayed: way, moved };
                assert!(reached.count(step) > 2, "{kind:?} {step}");
            }
        }
    }
}

#[test]
fn a_light_script_has_one_ring_and_large_ones_no_small_ring() {
    let light = script(Program::Script, Kind::Light, 2, 40_000);
    assert_eq!(accepted_rings(&light), [16]);
    let large = accepted_rings(&script(Program::Script, Kind::Large, 1, 40_000));
    assert!(large.len() > 5 && large.iter().all(|&nodes| nodes == 64), "{large:?}");
}

/// The nodes of each ring of the script that is accepted.
fn accepted_rings(text: &[u8]) -> Vec<u8> {
    let mut planner = Planner::new();
    text.split(|&byte| byte == b'\n')
        .map(|line| planner.run_line(line))
        .filter_map(|answer| match answer {
            Answer::Script(script::Answer::Ring { nodes, .. }) => Some(nodes),
            _ => None,
        })
        .collect()
}

#[test]
fn scripts_of_forms_read_and_write_longest_ones_and_many() {
    let mut generator = Generator::new(Program::Plan, Kind::Forms, 1);
    let mut planner = Planner::new();
    let mut forms = BTreeSet::new();
    for _ in 0..200 {
        let reading = generator.next_line();
        assert!(matches!(planner.run_line(&reading), Answer::Read { .. }));
        let Answer::Written(form) = planner.run_line(&generator.next_line()) else {
            panic!("the second line of each two writes");
        };
        assert_eq!(form.len(), FORM_MOST);
        assert_eq!(reading, format!("read {}", hexadecimal(&form)).into_bytes());
        forms.insert(form);
    }
    assert_eq!(forms.len(), 48);
}

#[test]
fn forms_have_the_nodes_and_circuits_asked_for() {
    for nodes in 3..=64 {
        for circuits in [1, 2, 64, 127, 128, 191, 192] {
            let table = read(&form(nodes, circuits, 7)).unwrap();
            assert_eq!((table.nodes, table.circuits().count()), (nodes, circuits));
            assert_eq!(table.ring_ports(), 192);
            let (most, least) = (table.ports_at(1), table.ports_at(nodes));
            assert!(most - least <= 1, "{nodes} nodes");
        }
    }
}

#[test]
fn forms_have_shared_places_and_both_directions() {
    for (nodes, circuits) in [(64, 192), (64, 128), (50, 192), (16, 64), (3, 192), (5, 20)] {
        for seed in 0..8 {
            let table = read(&form(nodes, circuits, seed)).unwrap();
            let lit = table.channels.iter().filter(|&&channel| channel != Channel::Unlit).count();
            assert!(lit < circuits, "no place is shared: {nodes} {circuits} {seed}");
            let has = |way| table.lightpaths().any(|path| path.place.direction() == way);
            assert!(has(Clockwise) && has(Counterclockwise), "{nodes} {circuits} {seed}");
        }
    }
}

#[test]
fn a_seed_gives_one_form_and_another_seed_another() {
    let kinds: [fn(u64) -> Vec<u8>; 3] =
        [|seed| form(64, 192, seed), |seed| crowded_form(64, seed), dear_form];
    for form in kinds {
        assert_eq!(form(5), form(5));
        assert_ne!(form(5), form(6));
    }
}

/// The table of a form with a circuit alone at each of 128 places.
fn with_all_alone(form: &[u8], nodes: u8) -> Table {
    let table = read(form).unwrap();
    assert_eq!((table.nodes, table.ring_ports()), (nodes, 192));
    assert_eq!(table.nonsharing().count(), 128);
    table
}

/// Tidies and gives the rounds.
fn rounds(table: &mut Table) -> usize {
    table.tidy(&mut [Move::default(); 128]).unwrap().rounds
}

#[test]
fn crowded_forms_have_a_circuit_alone_at_each_place_and_much_to_tidy() {
    for nodes in 3..=64 {
        for seed in 0..4 {
            let rounds = rounds(&mut with_all_alone(&crowded_form(nodes, seed), nodes));
            assert!(rounds > 50, "{rounds} rounds, {nodes} nodes, seed {seed}");
        }
    }
}

#[test]
fn dear_forms_have_256_pairs_that_are_passed_over_in_every_round() {
    for seed in 0..20 {
        let mut tidied = with_all_alone(&dear_form(seed), 64);
        assert!(rounds(&mut tidied) > 25, "seed {seed}");
        // What is passed over to the end was before those that were joined, at places below 64.
        let left: Vec<_> = tidied.nonsharing().collect();
        let mut passed_over = 0;
        for (index, a) in left.iter().enumerate() {
            let adjacent = left[index + 1..].iter().filter(|b| a.circuit.is_adjacent_to(b.circuit));
            passed_over += adjacent.filter(|b| b.place.0 < 64).count();
        }
        assert_eq!(passed_over, 256, "seed {seed}");
    }
}

#[test]
fn plan_scripts_name_no_file_and_ask_for_no_picture() {
    let mut generator = Generator::new(Program::Plan, Kind::Mixed, 9);
    for _ in 0..20_000 {
        let line = generator.next_line();
        assert_ne!(line, b"show");
        let path = match parse(&line) {
            Some(Command::Read(Source::File(path))) => path,
            Some(Command::Ask(Question::WriteFile(path))) => path,
            _ => continue,
        };
        assert!(path.as_os_str().is_empty(), "{}", line.escape_ascii());
    }
}
