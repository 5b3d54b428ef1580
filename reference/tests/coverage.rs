//! What lines count as: the steps, circuits with their returns, accounts, load reports, frequency
//! plans.

mod common;

use common::{
    circuit, coverage_of, read_line, ring, ring_of_01, ring_where_first_fits,
    ring_where_second_fits, ring_with_return, standing,
};
use second_controller::circuit::Circuit;
use second_controller::coverage::{Coverage, Event, GridEvent, LineFault, Off, Way};
use second_controller::form::Fault;
use second_controller::place::Direction::{Clockwise, Counterclockwise};
use second_controller::place::Place;
use second_controller::table::{Channel, Table};

/// The planner reads the table and opens the circuit; both count.
fn coverage(table: &Table, new: Circuit) -> Coverage {
    let Circuit { number, source, destination, remark, account } = new;
    coverage_of(&[
        &read_line(table),
        &format!("open {number} {source} {destination} {remark} {account}"),
    ])
}

/// The events of the opening, each of which came once.
fn events(table: &Table, new: Circuit) -> Vec<Event> {
    let coverage = coverage(table, new);
    let reached: Vec<Event> =
        Event::of_script().into_iter().filter(|&event| coverage.count(event) > 0).collect();
    assert!(reached.iter().all(|&event| coverage.count(event) == 1));
    reached
}

#[test]
fn openings_that_move_nothing() {
    let alone_at = |place| standing(&[1; 5], &[(place, circuit(1, 2, 3))]);
    let expected = [Event::Step2, Event::Step2Shorter(Clockwise)];
    assert_eq!(events(&alone_at(1), circuit(2, 4, 5)), expected);
    assert_eq!(events(&alone_at(0), circuit(2, 3, 4)), [Event::Step1]);
    let expected = [Event::Step1, Event::Step1Return(Counterclockwise)];
    assert_eq!(events(&alone_at(3), circuit(2, 3, 2)), expected);
    let longer = Event::Step1Longer(Clockwise);
    let expected = [Event::Step1, Event::Step1Return(Clockwise), longer];
    assert_eq!(events(&alone_at(2), circuit(2, 3, 2)), expected);
}

#[test]
fn step_1_the_longer_way() {
    let there_and_back = [Event::Step1, Event::Step1Return(Counterclockwise)];
    let longer = Event::Step1Longer(Counterclockwise);
    let table = standing(&[1; 5], &[(3, circuit(1, 3, 2))]);
    assert_eq!(events(&table, circuit(2, 2, 3)), [&there_and_back[..], &[longer]].concat());
    // Clockwise every place is lit.
    let lit = [(0, circuit(3, 1, 5)), (2, circuit(4, 4, 1)), (3, circuit(1, 3, 2))];
    assert_eq!(events(&standing(&[1; 5], &lit), circuit(2, 2, 3)), there_and_back);
    // On four nodes 1→3 and 3→1 use two links either way.
    let table = standing(&[1; 4], &[(1, circuit(1, 1, 3))]);
    assert_eq!(events(&table, circuit(2, 3, 1)), there_and_back);
}

/// The events of step 2 for a circuit from node 1, where these of the places 0 to 3 are lit by
/// other circuits from node 1. There are four nodes.
fn step_2_events(destination: u8, lit: &[u8]) -> Vec<Event> {
    let others = (2..=4).filter(|&other| other != destination);
    let circuits: Vec<(u8, Circuit)> = lit
        .iter()
        .zip(others)
        .map(|(&place, other)| (place, circuit(u32::from(other), 1, other)))
        .collect();
    let mut events = events(&standing(&[3, 1, 1, 1], &circuits), circuit(1, 1, destination));
    assert_eq!(events.remove(0), Event::Step2);
    events
}

#[test]
fn step_2_by_the_links_of_both_ways() {
    use Event::*;
    let passing = |sort, way| [sort, Step2PassedOver(way)];
    // 1→2 uses one link clockwise and three counterclockwise.
    assert_eq!(step_2_events(2, &[]), [Step2Shorter(Clockwise)]);
    assert_eq!(step_2_events(2, &[0]), passing(Step2Shorter(Clockwise), Clockwise));
    assert_eq!(step_2_events(2, &[0, 1]), [Step2Shorter(Clockwise)]);
    assert_eq!(step_2_events(2, &[0, 2]), [Step2Longer(Counterclockwise)]);
    // 1→4 uses three links clockwise and one counterclockwise.
    let shorter = Step2Shorter(Counterclockwise);
    assert_eq!(step_2_events(4, &[]), passing(shorter, Counterclockwise));
    assert_eq!(step_2_events(4, &[0]), [shorter]);
    assert_eq!(step_2_events(4, &[0, 1]), passing(shorter, Counterclockwise));
    assert_eq!(step_2_events(4, &[1, 3]), [Step2Longer(Clockwise)]);
    // 1→3 uses two links either way.
    assert_eq!(step_2_events(3, &[]), [Step2Equal(Clockwise)]);
    assert_eq!(step_2_events(3, &[0]), passing(Step2Equal(Clockwise), Clockwise));
    assert_eq!(step_2_events(3, &[0, 2]), [Step2Equal(Counterclockwise)]);
}

#[test]
fn step_3a_by_the_members_that_fit() {
    let (table, new) = ring_where_first_fits();
    assert_eq!(events(&table, new), [Event::Step3aFirstFits]);
    let (table, new) = ring_where_second_fits();
    assert_eq!(events(&table, new), [Event::Step3aSecondFits]);
    // The pair is 1→2 with 3→1, which total 5 of 6 hops.
    let circuits = [
        (0, circuit(104, 1, 2)),
        (1, circuit(101, 3, 5)),
        (1, circuit(105, 4, 3)),
        (2, circuit(103, 1, 4)),
        (3, circuit(102, 6, 5)),
        (3, circuit(108, 5, 3)),
        (4, circuit(107, 3, 1)),
        (5, circuit(106, 2, 1)),
    ];
    let table = standing(&[2, 1, 2, 1, 2, 1], &circuits);
    assert_eq!(events(&table, circuit(109, 5, 6)), [Event::Step3aBothFit]);
}

#[test]
fn step_3a_with_a_circuit_and_its_return() {
    for (lower, higher) in [(0, 1), (1, 2), (0, 2), (1, 3)] {
        let (table, new) = ring_with_return(lower, higher);
        let direction = |place| Place(place).direction();
        let both = Event::Step3aReturn { stayed: direction(lower), moved: direction(higher) };
        assert_eq!(events(&table, new), [Event::Step3aBothFit, both]);
    }
}

#[test]
fn step_3b_by_its_moves() {
    assert_eq!(events(&ring_of_01(), circuit(15, 5, 4)), [Event::Step3bOld]);
    let circuits = [
        (0, circuit(102, 6, 5)),
        (1, circuit(101, 3, 5)),
        (1, circuit(105, 4, 3)),
        (2, circuit(103, 1, 4)),
        (3, circuit(104, 1, 2)),
        (4, circuit(107, 3, 1)),
        (5, circuit(106, 2, 1)),
    ];
    let table = standing(&[2, 1, 2, 1, 2, 1], &circuits);
    let expected = [Event::Step3bWithNew, Event::Step3bOverShared];
    assert_eq!(events(&table, circuit(108, 5, 3)), expected);
}

#[test]
fn openings_with_an_account_and_moves_of_circuits_that_have_one() {
    let with_account = |account, circuit| Circuit { account, ..circuit };
    let (table, new) = (ring(&[1; 5]), circuit(1, 1, 2));
    let step_2 = [Event::Step2, Event::Step2Shorter(Clockwise)];
    let expected = [&step_2[..], &[Event::OpenedWithAccount]].concat();
    assert_eq!(events(&table, with_account(1, new)), expected);
    let expected = [&expected[..], &[Event::OpenedWithWidestAccount]].concat();
    assert_eq!(events(&table, with_account(u32::MAX, new)), expected);
    // 11, 12 and 13 are moved, and 14 is not.
    for (place, moves) in [(0, true), (1, true), (2, true), (3, false)] {
        let mut table = ring_of_01();
        let Channel::One(old) = table.channels[place] else { panic!("one circuit at a place") };
        table.channels[place] = Channel::One(with_account(7, old));
        let moved = Event::MovedWithAccount { moves: 3 };
        let mut expected = vec![Event::Step3bOld];
        expected.extend(moves.then_some(moved));
        assert_eq!(events(&table, circuit(15, 5, 4)), expected);
    }
}

#[test]
fn openings_refused_for_their_account() {
    let refused = |line: &str| {
        let coverage = coverage_of(&["ring 5 1 1 1 1 1", line]);
        let sorts = [
            Event::RefusedNoAccount,
            Event::RefusedWideAccount,
            Event::RefusedOddAccount,
            Event::RefusedAfterAccount,
        ];
        sorts.into_iter().find(|&event| coverage.count(event) == 1)
    };
    assert_eq!(refused("open 7 1 2 0"), Some(Event::RefusedNoAccount));
    assert_eq!(refused("open 7 1 2 0 4294967296"), Some(Event::RefusedWideAccount));
    assert_eq!(refused("open 7 1 2 0 -1"), Some(Event::RefusedOddAccount));
    assert_eq!(refused("open 7 1 2 0 0 0"), Some(Event::RefusedAfterAccount));
    for line in ["open 7 1 2 0 0", "open 7 1 2", "open 7 1 256 0 0", "open 7 1 2 0 ", "opens 7"] {
        assert_eq!(refused(line), None, "{line}");
    }
}

#[test]
fn forms_by_their_field_maps_and_accounts() {
    let [billed, plain] = [9, 0].map(|account| Circuit { account, ..circuit(1, 1, 2) });
    let reads = |circuits: &[(u8, Circuit)], event: Event| {
        coverage(&standing(&[1; 5], circuits), circuit(3, 4, 5)).count(event)
    };
    let alone = [(0, billed)];
    assert_eq!(reads(&alone, Event::ReadFieldMap(0b01000)), 1);
    assert_eq!(reads(&alone, Event::ReadFieldMap(0b00000)), 0);
    assert_eq!(reads(&alone, Event::ReadWithAccount), 1);
    let pair = [(0, plain), (0, Circuit { number: 2, source: 2, destination: 3, ..billed })];
    assert_eq!(reads(&pair, Event::ReadFieldMap(0b10010)), 1);
    let apart = [(0, plain), (2, Circuit { number: 2, source: 2, destination: 3, ..plain })];
    assert_eq!(reads(&apart, Event::ReadFieldMap(0b00000)), 1, "forms are counted, not records");
    assert_eq!(reads(&apart, Event::ReadWithoutAccount), 1);
    assert_eq!(reads(&[], Event::ReadWithoutAccount), 0);
}

#[test]
fn forms_refused_for_an_account() {
    let ring_with_one = format!("read 05010101010101{}", "00".repeat(15));
    let fault = |record: &str| {
        let coverage = coverage_of(&[&format!("{ring_with_one}{record}")]);
        let is_seen = |&fault: &Fault| coverage.count(Event::ReadFault(fault)) == 1;
        let faults = [
            Fault::Cut,
            Fault::AccountCut,
            Fault::UnknownField,
            Fault::AccountOfNone,
            Fault::AccountOfZero,
        ];
        faults.into_iter().find(is_seen)
    };
    assert_eq!(fault("080000000b010"), None, "an odd number of digits");
    assert_eq!(fault("080000000b01"), Some(Fault::Cut));
    assert_eq!(fault("080000000b0105"), Some(Fault::AccountCut));
    assert_eq!(fault("080000000b0105000000"), Some(Fault::AccountCut));
    assert_eq!(fault("080000000b010500000000"), Some(Fault::AccountOfZero));
    assert_eq!(fault("080000000b010500000001"), None);
    assert_eq!(fault("10"), Some(Fault::AccountOfNone));
    assert_eq!(fault("20"), Some(Fault::UnknownField));
}

#[test]
fn forms_with_a_circuit_and_its_return() {
    let reads = |place, destination| {
        let pair = [(place, circuit(1, 2, 3)), (place, circuit(2, 3, destination))];
        let coverage = coverage(&standing(&[1; 5], &pair), circuit(3, 1, 4));
        let count = |direction| coverage.count(Event::ReadWithReturn(direction));
        assert_eq!(coverage.count(Event::ReadWithPair), 1);
        (count(Clockwise), count(Counterclockwise))
    };
    assert_eq!(reads(2, 2), (1, 0));
    assert_eq!(reads(3, 2), (0, 1));
    assert_eq!(reads(2, 4), (0, 0));
}

/// The events of the load report of the table, each of which came once.
fn load_events(table: &Table) -> Vec<Event> {
    let coverage = coverage_of(&[&read_line(table), "load"]);
    let of_reading = coverage_of(&[&read_line(table)]);
    let comes_with_load = |event: &Event| coverage.count(*event) > of_reading.count(*event);
    let reached: Vec<Event> = Event::of_plan().into_iter().filter(comes_with_load).collect();
    assert!(reached.iter().all(|&event| coverage.count(event) == 1));
    reached
}

#[test]
fn load_reports_by_the_ring_and_its_lightpaths() {
    use Event::*;
    assert_eq!(load_events(&ring(&[1; 5])), [Load, LoadOfNone]);
    assert_eq!(load_events(&ring(&[1; 64])), [Load, LoadOfNone, LoadOfLargestRing]);
    let one = |place, source, destination| {
        load_events(&standing(&[1; 5], &[(place, circuit(1, source, destination))]))
    };
    assert_eq!(one(0, 1, 3), [Load, LoadFalls(Clockwise)]);
    assert_eq!(one(1, 3, 1), [Load, LoadFalls(Counterclockwise)]);
    // Link 1 after link N is not one in the report.
    assert_eq!(one(2, 4, 1), [Load, LoadOverLastLink(Clockwise)]);
    assert_eq!(one(3, 1, 4), [Load, LoadOverLastLink(Counterclockwise)]);
    let over_and_falling = [Load, LoadOverLastLink(Clockwise), LoadFalls(Clockwise)];
    assert_eq!(one(2, 4, 2), over_and_falling);
}

#[test]
fn load_reports_where_one_lightpath_begins_and_another_ends() {
    use Event::*;
    let meeting_at_3 = |first, second| {
        let circuits = [(first, circuit(1, 1, 3)), (second, circuit(2, 3, 4))];
        let mut events = load_events(&standing(&[1; 5], &circuits));
        events.retain(|event| matches!(event, LoadOfPair | LoadBeginsAndEnds(_)));
        events
    };
    assert_eq!(meeting_at_3(0, 0), [LoadOfPair, LoadBeginsAndEnds(Clockwise)]);
    assert_eq!(meeting_at_3(0, 2), [LoadBeginsAndEnds(Clockwise)]);
    assert_eq!(meeting_at_3(1, 3), [LoadBeginsAndEnds(Counterclockwise)]);
    assert_eq!(meeting_at_3(0, 1), []);
}

/// The events of a line on a frequency plan that follows a ring; all have its first word.
fn grid_events_of(line: &str) -> Vec<GridEvent> {
    let coverage = coverage_of(&["ring 3 1 1 1", line]);
    let way = if line.starts_with("frequency") { Way::There } else { Way::Back };
    let of_line = |event: Event| match event {
        Event::Grid(its_way, event) if its_way == way => event,
        _ => panic!("{event} at {line}"),
    };
    let is_grid = |event: &Event| matches!(event, Event::Grid(..));
    let came = |event: &Event| coverage.count(*event) > 0;
    Event::of_plan().into_iter().filter(is_grid).filter(came).map(of_line).collect()
}

#[test]
fn frequencies_and_wavelengths_found() {
    use GridEvent::*;
    let found = |spacing| Found { spacing };
    assert_eq!(grid_events_of("frequency 125 0 0"), [found(125)]);
    assert_eq!(grid_events_of("wavelength 1000 0 1931000"), [found(1000)]);
    assert_eq!(grid_events_of("frequency 250 -0 63"), [found(250), StartMinusZero]);
    assert_eq!(grid_events_of("wavelength 500 -00 1931000"), [found(500), StartMinusZero]);
    assert_eq!(grid_events_of("frequency 500 -1 0"), [found(500), StartBelowZero]);
    assert_eq!(grid_events_of("wavelength 500 1 1931500"), [found(500), StartAboveZero]);
    let lowest = [found(500), StartBelowZero, LowestPoint];
    assert_eq!(grid_events_of("frequency 500 -200 0"), lowest);
    assert_eq!(grid_events_of("wavelength 500 -200 1831000"), lowest);
    let highest = [found(500), StartAboveZero, HighestPoint];
    assert_eq!(grid_events_of("frequency 500 200 63"), highest);
    assert_eq!(grid_events_of("wavelength 500 200 2062500"), highest);
    assert_eq!(grid_events_of("frequency 500 200 0"), [found(500), StartAboveZero]);
    let coverage = coverage_of(&["frequency 500 -07 0", "wavelength 500 0 0"]);
    assert_eq!(coverage.count(Event::Grid(Way::There, BeforeTable)), 1);
    assert_eq!(coverage.count(Event::Grid(Way::Back, BeforeTable)), 1);
    assert_eq!(coverage.count(Event::LeadingZeroGood), 1);
}

#[test]
fn refusals_of_frequency_plans() {
    use GridEvent::*;
    let spacing_first = [SpacingRefused, SpacingRefusedFirst];
    let start_first = [StartRefused, StartRefusedFirst];
    assert_eq!(grid_events_of("frequency 1 0 0"), [SpacingRefused]);
    assert_eq!(grid_events_of("frequency 1 201 0"), spacing_first);
    assert_eq!(grid_events_of("frequency 1 0 64"), spacing_first);
    assert_eq!(grid_events_of("frequency 125 201 63"), [StartRefused]);
    assert_eq!(grid_events_of("frequency 125 201 64"), start_first);
    assert_eq!(grid_events_of("frequency 125 200 64"), [WavelengthRefused]);
    assert_eq!(grid_events_of("wavelength 1 0 1931000"), [SpacingRefused]);
    assert_eq!(grid_events_of("wavelength 1 201 1931000"), spacing_first);
    assert_eq!(grid_events_of("wavelength 1 0 1931001"), spacing_first);
    assert_eq!(grid_events_of("wavelength 500 201 1931000"), [StartRefused]);
    assert_eq!(grid_events_of("wavelength 500 201 1931125"), start_first);
    let off = |frequency: u32| grid_events_of(&format!("wavelength 500 0 {frequency}"));
    assert_eq!(off(1_930_500), [FrequencyRefused(Off::Below)]);
    assert_eq!(off(1_930_501), [FrequencyRefused(Off::LessThanSpacingBelow)]);
    assert_eq!(off(1_930_999), [FrequencyRefused(Off::LessThanSpacingBelow)]);
    assert_eq!(off(1_931_001), [FrequencyRefused(Off::Between)]);
    assert_eq!(off(1_962_499), [FrequencyRefused(Off::Between)]);
    assert_eq!(off(1_962_501), [FrequencyRefused(Off::Above)]);
}

#[test]
fn lines_on_frequency_plans_that_are_not_well_formed() {
    let lines = [
        ("500 0", LineFault::TooFewWords),
        ("500 0 0 0", LineFault::TooManyWords),
        ("500 +3 0", LineFault::OddStart),
        ("500 - 0", LineFault::OddStart),
        ("500 --3 -0", LineFault::OddStart),
        ("-500 3 0", LineFault::OddNumber),
        ("500 -3 -0", LineFault::OddNumber),
        ("500 2147483648 0", LineFault::WideStart),
        ("500 -2147483649 0", LineFault::WideStart),
        ("4294967296 -2147483648 0", LineFault::WideNumber),
        ("500 0 4294967296", LineFault::WideNumber),
    ];
    for (numbers, fault) in lines {
        for word in ["frequency", "wavelength"] {
            let line = format!("{word} {numbers}");
            assert_eq!(grid_events_of(&line), [GridEvent::LineRefused(fault)], "{line}");
        }
    }
    assert_eq!(grid_events_of("frequencies 500 0 0"), []);
}
