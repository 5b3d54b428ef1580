//! Frequency plans: there and back, their refusals, and the planning program's two lines on them.

use second_controller::grid::{FrequencyPlan, SPACINGS};
use second_controller::place::Wavelength;
use second_controller::plan::{Planner, LINE_MOST};
use second_controller::refusal::Refusal;

fn plan(spacing: u32, start: i32) -> FrequencyPlan {
    FrequencyPlan { spacing, start }
}

/// Every plan that there is.
fn plans() -> impl Iterator<Item = FrequencyPlan> {
    SPACINGS.into_iter().flat_map(|spacing| (-200..=200).map(move |start| plan(spacing, start)))
}

#[test]
fn the_figure_of_document_02() {
    assert_eq!(plan(500, -3).frequency(0), Ok(1_929_500));
    assert_eq!(plan(500, -3).wavelength(1_929_500), Ok(Wavelength(0)));
    assert_eq!(answer("frequency 500 -3 0"), "frequency 1929500\n");
    assert_eq!(answer("wavelength 500 -3 1929500"), "wavelength 0\n");
}

#[test]
fn where_n_is_0_the_frequency_is_193_1_thz() {
    for spacing in SPACINGS {
        assert_eq!(plan(spacing, -3).frequency(3), Ok(1_931_000));
        assert_eq!(plan(spacing, -63).wavelength(1_931_000), Ok(Wavelength(63)));
        assert_eq!(plan(spacing, 0).wavelength(1_931_000), Ok(Wavelength(0)));
    }
}

#[test]
fn the_lowest_and_the_highest_frequency_of_each_spacing() {
    let ends = [
        (125, 1_906_000, 1_963_875),
        (250, 1_881_000, 1_996_750),
        (500, 1_831_000, 2_062_500),
        (1000, 1_731_000, 2_194_000),
    ];
    for (spacing, lowest, highest) in ends {
        assert_eq!(plan(spacing, -200).frequency(0), Ok(lowest));
        assert_eq!(plan(spacing, -200).wavelength(lowest), Ok(Wavelength(0)));
        assert_eq!(plan(spacing, 200).frequency(63), Ok(highest));
        assert_eq!(plan(spacing, 200).wavelength(highest), Ok(Wavelength(63)));
    }
}

#[test]
fn there_and_back_agrees_and_no_two_wavelengths_meet() {
    let mut count = 0;
    for plan in plans() {
        let mut last = 0;
        for wavelength in 0..64 {
            let frequency = plan.frequency(wavelength).unwrap();
            assert!(frequency > last, "{plan:?}");
            assert_eq!(plan.wavelength(frequency), Ok(Wavelength(wavelength as u8)), "{plan:?}");
            last = frequency;
            count += 1;
        }
    }
    assert_eq!(count, 4 * 401 * 64);
}

#[test]
fn n_counts_spacings_from_193_1_thz() {
    for plan in plans() {
        for wavelength in 0..64 {
            let n = i64::from(plan.start) + i64::from(wavelength);
            let frequency = 1_931_000 + n * i64::from(plan.spacing);
            assert_eq!(plan.frequency(wavelength).map(i64::from), Ok(frequency), "{plan:?}");
        }
    }
}

#[test]
fn frequencies_off_every_plan() {
    for plan in plans() {
        let FrequencyPlan { spacing, .. } = plan;
        let (first, last) = (plan.frequency(0).unwrap(), plan.frequency(63).unwrap());
        let off = [
            first - 1,
            first - spacing / 2,
            first - (spacing - 1),
            first - spacing,
            first - spacing - 1,
            first + 1,
            first + spacing / 2,
            first + spacing - 1,
            last - 1,
            last - spacing / 2,
            last + 1,
            last + spacing / 2,
            last + spacing,
            0,
            1,
            u32::MAX,
            first.wrapping_sub(1 << 31),
            first + (1 << 16),
            first + (1 << 24),
        ];
        for frequency in off {
            let found = plan.wavelength(frequency);
            assert_eq!(found, Err(Refusal::OffPlan), "{plan:?}, {frequency}");
        }
    }
}

#[test]
fn a_plan_has_64_of_the_frequencies_around_it() {
    for spacing in SPACINGS {
        for start in [-200, -3, 0, 200] {
            let plan = plan(spacing, start);
            let (first, last) = (plan.frequency(0).unwrap(), plan.frequency(63).unwrap());
            let around = first - 2 * spacing..=last + 2 * spacing;
            let found = around.filter(|&frequency| plan.wavelength(frequency).is_ok());
            assert_eq!(found.count(), 64, "{plan:?}");
        }
    }
}

#[test]
fn each_refusal_and_their_order() {
    let there =
        |spacing, start, wavelength| plan(spacing, start).frequency(wavelength).unwrap_err();
    let back = |spacing, start, frequency| plan(spacing, start).wavelength(frequency).unwrap_err();
    for spacing in [0, 1, 12, 50, 100, 124, 126, 375, 501, 625, 2000, 65_661, u32::MAX] {
        for start in [0, 201, i32::MIN] {
            assert_eq!(there(spacing, start, 0), Refusal::NoSpacing, "{spacing}");
            assert_eq!(there(spacing, start, 64), Refusal::NoSpacing, "{spacing}");
            assert_eq!(back(spacing, start, 1_931_000), Refusal::NoSpacing, "{spacing}");
            assert_eq!(back(spacing, start, 0), Refusal::NoSpacing, "{spacing}");
        }
    }
    for start in [-201, 201, -400, 456, -65_536, 65_536, i32::MIN, i32::MAX] {
        for spacing in SPACINGS {
            assert_eq!(there(spacing, start, 0), Refusal::NoStart, "{start}");
            assert_eq!(there(spacing, start, 64), Refusal::NoStart, "{start}");
            assert_eq!(back(spacing, start, 1_931_000), Refusal::NoStart, "{start}");
            assert_eq!(back(spacing, start, 1), Refusal::NoStart, "{start}");
        }
    }
    for wavelength in [64, 65, 127, 128, 255, 256, 65_536, 1 << 31, u32::MAX] {
        for plan in [plan(125, -200), plan(500, -3), plan(1000, 200)] {
            assert_eq!(plan.frequency(wavelength), Err(Refusal::NoWavelength), "{wavelength}");
        }
    }
    let numbers = [Refusal::NoSpacing, Refusal::NoStart, Refusal::NoWavelength, Refusal::OffPlan];
    assert_eq!(numbers.map(Refusal::number), [41, 42, 16, 43]);
}

/// What a new planner answers to the line, before there is a table.
fn answer(line: &str) -> String {
    answer_of(&mut Planner::new(), line)
}

fn answer_of(planner: &mut Planner, line: &str) -> String {
    let mut output = Vec::new();
    planner.run_line(line.as_bytes()).write(&mut output).unwrap();
    String::from_utf8(output).unwrap()
}

fn is_refused_line(line: &str) {
    assert_eq!(answer(line), "line refused\n", "{line}");
}

#[test]
fn a_start_is_judged_by_its_value() {
    let starts = [
        ("-3", "1929500"),
        ("-03", "1929500"),
        ("-00000000000000000003", "1929500"),
        ("3", "1932500"),
        ("0003", "1932500"),
        ("0", "1931000"),
        ("-0", "1931000"),
        ("-000", "1931000"),
        ("000", "1931000"),
        ("-007", "1927500"),
        ("-200", "1831000"),
        ("200", "2031000"),
        ("-201", "refused 42"),
        ("201", "refused 42"),
        ("-2147483648", "refused 42"),
        ("2147483647", "refused 42"),
        ("-00002147483648", "refused 42"),
        ("00002147483647", "refused 42"),
    ];
    for (start, expected) in starts {
        assert_eq!(answer(&format!("frequency 500 {start} 0")), format!("frequency {expected}\n"));
    }
}

#[test]
fn words_that_are_no_start() {
    let odd = "+3 --3 - + -- -+3 +-3 3- -3- 0-3 -0-3 x -x 3.0 -3.0 0x3 −3";
    let wide = "2147483648 000002147483648 4294967293 18446744073709551619 \
        -2147483649 -000002147483649 -4294967299 -18446744073709551619";
    let nines = "9".repeat(300);
    let words = odd.split(' ').chain(wide.split(' ')).chain(["", &nines]);
    for start in words {
        is_refused_line(&format!("frequency 500 {start} 0"));
        is_refused_line(&format!("wavelength 500 {start} 1931000"));
    }
}

#[test]
fn numbers_that_take_no_sign_and_have_32_bits() {
    for word in ["", "-0", "-1", "+1", "-", "x", "1.0", "4294967296", "18446744073709551616"] {
        is_refused_line(&format!("frequency {word} 0 0"));
        is_refused_line(&format!("frequency 500 0 {word}"));
        is_refused_line(&format!("wavelength {word} 0 1931000"));
        is_refused_line(&format!("wavelength 500 0 {word}"));
    }
    assert_eq!(answer("frequency 4294967295 0 0"), "frequency refused 41\n");
    assert_eq!(answer("frequency 500 0 4294967295"), "frequency refused 16\n");
    assert_eq!(answer("wavelength 4294967295 0 1931000"), "wavelength refused 41\n");
    assert_eq!(answer("wavelength 500 0 4294967295"), "wavelength refused 43\n");
    assert_eq!(answer("frequency 0000000000500 -3 0000000000063"), "frequency 1961000\n");
    assert_eq!(answer("wavelength 00500 -03 0000000000001961000"), "wavelength 63\n");
}

#[test]
fn the_words_of_a_line() {
    let lines = [
        "frequency",
        "frequency ",
        "frequency 500",
        "frequency 500 0",
        "frequency 500 0 ",
        "frequency 500 0 0 ",
        "frequency 500 0 0 0",
        "frequency  500 0 0",
        "frequency 500  0 0",
        "frequency 500 - 3 0",
        " frequency 500 0 0",
        "frequency\t500 0 0",
        "frequency 500 0 0\r",
        "Frequency 500 0 0",
        "frequencies 500 0 0",
    ];
    for line in lines {
        is_refused_line(line);
        is_refused_line(&line.replace("frequency", "wavelength"));
    }
    is_refused_line("frequency 500,0,0");
    is_refused_line("wavelengths 500 0 1931000");
}

#[test]
fn refusals_in_their_order_line_by_line() {
    let lines = [
        ("frequency 499 201 64", "frequency refused 41"),
        ("frequency 0 0 0", "frequency refused 41"),
        ("frequency 500 201 64", "frequency refused 42"),
        ("frequency 500 -201 0", "frequency refused 42"),
        ("frequency 500 200 64", "frequency refused 16"),
        ("frequency 500 -200 256", "frequency refused 16"),
        ("wavelength 499 201 0", "wavelength refused 41"),
        ("wavelength 0 0 1931000", "wavelength refused 41"),
        ("wavelength 500 201 0", "wavelength refused 42"),
        ("wavelength 500 201 2031500", "wavelength refused 42"),
        ("wavelength 500 200 2030999", "wavelength refused 43"),
        ("wavelength 500 0 1930999", "wavelength refused 43"),
        ("wavelength 500 0 1930501", "wavelength refused 43"),
        ("wavelength 500 0 1931250", "wavelength refused 43"),
        ("wavelength 500 0 1963000", "wavelength refused 43"),
        ("wavelength 500 0 1962500", "wavelength 63"),
    ];
    for (line, expected) in lines {
        assert_eq!(answer(line), format!("{expected}\n"), "{line}");
    }
}

#[test]
fn no_table_takes_part() {
    let mut planner = Planner::new();
    let lines = [
        ("frequency 125 0 63", "frequency 1938875\n"),
        ("wavelength 125 0 1938875", "wavelength 63\n"),
        ("frequency 125 0 64", "frequency refused 16\n"),
        ("wavelength 125 0 1939000", "wavelength refused 43\n"),
    ];
    for (line, expected) in lines {
        assert_eq!(answer_of(&mut planner, line), expected);
    }
    assert!(planner.table().is_none());
    // W is 1 here.
    answer_of(&mut planner, "ring 3 1 1 1");
    answer_of(&mut planner, "open 7 1 2 0 9");
    let before = planner.table().cloned();
    for (line, expected) in lines {
        assert_eq!(answer_of(&mut planner, line), expected);
    }
    assert_eq!(planner.table().cloned(), before);
}

#[test]
fn lines_to_8192_bytes_are_taken() {
    let filled = |front: &str, rest: &str, length: usize| {
        format!("{front}{}{rest}", "0".repeat(length - front.len() - rest.len()))
    };
    let lines = [
        ("frequency ", "500 -3 0", "frequency 1929500\n"),
        ("frequency 500 -", "3 0", "frequency 1929500\n"),
        ("frequency 500 -3 ", "64", "frequency refused 16\n"),
        ("wavelength 500 -", "3 1929500", "wavelength 0\n"),
        ("wavelength 500 -3 ", "1929500", "wavelength 0\n"),
    ];
    for (front, rest, expected) in lines {
        assert_eq!(answer(&filled(front, rest, 257)), expected);
        assert_eq!(answer(&filled(front, rest, LINE_MOST)), expected);
        is_refused_line(&filled(front, rest, LINE_MOST + 1));
    }
}
