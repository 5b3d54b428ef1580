//! Whole pages, made with `ringplan`: the environment variable RINGPLAN names it, else it is the
//! one that the repository builds.

mod common;

use std::collections::BTreeSet;
use std::path::{Path, PathBuf};
use std::{env, fs};

use common::links::{answered, arcs, cells};
use common::xml::{parse, Element};
use ringpage::day::{self, Choice, Day};
use ringpage::drawing::View;
use ringpage::picture::picture;
use ringpage::saving::Saving;
use ringpage::step::{Outcome, Step};
use ringpage::words::tell;
use ringpage::{chart, page, ring, ringplan};

fn top() -> PathBuf {
    Path::new(env!("CARGO_MANIFEST_DIR")).join("..")
}

fn program() -> PathBuf {
    env::var_os("RINGPLAN").map_or_else(|| top().join("target/bin/ringplan"), PathBuf::from)
}

fn run(script: &[u8], steps: Choice) -> Day {
    run_saving(script, steps, Saving::Drawn)
}

fn run_saving(script: &[u8], steps: Choice, saving: Saving) -> Day {
    ringplan::run(&program(), |plan| day::run(plan, script, steps, saving)).expect("a day")
}

fn example(name: &str) -> Vec<u8> {
    fs::read(top().join("examples").join(name)).expect("an example")
}

const EXAMPLES: [&str; 6] = [
    "01.script",
    "dimensions.script",
    "filling.script",
    "refusals.script",
    "shorter-way.script",
    "tidying.plan",
];

/// Elements of HTML that have no inside; all others have a beginning and an end.
const VOID: [&str; 2] = ["meta", "input"];

/// The page as XML whose reading as HTML is the same, with each link in it leading somewhere.
fn assert_good(text: &str) -> Vec<Element> {
    let elements = parse(text).unwrap_or_else(|fault| panic!("{fault}"));
    let in_svg = |element: &Element| element.inside.iter().any(|name| name == "svg");
    for element in elements.iter().filter(|element| element.name != "svg" && !in_svg(element)) {
        assert_eq!(element.empty, VOID.contains(&element.name.as_str()), "{element:?}");
    }
    let mut ids = BTreeSet::new();
    for id in elements.iter().map(|element| element.attribute("id")).filter(|id| !id.is_empty()) {
        assert!(ids.insert(id), "{id} twice");
    }
    for element in &elements {
        let href = element.attribute("href").strip_prefix('#');
        let labelled = Some(element.attribute("aria-labelledby")).filter(|id| !id.is_empty());
        for id in href.into_iter().chain(labelled) {
            assert!(ids.contains(id), "#{id}");
        }
        for url in element.text.split("url(#").skip(1) {
            let id = url.split(')').next().unwrap_or("");
            assert!(ids.contains(id), "url(#{id})");
        }
        assert!(!element.has("src") && !element.attribute("href").contains("//"), "{element:?}");
    }
    elements
}

#[test]
fn pages_are_well_formed_and_have_every_step() {
    for name in EXAMPLES {
        let script = example(name);
        let day = run(&script, None);
        let lines = script.split(|&byte| byte == b'\n').count() - 1;
        let text = page::page(name, &day);
        let elements = assert_good(&text);
        let steps = elements.iter().filter(|element| element.name == "section").count();
        assert_eq!((day.lines, steps), (lines, lines), "{name}");
        assert!(text.contains(&format!("All {lines} lines of the script are shown.")));
    }
}

/// The answers to `circuits` come from a run of their own, line by line.
#[test]
fn every_step_is_drawn_over_the_links_of_its_circuits() {
    for name in EXAMPLES {
        let steps = run(&example(name), None).steps;
        let mut answers = circuits_after_each(&steps).into_iter();
        for step in &steps {
            let circuits = answers.next().expect("an answer for each step");
            let Some(view) = View::after(step) else {
                assert_eq!(circuits, ["line refused"]);
                continue;
            };
            let nodes = view.table.nodes();
            let expected = answered(nodes, &circuits);
            assert_eq!(arcs(nodes, &ring::draw(view).svg("")), expected, "{name} {}", step.number);
            assert_eq!(
                cells(view.table, &chart::draw(view).sized()),
                expected,
                "{name} {}",
                step.number
            );
        }
    }
}

fn circuits_after_each(steps: &[Step]) -> Vec<Vec<String>> {
    let ask = |plan: &mut ringplan::Started, step: &Step| {
        plan.ask(step.request.as_bytes())?;
        plan.ask(b"circuits")
    };
    ringplan::run(&program(), |plan| steps.iter().map(|step| ask(plan, step)).collect())
        .expect("answers")
}

#[test]
fn pictures_stand_by_themselves() {
    for name in EXAMPLES {
        for step in run(&example(name), None).steps {
            let elements = assert_good(&picture(&step));
            assert_eq!(elements[0].attribute("xmlns"), "http://www.w3.org/2000/svg");
        }
    }
}

#[test]
fn an_account_is_shown_from_the_opening_on() {
    let day = run(b"ring 3 1 1 1\nopen 7 1 2 0 12\nopen 8 2 1 0 0\n", None);
    let text = page::page("accounts", &day);
    assert!(text.contains(">7: 1\u{2192}2, account 12 (new)</text>"));
    assert!(text.contains(">7: 1\u{2192}2, account 12 + 8: 2\u{2192}1 (new)</text>"));
}

/// The lines that need no ring, as `ringplan` answers them before one is lit and after.
#[test]
fn frequencies_are_told_before_and_after_a_ring() {
    let lines = "frequency 500 -3 0\nfrequency 50 -3 0\nfrequency 500 201 0\n\
                 frequency 500 -3 64\nwavelength 500 -3 1930500\nwavelength 50 -3 1\n\
                 wavelength 500 -201 1\nwavelength 500 -3 1930002\nfrequency 500 +3 0\n";
    let script = format!("{lines}ring 3 1 1 1\n{lines}");
    let steps = run(script.as_bytes(), None).steps;
    let points: Vec<String> = steps.iter().map(|step| tell(step).point).collect();
    for (point, expected) in points.iter().zip([
        "By this plan the wavelength has the frequency 1929500 (192.95 THz),",
        "The spacing, 50, is not",
        "The starting n, 201, is not",
        "The wavelength, 64, is above 63.",
        "By this plan the frequency is wavelength 2: place 4 clockwise",
        "The spacing, 50, is not",
        "The starting n, -201, is not",
        "The frequency, 1930002 (193.0002 THz), is that of no wavelength",
        "The line is no request,",
        "A ring of 3 nodes was lit.",
    ]) {
        assert!(point.starts_with(expected), "{point}");
    }
    assert_eq!(points[..9], points[10..]);
    assert!(steps[8].after.is_none() && steps[9].after.is_some());
}

#[test]
fn every_line_of_the_planners_examples_is_explained() {
    for name in ["lasers.plan", "tidying.plan"] {
        let day = run(&example(name), Some((1, usize::MAX)));
        assert_good(&page::page(name, &day));
        for step in day.steps {
            let point = tell(&step).point;
            let fallback =
                point.contains("A question was answered") || point.contains("refused by");
            assert!(!fallback, "{}: {point}", step.request);
        }
    }
}

/// Openings and closings in any order on a ring of eight nodes, tidied now and then.
fn busy_months() -> String {
    let mut state = 1_u32;
    let mut any = |below: u32| {
        state = state.wrapping_mul(1_664_525).wrapping_add(1_013_904_223);
        (state >> 16) % below
    };
    let mut script = "ring 8 3 3 3 3 3 3 3 3\n".to_string();
    for _ in 0..600 {
        script += &match any(40) {
            0 => "tidy\n".into(),
            1..=15 => format!("close {}\n", any(50)),
            _ => format!("open {} {} {} 0 0\n", any(50), any(8) + 1, any(8) + 1),
        };
    }
    script
}

/// The words about the lowest free place and the shorter way fit what `ringplan` answers.
#[test]
fn every_place_that_a_circuit_took_alone_is_explained() {
    let examples = ["filling.script", "returns.script", "shorter-way.script"].map(example);
    let mut told = BTreeSet::new();
    for script in examples.into_iter().chain([busy_months().into_bytes()]) {
        for step in run(&script, Some((1, usize::MAX))).steps {
            let point = tell(&step).point;
            assert!(!point.contains("took a free place"), "{}: {point}", step.request);
            if point.contains("took the lowest free place") {
                let ways = ["its shorter way", "its longer way", "either way"];
                told.extend(ways.into_iter().find(|way| point.contains(way)));
            }
        }
    }
    assert_eq!(told.len(), 3, "{told:?}");
}

#[test]
fn as_many_rounds_are_told_as_were_answered() {
    let mut all = 0;
    for step in run(busy_months().as_bytes(), Some((1, usize::MAX))).steps {
        if let Outcome::Tidied { rounds, .. } = step.outcome {
            let told = tell(&step).reasons;
            let joined = told.iter().filter(|reason| reason.starts_with("Round ")).count();
            assert_eq!(joined, rounds, "{:?}", step.answer);
            all += rounds;
        }
    }
    assert!(all > 10, "only {all} rounds");
}

/// The form of a ring of 64 nodes with a circuit alone at each of the 128 places: on wavelength w
/// one clockwise from node w + 1 to the next, and its return counterclockwise.
fn spread_out() -> String {
    let circuit = |number: u8, from: u8, to: u8| format!("00000000{number:02x}{from:02x}{to:02x}");
    let records = (0..64_u8).map(|wavelength| {
        let (node, next) = (wavelength + 1, (wavelength + 1) % 64 + 1);
        circuit(2 * wavelength, node, next) + &circuit(2 * wavelength + 1, next, node)
    });
    let ports = "03".repeat(64);
    format!("40{ports}{}{}", "ff".repeat(16), records.collect::<String>())
}

#[test]
fn a_tidying_of_64_rounds_is_told_round_by_round() {
    let day = run(format!("read {}\ntidy\ntidy\n", spread_out()).as_bytes(), None);
    let [_, tidied, again] = &day.steps[..] else { panic!("three steps") };
    assert_eq!(tidied.answer[0], "tidy rounds 64 moves 64");
    let told = tell(tidied);
    assert_eq!(
        told.point,
        "The ring was tidied in 64 rounds with 64 moves: circuits ran at 128 places, and run at 64 \
         now."
    );
    assert_eq!(told.reasons.len(), 65);
    assert_eq!(
        told.reasons[63],
        "Round 64 joined 126 and 127 at place 126, wavelength 63 clockwise: 126 stayed, and 127 \
         came to it from place 127."
    );
    assert!(told.reasons[64].ends_with("62 and 63 counterclockwise fell dark."));
    assert_eq!(again.answer, ["tidy rounds 0 moves 0"]);
    assert_good(&page::page("spread out", &day));
}

#[test]
fn a_tidying_is_refused_as_a_line_without_a_ring_and_with_a_word_after_it() {
    let steps = run(b"tidy\nring 3 1 1 1\ntidy 128\ntidy \nTidy\ntidy\n", None).steps;
    let reasons: Vec<String> = steps.iter().map(|step| tell(step).reasons.join(" ")).collect();
    for (index, expected) in [
        (0, "No ring is lit yet, so only a line that lights or reads one,"),
        (2, "Tidying takes the whole ring as it is: nothing stands after the word,"),
        (3, "Tidying takes the whole ring as it is: nothing stands after the word,"),
        (4, "It may have a misspelt word,"),
        (5, "The ring has no circuits."),
    ] {
        assert!(
            reasons[index].starts_with(expected),
            "{}: {}",
            steps[index].request,
            reasons[index]
        );
    }
}

/// A folder of its own for a test, which is removed with what is in it.
struct Folder(PathBuf);

impl Folder {
    fn new(name: &str) -> Folder {
        let path = env::temp_dir().join(format!("ringpage-{}-{name}", std::process::id()));
        fs::create_dir(&path).expect("a folder");
        Folder(path)
    }

    fn names(&self) -> Vec<String> {
        let entries = fs::read_dir(&self.0).expect("the folder");
        entries.map(|entry| entry.unwrap().file_name().into_string().unwrap()).collect()
    }
}

impl Drop for Folder {
    fn drop(&mut self) {
        let _ = fs::remove_dir_all(&self.0);
    }
}

/// Saves a ring with one circuit, lights another ring and reads the first one back.
fn saving_script(path: &Path) -> String {
    let path = path.display();
    format!("ring 5 1 1 1 1 1\nopen 11 1 5 0 0\nwrite @{path}\nring 3 1 1 1\nread @{path}\n")
}

#[test]
fn a_page_changes_no_file() {
    let folder = Folder::new("drawn");
    let file = folder.0.join("old");
    fs::write(&file, "old").expect("a file");
    for (path, names) in [(&file, ["old"]), (&folder.0.join("new"), ["old"])] {
        let day = run(saving_script(path).as_bytes(), None);
        assert_eq!(folder.names(), names);
        assert_eq!(fs::read(&file).expect("the file"), b"old");
        let [_, opened, saved, _, read] = &day.steps[..] else { panic!("five steps") };
        assert_eq!(
            (&saved.outcome, &saved.answer[..]),
            (&Outcome::NotRun, &["not run".into()][..])
        );
        assert_eq!(saved.after, opened.after);
        assert_eq!(read.outcome, Outcome::ReadBack { line: 3 });
        assert_eq!((&read.answer[0][..], &read.after), ("read 5 wavelengths 2", &opened.after));
        assert!(tell(read).point.contains("line 3, which was not run, would have saved"));
        let sentence = "It was not run, since a page changes no file; ringpage --write runs it.";
        let text = page::page("saving", &day);
        assert_good(&text);
        assert!(text.contains(sentence) && !picture(saved).is_empty());
        // A line that is not shown is not run either.
        let shown = run(saving_script(path).as_bytes(), Some((5, 5)));
        assert_eq!(
            (&shown.steps[0].outcome, folder.names()),
            (&read.outcome, names.map(String::from).into())
        );
    }
}

#[test]
fn a_page_writes_files_where_it_is_told_to() {
    let folder = Folder::new("run");
    let script = saving_script(&folder.0.join("new"));
    let day = run_saving(script.as_bytes(), None, Saving::Run);
    assert_eq!(folder.names(), ["new"]);
    assert_eq!(fs::read(folder.0.join("new")).expect("the file").len(), 29);
    assert_eq!(day.steps[2].answer, ["write 29"]);
    assert_eq!(tell(&day.steps[2]).point, "The ring was saved to the file, and stays as it is.");
    assert_eq!(day.steps[4].outcome, Outcome::Read);
    assert_eq!(day.steps[4].after, day.steps[1].after);
}

#[test]
fn files_that_cannot_be_had_are_counted() {
    let script = b"ring 3 1 1 1\nread @/no/such/ring\nwrite @/no/such/ring\nload\nread @/no/such\n";
    assert_eq!(run(script, Some((4, 5))).failed, [2, 5]);
    assert_eq!(run_saving(script, Some((4, 4)), Saving::Run).failed, [2, 3]);
}

#[test]
fn a_long_script_shows_its_last_200_steps_or_those_chosen() {
    let mut script = b"ring 3 1 1 1\n".to_vec();
    script.extend(b"open 7 1 2 0 0\nclose 7\n".repeat(150));
    let day = run(&script, None);
    assert_eq!((day.lines, day.steps.len(), day.steps[0].number), (301, 200, 102));
    assert!(day.steps[0].before.is_some());
    let text = page::page("long", &day);
    assert!(text.contains("The script has 301 lines; the last 200 are shown."));
    let chosen = run(&script, Some((102, 103)));
    assert_eq!(chosen.steps[..], day.steps[..2]);
    let text = page::page("long", &chosen);
    assert!(text.contains("The script has 301 lines; lines 102 to 103 are shown."));
}

#[test]
fn scripts_of_any_bytes_make_good_pages() {
    let mut script: Vec<u8> = (0..=255).collect();
    script.extend(
        b"\n<b>&amp;\"']]>\nring 3 1 1 1\r\nring 3 1 1 1\n\nload\ncircuits\nwrite\nread -\n",
    );
    script.extend([b'7'; 20_000]);
    let day = run(&script, None);
    assert_eq!(day.lines, 11);
    assert_good(&page::page("<&>", &day));
    assert_good(&page::page("empty", &run(b"", None)));
}
