//! The planning program: its lines, its answers and its files.

#[macro_use]
#[path = "common/example.rs"]
mod example;

use std::fs;
use std::io::BufReader;
use std::os::unix::fs::PermissionsExt;
use std::path::PathBuf;

use second_controller::form::FORM_MOST;
use second_controller::generator::{Generator, Kind};
use second_controller::lines::words;
use second_controller::plan::{hexadecimal, run, Answer, Planner, LINE_MOST};
use second_controller::program::Program;
use second_controller::script::Desk;

/// The script's answers from a planner that relies on its table and one that checks it.
fn answer(script: &[u8]) -> String {
    let outputs = [Planner::new(), Planner::checking_rules()].map(|mut planner| {
        let mut output = Vec::new();
        run(&mut planner, &mut &script[..], &mut output).unwrap();
        String::from_utf8(output).unwrap()
    });
    assert_eq!(outputs[0], outputs[1]);
    outputs[0].clone()
}

/// Three circuits on a ring of five nodes, and their answers: 1→3 and 3→4 clockwise at place 0,
/// 2→1 counterclockwise at place 1.
const SMALL: &str = "ring 5 1 1 1 1 1\nopen 1 1 3 0 0\nopen 2 2 1 700 0\nopen 3 3 4 0 0\n";
const SMALL_ANSWERS: &str = "ring 5 wavelengths 2\nopen 1 place 0 moves 0 looks 0\n\
    open 2 place 1 moves 0 looks 0\nopen 3 place 0 moves 0 looks 0\n";
const SMALL_FORM: &str = "05010101010103000000000000000000000000000000\
    02000000010103000000030304\
    0100000002020102bc";

/// The answers to lines after those of `SMALL`.
fn on_small(lines: &str) -> String {
    let output = answer(format!("{SMALL}{lines}").as_bytes());
    output.strip_prefix(SMALL_ANSWERS).unwrap().to_string()
}

fn is_refused_line(line: &str) {
    assert_eq!(on_small(&format!("{line}\n")), "line refused\n", "{line}");
}

example!(example_accounts, "accounts", ".plan");
example!(example_forms, "forms", ".plan");
example!(example_lasers, "lasers", ".plan");
example!(example_planning, "planning", ".plan");
example!(example_saved, "saved", ".plan");

#[test]
fn the_script_programs_lines_are_answered_as_there() {
    for kind in [Kind::Small, Kind::Mixed, Kind::Large] {
        let mut generator = Generator::new(Program::Script, kind, 51);
        let (mut desk, mut planner) = (Desk::new(), Planner::new());
        for _ in 0..3000 {
            let line = generator.next_line();
            // The two lines of the planner's own that are among the generator's refused ones.
            if !matches!(words(&line).next(), Some(b"load" | b"link")) {
                let expected = Answer::Script(desk.run_line(&line));
                assert_eq!(planner.run_line(&line), expected, "{}", line.escape_ascii());
            }
        }
    }
}

#[test]
fn a_form_is_written_in_hexadecimal() {
    assert_eq!(on_small("write\n"), format!("write 44 {SMALL_FORM}\n"));
    let one = answer(b"ring 5 1 1 1 1 1\nopen 11 1 5 0 0\nwrite\n");
    let form = "05010101010102000000000000000000000000000000000000000b0105";
    assert!(one.ends_with(&format!("\nwrite 29 {form}\n")), "{one}");
    let fresh = answer(b"ring 3 0 0 64\nwrite\n");
    assert!(fresh.ends_with(&format!("\nwrite 20 03000040{}\n", "0".repeat(32))), "{fresh}");
}

#[test]
fn a_form_that_is_read_becomes_the_table() {
    let script = format!("read {SMALL_FORM}\nwrite\nclose 2\nclose 2\n");
    let output =
        format!("read 5 wavelengths 2\nwrite 44 {SMALL_FORM}\nclose 2\nclose refused 15\n");
    assert_eq!(answer(script.as_bytes()), output);
    let again = format!("close 1\nread {SMALL_FORM}\nclose 1\n");
    assert_eq!(on_small(&again), "close 1\nread 5 wavelengths 2\nclose 1\n");
    let other = format!("read 0a{}{}\nclose 1\n", "00".repeat(10), "00".repeat(16));
    assert_eq!(on_small(&other), "read 10 wavelengths 0\nclose refused 15\n");
}

#[test]
fn each_refusal_of_a_form() {
    let ring = "050101010101";
    let map = |first: &str| format!("{first}{}", "00".repeat(15));
    let record = "0000000b0105";
    let forms = [
        ("-".to_string(), 30),
        ("05".to_string(), 30),
        ("02".to_string(), 1),
        ("41".to_string(), 1),
        ("ff".to_string(), 1),
        ("0501410101".to_string(), 30),
        ("050141010101".to_string(), 2),
        ("0440404040".to_string(), 3),
        (ring.to_string(), 30),
        (format!("{ring}{}", "ff".repeat(15)), 30),
        (format!("{ring}{}", map("10")), 31),
        (format!("{ring}{}", map("01")), 30),
        (format!("{ring}{}20", map("01")), 31),
        (format!("{ring}{}10", map("01")), 31),
        (format!("{ring}{}08", map("01")), 30),
        (format!("{ring}{}04", map("01")), 31),
        (format!("{ring}{}01{record}00", map("01")), 30),
        (format!("{ring}{}01{record}0000", map("01")), 31),
        (format!("{ring}{}03{record}0000", map("01")), 31),
        (format!("{ring}{}08{record}000000", map("01")), 30),
        (format!("{ring}{}08{record}00000000", map("01")), 31),
        (format!("{ring}{}0a{record}00000000", map("01")), 31),
        (format!("{ring}{}00{record}00", map("01")), 32),
        (format!("{ring}{}000000000b010600", map("01")), 32),
        (format!("{ring}{}000000000b0106", map("01")), 33),
        (format!("{ring}{}000000000b0101", map("01")), 33),
        (format!("{SMALL_FORM}00"), 32),
    ];
    for (form, number) in forms {
        let expected = format!("read refused {number}\n");
        assert_eq!(answer(format!("read {form}\n").as_bytes()), expected, "{form}");
        // The table stays as it was.
        let kept = on_small(&format!("read {form}\nwrite\n"));
        assert_eq!(kept, format!("{expected}write 44 {SMALL_FORM}\n"), "{form}");
    }
}

#[test]
fn words_that_are_no_form() {
    let capital = SMALL_FORM.replace('b', "B");
    let odd = &SMALL_FORM[1..];
    for word in ["", "0", "00000", "0g", "0x00", "--", "-0", "00-", "+1", "0A", &capital, odd] {
        is_refused_line(&format!("read {word}"));
    }
    for line in ["read", "read  00", "read 00 ", "read 00 00", "read - -", "Read -", "reads -"] {
        is_refused_line(line);
    }
}

#[test]
fn the_load_of_each_link_each_way() {
    assert_eq!(on_small("load\n"), "load 1 1 1 0 1 0 0 0 0 0\n");
    let fresh = answer(b"ring 3 0 0 0\nload\n");
    assert_eq!(fresh, "ring 3 wavelengths 0\nload 0 0 0 0 0 0\n");
    for line in ["load ", " load", "load 1", "load load", "Load", "loads"] {
        is_refused_line(line);
    }
}

#[test]
fn what_runs_on_a_link() {
    let lines = "link 1 0 0\nlink 2 0 0\nlink 3 0 0\nlink 4 0 0\nlink 1 0 1\nlink 1 1 0\n";
    let output = "link circuit 1\nlink circuit 1\nlink circuit 3\nlink none\nlink circuit 2\n\
        link none\n";
    assert_eq!(on_small(lines), output);
    assert_eq!(on_small("link 001 00000000000000000000000000000 0\n"), "link circuit 1\n");
    assert_eq!(answer(b"ring 3 0 0 0\nlink 1 0 0\n"), "ring 3 wavelengths 0\nlink refused 16\n");
}

#[test]
fn the_numbers_of_a_link_question_are_judged_with_all_their_bits() {
    let questions = [
        ("0 9 9", 10),
        ("6 9 9", 10),
        ("257 0 0", 10),
        ("4294967297 0 0", 10),
        ("18446744073709551615 18446744073709551615 18446744073709551615", 10),
        ("1 2 9", 16),
        ("1 256 0", 16),
        ("1 4294967296 0", 16),
        ("1 9223372036854775808 0", 16),
        ("1 18446744073709551615 2", 16),
        ("1 1 2", 17),
        ("1 0 256", 17),
        ("1 0 4294967296", 17),
        ("1 0 18446744073709551615", 17),
    ];
    for (numbers, refusal) in questions {
        let output = format!("link refused {refusal}\n");
        assert_eq!(on_small(&format!("link {numbers}\n")), output, "{numbers}");
    }
}

#[test]
fn lines_that_are_no_link_question() {
    let digits = "9".repeat(300);
    let lines = [
        "link",
        "link 1",
        "link 1 0",
        "link 1 0 ",
        "link 1 0 0 ",
        "link 1 0 0 0",
        "link  1 0 0",
        "link +1 0 0",
        "link 1 -0 0",
        "link 1 0 x",
        "link 18446744073709551616 0 0",
        "link 1 18446744073709551616 0",
        "link 1 0 18446744073709551617",
        "link 340282366920938463463374607431768211457 0 0",
        &format!("link 1 {digits} 0"),
    ];
    lines.into_iter().for_each(is_refused_line);
}

#[test]
fn the_circuits_by_rising_place() {
    let output = "circuits 3\ncircuit 1 from 1 to 3 remark 0 account 0 place 0\n\
        circuit 3 from 3 to 4 remark 0 account 0 place 0\n\
        circuit 2 from 2 to 1 remark 700 account 0 place 1\n";
    assert_eq!(on_small("circuits\n"), output);
    assert_eq!(answer(b"ring 3 1 1 1\ncircuits\n"), "ring 3 wavelengths 1\ncircuits 0\n");
    for line in ["circuits ", "circuits 3", "circuit", "Circuits"] {
        is_refused_line(line);
    }
}

#[test]
fn the_lower_number_comes_first_at_a_place() {
    let output = answer(b"ring 5 1 1 1 1 1\nopen 9 1 3 0 7\nopen 4 3 4 65535 0\ncircuits\n");
    let listed = "circuits 2\ncircuit 4 from 3 to 4 remark 65535 account 0 place 0\n\
        circuit 9 from 1 to 3 remark 0 account 7 place 0\n";
    assert!(output.ends_with(listed), "{output}");
}

#[test]
fn accounts_are_written_read_and_listed() {
    let script = SMALL.replace("1 3 0 0", "1 3 0 7").replace("700 0", "700 04294967295");
    let form = "05010101010103000000000000000000000000000000\
        0a00000001010300000007000000030304\
        0900000002020102bcffffffff";
    let listed = "circuits 3\ncircuit 1 from 1 to 3 remark 0 account 7 place 0\n\
        circuit 3 from 3 to 4 remark 0 account 0 place 0\n\
        circuit 2 from 2 to 1 remark 700 account 4294967295 place 1\n";
    let output = answer(format!("{script}write\n{SMALL}read {form}\ncircuits\n").as_bytes());
    let expected =
        format!("{SMALL_ANSWERS}write 52 {form}\n{SMALL_ANSWERS}read 5 wavelengths 2\n{listed}");
    assert_eq!(output, expected);
}

#[test]
fn questions_of_the_table_openings_and_closings_need_one() {
    let path = Folder::new("no_table");
    let file = path.file("form");
    let lines = format!(
        "write\nwrite @{file}\nload\nlink 1 0 0\nlink 9 9 9\ncircuits\nfrom 1\nfrom 0\n\
        open 1 1 2 0 0\nclose 1\n"
    );
    assert_eq!(answer(lines.as_bytes()), "line refused\n".repeat(10));
    assert!(!path.path.join("form").exists());
    let script = format!("read -\nring 2 1 1\n{lines}");
    let output = format!("read refused 30\nring refused 1\n{}", "line refused\n".repeat(10));
    assert_eq!(answer(script.as_bytes()), output);
}

#[test]
fn lines_of_other_releases_and_the_picture_are_refused() {
    let lines = [
        "show",
        "ends 1 1 2",
        "ports 1 1 1 1 1",
        "drain",
        "join -",
        "keep a",
        "drop a",
        "back a",
        "plans",
        "batch",
    ];
    lines.into_iter().for_each(is_refused_line);
}

#[test]
fn lines_end_at_lf() {
    assert_eq!(answer(b""), "");
    assert_eq!(answer(b"\n"), "line refused\n");
    assert_eq!(on_small("load"), "load 1 1 1 0 1 0 0 0 0 0\n");
    assert_eq!(
        on_small("load\r\n\nload"),
        "line refused\nline refused\nload 1 1 1 0 1 0 0 0 0 0\n"
    );
}

/// A link question filled with zeros to this length.
fn question_of_length(length: usize) -> String {
    let zeros = "0".repeat(length - "link 1 0 0".len());
    format!("link {zeros}1 0 0\n")
}

#[test]
fn lines_to_8192_bytes_are_taken() {
    assert_eq!(question_of_length(LINE_MOST).len(), 8193);
    assert_eq!(on_small(&question_of_length(8192)), "link circuit 1\n");
    assert_eq!(on_small(question_of_length(8192).trim_end()), "link circuit 1\n");
    let longest_form = format!("read {}\n", "00".repeat(4093));
    assert_eq!(on_small(&longest_form), "read refused 1\n");
}

#[test]
fn a_line_over_8192_bytes_is_refused_once() {
    for length in [8193, 8194, 16_384, 16_385, 16_386, 200_000] {
        let line = question_of_length(length);
        assert_eq!(on_small(line.trim_end()), "line refused\n", "{length} bytes");
        assert_eq!(on_small(&format!("{line}close 9\n")), "line refused\nclose refused 15\n");
    }
    is_refused_line(&format!("read {}", "00".repeat(4094)));
}

#[test]
fn rings_openings_and_closings_keep_256_bytes() {
    let filled = |line: &str, length: usize| {
        let (word, rest) = line.split_once(' ').unwrap();
        format!("{word} {}{rest}\n", "0".repeat(length - line.len()))
    };
    assert_eq!(on_small(&filled("close 9", 256)), "close refused 15\n");
    assert_eq!(on_small(&filled("ring 2 1", 256)), "ring refused 1\n");
    assert_eq!(on_small(&filled("open 9 9 9 0 0", 256)), "open 9 refused 10\n");
    for length in [257, 300, 8192, 8193] {
        for line in ["close 9", "ring 2 1", "open 9 9 9 0 0"] {
            assert_eq!(on_small(&filled(line, length)), "line refused\n", "{line}, {length} bytes");
        }
    }
}

#[test]
fn the_size_of_the_reads_does_not_matter() {
    let script = format!("{SMALL}{}{}load", question_of_length(300), question_of_length(9000));
    for capacity in (1..40).chain([4096, 8192, 8193, 16_384]) {
        let mut input = BufReader::with_capacity(capacity, script.as_bytes());
        let mut output = Vec::new();
        run(&mut Planner::new(), &mut input, &mut output).unwrap();
        let expected =
            format!("{SMALL_ANSWERS}link circuit 1\nline refused\nload 1 1 1 0 1 0 0 0 0 0\n");
        assert_eq!(String::from_utf8(output).unwrap(), expected);
    }
}

/// A folder for one test's files, which is gone afterwards.
struct Folder {
    path: PathBuf,
}

impl Folder {
    fn new(name: &str) -> Folder {
        let path = std::env::temp_dir().join(format!("plan-{}-{name}", std::process::id()));
        fs::create_dir(&path).unwrap();
        Folder { path }
    }

    /// The path of a file as a line gives it.
    fn file(&self, name: &str) -> String {
        self.path.join(name).into_os_string().into_string().unwrap()
    }

    fn names(&self) -> Vec<String> {
        let names = fs::read_dir(&self.path).unwrap().map(|entry| entry.unwrap().file_name());
        let mut names: Vec<String> = names.map(|name| name.into_string().unwrap()).collect();
        names.sort();
        names
    }
}

impl Drop for Folder {
    fn drop(&mut self) {
        let _ = fs::remove_dir_all(&self.path);
    }
}

#[test]
fn a_form_goes_to_a_file_and_comes_back() {
    let folder = Folder::new("there_and_back");
    let file = folder.file("saved");
    let output = on_small(&format!("write @{file}\nclose 1\nread @{file}\nwrite\n"));
    let expected = format!("write 44\nclose 1\nread 5 wavelengths 2\nwrite 44 {SMALL_FORM}\n");
    assert_eq!(output, expected);
    assert_eq!(hexadecimal(&fs::read(&file).unwrap()), SMALL_FORM);
    assert_eq!(folder.names(), ["saved"]);
    assert_eq!(on_small(&format!("close 1\nwrite @{file}\n")), "close 1\nwrite 38\n");
    assert_eq!(fs::read(&file).unwrap().len(), 38);
}

#[test]
fn a_file_that_cannot_be_read() {
    let folder = Folder::new("unread");
    let missing = folder.file("missing");
    let there = folder.file("");
    for path in ["", &missing, there.trim_end_matches('/'), &there, "a\0b"] {
        let output = on_small(&format!("read @{path}\nwrite\n"));
        assert_eq!(output, format!("read failed\nwrite 44 {SMALL_FORM}\n"), "{path}");
    }
    is_refused_line(&format!("read @{missing} "));
}

#[test]
fn a_file_is_read_to_4096_bytes() {
    let folder = Folder::new("long");
    let file = folder.file("form");
    let read = format!("read @{file}\n");
    let mut bytes: Vec<u8> = [&[5, 1, 1, 1, 1, 1][..], &[0; 16]].concat();
    fs::write(&file, &bytes).unwrap();
    assert_eq!(answer(read.as_bytes()), "read 5 wavelengths 2\n");
    for length in [FORM_MOST, 4096, 4097, 100_000] {
        bytes.resize(length, 0);
        fs::write(&file, &bytes).unwrap();
        assert_eq!(answer(read.as_bytes()), "read refused 32\n");
    }
    fs::write(&file, b"").unwrap();
    assert_eq!(answer(read.as_bytes()), "read refused 30\n");
}

#[test]
fn a_writing_that_fails_leaves_everything() {
    let folder = Folder::new("unwritten");
    let (file, inner) = (folder.file("form"), folder.file("inner"));
    fs::write(&file, "old").unwrap();
    fs::create_dir(&inner).unwrap();
    let below_file = format!("{file}/form");
    for path in ["", &inner, &below_file, &folder.file("missing/form"), "a\0b"] {
        let output = on_small(&format!("write @{path}\nwrite\n"));
        assert_eq!(output, format!("write failed\nwrite 44 {SMALL_FORM}\n"), "{path}");
    }
    assert_eq!(folder.names(), ["form", "inner"]);
    assert_eq!(fs::read_to_string(&file).unwrap(), "old");
}

#[test]
fn a_writing_keeps_the_mode_and_minds_no_leftover() {
    let folder = Folder::new("modes");
    let file = folder.file("form");
    let left = format!("{file}.ringplan-1");
    fs::write(&left, "left").unwrap();
    assert_eq!(on_small(&format!("write @{file}\n")), "write 44\n");
    assert_eq!(mode(&file) & !0o640, 0);
    for kept in [0o600, 0o664] {
        fs::set_permissions(&file, fs::Permissions::from_mode(kept)).unwrap();
        assert_eq!(on_small(&format!("write @{file}\n")), "write 44\n");
        assert_eq!(mode(&file), kept);
    }
    assert_eq!(fs::read_to_string(&left).unwrap(), "left");
    assert_eq!(folder.names(), ["form", "form.ringplan-1"]);
}

fn mode(file: &str) -> u32 {
    fs::metadata(file).unwrap().permissions().mode() & 0o7777
}

#[test]
fn what_is_no_regular_file_is_neither_read_nor_replaced() {
    assert_eq!(on_small("read @/dev/null\nwrite @/dev/null\n"), "read failed\nwrite failed\n");
}

#[test]
fn writing_takes_a_path_or_nothing() {
    for line in ["write ", "write x", "write -", "write 00", "write x@y", " write", "Write"] {
        is_refused_line(line);
    }
    is_refused_line("write @x y");
    is_refused_line("write @x ");
    is_refused_line("write  @x");
    assert!(!PathBuf::from("x").exists());
}
