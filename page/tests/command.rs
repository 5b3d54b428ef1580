//! The command by its statuses and its one sentence on standard error.

use std::fs::File;
use std::process::{Command, Output, Stdio};

const SCRIPT: &str = concat!(env!("CARGO_MANIFEST_DIR"), "/../examples/filling.script");

/// Stands in for `ringplan`; its head tells more.
const REFUSING: &str = concat!(env!("CARGO_MANIFEST_DIR"), "/tests/common/ringplan");

fn command(ringplan: &str, arguments: &[&str]) -> Command {
    let mut command = Command::new(env!("CARGO_BIN_EXE_ringpage"));
    command.env("RINGPLAN", ringplan).args(arguments);
    command
}

fn run(ringplan: &str, arguments: &[&str]) -> Output {
    command(ringplan, arguments).output().expect("ringpage")
}

/// One sentence, and nothing on standard output.
fn assert_fails(output: &Output, status: i32, words: &str) {
    let said = String::from_utf8_lossy(&output.stderr);
    assert_eq!(output.status.code(), Some(status), "{said}");
    assert!(said.starts_with("ringpage: ") && said.contains(words), "{said}");
    assert_eq!(said.lines().count(), 1, "{said}");
    assert!(output.stdout.is_empty());
}

#[test]
fn help_and_what_is_not_understood() {
    let help = run("/no/such/ringplan", &["--help"]);
    assert!(help.status.success() && help.stdout.starts_with(b"usage: ringpage"));
    assert_fails(&run("true", &["--page", SCRIPT]), 2, "unknown option --page");
    assert_fails(&run("true", &[]), 2, "which script?");
    assert_fails(&run("true", &["--steps", "9..3", SCRIPT]), 2, "ends before it begins");
}

#[test]
fn what_cannot_be_read_or_run() {
    assert_fails(&run("true", &["/no/such/script"]), 1, "cannot be read");
    assert_fails(&run("/no/such/ringplan", &[SCRIPT]), 1, "ringplan cannot be started");
    assert_fails(&run("true", &[SCRIPT]), 1, "ringplan ended before it had answered `ring 8");
    assert_fails(&run("yes", &[SCRIPT]), 1, "does not end");
}

#[test]
fn what_ringplan_says_is_passed_on() {
    let said = "ringplan: day.ring: not read: open: No such file or directory";
    let output = command(REFUSING, &[SCRIPT]).env("SAYS", said).output().expect("ringpage");
    assert!(output.status.success() && output.stdout.ends_with(b"</html>\n"));
    assert_eq!(String::from_utf8_lossy(&output.stderr), format!("{said}\n"));
}

#[test]
fn a_ringplan_that_ends_badly() {
    let output = command(REFUSING, &[SCRIPT]).env("ENDS", "3").output().expect("ringpage");
    assert_fails(&output, 1, "ringplan answered all lines, but ended with exit status: 3");
    let words = "ended before it had answered `ring 8 2 1 1 1 1 1 1 1` (exit status: 1)";
    assert_fails(&run("false", &[SCRIPT]), 1, words);
}

#[test]
fn a_page_that_cannot_be_written() {
    let read_only = File::open("/dev/null").expect("a device");
    let full = File::options().write(true).open("/dev/full");
    for out in full.into_iter().chain([read_only]) {
        let output = command("true", &["--help"]).stdout(out).stderr(Stdio::piped()).output();
        assert_fails(&output.expect("ringpage"), 1, "the page cannot be written");
    }
}

#[test]
fn a_file_that_fails_is_told_after_the_page() {
    let output = command(REFUSING, &[SCRIPT]).env("FAILS", "ring 8*").output().expect("ringpage");
    let said = String::from_utf8_lossy(&output.stderr);
    assert_eq!(said, "ringpage: the page is made, but the file of line 1 failed\n");
    assert_eq!(output.status.code(), Some(1));
    assert!(output.stdout.ends_with(b"</html>\n"));
}
