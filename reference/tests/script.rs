//! The script program: its lines, its answers and the scripts of `examples/`.

#[macro_use]
#[path = "common/example.rs"]
mod example;

use std::io::BufReader;

use second_controller::script::{run, Desk};

fn answer(script: &[u8]) -> String {
    let outputs = [Desk::new(), Desk::checking_rules()].map(|mut desk| {
        let mut output = Vec::new();
        run(&mut desk, &mut &script[..], &mut output).unwrap();
        String::from_utf8(output).unwrap()
    });
    assert_eq!(outputs[0], outputs[1]);
    outputs[0].clone()
}

/// The answer to lines after a ring of three nodes, without the ring's own.
fn on_ring(lines: &[u8]) -> String {
    let script = [b"ring 3 1 1 1\n", lines].concat();
    answer(&script).strip_prefix("ring 3 wavelengths 1\n").unwrap().to_string()
}

fn is_refused_line(line: &[u8]) {
    assert_eq!(on_ring(line), "line refused\n", "{}", line.escape_ascii());
}

example!(example_01, "01", ".script");
example!(example_exercises, "exercises", ".script");
example!(example_filling, "filling", ".script");
example!(example_one_move, "one-move", ".script");
example!(example_two_moves, "two-moves", ".script");
example!(example_three_moves, "three-moves", ".script");
example!(example_returns, "returns", ".script");
example!(example_refusals, "refusals", ".script");
example!(example_dimensions, "dimensions", ".script");
example!(example_shorter_way, "shorter-way", ".script");

#[test]
fn the_script_of_document_01() {
    let script =
        "ring 5 1 1 1 1 1\nopen 11 1 5 0 0\nopen 12 2 3 0 0\nopen 13 4 1 0 0\nopen 14 3 2 0 0\n\
        open 15 5 4 0 0\nopen 16 1 2 0 0\nclose 13\nopen 16 4 1 0 0\n";
    // 11 uses one link counterclockwise and 12 one clockwise. 13 joins 11, with 6 hops in total, and
    // 14 joins 12, its return. So 15 finds none alone and goes counterclockwise, over one link. 16,
    // where 13 was, joins 11 again.
    let output = "ring 5 wavelengths 2\nopen 11 place 1 moves 0 looks 0\n\
        open 12 place 0 moves 0 looks 0\nopen 13 place 1 moves 0 looks 0\n\
        open 14 place 0 moves 0 looks 0\nopen 15 place 3 moves 0 looks 0\n\
        open 16 refused 13\nclose 13\nopen 16 place 1 moves 0 looks 0\n";
    assert_eq!(answer(script.as_bytes()), output);
}

#[test]
fn lines_end_at_lf() {
    assert_eq!(answer(b""), "");
    assert_eq!(answer(b"\n\n"), "line refused\nline refused\n");
    assert_eq!(answer(b"ring 3 1 1 1"), "ring 3 wavelengths 1\n");
    assert_eq!(answer(b"ring 3 1 1 1\r\n"), "line refused\n");
    assert_eq!(answer(b"x\n\nring 3 1 1 1"), "line refused\nline refused\nring 3 wavelengths 1\n");
}

#[test]
fn lines_that_are_no_request() {
    let lines: [&[u8]; 30] = [
        b"\n",
        b" \n",
        b"ring\n",
        b"open\n",
        b"close\n",
        b"ring \n",
        b"close 1 \n",
        b" close 1\n",
        b"close  1\n",
        b"close\t1\n",
        b"close +1\n",
        b"close -1\n",
        b"close 1.0\n",
        b"close 0x1\n",
        b"Close 1\n",
        b"CLOSE 1\n",
        b"closes 1\n",
        b"close 1 1\n",
        b"open 1 1 2\n",
        b"open 1 1 2 0\n",
        b"open 1 1 2 0 \n",
        b"open 1 1 2 0 -1\n",
        b"open 1 1 2 0 7x\n",
        b"open 1 1 2 0 0 0\n",
        b"close 1\0\n",
        b"close \xB2\n",
        b"frequency 500 -3 0\n",
        b"wavelength 500 -3 1929500\n",
        b"tidy\n",
        b"from 1\n",
    ];
    lines.into_iter().for_each(is_refused_line);
}

#[test]
fn numbers_too_wide_for_their_field() {
    let lines: [&[u8]; 15] = [
        b"ring 256 1 1 1\n",
        b"ring 3 1 1 256\n",
        b"ring 2 300\n",
        b"ring 65 1 1 256\n",
        b"open 4294967296 1 2 0 0\n",
        b"open 18446744073709551617 1 2 0 0\n",
        b"open 1 256 2 0 0\n",
        b"open 1 1 256 0 0\n",
        b"open 1 1 2 65536 0\n",
        b"open 1 257 258 0 0\n",
        b"open 1 1 2 0 4294967296\n",
        b"open 1 1 2 0 00000000004294967296\n",
        b"open 1 1 2 0 18446744073709551616\n",
        b"close 4294967296\n",
        b"close 00000000004294967296\n",
    ];
    lines.into_iter().for_each(is_refused_line);
    let digits = format!("close {}\n", "9".repeat(250));
    is_refused_line(digits.as_bytes());
}

#[test]
fn the_widest_numbers_are_taken() {
    let line = b"open 4294967295 0001 00000000000002 065535 004294967295\nclose 004294967295\n";
    assert_eq!(on_ring(line), "open 4294967295 place 0 moves 0 looks 0\nclose 4294967295\n");
    assert_eq!(on_ring(b"open 00 1 2 0 0\n"), "open 0 place 0 moves 0 looks 0\n");
    assert_eq!(on_ring(b"open 7 255 1 0 0\n"), "open 7 refused 10\n");
    assert_eq!(on_ring(b"ring 3 1 255 1\n"), "ring refused 2\n");
    assert_eq!(on_ring(b"ring 255 255\n"), "ring refused 1\n");
    assert_eq!(on_ring(b"ring 3\n"), "ring refused 1\n");
}

/// A closing of circuit 1 filled with zeros to this length.
fn closing_of_length(length: usize) -> Vec<u8> {
    let zeros = "0".repeat(length - "close 1".len());
    format!("close {zeros}1\n").into_bytes()
}

#[test]
fn lines_to_256_bytes_are_taken() {
    assert_eq!(closing_of_length(256).len(), 257);
    assert_eq!(on_ring(&closing_of_length(256)), "close refused 15\n");
    assert_eq!(on_ring(closing_of_length(256).trim_ascii_end()), "close refused 15\n");
}

#[test]
fn a_line_over_256_bytes_is_refused_once() {
    for length in [257, 258, 512, 513, 514, 65_536, 200_000] {
        let mut script = closing_of_length(length);
        assert_eq!(on_ring(script.trim_ascii_end()), "line refused\n");
        script.extend(b"close 2\n");
        assert_eq!(on_ring(&script), "line refused\nclose refused 15\n", "{length} bytes");
    }
}

#[test]
fn the_size_of_the_reads_does_not_matter() {
    let script =
        [b"ring 3 1 1 1\n".to_vec(), closing_of_length(256), closing_of_length(300)].concat();
    for capacity in 1..600 {
        let mut input = BufReader::with_capacity(capacity, &script[..]);
        let mut output = Vec::new();
        run(&mut Desk::new(), &mut input, &mut output).unwrap();
        assert_eq!(output, b"ring 3 wavelengths 1\nclose refused 15\nline refused\n");
    }
}

#[test]
fn no_opening_or_closing_before_the_first_accepted_ring() {
    let script = b"open 1 1 2 0 0\nring 3 1 1\nclose 1\nring 3 1 1 1\nclose 1\n";
    let output =
        "line refused\nring refused 1\nline refused\nring 3 wavelengths 1\nclose refused 15\n";
    assert_eq!(answer(script), output);
}

#[test]
fn a_refused_ring_keeps_the_table_and_an_accepted_one_replaces_it() {
    let opened = "open 1 place 0 moves 0 looks 0\n";
    let refused = on_ring(b"open 1 1 2 0 0\nring 2 1 1\nclose 1\n");
    assert_eq!(refused, format!("{opened}ring refused 1\nclose 1\n"));
    let replaced = on_ring(b"open 1 1 2 0 0\nring 3 1 1 1\nclose 1\n");
    assert_eq!(replaced, format!("{opened}ring 3 wavelengths 1\nclose refused 15\n"));
}
