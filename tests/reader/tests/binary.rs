//! The program: one case a line, one answer a line.

use std::io::Write;
use std::process::{Command, Output, Stdio};

fn run(arguments: &[&str], input: &str) -> Output {
    let mut child = Command::new(env!("CARGO_BIN_EXE_reader"))
        .args(arguments)
        .stdin(Stdio::piped())
        .stdout(Stdio::piped())
        .stderr(Stdio::piped())
        .spawn()
        .unwrap();
    let mut stdin = child.stdin.take().unwrap();
    stdin.write_all(input.as_bytes()).unwrap();
    drop(stdin);
    child.wait_with_output().unwrap()
}

fn answers(mode: &str, cases: &[&[u8]]) -> Vec<String> {
    let lines: String = (cases.iter())
        .map(|case| reader::to_hex(case) + "\n")
        .collect();
    let output = run(&[mode], &lines);
    assert!(output.status.success());
    let text = String::from_utf8(output.stdout).unwrap();
    text.lines().map(str::to_string).collect()
}

const SHEET: &[u8] = b"act a;act b;proc X=a.b;init X;";

#[test]
fn tables_in_hex_or_refused() {
    let file = reader::to_hex(&reader::make_table(SHEET).unwrap());
    let wanted = ["refused 5", file.as_str(), "refused 9"];
    assert_eq!(answers("table", &[b"", SHEET, b"proc X=X;init X;"]), wanted);
}

#[test]
fn walks_with_a_stroke_for_each_line_feed() {
    let wanted = ["1 a 1/2 b 0/ended/", "refused 5/"];
    assert_eq!(answers("walk", &[SHEET, b""]), wanted);
}

#[test]
fn table_files_read_or_refused() {
    let file = reader::make_table(SHEET).unwrap();
    let mut broken = file.clone();
    broken[7] ^= 1;
    let empty = reader::to_blocks(&[0]);
    let cases: [&[u8]; 4] = [&file, b"", &broken, &empty];
    let wanted = ["ok", "refused 12", "refused 13", "refused 14"];
    assert_eq!(answers("readtable", &cases), wanted);
}

#[test]
fn tables_printed_or_refused() {
    let file = reader::make_table(SHEET).unwrap();
    let wanted = ["act a;act b;proc p0=a.p1;proc p1=b;init p0;", "refused 12"];
    assert_eq!(answers("print", &[&file, b""]), wanted);
}

#[test]
fn other_words_and_lines_are_errors() {
    assert!(!run(&[], "").status.success());
    assert!(!run(&["tables"], "").status.success());
    assert!(!run(&["walk"], "6\n").status.success());
    assert!(!run(&["walk"], "zz\n").status.success());
    assert!(run(&["walk"], "").status.success());
}
