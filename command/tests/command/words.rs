//! The command's own words: help, version, explanations, and what is no command.

use std::ffi::OsStr;
use std::os::unix::ffi::OsStrExt;
use std::process::{Command, Stdio};

use crate::common::{closed, run, run_into, WIZBRATEL};

#[test]
fn no_command() {
    run::<&str>(&[]).fails(2, &["wizbratel help"]);
    run(&["dance"]).fails(2, &["no command `dance`", "wizbratel help"]);
    run(&[""]).fails(2, &["no command"]);
    run(&[OsStr::from_bytes(b"\xff")]).fails(2, &["no command"]);
}

#[test]
fn every_question_is_explained() {
    for number in 1..=17 {
        let ran = run(&["explain", &number.to_string()]);
        assert_eq!((ran.status, &ran.err[..]), (0, ""));
        let text = ran.text();
        assert!(text.starts_with(&format!("Question {number}: ")));
        assert!(text.contains(&format!("\n  refused {number}\n")), "{text}");
        assert!(text.ends_with("\n  accepted\n"), "{text}");
    }
    assert_eq!(run(&["explain"]).text().lines().count(), 17);
    for wrong in ["0", "18", "256", "263", "99999999999999999999"] {
        run(&["explain", wrong]).fails(2, &[wrong]);
    }
    for wrong in ["seven", "", "+7", "1.0"] {
        run(&["explain", wrong]).fails(2, &["no number"]);
    }
    run(&["explain", "-7"]).fails(2, &["no option"]);
    run(&["explain", "1", "2"]).fails(2, &["only one"]);
}

#[test]
fn nobody_reads() {
    let ran = run_into(&["help"], closed());
    assert_eq!((ran.status, &ran.err[..]), (0, ""));
    let mut silent = Command::new(WIZBRATEL);
    silent.arg("dance").stdin(Stdio::null());
    let status = silent.stdout(closed()).stderr(closed()).status().unwrap();
    assert_eq!(status.code(), Some(2));
}
