//! `step`, through a pipe and through a terminal.

use std::io::{Read, Write};
use std::process::{Command, Stdio};

use crate::common::{closed, example, fed, run, Folder, LOOP, WIZBRATEL};

/// The output of a script on an example.
fn script(name: &str, words: &str) -> String {
    let ran = fed(&["step", &example(name)], words.as_bytes());
    assert_eq!((ran.status, &ran.err[..]), (0, ""));
    ran.text().to_string()
}

#[test]
fn numbers_from_a_pipe() {
    let walk = std::fs::read_to_string(example("charger.walk")).unwrap();
    let steps = walk.trim_end_matches("more\n");
    assert_eq!(script("charger.pcrl", &"0\n".repeat(8)), steps);
    assert_eq!(script("charger.pcrl", &"0 ".repeat(8)), steps);
    assert_eq!(script("charger.pcrl", ""), "");
    let many = "0 ".repeat(20_000);
    assert_eq!(script("charger.pcrl", &many).lines().count(), 20_000);
}

#[test]
fn undone_none_ended_and_listed() {
    let wanted =
        "1 work 0\nended\nundone 1\nnone\ndepth 1: Run\n  0 call 2\n  1 work 0\nnone\n1 call 2\n";
    assert_eq!(script("calls.pcrl", "1 0 u u l 2 0 q 0 0"), wanted);
    let stuck = "1 seat 3\n2 lock 2\ndepth 2: 2:delta . 3:lift\n  stuck: no step\nnone\n";
    assert_eq!(script("stuck.pcrl", "0 0 l r"), stuck);
}

#[test]
fn with_sorts() {
    let plain = "1 seat(2) 1\ndepth 1: Driven(2,0)\n  0 drive(2,0) 1\n  1 off 1\n2 off 1\n";
    assert_eq!(script("coil.pcrl", "2 l 1"), plain);
    let whole = plain.replace("seat(2", "seat(Channel:2");
    let whole = whole.replace("drive(2,0", "drive(Channel:2,Amp:0");
    fed(&["step", "--sorts", &example("coil.pcrl")], b"2 l 1").prints(&whole);
}

#[test]
fn at_random() {
    let ran = |seed: &str| {
        let words = "r ".repeat(200);
        let ran = fed(
            &["step", &example("coil.pcrl"), "--seed", seed],
            words.as_bytes(),
        );
        assert_eq!((ran.status, ran.text().lines().count()), (0, 200));
        ran.text().to_string()
    };
    assert_eq!(ran("1"), ran("1"));
    assert_ne!(ran("1"), ran("2"));
    for label in ["seat(2)", "drive(1,0)", "off"] {
        assert!(ran("1").contains(label), "{label}");
    }
    assert_eq!(script("coil.pcrl", "r r").lines().count(), 2);
}

#[test]
fn tables_and_many_steps() {
    let folder = Folder::new();
    let made = reader::make_table(LOOP.as_bytes()).unwrap();
    let table = folder.file("x.table", made).display().to_string();
    fed(&["step", &table], b"0 0 l").prints("1 a 1\n2 a 1\ndepth 1: 0\n  0 a 1\n");
    let sheet = "sort D 16;act a:D#D;proc X=sum(d:D,sum(e:D,a(d,e)));init X;";
    let many = folder.file("many", sheet).display().to_string();
    let ran = fed(&["step", &many], b"l 255");
    let lines: Vec<&str> = ran.text().lines().collect();
    assert_eq!(lines.len(), 43);
    assert_eq!(
        lines[40..],
        ["  39 a(2,7) 0", "  .. 255 is the last", "1 a(15,15) 0"]
    );
}

#[test]
fn too_deep() {
    let folder = Folder::new();
    let sheet = folder.file("deep", "act a;proc X=a.X.X;init X;");
    let ran = fed(
        &["step".as_ref(), sheet.as_os_str()],
        "0 ".repeat(64).as_bytes(),
    );
    assert_eq!(ran.status, 1);
    assert!(ran.text().ends_with("63 a 64\nrefused 16\n"));
    assert!(ran
        .err
        .contains("deep: refused by question 16: at most 64 frames"));
}

#[test]
fn misuse() {
    let charger = example("charger.pcrl");
    let ran = fed(&["step", &charger], b"0 dance 0");
    assert_eq!((ran.status, ran.text()), (2, "1 plug 1\n"));
    assert!(ran.err.contains("`dance`"));
    for wrong in ["-1", "1.5", "99999999999999999999", "\u{e9}"] {
        fed(&["step", &charger], wrong.as_bytes()).fails(2, &["a number takes that step"]);
    }
    run(&["step", "-"]).fails(2, &["needs a name"]);
    run(&["step"]).fails(2, &["missing"]);
    run(&["step", &charger, "--seed", "x"]).fails(2, &["--seed"]);
    run(&["step", &example("circle.pcrl")]).fails(1, &["question 9"]);
    let folder = std::fs::File::open("/").unwrap();
    let mut command = Command::new(WIZBRATEL);
    command.args(["step", &charger]).stdin(folder);
    let output = command.output().unwrap();
    assert_eq!(output.status.code(), Some(2));
    let err = String::from_utf8(output.stderr).unwrap();
    assert!(err.contains("standard input cannot be read"), "{err}");
}

#[test]
fn nobody_reads() {
    let mut command = Command::new(WIZBRATEL);
    command.args(["step", &example("charger.pcrl")]);
    let mut child = command
        .stdin(Stdio::piped())
        .stdout(closed())
        .spawn()
        .unwrap();
    let _ = child.stdin.take().unwrap().write_all(b"0 0 0");
    assert_eq!(child.wait().unwrap().code(), Some(0));
}

/// What a terminal shows where each of these lines is typed in behind a prompt.
fn terminal(name: &str, lines: &str) -> String {
    let mut child = Command::new("script")
        .args(["-qec", "\"$WIZBRATEL\" step \"$SHEET\"", "/dev/null"])
        .env("WIZBRATEL", WIZBRATEL)
        .env("SHEET", example(name))
        .env("SHELL", "/bin/sh")
        .stdin(Stdio::piped())
        .stdout(Stdio::piped())
        .spawn()
        .expect("script, of util-linux");
    let mut typed = child.stdin.take().unwrap();
    let mut screen = child.stdout.take().unwrap();
    let mut lines = lines.split_inclusive('\n');
    let (mut shown, mut byte) = (Vec::new(), [0]);
    while screen.read(&mut byte).unwrap() == 1 {
        shown.push(byte[0]);
        // what is typed before a prompt is shown amid what is printed
        if shown.ends_with(b"\n> ") {
            let line = lines.next().unwrap_or_default();
            typed.write_all(line.as_bytes()).unwrap();
        }
    }
    assert_eq!(child.wait().unwrap().code(), Some(0));
    String::from_utf8(shown).unwrap().replace('\r', "")
}

#[test]
fn on_a_terminal() {
    let shown = terminal("calls.pcrl", "0\n1\nu\ndance\n\n7\nq\n");
    for part in [
        "depth 1: Run\n  0 call 2\n  1 work 0\n> ",
        "1 call 2\ndepth 2: Run . Done\n  0 call 3\n  1 work 1\n> ",
        "2 work 1\ndepth 1: Done\n  0 back 0\n> ",
        "undone 2\ndepth 2: Run . Done\n",
        "`dance`? a number takes that step",
        "none\ndepth 2: Run . Done\n",
    ] {
        assert!(shown.contains(part), "{part:?}: {shown}");
    }
    let prompts = shown.lines().filter(|line| line.starts_with("> ")).count();
    assert_eq!(prompts, 7, "{shown}");
}

#[test]
fn listed_once_on_a_terminal() {
    let list = "depth 1: Run\n  0 call 2\n  1 work 0\n";
    let shown = terminal("calls.pcrl", "l\nl l\nu l\n\nq\n");
    let wanted = format!("{list}> l\n{list}> l l\n{list}{list}> u l\nnone\n{list}> \n{list}> q\n");
    assert_eq!(shown, wanted);
}
