//! The help of the command and of each of its words, the man page, and words that are nearly right.

use std::fs;
use std::io::Write;
use std::process::{Command, Stdio};

use crate::common::{example, run, Folder, WIZBRATEL};

/// Characters of a line at most.
const WIDTH: usize = 80;

const WORDS: [&str; 11] = [
    "make", "check", "walk", "print", "show", "explain", "step", "ask", "graph", "renew", "audit",
];

/// What the command prints, in lines that a terminal shows whole.
fn printed(words: &[&str]) -> String {
    let ran = run(words);
    assert_eq!((ran.status, &ran.err[..]), (0, ""), "{words:?}");
    let wide = ran.text().lines().find(|line| line.chars().count() > WIDTH);
    assert_eq!(wide, None, "{words:?}");
    ran.text().to_string()
}

#[test]
fn of_the_command() {
    let text = printed(&["help"]);
    for word in WORDS {
        assert!(text.contains(&format!("\n  {word} ")), "{word}");
    }
    for word in ["--help", "-h"] {
        assert_eq!(printed(&[word]), text);
    }
    let version = format!("wizbratel {}\n", env!("CARGO_PKG_VERSION"));
    run(&["--version"]).prints(&version);
}

#[test]
fn of_each_word() {
    for word in WORDS {
        let text = printed(&["help", word]);
        assert!(
            text.starts_with(&format!("usage: wizbratel {word} ")),
            "{text}"
        );
        assert!(text.contains("\nExample:\n  "), "{text}");
        for words in [
            &[word, "--help"][..],
            &[word, "-h"],
            &[word, "x", "y", "--help"],
        ] {
            assert_eq!(printed(words), text);
        }
    }
    // behind `--` it is a file
    run(&["check", "--", "--help"]).fails(2, &["--help cannot be read"]);
    run(&["help", "make", "walk"]).fails(2, &["one word"]);
}

/// A folder in which the examples of the help stand, with their tables, and two folders of sheets.
fn with_examples() -> Folder {
    let folder = Folder::new();
    let charger = fs::read(example("charger.pcrl")).unwrap();
    folder.file("charger.pcrl", &charger);
    folder.file("charger.table", reader::make_table(&charger).unwrap());
    for name in ["sheets", "more-sheets"] {
        fs::create_dir(folder.path(name)).unwrap();
        folder.file(format!("{name}/a.pcrl"), &charger);
    }
    folder
}

#[test]
fn the_examples_can_be_run() {
    let folder = with_examples();
    let bin = std::path::Path::new(WIZBRATEL).parent().unwrap();
    let path = format!("{}:/usr/bin:/bin", bin.display());
    for word in WORDS {
        let text = printed(&["help", word]);
        let (_, example) = text.split_once("\nExample:\n").unwrap();
        assert!(example.contains(&format!("wizbratel {word} ")), "{example}");
        let mut shell = Command::new("sh");
        shell.args(["-ec", example]).env("PATH", &path);
        let output = shell.current_dir(folder.path("")).output().unwrap();
        assert_eq!(output.status.code(), Some(0), "{example}: {output:?}");
        assert!(output.stderr.is_empty(), "{example}: {output:?}");
    }
    assert!(folder.path("bench.table").exists() && folder.path("charger.dot").exists());
    assert!(folder.path("more-sheets/a.table").exists() && folder.path("charger.html").exists());
}

#[test]
fn did_you_mean() {
    for (wrong, meant) in [
        ("mkae", "make"),
        ("cheek", "check"),
        ("Walk", "walk"),
        ("steps", "step"),
        ("hlep", "help"),
        ("versoin", "version"),
    ] {
        let near = format!("did you mean `{meant}`?");
        run(&[wrong]).fails(2, &[&format!("no command `{wrong}`"), &near]);
    }
    run(&["help", "grpah"]).fails(2, &["did you mean `graph`?"]);
    run(&["check", "--tabel", "x"]).fails(2, &["no option `--tabel`", "did you mean `--table`?"]);
    run(&["graph", "--limits=3", "x"]).fails(2, &["did you mean `--limit`?"]);
    run(&["renew", "--nomark", "x"]).fails(2, &["did you mean `--no-mark`?"]);
    for words in [&["dance"][..], &["make", "--dance", "x"]] {
        assert!(!run(words).err.contains("did you mean"), "{words:?}");
    }
    run(&["check", "--table=x", "y"]).fails(2, &["--table takes no value"]);
    run(&["make", "x", "-o"]).fails(2, &["-o needs a value behind it: TABLE"]);
}

#[test]
fn the_man_page() {
    let ran = run(&["help", "--man"]);
    assert_eq!((ran.status, &ran.err[..]), (0, ""));
    let page = ran.text();
    assert!(page.starts_with(".TH WIZBRATEL 1 "));
    for word in WORDS {
        assert!(page.contains(&format!("\n.SS {word}\n")), "{word}");
    }
    assert!(page.contains("\n.B \\-\\-no\\-mark\n"), "{page}");
    // where there is a formatter, it finds nothing wrong, and lines that are shown as they are
    let groff = Command::new("groff")
        .args(["-man", "-ww", "-Tascii", "-P-c"])
        .stdin(Stdio::piped())
        .stdout(Stdio::piped())
        .stderr(Stdio::piped())
        .spawn();
    let Ok(mut groff) = groff else {
        eprintln!("no groff here");
        return;
    };
    groff
        .stdin
        .take()
        .unwrap()
        .write_all(page.as_bytes())
        .unwrap();
    let output = groff.wait_with_output().unwrap();
    assert!(
        output.status.success() && output.stderr.is_empty(),
        "{output:?}"
    );
    let shown = String::from_utf8_lossy(&output.stdout).replace('\u{8}', "");
    assert!(
        shown.contains("wizbratel make charger.pcrl -o bench.table"),
        "{shown}"
    );
}
