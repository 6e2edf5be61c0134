//! `print`: tables of the vectors as sheets, a table and its text in turn, and wrong input.

use crate::common::{
    closed, example, fed, run, run_into, vectors, Folder, CIRCLE, LOOP, WIZBRATEL,
};

/// What the sheet LOOP's table is printed as.
const PRINTED: &str = "act a;proc p0=a.p0;init p0;";

#[test]
fn tables_of_the_vectors() {
    let mut texts = 0;
    for case in vectors::all("prints") {
        let ran = fed(&["print", "-"], &case.bytes("file"));
        match vectors::printed(&case) {
            Ok(text) => {
                texts += 1;
                ran.prints(&text);
            }
            // the command lends room for every text
            Err(11) => assert_eq!((ran.status, &ran.err[..]), (0, "")),
            Err(number) => ran.fails(1, &[&format!("refused by question {number}: ")]),
        }
    }
    assert_eq!(texts, 39 + 42 + 41);
}

#[test]
fn a_table_and_its_text_in_turn() {
    for name in ["calls", "charger", "coil", "processor", "sampler", "stuck"] {
        let made = run(&["make", &example(&format!("{name}.pcrl")), "-o", "-"]);
        let text = fed(&["print", "-"], &made.out);
        assert_eq!((text.status, &text.err[..]), (0, ""), "{name}");
        let again = fed(&["make", "-"], &text.out);
        assert_eq!((again.status, again.out), (0, made.out), "{name}");
    }
}

#[test]
fn tables_and_sheets() {
    let folder = Folder::new();
    let made = reader::make_table(LOOP.as_bytes()).unwrap();
    let table = folder.file("x.table", &made).display().to_string();
    let other = folder.file("other", &made).display().to_string();
    let sheet = folder.file("x.pcrl", LOOP).display().to_string();
    run(&["print", &table]).prints(PRINTED);
    run(&["print", &other]).prints(PRINTED);
    run(&["print", "--table", &table]).prints(PRINTED);
    run(&["print", "--sheet", &sheet]).prints(PRINTED);
    run(&["print", &sheet]).fails(1, &["x.pcrl", "question 12:"]);
    run(&["print", "--sheet", &table]).fails(1, &["question 2:"]);
    fed(&["print", "--sheet", "-"], CIRCLE.as_bytes()).fails(1, &["question 9:"]);
}

#[test]
fn refused() {
    let folder = Folder::new();
    let sheet = format!("act a;proc X={};init X;", ["a.a"; 16].join("+"));
    let many = reader::make_table(sheet.as_bytes()).unwrap();
    let table = folder.file("many.table", &many).display().to_string();
    run(&["check", &table]).prints(&format!("{table}: table accepted\n"));
    run(&["print", &table]).fails(1, &["many.table", "question 17:", "explain 17"]);
    fed(&["print", "-"], &many[..511]).fails(1, &["standard input", "question 12:"]);
    let mut changed = many.clone();
    changed[20] ^= 4;
    fed(&["print", "-"], &changed).fails(1, &["question 13:"]);
    fed(&["print", "-"], b"").fails(1, &["question 12:"]);
}

#[test]
fn misuse() {
    run(&["print"]).fails(2, &["TABLE is missing"]);
    run(&["print", "a", "b"]).fails(2, &["only one TABLE"]);
    run(&["print", "missing.table"]).fails(2, &["missing.table", "No such file"]);
    run(&["print", "/"]).fails(2, &["directory"]);
    run(&["print", "--table", "--sheet", "a"]).fails(2, &["exclude"]);
    run(&["print", "-o", "a", "b"]).fails(2, &["no option `-o`"]);
}

#[test]
fn nobody_reads() {
    let folder = Folder::new();
    let made = reader::make_table(LOOP.as_bytes()).unwrap();
    let table = folder.file("x.table", made).display().to_string();
    let ran = run_into(&["print", &table], closed());
    assert_eq!((ran.status, &ran.err[..]), (0, ""));
}

/// A terminal shows a line feed as two characters.
#[test]
fn a_line_feed_on_a_terminal_only() {
    let folder = Folder::new();
    let made = reader::make_table(LOOP.as_bytes()).unwrap();
    let table = folder.file("x.table", made);
    let mut script = std::process::Command::new("script");
    script.args(["-qec", "\"$WIZBRATEL\" print \"$TABLE\"", "/dev/null"]);
    script.env("WIZBRATEL", WIZBRATEL).env("TABLE", table);
    script
        .env("SHELL", "/bin/sh")
        .stdin(std::process::Stdio::null());
    let shown = script.output().expect("script, of util-linux").stdout;
    assert_eq!(shown, format!("{PRINTED}\r\n").as_bytes());
}
