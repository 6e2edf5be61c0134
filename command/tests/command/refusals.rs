//! What is said of refused sheets, whichever command meets them: places, JSON, colours.

use std::process::{Command, Stdio};

use crate::common::{fed, run, Folder, CIRCLE, LOOP, WIZBRATEL};

const TYPO: &str = "act plug;\nproc Idle = plug.Chargin;\nproc Charging = plug;\ninit Idle;\n";

/// What is said of the sheet above behind its name and place.
const SAID: &str = "
  |
2 | proc Idle = plug.Chargin;
  |                  ^^^^^^^ not declared
  |
  = help: did you mean `Charging`?
`wizbratel explain 7` says more
";

#[test]
fn every_command_says_where() {
    let folder = Folder::new();
    let sheet = folder.file("typo.pcrl", TYPO).display().to_string();
    let said = format!(
        "refused by question 7: no action or process is named `Chargin`\n --> {sheet}:2:18{SAID}"
    );
    for words in [
        &["check", &sheet][..],
        &["make", &sheet],
        &["graph", &sheet],
        &["step", &sheet],
        &["walk", &sheet],
        &["print", "--sheet", &sheet],
        &["ask", "--sheet", &sheet, "--stack", "0000000000", "-k", "0"],
    ] {
        let ran = run(words);
        assert_eq!((ran.status, &ran.err), (1, &said), "{words:?}");
    }
    let ran = fed(&["check", "-"], TYPO.as_bytes());
    assert_eq!(ran.err, said.replace(&sheet, "standard input"));
}

#[test]
fn a_table_taken_for_a_sheet() {
    let table = reader::make_table(LOOP.as_bytes()).unwrap();
    for bytes in [table.clone(), table.repeat(9)] {
        fed(&["check", "-"], &bytes).fails(1, &["looks like a table file", "check --table"]);
    }
}

#[test]
fn json_for_editors() {
    let folder = Folder::new();
    let typo = folder.file("a \"typo\"\n.pcrl", TYPO).display().to_string();
    let circle = folder.file("circle.pcrl", CIRCLE).display().to_string();
    let table = folder.file("cut.table", "cut").display().to_string();
    let good = folder.file("good.pcrl", LOOP).display().to_string();
    let ran = run(&["check", "--format=json", &typo, &circle, &good, &table]);
    let name = typo.replace('"', "\\\"").replace('\n', "\\u000a");
    let lines = [
        format!(
            r#"{{"file":"{name}","line":2,"column":18,"end_line":2,"end_column":25,"question":7,"message":"no action or process is named `Chargin`","help":"did you mean `Charging`?","notes":[{{"line":2,"column":18,"message":"not declared"}}]}}"#
        ),
        format!(
            r#"{{"file":"{circle}","line":1,"column":8,"end_line":1,"end_column":9,"question":9,"message":"process `X` calls itself before any action","help":"put an action, or `tau`, before the call","notes":[{{"line":1,"column":8,"message":"`X` begins with `X`"}}]}}"#
        ),
        format!(
            r#"{{"file":"{table}","line":null,"column":null,"end_line":null,"end_column":null,"question":12,"message":"512 to 65,536 bytes in the table file, in whole blocks of 512?","help":null,"notes":[]}}"#
        ),
    ];
    assert_eq!(
        (ran.status, ran.err),
        (1, lines.map(|line| line + "\n").concat())
    );
    // the operators of the language have a backslash
    let ran = fed(&["check", "--format", "json", "-"], b"proc X=a<|b&&c|>a;");
    assert!(
        ran.err.contains(r#""help":"did you mean `/\\` (and)?""#),
        "{}",
        ran.err
    );
}

#[test]
fn colors_when_asked_for() {
    let red = "\x1b[1;31m";
    let err = |words: &[&str]| fed(words, TYPO.as_bytes()).err;
    assert!(!err(&["check", "-"]).contains('\x1b'));
    assert!(!err(&["--color", "auto", "check", "-"]).contains('\x1b'));
    assert!(!err(&["check", "--color=never", "-"]).contains('\x1b'));
    assert!(err(&["check", "--color=always", "-"]).starts_with(red));
    assert!(err(&["--color", "always", "check", "-"]).starts_with(red));
    // behind `--` stands a file
    run(&["check", "--", "--color=always"]).fails(2, &["--color=always"]);
}

/// What is said on a terminal, where the environment has this besides.
fn on_a_terminal(variable: &str) -> String {
    let folder = Folder::new();
    folder.file("typo.pcrl", TYPO);
    let output = Command::new("script")
        .args(["-qec", &format!("{WIZBRATEL} check typo.pcrl"), "/dev/null"])
        .current_dir(folder.path("."))
        .env_remove("NO_COLOR")
        .env("TERM", "xterm")
        .env(
            variable.split('=').next().unwrap(),
            variable.split('=').nth(1).unwrap(),
        )
        .stdin(Stdio::null())
        .output()
        .expect("script runs");
    String::from_utf8_lossy(&output.stdout).into_owned()
}

#[test]
fn colors_on_a_terminal() {
    for (variable, colored) in [
        ("NO_COLOR=", true),
        ("NO_COLOR=1", false),
        ("TERM=dumb", false),
    ] {
        let shown = on_a_terminal(variable);
        assert!(shown.contains("typo.pcrl:2:18"), "{shown}");
        assert_eq!(shown.contains("\x1b[1;31m"), colored, "{variable}: {shown}");
    }
}

#[test]
fn misuse() {
    run(&["check", "--format", "xml", "x"]).fails(2, &["--format", "`xml` is none of text, json"]);
    run(&["check", "x", "--color"]).fails(2, &["--color needs a value"]);
    run(&["--color=red", "help"]).fails(2, &["none of auto, always, never"]);
    run(&["check", "--format=json", "--format=text", "x"]).fails(2, &["given twice"]);
}
