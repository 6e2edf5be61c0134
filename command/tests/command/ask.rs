//! `ask`: every step question of the vectors that can be put to used frames, and wrong arguments.

use reader::{Answer, Label};

use crate::common::json::Json;
use crate::common::{fed, run, vectors, Folder, LOOP};

/// The first frames of a case in hex, zeros where it lists no more.
fn hex(case: &Json, key: &str, depth: usize) -> String {
    let mut rows = case.rows(key);
    rows.resize(depth, vec![0; 5]);
    let bytes = rows.iter().flatten();
    bytes.map(|byte| format!("{byte:02x}")).collect()
}

/// A label with its sorts.
fn with_sorts(label: &Label) -> String {
    let Label::Action {
        name,
        sorts,
        values,
    } = label
    else {
        return "tau".to_string();
    };
    let values = sorts.iter().zip(values);
    let values: Vec<String> = values
        .map(|(sort, value)| format!("{sort}:{value}"))
        .collect();
    match values.len() {
        0 => name.clone(),
        _ => format!("{name}({})", values.join(",")),
    }
}

#[test]
fn questions_of_the_vectors() {
    let folder = Folder::new();
    let mut sorted = 0;
    for case in vectors::all("asks") {
        let (depth, answer) = (case.number("depth") as usize, case.text("answer"));
        if answer == "refused 15" && depth <= 64 {
            // these lend other than 64 frames, or leave something behind the used ones
            continue;
        }
        let table = folder.file("t", case.bytes("file")).display().to_string();
        let stack = hex(&case, "frames", depth);
        let k = case.number("k").to_string();
        let ran = run(&["ask", &table, "--stack", &stack, "-k", &k]);
        let wanted = match answer {
            "step" => {
                let depth = case.number("depth_after");
                let after = hex(&case, "frames_after", depth as usize);
                let line = format!("{} {depth} {after}", case.text("label"));
                line.trim_end().to_string()
            }
            other => other.to_string(),
        };
        assert_eq!(ran.text(), format!("{wanted}\n"), "{}", case.text("name"));
        assert_eq!(ran.status, i32::from(answer.starts_with("refused")));
        if let Answer::Step { label, .. } = vectors::answer(&case) {
            let wanted = wanted.replacen(case.text("label"), &with_sorts(&label), 1);
            let whole = run(&["ask", &table, "--sorts", "--stack", &stack, "-k", &k]);
            whole.prints(&format!("{wanted}\n"));
            sorted += usize::from(wanted.contains(':'));
        }
    }
    assert!(sorted > 20, "{sorted}");
}

/// Within one table an action's name says its sorts; those of two tables need not.
#[test]
fn sorts_of_two_tables() {
    let asked = |sheet: &str, more: &[&str]| {
        let words = ["ask", "--sheet", "-", "--stack", "0000000000", "-k", "0"];
        fed(&[&words[..], more].concat(), sheet.as_bytes())
            .text()
            .to_string()
    };
    let one = "act set:Bool;proc X=set(1);init X;";
    let other = "sort Channel 2;act set:Channel;proc X=set(1);init X;";
    assert_eq!(
        [one, other].map(|sheet| asked(sheet, &[])),
        ["set(1) 0\n"; 2]
    );
    assert_eq!(asked(one, &["--sorts"]), "set(Bool:1) 0\n");
    assert_eq!(asked(other, &["--sorts"]), "set(Channel:1) 0\n");
    let both = "sort D 3;act a:D#Bool;proc X=a(2,1);init X;";
    assert_eq!(asked(both, &["--sorts"]), "a(D:2,Bool:1) 0\n");
}

#[test]
fn refused() {
    let folder = Folder::new();
    let made = reader::make_table(LOOP.as_bytes()).unwrap();
    let table = folder.file("x.table", &made).display().to_string();
    let sheet = folder.file("x.pcrl", LOOP).display().to_string();
    let ran = run(&["ask", &table, "--stack=0900000000", "-k", "0"]);
    assert_eq!((ran.status, ran.text()), (1, "refused 15\n"));
    assert!(ran.err.contains("x.table: refused by question 15: "));
    let ran = run(&["ask", &sheet, "--stack", "0000000000", "-k", "0"]);
    assert_eq!((ran.status, ran.text()), (1, "refused 12\n"));
    let ran = run(&["ask", "--sheet", &sheet, "--stack", "0000000000", "-k=0"]);
    ran.prints("a 1 0000000000\n");
    let last = u64::MAX.to_string();
    run(&["ask", &table, "--stack", "0000000000", "-k", &last]).prints("none\n");
    run(&["ask", &table, "--stack", "", "-k", "0"]).prints("ended\n");
}

#[test]
fn misuse() {
    let wrong = |words: &[&str], part: &str| run(words).fails(2, &[part]);
    wrong(&["ask"], "TABLE is missing");
    wrong(&["ask", "t", "-k", "0"], "--stack HEX is missing");
    wrong(&["ask", "t", "--stack", ""], "-k K is missing");
    wrong(&["ask", "t", "--stack"], "needs a value");
    wrong(&["ask", "t", "--stack", "", "-k", "1", "-k", "2"], "twice");
    wrong(&["ask", "t", "--stack", "", "-k", "-1"], "no number");
    wrong(
        &["ask", "t", "--stack", "", "-k", "18446744073709551616"],
        "no number",
    );
    wrong(&["ask", "t", "--stack", "", "-k", "0"], "No such file");
    for hex in [
        "0",
        "00000000",
        "000000000g",
        "00000000000",
        "é",
        "+000000000",
    ] {
        wrong(&["ask", "t", "--stack", hex, "-k", "0"], "10 digits");
    }
}
