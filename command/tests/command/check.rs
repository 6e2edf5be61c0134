//! `check`: sheets and table files told apart, and the status of the worst.

use crate::common::large::large_file;
use crate::common::{closed, fed, run, run_into, Folder, CIRCLE, LOOP};

#[test]
fn sheets_and_tables() {
    let folder = Folder::new();
    let made = reader::make_table(LOOP.as_bytes()).unwrap();
    let sheet = folder.file("x.pcrl", LOOP).display().to_string();
    let table = folder.file("x.table", &made).display().to_string();
    let both = format!("{sheet}: sheet accepted\n{table}: table accepted\n");
    run(&["check", &sheet, &table]).prints(&both);
    run(&["check", "--sheet", &table]).fails(1, &["question 2:"]);
    run(&["check", "--table", &sheet]).fails(1, &["question 12:"]);
    run(&["check", "--table", "--sheet", &sheet]).fails(2, &["exclude"]);
    let other = folder.file("other", &made).display().to_string();
    run(&["check", "--table", "--", &other]).prints(&format!("{other}: table accepted\n"));
    fed(&["check", "-"], LOOP.as_bytes()).prints("standard input: sheet accepted\n");
    fed(&["check", "--table", "-"], &made).prints("standard input: table accepted\n");
}

#[test]
fn the_worst_counts_and_all_are_checked() {
    let folder = Folder::new();
    let good = folder.file("good", LOOP).display().to_string();
    let circle = folder.file("circle", CIRCLE).display().to_string();
    let missing = folder.path("missing").display().to_string();
    let accepted = format!("{good}: sheet accepted\n");
    let ran = run(&["check", &circle, &good]);
    assert_eq!((ran.status, ran.text()), (1, &accepted[..]));
    assert!(
        ran.err.starts_with("refused by question 9: "),
        "{}",
        ran.err
    );
    assert!(ran.err.contains(&format!("--> {circle}:1:8\n")));
    let ran = run(&["check", &missing, &circle, &good]);
    assert_eq!((ran.status, ran.text()), (2, &accepted[..]));
    let begins = |front: &str| {
        ran.err
            .lines()
            .filter(|line| line.starts_with(front))
            .count()
    };
    assert_eq!(
        (begins("wizbratel: "), begins("refused by question 9: ")),
        (1, 1)
    );
    run(&["check"]).fails(2, &["FILE is missing"]);
}

#[test]
fn damaged_tables() {
    let folder = Folder::new();
    let made = reader::make_table(LOOP.as_bytes()).unwrap();
    let cut = folder.file("cut.table", &made[..511]).display().to_string();
    run(&["check", &cut]).fails(1, &["cut.table", "question 12:"]);
    let mut changed = made.clone();
    changed[20] ^= 4;
    let changed = folder.file("changed.table", changed).display().to_string();
    run(&["check", &changed]).fails(1, &["question 13:"]);
    let empty = folder.file("empty.table", "").display().to_string();
    run(&["check", &empty]).fails(1, &["question 12:"]);
    let huge = folder.path("huge.table");
    let file = std::fs::File::create(&huge).unwrap();
    file.set_len(1 << 36).unwrap();
    run(&["check".as_ref(), huge.as_os_str()]).fails(1, &["question 12:"]);
}

#[test]
fn nobody_reads() {
    let folder = Folder::new();
    let good = folder.file("good", LOOP).display().to_string();
    let ran = run_into(&["check", &good, &good], closed());
    assert_eq!((ran.status, &ran.err[..]), (0, ""));
    let circle = folder.file("circle", CIRCLE).display().to_string();
    let ran = run_into(&["check", &good, &circle, &good], closed());
    assert_eq!((ran.status, ran.err.matches("refused by").count()), (1, 1));
}

#[test]
fn the_longest_table_and_sheet() {
    let folder = Folder::new();
    let mut file = large_file();
    assert_eq!(file.len(), 65_536);
    let table = folder.file("x.table", &file).display().to_string();
    run(&["check", &table]).prints(&format!("{table}: table accepted\n"));
    file.push(0);
    folder.file("x.table", &file);
    run(&["check", &table]).fails(1, &["question 12:"]);
    let longest = format!("{LOOP:4096}");
    assert_eq!(fed(&["check", "-"], longest.as_bytes()).status, 0);
    let longer = format!("{LOOP:4097}");
    fed(&["check", "-"], longer.as_bytes()).fails(1, &["question 1:"]);
}
