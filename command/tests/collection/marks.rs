//! Refused sheets are kept out: no table beside them, and a mark with the number of the question that they fail.

use super::cabinet::{bad, good, table, Cabinet, Ran, COMMAND};
use super::check;
use std::fs;
use std::os::unix::fs::symlink;
use std::process::{Command, Stdio};

const CIRCLE: &str = "proc X=X;init X;";

/// The mark of a sheet that is refused: the number, the place and the words.
fn mark(sheet: &[u8]) -> String {
    let found = wizbratel::Diagnostic::of(sheet).expect("a refused sheet");
    format!("refused {}\n{found}\n", found.question())
}

fn read(cabinet: &Cabinet, name: &str) -> Vec<u8> {
    fs::read(cabinet.path(name)).unwrap()
}

#[test]
fn kept_out_and_marked() {
    let cabinet = Cabinet::new("kept-out");
    cabinet.put("a.pcrl", good(1));
    cabinet.put("circle.pcrl", CIRCLE);
    cabinet.put("circle.table", table(&good(3)));
    cabinet.put("empty.pcrl", "");
    let huge = cabinet.put("huge.pcrl", "");
    let huge = fs::File::options().write(true).open(huge).unwrap();
    huge.set_len(1 << 30).unwrap();
    let refused = [
        bad("circle.pcrl", CIRCLE.as_bytes()),
        bad("empty.pcrl", b""),
        bad("huge.pcrl", &[0; 5000]),
    ];
    let [circle, empty, huge] = refused.each_ref().map(String::as_str);
    assert!(circle.starts_with("circle.pcrl: refused 9: "));
    let with_table =
        "circle.table: no sheet: it stands without a right one, that beside it is refused";
    let faults = [
        "a.table: missing",
        circle,
        "circle.refused: missing: the mark of a refused sheet",
        with_table,
        empty,
        "empty.refused: missing: the mark of a refused sheet",
        huge,
        "huge.refused: missing: the mark of a refused sheet",
    ];
    let counts = "sheets 4: right 0, missing 1, earlier 0, differs 0, refused 3, unread 0, no sheet 1, wrong marks 3";
    check(&cabinet.audit(), 1, counts, &faults);
    let counts = "sheets 4: right 0, made 1, updated 0, mended 0, refused 3, unread 0, unwritten 0, no sheet 0, set aside 1";
    let ran = cabinet.renew();
    check(&ran, 1, counts, &[circle, empty, huge]);
    let done = [
        "a.table: made",
        "circle.refused: written",
        "circle.table: set aside as circle.table.old",
        "empty.refused: written",
        "huge.refused: written",
    ];
    assert_eq!(ran.done, done);
    assert_eq!(read(&cabinet, "circle.table.old"), table(&good(3)));
    for (name, sheet) in [
        ("circle", CIRCLE.as_bytes()),
        ("empty", b""),
        ("huge", &[0; 4097]),
    ] {
        let marked = String::from_utf8(read(&cabinet, &format!("{name}.refused"))).unwrap();
        assert_eq!(marked, mark(sheet));
        assert!(!cabinet.path(format!("{name}.table")).exists());
    }
    let counts = "sheets 4: right 1, missing 0, earlier 0, differs 0, refused 3, unread 0, no sheet 0, wrong marks 0";
    check(&cabinet.audit(), 0, counts, &[circle, empty, huge]);
    let before = cabinet.names();
    let again = cabinet.renew();
    assert_eq!((again.status, again.done.len()), (Some(1), 0), "{again:?}");
    assert_eq!(cabinet.names(), before);
}

#[test]
fn mended_and_refused_again() {
    let cabinet = Cabinet::new("mended");
    cabinet.put("a.pcrl", CIRCLE);
    cabinet.renew();
    cabinet.put("a.pcrl", good(1));
    let faults = ["a.table: missing"];
    assert_eq!(cabinet.audit().faults, faults);
    let ran = cabinet.renew();
    assert_eq!(ran.done, ["a.refused: removed", "a.table: made"]);
    assert_eq!(ran.status, Some(0));
    assert_eq!(cabinet.names(), ["a.pcrl", "a.table"]);
    // another question, with another mark
    cabinet.put("a.pcrl", "");
    cabinet.renew();
    assert_eq!(read(&cabinet, "a.table.old"), table(&good(1)));
    cabinet.put("a.pcrl", CIRCLE);
    let ran = cabinet.audit();
    let text = "a.refused: a mark with 5, but its sheet is refused by 9";
    assert_eq!((ran.status, &ran.faults[1][..]), (Some(1), text));
    assert_eq!(cabinet.renew().done, ["a.refused: written"]);
    assert_eq!(
        read(&cabinet, "a.refused"),
        mark(CIRCLE.as_bytes()).as_bytes()
    );
}

/// What was set aside before is never lost; the last is `.old`.
#[test]
fn set_aside_again_and_again() {
    let cabinet = Cabinet::new("aside");
    cabinet.put("a.pcrl", CIRCLE);
    for number in [1, 2, 2, 3] {
        cabinet.put("a.table", table(&good(number)));
        assert_eq!(cabinet.renew().status, Some(1));
        assert_eq!(read(&cabinet, "a.table.old"), table(&good(number)));
    }
    let names = [
        "a.pcrl",
        "a.refused",
        "a.table.old",
        "a.table.old.1",
        "a.table.old.2",
    ];
    assert_eq!(cabinet.names(), names);
    assert_eq!(read(&cabinet, "a.table.old.1"), table(&good(1)));
    assert_eq!(read(&cabinet, "a.table.old.2"), table(&good(2)));
    // a link is set aside itself, whatever it leads to
    symlink("/dev/null", cabinet.path("a.table")).unwrap();
    cabinet.renew();
    assert!(fs::symlink_metadata(cabinet.path("a.table.old"))
        .unwrap()
        .is_symlink());
}

#[test]
fn without_marks() {
    let cabinet = Cabinet::new("no-mark");
    let with = |words: &[&str]| Cabinet::run_with(words, &cabinet.folder);
    cabinet.put("a.pcrl", CIRCLE);
    cabinet.put("a.table", table(&good(1)));
    let ran = with(&["renew", "--no-mark"]);
    assert_eq!((ran.status, ran.done.len()), (Some(1), 1), "{ran:?}");
    assert_eq!(cabinet.names(), ["a.pcrl", "a.table.old"]);
    let ran = with(&["audit", "--no-mark"]);
    assert_eq!((ran.status, ran.faults.len()), (Some(1), 1), "{ran:?}");
    cabinet.renew();
    let ran = with(&["renew", "--no-mark", "-q"]);
    assert_eq!((ran.status, ran.done.len()), (Some(1), 0), "{ran:?}");
    cabinet.put("a.pcrl", good(1));
    assert_eq!(with(&["renew", "--no-mark"]).status, Some(0));
    assert_eq!(cabinet.names(), ["a.pcrl", "a.table", "a.table.old"]);
    assert_eq!(with(&["audit", "--no-mark"]).status, Some(0));
}

/// Files that have the name of a mark, but are none.
#[test]
fn what_is_no_mark_is_left_alone() {
    let cabinet = Cabinet::new("others");
    let texts = [
        "",
        "refused",
        "refused by me",
        "refused 0\n",
        "refused 11\n",
        "\u{e9}",
    ];
    for (number, text) in texts.iter().enumerate() {
        cabinet.put(format!("{number}.pcrl"), CIRCLE);
        cabinet.put(format!("{number}.refused"), text);
        cabinet.put(format!("good{number}.pcrl"), good(number));
        cabinet.put(format!("good{number}.refused"), text);
        cabinet.put(format!("stray{number}.refused"), text);
    }
    cabinet.put("folder.pcrl", CIRCLE);
    cabinet.put("folder.refused/x", "");
    let others = |ran: &Ran, text: &str| {
        let faults = ran.faults.iter().filter(|line| line.contains(".refused: "));
        let faults: Vec<&String> = faults.collect();
        assert_eq!(faults.len(), texts.len() + 1, "{ran:?}");
        assert!(faults.iter().all(|line| line.contains(text)), "{ran:?}");
    };
    let ran = cabinet.renew();
    assert_eq!(ran.status, Some(2));
    others(&ran, "cannot be written: another file has the mark's name");
    let ran = cabinet.audit();
    assert_eq!(ran.status, Some(1));
    others(&ran, "no mark, where that of a refused sheet belongs");
    for (number, text) in texts.iter().enumerate() {
        for name in ["", "good", "stray"] {
            assert_eq!(
                read(&cabinet, &format!("{name}{number}.refused")),
                text.as_bytes()
            );
        }
    }
}

#[test]
fn tables_and_marks_without_a_sheet() {
    let cabinet = Cabinet::new("strays");
    cabinet.put("a.pcrl", good(1));
    cabinet.put("a.table", table(&good(1)));
    cabinet.put("stray.table", "whatever");
    cabinet.put("stray.refused", mark(b""));
    let faults = [
        "stray.refused: no sheet, but its mark",
        "stray.table: no sheet",
    ];
    for ran in [cabinet.renew(), cabinet.audit()] {
        assert_eq!(
            (ran.status, &ran.faults[..]),
            (Some(1), &faults.map(str::to_string)[..])
        );
    }
    assert_eq!(read(&cabinet, "stray.table"), b"whatever");
    assert_eq!(read(&cabinet, "stray.refused"), mark(b"").as_bytes());
    let ran = Cabinet::run_with(&["audit", "--no-mark"], &cabinet.folder);
    assert_eq!(ran.faults, ["stray.table: no sheet"]);
    fs::remove_file(cabinet.path("stray.table")).unwrap();
    fs::rename(cabinet.path("stray.refused"), cabinet.path("a.refused")).unwrap();
    let ran = cabinet.audit();
    assert_eq!(ran.faults, ["a.refused: a mark, but its sheet is accepted"]);
    assert_eq!(ran.status, Some(1));
}

/// A disk that takes no mark: the table is set aside all the same.
#[test]
fn marks_that_cannot_be_written() {
    let cabinet = Cabinet::new("unmarked");
    cabinet.put("a.pcrl", CIRCLE);
    cabinet.put("a.table", table(&good(1)));
    let ran = cabinet.shell("trap '' XFSZ; ulimit -f 0; exec \"$0\" renew \"$1\"");
    assert_eq!(
        ran.faults,
        ["a.refused: cannot be written: File too large (os error 27)"]
    );
    assert_eq!(ran.status, Some(2));
    assert_eq!(cabinet.names(), ["a.pcrl", "a.table.old"]);
}

/// Killed at any time, a `renew` leaves each table in its place or set aside, and each mark whole.
#[test]
fn killed_in_the_middle() {
    let cabinet = Cabinet::new("marks-killed");
    let right = table(&good(1));
    for number in 0..300 {
        cabinet.put(format!("{number:03}.pcrl"), CIRCLE);
        cabinet.put(format!("{number:03}.table"), &right);
    }
    let marked = || {
        cabinet
            .names()
            .iter()
            .filter(|name| name.ends_with(".refused"))
            .count()
    };
    let mut between = false;
    for round in 0..12 {
        let mut command = Command::new(COMMAND);
        command.args(["renew", "-q"]).arg(&cabinet.folder);
        let silent = command.stdout(Stdio::null()).stderr(Stdio::null());
        let mut child = silent.spawn().unwrap();
        while marked() < round * 10 && child.try_wait().unwrap().is_none() {}
        child.kill().unwrap();
        child.wait().unwrap();
        between |= (1..300).contains(&marked());
        for number in 0..300 {
            let name = |ending: &str| cabinet.path(format!("{number:03}.{ending}"));
            let tables = [name("table"), name("table.old")].map(fs::read);
            assert_eq!(
                tables.into_iter().flatten().collect::<Vec<_>>(),
                [&right[..]]
            );
            if let Ok(text) = fs::read_to_string(name("refused")) {
                assert_eq!(text, mark(CIRCLE.as_bytes()));
            }
        }
    }
    assert!(between, "it was never killed in the middle");
    assert_eq!(cabinet.renew().status, Some(1));
    assert_eq!((marked(), cabinet.audit().status), (300, Some(0)));
    assert!(cabinet.temporaries().is_empty());
}
