//! `renew` and `audit` over collections made here.

#[path = "collection/cabinet.rs"]
mod cabinet;
#[path = "collection/folders.rs"]
mod folders;
#[path = "collection/many.rs"]
mod many;
#[path = "collection/marks.rs"]
mod marks;
#[path = "collection/odd.rs"]
mod odd;

use cabinet::{bad, earlier, good, Cabinet, Ran};
use std::fs::{self, Permissions};
use std::os::unix::fs::PermissionsExt;
use std::path::Path;

fn check(ran: &Ran, status: i32, counts: &str, faults: &[&str]) {
    assert_eq!(ran.faults, faults, "{ran:?}");
    assert_eq!(ran.counts, format!("{counts}\n"), "{ran:?}");
    assert_eq!(ran.status, Some(status), "{ran:?}");
}

#[test]
fn makes_what_is_missing_and_leaves_the_rest() {
    let cabinet = Cabinet::new("makes");
    cabinet.put("a.pcrl", good(1));
    cabinet.put("deep/er/b.pcrl", good(2));
    cabinet.put("deep/note.txt", "kept");
    let faults = ["a.table: missing", "deep/er/b.table: missing"];
    let counts =
        "sheets 2: right 0, missing 2, earlier 0, differs 0, refused 0, unread 0, no sheet 0, wrong marks 0";
    check(&cabinet.audit(), 1, counts, &faults);
    assert!(!cabinet.path("a.table").exists());

    let counts =
        "sheets 2: right 0, made 2, updated 0, mended 0, refused 0, unread 0, unwritten 0, no sheet 0, set aside 0";
    let ran = cabinet.renew();
    check(&ran, 0, counts, &[]);
    assert_eq!(ran.done, ["a.table: made", "deep/er/b.table: made"]);
    cabinet.assert_right("a", &good(1));
    cabinet.assert_right("deep/er/b", &good(2));
    assert_eq!(
        cabinet.names(),
        [
            "a.pcrl",
            "a.table",
            "deep/er/b.pcrl",
            "deep/er/b.table",
            "deep/note.txt"
        ]
    );

    let before = fs::metadata(cabinet.path("a.table"))
        .unwrap()
        .modified()
        .unwrap();
    let counts =
        "sheets 2: right 2, made 0, updated 0, mended 0, refused 0, unread 0, unwritten 0, no sheet 0, set aside 0";
    check(&cabinet.renew(), 0, counts, &[]);
    assert_eq!(
        fs::metadata(cabinet.path("a.table"))
            .unwrap()
            .modified()
            .unwrap(),
        before
    );
    let counts =
        "sheets 2: right 2, missing 0, earlier 0, differs 0, refused 0, unread 0, no sheet 0, wrong marks 0";
    check(&cabinet.audit(), 0, counts, &[]);
}

#[test]
fn a_table_under_another_sheet_is_found_and_mended() {
    let cabinet = Cabinet::new("renamed");
    cabinet.put("a.pcrl", good(1));
    cabinet.put("b.pcrl", good(2));
    assert_eq!(cabinet.renew().status, Some(0));
    fs::rename(cabinet.path("a.table"), cabinet.path("b.table")).unwrap();
    let counts =
        "sheets 2: right 0, missing 1, earlier 0, differs 1, refused 0, unread 0, no sheet 0, wrong marks 0";
    check(
        &cabinet.audit(),
        1,
        counts,
        &["a.table: missing", "b.table: differs"],
    );
    let counts =
        "sheets 2: right 0, made 1, updated 0, mended 1, refused 0, unread 0, unwritten 0, no sheet 0, set aside 0";
    let ran = cabinet.renew();
    check(&ran, 0, counts, &[]);
    assert_eq!(ran.done, ["a.table: made", "b.table: mended"]);
    cabinet.assert_right("a", &good(1));
    cabinet.assert_right("b", &good(2));
}

#[test]
fn every_change_of_a_table_is_found() {
    let cabinet = Cabinet::new("changed");
    cabinet.put("a.pcrl", good(1));
    let right = cabinet::table(&good(1));
    let mut changes = vec![
        Vec::new(),
        [&right[..], b"x"].concat(),
        right[..right.len() - 1].to_vec(),
        vec![0; 1 << 20],
    ];
    changes.extend((0..right.len()).step_by(61).map(|at| {
        let mut change = right.clone();
        change[at] ^= 1;
        change
    }));
    for change in changes {
        cabinet.put("a.table", &change);
        assert_eq!(cabinet.audit().faults, ["a.table: differs"]);
        assert_eq!(
            fs::read(cabinet.path("a.table")).unwrap(),
            change,
            "an audit writes nothing"
        );
        assert_eq!(cabinet.renew().status, Some(0));
        cabinet.assert_right("a", &good(1));
    }
}

/// What an audit says of a table of the earlier layout.
const EARLIER: &str = "earlier layout: the sheet's table without the names of its sorts";

/// Accepted sheets: with no sort but Bool, with as many as can be, with a table of two blocks that was one.
fn sheets() -> Vec<String> {
    let sorts: String = (1..8)
        .map(|i| format!("sort SortNumber{i}_____ {i};"))
        .collect();
    let many = ["a"; 119].join("+");
    vec![
        "act a;proc X=a.X;init X;".to_string(),
        format!("{sorts}act a:SortNumber7_____;proc X=a(6);init X;"),
        format!("sort LongNameOfASort_ 2;act a;proc X={many};init X;"),
    ]
}

#[test]
fn tables_of_the_earlier_layout_are_told_apart_and_updated() {
    for (number, sheet) in sheets().iter().map(String::as_bytes).enumerate() {
        let cabinet = Cabinet::new(&format!("earlier-{number}"));
        let (own, old) = (cabinet::table(sheet), earlier(sheet));
        assert_eq!((own.len() > old.len(), old != own), (number == 2, true));
        cabinet.put("a.pcrl", sheet);
        cabinet.put("a.table", &old);
        cabinet.put("b.pcrl", good(1));
        cabinet.put("b.table", &old);
        let counts =
            "sheets 2: right 0, missing 0, earlier 1, differs 1, refused 0, unread 0, no sheet 0, wrong marks 0";
        let faults = [&format!("a.table: {EARLIER}")[..], "b.table: differs"];
        check(&cabinet.audit(), 1, counts, &faults);
        assert_eq!(fs::read(cabinet.path("a.table")).unwrap(), old);
        let counts = "sheets 2: right 0, made 0, updated 1, mended 1, refused 0, unread 0, unwritten 0, no sheet 0, set aside 0";
        let ran = cabinet.renew();
        check(&ran, 0, counts, &[]);
        assert_eq!(ran.done, ["a.table: updated", "b.table: mended"]);
        cabinet.assert_right("a", sheet);
        assert_eq!(cabinet.audit().status, Some(0));
    }
}

/// Only the sheet's own table in the earlier layout is said to be that: none with a byte changed, damaged or not.
#[test]
fn nearly_earlier_tables_differ() {
    let cabinet = Cabinet::new("nearly");
    let sheet = b"sort D 3;sort E 2;act a:D;proc X=sum(d:D,a(d).X);init X;";
    cabinet.put("a.pcrl", sheet);
    let old = earlier(sheet);
    let says = |file: &[u8]| {
        cabinet.put("a.table", file);
        cabinet.audit().faults
    };
    assert_eq!(says(&old), [format!("a.table: {EARLIER}")]);
    let stream = reader::from_blocks(&old).unwrap();
    let used = reader::encode(&reader::read_table(&old).unwrap()).len();
    for at in 0..used {
        let mut other = stream[..used].to_vec();
        other[at] ^= 1;
        let damaged = old.iter().enumerate();
        let damaged = damaged.map(|(i, &byte)| if i == 4 + at { byte ^ 1 } else { byte });
        for file in [reader::to_blocks(&other), damaged.collect()] {
            assert_eq!(says(&file), ["a.table: differs"], "{at}");
        }
    }
    let longer = [&stream[..], &[0]].concat();
    for file in [reader::to_blocks(&longer), old[..511].to_vec(), Vec::new()] {
        assert_eq!(says(&file), ["a.table: differs"]);
    }
}

#[test]
fn a_sheet_of_the_greatest_length_and_one_byte_more() {
    let cabinet = Cabinet::new("long");
    let mut sheet = good(1);
    sheet.resize(4096, b' ');
    cabinet.put("most.pcrl", &sheet);
    sheet.push(b' ');
    cabinet.put("over.pcrl", &sheet);
    assert_eq!(cabinet.renew().faults, [bad("over.pcrl", &sheet)]);
    cabinet.assert_right("most", &good(1));
    assert!(!cabinet.path("over.table").exists());
}

#[test]
fn misuse() {
    let cabinet = Cabinet::new("misuse");
    let file = cabinet.put("a.pcrl", good(1));
    for task in ["renew", "audit"] {
        for path in [file.as_path(), &cabinet.path("none"), Path::new("")] {
            let ran = Cabinet::run(task, path);
            assert_eq!((ran.status, ran.faults.len()), (Some(2), 1), "{ran:?}");
            assert!(ran.counts.contains("sheets 0: ") && ran.counts.contains("unread 1, "));
        }
        for (words, said) in [
            ("", "DIR is missing"),
            ("--dance x", "no option `--dance` here"),
            (
                "--shard 3/2 x",
                "--shard: `3/2` is no K/N with K from 1 to N",
            ),
        ] {
            let ran = cabinet.shell(&format!("exec \"$0\" {task} {words}"));
            assert_eq!((ran.status, ran.counts.as_str()), (Some(2), ""), "{ran:?}");
            assert!(
                ran.faults[0].starts_with(&format!("wizbratel: {said}")),
                "{ran:?}"
            );
        }
    }
    let ran = cabinet.shell("cd \"$1\" && exec \"$0\" renew .");
    assert_eq!(ran.status, Some(0), "{ran:?}");
}

#[test]
fn a_table_is_no_more_open_than_its_sheet() {
    let cabinet = Cabinet::new("modes");
    let sheet = cabinet.put("a.pcrl", good(1));
    fs::set_permissions(sheet, Permissions::from_mode(0o700)).unwrap();
    assert_eq!(cabinet.renew().status, Some(0));
    assert_eq!(
        fs::metadata(cabinet.path("a.table"))
            .unwrap()
            .permissions()
            .mode()
            & 0o777,
        0o600
    );
}

#[test]
fn a_bar_on_a_terminal_only() {
    let cabinet = Cabinet::new("bar");
    cabinet.put("a.pcrl", good(1));
    cabinet.put("b.table", "");
    let ran = cabinet.shell("script -qec \"'$0' audit '$1'\" /dev/null </dev/null");
    assert!(ran.done[0].starts_with("\r[##"), "{ran:?}");
    assert!(ran.done[0].contains("] 1 of 1\r "), "{ran:?}");
    assert!(
        ran.counts.ends_with("no sheet 1, wrong marks 0\r\n"),
        "{ran:?}"
    );
    assert_eq!(
        cabinet.audit().faults,
        ["a.table: missing", "b.table: no sheet"]
    );
}
