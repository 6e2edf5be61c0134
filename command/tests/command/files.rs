//! Files that cannot be read, that are empty or huge, or whose names are not UTF-8: what every command says of them.

use std::ffi::{OsStr, OsString};
use std::fs;
use std::os::unix::ffi::OsStrExt;
use std::path::Path;

use crate::common::{run, Folder, Ran, LOOP};

/// The words of a command on a file.
fn on(word: &str, file: &Path) -> Ran {
    let mut words: Vec<OsString> = vec![word.into(), file.into()];
    if word == "ask" {
        words.extend(["--stack", "0000000000", "-k", "0"].map(OsString::from));
    }
    run(&words)
}

#[test]
fn files_that_cannot_be_read_are_named() {
    let folder = Folder::new();
    let through = folder.file("file", "").join("under");
    let wrong = folder.path(OsStr::from_bytes(b"x\xff"));
    // reading from its beginning fails for everybody, for root too
    let unreadable = Path::new("/proc/self/mem");
    for word in ["check", "walk", "print", "step", "graph", "ask"] {
        on(word, &folder.path("missing")).fails(2, &["missing", "No such file"]);
        on(word, &folder.path("")).fails(2, &["directory"]);
        on(word, &through).fails(2, &["under", "Not a directory"]);
        on(word, &wrong).fails(2, &["No such file"]);
        on(word, unreadable).fails(2, &["/proc/self/mem", "cannot be read"]);
    }
}

#[test]
fn empty_and_huge_files_are_refused() {
    let folder = Folder::new();
    let empty = folder.file("empty", "");
    let huge = folder.path("huge");
    fs::File::create(&huge).unwrap().set_len(1 << 36).unwrap();
    for (word, no_bytes, too_many) in [
        ("step", "question 5:", "question 1:"),
        ("graph", "question 5:", "question 1:"),
        ("print", "question 12:", "question 12:"),
        ("check", "question 5:", "question 1:"),
    ] {
        on(word, &empty).fails(1, &["empty", no_bytes]);
        on(word, &huge).fails(1, &["huge", too_many]);
    }
    // these two say the number on standard output too
    for (word, no_bytes, too_many) in [("walk", 5, 1), ("ask", 12, 12)] {
        for (file, name, number) in [(&empty, "empty", no_bytes), (&huge, "huge", too_many)] {
            let ran = on(word, file);
            assert_eq!(
                (ran.status, ran.text()),
                (1, &format!("refused {number}\n")[..])
            );
            let message = format!("refused by question {number}: ");
            assert!(
                ran.err.contains(&message) && ran.err.contains(name),
                "{}",
                ran.err
            );
        }
    }
}

#[test]
fn names_that_are_not_utf_8_are_names() {
    let folder = Folder::new();
    let sheet = folder.file(OsStr::from_bytes(b"x\xff\xfe.pcrl"), LOOP);
    let made = reader::make_table(LOOP.as_bytes()).unwrap();
    let table = folder.file(OsStr::from_bytes(b"x\xff\xfe.table"), made);
    on("walk", &sheet).prints(&reader::walk(LOOP.as_bytes()));
    on("ask", &table).prints("a 1 0000000000\n");
    for file in [&sheet, &table] {
        for word in ["check", "step", "graph"] {
            let ran = on(word, file);
            assert_eq!((ran.status, &ran.err[..]), (0, ""), "{word}");
        }
    }
    let printed = on("print", &table);
    assert_eq!(
        reader::make_table(&printed.out),
        reader::make_table(LOOP.as_bytes())
    );
}
