//! `make`: where the table goes, and what is said when it cannot.

use std::ffi::OsStr;
use std::fs;
use std::os::unix::ffi::OsStrExt;
use std::path::Path;

use crate::common::{closed, fed, run, run_into, Folder, CIRCLE, LOOP};

/// The file of the sheet LOOP.
fn made() -> Vec<u8> {
    reader::make_table(LOOP.as_bytes()).unwrap()
}

/// Words of a command line.
fn words<'w>(first: &'w str, paths: &[&'w Path]) -> Vec<&'w OsStr> {
    let paths = paths.iter().map(|path| path.as_os_str());
    [OsStr::new(first)].into_iter().chain(paths).collect()
}

#[test]
fn beside_the_sheet_or_where_it_is_sent() {
    let folder = Folder::new();
    let sheet = folder.file("x.pcrl", LOOP);
    run(&words("make", &[&sheet])).prints("");
    assert_eq!(fs::read(folder.path("x.table")).unwrap(), made());
    let other = folder.path("other");
    run(&words("make", &[&sheet, "-o".as_ref(), &other])).prints("");
    assert_eq!(fs::read(&other).unwrap(), made());
    let out = run(&words("make", &[&sheet, "-o".as_ref(), "-".as_ref()]));
    assert_eq!((out.status, out.out), (0, made()));
}

#[test]
fn from_standard_input() {
    let folder = Folder::new();
    let out = fed(&["make", "-"], LOOP.as_bytes());
    assert_eq!((out.status, out.out), (0, made()));
    let table = folder.path("x.table");
    let words = words("make", &["-".as_ref(), "-o".as_ref(), &table]);
    fed(&words, LOOP.as_bytes()).prints("");
    assert_eq!(fs::read(&table).unwrap(), made());
    let refused = fed(&["make", "-"], CIRCLE.as_bytes());
    refused.fails(1, &["standard input", "question 9"]);
}

#[test]
fn a_refused_sheet_leaves_the_old_table() {
    let folder = Folder::new();
    let sheet = folder.file("x.pcrl", CIRCLE);
    let ran = run(&words("make", &[&sheet]));
    ran.fails(1, &["x.pcrl", "question 9", "calls itself"]);
    assert!(!folder.path("x.table").exists());
    let table = folder.file("x.table", "old");
    run(&words("make", &[&sheet])).fails(1, &["question 9"]);
    assert_eq!(fs::read(table).unwrap(), b"old");
}

#[test]
fn sheets_that_cannot_be_read() {
    let folder = Folder::new();
    let missing = folder.path("missing.pcrl");
    run(&words("make", &[&missing])).fails(2, &["missing.pcrl", "No such file"]);
    let directory = folder.path("");
    run(&words("make", &[&directory])).fails(2, &["directory"]);
    // reading from its beginning fails for everybody, for root too
    let unreadable = Path::new("/proc/self/mem");
    let ran = run(&words("make", &[unreadable, "-o".as_ref(), "-".as_ref()]));
    ran.fails(2, &["/proc/self/mem", "cannot be read"]);
    let through = folder.file("file", "").join("sheet");
    run(&words("make", &[&through])).fails(2, &["Not a directory"]);
}

#[test]
fn a_file_without_the_right_to_read() {
    use std::os::unix::fs::PermissionsExt;
    let folder = Folder::new();
    let sheet = folder.file("x.pcrl", LOOP);
    fs::set_permissions(&sheet, fs::Permissions::from_mode(0o000)).unwrap();
    // root reads it all the same
    if fs::read(&sheet).is_err() {
        run(&words("make", &[&sheet])).fails(2, &["Permission denied"]);
    }
}

#[test]
fn empty_and_huge_sheets() {
    let folder = Folder::new();
    let empty = folder.file("empty", "");
    run(&words("make", &[&empty])).fails(1, &["question 5"]);
    let huge = folder.path("huge");
    fs::File::create(&huge).unwrap().set_len(1 << 36).unwrap();
    run(&words("make", &[&huge])).fails(1, &["question 1:"]);
    let endless = words("make", &["/dev/zero".as_ref(), "-o".as_ref(), "-".as_ref()]);
    run(&endless).fails(1, &["question 1:"]);
    let full = folder.file("full", format!("{LOOP:4096}"));
    run(&words("make", &[&full])).prints("");
}

#[test]
fn names_that_are_not_utf8() {
    let folder = Folder::new();
    let sheet = folder.file(OsStr::from_bytes(b"x\xff\xfe.pcrl"), LOOP);
    run(&words("make", &[&sheet])).prints("");
    let table = folder.path(OsStr::from_bytes(b"x\xff\xfe.table"));
    assert_eq!(fs::read(table).unwrap(), made());
    let wrong = folder.path(OsStr::from_bytes(b"\xff"));
    run(&words("make", &[&wrong])).fails(2, &["No such file"]);
    let option = OsStr::from_bytes(b"--\xff");
    run(&words("make", &[option.as_ref()])).fails(2, &["no option"]);
}

#[test]
fn outputs_that_cannot_be_written() {
    let folder = Folder::new();
    let sheet = folder.file("x.pcrl", LOOP);
    let to = |output: &Path| run(&words("make", &[&sheet, "-o".as_ref(), output]));
    to("/dev/full".as_ref()).fails(2, &["/dev/full", "No space left"]);
    to(&folder.path("")).fails(2, &["directory"]);
    to(&folder.path("no/such")).fails(2, &["No such file"]);
    let standard = words("make", &[&sheet, "-o".as_ref(), "-".as_ref()]);
    let full = fs::OpenOptions::new()
        .write(true)
        .open("/dev/full")
        .unwrap();
    run_into(&standard, full).fails(2, &["standard output", "No space left"]);
    let ran = run_into(&standard, closed());
    assert_eq!((ran.status, &ran.err[..]), (0, ""));
}

#[test]
fn never_over_the_sheet() {
    let folder = Folder::new();
    let sheet = folder.file("x.table", LOOP);
    run(&words("make", &[&sheet])).fails(2, &["over the sheet"]);
    let again = folder.path("./x.table");
    let ran = run(&words("make", &[&sheet, "-o".as_ref(), &again]));
    ran.fails(2, &["over the sheet"]);
    assert_eq!(fs::read(sheet).unwrap(), LOOP.as_bytes());
}
