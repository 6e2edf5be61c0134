//! Odd names, links, what may not be read or written, and a disk that is full.

use super::cabinet::{good, table, Cabinet};
use super::check;
use std::ffi::OsStr;
use std::fs::{self, Permissions};
use std::os::unix::ffi::OsStrExt;
use std::os::unix::fs::{symlink, PermissionsExt};
use std::path::Path;

#[test]
fn names_that_are_no_text_and_things_that_are_no_files() {
    let cabinet = Cabinet::new("odd");
    let name = |bytes: &'static [u8]| Path::new(OsStr::from_bytes(bytes)).to_path_buf();
    cabinet.put(name(b"\xff\xfe.pcrl"), good(1));
    cabinet.put(name(b"two\nlines\x1b.table"), "");
    cabinet.put("folder.pcrl/inner.pcrl", good(2));
    cabinet.put("folder.table/x", "");
    cabinet.put("taken.pcrl", good(3));
    cabinet.put("taken.table/x", "");
    cabinet.put(".pcrl", good(4));
    let pipe = std::process::Command::new("mkfifo")
        .arg(cabinet.path("pipe.pcrl"))
        .status()
        .unwrap();
    assert!(pipe.success());
    let ran = cabinet.renew();
    let faults = [
        "pipe.pcrl: cannot be read: it is not a file",
        "taken.table: cannot be written: Is a directory (os error 21)",
        "two\\x0alines\\x1b.table: no sheet",
    ];
    let counts =
        "sheets 5: right 0, made 3, updated 0, mended 0, refused 0, unread 1, unwritten 1, no sheet 1, set aside 0";
    check(&ran, 2, counts, &faults);
    assert_eq!(
        fs::read(cabinet.path(name(b"\xff\xfe.table"))).unwrap(),
        table(&good(1))
    );
    cabinet.assert_right("folder.pcrl/inner", &good(2));
    cabinet.assert_right("", &good(4));
    assert!(cabinet.temporaries().is_empty());
    let faults = [
        faults[0],
        "taken.table: cannot be read: it is not a file",
        faults[2],
    ];
    let counts =
        "sheets 5: right 3, missing 0, earlier 0, differs 0, refused 0, unread 2, no sheet 1, wrong marks 0";
    check(&cabinet.audit(), 2, counts, &faults);
}

#[test]
fn links_are_followed_but_not_in_circles() {
    let cabinet = Cabinet::new("links");
    let beside = Cabinet::new("links-beside");
    cabinet.put("a.pcrl", good(1));
    cabinet.put("inner/b.pcrl", good(2));
    beside.put("c.pcrl", good(3));
    beside.put("old.table", "kept");
    symlink(beside.path("c.pcrl"), cabinet.path("linked.pcrl")).unwrap();
    symlink(beside.path("old.table"), cabinet.path("a.table")).unwrap();
    symlink("nowhere", cabinet.path("broken.pcrl")).unwrap();
    symlink("nowhere", cabinet.path("inner/b.table")).unwrap();
    for (target, name) in [
        (".", "here"),
        ("..", "up"),
        ("/", "root"),
        ("inner", "again"),
        ("turn", "turn"),
    ] {
        symlink(target, cabinet.path(name)).unwrap();
    }
    symlink("..", cabinet.path("inner/up")).unwrap();
    let counts =
        "sheets 4: right 0, made 2, updated 0, mended 1, refused 0, unread 1, unwritten 0, no sheet 0, set aside 0";
    check(
        &cabinet.renew(),
        2,
        counts,
        &["broken.pcrl: cannot be read: No such file or directory (os error 2)"],
    );
    for (name, number) in [("a", 1), ("inner/b", 2), ("linked", 3)] {
        cabinet.assert_right(name, &good(number));
    }
    assert_eq!(beside.names(), ["c.pcrl", "old.table"]);
    assert_eq!(fs::read(beside.path("old.table")).unwrap(), b"kept");
    fs::remove_file(beside.path("old.table")).unwrap();
    fs::remove_file(cabinet.path("broken.pcrl")).unwrap();
    symlink(&beside.folder, cabinet.path("cabinet")).unwrap();
    assert_eq!(cabinet.audit().faults, ["cabinet/c.table: missing"]);
    assert_eq!(cabinet.renew().status, Some(0));
    beside.assert_right("c", &good(3));
}

#[test]
fn folders_and_files_without_permission() {
    let cabinet = Cabinet::new("locked");
    cabinet.put("closed/a.pcrl", good(1));
    cabinet.put("fixed/b.pcrl", good(2));
    cabinet.put("fixed/c.pcrl", good(3));
    cabinet.put("fixed/c.table", "old");
    cabinet.put("secret.pcrl", good(4));
    cabinet.put("shut.pcrl", good(5));
    cabinet.put("shut.table", "old");
    let set = |name: &str, mode| {
        fs::set_permissions(cabinet.path(name), Permissions::from_mode(mode)).unwrap()
    };
    set("closed", 0o000);
    set("fixed", 0o555);
    set("secret.pcrl", 0o000);
    set("shut.table", 0o000);
    let audit = cabinet.powerless("audit");
    let renew = cabinet.powerless("renew");
    let whole = Cabinet::run_powerless("audit", &cabinet.path("closed"));
    set("closed", 0o755);
    set("fixed", 0o755);
    let denied = "Permission denied (os error 13)";
    let faults = [
        format!("closed: cannot be read: {denied}"),
        "fixed/b.table: missing".to_string(),
        "fixed/c.table: differs".to_string(),
        format!("secret.pcrl: cannot be read: {denied}"),
        format!("shut.table: cannot be read: {denied}"),
    ];
    assert_eq!((audit.status, audit.faults), (Some(2), faults.to_vec()));
    let faults = [
        format!("closed: cannot be read: {denied}"),
        format!("fixed/b.table: cannot be written: {denied}"),
        format!("fixed/c.table: cannot be written: {denied}"),
        format!("secret.pcrl: cannot be read: {denied}"),
    ];
    assert_eq!((renew.status, renew.faults), (Some(2), faults.to_vec()));
    assert_eq!((whole.status, whole.faults.len()), (Some(2), 1));
    assert_eq!(fs::read(cabinet.path("fixed/c.table")).unwrap(), b"old");
    cabinet.assert_right("shut", &good(5));
}

#[test]
fn a_disk_that_takes_no_more() {
    let cabinet = Cabinet::new("full");
    cabinet.put("a.pcrl", good(1));
    cabinet.put("b.pcrl", good(2));
    cabinet.put("b.table", "old");
    let ran = cabinet.shell("trap '' XFSZ; ulimit -f 0; exec \"$0\" renew \"$1\"");
    let faults = ["a", "b"]
        .map(|name| format!("{name}.table: cannot be written: File too large (os error 27)"));
    let counts =
        "sheets 2: right 0, made 0, updated 0, mended 0, refused 0, unread 0, unwritten 2, no sheet 0, set aside 0";
    check(&ran, 2, counts, &[&faults[0], &faults[1]]);
    assert_eq!(cabinet.names(), ["a.pcrl", "b.pcrl", "b.table"]);
    assert_eq!(fs::read(cabinet.path("b.table")).unwrap(), b"old");

    let ran = cabinet.shell("exec \"$0\" renew \"$1\" >/dev/full");
    assert_eq!(
        ran.faults,
        ["wizbratel: standard output cannot be written: No space left on device (os error 28)"]
    );
    assert_eq!(ran.status, Some(2));
    cabinet.put("b.table", "old");
    let ran = cabinet.shell("exec \"$0\" audit \"$1\" 2>/dev/full");
    assert_eq!(ran.status, Some(1));
    let ran = cabinet.shell("exec \"$0\" audit \"$1\" 2>&- >&-");
    assert_eq!(ran.status, Some(1));
}

/// Fills a small disk of its own and renews there, then makes room and renews again; 77 where no disk may be made.
const FULL_DISK: &str = r#"exec unshare -rm sh -c '
    mkdir "$1/disk" && mount -t tmpfs -o size=32k none "$1/disk" || exit 77
    cp "$1/a.pcrl" "$1/b.pcrl" "$1/b.table" "$1/disk"
    dd if=/dev/zero of="$1/disk/rest" bs=1024 2>"$1/filled"
    "$0" renew "$1/disk"
    status=$?
    cp -r "$1/disk" "$1/before"
    rm "$1/disk/rest"
    "$0" renew "$1/disk" >"$1/again" && cp -r "$1/disk" "$1/after"
    exit $status' "$0" "$1""#;

#[test]
fn a_small_disk_that_is_full() {
    let cabinet = Cabinet::new("disk");
    cabinet.put("a.pcrl", good(1));
    cabinet.put("b.pcrl", good(2));
    cabinet.put("b.table", "old");
    let ran = cabinet.shell(FULL_DISK);
    if !cabinet.path("filled").exists() {
        eprintln!("no disk may be made here: {:?}", ran.status);
        return;
    }
    let faults = ["a", "b"].map(|name| {
        format!("disk/{name}.table: cannot be written: No space left on device (os error 28)")
    });
    let counts =
        "sheets 2: right 0, made 0, updated 0, mended 0, refused 0, unread 0, unwritten 2, no sheet 0, set aside 0";
    check(&ran, 2, counts, &[&faults[0], &faults[1]]);
    let names = |folder: &str| {
        let entries = fs::read_dir(cabinet.path(folder)).unwrap();
        let mut names: Vec<_> = entries.map(|entry| entry.unwrap().file_name()).collect();
        names.sort();
        names
    };
    assert_eq!(names("before"), ["a.pcrl", "b.pcrl", "b.table", "rest"]);
    assert_eq!(fs::read(cabinet.path("before/b.table")).unwrap(), b"old");
    assert_eq!(names("after"), ["a.pcrl", "a.table", "b.pcrl", "b.table"]);
    cabinet.assert_right("after/a", &good(1));
    cabinet.assert_right("after/b", &good(2));
}
