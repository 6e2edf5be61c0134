//! `make` leaves the old table or the new one, whatever happens meanwhile, and no table goes over what is read.

use std::fs;
use std::os::unix::fs::{symlink, MetadataExt, PermissionsExt};
use std::os::unix::process::ExitStatusExt;
use std::path::PathBuf;
use std::process::{Command, Output, Stdio};
use std::sync::atomic::{AtomicBool, Ordering};
use std::time::Duration;

use crate::common::{closed, run, run_into, Folder, Ran, LOOP, WIZBRATEL};

/// A sheet with a table of 16 blocks: 15 processes that each begin with one of 15 long alternatives.
fn large() -> String {
    let data = format!("{}p{}", "f(".repeat(13), ")".repeat(13));
    let first = vec![format!("a({data},{data})"); 15].join("+");
    let others: String = (0..15).map(|i| format!("proc Z{i}=Y(0).Z{i};")).collect();
    format!("func f:Bool->Bool=1,0;act a:Bool#Bool;proc Y(p:Bool)={first};{others}init Z0;")
}

/// A folder with a large sheet `x.pcrl`, and beside it the table of another.
struct Place {
    folder: Folder,
    sheet: PathBuf,
    table: PathBuf,
    old: Vec<u8>,
    new: Vec<u8>,
}

impl Place {
    fn new() -> Self {
        let folder = Folder::new();
        let (old, new) = (LOOP.as_bytes().to_vec(), large().into_bytes());
        let [old, new] = [old, new].map(|sheet| reader::make_table(&sheet).unwrap());
        assert!(new.len() > 4096, "more than one page");
        let sheet = folder.file("x.pcrl", large());
        let table = folder.file("x.table", &old);
        Place {
            folder,
            sheet,
            table,
            old,
            new,
        }
    }

    fn make(&self) -> Command {
        let mut command = Command::new(WIZBRATEL);
        command.arg("make").arg(&self.sheet);
        command
    }

    /// Runs a line of shell, in which `$0` is the command, `$1` the sheet and `$2` the folder.
    fn shell(&self, line: &str) -> Output {
        let mut command = Command::new("sh");
        command.args(["-c", line, WIZBRATEL]).arg(&self.sheet);
        command.arg(self.folder.path("")).output().unwrap()
    }

    fn is_new(&self) -> bool {
        let file = fs::read(&self.table).expect("a table");
        assert!(file == self.old || file == self.new, "{} bytes", file.len());
        file == self.new
    }

    fn names(&self) -> Vec<String> {
        let entries = fs::read_dir(self.folder.path("")).unwrap();
        let names = entries.map(|entry| entry.unwrap().file_name().into_string().unwrap());
        let mut names: Vec<String> = names.collect();
        names.sort();
        names
    }
}

/// The kernel ends the command at the write that goes past the limit, with the file begun.
#[test]
fn killed_at_its_write() {
    let place = Place::new();
    for limit in [0, 1, 8] {
        let output = place.shell(&format!("ulimit -f {limit}; exec \"$0\" make \"$1\""));
        assert!(output.status.signal().is_some(), "{output:?}");
        assert!(!place.is_new());
    }
    assert!(place.names().len() > 2, "it was killed before it wrote");
    assert!(place.make().status().unwrap().success() && place.is_new());
    let renew = run(&["renew".as_ref(), place.folder.path("").as_os_str()]);
    assert_eq!(renew.status, 0, "{renew:?}");
    assert_eq!(place.names(), ["x.pcrl", "x.table"]);
}

#[test]
fn killed_at_any_time() {
    let place = Place::new();
    let mut new = 0;
    for round in 0..60 {
        fs::write(&place.table, &place.old).unwrap();
        let mut child = place.make().spawn().unwrap();
        std::thread::sleep(Duration::from_micros(round * 60));
        child.kill().unwrap();
        child.wait().unwrap();
        new += u32::from(place.is_new());
    }
    println!("{new} of 60 were made before they were killed");
}

#[test]
fn a_file_that_may_not_grow() {
    let place = Place::new();
    let output = place.shell("trap '' XFSZ; ulimit -f 8; exec \"$0\" make \"$1\"");
    let err = String::from_utf8_lossy(&output.stderr).into_owned();
    assert_eq!(output.status.code(), Some(2), "{err}");
    assert!(
        err.contains("x.table cannot be written: File too large"),
        "{err}"
    );
    assert!(!place.is_new());
    assert_eq!(place.names(), ["x.pcrl", "x.table"]);
}

/// Makes a table on a small disk of its own, full and with room; 77 where no disk may be made.
const FULL_DISK: &str = r#"exec unshare -rm sh -c '
    mkdir "$2disk" && mount -t tmpfs -o size=24k none "$2disk" || exit 77
    cp "$1" "$2x.table" "$2disk"
    dd if=/dev/zero of="$2disk/rest" bs=1024 2>"$2filled"
    "$0" make "$2disk/x.pcrl"
    status=$?
    cp "$2disk/x.table" "$2before"
    ls -A "$2disk" >"$2names"
    rm "$2disk/rest"
    "$0" make "$2disk/x.pcrl" && cp "$2disk/x.table" "$2after"
    exit $status' "$0" "$1" "$2""#;

#[test]
fn a_disk_that_is_full() {
    let place = Place::new();
    let output = place.shell(FULL_DISK);
    if !place.folder.path("filled").exists() {
        eprintln!("no disk may be made here: {output:?}");
        return;
    }
    let err = String::from_utf8_lossy(&output.stderr).into_owned();
    assert_eq!(output.status.code(), Some(2), "{err}");
    assert!(
        err.contains("x.table cannot be written: No space left"),
        "{err}"
    );
    let read = |name: &str| fs::read(place.folder.path(name)).unwrap();
    assert!(read("before") == place.old && read("after") == place.new);
    assert_eq!(read("names"), b"rest\nx.pcrl\nx.table\n");
}

#[test]
fn a_reader_meanwhile() {
    let place = Place::new();
    let done = AtomicBool::new(false);
    std::thread::scope(|scope| {
        let reads = scope.spawn(|| {
            let mut reads = 0;
            while !done.load(Ordering::Relaxed) {
                place.is_new();
                reads += 1;
            }
            reads
        });
        let made = (0..100).all(|_| place.make().status().unwrap().success());
        done.store(true, Ordering::Relaxed);
        assert!(made && reads.join().unwrap() > 100);
    });
    assert!(place.is_new());
}

#[test]
fn never_over_an_input_by_any_name() {
    let folder = Folder::new();
    let sheet = folder.file("h.pcrl", LOOP);
    let make = |words: &[&str]| {
        let mut command = Command::new(WIZBRATEL);
        command.current_dir(folder.path("")).arg("make").args(words);
        let ran = command.stdin(Stdio::null()).output().unwrap();
        let err = String::from_utf8_lossy(&ran.stderr).into_owned();
        assert_eq!(ran.status.code(), Some(2), "{words:?}: {err}");
        assert!(err.contains("over the sheet"), "{words:?}: {err}");
        assert_eq!(fs::read(&sheet).unwrap(), LOOP.as_bytes());
    };
    let other = folder.path("h.table");
    fs::hard_link(&sheet, &other).unwrap();
    make(&["h.pcrl"]);
    make(&["h.pcrl", "-o", "h.table"]);
    fs::remove_file(&other).unwrap();
    symlink("h.pcrl", &other).unwrap();
    make(&["h.pcrl"]);
    make(&["h.table"]);
    assert!(fs::symlink_metadata(&other).unwrap().is_symlink());
    fs::remove_file(&other).unwrap();
    folder.file("h.table", LOOP);
    make(&["h.pcrl", "h.table"]);
    assert_eq!(fs::read(&other).unwrap(), LOOP.as_bytes());
}

#[test]
fn never_over_standard_input_or_from_standard_output() {
    let folder = Folder::new();
    let sheet = folder.file("h.pcrl", LOOP);
    for line in [
        "\"$0\" make - -o \"$1\" <\"$1\"",
        "\"$0\" make - <\"$1\" >>\"$1\"",
        "\"$0\" make \"$1\" -o - >>\"$1\"",
        "\"$0\" make \"$1\" -o /dev/stdout >>\"$1\"",
        "\"$0\" walk \"$1\" >>\"$1\"",
    ] {
        let mut command = Command::new("sh");
        command.args(["-c", line, WIZBRATEL]).arg(&sheet);
        assert_eq!(command.output().unwrap().status.code(), Some(2), "{line}");
        assert_eq!(fs::read(&sheet).unwrap(), LOOP.as_bytes(), "{line}");
    }
}

#[test]
fn links_and_other_names_of_the_table() {
    let place = Place::new();
    let kept = place.folder.path("kept");
    fs::hard_link(&place.table, &kept).unwrap();
    run(&["make".as_ref(), place.sheet.as_os_str()]).prints("");
    assert!(place.is_new());
    assert_eq!(fs::read(&kept).unwrap(), place.old);
    fs::remove_file(&place.table).unwrap();
    for target in ["kept", "nowhere"] {
        symlink(target, &place.table).unwrap();
        run(&["make".as_ref(), place.sheet.as_os_str()]).prints("");
        assert!(place.is_new());
        assert!(fs::symlink_metadata(&place.table).unwrap().is_file());
        assert_eq!(fs::read(&kept).unwrap(), place.old);
        fs::remove_file(&place.table).unwrap();
    }
}

#[test]
fn pipes_and_devices_are_written_into() {
    let place = Place::new();
    let made = |line: &str| {
        let output = place.shell(line);
        let err = String::from_utf8_lossy(&output.stderr).into_owned();
        assert_eq!(output.status.code(), Some(0), "{line}: {err}");
        output.stdout
    };
    assert_eq!(made("\"$0\" make \"$1\" -o /dev/stdout"), place.new);
    assert_eq!(made("\"$0\" make \"$1\" -o /dev/stdout | cat"), place.new);
    let behind =
        "echo front >\"$2out\"; \"$0\" make \"$1\" -o /dev/stdout >>\"$2out\"; cat \"$2out\"";
    assert_eq!(made(behind), [b"front\n", &place.new[..]].concat());
    let errors = "\"$0\" make \"$1\" -o /dev/stderr 2>\"$2err\"; cat \"$2err\"";
    assert_eq!(made(errors), place.new);
    assert!(fs::symlink_metadata("/dev/stdout").unwrap().is_symlink());
    assert!(fs::symlink_metadata("/dev/stderr").unwrap().is_symlink());
    let fifo = "mkfifo \"$2pipe\"; \"$0\" make \"$1\" -o \"$2pipe\" & cat \"$2pipe\"; wait $!";
    assert_eq!(made(fifo), place.new);
    let words = ["make".as_ref(), place.sheet.as_os_str(), "-o".as_ref()];
    let closed = run_into(&[&words[..], &["/dev/stdout".as_ref()]].concat(), closed());
    assert_eq!((closed.status, &closed.err[..]), (0, ""));
}

#[test]
fn a_table_is_no_more_open_than_its_sheet() {
    let place = Place::new();
    fs::set_permissions(&place.sheet, fs::Permissions::from_mode(0o740)).unwrap();
    run(&["make".as_ref(), place.sheet.as_os_str()]).prints("");
    let mode = fs::metadata(&place.table).unwrap().mode();
    assert_eq!(mode & 0o777, 0o640);
}

#[test]
fn several_sheets() {
    let folder = Folder::new();
    let sheet = |name: &str, text: &str| folder.file(name, text).display().to_string();
    let (a, b) = (sheet("a.pcrl", LOOP), sheet("b.pcrl", &large()));
    let (bad, missing) = (sheet("bad.pcrl", ""), folder.path("no.pcrl"));
    run(&["make", &a, &b]).prints("");
    for (name, text) in [("a.table", LOOP), ("b.table", &large())] {
        let wanted = reader::make_table(text.as_bytes()).unwrap();
        assert_eq!(fs::read(folder.path(name)).unwrap(), wanted);
        fs::remove_file(folder.path(name)).unwrap();
    }
    let worst = |words: &[&str]| -> Ran {
        let ran = run(words);
        assert!(folder.path("b.table").exists(), "{ran:?}");
        fs::remove_file(folder.path("b.table")).unwrap();
        ran
    };
    worst(&["make", &bad, &b]).fails(1, &["bad.pcrl", "question 5"]);
    let missing = missing.display().to_string();
    worst(&["make", &missing, &bad, &b]).fails(2, &["no.pcrl", "question 5"]);
    run(&["make", &a, &b, "-o", "x"]).fails(2, &["-o is for one sheet"]);
    let same = sheet("a.txt", LOOP);
    run(&["make", &a, &same]).fails(2, &["a.table: two tables"]);
    run(&["make", &a, &a]).fails(2, &["a.table: two tables"]);
    assert!(!folder.path("a.table").exists());
    run(&["make"]).fails(2, &["SHEET is missing"]);
}
