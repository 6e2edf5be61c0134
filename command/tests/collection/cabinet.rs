//! A collection in a folder of its own, removed at the end, and the command run on it.

use std::fs;
use std::io;
use std::os::unix::fs::MetadataExt;
use std::path::{Path, PathBuf};
use std::process::{Command, Output};
use wizbratel::{Diagnostic, Table};

pub const COMMAND: &str = env!("CARGO_BIN_EXE_wizbratel");

/// The ending of temporary files.
const TEMPORARY: &str = ".part";

pub struct Cabinet {
    pub folder: PathBuf,
}

/// What a run gave: its lines on standard error and those on standard output (without the collection's folder), and the
/// last of these.
#[derive(Debug)]
pub struct Ran {
    pub status: Option<i32>,
    pub counts: String,
    pub done: Vec<String>,
    pub faults: Vec<String>,
}

/// A sheet that is accepted, another for each number.
pub fn good(number: usize) -> Vec<u8> {
    format!("sort D 2;act a{number}:D;proc X=sum(d:D,a{number}(d).X);init X;").into_bytes()
}

pub fn table(sheet: &[u8]) -> Vec<u8> {
    Table::make(sheet)
        .unwrap_or_else(|_| panic!("an accepted sheet"))
        .file()
        .to_vec()
}

/// A sheet's table as the earlier writer filed it.
pub fn earlier(sheet: &[u8]) -> Vec<u8> {
    let own = reader::read_table(&table(sheet)).expect("a table");
    reader::encode_file(&own.older())
}

/// The line of a sheet that is refused.
pub fn bad(name: &str, sheet: &[u8]) -> String {
    let found = Diagnostic::of(sheet).expect("a refused sheet");
    let (number, line, column) = (found.question(), found.line(), found.column());
    let (message, help) = (found.message(), found.help().expect("a help"));
    format!("{name}: refused {number}: line {line}, column {column}: {message}; {help}")
}

/// Where cabinets are made: in `TMPDIR` if it is set, else in memory if there is room, since a disk is slow to make and
/// remove tens of thousands of files.
fn place() -> PathBuf {
    let memory = "/dev/shm";
    let stat = Command::new("stat")
        .args(["-f", "-c", "%a %S", memory])
        .output();
    let text = stat.map_or(String::new(), |output| {
        String::from_utf8_lossy(&output.stdout).into_owned()
    });
    let room: u64 = text
        .split_whitespace()
        .map(|number| number.parse().unwrap_or(0))
        .product();
    if std::env::var_os("TMPDIR").is_none() && !text.is_empty() && room > 512 << 20 {
        return PathBuf::from(memory);
    }
    std::env::temp_dir()
}

impl Cabinet {
    pub fn new(name: &str) -> Cabinet {
        let folder = place().join(format!("wizbratel-{name}-{}", std::process::id()));
        let _ = fs::remove_dir_all(&folder);
        fs::create_dir_all(&folder).unwrap();
        Cabinet { folder }
    }

    pub fn path(&self, name: impl AsRef<Path>) -> PathBuf {
        self.folder.join(name)
    }

    pub fn put(&self, name: impl AsRef<Path>, bytes: impl AsRef<[u8]>) -> PathBuf {
        let path = self.path(name);
        fs::create_dir_all(path.parent().unwrap()).unwrap();
        fs::write(&path, bytes).unwrap();
        path
    }

    pub fn assert_right(&self, name: &str, sheet: &[u8]) {
        assert_eq!(
            fs::read(self.path(format!("{name}.table"))).unwrap(),
            table(sheet),
            "{name}"
        );
    }

    /// The names of all files, sorted, those of subfolders too.
    pub fn names(&self) -> Vec<String> {
        let mut names = Vec::new();
        let mut folders = vec![self.folder.clone()];
        while let Some(folder) = folders.pop() {
            for entry in fs::read_dir(folder).unwrap().map(io::Result::unwrap) {
                if entry.file_type().unwrap().is_dir() {
                    folders.push(entry.path());
                } else {
                    let path = entry.path();
                    names.push(
                        path.strip_prefix(&self.folder)
                            .unwrap()
                            .to_string_lossy()
                            .into_owned(),
                    );
                }
            }
        }
        names.sort();
        names
    }

    pub fn temporaries(&self) -> Vec<String> {
        self.names()
            .into_iter()
            .filter(|name| name.ends_with(TEMPORARY))
            .collect()
    }

    pub fn renew(&self) -> Ran {
        Self::run("renew", &self.folder)
    }

    pub fn audit(&self) -> Ran {
        Self::run("audit", &self.folder)
    }

    pub fn run(task: &str, folder: &Path) -> Ran {
        Self::run_with(&[task], folder)
    }

    /// Runs the command with these words before the folder.
    pub fn run_with(words: &[&str], folder: &Path) -> Ran {
        let mut command = Command::new(COMMAND);
        ran(folder, command.args(words).arg(folder).output().unwrap())
    }

    /// Runs the command without the power of root to pass over permissions.
    pub fn powerless(&self, task: &str) -> Ran {
        Self::run_powerless(task, &self.folder)
    }

    pub fn run_powerless(task: &str, folder: &Path) -> Ran {
        if fs::metadata("/proc/self").unwrap().uid() != 0 {
            return Self::run(task, folder);
        }
        let mut command = Command::new("setpriv");
        command
            .args(["--bounding-set=-all", "--inh-caps=-all", COMMAND, task])
            .arg(folder);
        ran(folder, command.output().unwrap())
    }

    /// Runs a line of shell, in which `$0` is the command and `$1` the folder.
    pub fn shell(&self, line: &str) -> Ran {
        ran(
            &self.folder,
            Command::new("sh")
                .args(["-c", line, COMMAND])
                .arg(&self.folder)
                .output()
                .unwrap(),
        )
    }
}

fn ran(folder: &Path, output: Output) -> Ran {
    let front = format!("{}/", folder.display());
    let lines = |bytes| {
        let text = String::from_utf8(bytes).unwrap();
        let lines = text.split_inclusive('\n');
        let lines = lines.map(|line| line.strip_prefix(&front).unwrap_or(line).to_string());
        lines.collect::<Vec<_>>()
    };
    let bare = |lines: Vec<String>| {
        let lines = lines.iter().map(|line| line.trim_end_matches('\n'));
        lines.map(str::to_string).collect()
    };
    let mut done = lines(output.stdout);
    Ran {
        status: output.status.code(),
        counts: done.pop().unwrap_or_default(),
        done: bare(done),
        faults: bare(lines(output.stderr)),
    }
}

impl Drop for Cabinet {
    fn drop(&mut self) {
        let _ = fs::remove_dir_all(&self.folder);
    }
}
