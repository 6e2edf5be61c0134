//! What the tests share: the command run on some input, folders that are removed again, and the vectors.

#[path = "../../../tests/reader/tests/common/json.rs"]
pub mod json;
#[path = "../../../tests/library/src/large.rs"]
pub mod large;
#[path = "../../../tests/reader/tests/common/vectors.rs"]
#[allow(dead_code)]
pub mod vectors;

use std::ffi::OsStr;
use std::fs;
use std::io::Write;
use std::path::{Path, PathBuf};
use std::process::{Command, Output, Stdio};
use std::sync::atomic::{AtomicU32, Ordering};

/// The command that was built.
pub const WIZBRATEL: &str = env!("CARGO_BIN_EXE_wizbratel");

/// A sheet with one step after another, without end.
pub const LOOP: &str = "act a;proc X=a.X;init X;";

/// A sheet that question 9 refuses.
pub const CIRCLE: &str = "proc X=X;init X;";

/// What a run of the command came to.
#[derive(Debug)]
pub struct Ran {
    pub status: i32,
    pub out: Vec<u8>,
    pub err: String,
}

impl Ran {
    fn of(output: Output) -> Self {
        let err = String::from_utf8_lossy(&output.stderr).into_owned();
        assert!(!err.contains("panicked"), "{err}");
        Ran {
            status: output.status.code().expect("no signal ends it"),
            out: output.stdout,
            err,
        }
    }

    /// Standard output as text.
    pub fn text(&self) -> &str {
        std::str::from_utf8(&self.out).expect("text")
    }

    /// Asserts the status, nothing on standard output, and a message with all of these in it.
    pub fn fails(&self, status: i32, parts: &[&str]) {
        assert_eq!((self.status, self.text()), (status, ""), "{}", self.err);
        for part in parts {
            assert!(self.err.contains(part), "{part}: {}", self.err);
        }
    }

    /// Asserts status 0, this text and no message.
    pub fn prints(&self, text: &str) {
        assert_eq!((self.status, self.text(), &self.err[..]), (0, text, ""));
    }
}

/// Runs the command without input.
pub fn run<S: AsRef<OsStr>>(words: &[S]) -> Ran {
    fed(words, b"")
}

/// Runs the command with this input.
pub fn fed<S: AsRef<OsStr>>(words: &[S], input: &[u8]) -> Ran {
    let mut child = Command::new(WIZBRATEL)
        .args(words)
        .stdin(Stdio::piped())
        .stdout(Stdio::piped())
        .stderr(Stdio::piped())
        .spawn()
        .expect("the command");
    let mut stdin = child.stdin.take().expect("its input");
    let input = input.to_vec();
    let feeder = std::thread::spawn(move || {
        // a command that needs no more may close its input
        let _ = stdin.write_all(&input);
    });
    let output = child.wait_with_output().expect("its output");
    feeder.join().expect("the input");
    Ran::of(output)
}

/// Runs the command with this standard output.
pub fn run_into<S: AsRef<OsStr>>(words: &[S], out: impl Into<Stdio>) -> Ran {
    let mut command = Command::new(WIZBRATEL);
    command.args(words).stdin(Stdio::null()).stdout(out);
    Ran::of(command.stderr(Stdio::piped()).output().expect("it runs"))
}

/// A pipe that nobody reads.
pub fn closed() -> std::io::PipeWriter {
    let (reader, writer) = std::io::pipe().expect("a pipe");
    drop(reader);
    writer
}

/// A folder of a test, removed when the test is done.
pub struct Folder(PathBuf);

impl Folder {
    pub fn new() -> Self {
        static NEXT: AtomicU32 = AtomicU32::new(0);
        let number = NEXT.fetch_add(1, Ordering::Relaxed);
        let name = format!("wizbratel-command-{}-{number}", std::process::id());
        let path = std::env::temp_dir().join(name);
        fs::create_dir_all(&path).expect("a folder");
        Folder(path)
    }

    /// The path of a name in it.
    pub fn path(&self, name: impl AsRef<Path>) -> PathBuf {
        self.0.join(name)
    }

    /// A file in it with these bytes.
    pub fn file(&self, name: impl AsRef<Path>, bytes: impl AsRef<[u8]>) -> PathBuf {
        let path = self.path(name);
        fs::write(&path, bytes).expect("a file");
        path
    }
}

impl Drop for Folder {
    fn drop(&mut self) {
        let _ = fs::remove_dir_all(&self.0);
    }
}

/// An example of the repository.
pub fn example(name: &str) -> String {
    format!("{}/../examples/{name}", env!("CARGO_MANIFEST_DIR"))
}
