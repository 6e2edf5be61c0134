//! The programs that `rt ci` proves and tools/programs builds, run with some bytes on their standard input.

use std::io::Write;
use std::path::Path;
use std::process::{Command, Stdio};

/// What the program of this name writes for these bytes.
pub fn written(name: &str, input: &[u8]) -> String {
    let folder = Path::new(env!("CARGO_MANIFEST_DIR")).join("../../target/bin");
    let mut child = Command::new(folder.join(name))
        .stdin(Stdio::piped())
        .stdout(Stdio::piped())
        .spawn()
        .expect("the program, which tools/programs builds");
    let mut stdin = child.stdin.take().expect("its input");
    // a program that has read enough may close its input
    let _ = stdin.write_all(input);
    drop(stdin);
    let output = child.wait_with_output().expect("its output");
    assert!(output.status.success());
    String::from_utf8(output.stdout).expect("text")
}
