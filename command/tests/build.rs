//! `tools/build`, in a repository of its own with a kit and a cargo that write down what they are asked for.

use std::fs;
use std::os::unix::fs::{symlink, PermissionsExt};
use std::path::{Path, PathBuf};
use std::process::{Command, Output};

/// What the script needs beside the kit and cargo.
const TOOLS: [&str; 10] = [
    "bash",
    "cmp",
    "cp",
    "dirname",
    "find",
    "mkdir",
    "mv",
    "sha256sum",
    "sort",
    "xargs",
];

/// What is built, in this order.
const CRATES: [&str; 6] = [
    "wizbratel_c",
    "measures_c",
    "walk",
    "make_table",
    "check_sheet",
    "print_table",
];

const RT: &str = "#!/usr/bin/env bash
echo \"rt $* ${PWD##*/}\" >>../../log
name=${PWD##*/}
mkdir -p out
[ \"$1\" != lib ] || echo library >\"out/lib$name.a\"
[ \"$1\" != run ] || echo program >\"out/$name\"
";

const CARGO: &str = "#!/usr/bin/env bash
echo \"cargo $*\" >>log
mkdir -p command/target/release
echo command >command/target/release/wizbratel
";

struct Repository(PathBuf);

impl Repository {
    fn new() -> Self {
        let folder = std::env::temp_dir().join(format!("wizbratel-build-{}", std::process::id()));
        let repository = Repository(folder);
        for folder in ["tools", "bin", "crates/walk/src"] {
            fs::create_dir_all(repository.path(folder)).unwrap();
        }
        for name in CRATES {
            fs::create_dir_all(repository.path("crates").join(name)).unwrap();
        }
        let root = Path::new(env!("CARGO_MANIFEST_DIR")).join("..");
        for tool in ["build", "archives", "programs"] {
            let tool = Path::new("tools").join(tool);
            fs::copy(root.join(&tool), repository.0.join(&tool)).unwrap();
        }
        fs::write(repository.path("crates.txt"), "walk:\n").unwrap();
        fs::write(repository.path("crates/walk/src/lib.rt"), "").unwrap();
        for tool in TOOLS {
            let found = ["/usr/bin", "/bin"].map(|folder| Path::new(folder).join(tool));
            let found = found.iter().find(|path| path.exists()).expect(tool);
            symlink(found, repository.path("bin").join(tool)).unwrap();
        }
        repository.program("cargo", CARGO);
        repository
    }

    fn path(&self, name: &str) -> PathBuf {
        self.0.join(name)
    }

    fn program(&self, name: &str, text: &str) {
        let path = self.path("bin").join(name);
        fs::write(&path, text).unwrap();
        fs::set_permissions(path, fs::Permissions::from_mode(0o755)).unwrap();
    }

    /// Builds, and says what the kit and cargo were asked for.
    fn build(&self) -> (Output, Vec<String>) {
        let _ = fs::remove_file(self.path("log"));
        let mut command = Command::new(self.path("tools/build"));
        let output = command.env("PATH", self.path("bin")).output().unwrap();
        let log = fs::read_to_string(self.path("log")).unwrap_or_default();
        (output, log.lines().map(str::to_string).collect())
    }
}

impl Drop for Repository {
    fn drop(&mut self) {
        let _ = fs::remove_dir_all(&self.0);
    }
}

fn said(output: &Output) -> (Option<i32>, String) {
    let text = [&output.stdout[..], &output.stderr[..]].concat();
    (output.status.code(), String::from_utf8(text).unwrap())
}

#[test]
fn nothing_is_built_twice() {
    const BUILD: &str =
        "cargo build --release --offline --quiet --manifest-path command/Cargo.toml";
    let repository = Repository::new();
    let (output, asked) = repository.build();
    let text = "tools/build: rt is missing: the Rattle kit proves the library and the programs\n";
    assert_eq!(
        (said(&output), asked.len()),
        ((Some(1), text.to_string()), 0)
    );

    // a proof that fails half-way counts for nothing
    repository.program("rt", &RT.replace("run ]", "run ] || exit 1"));
    assert_eq!(said(&repository.build().0).0, Some(1));

    repository.program("rt", RT);
    let all = [
        "rt lib wizbratel_c",
        "rt lib measures_c",
        "rt run walk",
        "rt run make_table",
        "rt run check_sheet",
        "rt run print_table",
        BUILD,
    ];
    let (output, asked) = repository.build();
    assert_eq!(
        (said(&output).0, asked),
        (Some(0), all.map(str::to_string).to_vec())
    );
    assert!(said(&output)
        .1
        .starts_with("built: target/staticlib/libwizbratel.a "));

    // nothing has changed: the kit is not even needed
    fs::remove_file(repository.path("bin/rt")).unwrap();
    let nothing = (Some(0), "nothing has changed\n".to_string());
    let (output, asked) = repository.build();
    assert_eq!(
        (said(&output), asked),
        (nothing.clone(), vec![BUILD.to_string()])
    );

    // a source that changes, is added or goes, and a result that is missing or changes
    repository.program("rt", RT);
    let changes: [(&str, Option<&str>); 5] = [
        ("crates/walk/src/lib.rt", Some("fn")),
        ("crates/walk/src/more.rt", Some("")),
        ("crates/walk/src/more.rt", None),
        ("target/bin/walk", None),
        ("target/staticlib/libwizbratel.a", Some("other")),
    ];
    for (name, text) in changes {
        match text {
            Some(text) => fs::write(repository.path(name), text).unwrap(),
            None => fs::remove_file(repository.path(name)).unwrap(),
        }
        let (output, asked) = repository.build();
        assert_eq!((said(&output).0, asked.len()), (Some(0), all.len()), "{name}");
        assert_eq!(said(&repository.build().0), nothing, "{name}");
    }
}
