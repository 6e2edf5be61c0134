//! The listings of `docs/KEEPING.md`: what stands behind `$` is run, and must print what stands below it; and those of
//! other documents that are marked `show`.

#[path = "../../tests/library/src/listings.rs"]
#[allow(dead_code)]
mod listings;

use std::fs;
use std::io::Write;
use std::path::{Path, PathBuf};
use std::process::{Command, Stdio};

use listings::listings;

/// A folder that is removed at the end.
struct Folder(PathBuf);

impl Drop for Folder {
    fn drop(&mut self) {
        let _ = fs::remove_dir_all(&self.0);
    }
}

/// The lines of all listings for a shell.
fn listed(page: &str) -> Vec<&str> {
    let mut inside = false;
    let lines = page.lines().filter(|line| {
        let fence = line.starts_with("```");
        inside = if fence { *line == "```sh" } else { inside };
        inside && !fence
    });
    lines.collect()
}

#[test]
fn the_listings_of_a_keeper() {
    let root = Path::new(env!("CARGO_MANIFEST_DIR")).join("..");
    let page = fs::read_to_string(root.join("docs/KEEPING.md")).unwrap();
    let name = format!("wizbratel-keeping-{}", std::process::id());
    let folder = Folder(std::env::temp_dir().join(name));
    fs::create_dir_all(&folder.0).unwrap();
    let bin = Path::new(env!("CARGO_BIN_EXE_wizbratel")).parent().unwrap();
    let path = format!("{}:/usr/bin:/bin", bin.display());
    let lines = listed(&page);
    let (mut wanted, mut printed) = (String::new(), String::new());
    for line in &lines {
        wanted += &format!("{line}\n");
        let Some(line) = line.strip_prefix("$ ") else {
            continue;
        };
        let mut shell = Command::new("sh");
        shell.args(["-c", &format!("exec 2>&1; {line}")]);
        shell
            .env("PATH", &path)
            .env("LC_ALL", "C")
            .current_dir(&folder.0);
        let output = shell.output().unwrap();
        printed += &format!("$ {line}\n{}", String::from_utf8(output.stdout).unwrap());
    }
    assert!(lines.iter().filter(|line| line.starts_with("$ ")).count() > 15);
    assert_eq!(printed, wanted);
}

/// What the command shows of a sheet.
fn shown(sheet: &str) -> String {
    let mut child = Command::new(env!("CARGO_BIN_EXE_wizbratel"))
        .args(["show", "-"])
        .stdin(Stdio::piped())
        .stdout(Stdio::piped())
        .spawn()
        .unwrap();
    let mut stdin = child.stdin.take().unwrap();
    stdin.write_all(sheet.as_bytes()).unwrap();
    drop(stdin);
    String::from_utf8(child.wait_with_output().unwrap().stdout).unwrap()
}

#[test]
fn what_is_shown_of_the_sheet_before() {
    let root = Path::new(env!("CARGO_MANIFEST_DIR")).join("..");
    for name in ["README.md", "docs/LANGUAGE.md"] {
        let document = fs::read_to_string(root.join(name)).unwrap();
        let (mut sheet, mut count) = (String::new(), 0);
        for listing in listings(&document).unwrap() {
            match &listing.words[..] {
                "pcrl accepted" => sheet = listing.text,
                "show" => {
                    count += 1;
                    assert_eq!(shown(&sheet), listing.text, "{name}, line {}", listing.line);
                }
                _ => {}
            }
        }
        assert!(count > 0, "{name}");
    }
}

/// The pictures of a document are small files beside it.
#[test]
fn the_pictures_are_there() {
    let root = Path::new(env!("CARGO_MANIFEST_DIR")).join("..");
    let page = fs::read_to_string(root.join("docs/LANGUAGE.md")).unwrap();
    for picture in page.split("](").skip(1) {
        let name = picture.split(')').next().unwrap();
        if name.ends_with(".png") || name.ends_with(".svg") {
            let length = fs::metadata(root.join("docs").join(name)).unwrap().len();
            assert!((1..100_000).contains(&length), "{name}: {length}");
        }
    }
}
