//! `graph --html`: a page that stands alone, with Graphviz's layout and without, and where it may be written.

use std::ffi::OsStr;
use std::fs;
use std::os::unix::fs::{symlink, PermissionsExt};
use std::path::Path;
use std::process::{Command, Stdio};

use crate::common::{closed, example, fed, run, run_into, Folder, LOOP, WIZBRATEL};

/// The page of a sheet, with programs from this folder alone.
fn page(sheet: &str, words: &[&str], programs: impl AsRef<OsStr>) -> String {
    let folder = Folder::new();
    folder.file("x.pcrl", sheet);
    let mut command = Command::new(WIZBRATEL);
    command
        .args(["graph", "x.pcrl", "--html", "x.html"])
        .args(words);
    command.current_dir(folder.path("")).env("PATH", programs);
    let output = command.stdin(Stdio::null()).output().unwrap();
    assert!(output.status.success(), "{output:?}");
    assert!(output.stdout.is_empty());
    fs::read_to_string(folder.path("x.html")).unwrap()
}

fn charger() -> String {
    fs::read_to_string(example("charger.pcrl")).unwrap()
}

fn count(page: &str, text: &str) -> usize {
    page.matches(text).count()
}

/// What no page needs: another file, or a network.
fn stands_alone(page: &str) {
    for word in [
        "http",
        "://",
        "src=",
        "href",
        "import",
        "fetch",
        "@font-face",
    ] {
        assert!(!page.contains(word), "{word}");
    }
    let urls = page.split("url(").skip(1);
    assert!(urls.clone().count() > 0);
    urls.for_each(|url| assert!(url.starts_with('#'), "{url}"));
    assert!(page.starts_with("<!DOCTYPE html>\n"));
    assert!(page.ends_with("</html>\n"));
    for one in [
        "<svg ",
        "</svg>",
        "<script>",
        "</script>",
        "<style>",
        "</style>",
    ] {
        assert_eq!(count(page, one), 1, "{one}");
    }
}

#[test]
fn the_charger() {
    let page = page(&charger(), &[], "");
    stands_alone(&page);
    assert!(page.contains("<title>x.pcrl</title>") && page.contains("<p>stacks 6, steps 10</p>"));
    assert_eq!(count(&page, "<g class=\"stack"), 6);
    assert_eq!(count(&page, "data-k="), 10);
    let step = "data-from=\"1\" data-to=\"2\" data-k=\"0\" data-mark=\"\">charge(0)</text>";
    assert!(page.contains(step), "{page}");
    assert!(page.contains("<title>2:unplug\nIdle</title>"), "{page}");
    assert!(page.contains(">2:unplug . Idle</text>"), "{page}");
}

#[test]
fn marks_many_steps_long_stacks_and_signs_of_html() {
    let deep = page("act a;proc X=a.X.X;init X;", &[], "");
    stands_alone(&deep);
    assert_eq!(count(&deep, "<g class=\"stack"), 64);
    assert_eq!(
        count(&deep, "<g class=\"mark\"><title>refused 16</title>"),
        1
    );
    assert!(deep.contains("data-to=\"\" data-k=\"0\" data-mark=\"refused 16\""));
    assert!(
        deep.contains("X . X . ..</text>") || deep.contains("X ...</text>"),
        "{deep}"
    );
    let many = "sort D 16;act a:D#D;proc X=sum(d:D,sum(e:D,a(d,e).X));init X;";
    let many = page(many, &["--sorts"], "");
    assert_eq!(count(&many, "<g class=\"arrow\">"), 1);
    assert_eq!(count(&many, "data-k="), 256);
    assert_eq!(count(&many, "class=\"unseen\""), 251);
    assert!(many.contains(">a(D:15,D:15)</text>"));
    let cut = page("act a;act b;proc X=a.X.X+b.X.X;init X;", &["--limit=2"], "");
    assert_eq!(count(&cut, "<g class=\"mark\"><title>cut</title>"), 1);
    let signs = "act a:Bool;proc X=a(0).(a(1)<|1/\\1|>tau);init X;";
    let signs = page(signs, &[], "");
    assert!(
        signs.contains("<title>1:(a(1)&lt;|1/\\1|&gt;tau)</title>"),
        "{signs}"
    );
    assert!(page("act a;proc X=a;init X;", &[], "").contains("<g class=\"stack ended\">"));
}

/// A program `dot` in a folder of its own.
fn with_dot(script: &str) -> Folder {
    let folder = Folder::new();
    let dot = folder.file("dot", format!("#!/bin/sh\n{script}\n"));
    fs::set_permissions(dot, fs::Permissions::from_mode(0o755)).unwrap();
    folder
}

#[test]
fn without_graphviz_or_with_a_wrong_one() {
    let plain = page(&charger(), &[], "");
    for wrong in [
        "exit 1",
        "echo graph 1 2 3",
        "echo node 0 x y",
        "exec >&-; exec <&-; exit 0",
        "printf '\\377'",
    ] {
        let dot = with_dot(wrong);
        assert!(page(&charger(), &[], dot.path("")) == plain, "{wrong}");
    }
    let edge = "edge 0 0 4 0 0 0 1 1 1 1 0 0x 0.5 2 solid black";
    let one = format!("echo 'node 0 0.5 0.5 1 1'; echo '{edge}'");
    let dot = with_dot(&one);
    let page_of_one = page(LOOP, &[], dot.path(""));
    stands_alone(&page_of_one);
    assert!(page_of_one != page(LOOP, &[], ""));
    // nothing of a sheet reaches the program
    let asked = with_dot("/bin/cat >\"${0%/*}/asked\"");
    page(&charger(), &[], asked.path(""));
    let asked = fs::read_to_string(asked.path("asked")).unwrap();
    assert!(
        asked.starts_with("digraph{") && !asked.contains("plug"),
        "{asked}"
    );
}

#[test]
fn with_graphviz() {
    let path = std::env::var_os("PATH").unwrap_or_default();
    if !std::env::split_paths(&path).any(|folder| folder.join("dot").is_file()) {
        eprintln!("no Graphviz here");
        return;
    }
    let laid = page(&charger(), &[], &path);
    stands_alone(&laid);
    assert!(laid != page(&charger(), &[], ""));
    let boxes = |page: &str| (count(page, "<rect "), count(page, "data-k="));
    assert_eq!(boxes(&laid), (6, 10));
}

#[test]
fn where_it_is_written() {
    let folder = Folder::new();
    let sheet = folder.file("x.pcrl", LOOP).display().to_string();
    let html = folder.path("x.html").display().to_string();
    run(&["graph", &sheet, "--html", &html]).prints("");
    let page = fs::read(&html).unwrap();
    let standard = run(&["graph", &sheet, "--html", "-"]);
    assert_eq!((standard.status, &standard.out), (0, &page));
    // a link is replaced, not what it leads to, and nothing is left over
    let link = folder.path("link").display().to_string();
    symlink("x.pcrl2", &link).unwrap();
    folder.file("x.pcrl2", "kept");
    run(&["graph", &sheet, "--html", &link]).prints("");
    assert_eq!(fs::read(folder.path("x.pcrl2")).unwrap(), b"kept");
    assert!(fs::symlink_metadata(&link).unwrap().is_file());
    assert_eq!(fs::read_dir(folder.path("")).unwrap().count(), 4);
    // a refused sheet leaves the page that is there
    let circle = example("circle.pcrl");
    run(&["graph", &circle, "--html", &html]).fails(1, &["question 9"]);
    assert_eq!(fs::read(&html).unwrap(), page);
    let ran = run_into(&["graph", &sheet, "--html", "-"], closed());
    assert_eq!((ran.status, &ran.err[..]), (0, ""));
    run(&["graph", &sheet, "--html", "/nowhere/x"]).fails(2, &["/nowhere/x cannot be written"]);
    run(&["graph", &sheet, "--html"]).fails(2, &["--html needs a value behind it: FILE"]);
}

#[test]
fn never_over_the_sheet() {
    let folder = Folder::new();
    let sheet = folder.file("x.pcrl", LOOP);
    let other = folder.path("y");
    fs::hard_link(&sheet, &other).unwrap();
    let name = |path: &Path| path.display().to_string();
    for html in [&sheet, &other] {
        let ran = run(&["graph", &name(&sheet), "--html", &name(html)]);
        ran.fails(2, &["the page would go over"]);
        assert_eq!(fs::read(&sheet).unwrap(), LOOP.as_bytes());
    }
    let killed = format!(
        "ulimit -f 0; exec {WIZBRATEL} graph {0} --html {0}.html",
        name(&sheet)
    );
    folder.file("x.pcrl.html", "old");
    let output = Command::new("sh").args(["-c", &killed]).output().unwrap();
    assert_eq!(output.status.code(), None, "{output:?}");
    assert_eq!(fs::read(folder.path("x.pcrl.html")).unwrap(), b"old");
    let fed = fed(
        &["graph", "-", "--html", &name(&folder.path("z"))],
        LOOP.as_bytes(),
    );
    fed.prints("");
}
