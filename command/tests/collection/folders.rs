//! Several folders, shards of them, what is mentioned beside the sheets, and the exit status.

use super::cabinet::{good, Cabinet, COMMAND};
use std::collections::BTreeSet;
use std::fs;
use std::path::PathBuf;
use std::process::{Command, Output};

fn run(words: &[&str], folders: &[&PathBuf]) -> Output {
    let mut command = Command::new(COMMAND);
    command.args(words).args(folders).output().unwrap()
}

fn text(bytes: &[u8]) -> String {
    String::from_utf8(bytes.to_vec()).unwrap()
}

#[test]
fn two_cabinets() {
    let (one, two) = (Cabinet::new("two-1"), Cabinet::new("two-2"));
    one.put("a.pcrl", good(1));
    one.put("inner/b.pcrl", good(2));
    two.put("a.pcrl", good(3));
    let inner = one.path("inner");
    // one inside another, and twice the same: each sheet once
    let folders = [&inner, &one.folder, &two.folder, &one.folder];
    let ran = run(&["renew"], &folders);
    assert_eq!(ran.status.code(), Some(0), "{ran:?}");
    assert!(
        text(&ran.stdout).contains("sheets 3: right 0, made 3, "),
        "{ran:?}"
    );
    one.assert_right("a", &good(1));
    one.assert_right("inner/b", &good(2));
    two.assert_right("a", &good(3));
    let ran = run(&["audit"], &folders);
    assert_eq!((ran.status.code(), &ran.stderr[..]), (Some(0), &b""[..]));
    // one that is not there: the other is looked at all the same
    fs::remove_file(two.path("a.table")).unwrap();
    let ran = run(&["renew"], &[&one.path("none"), &two.folder]);
    assert_eq!(ran.status.code(), Some(2), "{ran:?}");
    two.assert_right("a", &good(3));
}

#[test]
fn a_folder_without_sheets() {
    let (one, two) = (Cabinet::new("some"), Cabinet::new("none"));
    one.put("a.pcrl", good(1));
    one.put("inner/b.txt", "");
    two.put("inner/B.PCRL", good(2));
    assert_eq!(one.renew().status, Some(0));
    let inner = one.path("inner");
    let ran = run(&["audit"], &[&one.folder, &inner, &two.folder]);
    assert_eq!(ran.status.code(), Some(1), "{ran:?}");
    let empty = |folder: &PathBuf| format!("{}: no sheet is found in it\n", folder.display());
    let large = "no sheet by its name: the ending is .pcrl in small letters";
    let large = format!("{}: {large}\n", two.path("inner/B.PCRL").display());
    let wanted = [empty(&two.folder), large, empty(&inner)];
    assert_eq!(text(&ran.stderr), wanted.concat());
    // a renew mentions them, and has nothing to do
    let ran = run(&["renew"], &[&one.folder, &inner, &two.folder]);
    assert_eq!(
        (ran.status.code(), text(&ran.stderr)),
        (Some(0), wanted.concat())
    );
    assert_eq!(two.names(), ["inner/B.PCRL"]);
}

#[test]
fn temporaries_are_mentioned() {
    let cabinet = Cabinet::new("mentioned");
    cabinet.put("a.pcrl", good(1));
    cabinet.renew();
    let name = ".wizbratel-00000001-0000000000000002-00000003.part";
    let left = cabinet.put(name, "half");
    let ran = cabinet.audit();
    let text = format!("{name}: left over by a command that was cut off; renew removes it");
    assert_eq!((ran.status, ran.faults), (Some(0), vec![text]));
    assert!(left.exists());
    let ran = cabinet.renew();
    assert_eq!(
        (ran.status, ran.done),
        (Some(0), vec![format!("{name}: left over, removed")])
    );
    assert!(!left.exists());
}

/// The shards of a collection are the whole, and each sheet, table, mark and temporary file is of one.
#[test]
fn shards_are_the_whole_each_once() {
    let cabinet = Cabinet::new("shards");
    for number in 0..60 {
        cabinet.put(format!("{}/{number}.pcrl", number % 7), good(number));
    }
    for number in 0..20 {
        cabinet.put(format!("bad{number}.pcrl"), "");
        cabinet.put(format!("stray{number}.table"), "");
        cabinet.put(format!("LARGE{number}.PCRL"), "");
        cabinet.put(
            format!(".wizbratel-{number:08x}-0000000000000002-00000003.part"),
            "",
        );
    }
    let lines = |task: &str, shard: &str| {
        let ran = Cabinet::run_with(&[task, "--shard", shard], &cabinet.folder);
        assert_eq!(ran.status, Some(1), "{ran:?}");
        let sheets = ran
            .counts
            .strip_prefix("sheets ")
            .unwrap()
            .split(':')
            .next();
        let sheets: usize = sheets.unwrap().parse().unwrap();
        (sheets, [ran.done, ran.faults].concat())
    };
    for task in ["audit", "renew"] {
        let whole = Cabinet::run_with(&["audit"], &cabinet.folder);
        let (mut sheets, mut union) = (0, BTreeSet::new());
        for part in 1..=5 {
            let (count, lines) = lines(task, &format!("{part}/5"));
            assert!(
                (4..40).contains(&count),
                "{count} of 80 sheets in one of 5 parts"
            );
            sheets += count;
            for line in lines {
                assert!(union.insert(line.clone()), "{line} twice");
            }
        }
        assert_eq!(sheets, 80, "{task}");
        if task == "audit" {
            assert_eq!(union, whole.faults.into_iter().collect());
        }
    }
    let ran = cabinet.audit();
    assert_eq!((ran.status, ran.faults.len()), (Some(1), 60), "{ran:?}");
    assert!(ran.counts.starts_with("sheets 80: right 60, "), "{ran:?}");
    // the parts do not hang on where the collection stands
    let elsewhere = Cabinet::new("shards-elsewhere");
    let inner = elsewhere.path("a/b");
    fs::create_dir_all(elsewhere.path("a")).unwrap();
    fs::rename(&cabinet.folder, &inner).unwrap();
    let there = Cabinet::run_with(&["audit", "--shard", "2/5"], &inner);
    fs::rename(&inner, &cabinet.folder).unwrap();
    let here = Cabinet::run_with(&["audit", "--shard", "2/5"], &cabinet.folder);
    assert_eq!((here.faults, here.counts), (there.faults, there.counts));
}

/// What concerns a whole folder, each shard says.
#[test]
fn faults_of_folders_are_said_by_every_shard() {
    let cabinet = Cabinet::new("shards-empty");
    for shard in ["1/2", "2/2"] {
        let ran = Cabinet::run_with(&["audit", "--shard", shard], &cabinet.folder);
        assert_eq!((ran.status, ran.faults.len()), (Some(1), 1), "{ran:?}");
        let none = cabinet.path("none");
        let ran = Cabinet::run_with(&["audit", "--shard", shard], &none);
        assert_eq!((ran.status, ran.faults.len()), (Some(2), 1), "{ran:?}");
    }
    cabinet.put("a.pcrl", good(1));
    cabinet.renew();
    for shard in ["1/2", "2/2"] {
        let ran = Cabinet::run_with(&["audit", "--shard", shard], &cabinet.folder);
        assert_eq!(
            ran.status,
            Some(0),
            "no sheet in a part is no fault: {ran:?}"
        );
    }
}

/// That nobody reads standard output changes nothing.
#[test]
fn nobody_reads() {
    let cabinet = Cabinet::new("nobody");
    cabinet.put("a.pcrl", good(1));
    let status = |task: &str| {
        let (reader, writer) = std::io::pipe().unwrap();
        drop(reader);
        let mut command = Command::new(COMMAND);
        command.arg(task).arg(&cabinet.folder).stdout(writer);
        let ran = command.output().unwrap();
        (ran.status.code(), text(&ran.stderr))
    };
    let missing = format!("{}: missing\n", cabinet.path("a.table").display());
    assert_eq!(status("audit"), (Some(1), missing));
    assert_eq!(status("renew"), (Some(0), String::new()));
    cabinet.assert_right("a", &good(1));
    assert_eq!(status("audit"), (Some(0), String::new()));
}

#[test]
fn quiet() {
    let cabinet = Cabinet::new("quiet");
    cabinet.put("a.pcrl", good(1));
    let ran = Cabinet::run_with(&["renew", "-q"], &cabinet.folder);
    assert_eq!((ran.status, ran.done.len()), (Some(0), 0), "{ran:?}");
    assert!(
        ran.counts.starts_with("sheets 1: right 0, made 1, "),
        "{ran:?}"
    );
    cabinet.assert_right("a", &good(1));
}
