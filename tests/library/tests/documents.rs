//! Every listing of the README, of docs/RULES.md, docs/LANGUAGE.md and docs/LAYOUTS.md, checked by the programs and the
//! library, and the pictures. How listings are marked stands at the end of docs/RULES.md.

use std::collections::BTreeMap;
use std::path::{Path, PathBuf};
use std::process::Command;

use library::files::earlier;
use library::followed::Followed;
use library::inputs::{answer, in_words};
use library::layouts;
use library::listings::{listings, stream, Listing};
use library::printed::printed_whole;
use library::program::written;
use library::stepping::Frame;
use reader::equal_to;

/// Listings that are no input of Wizbratel; and `said` and `show`, which are checked beside the Rust crate and the command.
const OTHERS: [&str; 10] = [
    "c", "cpp", "console", "dot", "rust", "said", "sh", "show", "text", "toml",
];

/// A listing without a number has not more stacks than this.
const MOST: usize = 100;

/// How many listings there are of each kind.
type Counts = BTreeMap<String, usize>;

fn root() -> PathBuf {
    Path::new(env!("CARGO_MANIFEST_DIR")).join("../..")
}

fn document(name: &str) -> String {
    std::fs::read_to_string(root().join(name)).expect("a document")
}

fn same<T: PartialEq + std::fmt::Debug>(got: T, wanted: T) -> Result<(), String> {
    if got == wanted {
        Ok(())
    } else {
        Err(format!("{got:?}, and not {wanted:?}"))
    }
}

fn number(word: &str) -> Result<usize, String> {
    word.parse().map_err(|_| format!("no number: {word}"))
}

fn followed(sheet: &str) -> Result<Followed, String> {
    Followed::of(sheet.as_bytes()).map_err(in_words)
}

/// A sheet is answered so by the program and by the library.
fn sheet_is(sheet: &str, wanted: &str) -> Result<(), String> {
    let words = in_words(library::check_sheet(sheet.as_bytes()));
    same(words.as_str(), wanted)?;
    same(
        written("check_sheet", sheet.as_bytes()),
        format!("{wanted}\n"),
    )
}

/// Each line is a number and a sheet that is refused so, or accepted where it is 0.
fn cases_are(lines: &str) -> Result<(), String> {
    for line in lines.lines() {
        let (number, sheet) = line.split_once(' ').unwrap_or((line, ""));
        let number = number.parse().map_err(|_| format!("no number: {line}"))?;
        let wrong = |wrong| format!("{line}: {wrong}");
        sheet_is(sheet, &in_words(number)).map_err(wrong)?;
    }
    Ok(())
}

/// The file of the sheet's table in the earlier layout.
fn earlier_file(sheet: &str) -> Result<Vec<u8>, String> {
    Ok(earlier(&followed(sheet)?.file))
}

/// The stream bytes of the file are these, and then zeros.
fn stream_is(file: &[u8], shown: &[u8]) -> Result<(), String> {
    let mut bytes: Vec<u8> = file
        .chunks(512)
        .flat_map(|block| block[4..510].to_vec())
        .collect();
    let rest = bytes.split_off(shown.len());
    same(&bytes[..], shown)?;
    same(rest.iter().any(|&byte| byte != 0), false)
}

/// The file is printed so; the listing's line feeds are left out.
fn printed_is(file: &[u8], shown: &str) -> Result<(), String> {
    let text = printed_whole(file).map_err(in_words)?;
    same(text, shown.replace('\n', ""))
}

/// The starts of two sheets, an empty line between them, are equal to so many steps, or are not.
fn equal_is(sheets: &str, n: &str, wanted: bool) -> Result<(), String> {
    let (left, right) = sheets.split_once("\n\n").ok_or("one sheet")?;
    let (left, right) = (followed(left)?, followed(right)?);
    let starts = (left.start(), right.start());
    let equal = equal_to(number(n)?, (&left, &starts.0), (&right, &starts.1));
    same((n, equal), (n, wanted))
}

/// Checks one listing, behind this sheet.
fn check(listing: &Listing, sheet: Option<&str>) -> Result<(), String> {
    let text = listing.text.as_str();
    let before = || sheet.ok_or("no sheet before it");
    let words: Vec<&str> = listing.words.split(' ').collect();
    match words[..] {
        ["pcrl", "accepted"] => sheet_is(text, "accepted"),
        ["pcrl", "refused", n] => sheet_is(text, &format!("refused {n}")),
        ["cases"] => cases_are(text),
        ["pcrl", "equal", n] => equal_is(text, n, true),
        ["pcrl", "equal", n, "not", m] => {
            equal_is(text, n, true).and_then(|()| equal_is(text, m, false))
        }
        ["walk"] => same(written("walk", before()?.as_bytes()).as_str(), text),
        ["stream"] => stream_is(&followed(before()?)?.file, &stream(text)),
        ["stream", "places"] => stream_is(&followed(before()?)?.file, &layouts::placed(text)?),
        ["stream", "earlier"] => stream_is(&earlier_file(before()?)?, &stream(text)),
        ["printed"] => printed_is(&followed(before()?)?.file, text),
        ["printed", "earlier"] => printed_is(&earlier_file(before()?)?, text),
        ["numbers", file] => layouts::numbers_are(file, text),
        ["cells", "tokens"] => layouts::tokens_are(before()?, text),
        ["cells", "raw"] => layouts::raw_is(before()?, text),
        ["cells", "terms"] => layouts::terms_are(before()?, text),
        ["rows"] => layouts::rows_are(before()?, text),
        ["index"] => layouts::index_is(before()?, text),
        ["file", length] => layouts::file_is(before()?, length, text),
        ["frames", ref ks @ ..] => layouts::frames_are(before()?, ks, text),
        ["answers", ref ks @ ..] => layouts::answers_are(before()?, ks, text),
        ["steps"] => {
            let followed = followed(before()?)?;
            same(followed.reached(MOST).as_str(), text)?;
            same(followed.reached(MOST + 1).as_str(), text)
        }
        ["steps", n] => same(followed(before()?)?.reached(number(n)?).as_str(), text),
        ["input", ..] => same(format!("input {}", answer(text)?), listing.words.clone()),
        [other, ..] if OTHERS.contains(&other) => Ok(()),
        _ => Err("words that mark no listing".to_string()),
    }
}

/// Checks all listings of a document; how many there are of each kind.
fn check_all(document: &str) -> Result<Counts, String> {
    let mut counts = Counts::new();
    let mut sheet: Option<String> = None;
    for listing in listings(document)? {
        let place = |wrong| format!("line {}, {}: {wrong}", listing.line, listing.words);
        check(&listing, sheet.as_deref()).map_err(place)?;
        let kind = listing.words.split(' ').next().unwrap_or_default();
        if ["pcrl accepted", "pcrl refused"]
            .iter()
            .any(|words| listing.words.starts_with(words))
        {
            sheet = Some(listing.text.clone());
        }
        *counts.entry(kind.to_string()).or_default() += 1;
    }
    Ok(counts)
}

#[test]
fn every_listing() {
    for (name, kinds) in [
        ("README.md", &["pcrl", "stream", "walk"][..]),
        (
            "docs/RULES.md",
            &["cases", "input", "pcrl", "printed", "stream", "walk"],
        ),
        ("docs/LANGUAGE.md", &["pcrl", "printed", "steps", "walk"]),
        (
            "docs/LAYOUTS.md",
            &[
                "answers", "cells", "file", "frames", "index", "numbers", "pcrl", "rows", "stream",
                "text",
            ],
        ),
    ] {
        let counts = check_all(&document(name)).unwrap_or_else(|wrong| panic!("{name}, {wrong}"));
        println!("{name}: {counts:?}");
        for &kind in kinds {
            assert!(counts.contains_key(kind), "{name} has no {kind}");
        }
    }
}

/// Under the heading of each question there is an input that fails it.
#[test]
fn every_question_has_an_input_that_fails_it() {
    let found = listings(&document("docs/RULES.md")).expect("listings");
    for question in 1..=17 {
        let fails = |listing: &&Listing| {
            listing.heading == format!("### Question {question}")
                && listing.words.ends_with(&format!(" refused {question}"))
        };
        assert!(found.iter().any(|listing| fails(&listing)), "{question}");
    }
}

/// The tokens of the sheet below, in cells, and its raw tree.
const TOKENS: &str = "```cells tokens
0  162 1028 59 162 1034 59         act a ; act b ;
6  163 1041 61 1043 46 1045 59     proc X = a . b ;
13  164 1052 59                    init X ;
```
";
const RAW: &str = "```cells raw
0  22 1028 18 22 1034 18           act a end act b end
6  23 1041 18 6 8                  proc X end only plain
11  11 14 1043 10 14 1045          then bare a last bare b
17  24 14 1052                     init bare X
```
";

/// A wrong listing is found, and so is one that is not marked rightly.
#[test]
fn wrong_listings_are_found() {
    let sheet = "```pcrl accepted\nact a;act b;proc X=a.b;init X;\n```\n";
    let right = [
        "```walk\n1 a 1\n2 b 0\nended\n```\n",
        "```steps\n0 a 1\n1 b 2\n2 ended\n```\n",
        "```printed\nact a;act b;\nproc p0=a.p1;proc p1=b;init p0;\n```\n",
        "```frames 0\n01 00 00 00 00  b\n```\n",
        "```file 512\n0  00 00 01 00  block 0 of 1\n```\n",
        TOKENS,
        RAW,
        "```cells terms\n0  10 0 0\n3  36 0 0\n6  84 0 0\n9  8 0 0\n```\n",
        "```rows\nparts  6 0 0\nnames  1028 1034 1041  a, b, X\n```\n",
        "```index\nsorts  2\nsizes  2\nacts  10 13\nparams  17 18\nrows  19 25\nstart  30\n```\n",
        "```printed earlier\nact a;act b;proc p0=a.p1;proc p1=b;init p0;\n```\n",
        "```stream earlier\n01 02 00 02 01 61 00 01 62 00 02 00 00\n01 00 00 00 01 01 01 00 00 01 00\n```\n",
        "```answers 0 0\n02 01 00 00 00 01 61  a\n02 00 00 00 00 01 62  b\n```\n",
    ];
    for listing in right {
        assert!(check_all(&format!("{sheet}{listing}")).is_ok(), "{listing}");
        assert!(check_all(listing).is_err(), "{listing}");
    }
    for listing in [
        "```walk\n1 a 1\n2 b 0\nended\n",
        "```walk\n1 a 1\n2 b 0\nended\n\n```\n",
        "```walk\n1 a 1\n2 b 1\nended\n```\n",
        "```walks\n1 a 1\n2 b 0\nended\n```\n",
        "```\n1 a 1\n2 b 0\nended\n```\n",
        "```steps\n0 a 1\n1 b 2\n```\n",
        "```printed\nact a;act b;proc p0=a.p1;proc p1=b; init p0;\n```\n",
        "```printed\nact a;act b;proc X=a.b;init X;\n```\n",
        "```stream\n01 02 00 03\n```\n",
        "```stream earlier\nf2 01 02 04\n```\n",
        "```stream places\n0  f2 01\n3  04\n```\n",
        "```printed earlier\nact a;act b;proc X=a.b;init X;\n```\n",
        "```frames 0\n01 00 00 00 01\n```\n",
        "```frames 0 0\n01 00 00 00 00\n```\n",
        "```answers 0\n02 01 00 00 00 01 62\n```\n",
        "```answers 0\n02 01 00 00 00 01\n```\n",
        "```file 512\n2  02 00\n```\n",
        "```file 1024\n0  00 00 01 00\n```\n",
        "```cells tokens\n0  162 1028 59\n```\n",
        &TOKENS.replace("1028", "1029"),
        &TOKENS.replace("\n6", "\n7"),
        &RAW.replace("22 1034", "21 1034"),
        &RAW.replace("1045", "1044"),
        "```cells terms\n0  10 0 0\n3  36 0 0\n6  84 0 0\n```\n",
        "```cells terms\n0  10 0 0\n3  36 0 0\n6  68 0 0\n9  8 0 0\n```\n",
        "```rows\nparts  6 0 1\n```\n",
        "```rows\nacts  0 0 0\n```\n",
        "```rows\nfuncs  0\n```\n",
        "```index\nrows  19 24\n```\n",
        "```index\ncells  19 25\n```\n",
        "```numbers crates/parts/src/row.rt\nROW 4\n```\n",
        "```numbers crates/parts/src/row.rt\n```\n",
        "```pcrl refused 7\nact a;proc X=a;init X;\n```\n",
        "```pcrl refused 7\nproc X=X;init X;\n```\n",
        "```pcrl accepted\nproc X=a;init X;\n```\n",
        "```cases\n9 proc X=X;init X;\n0 proc X=X;init X;\n```\n",
        "```pcrl equal 2\nact a;proc X=a;init X;\n\nact a;proc X=a.a;init X;\n```\n",
        "```pcrl equal 0 not 1\nact a;proc X=a;init X;\n\nact a;proc X=a+a;init X;\n```\n",
        "```input refused 13\nsheet act a;proc X=a;init X;\nlength 100\n```\n",
        "```input refused 13\nsheet act a;proc X=a;init X;\nwide 100\n```\n",
        "```input accepted\nstream f2 01 02 04 42 6f 6f\n```\n",
        "```input refused 14\nstream f2 01 02 0g\n```\n",
        "```input refused 11\nsheet act a;proc X=a;init X;\nprint 24\n```\n",
    ] {
        assert!(
            check_all(&format!("{sheet}{listing}")).is_err(),
            "{listing}"
        );
    }
}

/// What Graphviz drew of one kind, node or edge: its title and its text.
fn drawn(picture: &str, kind: &str) -> Vec<(String, String)> {
    let mark = format!("class=\"{kind}\">");
    let between = |text: &str, from: &str, to: &str| {
        let behind = text.split(from).nth(1).expect("a beginning");
        behind.split(to).next().expect("an end").to_string()
    };
    let each = picture.split(&mark).skip(1).map(|text| {
        let title = between(text, "<title>", "</title>").replace("&#45;&gt;", " ");
        (title, between(text, "14.00\">", "</text>"))
    });
    each.collect()
}

/// A frame of the charger as `graph` shows it.
fn shown(frame: &Frame) -> String {
    match frame.equation {
        0 => "Idle".to_string(),
        1 => format!("Charging({})", frame.values[0]),
        _ => "2:unplug".to_string(),
    }
}

/// The charger's picture has its reached stacks, the top first, and their steps.
#[test]
fn the_picture_of_the_charger() {
    let picture = document("docs/charger.svg");
    let charger = followed(&document("examples/charger.pcrl")).expect("a table");
    let stacks = charger.stacks(MOST).into_iter().enumerate();
    let wanted: Vec<_> = stacks
        .map(|(number, stack)| {
            let frames: Vec<String> = stack.iter().rev().map(shown).collect();
            (format!("s{number}"), frames.join(" . "))
        })
        .collect();
    let mut nodes = drawn(&picture, "node");
    nodes.sort();
    assert_eq!(nodes, wanted);
    let mut edges: Vec<String> = drawn(&picture, "edge")
        .into_iter()
        .map(|(ends, label)| ends.replace('s', "").replace(' ', &format!(" {label} ")))
        .collect();
    let reached = charger.reached(MOST);
    let mut lines: Vec<&str> = reached.lines().collect();
    edges.sort();
    lines.sort();
    assert_eq!(edges, lines);
}

/// The picture of the layers is the one that tools/pictures draws, of the crates of crates.txt.
#[test]
fn the_layers_are_drawn_by_the_tool() {
    let tool = root().join("tools/pictures");
    let status = Command::new(tool).arg("--check").status();
    assert!(status.expect("python3").success());
}
