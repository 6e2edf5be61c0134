//! The reader of places beside the library: it comes to the same number for every sheet, and its places lie in the sheet.

#[path = "../../../tests/reader/tests/common/mod.rs"]
mod common;
#[path = "../../../tests/library/src/listings.rs"]
#[allow(dead_code)]
mod listings;

use std::path::Path;
use std::time::Duration;

use common::random::Random;
use common::{boundaries, generate, mutate, operators, slow, table_limits, vectors, within, worst};
use listings::listings;
use wizbratel::{check, Diagnostic};

/// So many generated and damaged sheets, unless the variable of this name says otherwise.
const SHEETS: u64 = 20_000;
const VARIABLE: &str = "WIZBRATEL_SHEETS";

/// Both come to the same number, which is 0 where a sheet is accepted; and what is said has a place.
fn same(sheet: &[u8]) -> usize {
    let text = String::from_utf8_lossy(sheet);
    let wanted = check(sheet).err().map(|refused| refused.number());
    let found = Diagnostic::by_places_alone(sheet);
    let question = found.as_ref().map(Diagnostic::question);
    assert_eq!(question, wanted, "{found:?}\n{text}");
    assert_eq!(Diagnostic::of(sheet), found, "{text}");
    if let Some(found) = found {
        in_the_sheet(sheet, &found);
    }
    wanted.unwrap_or(0).into()
}

/// The place lies in the sheet, line and column are those of its first byte, and the words are some.
fn in_the_sheet(sheet: &[u8], found: &Diagnostic) {
    let text = String::from_utf8_lossy(sheet);
    let span = found.span();
    assert!(
        span.start <= span.end && span.end <= sheet.len(),
        "{found:?}\n{text}"
    );
    let lines: Vec<&[u8]> = sheet.split(|byte| *byte == b'\n').collect();
    let before: usize = lines[..found.line() - 1]
        .iter()
        .map(|line| line.len() + 1)
        .sum();
    assert_eq!(before + found.column() - 1, span.start, "{found:?}\n{text}");
    assert!(
        found.column() <= lines[found.line() - 1].len() + 1,
        "{found:?}\n{text}"
    );
    for (line, column, _) in found.notes() {
        assert!(column <= lines[line - 1].len() + 1, "{found:?}\n{text}");
    }
    assert!(found.end() >= (found.line(), found.column()));
    assert!(!found.message().is_empty() && !found.message().contains('\n'));
    let shown = found.to_string();
    assert!(shown.starts_with(&format!("refused by question {}: ", found.question())));
    assert!(shown.lines().count() >= 5, "{shown}");
}

#[test]
fn every_sheet_of_the_vectors() {
    let mut seen = [0; 11];
    for case in vectors::all("sheets") {
        seen[same(&case.bytes("sheet"))] += 1;
    }
    assert!(seen.iter().all(|&count| count > 5), "{seen:?}");
}

/// The sheets of the documents' listings; and what is said of a refused one is what stands behind it.
#[test]
fn every_listing_of_the_documents() {
    let root = Path::new(env!("CARGO_MANIFEST_DIR")).join("../..");
    let (mut sheets, mut said) = (0, 0);
    for name in [
        "README.md",
        "docs/RULES.md",
        "docs/LANGUAGE.md",
        "docs/LAYOUTS.md",
    ] {
        let document = std::fs::read_to_string(root.join(name)).expect(name);
        let mut last = String::new();
        for listing in listings(&document).expect(name) {
            let texts: Vec<&str> = match listing.words.split(' ').next().unwrap_or_default() {
                "pcrl" => listing.text.split("\n\n").collect(),
                "cases" => listing
                    .text
                    .lines()
                    .map(|line| line.split_once(' ').unwrap_or_default().1)
                    .collect(),
                "said" => {
                    let found = Diagnostic::of(last.as_bytes()).expect("a refused sheet");
                    assert_eq!(
                        format!("{found}\n"),
                        listing.text,
                        "{name}, line {}",
                        listing.line
                    );
                    said += 1;
                    vec![]
                }
                _ => vec![],
            };
            for text in &texts {
                same(text.as_bytes());
            }
            sheets += texts.len();
            if listing.words.starts_with("pcrl") {
                last = listing.text;
            }
        }
    }
    assert!(sheets > 150 && said > 2, "{sheets} {said}");
}

/// The longest way down to a head: as many calls at the head as there are processes, each in 16 brackets.
fn deepest() -> String {
    let body = |call: &str| format!("{}{call}{}", "(".repeat(16), "+delta)".repeat(16));
    let processes = (0..16).map(|number| match number {
        15 => format!("proc P15={};", body("a.P0.P0.P0.P0.P0.P0.P0.P0.P0")),
        _ => format!("proc P{number}={};", body(&format!("P{}", number + 1))),
    });
    format!("act a;{}init P0;", processes.collect::<String>())
}

/// The sheets at each limit, and those that a reader takes long for, on a stack of 1 MiB.
#[test]
fn every_limit_and_the_worst() {
    let at_limits = [
        boundaries::sheets(),
        table_limits::sheets(),
        operators::sheets(),
    ]
    .concat();
    let worst = [operators::deep(), worst::sheets(), slow::sheets()].concat();
    let deepest = common::Case::new("the deepest", deepest(), 10);
    for case in at_limits.into_iter().chain(worst).chain([deepest]) {
        let (what, wanted) = (case.what.clone(), case.wanted);
        let found = within(Duration::from_secs(2), move || same(&case.sheet));
        assert_eq!(found, usize::from(wanted), "{what}");
    }
}

/// A sheet of many summands with eight conditions of eight `==` each, and names of actions that are longer by so many
/// bytes together, at most 320.
fn compared(bytes: usize) -> String {
    let action = |number: usize| {
        let longer = bytes.saturating_sub(10 * number).min(10);
        format!("act a{number}{};", "x".repeat(longer))
    };
    let test = ["d==e"; 8].join("/\\");
    let tests = format!("<|{test}|>delta)").repeat(8);
    let (actions, calls) = (common::numbered(32, action), ["Y"; 197].join("+"));
    let brackets = "(".repeat(8);
    format!(
        "sort D 2;{actions}proc X={calls};proc Y=sum(d:D,sum(e:D,{brackets}tau{tests}));init X;"
    )
}

/// The bytes of a table are counted exactly, operators too: the longest passes, and one byte more does not.
#[test]
fn the_longest_table_with_operators() {
    let stream = common::stream(&compared(0)).len();
    let left = reader::limits::STREAM_BYTES - stream;
    assert!(left < 320, "{left}");
    let [longest, longer] = [left, left + 1].map(compared);
    assert_eq!(common::stream(&longest).len(), reader::limits::STREAM_BYTES);
    assert_eq!([same(longest.as_bytes()), same(longer.as_bytes())], [0, 10]);
}

/// A generated sheet of one of several kinds.
fn generated(seed: u64) -> String {
    match seed % 6 {
        0 => generate::sheet(seed),
        1 => generate::with_heads(seed),
        2 => generate::with_circles(seed),
        3 => generate::with_operators(seed),
        4 => generate::with_heads_and_operators(seed),
        _ => generate::with_names(seed),
    }
}

#[test]
fn generated_and_damaged_sheets() {
    let sheets = std::env::var(VARIABLE).map_or(SHEETS, |number| number.parse().expect(VARIABLE));
    let mut random = Random::new(26);
    let mut seen = [0; 11];
    for seed in 0..sheets / 5 {
        let sheet = generated(seed);
        let changed = [(); 2].map(|()| mutate::changed(&mut random, &sheet));
        let [one, other] = [mutate::mutant, mutate::operator_mutant];
        let damaged = [
            one(&mut random, sheet.as_bytes()),
            other(&mut random, sheet.as_bytes()),
        ];
        seen[same(sheet.as_bytes())] += 1;
        changed
            .iter()
            .chain(&damaged)
            .for_each(|sheet| seen[same(sheet)] += 1);
    }
    println!("answers 0 to 10: {seen:?}");
    assert!(seen.iter().all(|&count| count > sheets / 200), "{seen:?}");
}

/// A line of `told.txt` as bytes: `\n`, `\xHH` and `\\` stand for what cannot stand there.
fn unescaped(line: &str) -> Vec<u8> {
    let mut bytes = Vec::new();
    let mut rest = line.bytes();
    while let Some(byte) = rest.next() {
        let kind = if byte == b'\\' { rest.next() } else { None };
        bytes.push(match kind {
            None => byte,
            Some(b'n') => b'\n',
            Some(b'x') => {
                let digits =
                    [rest.next(), rest.next()].map(|digit| char::from(digit.expect("a digit")));
                u8::from_str_radix(&String::from_iter(digits), 16).expect("hex digits")
            }
            Some(other) => other,
        });
    }
    bytes
}

/// Wrong sheets as people write them: the number, the place, the words and the help of each.
#[test]
fn what_is_told() {
    let cases: Vec<&str> = include_str!("told.txt").split("\n\n").collect();
    for case in &cases {
        let lines: Vec<&str> = case.lines().collect();
        let [sheet, wanted, help] = lines[..] else {
            panic!("{case}");
        };
        let sheet = unescaped(sheet);
        same(&sheet);
        let found = Diagnostic::of(&sheet).expect(case);
        let (question, line, column) = (found.question(), found.line(), found.column());
        assert_eq!(
            format!("{question} {line}:{column} {}", found.message()),
            wanted,
            "{case}"
        );
        let told = found
            .help()
            .map_or("no help".to_string(), |help| format!("help: {help}"));
        assert_eq!(told, help, "{case}");
    }
    assert!(cases.len() > 120, "{}", cases.len());
}

/// Several places, by lines; a piece of a long line; a place at its end; colours.
#[test]
fn how_it_is_shown() {
    let shown = |sheet: &str| Diagnostic::of(sheet.as_bytes()).expect(sheet).to_string();
    let circle = "act a;\n\nproc Y=a+X;\nproc X=Y.a;\ninit X;";
    assert_eq!(
        shown(circle),
        "\
refused by question 9: processes call each other in a circle before any action: Y -> X -> Y
 --> line 3, column 10
  |
3 | proc Y=a+X;
  |          ^ `Y` begins with `X`
4 | proc X=Y.a;
  |        - `X` begins with `Y`
  |
  = help: put an action, or `tau`, before one of these calls"
    );
    let long = format!("act a;proc X=a{0}.b{0};init X;", ".a".repeat(99));
    let piece = format!("  | {}^ not declared", " ".repeat(2 + 49));
    assert!(shown(&long).contains(&piece), "{}", shown(&long));
    assert!(shown(&long).lines().all(|line| line.len() < 120));
    let end = "act a;\nproc X=a;\ninit X";
    assert!(shown(end).contains("\n3 | init X\n  |       ^ before the end of the sheet"));
    let found = Diagnostic::of(circle.as_bytes()).expect("a circle");
    let plain = found.shown("x.pcrl", false).to_string();
    assert!(plain.contains("\n --> x.pcrl:3:10\n") && !plain.contains('\x1b'));
    let colored = found.shown("x.pcrl", true).to_string();
    let mut without = colored.clone();
    for code in ["\x1b[0m", "\x1b[1m", "\x1b[1;31m", "\x1b[1;34m"] {
        assert!(without.contains(code), "{without}");
        without = without.replace(code, "");
    }
    assert_eq!(without, plain);
}
