//! `show`: examples whole, of sheets and of tables; a table and its printed sheet beside each other.

use std::fs;

use crate::common::{closed, example, fed, run, run_into, vectors, Folder, CIRCLE};

const CHARGER: &str = "\
equation 0  Idle                                 plug       calls Charging(0)
equation 1  Charging(l: Level)  if full(l) is 1  ready      calls 2, then Idle
                                if full(l) is 0  charge(l)  calls Charging(up(l))
                                                 unplug     calls Idle
equation 2  unplug                               unplug     no call
start       Idle
";

const CHARGER_TABLE: &str = "\
equation 0                               plug        calls 1(0)
equation 1  (v0: Level)  if f1(v0) is 1  ready       calls 2, then 0
                         if f1(v0) is 0  charge(v0)  calls 1(f0(v0))
                                         unplug      calls 0
equation 2                               unplug      no call
start       0
";

#[test]
fn the_charger() {
    let folder = Folder::new();
    let sheet = fs::read(example("charger.pcrl")).unwrap();
    run(&["show", &example("charger.pcrl")]).prints(CHARGER);
    fed(&["show", "-"], &sheet).prints(CHARGER);
    let made = reader::make_table(&sheet).unwrap();
    fed(&["show", "--table", "-"], &made).prints(CHARGER_TABLE);
    let table = folder.file("charger.table", &made).display().to_string();
    run(&["show", &table]).prints(CHARGER_TABLE);
    let earlier = reader::encode_file(&reader::read_table(&made).unwrap().older());
    let table = folder.file("earlier.table", earlier).display().to_string();
    let wanted = CHARGER_TABLE
        .replace("Level) ", "s1) ")
        .replace('\n', "\n   ");
    let words = |text: &str| {
        text.split_whitespace()
            .map(str::to_string)
            .collect::<Vec<_>>()
    };
    assert_eq!(words(run(&["show", &table]).text()), words(&wanted));
}

#[test]
fn sums_operators_parts_and_names_that_come_again() {
    let sheet = "sort D 2;act a:D;act b:D#D;act v;
proc X(d:D,c:Bool)=sum(e:D,Y(e).(b(d,e)+tau)<|!(d==e)/\\c|>delta)+v.delta;
proc Y(p:D)=sum(d:D,a(d).X(p,p==1\\/d==1)+a(p));
init X(0,1);";
    let wanted = "\
equation 0  X(d: D, c: Bool)                sum e: D, d': D  if !(d == e) /\\ c is 1  a(d')   calls X(e,e == 1 \\/ d' == 1), then 2(d,e)
                                            sum e: D, d': D  if !(d == e) /\\ c is 1  a(e)    calls 2(d,e)
                                                                                     v       calls 3
equation 1  Y(p: D)                         sum d: D                                 a(d)    calls X(p,p == 1 \\/ d == 1)
                                            sum d: D                                 a(p)    no call
equation 2  (b(d,e)+tau) with d: D, e: D                                             b(d,e)  no call
                                                                                     tau     no call
equation 3  delta                                                                    no summand
start       X(0,1)
";
    let ran = fed(&["show", "-"], sheet.as_bytes());
    let words = |text: &str| {
        text.split_whitespace()
            .map(str::to_string)
            .collect::<Vec<_>>()
    };
    assert_eq!(words(ran.text()), words(wanted), "{}", ran.text());
    // a long title has a line of its own
    let ran = run(&["show", &example("processor.pcrl")]);
    let title = "\nequation 2  (pass(m) <| good(m) |> fail(m).reset) with m: Map\n    ";
    assert!(ran.text().contains(title), "{}", ran.text());
}

/// The words of what is shown of a printed sheet, with the numbers of equations in place of its processes' names.
fn without_names(shown: &str, printed: &str) -> Vec<String> {
    let (_, behind) = printed.split_once("proc ").unwrap();
    let letters = behind.split('0').next().unwrap();
    let lines = shown.lines().flat_map(|line| {
        let words = line.split_whitespace().map(|word| {
            match word.strip_prefix(letters) {
                Some(rest) if rest.starts_with(|letter: char| letter.is_ascii_digit()) => rest,
                _ => word,
            }
            .to_string()
        });
        let mut words: Vec<String> = words.collect();
        if words[0] == "equation" {
            let behind = words[2].strip_prefix(&words[1]).unwrap().to_string();
            match behind.is_empty() {
                true => drop(words.remove(2)),
                false => words[2] = behind,
            }
        }
        words
    });
    lines.collect()
}

/// All equations of a printed sheet are processes, and its variables are named as the table's are.
#[test]
fn a_table_and_its_text() {
    let mut texts = 0;
    for case in vectors::all("prints") {
        let file = case.bytes("file");
        let Ok(text) = vectors::printed(&case) else {
            continue;
        };
        texts += 1;
        let table = fed(&["show", "--table", "-"], &file);
        let sheet = fed(&["show", "-"], text.as_bytes());
        assert_eq!((table.status, sheet.status), (0, 0), "{text}");
        let words: Vec<&str> = table.text().split_whitespace().collect();
        assert_eq!(without_names(sheet.text(), &text), words, "{text}");
    }
    assert!(texts > 100);
}

#[test]
fn refused_misuse_and_nobody_reads() {
    fed(&["show", "-"], CIRCLE.as_bytes()).fails(1, &["question 9:"]);
    fed(&["show", "--table", "-"], b"").fails(1, &["question 12:"]);
    run(&["show"]).fails(2, &["SHEET or TABLE is missing"]);
    run(&["show", "a", "b"]).fails(2, &["only one"]);
    run(&["show", "missing.pcrl"]).fails(2, &["No such file"]);
    let ran = run_into(&["show", &example("charger.pcrl")], closed());
    assert_eq!((ran.status, &ran.err[..]), (0, ""));
}
