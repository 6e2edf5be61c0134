//! The names of a sheet beside its table: as many of everything as the table has, and these are the sheet's.

#[path = "../../../tests/reader/tests/common/mod.rs"]
mod common;

use common::{generate, vectors};
use wizbratel::{SheetNames, Table};

/// Names are there exactly where a sheet is accepted, and fit the table that the reader makes of it.
fn fits(sheet: &[u8]) -> bool {
    let text = String::from_utf8_lossy(sheet);
    let (names, file) = (SheetNames::of(sheet), reader::make_table(sheet));
    let (Some(names), Ok(file)) = (&names, &file) else {
        assert!(names.is_none() && file.is_err(), "{names:?}\n{text}");
        return false;
    };
    let table = reader::read_table(file).unwrap();
    assert_eq!(names.functions().len(), table.signature.functions.len());
    assert_eq!(names.equations().len(), table.equations.len(), "{text}");
    for (names, equation) in names.equations().iter().zip(&table.equations) {
        assert_eq!(names.parameters.len(), equation.parameters.len(), "{text}");
        let sums: Vec<usize> = names.sums.iter().map(Vec::len).collect();
        let summands = equation.summands.iter();
        let wanted: Vec<usize> = summands.map(|summand| summand.variables.len()).collect();
        assert_eq!(sums, wanted, "{text}");
        for sums in &names.sums {
            let mut all = [&names.parameters[..], sums].concat();
            all.sort();
            all.dedup();
            assert_eq!(all.len(), names.parameters.len() + sums.len(), "{text}");
        }
    }
    true
}

#[test]
fn every_sheet_of_the_vectors() {
    let cases = vectors::all("sheets");
    let accepted = cases.iter().filter(|case| fits(&case.bytes("sheet")));
    assert!(accepted.count() > 100);
}

#[test]
fn generated_sheets() {
    let mut accepted = 0;
    for seed in 0..2000 {
        for sheet in [
            generate::sheet(seed),
            generate::with_heads(seed),
            generate::with_names(seed),
        ] {
            accepted += u32::from(fits(sheet.as_bytes()));
        }
    }
    assert!(accepted > 1000, "{accepted}");
}

const HEADS: &[u8] = b"sort D 2; func low: D -> Bool = 1, 0; act a: D; act b: D # D;
proc X(d: D) = sum(e: D, Y(e).(b(d, e)
    + tau) <| low(d) |> delta);
proc Y(p: D) = sum(d: D, a(d).X(p) + a(p));
init X(0);";

#[test]
fn the_names_are_the_sheets() {
    let names = SheetNames::of(HEADS).unwrap();
    assert_eq!(names.functions(), ["low"]);
    let [x, y, part] = names.equations() else {
        panic!("{names:?}");
    };
    let processes = [x, y, part].map(|equation| equation.process.as_deref());
    assert_eq!(processes, [Some("X"), Some("Y"), None]);
    assert_eq!(part.text, "(b(d, e) + tau)");
    assert_eq!(x.parameters, ["d"]);
    assert_eq!(part.parameters, ["d", "e"]);
    // the variable d of Y's sum comes to stand beside X's parameter
    assert_eq!(x.sums, [["e", "d'"], ["e", "d'"]]);
    assert_eq!(y.sums, [["d"], ["d"]]);
    assert_eq!(part.sums, [[""; 0], []]);
}

#[test]
fn frames() {
    let names = SheetNames::of(HEADS).unwrap();
    let mut stack = Table::make(HEADS).unwrap().into_start();
    assert_eq!(names.frame(&stack.frames()[0]), "X(0)");
    let label = stack.take(3).unwrap().unwrap();
    let shown = |frame| names.frame(frame);
    let frames: Vec<String> = stack.frames().iter().map(shown).collect();
    assert_eq!(label.to_string(), "a(1)");
    assert_eq!(frames, ["2:(b(0, 1) + tau)", "X(1)"]);
    let part = ["a(d)"; 12].join(" + ");
    let long = format!("act a: Bool; proc X(d: Bool) = a(d).({part}); init X(1);");
    let names = SheetNames::of(long.as_bytes()).unwrap();
    let mut stack = long.parse::<Table>().unwrap().into_start();
    stack.take(0).unwrap();
    assert_eq!(names.frame(&stack.frames()[0]), "1(1)");
    let mut other = stack.frames()[0];
    other.equation = 9;
    assert_eq!(names.frame(&other), "9");
}
