//! Tables printed as sheets beside the reader, each text read back as its own file, with the names of sorts if it has
//! none: vectors, tables of generated sheets, generated tables that come from no sheet, tables of the earlier layout,
//! names of actions and sorts that press on the letters.

use library::common::random::Random;
use library::common::{generate, sort_sections, tables, vectors};
use library::files;
use library::made::made_whole;
use library::printed::{printed, same};
use library::printing::printings;
use reader::limits::{NAME_LENGTH, SHEET_BYTES};

/// So many sheets and as many tables of no sheet, unless the variable of this name says otherwise.
const TABLES: u64 = 50_000;
const VARIABLE: &str = "WIZBRATEL_PRINTED";

/// Answers by their numbers.
type Seen = [usize; 18];

/// How many tables of each kind are tried.
fn count() -> u64 {
    std::env::var(VARIABLE).map_or(TABLES, |number| number.parse().expect(VARIABLE))
}

/// Mostly room for every text; now and then for few bytes.
fn room(random: &mut Random) -> usize {
    match random.below(8) {
        0 => random.below(600),
        _ => SHEET_BYTES,
    }
}

#[test]
fn vectors_give_their_texts_or_refusals() {
    let cases = vectors::all("prints");
    assert_eq!(cases.len(), 210);
    for case in &cases {
        let (name, room) = (case.text("name"), vectors::room(case));
        let wanted = vectors::printed(case);
        assert_eq!(printed(&case.bytes("file"), room), wanted, "{name}");
        same(&case.bytes("file"), room, name);
    }
}

#[test]
fn tables_of_sheets() {
    let (mut random, mut seen): (_, Seen) = (Random::new(101), [0; 18]);
    for seed in 0..count() {
        let sheet = match seed % 4 {
            0 => generate::with_heads(seed),
            1 => generate::with_operators(seed),
            2 => generate::with_names(seed),
            _ => generate::sheet(seed),
        };
        if let Ok(file) = made_whole(sheet.as_bytes()) {
            seen[usize::from(same(&file, room(&mut random), &sheet))] += 1;
        }
    }
    println!("answers 0 to 17: {seen:?}");
    let least = count() as usize / 50;
    assert!([0, 11, 17].iter().all(|&number| seen[number] > least));
}

#[test]
fn tables_of_no_sheet() {
    let (mut random, mut seen): (_, Seen) = (Random::new(102), [0; 18]);
    for seed in 0..count() {
        let table = match seed % 3 {
            0 => tables::table(seed),
            1 => tables::older(seed),
            _ => tables::with_operators(seed),
        };
        let file = reader::encode_file(&table);
        let number = same(&file, room(&mut random), &format!("seed {seed}"));
        seen[usize::from(number)] += 1;
    }
    println!("answers 0 to 17: {seen:?}");
    let least = count() as usize / 50;
    assert!([0, 11, 17].iter().all(|&number| seen[number] > least));
}

#[test]
fn files_of_the_vectors_and_changed_ones() {
    let (mut random, mut seen): (_, Seen) = (Random::new(103), [0; 18]);
    let listed = vectors::all("tables");
    let mut all: Vec<Vec<u8>> = listed.iter().map(|case| case.bytes("file")).collect();
    for file in files::made() {
        all.extend((0..8).map(|_| files::slightly_changed(&mut random, &file)));
        all.push(file);
    }
    for file in &all {
        seen[usize::from(same(file, SHEET_BYTES, "a file"))] += 1;
    }
    println!("answers 0 to 17: {seen:?}");
    assert!([0, 12, 14, 17].iter().all(|&number| seen[number] > 50));
}

#[test]
fn sort_sections_damaged_and_right() {
    let mut seen: Seen = [0; 18];
    let streams = [sort_sections::damaged(), sort_sections::right()];
    for stream in streams.iter().flatten() {
        let file = reader::to_blocks(&stream.bytes);
        seen[usize::from(same(&file, SHEET_BYTES, &stream.what))] += 1;
    }
    // a sort with the action's name, names of the earlier layout that have 17 and 18 characters
    assert!(seen[0] > 20 && seen[17] >= 3, "{seen:?}");
}

/// A sheet with this action, and as many sorts, functions and processes as make their indices this long.
fn pressing(
    name: &str,
    sorts: usize,
    functions: usize,
    processes: usize,
    variable: bool,
) -> String {
    let numbered =
        |count: usize, line: &dyn Fn(usize) -> String| -> String { (0..count).map(line).collect() };
    let sorts = numbered(sorts, &|i| format!("sort D{i} 1;"));
    let functions = numbered(functions, &|i| format!("func g{i}:Bool->Bool=0,1;"));
    let right = if variable {
        format!("sum(y:Bool,{name})")
    } else {
        name.to_string()
    };
    let processes = numbered(processes, &|i| format!("proc X{i}={right};"));
    format!("{sorts}{functions}act {name};{processes}init X0;")
}

#[test]
fn action_names_that_press_on_the_letters() {
    let mut seen: Seen = [0; 18];
    for (letter, times) in ["s", "f", "p", "v", "x"]
        .iter()
        .flat_map(|letter| (1..=NAME_LENGTH).map(move |times| (letter, times)))
    {
        for behind in ["", "0", "1", "_", "x"] {
            let name = letter.repeat(times) + behind;
            for (sorts, functions, processes, variable) in [
                (0, 0, 1, false),
                (1, 1, 1, true),
                (7, 10, 10, true),
                (7, 11, 11, false),
                (0, 16, 16, false),
            ] {
                let sheet = pressing(&name, sorts, functions, processes, variable);
                let Ok(file) = made_whole(sheet.as_bytes()) else {
                    assert!(name.len() > NAME_LENGTH, "{sheet}");
                    continue;
                };
                let earlier = files::earlier(&file);
                for file in [file, earlier] {
                    seen[usize::from(same(&file, SHEET_BYTES, &sheet))] += 1;
                }
            }
        }
    }
    println!("answers 0 to 17: {seen:?}");
    assert!(seen[0] > 2000 && seen[17] > 100, "{seen:?}");
}

#[test]
fn sort_names_that_press_on_the_letters() {
    let mut seen: Seen = [0; 18];
    for (letter, times) in ["s", "f", "p", "v", "B"]
        .iter()
        .flat_map(|letter| (1..=NAME_LENGTH).map(move |times| (letter, times)))
    {
        for behind in ["", "0", "_"] {
            let name = letter.repeat(times) + behind;
            if name.len() > NAME_LENGTH {
                continue;
            }
            let right = "sum(y:Bool,act0<|g(y)|>delta)";
            let sheet = format!(
                "sort {name} 2;func g:Bool->Bool=0,1;act act0;act b:{name};proc X={right};init X;"
            );
            let file = made_whole(sheet.as_bytes()).expect(&sheet);
            seen[usize::from(same(&file, SHEET_BYTES, &sheet))] += 1;
        }
    }
    println!("answers 0 to 17: {seen:?}");
    assert!(seen[0] > 100 && seen[17] > 5, "{seen:?}");
}

/// The timed tables print, and are as long as they are meant to be.
#[test]
fn the_timed_tables() {
    let lengths = printings().map(|printing| {
        assert_eq!(same(&printing.file, SHEET_BYTES, printing.what), 0);
        let text = reader::print_table(&printing.file).expect("a text");
        (printing.file.len() / 512, text.len())
    });
    println!("blocks and bytes of text: {lengths:?}");
    assert_eq!(lengths[0], (1, 27));
    assert_eq!(lengths[1].0, 1);
    assert_eq!(lengths[2].1, SHEET_BYTES);
    assert_eq!(lengths[3].0, 6);
    assert!(lengths[4].1 > 3500);
}
