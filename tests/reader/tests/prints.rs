//! Tables printed as sheets and read back: tables of sheets, tables of no sheet, tables of the earlier
//! layout.

mod common;

use common::{generate, tables};
use reader::signature::{Data, Signature};
use reader::table::Summand;
use reader::{encode_file, make_table, print_table, print_table_within, printed, Layout};

/// So many sheets of each kind, and so many tables of no sheet.
const SEEDS: u64 = 3000;

/// Prints a file and reads the text back: its own bytes, those with the names of sorts if it has none;
/// the text, or 17.
fn read_back(file: &[u8]) -> Result<String, u8> {
    let text = print_table(file)?;
    let again = make_table(text.as_bytes());
    let table = reader::read_table(file)?;
    match table.layout {
        Layout::Named => assert_eq!(again.as_deref(), Ok(file), "{text}"),
        Layout::Older => assert_eq!(again, Ok(encode_file(&table.renewed())), "{text}"),
    }
    Ok(text)
}

/// The number of the first of questions 1 to 9 that a text fails, or 0.
fn question(text: &str) -> u8 {
    reader::check_sheet(text.as_bytes()).err().unwrap_or(0)
}

#[test]
fn tables_of_sheets_are_read_back() {
    let (mut texts, mut refused) = (0, 0);
    let kinds = [
        generate::sheet,
        generate::with_heads,
        generate::with_circles,
        generate::with_operators,
        generate::with_heads_and_operators,
        generate::with_names,
    ];
    for sheet in (0..SEEDS).flat_map(|seed| kinds.map(|kind| kind(seed))) {
        let Ok(file) = make_table(sheet.as_bytes()) else {
            continue;
        };
        match read_back(&file) {
            Ok(_) => texts += 1,
            Err(number) => {
                refused += 1;
                assert_eq!(number, 17, "{sheet}");
            }
        }
    }
    println!("{texts} texts, {refused} refused");
    assert!(texts > 5000 && refused > 2000, "{texts}, {refused}");
}

/// How many of the tables of the seeds have a text that fails which of questions 1 to 9, or none.
fn texts_of(kind: fn(u64) -> reader::Table) -> [usize; 10] {
    let mut seen = [0; 10];
    for seed in 0..SEEDS {
        let table = kind(seed);
        let file = encode_file(&table);
        assert_eq!(reader::read_table(&file).as_ref(), Ok(&table), "{seed}");
        let text = printed(&table);
        let failed = question(&text);
        seen[usize::from(failed)] += 1;
        let wanted = if failed == 0 { Ok(text) } else { Err(17) };
        assert_eq!(read_back(&file), wanted, "{seed}");
    }
    println!("answers 0 to 9 of the printed text: {seen:?}");
    seen
}

#[test]
fn tables_of_no_sheet_are_read_back() {
    let seen = texts_of(tables::table);
    assert!(seen[0] > 1500, "{seen:?}");
    for number in [1, 3, 4, 6, 7] {
        assert!(seen[number] > 20, "{number}: {seen:?}");
    }
    let never = [2, 5, 8, 9].map(|number| seen[number]);
    assert_eq!(never, [0; 4], "{seen:?}");
}

/// With operators question 8 is failed too, and only by `==` over two values.
#[test]
fn tables_with_operators_are_read_back() {
    let seen = texts_of(tables::with_operators);
    assert!(seen[0] > 800, "{seen:?}");
    for number in [1, 3, 6, 7, 8] {
        assert!(seen[number] > 20, "{number}: {seen:?}");
    }
    let never = [2, 5, 9].map(|number| seen[number]);
    assert_eq!(never, [0; 3], "{seen:?}");
}

/// In the earlier layout no sort has an action's name.
#[test]
fn earlier_tables_are_read_back_with_names() {
    let seen = texts_of(tables::older);
    assert!(seen[0] > 800, "{seen:?}");
    for number in [1, 3, 6, 8] {
        assert!(seen[number] > 20, "{number}: {seen:?}");
    }
    let never = [2, 5, 7, 9].map(|number| seen[number]);
    assert_eq!(never, [0; 4], "{seen:?}");
}

#[test]
fn question_7_is_failed_by_a_sort_with_an_action_s_name_alone() {
    let mut seen = [0; 2];
    for seed in 0..SEEDS {
        let table = tables::table(seed);
        let Signature { sorts, actions, .. } = &table.signature;
        let alike = (sorts.iter()).any(|sort| actions.iter().any(|a| a.name == sort.name));
        match question(&printed(&table)) {
            0 => assert!(!alike, "{seed}"),
            7 => assert!(alike, "{seed}"),
            _ => continue,
        }
        seen[usize::from(alike)] += 1;
    }
    assert!(seen.iter().all(|&count| count > 20), "{seen:?}");
}

fn compares_values(data: &Data) -> bool {
    let is_value = |side: &Data| matches!(side, Data::Value(_));
    matches!(data, Data::Equal(_, sides) if sides.iter().all(is_value))
        || data.parts().iter().any(compares_values)
}

#[test]
fn question_8_is_failed_by_equality_over_two_values_alone() {
    let mut seen = [0; 2];
    for seed in 0..SEEDS {
        let table = tables::with_operators(seed);
        let compares = summands(&table).any(|summand| data(summand).any(compares_values));
        match question(&printed(&table)) {
            0 => assert!(!compares, "{seed}"),
            8 => assert!(compares, "{seed}"),
            _ => continue,
        }
        seen[usize::from(compares)] += 1;
    }
    assert!(seen.iter().all(|&count| count > 100), "{seen:?}");
}

fn summands(table: &reader::Table) -> impl Iterator<Item = &Summand> {
    table
        .equations
        .iter()
        .flat_map(|equation| &equation.summands)
}

fn data(summand: &Summand) -> impl Iterator<Item = &Data> {
    let conditions = summand.conditions.iter().map(|condition| &condition.data);
    let calls = summand.calls.iter().flat_map(|call| &call.arguments);
    conditions.chain(&summand.arguments).chain(calls)
}

#[test]
fn the_paper_s_example() {
    let file = make_table(b"act a;proc X=a.X;init X;").unwrap();
    let text = "act a;proc p0=a.p0;init p0;";
    assert_eq!(print_table(&file).as_deref(), Ok(text));
}

#[test]
fn output_space_is_asked_last() {
    let file = make_table(b"act a;proc X=a.X;init X;").unwrap();
    let length = print_table(&file).unwrap().len();
    assert_eq!(print_table_within(&file, length - 1), Err(11));
    assert!(print_table_within(&file, length).is_ok());
    assert_eq!(print_table_within(&file, 0), Err(11));
    assert_eq!(print_table_within(&[], 0), Err(12));
    assert_eq!(print_table_within(&[0; 512], 0), Err(13));
    let no_table = reader::to_blocks(&[0]);
    assert_eq!(print_table_within(&no_table, 0), Err(14));
    let many = make_table(format!("act a;proc X={};init X;", ["a.a"; 16].join("+")).as_bytes());
    assert_eq!(print_table_within(&many.unwrap(), 0), Err(17));
}

fn with_or_without_operators(seed: u64) -> reader::Table {
    match seed % 2 {
        0 => tables::table(seed),
        _ => tables::with_operators(seed),
    }
}

/// No blank can be left out, and none stands elsewhere.
#[test]
fn blanks_stand_only_where_tokens_would_merge() {
    for seed in 0..400 {
        let table = with_or_without_operators(seed);
        let Ok(text) = read_back(&encode_file(&table)) else {
            continue;
        };
        assert!(!text.contains('\n'), "{text}");
        for (place, _) in text.match_indices(' ') {
            let joined = [&text[..place], &text[place + 1..]].concat();
            assert_ne!(
                make_table(joined.as_bytes()),
                Ok(encode_file(&table)),
                "{joined}"
            );
        }
    }
}

/// The places of a round bracket and of the one that closes it.
fn pairs(text: &str) -> Vec<(usize, usize)> {
    let (mut open, mut found) = (Vec::new(), Vec::new());
    for (place, byte) in text.bytes().enumerate() {
        match byte {
            b'(' => open.push(place),
            b')' => found.push((open.pop().expect("an open bracket"), place)),
            _ => {}
        }
    }
    found
}

#[test]
fn no_pair_of_brackets_can_be_left_out() {
    let mut tried = 0;
    for seed in 0..800 {
        let table = with_or_without_operators(seed);
        let file = encode_file(&table);
        let Ok(text) = read_back(&file) else {
            continue;
        };
        for (open, close) in pairs(&text) {
            let without = [&text[..open], &text[open + 1..close], &text[close + 1..]].concat();
            assert_ne!(
                make_table(without.as_bytes()).as_ref(),
                Ok(&file),
                "{without}"
            );
            tried += 1;
        }
    }
    assert!(tried > 4000, "{tried}");
}
