//! Every vector of `tests/vectors`: the base, those with operators in data, those with sorts in labels.

mod common;

use common::json::Json;
use common::vectors::{self, SETS};
use reader::{all_steps, encode_file, make_table, print_table, print_table_within, read_table};
use reader::{Frame, Label, Layout, Table};

/// How many cases of each set of a kind have one of these members, each put to the check.
fn each(kind: &str, members: &[&str], check: fn(&Json)) -> [usize; 3] {
    SETS.map(|set| {
        let mut cases = vectors::of(&format!("{set}{kind}"));
        cases.retain(|case| members.iter().any(|member| case.get(member).is_some()));
        cases.iter().for_each(check);
        cases.len()
    })
}

#[test]
fn sheets_give_their_tables_or_refusals() {
    let made = each("sheets", &["refused", "stream"], |case| {
        let answer = reader::make_table_within(&case.bytes("sheet"), vectors::room(case));
        assert_eq!(answer, vectors::made(case), "{}", case.text("name"));
    });
    assert_eq!(made, [1241, 70, 70]);
}

#[test]
fn blocks_are_counted() {
    let counted = each("sheets", &["blocks"], |case| {
        let file = reader::to_blocks(&case.bytes("stream"));
        let wanted = 512 * case.number("blocks");
        assert_eq!(file.len() as u64, wanted, "{}", case.text("name"));
    });
    assert_eq!(counted, [407, 32, 28]);
}

#[test]
fn sheets_give_their_walks() {
    let walked = each("sheets", &["walk"], |case| {
        let walk = reader::walk(&case.bytes("sheet"));
        assert_eq!(walk, vectors::walk(case), "{}", case.text("name"));
    });
    assert_eq!(walked, [1241, 70, 70]);
}

#[test]
fn texts_are_those_of_their_sheets() {
    each("sheets", &["text"], |case| {
        let text = case.text("text").as_bytes();
        assert_eq!(text, case.bytes("sheet"), "{}", case.text("name"));
    });
}

#[test]
fn files_made_from_sheets_are_read_as_the_same_tables() {
    let accepted = SETS.map(|set| {
        let cases = vectors::of(&format!("{set}sheets"));
        let sheets = cases.into_iter().map(|case| case.bytes("sheet"));
        sheets.filter(|sheet| read_as_the_same(sheet)).count()
    });
    // one of the base has a stream of 64,768 bytes without names
    assert_eq!(accepted, [407 - 1, 82, 76]);
}

/// Whether the sheet is accepted; its file then is that of its table, and as long as need be.
fn read_as_the_same(sheet: &[u8]) -> bool {
    let Ok(file) = make_table(sheet) else {
        return false;
    };
    let table = own(sheet);
    assert_eq!(table.layout, Layout::Named);
    assert_eq!(read_table(&file).as_ref(), Ok(&table));
    assert_eq!(encode_file(&table), file);
    let made = |lent| reader::make_table_within(sheet, lent);
    assert_eq!(made(file.len()).as_ref(), Ok(&file));
    assert_eq!(made(file.len() - 1), Err(11));
    true
}

fn own(sheet: &[u8]) -> Table {
    reader::linear_table(&reader::check_sheet(sheet).unwrap()).unwrap()
}

/// The streams of the earlier layout are table files: each is read as its sheet's own table but for
/// the names of sorts, steps alike, and is printed as a sheet whose table names its sorts.
#[test]
fn earlier_files_of_sheets() {
    let older = each("sheets", &["stream"], |case| {
        let Some(stream) = vectors::older_stream(case) else {
            return;
        };
        let file = reader::to_blocks(&stream);
        let name = case.text("name");
        let older = read_table(&file).expect(name);
        assert_eq!(encode_file(&older), file);
        if vectors::made(case) == Err(10) {
            return;
        }
        let own = own(&case.bytes("sheet"));
        assert_eq!((&own.older(), older.layout), (&older, Layout::Older));
        same_but_for_sorts(&file, &own, &older);
        if let Ok(text) = print_table(&file) {
            let renewed = make_table(text.as_bytes());
            assert_eq!(renewed, Ok(encode_file(&older.renewed())), "{text}");
        }
    });
    assert_eq!(older, [407, 32, 28]);
}

/// The first stacks have the same steps, and the earlier table's labels the sorts that it is printed with.
fn same_but_for_sorts(file: &[u8], own: &Table, older: &Table) {
    let mut stacks: Vec<Vec<Frame>> = vec![own.start_stack()];
    assert_eq!(stacks[0], older.start_stack());
    for _ in 0..8 {
        let Some(stack) = stacks.pop() else {
            return;
        };
        let (wanted, found) = (all_steps(own, &stack), all_steps(older, &stack));
        assert_eq!(found.len(), wanted.len());
        for ((label, next), (whole, after)) in found.into_iter().zip(wanted).take(50) {
            assert_eq!((label.to_string(), &next), (whole.to_string(), &after));
            if let Label::Action { name, sorts, .. } = label {
                assert_eq!(sorts, vectors::printed_sorts(file, &name));
            }
            stacks.push(next);
        }
    }
}

#[test]
fn table_files_are_read_or_refused() {
    let read = each("tables", &["file"], |case| {
        let file = case.bytes("file");
        let answer = match read_table(&file) {
            Ok(table) => {
                assert_eq!(encode_file(&table), file);
                "ok".to_string()
            }
            Err(number) => format!("refused {number}"),
        };
        assert_eq!(answer, case.text("answer"), "{}", case.text("name"));
    });
    assert_eq!(read, [228, 70 - 4, 70]);
}

/// Streams with hex F2 that the older reader refused by 14.
#[test]
fn hex_f2_before_104() {
    let mut cases = vectors::listed("operators-tables");
    cases.retain(|case| case.get("before").is_some());
    assert_eq!(cases.len(), 4);
    for case in cases {
        let (file, older) = (case.bytes("file"), case.text("answer"));
        assert_eq!((file[4], older), (0xf2, "refused 14"));
        match read_table(&file) {
            Ok(table) => assert_eq!(encode_file(&table), file),
            Err(number) => assert_eq!(number, 14),
        }
    }
}

#[test]
fn table_files_give_their_texts_or_refusals() {
    let printed = each("prints", &["file"], |case| {
        let answer = print_table_within(&case.bytes("file"), vectors::room(case));
        assert_eq!(answer, vectors::printed(case), "{}", case.text("name"));
    });
    assert_eq!(printed, [70, 70, 70]);
}

#[test]
fn texts_are_read_back_with_the_names_of_sorts() {
    each("prints", &["text"], |case| {
        let table = read_table(&case.bytes("file")).unwrap();
        let again = make_table(case.text("text").as_bytes());
        let wanted = encode_file(&table.renewed());
        assert_eq!(again, Ok(wanted), "{}", case.text("name"));
    });
}

#[test]
fn stacks_get_their_answers() {
    let asked = each("asks", &["file"], |case| {
        let answer = reader::ask(
            &case.bytes("file"),
            &vectors::frames(case, "frames"),
            case.number("depth"),
            case.number("k"),
        );
        assert_eq!(answer, vectors::answer(case), "{}", case.text("name"));
    });
    assert_eq!(asked, [738, 70, 70]);
}
