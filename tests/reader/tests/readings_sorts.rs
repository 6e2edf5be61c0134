//! The readings taken of sorts in labels (#104): streams, labels, printed names, the earlier layout.

mod common;

use common::{label, stream, table};
use reader::signature::{Action, Sort};
use reader::{all_steps, check_sheet, encode_file, equal_to, make_table, print_table, read_table};
use reader::{to_blocks, Label, Layout, Table, Terms, Transitions};

/// The table of a stream in hex.
fn of_hex(hex: &str) -> Result<Table, u8> {
    let bytes = reader::from_hex(&hex.replace(' ', "")).unwrap();
    read_table(&to_blocks(&bytes))
}

/// The labels of a table's first steps.
fn labels(table: &Table) -> Vec<Label> {
    let steps = all_steps(table, &table.start_stack()).into_iter();
    steps.map(|(label, _)| label).collect()
}

/// The starts of two tables are equal to n steps.
fn equal(n: usize, left: &Table, right: &Table) -> bool {
    let starts = (left.start_stack(), right.start_stack());
    equal_to(n, (left, &starts.0), (right, &starts.1))
}

#[test]
fn each_sort_has_a_length_and_a_name_bool_too() {
    let one = "f2 01 02 04 426f6f6c 00 01 01 61 00 01 00 01 00 00 00 01 00 00";
    assert_eq!(
        reader::to_hex(&stream("act a;proc X=a.X;init X;")),
        one.replace(' ', "")
    );
    let three = stream("sort D 3;sort Level_of_a_coil_ 16;act a;proc X=a;init X;");
    let wanted = "f2 03 02 04 426f6f6c 03 01 44 10 10 4c6576656c5f6f665f615f636f696c5f 00 01";
    let wanted = wanted.replace(' ', "");
    assert_eq!(reader::to_hex(&three[..wanted.len() / 2]), wanted);
}

#[test]
fn a_label_is_name_sort_names_and_values() {
    let table =
        table("sort D 3;sort E 2;act a:E#D;act b:Bool;act c;proc X=a(1,2)+b(0)+c+tau;init X;");
    let wanted = [
        label("a", &["E", "D"], &[1, 2]),
        label("b", &["Bool"], &[0]),
        label("c", &[], &[]),
        Label::Tau,
    ];
    assert_eq!(labels(&table), wanted);
    let shown: Vec<String> = wanted.iter().map(Label::to_string).collect();
    assert_eq!(shown, ["a(1,2)", "b(0)", "c", "tau"]);
}

#[test]
fn terms_bear_the_same_labels() {
    let sheet = check_sheet(b"sort D 3;act a:D#Bool;proc X=sum(d:D,a(d,1).X);init X;").unwrap();
    let terms = Terms::of(&sheet);
    let steps = terms.steps(&terms.start()).into_iter();
    let wanted = [0, 1, 2].map(|value| label("a", &["D", "Bool"], &[value, 1]));
    assert_eq!(steps.map(|(label, _)| label).collect::<Vec<_>>(), wanted);
}

/// Two houses' `set(1)`.
#[test]
fn equal_names_and_values_of_other_sorts_are_other_labels() {
    let house = |sort: &str| table(&format!("{sort};act set:D;proc X=set(1).X;init X;"));
    let over_bool = table("act set:Bool;proc X=set(1).X;init X;");
    let channels = house("sort D 2");
    assert!(equal(0, &over_bool, &channels) && !equal(1, &over_bool, &channels));
    // the size is none of the label's
    assert!(equal(9, &channels, &house("sort D 3")));
    assert!(equal(9, &channels, &house("sort C 2;sort D 4")));
    let walk = |sheet: &[u8]| reader::walk(sheet);
    let sheets: [&[u8]; 2] = [
        b"act set:Bool;proc X=set(1);init X;",
        b"sort D 2;act set:D;proc X=set(1);init X;",
    ];
    assert_eq!(sheets.map(walk), ["1 set(1) 0\nended\n"; 2]);
}

#[test]
fn a_sort_named_like_an_action_is_read_and_not_printed() {
    let table = of_hex("f2 02 02 04 426f6f6c 02 01 61 00 01 01 61 00 01 00 00 00").unwrap();
    assert_eq!(table.signature.sorts[1].name, "a");
    assert_eq!(print_table(&encode_file(&table)), Err(17));
    let text = reader::printed(&table);
    assert_eq!(text, "sort a 2;act a;proc p0=delta;init p0;");
    assert_eq!(make_table(text.as_bytes()), Err(7));
    // in a sheet the two have one space of names
    assert_eq!(common::verdict("sort a 2;act a;proc X=a;init X;"), 7);
}

#[test]
fn letters_avoid_the_names_of_sorts_too() {
    let printed = |sheet: &str| print_table(&make_table(sheet.as_bytes()).unwrap()).unwrap();
    assert_eq!(
        printed("sort v 2;act a;proc X(d:Bool)=a.X(d);init X(0);"),
        "sort v 2;act a;proc p0(vv0:Bool)=a.p0(vv0);init p0(0);"
    );
    assert_eq!(
        printed("sort ff 2;sort proc_ 3;func g:ff->Bool=0,1;act p;proc X=p<|g(1)|>delta;init X;"),
        "sort ff 2;sort proc_ 3;func fff0:ff->Bool=0,1;act p;proc pp0=p<|fff0(1)|>delta;init pp0;"
    );
    // the letter s is no more than any other
    assert_eq!(
        printed("sort s 2;act s1:s;proc X=s1(1);init X;"),
        "sort s 2;act s1:s;proc p0=s1(1);init p0;"
    );
}

#[test]
fn a_run_of_sorts_that_is_too_long_is_17() {
    let names = ["f", "p", "v"].map(|letter| letter.repeat(16));
    let [functions, processes, variables] = names.map(|name| {
        let sheet = |rest: &str| format!("sort {name} 2;{rest}");
        let refused = |rest: &str| {
            print_table(&make_table(sheet(rest).as_bytes()).unwrap()).err() == Some(17)
        };
        [
            refused("proc X=tau;init X;"),
            refused("proc X(x:Bool)=tau;init X(0);"),
            refused("func g:Bool->Bool=0,1;proc X=tau;init X;"),
        ]
    });
    assert_eq!(functions, [false, false, true]);
    assert_eq!(processes, [true, true, true]);
    assert_eq!(variables, [false, true, false]);
}

/// The stream of `sort D 3;act NAME:D;proc X=NAME(2);init X;` in the earlier layout.
fn earlier(name: &str) -> Table {
    let table = table(&format!("sort D 3;act {name}:D;proc X={name}(2);init X;"));
    let file = encode_file(&table.older());
    assert_eq!(file[4], 2);
    read_table(&file).unwrap()
}

#[test]
fn without_hex_f2_sorts_are_named_as_the_printer_named_them() {
    for (name, sort) in [
        ("a", "s1"),
        ("s", "ss1"),
        ("s1", "ss1"),
        ("set", "ss1"),
        ("sss_s", "ssss1"),
        ("xs", "s1"),
        ("S", "s1"),
    ] {
        let table = earlier(name);
        assert_eq!(table.layout, Layout::Older);
        assert_eq!(labels(&table), [label(name, &[sort], &[2])]);
        let text = print_table(&encode_file(&table)).unwrap();
        assert_eq!(
            text,
            format!("sort {sort} 3;act {name}:{sort};proc p0={name}(2);init p0;")
        );
        let again = make_table(text.as_bytes()).unwrap();
        assert_eq!(again, encode_file(&table.renewed()));
        assert_eq!(again[4], 0xf2);
        assert!(equal(9, &table, &read_table(&again).unwrap()));
    }
}

#[test]
fn bool_keeps_its_name_in_the_earlier_layout() {
    let table = table("sort D 3;act b:Bool#D;proc X=b(1,2);init X;").older();
    assert_eq!(labels(&table), [label("b", &["Bool", "s1"], &[1, 2])]);
}

/// 17 times s and an index: read and stepped, but no name, so its text is none.
#[test]
fn an_earlier_table_may_have_sort_names_of_18_characters() {
    for (times, characters, printed) in [(14, 16, true), (15, 17, false), (16, 18, false)] {
        let name = "s".repeat(times);
        let table = earlier(&name);
        let sort = format!("{}1", "s".repeat(times + 1));
        assert_eq!(sort.len(), characters);
        assert_eq!(labels(&table), [label(&name, &[&sort], &[2])]);
        let text = print_table(&encode_file(&table));
        assert_eq!(text.is_ok(), printed, "{text:?}");
        // with hex F2 such a name is refused
        let renewed = read_table(&encode_file(&table.renewed()));
        assert_eq!(renewed.is_ok(), printed, "{renewed:?}");
    }
}

#[test]
fn the_earlier_and_the_new_table_of_a_sheet_differ_by_sorts_other_than_bool() {
    let over_d = table("sort D 2;act set:D;proc X=set(1).X;init X;");
    assert!(equal(0, &over_d, &over_d.older()) && !equal(1, &over_d, &over_d.older()));
    for same in [
        "act set:Bool;proc X=set(1).X;init X;",
        "sort D 2;act a;proc X=sum(d:D,a.X);init X;",
        "sort s1 2;act a:s1;proc X=a(1).X;init X;",
    ] {
        assert!(equal(9, &table(same), &table(same).older()), "{same}");
    }
    // an unused action's name changes the run of s, and so the labels of an earlier table
    let with = |name: &str| table(&format!("sort D 2;act a:D;act {name};proc X=a(1);init X;"));
    assert!(equal(1, &with("b").older(), &with("c").older()));
    assert!(!equal(1, &with("b").older(), &with("s").older()));
    assert!(equal(1, &with("b"), &with("s")));
}

#[test]
fn only_the_sort_section_tells_the_layouts_apart() {
    let sheet =
        "sort D 3;func f:D->D=1,2,0;act a:D;proc X(p:D)=sum(d:D,a(d)<|!(f(d)==p)|>tau.X(d));\
                 init X(1);";
    let (named, older) = (table(sheet), table(sheet).older());
    let streams = (reader::encode(&named), reader::encode(&older));
    // f2 02 02 04 Bool 03 01 D, and 02 02 03
    assert_eq!(streams.0[11..], streams.1[3..]);
    assert_eq!(read_table(&encode_file(&older)), Ok(older));
}

/// The limit is for the stream as it stands: what just fits without names does not with them.
#[test]
fn names_count_for_the_length_of_the_stream() {
    let longest = common::table_limits::longest_stream();
    let own = table(&longest);
    assert_eq!(reader::encode(&own).len(), 64_768);
    assert_eq!(reader::encode(&own.older()).len(), 64_768 - 6);
    let longer = |name: &str| {
        let mut table = own.clone();
        let arguments = vec![];
        let name = name.to_string();
        table.signature.actions.push(Action { name, arguments });
        [&table.older(), &table].map(|table| read_table(&encode_file(table)).err())
    };
    assert_eq!(longer("mmmm"), [None, Some(12)]);
    assert_eq!(longer("mmmmm"), [Some(12); 2]);
}

#[test]
fn renewing_and_the_earlier_writer() {
    let table = table("sort D 3;act a:D;proc X=a(2);init X;");
    assert_eq!(table.renewed(), table);
    let older = table.older();
    assert_eq!(older.older(), older);
    assert_eq!(older.renewed().older(), older);
    assert_eq!(older.renewed().signature.sorts[1], Sort::new("s1", 3));
}
