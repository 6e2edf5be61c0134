//! The readings taken of operators in data (#102), put to tables: streams, terms, values, printing.

mod common;

use std::time::Duration;

use common::operators::{self, equalities, sheet, start};
use common::{lent, stream, table, verdict, within};
use reader::signature::{Data, Joint};
use reader::{all_steps, ask_table, check_sheet, encode_file, equal_to, print_table, read_table};
use reader::{to_blocks, Answer, Frame, Terms, Transitions};

/// The table of a sheet with this as its only condition's data.
fn with_condition(data: Data) -> reader::Table {
    let mut table = table(&sheet("a<|d|>delta"));
    table.equations[1].summands[0].conditions[0].data = data;
    table
}

#[test]
fn thirty_one_nodes_can_be_46_bytes() {
    let most = table(&sheet(&format!("a<|{}|>delta", equalities(15))));
    let data = most.equations[1].summands[0].conditions[0].data.clone();
    assert_eq!(data.nodes(), 31);
    let plain = reader::encode(&with_condition(Data::Value(0))).len();
    assert_eq!(reader::encode(&most).len() - plain + 1, 46);
    assert_eq!(read_table(&encode_file(&most)).as_ref(), Ok(&most));
    assert_eq!(
        verdict(&sheet(&format!("a<|{}|>delta", equalities(16)))),
        10
    );
    let more = with_condition(Data::equal(0, data, Data::Variable(0)));
    assert_eq!(read_table(&encode_file(&more)), Err(14));
}

/// The verdict on a table of the sorts of 2, 3 and 4 values with this term, in hex, as condition.
fn term(hex: &str) -> u8 {
    let before = "03020304 00 00 01 0201 02 01 00 01 01";
    let after = "ff 00 00 0000";
    let stream = format!("{before}{hex}{after}").replace(' ', "");
    let file = to_blocks(&reader::from_hex(&stream).unwrap());
    match read_table(&file) {
        Ok(table) => {
            assert_eq!(encode_file(&table), file);
            0
        }
        Err(number) => number,
    }
}

#[test]
fn terms_of_tables() {
    let right = [
        "6000", "606001", "61000001", "61010202", "61022103", "61012000", "610261",
    ];
    let wanted = [0, 0, 0, 0, 0, 0, 14];
    assert_eq!(right.map(term), wanted);
    assert_eq!(["620001", "630100", "6263000161022121"].map(term), [0; 3]);
    // a sort past the last, sides of another sort, values out of their sort
    let wrong = [
        "61030000", "61ff0000", "61012100", "61022020", "61002020", "61000002", "61010003",
    ];
    assert_eq!(wrong.map(term), [14; 7]);
    // Bool is needed below, and is what each operator gives
    assert_eq!(
        ["6002", "6020", "622001", "630121", "6101600000"].map(term),
        [14; 5]
    );
    assert_eq!(
        ["64", "6400", "7f", "80", "ff", "5f00", "50"].map(term),
        [14; 7]
    );
    let more = |count: usize| term(&format!("{}00", "60".repeat(count)));
    assert_eq!([more(30), more(31)], [0, 14]);
    let chain = |count: usize| term(&format!("{}{}", "63".repeat(count), "00".repeat(count + 1)));
    assert_eq!([chain(15), chain(16)], [0, 14]);
}

/// The sort byte is no value: one that is no value of Bool does no harm.
#[test]
fn the_sort_byte_is_none_of_the_sides() {
    let sorts = "sort A 1;sort B 2;sort C 3;sort D 16;act a:D;";
    let table = table(&format!(
        "{sorts}proc X(p:D)=sum(q:D,a(q)<|!(q==p)/\\(p==q)==(q==4)|>delta);init X(4);"
    ));
    let hex = reader::to_hex(&reader::encode(&table));
    assert!(hex.contains("62606104212061006104202161042104"), "{hex}");
    let steps = all_steps(&table, &table.start_stack());
    let labels: Vec<String> = steps.iter().map(|(label, _)| label.to_string()).collect();
    let wanted: Vec<String> = (0..16)
        .filter(|&q| q != 4)
        .map(|q| format!("a({q})"))
        .collect();
    assert_eq!(labels, wanted);
}

#[test]
fn equality_over_two_values_is_right_in_a_table() {
    let sheet = "act a;proc X=Y(0);proc Y(d:Bool)=a<|d==1|>delta;init X;";
    let table = table(sheet);
    assert!(reader::to_hex(&stream(sheet)).contains("61000001"));
    let file = encode_file(&table);
    assert_eq!(read_table(&file).as_ref(), Ok(&table));
    assert!(reader::printed(&table).contains("a<|0==1|>delta"));
    assert_eq!(print_table(&file), Err(17));
    assert_eq!(reader::walk(sheet.as_bytes()), "stuck\n");
    let one = "act a;proc X=Y(1);proc Y(d:Bool)=a<|d==1|>delta;init X;";
    assert_eq!(reader::walk(one.as_bytes()), "1 a 0\nended\n");
}

#[test]
fn values_put_in_keep_their_sorts() {
    let sheet = check_sheet(
        b"sort D 3;act a;act b;act c:D;proc X(p:D,q:D)=c(p).(a<|p==q\\/q==2|>b).X(q,p);init X(1,1);",
    );
    let sheet = sheet.unwrap();
    let (terms, table) = (Terms::of(&sheet), reader::linear_table(&sheet).unwrap());
    for (p, q) in (0..3).flat_map(|p| (0..3).map(move |q| (p, q))) {
        let stack = vec![Frame::new(0, &[2, 2]), Frame::new(1, &[p, q])];
        let term = terms.of_stack(&stack);
        let wanted = if p == q || q == 2 { "a" } else { "b" };
        let [(label, _)] = &terms.steps(&term)[..] else {
            panic!("one step");
        };
        assert_eq!(label.to_string(), wanted);
        assert!(equal_to(6, (&table, &stack), (&terms, &term)));
    }
    assert_eq!(terms.read(b"a<|0==0|>b").err(), Some(8));
    assert_eq!(terms.read(b"a<|p==0|>b").err(), Some(7));
    assert!(terms.read(b"sum(d:D,a<|d==0|>b)").is_ok());
}

/// The values of p and q with which each condition holds.
#[test]
fn truth_tables() {
    for (text, wanted) in [
        ("!p", "a(0,0) a(0,1)"),
        ("!!p", "a(1,0) a(1,1)"),
        ("!!!p", "a(0,0) a(0,1)"),
        ("p==q", "a(0,0) a(1,1)"),
        ("p/\\q", "a(1,1)"),
        ("p\\/q", "a(0,1) a(1,0) a(1,1)"),
        ("!p==q/\\p", "a(1,0)"),
        ("p/\\q\\/!q", "a(0,0) a(1,0) a(1,1)"),
        ("p\\/q/\\!p", "a(0,1) a(1,0) a(1,1)"),
        ("(p\\/q)/\\!(p==q)", "a(0,1) a(1,0)"),
    ] {
        let body = format!("sum(p:Bool,sum(q:Bool,a(p,q)<|{text}|>delta))");
        let table = table(&format!("act a:Bool#Bool;proc X={body};init X;"));
        let steps = all_steps(&table, &table.start_stack());
        let found: Vec<String> = steps.iter().map(|(label, _)| label.to_string()).collect();
        assert_eq!(found.join(" "), wanted, "{text}");
    }
}

#[test]
fn variables_under_operators_are_free_in_a_part() {
    let table = table(
        "sort D 3;act a;act b:Bool;proc X(p:Bool,q:D,r:D,s:Bool)=a.(a<|q==r|>b(!s));init X(0,1,2,1);",
    );
    assert_eq!(table.equations[1].parameters, [1, 1, 0]);
    let frames = lent(&[Frame::new(1, &[1, 2, 0])]);
    let Answer::Step { label, .. } = ask_table(&table, &frames, 1, 0) else {
        panic!("a step");
    };
    assert_eq!(label.to_string(), "b(1)");
}

#[test]
fn data_is_put_in_as_written() {
    let sheet = "act b:Bool;proc X(p:Bool)=Y(!p,p==p)+b(!!1);\
                 proc Y(u:Bool,v:Bool)=b(!u\\/v)<|u/\\v/\\u|>delta;init X(0);";
    let stream = reader::to_hex(&stream(sheet));
    let condition = "6262 6020 61002020 6020".replace(' ', "");
    let argument = "63 606020 61002020".replace(' ', "");
    assert!(
        stream.contains(&format!("01{condition}00{argument}00")),
        "{stream}"
    );
    assert!(stream.contains("00606001"), "{stream}");
}

/// A chain put in on the left goes on; on the right it keeps its own grouping.
#[test]
fn a_chain_put_in_is_grouped_as_it_stands() {
    let sheet =
        "act b:Bool;proc X(p:Bool,q:Bool)=Y(p\\/q);proc Y(u:Bool)=b(u\\/u\\/u);init X(0,0);";
    let table = table(sheet);
    let pair = Data::joined(Joint::Or, Data::Variable(0), Data::Variable(1));
    let twice = Data::joined(Joint::Or, pair.clone(), pair.clone());
    let wanted = Data::joined(Joint::Or, twice, pair);
    assert_eq!(table.equations[0].summands[0].arguments, [wanted]);
    assert!(reader::to_hex(&stream(sheet)).contains("6363632021632021632021"));
    let text = print_table(&encode_file(&table)).unwrap();
    assert!(
        text.contains("b(v0\\/v1\\/(v0\\/v1)\\/(v0\\/v1))"),
        "{text}"
    );
}

/// The text of a condition over v0, v1 and v2 of Bool, printed.
fn printed(data: &str) -> String {
    let sheet = format!("act a;proc X(d:Bool,e:Bool,g:Bool)=a<|{data}|>delta;init X(0,0,0);");
    let text = print_table(&encode_file(&table(&sheet))).expect(data);
    let (_, rest) = text.split_once("<|").unwrap();
    rest.split_once("|>").unwrap().0.to_string()
}

#[test]
fn the_fewest_brackets_are_printed() {
    for (data, wanted) in [
        ("((d))", "v0"),
        ("(!(d))", "!v0"),
        ("!(!(!d))", "!!!v0"),
        ("!(d==e)", "!(v0==v1)"),
        ("(!d)==(!e)", "!v0==!v1"),
        ("(d==e)==g", "(v0==v1)==v2"),
        ("d==(e==g)", "v0==(v1==v2)"),
        ("(d==e)/\\(e==g)", "v0==v1/\\v1==v2"),
        ("d==(e/\\g)", "v0==(v1/\\v2)"),
        ("(d/\\e)/\\g", "v0/\\v1/\\v2"),
        ("d/\\(e/\\g)", "v0/\\(v1/\\v2)"),
        ("(d/\\e)\\/(e/\\g)", "v0/\\v1\\/v1/\\v2"),
        ("(d\\/e)/\\(e\\/g)", "(v0\\/v1)/\\(v1\\/v2)"),
        ("(d\\/e)\\/g", "v0\\/v1\\/v2"),
        ("d\\/(e\\/g)", "v0\\/(v1\\/v2)"),
        ("!(d\\/e)", "!(v0\\/v1)"),
        ("(0)==(d)", "0==v0"),
        ("d==1\\/!(0)", "v0==1\\/!0"),
    ] {
        assert_eq!(printed(data), wanted, "{data}");
    }
}

#[test]
fn tables_without_operators_keep_their_bytes() {
    let plain =
        "func f:Bool->Bool=1,0;act b:Bool;proc X(p:Bool)=b(f(p))<|f(p)|>b(1).X(0);init X(1);";
    let bracketed =
        "func f:Bool->Bool=1,0;act b:Bool;proc X(p:Bool)=b((f((p))))<|((f(p)))|>b((1)).X((0));init X((1));";
    assert_eq!(stream(plain), stream(bracketed));
    assert!(stream(plain)
        .iter()
        .all(|byte| !(0x63..0x68).contains(byte)));
}

/// Runs, chains and nests on a stack of 1 MiB; what is accepted is stepped and printed too.
#[test]
fn deep_data_needs_little_stack() {
    for case in operators::deep() {
        let sheet = case.sheet.clone();
        assert!(sheet.len() <= 4096, "{}", case.what);
        let answer = within(Duration::from_millis(500), move || {
            let made = reader::make_table(&sheet);
            let walk = reader::walk(&sheet);
            match made {
                Ok(file) => {
                    assert!(!walk.starts_with("refused"));
                    let checked = check_sheet(&sheet).unwrap();
                    let terms = Terms::of(&checked);
                    terms.steps(&terms.start());
                    assert!(read_table(&file).is_ok());
                    print_table(&file)
                        .err()
                        .filter(|&number| number != 17)
                        .unwrap_or(0)
                }
                Err(number) => number,
            }
        });
        assert_eq!(answer, case.wanted, "{}", case.what);
    }
}

#[test]
fn a_long_run_in_init_is_evaluated_whole() {
    let value = |count: usize| table(&start(&format!("{}0", "!".repeat(count)))).start_values[0];
    assert_eq!([3999, 4000].map(value), [1, 0]);
}
