//! Where document 01 can be read two ways: the stream, heads, limits (10) and the walk.

mod common;

use common::{bodies, repeated, sheets, stream, table, verdict};
use reader::signature::Data;

#[test]
fn parameter_lists_stand_before_all_summands() {
    let plain = "act a;proc X=a.Y;proc Y=a;init X;";
    let with_data = "act a;proc X=a.Y(0);proc Y(b:Bool)=delta;init X;";
    let declared = "f2010204426f6f6c00010161000200";
    let plain_stream = format!("{declared}00010000000101010000000000");
    let data_stream = format!("{declared}0100010000000101000000");
    assert_eq!(reader::to_hex(&stream(plain)), plain_stream);
    assert_eq!(reader::to_hex(&stream(with_data)), data_stream);
    assert_eq!(reader::walk(plain.as_bytes()), "1 a 1\n2 a 0\nended\n");
    assert_eq!(reader::walk(with_data.as_bytes()), "1 a 1\nstuck\n");
}

#[test]
fn tables_that_one_row_after_another_would_confuse_differ() {
    let first = stream("act a;proc X=a.Y;proc Y=delta<|0|>a;init X;");
    let second = stream("act a;proc X=a.Y(0);proc Y(b:Bool)=a;init X;");
    assert_eq!(first.len(), second.len());
    assert_ne!(first, second);
}

#[test]
fn a_conditional_binds_more_than_choice_and_less_than_sequence() {
    let table = table("act a;act b;act c;proc X=a.b<|1|>c.a+b;init X;");
    let shown: Vec<_> = (table.equations[0].summands.iter())
        .map(|s| {
            let wanted: Vec<u8> = s.conditions.iter().map(|c| c.wanted).collect();
            (s.action.unwrap(), wanted, s.calls.len())
        })
        .collect();
    assert_eq!(shown, [(0, vec![1], 1), (2, vec![0], 1), (1, vec![], 0)]);
}

#[test]
fn flattening_repeats() {
    let calls = |text: &str| {
        let table = table(&format!("act a;proc X={text};init X;"));
        (
            table.equations.len(),
            table.equations[0].summands[0].calls.len(),
        )
    };
    assert_eq!(calls("a.((X.X))"), (1, 2));
    assert_eq!(calls("a.(X.(X.(X))).X"), (1, 4));
    assert_eq!(calls("a.(X<|1|>X)"), (2, 1));
    assert_eq!(calls("a.(X+X)"), (2, 1));
    assert_eq!(calls("a.((X+X))"), (2, 1));
    assert_eq!(calls("(a.X).X"), (1, 2));
    assert_eq!(calls("((a)).X"), (1, 1));
    assert_eq!(calls("a.(a)"), (2, 1));
}

#[test]
fn every_part_after_the_first_that_is_no_call_gets_an_equation() {
    let equations = |rest: &str| table(&format!("act a;{rest}")).equations.len();
    assert_eq!(equations("proc X=a.delta.tau.a.a;init X;"), 5);
    assert_eq!(equations("proc X=delta.a.X;init X;"), 2);
    assert_eq!(equations("proc X=a;proc Y=a.a.(a+a);init X;"), 4);
    assert_eq!(equations("proc X=a.sum(d:Bool,a.a).X;init X;"), 3);
}

#[test]
fn new_equations_are_numbered_in_text_order() {
    let names = ["a", "b", "c", "d", "e", "g", "h"];
    let acts: String = names.iter().map(|name| format!("act {name};")).collect();
    let table = table(&format!(
        "{acts}proc X=a.(b.c+d).e;proc Y=a.g<|1|>a.h;init X;"
    ));
    let first = |equation: usize| {
        let summands = &table.equations[equation].summands;
        names[summands[0].action.unwrap()]
    };
    let order: Vec<&str> = (0..table.equations.len()).map(first).collect();
    assert_eq!(order, ["a", "a", "b", "c", "e", "g", "h"]);
    let calls = |equation: usize, summand: usize| -> Vec<usize> {
        let calls = &table.equations[equation].summands[summand].calls;
        calls.iter().map(|call| call.equation).collect()
    };
    assert_eq!(
        (calls(0, 0), calls(2, 0), calls(2, 1)),
        (vec![2, 4], vec![3], vec![])
    );
}

#[test]
fn parameters_of_a_new_equation_are_its_free_variables_by_the_text() {
    let declared = "sort D 3;sort E 4;act a;act b:D;act c:E#D";
    let text = "sum(w:E,a.(b(q)+c(w,q)).sum(u:Bool,a<|u|>a)).(a+a<|r|>a)";
    let table = table(&format!(
        "{declared};proc X(p:E,q:D,r:Bool)={text};init X(0,0,0);"
    ));
    let parameters: Vec<&[usize]> = (table.equations.iter())
        .map(|equation| equation.parameters.as_slice())
        .collect();
    assert_eq!(parameters, [&[2, 1, 0][..], &[1, 2], &[], &[0]]);
    assert_eq!(
        reader::to_hex(&stream(
            "act a;act b:Bool;proc X(p:Bool,q:Bool)=a.b(q);init X(0,1);"
        )),
        "f2010204426f6f6c00020161000162010002020000010001000000010121010000012000000001"
    );
}

#[test]
fn data_is_put_in_as_written() {
    let sheet = "func f:Bool->Bool=1,0;act b:Bool;\
                 proc X=sum(u:Bool,Y(f(0)))<|f(f(1))|>b(f(1));proc Y(p:Bool)=b(f(p));init X;";
    let wanted = [
        "f2010204426f6f6c 010100000100 0101620100",
        "02 00 0100",
        "02 0100 01 01404001 00404000 00",
        "00 01 00404001 004001 00",
        "01 00 00 004020 00",
        "00",
    ];
    assert_eq!(
        reader::to_hex(&stream(sheet)),
        wanted.concat().replace(' ', "")
    );
}

#[test]
fn order_of_variables_conditions_and_calls() {
    let table = table(
        "sort D 3;sort E 4;act a;proc X=sum(d:D,Y.X<|0|>a)<|1|>a;\
         proc Y=sum(e:E,(a.Y<|1|>delta));init X;",
    );
    let summand = &table.equations[0].summands[0];
    let calls: Vec<usize> = summand.calls.iter().map(|call| call.equation).collect();
    assert_eq!((&summand.variables, calls), (&vec![1, 2], vec![1, 0]));
    let tests: Vec<_> = summand.conditions.iter().map(|c| &c.data).collect();
    assert_eq!(tests, [1, 0, 1].map(Data::Value).each_ref());
    let nested = stream("act a;proc X=(a<|0|>a)<|1|>a;init X;");
    let rows = "03 00 02 0101 0100 00 00 00 02 0101 0000 00 00 00 01 0001 00 00 00";
    assert_eq!(reader::to_hex(&nested[15..]), rows.replace(' ', ""));
}

#[test]
fn an_unused_sum_variable_and_a_constant_condition_stay() {
    let table = table("act a;proc X=sum(v:Bool,a<|0|>delta);init X;");
    let summand = &table.equations[0].summands[0];
    assert_eq!((summand.variables.len(), summand.conditions.len()), (1, 1));
}

#[test]
fn limits_bind_what_stands_in_the_table() {
    let tests = |inner: &str| format!("{}{inner}{}", "(".repeat(9), "<|1|>delta)".repeat(9));
    bodies(
        0,
        &[
            "delta.X.X.X.X.X.X.X.X.X",
            &tests("delta"),
            "Z(1)<|f(f(1))|>delta",
        ],
    );
    bodies(10, &["a.X.X.X.X.X.X.X.X.X", &tests("a")]);
    let wide = |depth: usize| (0..depth).fold("v".to_string(), |d, _| format!("g({d},{d})"));
    let declared = "func g:Bool#Bool->Bool=0,1,1,0;act a;act b:Bool";
    let with = |text: &str| {
        let text = text.replace("WIDE", &wide(5)).replace("FIT", &wide(4));
        verdict(&format!(
            "{declared};proc X(v:Bool)={text};proc Y(w:Bool)=a;init X(0);"
        ))
    };
    assert_eq!(
        ["delta<|WIDE|>delta", "delta.b(v).X(WIDE)", "Y(WIDE)"].map(with),
        [0; 3]
    );
    assert_eq!(
        ["a<|WIDE|>delta", "b(WIDE)", "a.X(WIDE)", "delta.b(WIDE)"].map(with),
        [10; 4]
    );
    assert_eq!(
        ["a<|FIT|>delta", "b(FIT)", "a.X(FIT)", "delta.b(FIT)"].map(with),
        [0; 4]
    );
    let init = wide(8).replace('v', "1");
    sheets(
        0,
        &[&format!("{declared};proc X(v:Bool)=a;init X({init});")],
    );
}

#[test]
fn four_parameters_bind_every_new_equation() {
    let names = "act a;act b:Bool#Bool";
    let with = |part: &str| {
        let text = format!("sum(t:Bool,delta.({part}))");
        let head = "proc X(p:Bool,q:Bool,r:Bool,s:Bool)";
        verdict(&format!("{names};{head}={text};init X(0,0,0,0);"))
    };
    let [four, five] = ["b(p,q)+b(r,s)", "b(p,q)+b(r,s)<|t|>a"].map(with);
    assert_eq!([four, five], [0, 10]);
}

#[test]
fn summands_are_counted_over_all_equations() {
    let sheet = |first, second| {
        let (x, y) = (repeated("a", first, "+"), repeated("a", second, "+"));
        verdict(&format!("act a;proc X={x};proc Y={y};init X;"))
    };
    assert_eq!([sheet(200, 55), sheet(200, 56), sheet(1, 255)], [0, 10, 10]);
}

#[test]
fn after_eight_steps_ended_or_more() {
    let walk = |text: &str| reader::walk(format!("act a;{text}init X;").as_bytes());
    let eight: String = (1..=8).map(|i| format!("{i} a {}\n", 8 - i)).collect();
    assert_eq!(walk("proc X=a.a.a.a.a.a.a.a;"), format!("{eight}ended\n"));
    let with_delta = walk("proc X=a.a.a.a.a.a.a.a.delta;");
    assert!(with_delta.ends_with("8 a 1\nmore\n"), "{with_delta}");
    assert_eq!(walk("proc X=tau.a.delta;"), "1 tau 2\n2 a 1\nstuck\n");
}
