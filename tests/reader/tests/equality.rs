//! Closed terms, what stacks stand for, equality to n steps, and runs.

mod common;

use common::json::Json;
use common::states::Given;
use common::{label, table, vectors};
use reader::{bears, check_sheet, equal_to, Frame, Label, Terms, Transitions};

/// Whether two terms of a small sheet are equal to n steps.
fn equal(n: usize, left: &str, right: &str) -> bool {
    let sheet = check_sheet(
        b"sort D 3;func s:D->D=1,2,0;func z:D->Bool=1,0,0;act a;act b;act c:D;\
          proc X=a.X;proc Y=a.a.Y;proc N(d:D)=c(d).N(s(d));proc S=a.S.b+b;init X;",
    );
    let sheet = sheet.unwrap();
    let terms = Terms::of(&sheet);
    let [left, right] = [left, right].map(|text| terms.read(text.as_bytes()).expect(text));
    equal_to(n, (&terms, &left), (&terms, &right))
}

fn labels<T: Transitions>(system: &T, state: &T::State) -> Vec<String> {
    let steps = system.steps(state).into_iter();
    steps.map(|(label, _)| label.to_string()).collect()
}

#[test]
fn equal_to_no_steps_if_both_or_neither_ended() {
    assert!(equal(0, "delta", "a"));
    let table = table("act a;proc X=delta;init X;");
    let (ended, stuck) = (vec![], vec![Frame::default()]);
    assert!(!equal_to(0, (&table, &ended), (&table, &stuck)));
    assert!(equal_to(9, (&table, &ended), (&table, &ended)));
}

#[test]
fn laws_that_hold() {
    for (left, right) in [
        ("a+b", "b+a"),
        ("a+a", "a"),
        ("a+delta", "a"),
        ("delta.a", "delta"),
        ("(a.b).c(0)", "a.(b.c(0))"),
        ("(a+b).X", "a.X+b.X"),
        ("X", "Y"),
        ("X", "X.b"),
        ("a<|1|>b", "a"),
        ("a<|z(1)|>b", "b"),
        ("sum(d:D,c(d))", "c(2)+c(0)+c(1)"),
        ("sum(d:D,a)", "a"),
        ("N(0)", "c(0).c(1).c(2).N(s(s(1)))"),
    ] {
        assert!(
            equal(7, left, right) && equal(7, right, left),
            "{left} {right}"
        );
    }
}

#[test]
fn laws_that_fail_from_some_step_on() {
    for (n, left, right) in [
        (1, "a", "b"),
        (1, "a", "tau"),
        (1, "a", "a+b"),
        (1, "a", "a.delta"),
        (2, "a.(b+c(0))", "a.b+a.c(0)"),
        (2, "a.tau", "a.b"),
        (1, "c(0)", "c(1)"),
        (3, "a.a.a", "a.a.a.a"),
        (5, "a.a.a.a.a", "X"),
        (3, "S", "a.(a+b).b+b"),
    ] {
        for (p, q) in [(left, right), (right, left)] {
            assert!(!equal(n, p, q), "{p} {q}");
            assert!(equal(n - 1, p, q), "{p} {q}");
        }
    }
}

#[test]
fn terms_are_put_the_questions_of_their_text() {
    let sheet = check_sheet(b"act a;act c:Bool;proc X=a;init X;").unwrap();
    let terms = Terms::of(&sheet);
    let refused = |text: &str| terms.read(text.as_bytes()).err();
    let texts = [
        "\t",
        "00",
        "",
        "a.",
        "b",
        "c(d)",
        "sum(a:Bool,a)",
        "a(0)",
        "c(2)",
        "X",
    ];
    let wanted = [2, 3, 5, 5, 7, 7, 7, 8, 8].map(Some);
    assert_eq!(texts.map(refused)[..9], wanted);
    assert_eq!(refused("X"), None);
}

#[test]
fn a_term_steps_by_the_usual_rules() {
    let sheet = check_sheet(
        b"sort D 2;act a:D;act b;proc X(p:D)=sum(d:D,a(d).X(p)+a(p))<|0|>b.X(1);init X(0);",
    );
    let sheet = sheet.unwrap();
    let terms = Terms::of(&sheet);
    let text = "sum(e:D,(a(e)+tau).(b+a(e)))";
    let term = terms.read(text.as_bytes()).unwrap();
    assert_eq!(labels(&terms, &term), ["a(0)", "tau", "a(1)", "tau"]);
    let steps = terms.steps(&term);
    assert_eq!(labels(&terms, &steps[2].1), ["b", "a(1)"]);
    assert_eq!(steps[2].1, terms.read(b"b+a(1)").unwrap());
    let start = terms.start();
    assert_eq!(start, terms.read(b"X(0)").unwrap());
    let [(label, next)] = &terms.steps(&start)[..] else {
        panic!("one step");
    };
    assert_eq!(
        (label.to_string(), next),
        ("b".to_string(), &terms.read(b"X(1)").unwrap())
    );
}

#[test]
fn a_frame_stands_for_a_call_or_a_part_with_its_values() {
    let sheet = check_sheet(
        b"sort D 3;act a:D;act b;\
          proc X(p:D,q:Bool)=sum(d:D,b.(a(p)+b<|q|>a(d)).X(d,q));init X(2,1);",
    );
    let sheet = sheet.unwrap();
    let terms = Terms::of(&sheet);
    let read = |text: &str| terms.read(text.as_bytes()).unwrap();
    let frames = [Frame::new(0, &[2, 0]), Frame::new(1, &[1, 0, 2])];
    let stands_for = terms.of_stack(&frames);
    assert_eq!(stands_for, read("(a(1)+b<|0|>a(2)).X(2,0)"));
    assert_eq!(terms.of_stack(&frames[..1]), read("X(2,0)"));
    assert!(terms.ended(&terms.of_stack(&[])));
}

#[test]
fn states_of_two_sheets_are_equal_by_the_names_of_actions() {
    let first = table("act a;act b;proc X=a.b.X;init X;");
    let second = table("act c;act b;act a;proc X=Y.X;proc Y=a.b;init X;");
    let third = table("act b;act a;proc X=a.b.X;init X;");
    let fourth = table("act b;act a;proc X=b.a.X;init X;");
    let with_first = |other: &reader::Table, n| {
        equal_to(
            n,
            (&first, &first.start_stack()),
            (other, &other.start_stack()),
        )
    };
    assert!(with_first(&second, 20) && with_first(&third, 20));
    assert!(with_first(&fourth, 0) && !with_first(&fourth, 1));
}

#[test]
fn deep_stacks_are_states_too() {
    let table = table("act a;proc X=a;init X;");
    let stack = |depth| vec![Frame::default(); depth];
    let equal = |n, p, q| equal_to(n, (&table, &stack(p)), (&table, &stack(q)));
    assert!(equal(99, 100, 101));
    assert!(!equal(100, 100, 101));
    assert!(equal(150, 100, 100));
}

#[test]
fn a_run_bears_the_labels_of_its_steps_in_order() {
    let table = table("sort D 2;act a;act b:D;proc X=a.b(0).X+a.(b(1)+tau);init X;");
    let (a, b) = (label("a", &[], &[]), |v| label("b", &["D"], &[v]));
    let from_start = |labels: &[Label]| bears(&table, &table.start_stack(), labels);
    assert!(from_start(&[]) && from_start(&[a.clone()]));
    assert!(from_start(&[a.clone(), Label::Tau]) && from_start(&[a.clone(), b(1)]));
    assert!(from_start(&[a.clone(), b(0), a.clone(), b(0), a.clone()]));
    assert!(!from_start(&[b(0)]) && !from_start(&[a.clone(), a.clone()]));
    assert!(!from_start(&[a.clone(), b(1), a.clone()]));
    assert!(!from_start(&[a, label("b", &["Bool"], &[0])]));
    assert!(bears(&table, &vec![], &[]) && !bears(&table, &vec![], &[Label::Tau]));
}

/// The cases of `equal` that have this member.
fn cases(member: &str) -> Vec<Json> {
    let mut cases = vectors::of("equal");
    cases.retain(|case| case.get(member).is_some());
    cases
}

/// The sheet or the table that a state is described by; its text, if it has one, is the sheet.
fn given(described: &Json) -> Given {
    if described.get("text").is_some() {
        let text = described.text("text").as_bytes();
        assert_eq!(text, described.bytes("sheet"));
    }
    Given::of(described)
}

#[test]
fn vectors_of_equality() {
    let cases = cases("equal");
    for case in &cases {
        let described = ["left", "right"].map(|side| case.get(side).expect(side));
        let [left, right] = described.map(given);
        let equal = equal_to(
            case.number("n") as usize,
            (&left.states(), &left.state(described[0])),
            (&right.states(), &right.state(described[1])),
        );
        assert_eq!(equal, case.is("equal"), "{}", case.text("name"));
    }
    let equal = cases.iter().filter(|case| case.is("equal")).count();
    assert_eq!((cases.len(), equal), (164, 100));
}

#[test]
fn vectors_of_runs() {
    let cases = cases("bears");
    for case in &cases {
        let described = case.get("of").expect("of");
        let given = given(described);
        let labels: Vec<Label> = case.list("labels").iter().map(vectors::label).collect();
        let borne = bears(&given.states(), &given.state(described), &labels);
        assert_eq!(borne, case.is("bears"), "{}", case.text("name"));
    }
    let borne = cases.iter().filter(|case| case.is("bears")).count();
    assert_eq!((cases.len(), borne), (59, 30));
}
