//! The readings taken of operators in data (#102), put to text: tokens, form, names, sorts, limits.

mod common;

use common::operators::{self, sheet, start};
use common::{bodies, sheets, stream, table, verdict};

/// Declares D of 3 and E of 3 values, functions into both and actions over both and Bool.
const DECLARED: &str = "sort D 3;sort E 3;func f:Bool->D=0,1;func g:D->E=0,1,2;\
                        act a;act b:Bool;act c:D;";

/// The verdict on a condition over p and q of Bool, x and y of D and z of E.
fn condition(data: &str) -> u8 {
    let parameters = "proc X(p:Bool,q:Bool,x:D,y:D)";
    let body = format!("sum(z:E,a<|{data}|>a)");
    verdict(&format!("{DECLARED}{parameters}={body};init X(0,0,0,0);"))
}

fn conditions(wanted: u8, texts: &[&str]) {
    for text in texts {
        assert_eq!(condition(text), wanted, "{text}");
    }
}

/// The term of a condition over d, e and g of Bool, in hex.
fn condition_stream(data: &str) -> String {
    let stream = stream(&format!(
        "act a;proc X(d:Bool,e:Bool,g:Bool)=a<|{data}|>delta;init X(0,0,0);"
    ));
    // the bytes before and after the term
    let (before, after) = (22, 6);
    reader::to_hex(&stream[before..stream.len() - after])
}

/// Texts of the same data.
fn same(left: &str, right: &str) {
    assert_eq!(condition_stream(left), condition_stream(right));
}

#[test]
fn tokens_are_the_longest() {
    conditions(0, &["p==q", "p == q", "!p", "! ! p", "p/\\q", "p\\/q"]);
    conditions(0, &["p==!q", "p\\/!q/\\!!q", "p\n/\\\nq"]);
    conditions(5, &["p= =q", "p===q", "p====q", "p=q", "p!=q", "p!q"]);
    conditions(3, &["p/q", "p\\q", "p/ \\q", "p\\ /q", "p/\\/q", "p\\/\\q"]);
    conditions(
        5,
        &["p\\//\\q", "p/\\\\/q", "p!", "==p", "p==", "/\\p", "p\\/"],
    );
    sheets(
        5,
        &[
            "proc X==tau;init X;",
            "func f:Bool->Bool==0,1;proc X=tau;init X;",
        ],
    );
    sheets(5, &["!", "==", "/\\", "\\/", "===", "!=", "/\\\\/"]);
    sheets(3, &["/", "\\", "/ \\", "\\\\/", "//\\"]);
}

#[test]
fn equality_does_not_chain() {
    conditions(5, &["p==q==p", "x==y==p", "p==q==p==q"]);
    conditions(
        0,
        &["(p==q)==p", "p==(q==p)", "(x==y)==(p==q)", "(x==y)==p"],
    );
    conditions(0, &["p==q/\\p==q", "p==q\\/p==q/\\p==q"]);
}

#[test]
fn not_binds_tightest_then_equality_and_or() {
    assert_eq!(condition_stream("!d==e"), "6100602021");
    assert_eq!(condition_stream("!(d==e)"), "6061002021");
    assert_eq!(condition_stream("d==!e"), "6100206021");
    assert_eq!(condition_stream("!!d"), "606020");
    assert_eq!(condition_stream("d==e/\\g"), "626100202122");
    assert_eq!(condition_stream("d==(e/\\g)"), "610020622122");
    assert_eq!(condition_stream("d/\\e==g"), "622061002122");
    assert_eq!(condition_stream("d\\/e/\\g"), "6320622122");
    assert_eq!(condition_stream("d/\\e\\/g"), "6362202122");
    assert_eq!(condition_stream("(d\\/e)/\\g"), "6263202122");
    same("!d==e", "(!d)==e");
    same("!d/\\e\\/g==d", "((!d)/\\e)\\/(g==d)");
}

#[test]
fn and_and_or_group_to_the_left() {
    assert_eq!(condition_stream("d\\/e\\/g"), "6363202122");
    assert_eq!(condition_stream("d\\/(e\\/g)"), "6320632122");
    assert_eq!(condition_stream("d/\\e/\\g"), "6262202122");
    assert_eq!(condition_stream("d/\\(e/\\g)"), "6220622122");
    same("d/\\e/\\g/\\d", "((d/\\e)/\\g)/\\d");
    same("(d)\\/((e))\\/(((g)))", "d\\/e\\/g");
    same("!(!d)", "!!d");
}

#[test]
fn two_numerals_are_not_compared_in_text() {
    conditions(
        8,
        &[
            "0==1",
            "(0)==1",
            "0==(1)",
            "((0))==((1))",
            "!(0==1)",
            "0==1/\\p",
        ],
    );
    conditions(8, &["p\\/(1==1)", "g(2)==z/\\(0==0)", "(0==1)==p"]);
    conditions(
        0,
        &[
            "f(0)==1",
            "!0==1",
            "1==!0",
            "(0/\\1)==1",
            "0==(0\\/1)",
            "(p==0)==1",
        ],
    );
    sheets(
        8,
        &[&start("0==1"), &start("f((1)==0)"), &sheet("delta.Z(1==0)")],
    );
    sheets(8, &[&sheet("delta<|0==0|>delta"), &sheet("b(0==1)")]);
}

#[test]
fn the_sort_of_equality_comes_from_either_side() {
    conditions(
        0,
        &[
            "x==2", "2==x", "(2)==x", "x==y", "z==2", "g(x)==z", "2==g(2)",
        ],
    );
    conditions(0, &["f(p)==x", "f(1==p)==2", "(x==2)==(2==z)", "p==1"]);
    conditions(8, &["x==3", "3==x", "p==2", "2==p", "!p==2", "2==(p/\\q)"]);
    conditions(
        8,
        &[
            "x==z",
            "z==g(z)",
            "x==p",
            "p==x",
            "f(p)==g(x)",
            "x==(y==y)",
            "x==!p",
        ],
    );
    conditions(
        8,
        &[
            "f(p)", "x", "!x", "!z==x", "x/\\p", "p\\/x", "!2", "2/\\p", "p\\/2",
        ],
    );
    conditions(8, &["f(x)==x", "f(p,p)==x", "x==f(2)"]);
    let stream = |data: &str| {
        let sheet = format!("sort D 2;sort E 4;act a;proc X(p:E)=a<|{data}|>delta;init X(0);");
        reader::to_hex(&stream(&sheet))
    };
    assert!(stream("p==3").contains("61022003"));
    assert!(stream("3==p").contains("61020320"));
    assert!(stream("(p==3)==1").contains("61006102200301"));
}

#[test]
fn operators_give_bool() {
    let right = |text: &str| verdict(&format!("{DECLARED}proc X(p:Bool,x:D)={text};init X(0,0);"));
    let bools = [
        "b(!p)",
        "b(p==p)",
        "b(x==x)",
        "b(p/\\p)",
        "b(p\\/p)",
        "c(f(x==x))",
        "c((x))",
    ];
    assert_eq!(bools.map(right), [0; 7]);
    let others = [
        "c(!p)",
        "c(p==p)",
        "c(x==x)",
        "c(p/\\p)",
        "c(p\\/p)",
        "c(f(x))",
        "a.X(x==x,p)",
    ];
    assert_eq!(others.map(right), [8; 7]);
}

#[test]
fn names_are_asked_for_before_sorts() {
    conditions(
        7,
        &[
            "0==1/\\r",
            "r==1",
            "1==r",
            "!r",
            "x==(z==r)",
            "a==1",
            "f==1",
            "X==p",
        ],
    );
    conditions(7, &["b(p)==p", "h(p)==h(p)", "(0==1)==(2==r)"]);
    sheets(7, &["act a;proc X=a<|0==1|>c;init X;"]);
    sheets(8, &["act a;proc X=X<|0==1|>a;init X;"]);
}

#[test]
fn init_has_no_name_without_brackets_of_its_own() {
    let starts = [
        "(d)",
        "!d",
        "d==1",
        "1/\\d",
        "(0)\\/(d)",
        "f((d))",
        "!f(!d)",
    ];
    assert_eq!(starts.map(|data| verdict(&start(data))), [5; 7]);
    let closed = [
        "!0",
        "(0)",
        "f(0)==1",
        "!(f(0))",
        "0/\\1\\/!f(!1)",
        "(f)(0)",
    ];
    let wanted = [0, 0, 0, 0, 0, 5];
    assert_eq!(closed.map(|data| verdict(&start(data))), wanted);
    let value = |data: &str| table(&start(data)).start_values[0];
    let data = [
        "!0",
        "!!0",
        "0\\/1",
        "0/\\1",
        "f(0)==1",
        "1==f(1)",
        "!f(0)\\/!(1/\\1)",
    ];
    assert_eq!(data.map(value), [1, 0, 1, 0, 1, 0, 0]);
}

#[test]
fn brackets_of_data() {
    bodies(
        0,
        &["b((1))", "b(((f((1)))))", "a<|(1)|>a", "a<|((1)\\/(0))|>a"],
    );
    bodies(
        5,
        &[
            "b(())",
            "(f)(0)",
            "b((f)(0))",
            "b(f(0)(0))",
            "b((1)",
            "b((1)(0))",
        ],
    );
    bodies(
        5,
        &[
            "a<|(1|>a",
            "a<|1)|>a",
            "a<|(1,0)|>a",
            "(1)",
            "!a",
            "a/\\a",
            "a==a",
        ],
    );
    let values = |values: &str| verdict(&format!("func f:Bool->Bool={values};proc X=tau;init X;"));
    let wrong = ["(0),1", "!0,1", "0,!1", "0==1,0", "0/\\1,0", "0,1\\/0"];
    assert_eq!(wrong.map(values), [5; 6]);
}

#[test]
fn limits_of_brackets_and_nodes() {
    for case in operators::sheets() {
        let text = String::from_utf8(case.sheet).unwrap();
        assert_eq!(verdict(&text), case.wanted, "{}: {text}", case.what);
    }
}
