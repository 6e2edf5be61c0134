//! Where document 01 can be read two ways: tokens, form, names, sorts and circles (1 to 9).

mod common;

use common::{bodies, body, sheets, verdict};

#[test]
fn tokens_are_whole_runs() {
    sheets(5, &["sort D 1a;", "<||>", "1a", "Sum", "tau1 delta_"]);
    sheets(3, &["2_", "sort D 1_;", "00", "01", "256", "sort D 007;"]);
    sheets(3, &["- >", "-", "<", "|", "<|>", "<|>|>", "_a", "->>"]);
    sheets(3, &["abcdefghijklmnopq", "a234567890123456_"]);
    sheets(3, &["sumxxxxxxxxxxxxxx"]);
    sheets(
        0,
        &["act Sum;act tau1;act delta_;proc X=Sum.tau1.delta_;init X;"],
    );
    sheets(
        5,
        &["act sum;proc X=tau;init X;", "act a;proc tau=a;init tau;"],
    );
}

#[test]
fn brackets_are_counted_over_all_tokens() {
    let open = "(".repeat(16);
    sheets(5, &[&open, &format!("{})){open}", ")".repeat(9))]);
    sheets(4, &[&format!("{open}("), &format!("))){open}(")]);
    sheets(4, &[&format!("{open})(( init")]);
    sheets(5, &[&format!("{open})(")]);
    let sums = |count: usize| {
        let sums: String = (0..count).map(|i| format!("sum(v{i}:Bool,")).collect();
        body(&format!("{sums}delta{}", ")".repeat(count)))
    };
    assert_eq!([sums(16), sums(17)], [0, 4]);
    let data = |count| body(&format!("b({}1{})", "f(".repeat(count), ")".repeat(count)));
    assert_eq!([data(15), data(16)], [0, 4]);
}

#[test]
fn the_whole_sheet_is_put_a_question_before_the_next() {
    let long = " ".repeat(4097);
    sheets(1, &[&long, &format!("{long}\u{7f}")]);
    sheets(2, &["_ \t", "proc proc 00 ~ \r"]);
    sheets(3, &[&format!("{} 00", "(".repeat(17))]);
    sheets(4, &[&format!("proc ; {}", "(".repeat(17))]);
    sheets(5, &["sort D 17;act a;proc X=a"]);
    sheets(6, &["sort D 17;act a;act a;proc X=a;init X;"]);
    sheets(7, &["act a:Bool;proc X=a(2).b;init X;"]);
    sheets(8, &["act a:Bool;proc X=X.a(2);init X;"]);
    sheets(9, &["act a;proc X=a.a.a.a.a.a.a.a.a.a.a;proc Y=Y;init X;"]);
}

#[test]
fn lines_come_in_order() {
    let lines = [
        "sort D 2;",
        "func f:D->D=0,1;",
        "act a;",
        "proc X=a;",
        "init X;",
    ];
    assert_eq!(verdict(&lines.concat()), 0);
    for index in 0..4 {
        let mut swapped = lines;
        swapped.swap(index, index + 1);
        assert_eq!(verdict(&swapped.concat()), 5, "{swapped:?}");
    }
    sheets(
        0,
        &[
            "proc X=tau;init X;",
            "sort D 2;sort E 2;proc X=tau;proc Y=tau;init X;",
        ],
    );
    sheets(
        5,
        &["act a;init X;", "proc X=tau;", "proc X=tau;init X;init X;"],
    );
    sheets(
        5,
        &[
            "proc X=tau;init X",
            "proc X=tau;init X;;",
            "proc X=tau;init X;proc Y=tau;",
        ],
    );
}

#[test]
fn init_is_a_call_without_bare_names() {
    let with = |init: &str| {
        let declared = "func f:Bool->Bool=1,0;act a;proc X(v:Bool)=a;proc Y=a";
        verdict(&format!("{declared};init {init};"))
    };
    let forms = [
        "X(v)", "X(f(v))", "X(a)", "X()", "tau", "X.Y", "(Y)", "Y+Y", "f",
    ];
    let verdicts = [5, 5, 5, 5, 5, 5, 5, 5, 7];
    assert_eq!(forms.map(with), verdicts);
    assert_eq!(["a", "Bool", "Z", "X(X(0))", "X(g(0))"].map(with), [7; 5]);
    assert_eq!(["X", "X(0,0)", "Y(0)", "X(2)"].map(with), [8; 4]);
    assert_eq!(["X(0)", "X(f(f(1)))", "Y"].map(with), [0; 3]);
}

#[test]
fn lists_are_not_empty_and_arity_is_form() {
    bodies(5, &["a()", "()", "b(())", "b(1,)", "b(,1)"]);
    bodies(0, &["b((1))"]);
    let func = |rest: &str| verdict(&format!("func f:{rest};proc X=tau;init X;"));
    let forms = [
        "Bool->Bool=",
        "->Bool=0",
        "Bool#Bool#Bool->Bool=0",
        "Bool->Bool=0,",
    ];
    assert_eq!(forms.map(func), [5; 4]);
    assert_eq!(["Bool->Bool=0", "Bool->Bool=0,1,0"].map(func), [8; 2]);
    let act = |rest: &str| verdict(&format!("act a{rest};proc X=tau;init X;"));
    assert_eq!(["", ":Bool", ":Bool#Bool"].map(act), [0; 3]);
    assert_eq!(
        [":", ":Bool#Bool#Bool", "#Bool", ":Bool,Bool"].map(act),
        [5; 4]
    );
    sheets(
        5,
        &["proc X()=tau;init X;", "proc X(d,e:Bool)=tau;init X(0,0);"],
    );
}

#[test]
fn conditionals_do_not_chain() {
    bodies(
        5,
        &["a<|1|>a<|1|>a", "a<||>a", "a<|1|>", "<|1|>a", "a<|()|>a"],
    );
    bodies(0, &["(a<|1|>a)<|1|>a", "a<|1|>(a<|1|>a)", "a<|(1)|>a"]);
    bodies(5, &["delta(0)", "tau(0)", "1", "a+", "a.", ".a", "+a"]);
    bodies(
        5,
        &[
            "sum(d:Bool,e:Bool,a)",
            "sum(a)",
            "sum(d:Bool)",
            "sum d:Bool,a",
        ],
    );
}

#[test]
fn counts_go_by_lines() {
    let acts = "act a;".repeat(33);
    sheets(6, &[&format!("{acts}proc X=tau;init X;")]);
    let sorts = |count: usize| -> String { (0..count).map(|i| format!("sort D{i} 2;")).collect() };
    let rest = "proc X=tau;init X;";
    sheets(6, &[&format!("{}sort Bool 2;{rest}", sorts(7))]);
    sheets(7, &[&format!("{}sort Bool 2;{rest}", sorts(6))]);
    sheets(6, &["sort D 0;sort D 2;proc X=tau;init X;"]);
}

#[test]
fn one_space_of_names() {
    let wrong = [
        "sort a 2;act a;proc X=a;init X;",
        "act X;proc X=tau;init X;",
        "func a:Bool->Bool=0,1;act a;proc X=a;init X;",
        "act Bool;proc X=tau;init X;",
        "proc X(Y:Bool)=tau;proc Y=tau;init X(0);",
        "proc X(X:Bool)=tau;init X(0);",
        "proc X(d:Bool,d:Bool)=tau;init X(0,0);",
    ];
    sheets(7, &wrong);
    let names = ["a", "X", "Y", "f", "Bool"];
    let sums = names.map(|name| body(&format!("sum({name}:Bool,tau)")));
    assert_eq!(sums, [7; 5]);
}

#[test]
fn a_variable_is_in_scope_inside_its_own_brackets_only() {
    bodies(7, &["sum(d:Bool,sum(d:Bool,tau))"]);
    bodies(7, &["sum(d:Bool,a.(a+sum(d:Bool,a)))"]);
    bodies(0, &["sum(d:Bool,b(d)).sum(d:Bool,b(d))+sum(d:Bool,a)"]);
    bodies(7, &["sum(d:Bool,a).b(d)", "sum(d:Bool,a)+b(d)", "b(d)"]);
    bodies(7, &["sum(d:Bool,b(d))<|d|>a", "b(z)"]);
}

#[test]
fn each_name_has_the_kind_of_its_place() {
    bodies(7, &["f", "f(0)", "Bool", "sum(d:Bool,d)", "c", "Bool(0)"]);
    bodies(
        7,
        &[
            "b(f)", "b(a)", "b(X)", "b(Bool)", "b(b(0))", "b(Z(0))", "b(g(0))",
        ],
    );
    bodies(
        7,
        &[
            "sum(d:Bool,b(d(0)))",
            "sum(d:f,a)",
            "sum(d:d,a)",
            "a(0,d)",
            "a<|d|>a",
        ],
    );
    bodies(
        8,
        &["b", "a(0)", "b(0,0)", "Z", "Y(0)", "Z(0,0)", "b(f(0,0))"],
    );
    sheets(
        7,
        &[
            "act a:a;proc X=tau;init X;",
            "func f:f->Bool=0;proc X=tau;init X;",
        ],
    );
}

#[test]
fn sorts_are_compared_by_name() {
    let with = |text: &str| {
        let declared = "sort D 2;sort E 3;func f:D->E=2,0;act d:D;act e:E;proc Y(p:D)=d(p)";
        verdict(&format!("{declared};proc X={text};init X;"))
    };
    let wrong = [
        "sum(v:Bool,d(v))",
        "sum(v:D,a<|v|>a)",
        "e(3)",
        "d(2)",
        "d(f(0))",
        "e(f(2))",
    ];
    let declared_a = wrong.map(|text| with(&text.replace('a', "tau")));
    assert_eq!(declared_a, [8; 6]);
    assert_eq!(
        ["d(1)", "e(2)", "e(f(1))", "sum(v:D,Y(v))"].map(with),
        [0; 4]
    );
    assert_eq!(
        ["Y(2)", "sum(v:E,Y(v))", "tau<|2|>tau", "tau<|f(0)|>tau"].map(with),
        [8; 4]
    );
}

#[test]
fn sorts_are_put_to_all_text() {
    bodies(8, &["b(2)<|0|>a", "delta.b(2)", "a+delta.(a+b(2))"]);
    sheets(8, &["act b:Bool;proc X=tau;proc Y=b(2);init X;"]);
}

#[test]
fn circles_count_where_init_never_comes() {
    sheets(9, &["act a;proc X=a;proc Y=Y;init X;"]);
    sheets(
        9,
        &["act a;proc X=Y;proc Y=Z.a;proc Z=a+sum(v:Bool,(X<|v|>a));init X;"],
    );
    bodies(
        9,
        &["((X)).a", "(X.a).a", "a+X", "a<|1|>X", "sum(d:Bool,a+X)"],
    );
    bodies(0, &["a.X", "delta.X", "a.(X+a)", "Y.X", "a.sum(d:Bool,X)"]);
}
