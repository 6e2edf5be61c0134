//! Sheets whose tables are dear to make: many heads behind much that has none, and long summands.

use super::table_limits::data;
use super::{numbered, repeated, Case};

/// All of them.
pub fn sheets() -> Vec<Case> {
    let mut cases = Vec::new();
    for brackets in [0, 8, 12, 15] {
        cases.push(lefts(brackets, false));
        cases.push(lefts(brackets, true));
    }
    cases.extend([
        shared_lefts(),
        scattered(),
        in_turn(),
        alternatives("a", 255),
        alternatives("a.X.a.X", 60),
        behind_deltas(0),
        behind_deltas(15),
        deltas_everywhere(),
        nested_tests(),
        deep_left(),
        long_equations(),
        long_summands(),
        doubling_to_255(),
        one_new_equation_each(),
        bracketed_lines(),
    ]);
    cases.extend(entered_again());
    cases
}

/// So many heads and calls that have none, in brackets of which each stands left of one more head.
fn left(brackets: usize, heads: usize, calls: usize, heads_first: bool) -> String {
    let (idle, own) = (
        repeated("D", calls, "+"),
        repeated("a", heads - brackets, "+"),
    );
    let text = if heads_first {
        format!("{own}+{idle}")
    } else {
        format!("{idle}+{own}")
    };
    format!("{}{text}{}", "(".repeat(brackets), ")+a".repeat(brackets))
}

fn lefts(brackets: usize, heads_first: bool) -> Case {
    let body = left(brackets, 254, 1600, heads_first);
    let order = if heads_first {
        "heads first"
    } else {
        "heads last"
    };
    let what = format!("{brackets} brackets on the left, 1,600 calls without heads, {order}");
    Case::new(
        &what,
        format!("act a;proc X={body};proc D=delta;init X;"),
        0,
    )
}

/// Two equations with the same heads.
fn shared_lefts() -> Case {
    let body = left(15, 127, 1400, false);
    let sheet = format!("act a;proc X={body};proc D=delta;proc Y=X;init Y;");
    Case::new("brackets on the left, called once more", sheet, 0)
}

/// Heads all over a line of calls that have none, in brackets on the left.
fn scattered() -> Case {
    let line = repeated(&format!("{}a", "D+".repeat(60)), 31, "+");
    let (open, sides) = ("(".repeat(15), ")+D".repeat(15));
    let sheet = format!("act a;proc X={open}{line}{sides};proc D=delta;init X;");
    Case::new(
        "15 brackets on the left, heads among calls without",
        sheet,
        0,
    )
}

/// Brackets on the left and on the right in turn, with calls that have no heads and a head in each.
fn in_turn() -> Case {
    let idle = repeated("D", 120, "+");
    let mut text = format!("{idle}+a");
    for _ in 0..7 {
        text = format!("(a+({text}+{idle}+a)+{idle})");
    }
    let sheet = format!("act a;proc X={text};proc D=delta;init X;");
    Case::new("brackets on the left and on the right in turn", sheet, 0)
}

fn alternatives(head: &str, count: usize) -> Case {
    let sheet = format!("act a;proc X={};init X;", repeated(head, count, "+"));
    Case::new(&format!("{count} alternatives {head}"), sheet, 0)
}

/// One head behind much that has none, in brackets, called again and again.
fn behind_deltas(brackets: usize) -> Case {
    let (calls, idle) = (repeated("Y", 254, "+"), repeated("D", 1600, "+"));
    let (open, close) = ("(".repeat(brackets), ")+D".repeat(brackets));
    let sheet = format!("act a;proc X={calls};proc Y={open}{idle}{close}+a;proc D=delta;init X;");
    let what = format!("a head behind 1,600 calls in {brackets} brackets, called 254 times");
    Case::new(&what, sheet, 0)
}

/// A process with few heads among much that has none, called again and again.
fn entered(what: &str, right: &str, times: usize) -> Case {
    let calls = repeated("P", times, "+");
    let sheet = format!("act a;proc V=delta;proc P={right};proc G={calls};init G;");
    Case::new(&format!("{what}, called {times} times"), sheet, 0)
}

/// What has no heads stands before, behind and around the heads, in brackets and in sequences.
fn entered_again() -> Vec<Case> {
    let idle = repeated("V", 1700, "+");
    let open = "(".repeat(15);
    let (sides, parts) = (")+V".repeat(15), ").V".repeat(8));
    let ends = ")".repeat(7);
    vec![
        entered(
            "a head before 1,700 calls in 15 brackets",
            &format!("{open}a+{idle}{sides}"),
            250,
        ),
        entered(
            "a head behind 1,700 calls in 15 brackets",
            &format!("{open}{idle}+a{sides}"),
            250,
        ),
        entered("1,700 calls between two heads", &format!("a+{idle}+a"), 125),
        entered(
            "a bracket and 1,700 calls before a head",
            &format!("V+(V+V)+{idle}+a"),
            250,
        ),
        entered(
            "1,700 calls and a head as a first part",
            &format!("({idle}+a).V"),
            250,
        ),
        entered(
            "1,700 calls and a head in 8 first parts",
            &format!("{open}{idle}+a{parts}{ends}"),
            250,
        ),
        entered(
            "a head before a part of 1,700 calls",
            &format!("a.({idle})+a"),
            125,
        ),
        entered(
            "850 sequences between two heads",
            &format!("a+{}+a", repeated("V.V", 850, "+")),
            125,
        ),
        entered(
            "600 brackets between two heads",
            &format!("a+{}+a", repeated("(V+V)", 600, "+")),
            125,
        ),
    ]
}

/// A line of processes, each in brackets with a side without heads in each, called again and again.
fn bracketed_lines() -> Case {
    let (open, sides) = ("(".repeat(15), ")+V".repeat(15));
    let link = |i: usize| format!("proc X{i}={open}X{}{sides};", i + 1);
    let calls = repeated("X0", 230, "+");
    let sheet = format!(
        "act a;proc V=delta;{}proc X13=a;proc G={calls};init G;",
        numbered(13, link)
    );
    Case::new(
        "13 processes of 15 brackets in a line, called 230 times",
        sheet,
        0,
    )
}

/// A line of processes, each with much that has no heads.
fn deltas_everywhere() -> Case {
    let idle = "delta+".repeat(30);
    let link = |i: usize| format!("proc X{i}={idle}X{};", i + 1);
    let last = repeated("a", 15, "+");
    let sheet = format!("act a;{}proc X15={last};init X0;", numbered(15, link));
    Case::new("16 processes in a line, deltas on the left", sheet, 0)
}

/// Eight conditions around many heads.
fn nested_tests() -> Case {
    let (heads, test) = (repeated("a", 200, "+"), format!("<|{}|>delta)", data(15)));
    let body = format!("{}({heads}){}", "(".repeat(8), test.repeat(8));
    let functions = "func f:Bool->Bool=1,0;func g:Bool#Bool->Bool=0,1,1,0;";
    let sheet = format!("{functions}act a;proc X(v:Bool)={body};init X(0);");
    Case::new("eight conditions around 200 heads", sheet, 0)
}

/// Heads and deltas behind each bracket.
fn deep_left() -> Case {
    let mut text = "a".to_string();
    for _ in 0..15 {
        text = format!("({text}{}{})", "+delta".repeat(25), "+a".repeat(16));
    }
    Case::new(
        "15 brackets, heads and deltas in each",
        format!("act a;proc X={text};init X;"),
        0,
    )
}

const WIDE: &str = "func f:Bool->Bool=1,0;func g:Bool#Bool->Bool=0,1,1,0;act a;\
                    proc Z(p:Bool,q:Bool,r:Bool,s:Bool)=delta;";

/// A process whose only summand has some hundreds of bytes.
fn wide_process(calls: usize) -> String {
    let wide = data(31);
    let call = format!("Z({wide},{wide},{wide},{wide})");
    format!("proc W(v:Bool)=a.{};", repeated(&call, calls, "."))
}

/// 64 equations, 61 of them new, each with a long summand.
fn long_equations() -> Case {
    let parts = ".(W(v)+delta)".repeat(61);
    let sheet = format!(
        "{WIDE}{}proc X(v:Bool)=delta{parts};init X(0);",
        wide_process(5)
    );
    Case::new("64 equations of long summands", sheet, 0)
}

/// As many long summands as the stream holds.
fn long_summands() -> Case {
    let heads = repeated("W(v)", 101, "+");
    let sheet = format!("{WIDE}{}proc X(v:Bool)={heads};init X(0);", wide_process(5));
    Case::new("102 long summands", sheet, 0)
}

/// Eight processes, each calling the next twice.
fn doubling_to_255() -> Case {
    let link = |i: usize| format!("proc X{i}=X{0}+X{0};", i + 1);
    let sheet = format!("act a;{}proc X7=a;init X0;", numbered(7, link));
    Case::new("8 processes, 255 heads", sheet, 0)
}

/// 63 new equations with four parameters.
fn one_new_equation_each() -> Case {
    let part = "(b(p)+b(q)<|r|>b(s))";
    let body = repeated(&format!("tau.{part}"), 62, "+");
    let sheet = format!("act b:Bool;proc X(p:Bool,q:Bool,r:Bool,s:Bool)={body};init X(0,0,0,0);");
    Case::new("62 new equations of four parameters", sheet, 0)
}
