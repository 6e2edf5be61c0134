//! Sheets at each limit that questions 1 to 9 of document 01 put, from both sides.

use super::{numbered, repeated, Case};

/// What stands behind the lines that are tried.
const REST: &str = "proc X=tau;init X;";

/// All of them, by question.
pub fn sheets() -> Vec<Case> {
    let groups = [
        bytes(),
        tokens(),
        brackets(),
        form(),
        counts(),
        names(),
        sorts(),
        function_values(),
        circles(),
    ];
    groups.into_iter().flatten().collect()
}

/// The sheets of some numbers, each with what it is to get.
fn at<const N: usize>(
    what: &str,
    wanted: [(usize, u8); N],
    sheet: impl Fn(usize) -> String,
) -> Vec<Case> {
    let case = |(number, wanted)| Case::new(&format!("{what} {number}"), sheet(number), wanted);
    wanted.into_iter().map(case).collect()
}

/// Each of these texts gets one answer.
fn each(what: &str, wanted: u8, texts: &[&str], sheet: impl Fn(&str) -> String) -> Vec<Case> {
    let case = |text: &&str| Case::new(&format!("{what} {text}"), sheet(text), wanted);
    texts.iter().map(case).collect()
}

/// Questions 1 and 2.
fn bytes() -> Vec<Case> {
    let accepted = "act a;proc X=a;init X;";
    let padded = |length| format!("{accepted:length$}");
    let with = |byte| {
        let wanted = match byte {
            b' ' | b'\n' => 0,
            0..0x20 | 0x7f.. => 2,
            b'0'..=b'9' | b'a'..=b'z' | b'A'..=b'Z' => 5,
            _ if b"(),;:#=+.!".contains(&byte) => 5,
            _ => 3,
        };
        let sheet = [accepted.as_bytes(), &[byte]].concat();
        Case::new(&format!("last byte {byte}"), sheet, wanted)
    };
    let lengths = at("length", [(4095, 0), (4096, 0), (4097, 1)], padded);
    lengths.into_iter().chain((0..=255).map(with)).collect()
}

/// Question 3.
fn tokens() -> Vec<Case> {
    let name = |length| format!("act {};{REST}", "n".repeat(length));
    let tail = |length| format!("act n{};{REST}", "_9".repeat(length)[1..].to_owned());
    let size = |size| format!("sort D {size};{REST}");
    let value = |value: &str| format!("func f:Bool->Bool=0,{value};{REST}");
    let mark = |mark: &str| format!("act a;proc X=a {mark} a;init X;");
    [
        at("characters of a name", [(1, 0), (16, 0), (17, 3)], name),
        at("pairs in a name", [(8, 0), (9, 3)], tail),
        at("numeral", [(255, 6), (256, 3), (1000, 3)], size),
        each("numeral", 0, &["0", "1"], value),
        each("numeral", 3, &["00", "01", "010", "256", "1_"], value),
        each("mark", 0, &["+", ".", "<|0|>"], mark),
        each("mark", 3, &["-", "<", "|", ">", "<|0|", "_", "- >"], mark),
        each("mark", 5, &["->", "<|", "|>", "<||>", "#", "1", " "], mark),
    ]
    .concat()
}

/// Question 4.
fn brackets() -> Vec<Case> {
    let declared = "func f:Bool->Bool=1,0;act a;act b:Bool;";
    let around = |open: String, inside: &str, count| {
        format!(
            "{declared}proc X={open}{inside}{};init X;",
            ")".repeat(count)
        )
    };
    let process = |count: usize| around("(".repeat(count), "a", count);
    let sum = |i| format!("sum(v{i}:Bool,");
    let sums = |count| around(numbered(count, sum), "delta", count);
    let data = |count: usize| around("f(".repeat(count).replacen('f', "b", 1), "1", count);
    let unopened = |count: usize| format!("{}{}", ")".repeat(20), "(".repeat(count));
    let reopened = |count: usize| format!("{}){}", "(".repeat(16), "(".repeat(count));
    [
        at("brackets open", [(16, 0), (17, 4)], process),
        at("sums open", [(16, 0), (17, 4)], sums),
        at("brackets of data open", [(16, 0), (17, 4)], data),
        at("brackets after closing ones", [(16, 5), (17, 4)], unopened),
        at("brackets opened again", [(1, 5), (2, 4)], reopened),
    ]
    .concat()
}

/// Question 5: how many there may be of what.
fn form() -> Vec<Case> {
    let processes = |count| numbered(count, |i| format!("proc X{i}=tau;")) + "init X0;";
    let inits = |count| format!("proc X=tau;{}", "init X;".repeat(count));
    let sorts = |count| repeated("Bool", count, "#");
    let function = |count| format!("func f:{}->Bool={};{REST}", sorts(count), "0,0,0,0");
    let action = |count| format!("act a:{};{REST}", sorts(count));
    let parameters = |count| {
        let names: Vec<String> = (0..count).map(|i| format!("p{i}:Bool")).collect();
        format!("proc X({})=tau;init X(0);", names.join(","))
    };
    let data = |count| format!("act b:Bool;proc X=b({});init X;", repeated("0", count, ","));
    let cut = |count| "act a;proc X=a;init X;"[..count].to_string();
    [
        at("processes", [(0, 5), (1, 0)], processes),
        at("inits", [(0, 5), (1, 0), (2, 5)], inits),
        at("sorts of a function", [(0, 5), (2, 0), (3, 5)], function),
        at(
            "sorts of an action",
            [(0, 5), (1, 0), (2, 0), (3, 5)],
            action,
        ),
        at("parameters", [(0, 5), (1, 0)], parameters),
        at("data of an action", [(0, 5), (1, 0), (2, 8)], data),
        at(
            "first bytes",
            [(0, 5), (6, 5), (15, 5), (21, 5), (22, 0)],
            cut,
        ),
    ]
    .concat()
}

/// Question 6.
fn counts() -> Vec<Case> {
    let sorts = |count| numbered(count, |i| format!("sort D{i} 2;")) + REST;
    let size = |size| format!("sort D {size};{REST}");
    let functions = |count| numbered(count, |i| format!("func f{i}:Bool->Bool=0,1;")) + REST;
    let actions = |count| numbered(count, |i| format!("act a{i};")) + REST;
    let processes = |count| numbered(count, |i| format!("proc X{i}=tau;")) + "init X0;";
    let parameters = |count: usize| {
        let names: Vec<String> = (0..count).map(|i| format!("p{i}:Bool")).collect();
        let (names, data) = (names.join(","), repeated("0", count, ","));
        format!("proc Y=tau;proc X({names})=tau;init X({data});")
    };
    [
        at("declared sorts", [(0, 0), (7, 0), (8, 6)], sorts),
        at("size", [(0, 6), (1, 0), (16, 0), (17, 6)], size),
        at("functions", [(0, 0), (16, 0), (17, 6)], functions),
        at("actions", [(0, 0), (32, 0), (33, 6)], actions),
        at("processes", [(16, 0), (17, 6)], processes),
        at("parameters", [(4, 0), (5, 6)], parameters),
    ]
    .concat()
}

/// Question 7: names that differ only at their ends, and the first and the last of many declared.
fn names() -> Vec<Case> {
    let long = "n".repeat(15);
    let ends = |ends: &str| {
        let [one, other] = [0, 1].map(|i| format!("{long}{}", &ends[i..=i]));
        format!("act {one};act {other};{REST}")
    };
    let again = |name: &str| {
        let actions = numbered(32, |i| format!("act a{i};"));
        format!("sort D 2;func f:D->D=0,1;{actions}proc X=tau;proc {name}=tau;init X;")
    };
    let used = |name: &str| {
        let actions = numbered(32, |i| format!("act a{i};"));
        format!("sort D 2;func f:D->D=0,1;{actions}proc X={name};proc Y=tau;init X;")
    };
    let variable = |name: &str| {
        format!("sort D 2;act a:D;proc X(p:D)=sum(q:D,sum({name}:D,a(p)+a(q)));init X(0);")
    };
    [
        each("ends", 0, &["ab", "aA", "a1", "a_"], ends),
        each("ends", 7, &["aa", "__"], ends),
        each("again", 0, &["Y", "a32", "d", "bool"], again),
        each("again", 7, &["Bool", "D", "f", "a0", "a31", "X"], again),
        each("used", 0, &["a0", "a31", "Y"], used),
        each("used", 7, &["a32", "Z", "D", "f", "Bool"], used),
        each("variable", 0, &["r", "P", "pq"], variable),
        each("variable", 7, &["p", "q", "a", "D", "X", "Bool"], variable),
    ]
    .concat()
}

/// Question 8, but for the values of functions.
fn sorts() -> Vec<Case> {
    let declared = "sort D 3;sort E 3;func f:D->E=0,1,2;act b:D;act c:D#E;act d:Bool;";
    let body =
        |text: &str| format!("{declared}proc Y(y:D)=b(y);proc X=sum(u:D,sum(v:E,{text}));init X;");
    let right = [
        "b(2)",
        "b(u)",
        "c(u,v)",
        "c(2,f(2))",
        "d(1)",
        "Y(2)",
        "Y(u)",
        "tau<|1|>tau",
    ];
    let wrong = [
        "b",
        "b(3)",
        "b(v)",
        "b(u,u)",
        "c(u)",
        "c(v,u)",
        "c(0,f(3))",
        "c(0,f(v))",
        "d(2)",
        "Y",
        "Y(3)",
        "Y(v)",
        "Y(0,0)",
        "tau<|2|>tau",
        "tau<|u|>tau",
        "tau.b(3)",
        "b(f(0))",
        "X(0)",
    ];
    let init = |data: &str| format!("{declared}proc X(p:D,q:E)=tau;init X{data};");
    [
        each("body", 0, &right, body),
        each("body", 8, &wrong, body),
        each("init", 0, &["(0,0)", "(2,2)", "(2,f(2))"], init),
        each(
            "init",
            8,
            &["", "(0)", "(3,0)", "(0,3)", "(0,0,0)", "(f(0),0)"],
            init,
        ),
    ]
    .concat()
}

/// Question 8: "function values complete and in range".
fn function_values() -> Vec<Case> {
    let unary = |count| format!("func f:Bool->Bool={};{REST}", repeated("1", count, ","));
    let binary = |count| {
        let values = repeated("15", count, ",");
        format!("sort D 16;func f:D#D->D={values};{REST}")
    };
    let value = |value| format!("sort D 3;func f:Bool->D=0,{value};{REST}");
    [
        at("values of one", [(1, 8), (2, 0), (3, 8)], unary),
        at("values of two", [(255, 8), (256, 0), (257, 8)], binary),
        at("value", [(0, 0), (2, 0), (3, 8), (255, 8)], value),
    ]
    .concat()
}

/// Question 9: circles of all lengths, chains without one, and what stands at a head.
fn circles() -> Vec<Case> {
    let links = |count: usize, last: &str| {
        let link = |i: usize| format!("proc X{i}=a+X{};", i + 1);
        let chain = numbered(count - 1, link);
        format!("act a;{chain}proc X{}={last};init X0;", count - 1)
    };
    let sizes = [1, 2, 3, 15, 16];
    let circles = at("circle of", sizes.map(|n| (n, 9)), |n| links(n, "X0"));
    let chains = at("chain of", sizes.map(|n| (n, 0)), |n| links(n, "a"));
    let body = |text: &str| format!("act a;proc Y=a;proc X={text};proc Z=X+Y;init Y;");
    let at_head = [
        "X",
        "Z",
        "a+X",
        "X+a",
        "X.a",
        "a<|0|>X",
        "X<|0|>a",
        "(X)",
        "((a+Z))",
        "sum(v:Bool,X)",
        "sum(v:Bool,a+(a<|v|>Z).a)",
    ];
    let behind = [
        "Y",
        "a.X",
        "delta.X",
        "tau.(X+a)",
        "Y.X",
        "(Y+a).X",
        "sum(v:Bool,a).Z",
    ];
    [
        circles,
        chains,
        each("head", 9, &at_head, body),
        each("head", 0, &behind, body),
    ]
    .concat()
}
