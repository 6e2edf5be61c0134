//! Sheets with operators in data: at each limit that binds them, and the dearest ones.

use super::{numbered, repeated, Case};

/// The sheet whose process X, with parameters d and e of Bool, has this right side.
pub fn sheet(body: &str) -> String {
    let declared = "func f:Bool->Bool=1,0;act a;act b:Bool;proc Z(z:Bool)=b(z);";
    format!("{declared}proc X(d:Bool,e:Bool)={body};init X(0,1);")
}

/// The sheet whose process X starts with this data of Bool.
pub fn start(data: &str) -> String {
    format!("func f:Bool->Bool=1,0;act b:Bool;proc X(d:Bool)=b(d);init X({data});")
}

/// So many operators `==`, as flat as can be, over one more leaf each.
pub fn equalities(count: usize) -> String {
    let side = |count| match count {
        0 => "d".to_string(),
        _ => format!("({})", equalities(count)),
    };
    let rest = count - 1;
    format!("{}=={}", side(rest / 2), side(rest - rest / 2))
}

/// All limits: brackets (4) and nodes (10).
pub fn sheets() -> Vec<Case> {
    [brackets(), nodes(), unbound()].concat()
}

/// The sheet that just meets a limit, and the one that passes it.
fn around(what: &str, met: [usize; 2], refused: u8, sheet: impl Fn(usize) -> String) -> Vec<Case> {
    let case = |count, wanted| Case::new(&format!("{what}: {count}"), sheet(count), wanted);
    vec![case(met[0], 0), case(met[1], refused)]
}

fn bracketed(count: usize, inside: &str) -> String {
    format!("{}{inside}{}", "(".repeat(count), ")".repeat(count))
}

/// Question 4, wherever data stands.
fn brackets() -> Vec<Case> {
    let at = |what: &str, around_it: usize, text: &dyn Fn(String) -> String| {
        let met = 16 - around_it;
        around(what, [met, met + 1], 4, |n| text(bracketed(n, "!1")))
    };
    [
        at("brackets of a condition", 0, &|data| {
            sheet(&format!("a<|{data}|>a"))
        }),
        at("brackets of an action's data", 1, &|data| {
            sheet(&format!("b({data})"))
        }),
        at("brackets of a function's data", 2, &|data| {
            sheet(&format!("Z(f({data}))"))
        }),
        at("brackets of init's data", 1, &|data| start(&data)),
        at("brackets inside a sum and brackets", 2, &|data| {
            sheet(&format!("sum(v:Bool,(a<|{data}|>a))"))
        }),
    ]
    .concat()
}

/// 31 nodes of a term; `==` has one more byte, which is no node.
fn nodes() -> Vec<Case> {
    let condition = |data: String| sheet(&format!("a<|{data}|>a"));
    let not = |n: usize| format!("{}d", "!".repeat(n - 1));
    let joined = |joint: &'static str| move |n: usize| repeated("d", n / 2 + 1, joint);
    let through = |n: usize| {
        let (inside, outside) = ("!".repeat(n / 2), "!".repeat(n - 1 - n / 2));
        format!("act a;proc Y(e:Bool)=a<|{outside}e|>a;proc X(d:Bool)=Y({inside}d);init X(0);")
    };
    [
        around("nodes of !", [31, 32], 10, |n| condition(not(n))),
        around("nodes of !, wanted 0", [31, 32], 10, |n| {
            sheet(&format!("delta<|{}|>a", not(n)))
        }),
        around("nodes of an action's data", [31, 32], 10, |n| {
            sheet(&format!("b({})", not(n)))
        }),
        around("nodes of /\\", [31, 33], 10, |n| {
            condition(joined("/\\")(n))
        }),
        around("nodes of \\/", [31, 33], 10, |n| {
            condition(joined("\\/")(n))
        }),
        around("nodes of ==", [31, 33], 10, |n| {
            condition(equalities(n / 2))
        }),
        around("nodes of a call's data", [31, 33], 10, |n| {
            sheet(&format!("a.X(d,{})", joined("\\/")(n)))
        }),
        around("nodes put in", [31, 32], 10, through),
    ]
    .concat()
}

/// What stands in no head is free, and so is init's data.
fn unbound() -> Vec<Case> {
    let many = "!".repeat(1000);
    let bodies = [
        format!("delta<|{many}d|>delta"),
        format!("a+delta.Z({many}d)"),
        format!("a+delta<|{}|>delta", equalities(200)),
        format!("a+delta.Z({})", repeated("d", 500, "/\\")),
    ];
    let starts = [
        format!("{many}1"),
        repeated("0", 500, "\\/"),
        equalities(200).replace('d', "!0"),
    ];
    let sheets = bodies.iter().map(|body| sheet(body));
    let sheets = sheets.chain(starts.iter().map(|data| start(data)));
    sheets.map(|sheet| Case::new("free", sheet, 0)).collect()
}

/// The dearest sheets: runs, chains and nests as long as fits.
pub fn deep() -> Vec<Case> {
    [runs(), nests(), doubled(), marks()].concat()
}

/// The sheets in which this data is taken up by a head, by none, and by init.
fn everywhere(what: &str, data: &str) -> Vec<Case> {
    let with = |body: &str| format!("act a;proc X(d:Bool)={body};init X(0);");
    let closed = data.replace('d', "!0");
    vec![
        Case::new(
            &format!("{what} in a head"),
            with(&format!("a<|{data}|>a")),
            10,
        ),
        Case::new(
            &format!("{what} in no head"),
            with(&format!("delta<|{data}|>delta")),
            0,
        ),
        Case::new(&format!("{what} in init"), start(&closed), 0),
    ]
}

fn runs() -> Vec<Case> {
    [
        everywhere("4,000 !", &format!("{}d", "!".repeat(4000))),
        everywhere("1,000 of \\/", &repeated("d", 1000, "\\/")),
        everywhere("1,000 of /\\", &repeated("d", 1000, "/\\")),
        everywhere("500 of ==", &repeated("d==1", 500, "/\\")),
        everywhere("300 of each", &repeated("!d==d", 300, "/\\d\\/")),
    ]
    .concat()
}

/// Operators in each of as many brackets as may be open.
fn nests() -> Vec<Case> {
    let nest = |open: &str, close: &str| format!("{}d{}", open.repeat(15), close.repeat(15));
    [
        everywhere("! in brackets", &nest("!!!(", ")")),
        everywhere("\\/ grouped to the right", &nest("d\\/d\\/(", ")")),
        everywhere("== in brackets", &nest("1==!(", ")")),
        everywhere("all in brackets", &nest("(!d\\/", "/\\d==d)")),
    ]
    .concat()
}

/// Data that doubles at each call.
fn doubled() -> Vec<Case> {
    let call = |i: usize| format!("proc Y{i}(v:Bool)=Y{}((v==v)==(v/\\v));", i + 1);
    let calls = numbered(15, call);
    let case = |last: &str, wanted| {
        let sheet = format!("act a;act b:Bool;{calls}proc Y15(v:Bool)={last};init Y0(1);");
        Case::new(&format!("doubled data, {last} at the end"), sheet, wanted)
    };
    vec![case("a", 0), case("b(v)", 10), case("a<|!v|>a", 10)]
}

/// Nothing but operators.
fn marks() -> Vec<Case> {
    let case = |mark: &str, wanted| {
        let sheet = mark.repeat(4096 / mark.len());
        Case::new(&format!("nothing but {mark}"), sheet, wanted)
    };
    let condition = |data: String| sheet(&format!("a<|{data}|>a"));
    vec![
        case("!", 5),
        case("==", 5),
        case("=", 5),
        case("/\\", 5),
        case("\\/", 5),
        case("/", 3),
        Case::new("4,000 ! and no data", condition("!".repeat(3900)), 5),
        Case::new(
            "1,000 of == in a chain",
            condition(repeated("d", 1000, "==")),
            5,
        ),
    ]
}
