//! Sheets that would cost most, each of at most 4,096 bytes.

use super::{numbered, repeated, Case};

/// The longest sheet.
const LONGEST: usize = 4096;

const NAMES: [&str; 16] = [
    "A", "B", "C", "D", "E", "F", "G", "H", "I", "J", "K", "L", "M", "N", "O", "P",
];

/// All of them, by what is dear.
pub fn sheets() -> Vec<Case> {
    let groups = [
        calls(),
        doubled_arguments(),
        piled_up(),
        nested(),
        chains(),
        tokens(),
        names(),
        heads(),
    ];
    let all: Vec<Case> = groups.into_iter().flatten().collect();
    for case in &all {
        assert!(case.sheet.len() <= LONGEST, "{}", case.what);
    }
    all
}

/// Sixteen processes: each right side is made from the next name, the last one is given.
pub fn chain(declared: &str, header: &str, link: impl Fn(&str) -> String, last: &str) -> String {
    let mut sheet = declared.to_string();
    for pair in NAMES.windows(2) {
        sheet += &format!("proc {}{header}={};", pair[0], link(pair[1]));
    }
    sheet + &format!("proc P{header}={last};")
}

/// The sheets of some last right sides, each with what it gets.
fn ending(what: &str, ends: &[(&str, u8)], sheet: impl Fn(&str) -> String) -> Vec<Case> {
    let case = |(last, wanted): &(&str, u8)| {
        let what = format!("{what}, {last} at the end");
        Case::new(&what, sheet(last), *wanted)
    };
    ends.iter().map(case).collect()
}

/// Each process calls the next one a hundred times.
fn calls() -> Vec<Case> {
    let sheet = |last: &str| chain("act a;", "", |next| repeated(next, 110, "+"), last) + "init A;";
    let ends = [("a", 10), ("delta", 0), ("delta.a", 0)];
    ending("a hundred calls of the next", &ends, sheet)
}

/// Arguments that double at each call.
fn doubled_arguments() -> Vec<Case> {
    let declared = "func g:Bool#Bool->Bool=0,1,1,0;act a;act b:Bool;";
    let link = |next: &str| format!("{next}(g(g(v,v),g(v,v)))");
    let sheet = |last: &str| chain(declared, "(v:Bool)", link, last) + "init A(1);";
    let ends = [
        ("delta", 0),
        ("a", 0),
        ("b(v)", 10),
        ("a.A(v)", 10),
        ("a<|v|>a", 10),
        ("a.(a+b(v))", 10),
        ("delta.b(v)", 0),
    ];
    let header = "(p:Bool,q:Bool,r:Bool,s:Bool)";
    let call = |next: &str| format!("{next}(g(p,q),g(q,r),g(r,s),g(s,p))");
    let four = |last: &str| {
        let link = |next: &str| repeated(&call(next), 5, "+");
        chain(declared, header, link, last) + "init A(0,0,0,0);"
    };
    let mut cases = ending("doubled arguments", &ends, sheet);
    cases.extend(ending("four doubled", &[("a", 10), ("delta", 0)], four));
    cases
}

/// Calls, conditions and sums without a head.
fn piled_up() -> Vec<Case> {
    let calls = |next: &str| format!("{next}{}", ".A".repeat(90));
    let tests = |next: &str| format!("{}{next}{}", "(".repeat(16), "<|1|>delta)".repeat(16));
    let sums = |inside: &str| {
        let open = numbered(16, |i| format!("sum(v{i}:Bool,"));
        format!("{open}{inside}{}", ")".repeat(16))
    };
    let few_sums = |last: &str| {
        let (one, other) = (sums("B"), sums("C"));
        format!("act a;proc A={one};proc B={other};proc C={last};init A;")
    };
    let with =
        |link: &dyn Fn(&str) -> String, last: &str| chain("act a;", "", link, last) + "init A;";
    let ends = [("delta", 0), ("a", 10)];
    [
        ending("calls", &ends, |last| with(&calls, last)),
        ending("tests", &ends, |last| with(&tests, last)),
        ending("sums", &ends, few_sums),
    ]
    .concat()
}

/// Sixteen brackets deep everywhere.
fn nested() -> Vec<Case> {
    let link = |next: &str| format!("{}{next}{}", "(".repeat(16), "+delta)".repeat(16));
    let sheet = |last: &str| chain("act a;", "", link, last) + "init A;";
    let body = |part: String, count| {
        let declared = "func f:Bool->Bool=1,0;act a;act b:Bool;";
        format!("{declared}proc X={};init X;", repeated(&part, count, "+"))
    };
    let brackets = format!("{}a{}", "(".repeat(16), ")".repeat(16));
    let data = format!("b({}1{}", "f(".repeat(15), ")".repeat(16));
    let sums = numbered(16, |i| format!("sum(v{i}:Bool,")) + "delta" + &")".repeat(16);
    let mut cases = ending(
        "nested choices",
        &[("a", 0), ("delta", 0), ("a.(A+a)", 0)],
        sheet,
    );
    cases.extend([
        Case::new("nested brackets", body(brackets, 110), 0),
        Case::new("nested data", body(data, 75), 0),
        Case::new("nested sums", body(sums, 15), 0),
    ]);
    cases
}

/// Long chains of every joint.
fn chains() -> Vec<Case> {
    let with = |what: &str, body: String, wanted| {
        Case::new(what, format!("act a;proc X={body};init X;"), wanted)
    };
    let values = repeated("0", 2000, ",");
    let function = format!("func f:Bool->Bool={values};proc X=tau;init X;");
    let init = format!("proc X=tau;init X({values});");
    let action = format!("act a:Bool;proc X=a({values});init X;");
    let names = repeated("v", 2000, ",");
    let variables = format!("act a:Bool;proc X=sum(v:Bool,a({names}));init X;");
    let parameters = format!("proc X({})=tau;init X;", repeated("p:D", 1000, ","));
    vec![
        with("2,000 parts in sequence", repeated("a", 2000, "."), 10),
        with("2,000 parts in choice", repeated("a", 2000, "+"), 10),
        with(
            "2,000 calls after delta",
            "delta".to_string() + &".X".repeat(2000),
            0,
        ),
        with("2,000 calls", "a".to_string() + &".X".repeat(2000), 10),
        with("deltas in choice", repeated("delta", 670, "+"), 0),
        with("deltas in sequence", repeated("delta", 670, "."), 10),
        with("conditionals in choice", repeated("a<|1|>a", 500, "+"), 10),
        with("opening brackets", "(".repeat(4000), 4),
        with("closing brackets", ")".repeat(4000), 5),
        Case::new("2,000 values of a function", function, 8),
        Case::new("2,000 values to init", init, 8),
        Case::new("2,000 values to an action", action, 8),
        Case::new("2,000 variables to an action", variables, 8),
        Case::new("1,000 parameters", parameters, 6),
        Case::new("sort lines", "sort D 1;".repeat(400), 5),
        Case::new("act lines", "act a;".repeat(670) + "proc X=a;init X;", 6),
        Case::new("proc lines", "proc X=tau;".repeat(370) + "init X;", 6),
    ]
}

/// As many separators or tokens as bytes.
fn tokens() -> Vec<Case> {
    let filled = |text: &str| text.repeat(LONGEST / text.len());
    vec![
        Case::new("4,096 blanks", filled(" "), 5),
        Case::new("4,096 line feeds", filled("\n"), 5),
        Case::new("4,096 full stops", filled("."), 5),
        Case::new("4,096 semicolons", filled(";"), 5),
        Case::new("4,096 closing brackets", filled(")"), 5),
        Case::new("2,048 pairs of brackets", filled("()"), 5),
        Case::new("2,048 names", filled("a "), 5),
        Case::new("2,048 numerals", filled("0 "), 5),
        Case::new("2,048 long marks", filled("<|"), 5),
        Case::new("one name of 4,096 letters", filled("a"), 3),
        Case::new("one numeral of 4,096 digits", filled("1"), 3),
        Case::new("4,095 blanks and no token", format!("{:>LONGEST$}", "_"), 3),
    ]
}

/// As many declared names as there may be, of this length and different only at the end, and the last one used as often
/// as fits.
fn many_names(length: usize) -> String {
    let ends = b"0123456789ABCDEFGHIJKLMNOPQRSTUV";
    let name = |kind: &str, i: usize| {
        let most = length - 1;
        format!("{kind:n<most$}{}", char::from(ends[i]))
    };
    let sorts = numbered(7, |i| format!("sort {} 2;", name("S", i)));
    let functions = numbered(16, |i| format!("func {}:Bool->Bool=0,1;", name("f", i)));
    let actions = numbered(32, |i| format!("act {};", name("a", i)));
    let processes = numbered(15, |i| format!("proc {}=tau;", name("P", i)));
    let last = name("P", 15);
    let declared = format!("{sorts}{functions}{actions}{processes}proc {last}=tau");
    let end = format!(";init {last};");
    let part = format!(".{last}");
    let count = (LONGEST - declared.len() - end.len()) / part.len();
    declared + &part.repeat(count) + &end
}

/// Names that are looked up for long.
fn names() -> Vec<Case> {
    let scope = numbered(15, |i| format!("sum(nnnnnnnnnnnnnn{i:02}:Bool,"));
    let used = repeated("b(nnnnnnnnnnnnnn14)", 180, "+");
    let variables = format!("act b:Bool;proc X={scope}{used}{};init X;", ")".repeat(15));
    vec![
        Case::new("long names, the last one used", many_names(16), 10),
        Case::new("short names, the last one used", many_names(2), 10),
        Case::new("15 variables, the last one used", variables, 10),
    ]
}

/// Heads through long right sides.
fn heads() -> Vec<Case> {
    let doubling = |next: &str| format!("{next}+{next}{}", "+delta".repeat(30));
    let single = |next: &str| format!("{next}{}", "+delta".repeat(30));
    let sheet = |doubled: usize| {
        let body = |i: usize| {
            let next = NAMES[i + 1];
            let link = if i < 15 - doubled {
                single(next)
            } else {
                doubling(next)
            };
            format!("proc {}={link};", NAMES[i])
        };
        format!("act a;{}proc P=a;init A;", numbered(15, body))
    };
    let all = repeated(&NAMES.join("+"), 7, "+");
    let dense = numbered(16, |i| format!("proc {}={all};", NAMES[i])) + "init A;";
    let later = |i: usize| format!("proc {}=tau+{};", NAMES[i], NAMES[i + 1..].join("+"));
    let ordered = numbered(15, later) + "proc P=tau;init P;";
    vec![
        Case::new("heads doubled five times", sheet(5), 10),
        Case::new("heads doubled four times", sheet(4), 0),
        Case::new("every process at every head", dense, 9),
        Case::new("every later process at every head", ordered, 10),
    ]
}
