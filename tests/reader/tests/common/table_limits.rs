//! Sheets at each limit that question 10 puts to the table, met and passed by one, and what the limits do not bind.

use super::{numbered, repeated, Case};

const FUNCTIONS: &str = "func f:Bool->Bool=1,0;func g:Bool#Bool->Bool=0,1,1,0;";

/// All of them, by limit.
pub fn sheets() -> Vec<Case> {
    let groups = [
        equations(),
        marked_variables(),
        summands(),
        sums(),
        conditions(),
        calls(),
        nodes(),
        stream(),
        unbound(),
    ];
    groups.into_iter().flatten().collect()
}

/// The sheet that just meets a limit, and the one that passes it by one.
fn around(what: &str, met: usize, sheet: impl Fn(usize) -> String) -> Vec<Case> {
    let case = |count, wanted| Case::new(&format!("{what}: {count}"), sheet(count), wanted);
    vec![case(met, 0), case(met + 1, 10)]
}

/// Each of these sheets is accepted.
fn accepted(what: &str, sheets: &[String]) -> Vec<Case> {
    let case = |sheet: &String| Case::new(what, sheet.as_bytes(), 0);
    sheets.iter().map(case).collect()
}

/// Data with this many nodes over the variable `v`, as flat as can be.
pub fn data(nodes: usize) -> String {
    match nodes {
        1 => "v".to_string(),
        2 => "f(v)".to_string(),
        _ => format!("g({},{})", data((nodes - 1) / 2), data(nodes / 2)),
    }
}

/// Data with this many nodes, of one argument each, but for the last ones: 16 brackets are the most.
fn deep(nodes: usize) -> String {
    let deep = nodes.saturating_sub(10).min(9);
    format!(
        "{}{}{}",
        "f(".repeat(deep),
        data(nodes - deep),
        ")".repeat(deep)
    )
}

/// 64 equations: one is written, or 16 are.
fn equations() -> Vec<Case> {
    let one = |body: &str| format!("act a;proc X={body};init X;");
    let written = numbered(15, |i| format!("proc Y{i}=a;"));
    let uncalled = |count| format!("proc Z=delta{}", ".tau".repeat(count));
    let inside =
        |count: usize| repeated("delta.(a.a+a)", count / 2, "+") + &"+a.a".repeat(count % 2);
    [
        around("parts after delta", 63, |n| {
            one(&format!("delta{}", ".a".repeat(n)))
        }),
        around("deltas after delta", 63, |n| {
            one(&format!("delta{}", ".delta".repeat(n)))
        }),
        around("parts of pairs", 63, |n| one(&repeated("a.a", n, "+"))),
        around("parts inside parts", 63, |n| one(&inside(n))),
        around("parts beside 16 processes", 48, |n| {
            format!("act a;{written}{};init Y0;", uncalled(n))
        }),
    ]
    .concat()
}

/// 4 parameters of a new equation, whether or not it is ever called.
fn marked_variables() -> Vec<Case> {
    let using = |count: usize| {
        let uses: Vec<String> = (0..count).map(|i| format!("b(p{i})")).collect();
        uses.join("+")
    };
    let sheet = |part: String| {
        format!(
            "act b:Bool;proc X(p0:Bool,p1:Bool,p2:Bool,p3:Bool)=sum(p4:Bool,{part});init X(0,1,0,1);"
        )
    };
    [
        around("marked variables", 4, |n| {
            sheet(format!("b(p4).({})", using(n)))
        }),
        around("marked and never called", 4, |n| {
            sheet(format!("delta.({})", using(n)))
        }),
        around("marked by a condition", 4, |n| {
            let test = format!("p{}", n - 1);
            sheet(format!("tau.(({})<|{test}|>tau)", using(n - 1)))
        }),
        around("marked behind a sum's own", 4, |n| {
            sheet(format!("tau.sum(q:Bool,b(q)+{})", using(n)))
        }),
    ]
    .concat()
}

/// 255 summands over all equations.
fn summands() -> Vec<Case> {
    let one = |body: String| format!("act a;proc X={body};init X;");
    let heads = |count| repeated("a", count, "+");
    [
        around("summands", 255, |n| one(heads(n))),
        around("summands of tests", 255, |n| {
            one(repeated("a<|1|>a", n / 2, "+") + &"+a".repeat(n % 2))
        }),
        around("summands in a new equation", 254, |n| {
            one(format!("a.({})", heads(n)))
        }),
        around("summands never called", 254, |n| {
            format!("act a;proc Y={};proc X=a;init X;", heads(n))
        }),
        around("summands through calls", 255, |n| {
            // Y has five heads, and each call of it five more
            let (calls, more) = ((n - 5) / 5, (n - 5) % 5);
            let own = "+a".repeat(more);
            format!(
                "act a;proc X={}{own};proc Y=a+a+a+a+a;init X;",
                repeated("Y", calls, "+")
            )
        }),
        around("summands through two processes", 255, |n| {
            // Z has 3, Y 15, X 237 and what is added
            let own = "+a".repeat(n - 3 - 15 - 225);
            let calls = repeated("Y", 15, "+");
            format!("act a;proc X={calls}{own};proc Y=Z+Z+Z+Z+Z;proc Z=a+tau+a;init X;")
        }),
    ]
    .concat()
}

/// 4 sum variables of a summand.
fn sums() -> Vec<Case> {
    let nested = |count, inside: &str| {
        let open = numbered(count, |i| format!("sum(v{i}:Bool,"));
        format!("{open}{inside}{}", ")".repeat(count))
    };
    let with = |body: String, other: String| format!("act a;proc X={body};proc Y={other};init X;");
    [
        around("sums", 4, |n| with(nested(n, "a"), "a".into())),
        around("sums in a new equation", 4, |n| {
            with(format!("a.{}", nested(n, "a")), "a".into())
        }),
        around("sums through a call", 4, |n| {
            with(nested(n - 2, "Y"), nested(2, "a"))
        }),
        around("sums of the called alone", 4, |n| {
            with("Y".into(), nested(n, "a"))
        }),
        around("sums, one alternative deeper", 4, |n| {
            with(
                nested(3, &format!("a+{}", nested(n - 3, "a").replace('v', "w"))),
                "a".into(),
            )
        }),
    ]
    .concat()
}

/// 8 conditions of a summand.
fn conditions() -> Vec<Case> {
    let yes = |count: usize, inside: &str| {
        let (open, close) = ("(".repeat(count), "<|1|>delta)".repeat(count));
        format!("{open}{inside}{close}")
    };
    let no = |count: usize, inside: &str| {
        let (open, close) = ("(delta<|0|>".repeat(count), ")".repeat(count));
        format!("{open}{inside}{close}")
    };
    let with = |body: String, other: String| format!("act a;proc X={body};proc Y={other};init X;");
    [
        around("conditions that are 1", 8, |n| {
            with(yes(n, "a"), "a".into())
        }),
        around("conditions that are 0", 8, |n| with(no(n, "a"), "a".into())),
        around("conditions through a call", 8, |n| {
            with(no(n - 3, "Y"), yes(3, "a"))
        }),
        around("conditions in a new equation", 8, |n| {
            with(format!("a.{}", yes(n, "a")), "a".into())
        }),
        around("conditions around a sum", 8, |n| {
            with(
                yes(4, &format!("sum(v:Bool,{})", no(n - 4, "a"))),
                "a".into(),
            )
        }),
    ]
    .concat()
}

/// 8 calls of a summand.
fn calls() -> Vec<Case> {
    let with = |body: String, other: &str| format!("act a;proc X={body};proc Y={other};init X;");
    [
        around("calls", 8, |n| with(format!("a{}", ".X".repeat(n)), "a")),
        around("calls of parts", 8, |n| {
            with(format!("a{}", ".tau".repeat(n)), "a")
        }),
        around("calls behind brackets", 8, |n| {
            with(format!("(a.X.X+a.X){}", ".Y".repeat(n - 2)), "a")
        }),
        around("calls in brackets that hold a sequence", 8, |n| {
            with(format!("(((a.X).X){}.(a)).((X))", ".Y".repeat(n - 4)), "a")
        }),
        around("calls behind a call", 8, |n| {
            with(format!("Y{}", ".X".repeat(n - 3)), "a.Y.a.(a+a)")
        }),
    ]
    .concat()
}

/// 31 nodes of a data term, wherever it comes to stand.
fn nodes() -> Vec<Case> {
    let sheet = |other: &str, body: String| {
        let declared = format!("{FUNCTIONS}act a;act b:Bool;act c:Bool#Bool;");
        format!("{declared}proc Y(w:Bool)={other};proc X(v:Bool)={body};init X(0);")
    };
    let at = |place: &'static str| {
        let flat = around(place, 31, |n| {
            sheet("b(w)", place.replace("DATA", &data(n)))
        });
        let steep = around(place, 31, |n| {
            sheet("b(w)", place.replace("DATA", &deep(n)))
        });
        [flat, steep].concat()
    };
    let places = [
        "b(DATA)",
        "c(v,DATA)",
        "c(DATA,v)",
        "a<|DATA|>delta",
        "delta<|DATA|>a",
        "a.X(DATA)",
        "a.a.Y(DATA)",
        "Y(DATA)",
        "a.(a<|DATA|>delta)",
    ];
    let through = |what, other: &str, met, to: fn(usize) -> usize| {
        around(what, met, |n| sheet(other, format!("Y({})", data(to(n)))))
    };
    let mut cases: Vec<Case> = places.into_iter().flat_map(at).collect();
    cases.extend(through("put in twice", "b(g(w,w))", 15, |n| n));
    cases.extend(through("put in a condition", "a<|f(w)|>a", 30, |n| n));
    cases.extend(through("put in a call", "a.Y(f(w))", 30, |n| n));
    cases.extend(through(
        "put in a new equation's call",
        "b(0).b(w)",
        31,
        |n| n,
    ));
    cases.extend(through("put in behind the head", "b(0).b(f(w))", 31, |n| n));
    cases
}

/// A sheet with this many summands of some hundred bytes each: one head with so many calls of four wide terms.
pub fn wide_summands(calls: usize, heads: usize) -> String {
    with_wide_summands(calls, heads, "b", 1)
}

/// The same with an action of this name, of which each character is a byte of the stream, and more short summands.
pub fn with_wide_summands(calls: usize, heads: usize, name: &str, more: usize) -> String {
    let wide = data(31);
    let call = format!("Z({wide},{wide},{wide},{wide})");
    let calls = repeated(&call, calls, ".");
    let (large, small) = (repeated("W(v)", heads, "+"), repeated("a", more, "+"));
    format!(
        "{FUNCTIONS}act a;act {name};proc Z(p:Bool,q:Bool,r:Bool,s:Bool)=delta;\
         proc W(v:Bool)=a.{calls};proc X(v:Bool)={large};proc Y={small};init X(0);"
    )
}

/// A sheet whose stream grows by one byte for each character of an action's name.
fn long_stream(name: &str) -> String {
    with_wide_summands(5, 101, name, 140)
}

/// Characters of the name with which the stream has 64,768 bytes.
const NAME: usize = 5;

/// The sheet whose stream has exactly 64,768 bytes.
pub fn longest_stream() -> String {
    long_stream(&"n".repeat(NAME))
}

/// 64,768 stream bytes.
fn stream() -> Vec<Case> {
    around("characters of a name for 64,768 bytes", NAME, |n| {
        long_stream(&"n".repeat(n))
    })
}

/// What stands in no head is free.
fn unbound() -> Vec<Case> {
    let x = |body: String| format!("act a;proc X={body};init X;");
    let sums = numbered(9, |i| format!("sum(v{i}:Bool,"));
    let tests = |inside: &str| format!("{}{inside}{}", "(".repeat(9), "<|1|>delta)".repeat(9));
    let thousand = data(1000);
    let y = |other: &str, body: &str| {
        let body = body.replace("DATA", &thousand);
        format!(
            "{FUNCTIONS}act a;act b:Bool;proc Y(w:Bool)={other};proc X(v:Bool)={body};init X(0);"
        )
    };
    let init = thousand.replace('v', "1");
    [
        accepted(
            "9 calls after delta",
            &[x(format!("delta{}", ".X".repeat(9)))],
        ),
        accepted(
            "1,000 calls after delta",
            &[x(format!("a+delta{}", ".X".repeat(1000)))],
        ),
        accepted(
            "9 conditions around delta",
            &[x(tests("delta")), x(tests("delta.X"))],
        ),
        accepted(
            "9 sums around delta",
            &[x(format!("{sums}delta{}", ")".repeat(9)))],
        ),
        accepted(
            "9 sums around a call without heads",
            &[format!(
                "act a;proc X={sums}Y{};proc Y=delta+delta.a;init X;",
                ")".repeat(9)
            )],
        ),
        accepted(
            "a thousand nodes",
            &[
                y("a", "delta<|DATA|>delta"),
                y("a", "a+delta.Y(DATA)"),
                y("a", "Y(DATA)"),
                y("a.a", "Y(DATA).X(v)"),
                y("delta.b(w)", "a+Y(DATA)"),
            ],
        ),
        accepted(
            "a thousand nodes in init",
            &[format!(
                "{FUNCTIONS}act b:Bool;proc X(v:Bool)=b(v);init X({init});"
            )],
        ),
        vec![
            Case::new(
                "a thousand nodes in a new equation",
                y("a", "delta.b(DATA)"),
                10,
            ),
            Case::new(
                "a thousand nodes in a condition",
                y("a", "a<|DATA|>delta"),
                10,
            ),
            Case::new("a thousand nodes put in", y("b(w)", "Y(DATA)"), 10),
        ],
    ]
    .concat()
}
