//! Step questions that are timed: tables and stacks of document 01's largest sizes.

use reader::limits::{FILE_BYTES, FRAMES};
use reader::{all_steps, Label, Table};

use crate::stepping::Frame;

/// A file, the depth of a stack of start frames, and a step.
pub struct Question {
    pub what: &'static str,
    pub file: Vec<u8>,
    pub frames: Vec<Frame>,
    pub k: u64,
}

/// Sixteen values, added up, and told apart.
fn declared() -> String {
    let sums: Vec<String> = (0..256)
        .map(|i| ((i / 16 + i % 16) % 16).to_string())
        .collect();
    let even: Vec<String> = (0..16).map(|i| (1 - i % 2).to_string()).collect();
    let all = vec!["1"; 16].join(",");
    format!(
        "sort D 16;func f:D#D->D={};func g:D->D={};func even:D->Bool={};func t:D->Bool={all};\
         func and:Bool#Bool->Bool=0,0,0,1;act a:D#D;",
        sums.join(","),
        sums[..16].join(","),
        even.join(","),
    )
}

/// Data with this many nodes, odd, over a variable.
fn tree(nodes: usize, variable: &str) -> String {
    if nodes == 1 {
        return variable.to_string();
    }
    let left = nodes / 4 * 2 + 1;
    let left = if left + 2 > nodes { nodes - 2 } else { left };
    let right = nodes - 1 - left;
    format!("f({},{})", tree(left, variable), tree(right, variable))
}

/// A process with four sums around a call of one with eight conditions of 31 nodes: a test of f's of one of its variables.
fn four_sums(test: &str, variable: &str) -> String {
    four_sums_with(test, |_| tree(29, variable))
}

/// The same, where the data of each condition are given by its number.
fn four_sums_with(test: &str, data: impl Fn(usize) -> String) -> String {
    let condition = |number| format!("<|{test}(g({}))|>delta)", data(number));
    let tests: String = (0..8).map(condition).collect();
    let eight = format!("{}a(p,s){tests}", "(".repeat(8));
    format!(
        "proc Y=sum(u:D,sum(v:D,sum(w:D,sum(x:D,Z(u,v,w,x)))));\
         proc Z(p:D,q:D,r:D,s:D)={eight};"
    )
}

/// Conditions that name the first variable and the last in turn.
fn in_turn() -> String {
    four_sums_with("t", |number| tree(29, ["p", "s"][number % 2]))
}

/// Conditions that name both the first variable and the last.
fn across() -> String {
    four_sums_with("t", |_| tree(29, "p").replacen('p', "s", 1))
}

/// Conditions that name all four variables.
fn all_four() -> String {
    let data = tree(29, "p").replacen('p', "q", 3);
    let data = data.replacen('q', "r", 2).replacen('r', "s", 1);
    four_sums_with("t", |_| data.clone())
}

/// A process with four sums around eight conditions that are all this test.
fn eight_times(test: &str) -> String {
    let tests = format!("<|{test}|>delta)").repeat(8);
    format!(
        "proc Y=sum(u:D,sum(v:D,sum(w:D,sum(x:D,Z(u,v,w,x)))));\
         proc Z(p:D,q:D,r:D,s:D)={}a(p,s){tests};",
        "(".repeat(8)
    )
}

/// Eight conditions that hold where all four variables are even, joined two by two.
fn joined(join: fn(String, String) -> String) -> String {
    let pair = |left, right| join(format!("even({left})"), format!("even({right})"));
    eight_times(&join(pair("p", "q"), pair("r", "s")))
}

fn file(body: &str, more: &str) -> Vec<u8> {
    let sheet = format!("{}proc X={body};{more}init X;", declared());
    assert!(sheet.len() <= 4096, "{} bytes", sheet.len());
    reader::make_table(sheet.as_bytes()).expect("a table")
}

fn question(what: &'static str, file: Vec<u8>, k: u64) -> Question {
    let mut frames = vec![Frame::default(); FRAMES];
    let table = reader::read_table(&file).expect("a table");
    frames[0] = table.start_stack()[0].into();
    Question {
        what,
        file,
        frames,
        k,
    }
}

/// A table of 128 blocks that goes on.
pub fn largest() -> Vec<u8> {
    let sheet = crate::common::table_limits::longest_stream();
    let file = reader::make_table(sheet.as_bytes()).expect("a table");
    assert_eq!(file.len(), FILE_BYTES);
    file
}

/// The smallest table, which goes on for ever.
pub fn smallest() -> Vec<u8> {
    reader::make_table(b"act a;proc X=a.X;init X;").expect("a table")
}

/// All of them but the whole table of dear conditions.
pub fn usual() -> Vec<Question> {
    let sums = "sum(u:D,sum(v:D,sum(w:D,sum(x:D,a(u,x)))))";
    let none = u64::MAX;
    vec![
        question("step 0 of one block", smallest(), 0),
        question("step 15 of a sum of 16", file("sum(u:D,a(u,u))", ""), 15),
        question("the last step of four sums of 16", file(sums, ""), 65_535),
        question("k too large for four sums of 16", file(sums, ""), none),
        question(
            "eight conditions on the first variable, all hold",
            file("Y", &four_sums("t", "p")),
            none,
        ),
        question(
            "eight conditions on the first variable, half hold",
            file("Y", &four_sums("even", "p")),
            none,
        ),
        question(
            "eight conditions on the last variable, all hold",
            file("Y", &four_sums("t", "s")),
            none,
        ),
        question(
            "eight conditions on the last variable, half hold",
            file("Y", &four_sums("even", "s")),
            none,
        ),
        question(
            "conditions on the first and on the last variable in turn",
            file("Y", &in_turn()),
            none,
        ),
        question(
            "eight conditions on both the first and the last variable",
            file("Y", &across()),
            none,
        ),
        question(
            "eight conditions on all four variables",
            file("Y", &all_four()),
            none,
        ),
        question(
            "eight conditions joined by a function",
            file("Y", &joined(|left, right| format!("and({left},{right})"))),
            none,
        ),
        question(
            "eight conditions joined by operators",
            file("Y", &joined(|left, right| format!("({left}/\\{right})"))),
            none,
        ),
        question("step 0 of 128 blocks", largest(), 0),
        question("k too large for 128 blocks", largest(), none),
    ]
}

/// As many summands with conditions on the first variable and on the last in turn as a table holds.
pub fn dearest() -> Question {
    let calls = vec!["Y"; 230].join("+");
    question(
        "a whole table of such conditions in turn, k too large",
        file(&calls, &in_turn()),
        u64::MAX,
    )
}

/// Data over the variables that are named in turn.
fn mixed(variables: &str) -> String {
    let mut turn = variables.chars().cycle();
    let named = |letter| match letter {
        'p' => turn.next().expect("a variable"),
        other => other,
    };
    tree(29, "p").chars().map(named).collect()
}

/// Eight conditions of 31 nodes, whose tests are towers of `!`.
fn negated() -> String {
    let test = format!("{}even(f(f(p,q),f(r,s)))", "!".repeat(23));
    eight_times(&test)
}

/// Functions of one argument between those of two, each alone: the dearest that `--bin hardest` finds are of this kind.
const BETWEEN: &str =
    "t(f(f(g(f(f(f(r,g(s)),f(g(s),q)),f(s,g(s)))),f(q,f(f(g(s),g(r)),f(q,g(r))))),p))";

/// The same with towers of a function of one argument, put together by calls.
fn towers() -> String {
    let tower =
        |height: usize, data: &str| format!("{}{data}{}", "g(".repeat(height), ")".repeat(height));
    let (lowest, middle, highest) = (tower(9, "f(f(p,q),f(r,s))"), tower(7, "m"), tower(7, "m"));
    let tests = format!("<|t({highest})|>delta)").repeat(8);
    format!(
        "proc Y=sum(u:D,sum(v:D,sum(w:D,sum(x:D,Z(u,v,w,x)))));\
         proc Z(p:D,q:D,r:D,s:D)=U(p,s,{lowest});proc U(p:D,s:D,m:D)=W(p,s,{middle});\
         proc W(p:D,s:D,m:D)={}a(p,s){tests};",
        "(".repeat(8)
    )
}

/// Whole tables of the conditions that take longest known. The other reader takes more than a minute for each.
pub fn dearest_tables() -> Vec<Question> {
    let calls = vec!["Y"; 230].join("+");
    let table = |what, more: String| question(what, file(&calls, &more), u64::MAX);
    let over = |variables| four_sums_with("t", |_| mixed(variables));
    vec![
        table(
            "a whole table of conditions on all four in turn",
            over("pqrs"),
        ),
        table("the same, mostly on the last", over("pqrssssssssssss")),
        table("the same, mostly on the last two", over("rsrsrsrsrsrsrpq")),
        table("the same, towers of !", negated()),
        table("the same, towers of a function of one argument", towers()),
        table(
            "the same, functions of one argument between those of two",
            eight_times(BETWEEN),
        ),
    ]
}

/// So many summands with eight conditions that are all this test, on parameters p, q, r and s, if there is such a table.
pub fn tested(test: &str, summands: usize) -> Option<Question> {
    let calls = vec!["Y"; summands].join("+");
    let sheet = format!("{}proc X={calls};{}init X;", declared(), eight_times(test));
    let file = reader::make_table(sheet.as_bytes()).ok()?;
    Some(question("conditions that are tried", file, u64::MAX))
}

/// Whether a stack has a run of so many steps.
fn lives(table: &Table, stack: &[reader::Frame], steps: usize) -> bool {
    let next = |(_, next): &(Label, Vec<reader::Frame>)| lives(table, next, steps - 1);
    stack.len() <= FRAMES && (steps == 0 || all_steps(table, stack).iter().any(next))
}

/// So many questions, from the start on, that are all answered with a step: at each stack another one that goes on.
pub fn going_on(file: &[u8], count: usize) -> Vec<u64> {
    let table = reader::read_table(file).expect("a table");
    let mut stack = table.start_stack();
    let mut questions = Vec::new();
    for turn in 0..count {
        let steps = all_steps(&table, &stack);
        let mut places = (0..steps.len()).map(|place| (place + turn) % steps.len());
        let k = places.find(|&k| lives(&table, &steps[k].1, 4));
        let k = k.expect("a step that goes on");
        questions.push(k as u64);
        stack.clone_from(&steps[k].1);
    }
    questions
}
