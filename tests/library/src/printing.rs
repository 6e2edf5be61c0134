//! Tables that are printed and timed. Their sheets are written as they are printed.

use reader::limits::{CONDITIONS, NAME_LENGTH, PROCESSES, SHEET_BYTES, SUMMANDS};

/// A table file that prints, and what it is.
pub struct Printing {
    pub what: &'static str,
    pub file: Vec<u8>,
}

/// Stream bytes of a block.
const BLOCK: usize = 506;

const DECLARED: &str = "sort s1 4;sort s2 3;func f0:s1->s1=1,2,3,0;\
func f1:s1#s1->Bool=1,0,0,0,0,1,0,0,0,0,1,0,0,0,0,1;func f2:Bool->Bool=1,0;\
act read:s1;act give:s1#Bool;act ack:s2;";

/// Process `number` of so many.
fn process(number: usize, count: usize) -> String {
    let next = (number + 1) % count;
    format!(
        "proc p{number}(v0:s1,v1:Bool,v2:s2)=\
         sum(v3:s1,read(v3).p{next}(v3,f2(v1),v2)<|f1(v0,v3)|>delta)\
         +(ack(v2).p{next}(f0(v0),v1,0)<|f1(v0,1)|>delta)<|f2(v1)|>delta\
         +delta<|f2(v1)|>tau.p{number}(v0,1,2)\
         +sum(v3:s2,ack(v3).p{next}(v0,0,v3).p0(f0(f0(v0)),f2(v1),v2))"
    )
}

/// A sheet of so many processes, with as many more summands and with an action of this name.
fn sheet(count: usize, summands: usize, name: &str) -> String {
    let processes: Vec<String> = (0..count).map(|number| process(number, count)).collect();
    let action = if name.is_empty() {
        String::new()
    } else {
        format!("act {name};")
    };
    let (processes, more) = (processes.join(";"), "+tau".repeat(summands));
    format!("{DECLARED}{action}{processes}{more};init p0(0,1,2);")
}

/// The sheet whose measure is the goal: as many processes as it holds, then summands, then an action's name.
fn grown(goal: usize, measure: impl Fn(&str) -> usize) -> String {
    // an action with a name of one letter is the least that can be put in
    let least = measure(&sheet(1, 0, "a")) - measure(&sheet(1, 0, ""));
    let fits = |sheet: &String| measure(sheet) + least <= goal;
    let mut counts = (1..=PROCESSES).rev();
    let count = counts.find(|&count| fits(&sheet(count, 0, "")));
    let count = count.expect("a longer goal");
    let summands = (0..SUMMANDS).take_while(|&more| fits(&sheet(count, more, "")));
    let summands = summands.last().unwrap_or(0);
    let names = (1..=NAME_LENGTH).map(|length| "z".repeat(length));
    let mut sheets = names.map(|name| sheet(count, summands, &name));
    let met = sheets.find(|sheet| measure(sheet) == goal);
    met.expect("a name that makes it as long")
}

fn made(sheet: &str) -> Vec<u8> {
    reader::make_table(sheet.as_bytes()).expect(sheet)
}

/// Bytes of the stream of a sheet's table.
fn stream_length(sheet: &str) -> usize {
    let table = reader::read_table(&made(sheet)).expect("a table");
    reader::encode(&table).len()
}

/// The most blocks that a text of 4,096 bytes stands for: the most summands of one letter, and then function values,
/// which take two bytes of text each.
fn most_blocks() -> String {
    let values = |count: usize| vec!["0"; count].join(",");
    let large = (0..6).map(|i| format!("func f{i}:s1#s1->s1={};", values(256)));
    let small = (6..13).map(|i| format!("func f{i}:s1->s1={};", values(16)));
    let functions: String = large.chain(small).collect();
    let summands = vec!["a"; SUMMANDS].join("+");
    format!("sort s1 16;{functions}act a;proc p0={summands};init p0;")
}

/// Summands with 16 brackets open, as many as a text has room for: four of sums, seven of conditionals, five of data.
fn most_brackets() -> String {
    let test = |part: String| format!("{part}<|f0(f0(f0(f0(f0(v3)))))|>delta");
    let tests = (1..CONDITIONS).fold(test("a".to_string()), |part, _| test(format!("({part})")));
    let sums: String = (0..4).map(|i| format!("sum(v{i}:Bool,")).collect();
    let summand = format!("{sums}{tests}))))");
    let sheet =
        |summands: &str| format!("func f0:Bool->Bool=1,0;act a;proc p0={summands};init p0;");
    let count = (SHEET_BYTES - sheet("").len()) / (summand.len() + 1);
    sheet(&vec![summand; count].join("+"))
}

/// One block, hardly used and full, the longest text, the largest file, and the most brackets.
pub fn printings() -> [Printing; 5] {
    let printing = |what, sheet: &str| Printing {
        what,
        file: made(sheet),
    };
    [
        printing("one block, 27 bytes", "act a;proc p0=a.p0;init p0;"),
        printing("a full block", &grown(BLOCK, stream_length)),
        printing("a text of 4,096 bytes", &grown(SHEET_BYTES, str::len)),
        printing("the most blocks", &most_blocks()),
        printing("the most brackets", &most_brackets()),
    ]
}
