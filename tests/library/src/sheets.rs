//! Sheets of given lengths, accepted and of the usual kind: functions, sums, conditionals, calls.

use reader::limits::PROCESSES;

/// The shortest of them: one process of one action.
pub const SHORT: &str = "act a;proc X=a.X;\ninit X;";

const DECLARED: &str = "\
sort D 4;
sort Id 3;
func next:D->D=1,2,3,0;
func same:D#D->Bool=1,0,0,0,0,1,0,0,0,0,1,0,0,0,0,1;
func not:Bool->Bool=1,0;
act read:D;
act send:D#Bool;
act ack:Id;
act lost;
";

/// Process `number` of so many; every other one has a call at its head.
fn process(number: usize, count: usize) -> String {
    let next = (number + 1) % count;
    let head = if number.is_multiple_of(2) && next > number {
        format!(" + P{next}(next(d),b,i)")
    } else {
        String::new()
    };
    format!(
        "proc P{number}(d:D,b:Bool,i:Id)=
  sum(e:D,read(e).(send(next(e),b).P{next}(e,not(b),i)<|same(d,e)|>lost))
  + ack(i).P{next}(next(d),b,0)<|not(b)|>tau.P{number}(d,1,2)
  + sum(j:Id,ack(j).(send(d,b)+tau).P{next}(d,0,j))
  + lost.P{next}(next(next(d)),not(b),i){head}"
    )
}

/// So many processes with what is declared, but not yet closed.
fn open_sheet(count: usize) -> String {
    let processes: Vec<String> = (0..count).map(|number| process(number, count)).collect();
    DECLARED.to_string() + &processes.join(";\n")
}

/// An accepted sheet of exactly this length, from 500 bytes on: as many processes as it holds, the last one with more
/// summands, and a few line feeds.
pub fn typical(length: usize) -> String {
    let (summand, end) = ("+lost", ";\ninit P0(0,1,2);");
    let fits = |sheet: &String| sheet.len() + end.len() <= length;
    let sheets = (1..=PROCESSES).rev().map(open_sheet);
    let sheet = sheets.into_iter().find(fits).expect("a longer sheet");
    let spare = length - sheet.len() - end.len();
    let feeds = "\n".repeat(spare % summand.len());
    sheet + &summand.repeat(spare / summand.len()) + end + &feeds
}

/// The sheets that are timed: 25, 500 and 4,096 bytes.
pub fn accepted() -> [String; 3] {
    [SHORT.to_string(), typical(500), typical(4096)]
}
