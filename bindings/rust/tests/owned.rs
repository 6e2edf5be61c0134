//! Stacks that own their table, beside those that borrow it; conversions and texts of errors.

use std::collections::HashSet;
use std::thread;

use wizbratel::{Question, Refused, Stack, Table};

const SHEET: &str = "sort D 3; act a: D; proc X(d: D) = sum(e: D, a(e).X(e)); init X(0);";

/// What a bench would keep.
struct Bench {
    stack: Stack<'static>,
    seen: HashSet<Stack<'static>>,
}

impl Bench {
    fn new(sheet: &str) -> Result<Bench, Refused> {
        let stack = sheet.parse::<Table>()?.into_start();
        let seen = HashSet::from([stack.clone()]);
        Ok(Bench { stack, seen })
    }

    fn take(&mut self, k: u64) -> Result<bool, Refused> {
        let taken = self.stack.take(k)?.is_some();
        self.seen.insert(self.stack.clone());
        Ok(taken)
    }
}

#[test]
fn a_bench_that_holds_its_stack() {
    let mut bench = Bench::new(SHEET).unwrap();
    for k in [0, 1, 2, 1, 0] {
        assert!(bench.take(k).unwrap());
    }
    assert!(!bench.take(3).unwrap());
    assert_eq!(bench.seen.len(), 3);
    // it goes to another thread, and outlives what made it
    let ended = thread::spawn(move || bench.stack.steps().count()).join();
    assert_eq!(ended.unwrap(), 3);
}

#[test]
fn owned_and_borrowed_stacks_are_alike() {
    let table: Table = SHEET.parse().unwrap();
    let (lent, owned) = (table.start(), table.start().into_owned());
    assert_eq!((lent.table(), &lent), (owned.table(), &owned));
    assert!(lent.steps().eq(owned.steps()));
    let later = owned.steps().nth(2).unwrap().way.unwrap().1;
    assert!(
        std::ptr::eq(later.table(), owned.table()),
        "the table is shared"
    );
    assert!(
        std::ptr::eq(later.clone().into_owned().table(), owned.table()),
        "and not copied again"
    );
    assert_ne!(later, owned);
    drop(owned);
    assert_eq!(later.frames()[0].values[0], 2);
}

#[test]
fn conversions() {
    let table: Table = SHEET.parse().unwrap();
    assert_eq!(Table::try_from(table.file()), Ok(table.clone()));
    assert_eq!(Table::try_from(table.file().to_vec()), Ok(table));
    assert_eq!(
        Table::try_from(vec![0; 512]).unwrap_err().question(),
        Question::Block
    );
    assert_eq!("".parse::<Table>().unwrap_err().question(), Question::Form);
    for (index, question) in Question::ALL.iter().enumerate() {
        assert_eq!(usize::from(u8::from(*question)), index + 1);
        assert_eq!(Question::try_from(question.number()), Ok(*question));
        assert_eq!(question.to_string(), question.words());
    }
    let none = Question::try_from(18).unwrap_err();
    assert_eq!(none.to_string(), "no question has the number 18");
}

#[test]
fn a_refusal_that_is_unwrapped_says_the_words() {
    let refused = Table::try_from(vec![]).unwrap_err();
    let words = Question::FileLength.words();
    assert_eq!(format!("{refused:?}"), format!("Refused(12: {words})"));
    assert_eq!(
        refused.to_string(),
        format!("refused by question 12: {words}")
    );
}
