//! The crate in threads of exactly the sizes that it states: one that is too small kills this test.

use std::thread;

use wizbratel::{check, walk, Table, STACK_SHEETS, STACK_TABLES, STACK_WALK};

/// Sixteen processes, each of which calls the next at the head: the sheets known to take most stack.
fn deepest() -> String {
    let letters: Vec<char> = ('A'..='P').collect();
    let parameters = "(p:Bool,q:Bool,r:Bool,s:Bool)";
    let calls = letters
        .windows(2)
        .map(|pair| format!("proc {}{parameters}={}(p,q,r,s);", pair[0], pair[1]));
    let calls: String = calls.collect();
    format!("act a;{calls}proc P{parameters}=a.A(p,q,r,s);init A(0,0,0,0);")
}

/// A table of 128 blocks: 255 summands that call with long arguments.
fn large() -> Table {
    let long = "!".repeat(30) + "p";
    let call = format!(
        "a.{}",
        vec![format!("X({long},{long},{long},{long})"); 2].join(".")
    );
    let sheet = format!(
        "act a;proc X(p:Bool,q:Bool,r:Bool,s:Bool)={};proc Y(p:Bool,q:Bool,r:Bool,s:Bool)={call};init X(0,0,0,0);",
        vec!["Y(p,q,r,s)"; 240].join("+")
    );
    Table::make(sheet.as_bytes()).unwrap()
}

fn in_thread<T: Send>(size: usize, work: impl FnOnce() -> T + Send) -> T {
    thread::scope(|scope| {
        let thread = thread::Builder::new()
            .stack_size(size)
            .spawn_scoped(scope, work);
        thread.expect("a thread").join().expect("its end")
    })
}

/// All that a table is used for.
fn use_table(table: &Table) {
    assert_eq!(&Table::read(table.file()).unwrap(), table);
    assert_eq!(table.print().unwrap_err().number(), 17);
    let mut stack = table.start();
    assert_eq!(stack.step_count(), 240);
    assert!(stack.take(239).unwrap().is_some());
    assert_eq!(stack.take_all(&[0; 10]).len(), 10);
}

/// The smallest size first, and in one test: glibc keeps the stack of a thread that has ended for the next one that it is
/// large enough for.
#[test]
fn threads_of_the_stated_sizes() {
    let (table, sheet) = (large(), deepest());
    assert!(table.file().len() > 60_000, "{table:?}");
    in_thread(STACK_TABLES, || use_table(&table));
    in_thread(STACK_SHEETS, || {
        check(sheet.as_bytes()).unwrap();
        Table::make(sheet.as_bytes()).unwrap()
    });
    let text = in_thread(STACK_WALK, || walk(sheet.as_bytes()));
    assert_eq!(text.lines().count(), 9);
}
