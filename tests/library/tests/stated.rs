//! What the header, the README and the crate state of threads and of stack: the dearest known inputs run in real threads
//! of exactly these sizes, and one that is too small for its call kills this test.

#[path = "stated/dear.rs"]
mod dear;

use std::hint::black_box;
use std::process::Command;
use std::thread;

use library::common::{slow, table_limits, worst, Case};
use library::painted::used;
use library::printing::printings;
use library::questions::usual;
use library::stepping::{ask, ask_all, start, Answer, Frame, ANSWER};
use library::timing::least;
use library::{check_sheet, check_table, large, make_table, print_table, sheets, walk};
use reader::limits::{BLOCK_BYTES, FILE_BYTES, FRAMES};

const HEADER: &str = include_str!("../../../include/wizbratel.h");
const README: &str = include_str!("../../../README.md");
const CRATE: &str = include_str!("../../../bindings/rust/src/lib.rs");

/// The header's number of this name.
fn stated(name: &str) -> usize {
    let line = HEADER
        .lines()
        .find_map(|line| line.strip_prefix("#define ")?.strip_prefix(name));
    let number = line.and_then(|rest| rest.split_whitespace().next());
    number.and_then(|number| number.parse().ok()).expect(name)
}

/// Runs the work in a thread of this size.
fn in_thread(size: usize, work: impl FnOnce() + Send) {
    thread::scope(|scope| {
        let thread = thread::Builder::new().stack_size(size);
        thread.spawn_scoped(scope, work).expect("a thread");
    });
}

/// The sheets that need most stack or most time, and usual ones.
fn dear_sheets() -> Vec<Vec<u8>> {
    let of_four = "(p:Bool,q:Bool,r:Bool,s:Bool)";
    let deepest = worst::chain(
        "act a;",
        of_four,
        |next| format!("{next}(p,q,r,s)"),
        "a.A(p,q,r,s)",
    );
    let deepest = deepest + "init A(0,0,0,0);";
    assert_eq!(check_sheet(deepest.as_bytes()), 0);
    let cases: Vec<Case> = [worst::sheets(), slow::sheets(), table_limits::sheets()].concat();
    let cases = cases.into_iter().map(|case| case.sheet);
    let usual = sheets::accepted().into_iter().map(String::into_bytes);
    cases.chain(usual).chain([deepest.into_bytes()]).collect()
}

/// The table files that need most stack or most time: of sheets and of none.
fn dear_files() -> Vec<Vec<u8>> {
    let printed = printings().into_iter().map(|printing| printing.file);
    let asked = usual().into_iter().map(|question| question.file);
    printed
        .chain(asked)
        .chain([large::large_file(), dear::random_terms(), one_block()])
        .collect()
}

fn one_block() -> Vec<u8> {
    let file = reader::make_table(dear::ONE_BLOCK.as_bytes()).expect("a table");
    assert_eq!(file.len(), BLOCK_BYTES);
    file
}

/// A start, the first step, a step that is not there, and a list.
fn step(file: &[u8]) {
    let (mut frames, mut depth) = ([Frame::default(); FRAMES], 0);
    assert_eq!(start(file, &mut frames, &mut depth), 0);
    let mut answer = Answer::plain(0);
    for k in [0, u64::MAX] {
        black_box(ask(file, &mut frames, &mut depth, k, &mut answer));
    }
    let mut answers = [0; 2 * ANSWER];
    assert_eq!(
        ask_all(file, &mut frames, &mut depth, &[0, u64::MAX], &mut answers),
        0
    );
}

#[test]
fn they_state_the_same() {
    let names = ["SHEETS", "WALK", "TABLES"].map(|name| format!("WIZBRATEL_STACK_{name}"));
    let [sheets, walks, tables] = names.map(|name| stated(&name) >> 10);
    let words = format!(
        "A thread that checks sheets or makes their tables wants {sheets} KiB of stack, one that walks them {walks} KiB, \
         any other {tables} KiB"
    );
    let joined = CRATE.replace("\n//! ", " ");
    assert!(README.contains(&words), "README: {words}");
    assert!(joined.contains(&words), "crate: {words}");
}

fn tables_in_threads(size: usize) {
    for file in dear_files() {
        let (mut out, mut written) = (vec![0; stated("WIZBRATEL_MAX_SHEET")], 0);
        in_thread(size, || {
            assert_eq!(check_table(&file), 0);
            assert!([0, 17].contains(&print_table(&file, &mut out, &mut written)));
            step(&file);
        });
    }
}

fn sheets_in_threads(size: usize) {
    for sheet in dear_sheets() {
        let (mut out, mut written) = (vec![0; FILE_BYTES], 0);
        in_thread(size, || {
            let refused = check_sheet(&sheet);
            assert_eq!(make_table(&sheet, &mut out, &mut written), refused);
        });
    }
}

fn walks_in_threads(size: usize) {
    for sheet in dear_sheets() {
        let mut out = vec![0; stated("WIZBRATEL_MAX_WALK")];
        in_thread(size, || assert!(walk(&sheet, &mut out) > 0));
    }
}

/// The smallest size first, and in one test: glibc keeps the stack of a thread that has ended for the next one that it is
/// large enough for.
#[test]
fn dear_inputs_in_threads_of_the_stated_sizes() {
    tables_in_threads(stated("WIZBRATEL_STACK_TABLES"));
    sheets_in_threads(stated("WIZBRATEL_STACK_SHEETS"));
    walks_in_threads(stated("WIZBRATEL_STACK_WALK"));
}

#[test]
fn a_file_of_one_block() {
    let file = one_block();
    let (mut frames, mut depth) = ([Frame::default(); FRAMES], 0);
    assert_eq!(start(&file, &mut frames, &mut depth), 0);
    let (mut answer, mut answers) = (Answer::plain(0), [0; 2 * ANSWER]);
    let alone = used(|| {
        black_box(ask(&file, &mut frames, &mut depth, u64::MAX, &mut answer));
    });
    let list = used(|| {
        black_box(ask_all(
            &file,
            &mut frames,
            &mut depth,
            &[u64::MAX; 2],
            &mut answers,
        ));
    });
    println!(
        "a question on sum variables to a file of one block: {alone}, in a list {list} of stack"
    );
    let stated = HEADER
        .split("Stack    ")
        .filter_map(|rest| rest.split_once(" KB for a file of 512 bytes; at most 74 KB"));
    let stated: Vec<usize> = stated
        .map(|(bytes, _)| 1000 * bytes.parse::<usize>().expect("KB"))
        .collect();
    assert_eq!(stated.len(), 2, "alone and in a list");
    assert!(alone <= stated[0] && list <= stated[1], "{stated:?}");
}

/// What the header states of a function's stack at the most, in bytes.
fn most(function: &str) -> usize {
    let before = HEADER
        .split_once(&format!(" {function}("))
        .expect(function)
        .0;
    let said = before.rsplit_once("t most ").expect(function).1;
    let number = said.split_once(" KB").expect(function).0;
    1000 * number.parse::<usize>().expect(function)
}

#[test]
fn the_stack_of_tables_is_that_of_the_machine_code() {
    let functions = ["check_table", "print_table", "start", "ask", "ask_all"]
        .map(|name| format!("wizbratel_{name}"));
    let root = concat!(env!("CARGO_MANIFEST_DIR"), "/../..");
    let mut tool = Command::new(format!("{root}/tools/no-recursion"));
    tool.args([
        "--library",
        &format!("{root}/target/staticlib/libwizbratel.a"),
    ]);
    tool.args(functions.iter().flat_map(|name| ["--entry", name]));
    let output = tool.output().expect("tools/no-recursion");
    let said = String::from_utf8_lossy(&output.stdout);
    for function in &functions {
        let chain = format!(" bytes of stack at most: {function} ");
        let bytes = said
            .lines()
            .find_map(|line| line.split_once(&chain))
            .expect(&said)
            .0;
        let bytes: usize = bytes.trim().parse().expect("bytes");
        let most = most(function);
        assert!(
            bytes <= most && most - bytes < 1500,
            "{function}: {bytes}, stated {most}"
        );
    }
}

/// Not held to a bound, since a busy machine takes longer: printed for the header and the README.
#[test]
fn times_of_random_terms() {
    let file = dear::random_terms();
    assert_eq!(file.len(), FILE_BYTES);
    let (mut out, mut written) = (vec![0; 4096], 0);
    let check = least(&mut || assert_eq!(check_table(&file), 0), 20);
    let print = least(
        &mut || assert_eq!(print_table(&file, &mut out, &mut written), 17),
        20,
    );
    println!("a table of random terms: {check:.2?} to check, {print:.2?} to print");
}
