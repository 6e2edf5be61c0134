//! The stack that a call uses, measured, and the dearest sheets in a thread of 1 MiB.

use std::hint::black_box;
use std::time::Duration;

use library::common::{slow, table_limits, within, worst};
use library::painted::used;
use library::printing::{printings, Printing};
use library::questions::{usual, Question};
use library::stepping::{ask, ask_all, start, Answer, ANSWER};
use library::{check_sheet, check_table, large, make_table, print_table, sheets, walk};

/// Bytes of stack that `make_table` and `check_sheet` may use, for any input.
const MOST: usize = 128 << 10;

/// Bytes of stack that the check of a table file and the stepping functions may use, for any input.
const MOST_STEPPING: usize = 72 << 10;

/// The same for a file of one block.
const MOST_ONE_BLOCK: usize = 24 << 10;

/// Bytes of a block.
const BLOCK: usize = 512;

/// Bytes of stack that the walk of a sheet may use, for any input.
const MOST_WALKING: usize = 264 << 10;

/// Bytes of stack that printing a table may use, for any input.
const MOST_PRINTING: usize = 96 << 10;

/// The same as the first for a sheet of up to 64 bytes, but for one whose stream has no room in 1,024: that one is
/// tried again with the long arrays.
const MOST_SHORT: usize = 24 << 10;

/// A sheet of up to so many bytes is short.
const SHORT: usize = 64;

/// Stack for the table of a sheet, its output apart.
fn making(sheet: &[u8]) -> usize {
    let mut out = vec![0; 65_536];
    let mut written = 0;
    used(|| {
        make_table(sheet, &mut out, &mut written);
    })
}

/// Holds what a sheet needs to its bound, and hands on the larger of both.
fn held(what: &str, sheet: &[u8]) -> usize {
    let checking = used(|| {
        black_box(check_sheet(sheet));
    });
    let making = making(sheet);
    let most = if sheet.len() <= SHORT {
        MOST_SHORT
    } else {
        MOST
    };
    assert!(
        making <= most && checking <= most,
        "{what}: {making}, {checking}"
    );
    making.max(checking)
}

#[test]
fn sheets_of_usual_lengths() {
    for sheet in sheets::accepted() {
        let (length, bytes) = (sheet.len(), sheet.as_bytes());
        println!(
            "a sheet of {length} bytes: {} of stack",
            held("accepted", bytes)
        );
        assert!(making(bytes) > 0, "measured");
    }
}

#[test]
fn dearest_sheets() {
    let cases = [worst::sheets(), slow::sheets(), table_limits::sheets()].concat();
    let needs = cases
        .iter()
        .map(|case| (held(&case.what, &case.sheet), &case.what));
    let mut needs: Vec<(usize, &String)> = needs.collect();
    needs.sort();
    for (bytes, what) in needs.iter().rev().take(5) {
        println!("{what}: {bytes} of stack");
    }
}

#[test]
fn a_short_sheet_that_is_refused_by_10() {
    let sheet = format!("act a;proc X=a<|{}1|>a;init X;", "!".repeat(31));
    assert_eq!(check_sheet(sheet.as_bytes()), 10);
    let bytes = held("refused by 10", sheet.as_bytes());
    println!("a short sheet, refused by 10: {bytes} of stack");
}

#[test]
fn the_largest_table_file() {
    let file = large::large_file();
    let bytes = used(|| {
        black_box(check_table(&file));
    });
    println!("a table file of {} bytes: {bytes} of stack", file.len());
    assert!(bytes <= MOST_STEPPING);
}

#[test]
fn walks() {
    let cases = [worst::sheets(), slow::sheets()].concat();
    let usual = sheets::accepted().into_iter().map(|sheet| {
        let what = format!("a sheet of {} bytes", sheet.len());
        (what, sheet.into_bytes(), true)
    });
    let dear = cases.into_iter().map(|case| (case.what, case.sheet, false));
    for (what, sheet, said) in usual.chain(dear) {
        let mut out = [0; 256];
        let bytes = used(|| {
            black_box(walk(&sheet, &mut out));
        });
        if said {
            println!("walk {what}: {bytes} of stack");
        }
        assert!(bytes <= MOST_WALKING, "{what}: {bytes}");
    }
}

#[test]
fn printing() {
    let refused = Printing {
        what: "128 blocks, refused by 17",
        file: large::large_file(),
    };
    for Printing { what, file } in printings().into_iter().chain([refused]) {
        let (mut out, mut written) = ([0; 4096], 0);
        let bytes = used(|| {
            black_box(print_table(&file, &mut out, &mut written));
        });
        println!("print {what}: {bytes} of stack");
        assert!(bytes <= MOST_PRINTING, "{what}: {bytes}");
    }
}

/// Stack for a question, a list of ten, a start and a check of its file.
fn stepping(question: &Question) -> [usize; 4] {
    let Question {
        file, frames, k, ..
    } = question;
    let (mut lent, mut depth) = (frames.clone(), 1);
    let mut answer = Answer::plain(0);
    let one = used(|| {
        black_box(ask(file, &mut lent, &mut depth, *k, &mut answer));
    });
    let (mut lent, mut depth) = (frames.clone(), 1);
    let mut answers = [0; 10 * ANSWER];
    let list = used(|| {
        black_box(ask_all(
            file,
            &mut lent,
            &mut depth,
            &[*k; 10],
            &mut answers,
        ));
    });
    let begin = used(|| {
        black_box(start(file, &mut lent, &mut depth));
    });
    let check = used(|| {
        black_box(check_table(file));
    });
    [one, list, begin, check]
}

#[test]
fn step_questions() {
    let mut single = 0;
    for question in usual() {
        let blocks = question.file.len() / BLOCK;
        let most = if blocks == 1 {
            MOST_ONE_BLOCK
        } else {
            MOST_STEPPING
        };
        single += usize::from(blocks == 1);
        let needs = stepping(&question);
        let [one, list, begin, check] = needs;
        let what = question.what;
        println!("{what}, {blocks} blocks: {one}, in a list {list}, a start {begin}, a check {check} of stack");
        assert!(needs.iter().all(|need| *need <= most), "{what}");
    }
    assert!(single > 0, "no file of one block");
}

#[test]
fn dearest_sheets_in_a_thread_of_1_mib() {
    for case in [worst::sheets(), slow::sheets()].concat() {
        let sheet = case.sheet.clone();
        let made = move || library::made::made_whole(&sheet).err().unwrap_or(0);
        assert_eq!(
            within(Duration::from_secs(5), made),
            case.wanted,
            "{}",
            case.what
        );
    }
}
