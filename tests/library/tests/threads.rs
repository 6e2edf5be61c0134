//! Any number of threads may call at once: each gets the reader's answers, whatever the others do.

use std::thread;

use library::asked::{lent, same};
use library::common::generate;
use library::made;
use library::printed;
use library::stepping::frames_of;
use reader::limits::{FILE_BYTES, SHEET_BYTES};

/// Threads at once, and sheets of each.
const THREADS: u64 = 4;
const SHEETS: u64 = 800;

/// A sheet's table, its text, and steps of it.
fn made_and_stepped(seed: u64) -> bool {
    let text = generate::with_heads(seed);
    if made::same(text.as_bytes(), FILE_BYTES, "at once") != 0 {
        return false;
    }
    let file = made::made_whole(text.as_bytes()).expect("a file");
    printed::same(&file, SHEET_BYTES, &text);
    let table = reader::read_table(&file).expect("a table");
    let frames = lent(&frames_of(&table.start_stack()));
    for k in 0..3 {
        same(&file, &frames, 1, k, &text);
    }
    true
}

#[test]
fn several_threads_at_once() {
    let work = |thread: u64| {
        let seeds = thread * SHEETS..(thread + 1) * SHEETS;
        move || seeds.filter(|&seed| made_and_stepped(seed)).count()
    };
    let threads: Vec<_> = (0..THREADS)
        .map(|thread| thread::spawn(work(thread)))
        .collect();
    for thread in threads {
        let accepted = thread.join().expect("no difference");
        assert!(accepted > 100, "{accepted}");
    }
}
