//! Does a piece of work for each item on several threads, with a progress bar on a terminal.

use std::io::{self, IsTerminal, Write};
use std::sync::atomic::{AtomicUsize, Ordering};
use std::sync::OnceLock;
use std::thread::{self, Builder};
use std::time::{Duration, Instant};

/// The dearest call of the library takes about half a megabyte.
const STACK: usize = 4 << 20;

const BAR: usize = 40;
const BETWEEN: Duration = Duration::from_millis(100);

/// What the work gives for each item, in the order of the items. If a thread cannot be had, the others do its part.
pub fn each<T: Sync, R: Send + Sync>(
    items: &[T],
    threads: usize,
    bar: bool,
    work: impl Fn(&T) -> R + Sync,
) -> Vec<R> {
    let slots: Vec<OnceLock<R>> = items.iter().map(|_| OnceLock::new()).collect();
    let (next, done) = (AtomicUsize::new(0), AtomicUsize::new(0));
    let one = || {
        let index = next.fetch_add(1, Ordering::Relaxed);
        let (Some(item), Some(slot)) = (items.get(index), slots.get(index)) else {
            return false;
        };
        slot.get_or_init(|| work(item));
        done.fetch_add(1, Ordering::Relaxed);
        true
    };
    let mut bar = Bar::new(items.len(), bar);
    thread::scope(|scope| {
        for _ in 1..threads.min(items.len()) {
            let another = Builder::new()
                .stack_size(STACK)
                .spawn_scoped(scope, || while one() {});
            if another.is_err() {
                break;
            }
        }
        while one() {
            bar.draw(done.load(Ordering::Relaxed));
        }
    });
    bar.clear();
    slots.into_iter().filter_map(OnceLock::into_inner).collect()
}

/// A line on standard error that is drawn over and over.
struct Bar {
    total: usize,
    shown: bool,
    drawn: Option<Instant>,
}

impl Bar {
    fn new(total: usize, wanted: bool) -> Bar {
        let shown = wanted && total > 0 && io::stderr().is_terminal();
        Bar {
            total,
            shown,
            drawn: None,
        }
    }

    fn draw(&mut self, done: usize) {
        if !self.shown || self.drawn.is_some_and(|last| last.elapsed() < BETWEEN) {
            return;
        }
        self.drawn = Some(Instant::now());
        let full = done * BAR / self.total;
        let _ = write!(
            io::stderr(),
            "\r[{:.<BAR$}] {done} of {}",
            "#".repeat(full),
            self.total
        );
    }

    fn clear(&self) {
        if self.drawn.is_some() {
            let width = BAR + 2 * self.total.to_string().len() + 7;
            let _ = write!(io::stderr(), "\r{:width$}\r", "");
        }
    }
}
