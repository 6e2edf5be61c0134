//! Thousands of sheets: cut off in the middle, run twice at once, timed.

use super::cabinet::{good, table, Cabinet, COMMAND};
use std::fs;
use std::process::{Child, Command, Stdio};
use std::sync::atomic::{AtomicBool, Ordering};
use std::time::{Duration, Instant};

/// A cabinet of sheets in folders of a hundred, with their own tables, and tables that differ beside the odd ones.
struct Many {
    cabinet: Cabinet,
    names: Vec<String>,
    own: Vec<Vec<u8>>,
    old: Vec<u8>,
}

impl Many {
    fn new(name: &str, count: usize) -> Many {
        let cabinet = Cabinet::new(name);
        let old = table(&good(0));
        let names: Vec<String> = (1..=count)
            .map(|i| format!("{:03}/{i:05}", i / 100))
            .collect();
        let own = (1..=count).map(|i| table(&good(i))).collect();
        for (i, name) in names.iter().enumerate() {
            cabinet.put(format!("{name}.pcrl"), good(i + 1));
            if i % 2 == 1 {
                cabinet.put(format!("{name}.table"), &old);
            }
        }
        Many {
            cabinet,
            names,
            own,
            old,
        }
    }

    fn start(&self) -> Child {
        let mut command = Command::new(COMMAND);
        command
            .arg("renew")
            .arg(&self.cabinet.folder)
            .stdout(Stdio::piped())
            .stderr(Stdio::piped());
        command.spawn().unwrap()
    }

    /// Waits until a sheet has its own table and some behind it may have theirs.
    fn wait(&self, until: usize, child: &mut Child) {
        let path = self.cabinet.path(format!("{}.table", self.names[until]));
        let right = || fs::read(&path).is_ok_and(|file| file == self.own[until]);
        while !right() && child.try_wait().unwrap().is_none() {
            std::thread::sleep(Duration::from_millis(1));
        }
    }

    /// Every table that stands is its sheet's own or the old one; how many are their sheets' own.
    fn whole(&self) -> usize {
        let mut right = 0;
        for (i, (name, own)) in self.names.iter().zip(&self.own).enumerate() {
            match fs::read(self.cabinet.path(format!("{name}.table"))) {
                Ok(file) if file == *own => right += 1,
                Ok(file) => assert!(
                    i % 2 == 1 && file == self.old,
                    "{name} is neither old nor new"
                ),
                Err(_) => assert!(i % 2 == 0, "{name} had a table"),
            }
        }
        right
    }

    fn assert_done(&self) {
        assert_eq!(self.whole(), self.names.len());
        assert!(self.cabinet.temporaries().is_empty());
        assert_eq!(self.cabinet.audit().status, Some(0));
    }
}

#[test]
fn cut_off_in_the_middle_and_run_again() {
    let many = Many::new("killed", 5000);
    let mut before = 0;
    for until in [0, 500, 1500, 3000] {
        let mut child = many.start();
        many.wait(until, &mut child);
        child.kill().unwrap();
        child.wait().unwrap();
        let right = many.whole();
        println!(
            "killed at {until}: {right} tables right, {} left over",
            many.cabinet.temporaries().len()
        );
        assert!(right >= before.max(until / 2));
        assert!(until > 0 || right < 5000, "not in the middle");
        before = right;
    }
    let left = many.cabinet.put(
        "001/.wizbratel-00000001-0000000000000002-00000003.part",
        "half",
    );
    let kept = many.cabinet.put("001/.wizbratel-1-2-3.part", "another's");
    assert_eq!(many.cabinet.audit().status, Some(1));
    assert!(left.exists());
    let ran = many.cabinet.renew();
    assert_eq!((ran.status, ran.faults.len()), (Some(0), 0), "{ran:?}");
    assert!(ran.counts.contains(&format!("right {before}, ")), "{ran:?}");
    assert!(!left.exists());
    fs::remove_file(kept).unwrap();
    many.assert_done();
}

/// Ends the thread beside a test, even if the test fails.
struct Ending<'a>(&'a AtomicBool);

impl Drop for Ending<'_> {
    fn drop(&mut self) {
        self.0.store(true, Ordering::Relaxed);
    }
}

#[test]
fn whole_at_any_time_and_two_at_once() {
    let many = Many::new("twice", 2000);
    let done = AtomicBool::new(false);
    std::thread::scope(|scope| {
        let looks = scope.spawn(|| {
            let mut looks = 0;
            while !done.load(Ordering::Relaxed) {
                many.whole();
                looks += 1;
            }
            looks
        });
        let ending = Ending(&done);
        let children: Vec<Child> = (0..3).map(|_| many.start()).collect();
        for child in children {
            let output = child.wait_with_output().unwrap();
            assert!(
                output.status.success() && output.stderr.is_empty(),
                "{output:?}"
            );
        }
        drop(ending);
        println!("looked {} times", looks.join().unwrap());
    });
    many.assert_done();
}

#[test]
fn sheets_that_change_meanwhile() {
    let many = Many::new("changing", 200);
    let done = AtomicBool::new(false);
    std::thread::scope(|scope| {
        scope.spawn(|| {
            let new = many.cabinet.path("new");
            for i in (0..200).cycle() {
                if done.load(Ordering::Relaxed) {
                    break;
                }
                fs::write(&new, good(i + 1)).unwrap();
                fs::rename(&new, many.cabinet.path("changing.pcrl")).unwrap();
            }
        });
        let _ending = Ending(&done);
        for _ in 0..20 {
            let two = [many.start(), many.start()];
            for child in two {
                let output = child.wait_with_output().unwrap();
                let faults = String::from_utf8_lossy(&output.stderr).into_owned();
                assert!(
                    faults.is_empty() || faults.contains("changes all the time"),
                    "{faults}"
                );
            }
        }
    });
    assert_eq!(many.cabinet.renew().status, Some(0));
    many.assert_done();
}

#[test]
fn ten_thousand_in_seconds() {
    let many = Many::new("timed", 10000);
    for (task, counts) in [
        ("renew", "sheets 10000: right 0, made 5000, updated 0, mended 5000, refused 0, unread 0, unwritten 0, no sheet 0, set aside 0\n"),
        ("renew", "sheets 10000: right 10000, made 0, updated 0, mended 0, refused 0, unread 0, unwritten 0, no sheet 0, set aside 0\n"),
        ("audit", "sheets 10000: right 10000, missing 0, earlier 0, differs 0, refused 0, unread 0, no sheet 0, wrong marks 0\n"),
    ] {
        let start = Instant::now();
        let ran = Cabinet::run(task, &many.cabinet.folder);
        let time = start.elapsed();
        println!("{task}: {:.2} s: {}", time.as_secs_f64(), ran.counts.trim_end());
        assert_eq!((ran.status, ran.counts.as_str()), (Some(0), counts));
        assert!(time < Duration::from_secs(60));
    }
}
