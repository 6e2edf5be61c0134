//! Every step of the stacks that generated sheets reach, beside the reader's.

mod common;

use std::collections::{HashMap, HashSet};

use common::{frames_of, generate, label_of};
use wizbratel::{Stack, Table, Taken, FRAMES};

/// Sheets, and stacks of each that are looked at.
const SHEETS: u64 = 1500;
const STACKS: usize = 12;

/// Every step of a stack is the reader's; the stacks that it leads to.
fn same_steps<'t>(stack: &Stack<'t>, table: &reader::Table, text: &str) -> Vec<Stack<'t>> {
    let used = stack.frames().iter();
    let used: Vec<reader::Frame> = used
        .map(|frame| reader::Frame::new(frame.equation.into(), &frame.values))
        .collect();
    let wanted = reader::all_steps(table, &used);
    let steps: Vec<_> = stack.steps().collect();
    assert_eq!(steps.len(), wanted.len(), "{text}");
    assert_eq!(stack.step_count(), wanted.len() as u64, "{text}");
    let mut next = Vec::new();
    for ((k, step), (label, frames)) in (0..).zip(steps).zip(wanted) {
        assert_eq!(step.k, k);
        match step.way {
            Err(refused) => assert!(refused.number() == 16 && frames.len() > FRAMES),
            Ok((found, stack)) => {
                assert_eq!(found.to_string(), label.to_string(), "{text}");
                assert_eq!(label_of(&found), label, "{text}");
                assert_eq!(stack.frames(), frames_of(&frames), "{text}");
                next.push(stack);
            }
        }
    }
    next
}

#[test]
fn steps_of_reached_stacks() {
    let mut seen_steps = 0;
    for seed in 0..SHEETS {
        let text = generate::with_names(seed);
        let Ok(table) = Table::make(text.as_bytes()) else {
            continue;
        };
        let read = reader::read_table(table.file()).expect(&text);
        let (mut queue, mut seen) = (vec![table.start()], HashSet::new());
        while let Some(stack) = queue.pop() {
            if seen.len() < STACKS && seen.insert(stack.clone()) {
                let next = same_steps(&stack, &read, &text);
                seen_steps += next.len();
                queue.extend(next);
            }
        }
    }
    assert!(seen_steps > 10_000, "{seen_steps}");
}

#[test]
fn a_list_is_one_step_after_another() {
    let sheet = include_bytes!("../../../examples/calls.pcrl");
    let table = Table::make(sheet).unwrap();
    let ks: Vec<u64> = (0..500).map(|at| u64::from(at % 7 == 3) + at % 2).collect();
    let (mut listed, mut single) = (table.start(), table.start());
    for (taken, &k) in listed.take_all(&ks).into_iter().zip(&ks) {
        match (taken, single.take(k)) {
            (Taken::Step(label, depth), Ok(Some(found))) => {
                assert_eq!((label, depth), (found, single.depth()));
            }
            (Taken::None, Ok(None)) => assert!(!single.is_ended()),
            (Taken::Ended, Ok(None)) => assert!(single.is_ended()),
            (Taken::TooDeep, Err(refused)) => assert_eq!(refused.number(), 16),
            other => panic!("{other:?}"),
        }
    }
    assert_eq!(listed, single);
}

#[test]
fn the_deepest_stack() {
    let table = Table::make(b"act a;proc X=a.X.X;init X;").unwrap();
    let mut stack = table.start();
    let taken = stack.take_all(&[0; 70]);
    let deep = |taken: &&Taken| **taken == Taken::TooDeep;
    assert_eq!((stack.depth(), taken.iter().filter(deep).count()), (64, 7));
    let before = stack.clone();
    assert_eq!(stack.take(0).unwrap_err().number(), 16);
    assert_eq!(stack, before);
    let steps: Vec<_> = stack.steps().collect();
    assert!(steps.len() == 1 && steps[0].way.is_err());
    assert_eq!(stack.step_count(), 1);
}

#[test]
fn stacks_as_keys() {
    let (one, other) = (
        Table::make(b"act a;proc X=a.X;init X;").unwrap(),
        Table::make(b"act b;proc X=b.X;init X;").unwrap(),
    );
    let again = one.clone();
    assert_eq!(one.start(), again.start());
    assert_ne!(one.start(), other.start());
    let stacks = HashMap::from([(one.start(), 1), (other.start(), 2)]);
    assert_eq!((stacks[&again.start()], stacks[&other.start()]), (1, 2));
    assert_eq!(
        format!("{:?}", one.start()),
        "[Frame { equation: 0, values: [0, 0, 0, 0] }]"
    );
}

#[test]
fn any_number_of_threads() {
    let table = Table::make(include_bytes!("../../../examples/charger.pcrl")).unwrap();
    let walk = || {
        let mut stack = table.start();
        stack.take_all(&[0; 1000])
    };
    let wanted = walk();
    std::thread::scope(|scope| {
        let threads: Vec<_> = (0..4).map(|_| scope.spawn(walk)).collect();
        for thread in threads {
            assert_eq!(thread.join().unwrap(), wanted);
        }
    });
}
