//! Generated sheets: stacks against the terms they stand for, step k against all steps, lists of
//! questions against runs, and files against tables.

mod common;

use std::collections::HashMap;

use common::random::Random;
use common::{generate, lent};
use reader::{all_steps, ask_list, ask_table, equal_to, step};
use reader::{check_sheet, encode_file, linear_table, make_table, read_table};
use reader::{Answer, Frame, Label, Sheet, Table, Term, Terms, Transitions};

const SEEDS: u64 = 5000;
const STACKS: usize = 40;

/// Every accepted sheet of the seeds, with operators or names of many kinds or neither, with its table.
fn accepted(seeds: u64) -> Vec<(String, Sheet, Table)> {
    let mut found = Vec::new();
    for seed in 0..seeds {
        let text = match seed % 4 {
            0 => generate::sheet(seed),
            1 => generate::with_names(seed),
            _ => generate::with_operators(seed),
        };
        let sheet = check_sheet(text.as_bytes()).unwrap_or_else(|n| panic!("{n}: {text}"));
        match linear_table(&sheet) {
            Ok(table) => found.push((text, sheet, table)),
            Err(number) => assert_eq!(number, 10, "{text}"),
        }
    }
    found
}

/// The first stacks reached from the start, nearest first.
fn reached(table: &Table, most: usize) -> Vec<Vec<Frame>> {
    let mut stacks = vec![table.start_stack()];
    let mut next = 0;
    while next < stacks.len() && stacks.len() < most {
        for (_, stack) in all_steps(table, &stacks[next]) {
            if !stacks.contains(&stack) {
                stacks.push(stack);
            }
        }
        next += 1;
    }
    stacks.truncate(most);
    stacks
}

fn counted(steps: impl IntoIterator<Item = (Label, Term)>) -> HashMap<(Label, Term), usize> {
    let mut counts = HashMap::new();
    for step in steps {
        *counts.entry(step).or_insert(0) += 1;
    }
    counts
}

#[test]
fn most_generated_sheets_are_accepted_and_many_go_on() {
    let sheets = accepted(SEEDS);
    let many = |(_, _, table): &&(String, Sheet, Table)| reached(table, 10).len() == 10;
    let going_on = sheets.iter().filter(many).count();
    assert!(sheets.len() > 4000, "{}", sheets.len());
    assert!(going_on > 1000, "{going_on}");
}

#[test]
fn each_stack_has_the_steps_of_the_term_it_stands_for() {
    for (text, sheet, table) in accepted(SEEDS) {
        let terms = Terms::of(&sheet);
        assert_eq!(terms.of_stack(&table.start_stack()), terms.start());
        for stack in reached(&table, STACKS) {
            let by_term = terms.steps(&terms.of_stack(&stack));
            let by_table = all_steps(&table, &stack).into_iter();
            let by_table = by_table.map(|(label, next)| (label, terms.of_stack(&next)));
            assert_eq!(counted(by_table), counted(by_term), "{text}");
        }
    }
}

#[test]
fn stacks_are_equal_exactly_when_their_terms_are() {
    let (mut same, mut different) = (0, 0);
    for (text, sheet, table) in accepted(400) {
        let terms = Terms::of(&sheet);
        let stacks = reached(&table, 5);
        for (p, q) in stacks
            .iter()
            .flat_map(|p| stacks.iter().map(move |q| (p, q)))
        {
            for n in 0..4 {
                let (left, right) = (terms.of_stack(p), terms.of_stack(q));
                let of_terms = equal_to(n, (&terms, &left), (&terms, &right));
                let of_stacks = equal_to(n, (&table, p), (&table, q));
                let mixed = equal_to(n, (&table, p), (&terms, &right));
                assert_eq!((of_stacks, mixed), (of_terms, of_terms), "{text}");
                if of_terms {
                    same += 1;
                } else {
                    different += 1;
                }
            }
        }
    }
    assert!(same > 1000 && different > 1000, "{same} {different}");
}

#[test]
fn step_k_is_the_one_listed() {
    for (text, _, table) in accepted(SEEDS) {
        for stack in reached(&table, STACKS) {
            let steps = all_steps(&table, &stack);
            for (k, listed) in steps.iter().enumerate() {
                assert_eq!(
                    step(&table, &stack, k as u64).as_ref(),
                    Some(listed),
                    "{text}"
                );
            }
            let past = [steps.len() as u64, u64::MAX];
            assert_eq!(
                past.map(|k| step(&table, &stack, k)),
                [None, None],
                "{text}"
            );
        }
    }
}

#[test]
fn files_are_read_as_the_tables_written() {
    for (text, _, table) in accepted(SEEDS) {
        let file = make_table(text.as_bytes()).unwrap();
        assert_eq!(encode_file(&table), file);
        assert_eq!(read_table(&file), Ok(table));
    }
}

/// In the earlier layout a table has the same steps, but for the names of sorts.
#[test]
fn earlier_files_step_as_the_tables_written() {
    for (text, _, table) in accepted(SEEDS) {
        let older = read_table(&encode_file(&table.older())).expect(&text);
        assert_eq!(older, table.older());
        for stack in reached(&table, 5) {
            let shown = |table: &Table| {
                let steps = all_steps(table, &stack).into_iter();
                let shown: Vec<_> = steps
                    .map(|(label, next)| (label.to_string(), next))
                    .collect();
                shown
            };
            assert_eq!(shown(&older), shown(&table), "{text}");
        }
    }
}

#[test]
fn lists_of_questions_follow_a_run_of_the_first_term() {
    let mut random = Random::new(7);
    let mut answers_seen = [0; 4];
    for (text, sheet, table) in accepted(1000) {
        let terms = Terms::of(&sheet);
        let file = encode_file(&table);
        let start = starting_stack(&mut random, &table);
        let questions: Vec<u64> = (0..12).map(|_| random.below(3) as u64).collect();
        let (mut frames, mut depth) = (lent(&start), start.len() as u64);
        let answers = ask_list(&file, &mut frames, &mut depth, &questions);
        let mut stack = start;
        let mut term = terms.of_stack(&stack);
        for (answer, &k) in answers.iter().zip(&questions) {
            answers_seen[kind(answer)] += 1;
            let wanted = ask_table(&table, &lent(&stack), stack.len() as u64, k);
            assert_eq!(*answer, wanted, "{text}");
            let Answer::Step { label, .. } = answer else {
                continue;
            };
            let (of_step, next) = all_steps(&table, &stack).swap_remove(k as usize);
            assert_eq!(*label, of_step);
            let onward = (label.clone(), terms.of_stack(&next));
            assert!(terms.steps(&term).contains(&onward), "{text}");
            (stack, term) = (next, onward.1);
        }
        assert_eq!((frames, depth), (lent(&stack), stack.len() as u64));
    }
    assert!(
        answers_seen.iter().all(|&count| count > 20),
        "{answers_seen:?}"
    );
}

/// A stack near the start, or a high pile of it.
fn starting_stack(random: &mut Random, table: &Table) -> Vec<Frame> {
    let near = random.pick(&reached(table, 6)).clone();
    if near.is_empty() || random.one_in(2) {
        return near;
    }
    let pile = near.iter().cycle().copied();
    pile.take(60 + random.below(5)).collect()
}

fn kind(answer: &Answer) -> usize {
    match answer {
        Answer::Step { .. } => 0,
        Answer::None => 1,
        Answer::Ended => 2,
        Answer::Refused(number) => {
            assert_eq!(*number, 16);
            3
        }
    }
}
