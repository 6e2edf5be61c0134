//! Every step of the stacks that generated sheets reach: number, label, depth, all frames, and k past the end.

use library::asked::{asked, lent, meant, same_start};
use library::common::random::Random;
use library::common::{generate, tables, vectors};
use library::files;
use library::made::made_whole;
use library::reached::{piled, reached};
use library::stepping::{frames_of, Frame};
use reader::limits::FRAMES;
use reader::{all_steps, Answer, Table};

/// So many sheets, unless the variable of this name says otherwise.
const SHEETS: u64 = 20_000;
const VARIABLE: &str = "WIZBRATEL_STEPPED";

/// Stacks of a sheet that are looked at.
const STACKS: usize = 12;

/// Answers seen: steps, none, 16, ended.
#[derive(Debug, Default)]
struct Seen {
    steps: u64,
    none: u64,
    too_deep: u64,
    ended: u64,
}

/// Every step of a stack, and what comes past the last.
fn every_step(file: &[u8], table: &Table, stack: &[reader::Frame], seen: &mut Seen, text: &str) {
    let (frames, depth) = (lent(&frames_of(stack)), stack.len());
    let steps = all_steps(table, stack);
    for (k, (label, mut next)) in (0..).zip(steps.iter().cloned()) {
        let wanted = if next.len() > FRAMES {
            seen.too_deep += 1;
            Answer::Refused(16)
        } else {
            seen.steps += 1;
            let depth = next.len() as u64;
            next.resize(FRAMES, reader::Frame::default());
            Answer::Step {
                label,
                depth,
                frames: next,
            }
        };
        let wanted = meant(&wanted, &frames, depth);
        assert_eq!(
            asked(file, &frames, depth, k),
            wanted,
            "{k} of {stack:?}: {text}"
        );
    }
    let past = if stack.is_empty() {
        seen.ended += 1;
        Answer::Ended
    } else {
        seen.none += 1;
        Answer::None
    };
    let wanted = meant(&past, &frames, depth);
    let count = steps.len() as u64;
    for k in [count, count + 1, 1 << 32, u64::MAX] {
        assert_eq!(
            asked(file, &frames, depth, k),
            wanted,
            "{k} of {stack:?}: {text}"
        );
    }
}

/// Every step of the stacks that a file reaches, and of a high pile.
fn every_stack(file: &[u8], random: &mut Random, seen: &mut Seen, text: &str) {
    let table = reader::read_table(file).expect("a table");
    let before = [Frame {
        equation: 7,
        values: [1, 2, 3, 4],
    }; FRAMES];
    assert_eq!(same_start(file, &before, 99, text), 0);
    let stacks = reached(&table, STACKS);
    for stack in &stacks {
        every_step(file, &table, stack, seen, text);
    }
    let deep = random.pick(&stacks);
    if !deep.is_empty() {
        let pile = piled(deep, FRAMES - random.below(4));
        every_step(file, &table, &pile, seen, text);
    }
}

#[test]
fn tables_of_no_sheet() {
    let mut random = Random::new(42);
    let mut seen = Seen::default();
    let listed = vectors::all("tables");
    let mut all: Vec<Vec<u8>> = listed.iter().map(|case| case.bytes("file")).collect();
    for file in files::made() {
        all.extend((0..12).map(|_| files::slightly_changed(&mut random, &file)));
    }
    let accepted = |file: &&Vec<u8>| reader::read_table(file).is_ok();
    for file in all.iter().filter(accepted) {
        every_stack(file, &mut random, &mut seen, "a table of no sheet");
    }
    println!("{seen:?}");
    assert!(seen.steps > 5000 && seen.none > 2000, "{seen:?}");
    assert!(seen.too_deep > 100 && seen.ended > 200, "{seen:?}");
}

/// Sorts of many names, one like an action's among them, and the names of the earlier layout.
#[test]
fn generated_tables_of_both_layouts() {
    let mut random = Random::new(43);
    let mut seen = Seen::default();
    // those of other seeds are large, and have steps by the thousand
    for seed in (0..1000).filter(|seed| seed % 32 < 20) {
        let text = format!("seed {seed}");
        for table in [tables::table(seed), tables::older(seed)] {
            let file = reader::encode_file(&table);
            every_stack(&file, &mut random, &mut seen, &text);
        }
    }
    println!("{seen:?}");
    assert!(seen.steps > 5000 && seen.none > 1000, "{seen:?}");
}

#[test]
fn every_step_of_every_stack() {
    let sheets = std::env::var(VARIABLE).map_or(SHEETS, |number| number.parse().expect(VARIABLE));
    let mut random = Random::new(41);
    let mut seen = Seen::default();
    for seed in 0..sheets {
        let text = match seed % 4 {
            0 => generate::sheet(seed),
            1 => generate::with_heads(seed),
            2 => generate::with_names(seed),
            _ => generate::with_operators(seed),
        };
        let Ok(file) = made_whole(text.as_bytes()) else {
            continue;
        };
        every_stack(&file, &mut random, &mut seen, &text);
        if seed % 4 == 2 {
            every_stack(&files::earlier(&file), &mut random, &mut seen, &text);
        }
    }
    println!("{seen:?}");
    let least = sheets / 10;
    assert!(
        seen.steps > 10 * least && seen.none > 10 * least,
        "{seen:?}"
    );
    assert!(seen.too_deep > least && seen.ended > least, "{seen:?}");
}
