//! Every step question of the vectors that is put to used frames.

mod common;

use common::json::Json;
use common::random::Random;
use common::{frames_of, label_of, number, vectors};
use reader::Answer;
use wizbratel::{Asked, Frame, Label, Refused, Stack, Table, Taken, FRAMES};

/// Frames of a case, zeros behind them.
fn frames(case: &Json, key: &str, count: usize) -> Vec<Frame> {
    let mut frames = frames_of(&vectors::frames(case, key));
    frames.resize(count, Frame::default());
    frames
}

/// Whether a case lends just what a stack has: 64 frames with zeros behind the used ones.
fn expressible(case: &Json, lent: &[Frame], depth: usize) -> bool {
    let behind = lent.get(depth..).unwrap_or_default();
    case.number("lent") as usize == FRAMES
        && depth <= FRAMES
        && behind.iter().all(|frame| *frame == Frame::default())
}

/// The reader's answer that a step to this stack is.
fn step(label: &Label, stack: &Stack) -> Answer {
    let frame = |frame: &Frame| reader::Frame::new(frame.equation.into(), &frame.values);
    let mut frames: Vec<reader::Frame> = stack.frames().iter().map(frame).collect();
    frames.resize(FRAMES, reader::Frame::default());
    Answer::Step {
        label: label_of(label),
        depth: stack.depth() as u64,
        frames,
    }
}

/// Asks in all three ways, and says as the reader would what each answers.
fn all_ways(stack: &Stack, k: u64) -> Answer {
    let (asked, after) = match stack.ask(k) {
        Ok(Asked::Ended) => (Answer::Ended, stack.clone()),
        Ok(Asked::None) => (Answer::None, stack.clone()),
        Ok(Asked::Step { label, stack }) => (step(&label, &stack), stack),
        Err(refused) => (Answer::Refused(refused.number()), stack.clone()),
    };
    let mut taking = stack.clone();
    let taken = taking.take(k);
    assert_eq!(taking, after);
    match taken {
        Ok(Some(label)) => assert_eq!(asked, step(&label, &taking)),
        Ok(None) => assert!(asked == Answer::None || asked == Answer::Ended),
        Err(refused) => assert_eq!(asked, Answer::Refused(refused.number())),
    }
    let mut listing = stack.clone();
    let listed = match listing.take_all(&[k])[..] {
        [Taken::Ended] => Answer::Ended,
        [Taken::None] => Answer::None,
        [Taken::TooDeep] => Answer::Refused(16),
        [Taken::Step(label, depth)] => {
            assert_eq!(depth, listing.depth());
            step(&label, &listing)
        }
        _ => panic!("one answer to one question"),
    };
    assert_eq!((listed, listing), (asked.clone(), after));
    asked
}

#[test]
fn questions_get_their_answers() {
    let mut put = 0;
    for case in vectors::all("asks") {
        let name = case.text("name");
        let (depth, k) = (case.number("depth") as usize, case.number("k"));
        let lent = frames(&case, "frames", case.number("lent") as usize);
        if !expressible(&case, &lent, depth) {
            continue;
        }
        put += 1;
        let refused = |by: Refused| {
            let answer = format!("refused {}", by.number());
            assert_eq!(answer, case.text("answer"), "{name}");
        };
        let table = match Table::read(&case.bytes("file")) {
            Ok(table) => table,
            Err(by) => {
                refused(by);
                continue;
            }
        };
        let stack = match table.stack(&lent[..depth]) {
            Ok(stack) => stack,
            Err(by) => {
                refused(by);
                continue;
            }
        };
        assert_eq!(all_ways(&stack, k), vectors::answer(&case), "{name}");
    }
    // all but those that lend other than 64 frames, or leave used ones behind the depth
    assert_eq!(put, 344 + 65 + 65);
}

#[test]
fn used_frames_with_one_byte_changed() {
    let (mut random, mut refused) = (Random::new(15), 0);
    for case in vectors::all("asks") {
        let depth = case.number("depth") as usize;
        let mut lent = frames(&case, "frames", FRAMES.max(depth));
        if depth == 0 {
            continue;
        }
        let (at, byte) = (random.below(depth), random.below(5));
        let by = random.below(3) as u8;
        match byte {
            4 => lent[at].equation += by,
            byte => lent[at].values[byte] += by,
        }
        let file = case.bytes("file");
        let Ok(table) = Table::read(&file) else {
            continue;
        };
        let used = |frame: &Frame| reader::Frame::new(frame.equation.into(), &frame.values);
        let mut wanted: Vec<reader::Frame> = lent[..depth].iter().map(used).collect();
        wanted.resize(FRAMES.max(depth), reader::Frame::default());
        let wanted = reader::ask(&file, &wanted, depth as u64, u64::MAX);
        let found = number(&table.stack(&lent[..depth]));
        assert_eq!(found == Some(15), wanted == reader::Answer::Refused(15));
        refused += u64::from(found.is_some());
    }
    assert!(refused > 100, "{refused}");
}

#[test]
fn more_frames_than_a_stack_has() {
    let table = Table::make(b"act a;proc X=a.X;init X;").unwrap();
    assert_eq!(table.stack(&[Frame::default(); 64]).unwrap().depth(), 64);
    for count in [65, 66, 128, 1000] {
        let frames = vec![Frame::default(); count];
        assert_eq!(number(&table.stack(&frames)), Some(15), "{count}");
    }
    assert!(table.stack(&[]).unwrap().is_ended());
}
