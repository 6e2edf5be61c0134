//! Questions about stacks (15 and 16), the order of steps, and lists of questions.

mod common;

use common::{label, lent, table};
use reader::{all_steps, ask, ask_list, ask_table, step, Answer, Frame, Table};

const SHEET: &str = "sort D 3;act a:D;act b;proc X(p:D,q:Bool)=sum(d:D,a(d).Y.X(d,q)<|q|>b);\
                     proc Y=b;init X(1,1);";

fn frame(equation: usize, values: &[u8]) -> Frame {
    Frame::new(equation, values)
}

fn labels(table: &Table, stack: &[Frame]) -> Vec<String> {
    let steps = all_steps(table, stack);
    steps.iter().map(|(label, _)| label.to_string()).collect()
}

#[test]
fn file_questions_come_first() {
    let file = reader::make_table(SHEET.as_bytes()).unwrap();
    assert_eq!(ask(&file[1..], &[], 99, 0), Answer::Refused(12));
    let mut broken = file.clone();
    broken[9] ^= 1;
    assert_eq!(ask(&broken, &[], 99, 0), Answer::Refused(13));
    let no_stream = reader::to_blocks(&[9]);
    assert_eq!(ask(&no_stream, &[], 99, 0), Answer::Refused(14));
    assert_eq!(ask(&file, &[], 99, 0), Answer::Refused(15));
}

#[test]
fn exactly_64_frames_and_depth_to_64() {
    let table = table(SHEET);
    let answer = |count: usize, depth| ask_table(&table, &vec![Frame::default(); count], depth, 99);
    let refused = Answer::Refused(15);
    assert_eq!(
        [0, 63, 65].map(|count| answer(count, 0)),
        [(); 3].map(|_| refused.clone())
    );
    assert_eq!(
        [answer(64, 0), answer(64, 1)],
        [Answer::Ended, Answer::None]
    );
    assert_eq!(
        [answer(64, 64), answer(64, 65)],
        [Answer::None, refused.clone()]
    );
    assert_eq!(
        [answer(64, 1 << 32), answer(64, u64::MAX)],
        [refused.clone(), refused]
    );
}

#[test]
fn used_frames_are_equations_with_values_in_their_sorts() {
    let table = table(SHEET);
    let refused = |used: &[Frame]| {
        ask_table(&table, &lent(used), used.len() as u64, 9) == Answer::Refused(15)
    };
    assert!(!refused(&[frame(0, &[2, 1]), frame(1, &[])]));
    assert!(refused(&[frame(0, &[3, 1]), frame(1, &[])]));
    assert!(refused(&[frame(0, &[2, 2])]));
    assert!(refused(&[frame(0, &[2, 1, 1])]));
    assert!(refused(&[frame(0, &[2, 1, 0, 1])]));
    assert!(refused(&[frame(1, &[1])]));
    assert!(refused(&[frame(2, &[]), frame(1, &[])]));
    assert!(refused(&[frame(255, &[])]));
}

#[test]
fn unused_frames_are_zero_also_at_depth_zero() {
    let table = table(SHEET);
    for place in 0..64 {
        let mut frames = lent(&[]);
        frames[place] = frame(1, &[]);
        let at = |depth| ask_table(&table, &frames, depth, 9);
        assert_eq!(at(place as u64), Answer::Refused(15), "{place}");
        assert_eq!(at(place as u64 + 1), Answer::None, "{place}");
        assert_eq!(at(0), Answer::Refused(15), "{place}");
    }
}

#[test]
fn the_first_call_is_on_top_and_zeros_follow() {
    let table = table(SHEET);
    let below = frame(1, &[]);
    let frames = lent(&[below, frame(0, &[0, 1])]);
    let wanted = Answer::Step {
        label: label("a", &["D"], &[2]),
        depth: 3,
        frames: lent(&[below, frame(0, &[2, 1]), frame(1, &[])]),
    };
    assert_eq!(ask_table(&table, &frames, 2, 2), wanted);
    assert_eq!(ask_table(&table, &frames, 2, 3), Answer::None);
    let popped = ask_table(&table, &lent(&[below]), 1, 0);
    let Answer::Step { depth, frames, .. } = popped else {
        panic!("a step");
    };
    assert_eq!((depth, frames), (0, lent(&[])));
}

#[test]
fn sixteen_only_for_a_step_that_exists() {
    let table = table("act a;proc X=a.X.X+a;proc Y=delta;init X;");
    let full = vec![Frame::default(); 64];
    let depth = |answer| match answer {
        Answer::Step { depth, .. } => depth,
        other => panic!("{other:?}"),
    };
    assert_eq!(ask_table(&table, &full, 64, 0), Answer::Refused(16));
    assert_eq!(depth(ask_table(&table, &full, 64, 1)), 63);
    assert_eq!(ask_table(&table, &full, 64, 2), Answer::None);
    assert_eq!(ask_table(&table, &full, 64, u64::MAX), Answer::None);
    assert_eq!(depth(ask_table(&table, &full, 63, 0)), 64);
}

#[test]
fn steps_are_listed_by_summand_then_values_last_fastest() {
    let table = table(
        "sort D 3;act a:D#Bool;act b:D;proc X=sum(d:D,sum(e:Bool,a(d,e))+b(d))+b(2)+b(2);init X;",
    );
    let wanted = "a(0,0) a(0,1) a(1,0) a(1,1) a(2,0) a(2,1) b(0) b(1) b(2) b(2) b(2)";
    let found = labels(&table, &table.start_stack());
    assert_eq!(found.join(" "), wanted);
}

#[test]
fn conditions_choose_the_values() {
    let table = table(
        "sort D 4;func lt:D#D->Bool=0,1,1,1,0,0,1,1,0,0,0,1,0,0,0,0;act a:D#D;\
         proc X(p:D)=sum(c:D,sum(d:D,sum(e:D,(a(c,e)<|lt(d,e)|>delta)<|lt(c,p)|>delta)));\
         init X(1);",
    );
    let found = labels(&table, &table.start_stack());
    assert_eq!(found.join(" "), "a(0,1) a(0,2) a(0,3) a(0,2) a(0,3) a(0,3)");
    for k in 0..7u64 {
        let kth = step(&table, &table.start_stack(), k).map(|(label, _)| label.to_string());
        assert_eq!(kth.as_ref(), found.get(k as usize), "{k}");
    }
}

#[test]
fn an_empty_stack_has_no_step() {
    let table = table(SHEET);
    assert_eq!(all_steps(&table, &[]), []);
    assert_eq!(step(&table, &[], 0), None);
}

#[test]
fn a_list_of_questions_goes_on_from_the_last_answer() {
    let file = reader::make_table(b"act a;act b;proc X=a.b+b.X.X;init X;").unwrap();
    let mut frames = lent(&[Frame::default()]);
    let mut depth = 1;
    let answers = ask_list(&file, &mut frames, &mut depth, &[1, 2, 0, 0, 9, 0, 0, 0]);
    let shown: Vec<String> = (answers.iter())
        .map(|answer| match answer {
            Answer::Step { label, depth, .. } => format!("{label} {depth}"),
            other => format!("{other:?}"),
        })
        .collect();
    let wanted = ["b 2", "None", "a 2", "b 1", "None", "a 1", "b 0", "Ended"];
    assert_eq!(shown, wanted);
    assert_eq!((frames, depth), (lent(&[]), 0));
}

#[test]
fn a_list_of_questions_stays_where_16_was_answered() {
    let file = reader::make_table(b"act a;proc X=a.X.X.X.X.X.X.X.X+a;init X;").unwrap();
    let (mut frames, mut depth) = (lent(&[]), 57);
    let answers = ask_list(&file, &mut frames, &mut depth, &[0, 0, 1, 0]);
    let refused: Vec<bool> = answers.iter().map(|a| *a == Answer::Refused(16)).collect();
    assert_eq!((refused, depth), (vec![false, true, false, true], 63));
}
