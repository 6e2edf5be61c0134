//! Lists of questions: the same as asking one by one, with ended, none and 16 in the middle, too little room and spare
//! bytes.

use library::asked::{asked, lent, same_all, After};
use library::common::generate;
use library::common::random::Random;
use library::reached::{piled, reached};
use library::stepping::{frames_of, Frame, ANSWER, ENDED, NONE, STEP, TOO_DEEP};

/// The kinds of the answers in so many bytes.
fn kinds(after: &After) -> Vec<u8> {
    after
        .answers
        .chunks(ANSWER)
        .map(|answer| answer[0])
        .collect()
}

/// The stack after asking one by one, and the answers; 16 goes into an answer and leaves the stack.
fn one_by_one(file: &[u8], frames: &[Frame], depth: usize, questions: &[u64]) -> After {
    let (mut frames, mut depth, mut answers) = (frames.to_vec(), depth, Vec::new());
    for &k in questions {
        let after = asked(file, &frames, depth, k);
        match after.number {
            0 => answers.extend(after.answers),
            number => {
                assert_eq!(number, 16);
                answers.push(TOO_DEEP);
                answers.resize(answers.len() + ANSWER - 1, 0);
            }
        }
        (frames, depth) = (after.frames, after.depth);
    }
    After {
        number: 0,
        frames,
        depth,
        answers,
    }
}

/// A list with just enough room, beside the reader and beside single questions.
fn list(sheet: &str, used: &[Frame], questions: &[u64]) -> After {
    let file = reader::make_table(sheet.as_bytes()).expect("a table");
    let (frames, depth) = (lent(used), used.len());
    let room = questions.len() * ANSWER;
    let after = same_all(&file, &frames, depth, questions, room, sheet);
    assert_eq!(
        after,
        one_by_one(&file, &frames, depth, questions),
        "{sheet}"
    );
    after
}

const X: Frame = Frame {
    equation: 0,
    values: [0; 4],
};

#[test]
fn none_and_ended_in_the_middle() {
    let after = list(
        "act a;act b;proc X=a.b+b.X.X;init X;",
        &[X],
        &[1, 2, 0, 0, 9, u64::MAX, 0, 0, 0, 1, 0],
    );
    let wanted = [
        STEP, NONE, STEP, STEP, NONE, NONE, STEP, STEP, ENDED, ENDED, ENDED,
    ];
    assert_eq!((kinds(&after), after.depth), (wanted.to_vec(), 0));
}

#[test]
fn sixteen_in_the_middle() {
    let after = list(
        "act a;proc X=a.X.X.X.X.X.X.X.X+a;init X;",
        &[X; 57],
        &[0, 0, 1, 0, 2, 1, 1, 1, 1, 1, 1, 0],
    );
    let wanted = [
        STEP, TOO_DEEP, STEP, TOO_DEEP, NONE, STEP, STEP, STEP, STEP, STEP, STEP, STEP,
    ];
    assert_eq!((kinds(&after), after.depth), (wanted.to_vec(), 64));
}

#[test]
fn depth_64() {
    let sheet = "act a;act b;proc X=a.X+b.X.X+a;init X;";
    let after = list(sheet, &[X; 64], &[0, 1, 0, 2, 1, 1, 3, 0]);
    let wanted = [STEP, TOO_DEEP, STEP, STEP, STEP, TOO_DEEP, NONE, STEP];
    assert_eq!((kinds(&after), after.depth), (wanted.to_vec(), 64));
    let after = list(sheet, &[X; 64], &[2; 70]);
    assert_eq!(kinds(&after), [vec![STEP; 64], vec![ENDED; 6]].concat());
}

#[test]
fn every_room_and_number_of_questions() {
    let sheet =
        "sort D 3;act a:D#D;act bb;proc X(d:D)=sum(e:D,a(d,e).X(e))+bb.X(d).X(d);init X(2);";
    let file = reader::make_table(sheet.as_bytes()).expect("a table");
    let frames = lent(&[Frame {
        equation: 0,
        values: [2, 0, 0, 0],
    }]);
    let questions = [3, 1, 9, 0];
    for count in 0..=questions.len() {
        for room in 0..=5 * ANSWER {
            let after = same_all(&file, &frames, 1, &questions[..count], room, sheet);
            assert_eq!(after.number, 0);
            assert_eq!(after.depth > 1, count > 0 && room >= ANSWER);
        }
    }
}

#[test]
fn lists_of_generated_sheets() {
    let mut random = Random::new(61);
    let mut seen = [0; 17];
    for seed in 0..4000 {
        let text = match seed % 2 {
            0 => generate::with_heads(seed),
            _ => generate::with_heads_and_operators(seed),
        };
        let Ok(file) = reader::make_table(text.as_bytes()) else {
            continue;
        };
        let table = reader::read_table(&file).expect("a table");
        let near = random.pick(&reached(&table, 6)).clone();
        let pile = !near.is_empty() && random.one_in(2);
        let stack = if pile {
            piled(&near, 61 + random.below(4))
        } else {
            near
        };
        let (frames, depth) = (lent(&frames_of(&stack)), stack.len());
        let questions: Vec<u64> = (0..random.below(40))
            .map(|_| random.below(4) as u64)
            .collect();
        let room = questions.len() * ANSWER;
        let after = same_all(&file, &frames, depth, &questions, room, &text);
        assert_eq!(
            after,
            one_by_one(&file, &frames, depth, &questions),
            "{text}"
        );
        kinds(&after)
            .iter()
            .for_each(|&kind| seen[usize::from(kind)] += 1);
        let less = random.below(room + 60);
        same_all(&file, &frames, depth, &questions, less, &text);
    }
    let counts = [ENDED, NONE, STEP, TOO_DEEP].map(|kind| seen[usize::from(kind)]);
    println!("ended, none, step, 16: {counts:?}");
    assert!(counts.iter().all(|&count| count > 500), "{counts:?}");
}
