//! Random walks of 10,000 steps through lists of questions, compared with the terms that the stacks stand for, straight
//! from the sheet.

use library::asked::{asked, asked_all, lent};
use library::common::generate;
use library::common::random::Random;
use library::made::made_whole;
use library::stepping::{frames_of, Answer, Frame, ANSWER, ENDED, NONE, STEP, TOO_DEEP};
use reader::{check_sheet, linear_table, Term, Terms, Transitions};

/// Steps of a walk.
const STEPS: usize = 10_000;

/// Questions of a list.
const LIST: usize = 250;

/// Sheets that go on for ever, and do different things on the way.
const SHEETS: [&str; 6] = [
    "act a;act b;proc X=a.X.X+b.X+a;init X;",
    "sort D 3;func s:D->D=1,2,0;act c:D;proc N(d:D)=c(d).N(s(d))+tau.N(0);init N(1);",
    "sort D 4;func eq:D#D->Bool=1,0,0,0,0,1,0,0,0,0,1,0,0,0,0,1;act r:D;act s:D#D;act lost;\
     proc B(d:D)=sum(e:D,r(e).(s(d,e).B(e)<|eq(d,e)|>lost.B(d)));init B(0);",
    "act a;act b;act c;proc S=a.S.b+c.S;init S;",
    "sort D 2;func one:D->Bool=0,1;act p:D;act q:D#D;proc X(d:D)=sum(e:D,Y(e,d).X(e))+tau.(p(d)+q(d,d)).X(d);\
     proc Y(e:D,f:D)=sum(g:D,q(e,g).(p(f)+tau.p(g))<|one(e)|>q(f,g).Z(g));proc Z(h:D)=p(h)+p(h).Z(0);init X(1);",
    "act a;act b;proc X=a.Y.X+b.X;proc Y=a.Y.Y+b+tau.Y;init X;",
];

/// The stack of lent frames.
fn stack(frames: &[Frame], depth: usize) -> Vec<reader::Frame> {
    frames[..depth].iter().map(|&frame| frame.into()).collect()
}

/// What one question made of a term: a step of it that bears the label, or why there was none.
fn follow(terms: &Terms, term: &Term, k: u64, answer: &Answer, next: Term, text: &str) -> Term {
    let steps = terms.steps(term);
    let count = steps.len() as u64;
    match answer.kind() {
        ENDED => assert!(terms.ended(term), "ended: {text}"),
        NONE => assert!(!terms.ended(term) && k >= count, "none for {k}: {text}"),
        TOO_DEEP => assert!(k < count, "16 for {k}: {text}"),
        kind => {
            assert_eq!(kind, STEP);
            assert!(k < count, "a step {k}: {text}");
            let taken =
                |(label, after): &(reader::Label, Term)| *label == answer.shown() && *after == next;
            assert!(steps.iter().any(taken), "no such step of the term: {text}");
            return next;
        }
    }
    assert_eq!(next, *term, "the stack has changed: {text}");
    next
}

/// Walks from the start to so many steps, or through so many lists; how many answers of each kind there were.
fn walk(text: &str, random: &mut Random, steps: usize, lists: usize) -> [usize; 4] {
    let sheet = check_sheet(text.as_bytes()).expect("accepted");
    let table = linear_table(&sheet).expect("a table");
    let file = made_whole(text.as_bytes()).expect("a file");
    let terms = Terms::of(&sheet);
    let (mut frames, mut depth) = (lent(&frames_of(&table.start_stack())), 1);
    let mut term = terms.start();
    let mut seen = [0; 4];
    for _ in 0..lists {
        let questions: Vec<u64> = (0..LIST)
            .map(|_| {
                if random.one_in(50) {
                    random.draw()
                } else {
                    random.below(5) as u64
                }
            })
            .collect();
        let list = asked_all(&file, &frames, depth, &questions, LIST * ANSWER);
        assert_eq!(list.number, 0);
        for (&k, bytes) in questions.iter().zip(list.answers.chunks(ANSWER)) {
            let answer = Answer {
                bytes: bytes.try_into().expect("a whole answer"),
            };
            let kinds = [ENDED, NONE, STEP, TOO_DEEP];
            let kind = kinds.iter().position(|&kind| kind == answer.kind());
            seen[kind.expect("a kind of answer")] += 1;
            let one = asked(&file, &frames, depth, k);
            (frames, depth) = (one.frames, one.depth);
            let next = terms.of_stack(&stack(&frames, depth));
            if answer.kind() == STEP {
                assert_eq!(answer.depth(), depth, "{text}");
            }
            term = follow(&terms, &term, k, &answer, next, text);
        }
        assert_eq!((&list.frames, list.depth), (&frames, depth), "{text}");
        if seen[2] >= steps || depth == 0 {
            break;
        }
    }
    seen
}

#[test]
fn ten_thousand_steps() {
    let mut random = Random::new(71);
    for sheet in SHEETS {
        let mut seen = [0; 4];
        while seen[2] < STEPS {
            let more = walk(sheet, &mut random, STEPS, 1000);
            assert!(more[2] > 0);
            (0..4).for_each(|kind| seen[kind] += more[kind]);
        }
        println!("ended, none, step, 16: {seen:?}");
    }
}

#[test]
fn generated_sheets() {
    let mut random = Random::new(72);
    let mut seen = [0; 4];
    for seed in 0..400 {
        let text = match seed % 3 {
            0 => generate::with_names(seed),
            1 => generate::with_heads(seed),
            _ => generate::with_operators(seed),
        };
        if reader::make_table(text.as_bytes()).is_ok() {
            let more = walk(&text, &mut random, 300, 2);
            (0..4).for_each(|kind| seen[kind] += more[kind]);
        }
    }
    println!("ended, none, step, 16: {seen:?}");
    assert!(seen.iter().all(|&count| count > 50), "{seen:?}");
}
