//! The questions that are timed: both answer them alike, and they are of the sizes that they are named for.

use library::asked::{lent, same, same_all};
use library::questions::{dearest, dearest_tables, going_on, largest, usual};
use library::sheets;
use library::stepping::{frames_of, ANSWER, STEP};

#[test]
fn timed_questions_get_the_same_answers() {
    for question in usual() {
        let (number, _) = same(
            &question.file,
            &question.frames,
            1,
            question.k,
            question.what,
        );
        assert_eq!(number, 0, "{}", question.what);
    }
}

#[test]
fn conditions_of_31_nodes_over_four_sums_of_16() {
    let dear = usual()
        .into_iter()
        .filter(|question| question.what.contains("conditions"))
        .filter(|question| !question.what.contains("joined"));
    let files: Vec<Vec<u8>> = dear.map(|question| question.file).collect();
    assert_eq!(files.len(), 7);
    for file in files {
        let table = reader::read_table(&file).expect("a table");
        let summand = &table.equations[0].summands[0];
        assert_eq!((summand.variables.len(), summand.conditions.len()), (4, 8));
        assert!(summand
            .conditions
            .iter()
            .all(|condition| condition.data.nodes() == 31));
        assert!(summand
            .variables
            .iter()
            .all(|&sort| table.signature.size(sort) == 16));
    }
}

#[test]
fn whole_tables() {
    assert_eq!(largest().len(), 65_536);
    assert!(dearest().file.len() > 60_000);
    assert!(dearest_tables()
        .iter()
        .all(|question| question.file.len() > 60_000));
}

#[test]
fn a_timed_list_is_all_steps() {
    let file = reader::make_table(sheets::typical(4096).as_bytes()).expect("a table");
    let table = reader::read_table(&file).expect("a table");
    let questions = going_on(&file, 1000);
    let frames = lent(&frames_of(&table.start_stack()));
    let after = same_all(&file, &frames, 1, &questions, 1000 * ANSWER, "a timed list");
    assert!(after.answers.chunks(ANSWER).all(|answer| answer[0] == STEP));
}
