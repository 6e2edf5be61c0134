//! Every example of document 01, with #104's labels and hex F2: the worked stream, the printed walk, the check value, the sheets
//! on the shelf, and the readings that look natural.

mod common;

use common::{label, lent, stream, table, verdict};
use reader::{all_steps, ask_table, equal_to, Answer, Frame, Terms};

#[test]
fn check_value() {
    assert_eq!(reader::crc16(b"123456789"), 0x29b1);
}

#[test]
fn worked_stream() {
    let hex = "f2010204426f6f6c0001016100010001000000010000";
    let sheet = "act a;proc X=a.X;init X;";
    assert_eq!(reader::to_hex(&stream(sheet)), hex);
    let file = reader::make_table(sheet.as_bytes()).unwrap();
    assert_eq!(file.len(), 512);
    assert_eq!(file[..4], [0, 0, 1, 0]);
    assert_eq!(reader::to_hex(&file[4..26]), hex);
    assert!(file[26..510].iter().all(|&byte| byte == 0));
    assert_eq!(file[510..], reader::crc16(&file[..510]).to_be_bytes());
}

#[test]
fn printed_walk() {
    let walk = reader::walk(b"act a;act b;proc X=a.b;init X;");
    assert_eq!(walk, "1 a 1\n2 b 0\nended\n");
}

#[test]
fn refused_sheets_on_the_shelf() {
    assert_eq!(verdict(""), 5);
    assert_eq!(verdict("proc X=X;init X;"), 9);
    assert_eq!(verdict("act a;proc X=X.a;init X;"), 9);
    assert_eq!(verdict("act a;proc X=X<|0|>a;init X;"), 9);
    assert_eq!(reader::walk(b"proc X=X;init X;"), "refused 9\n");
}

#[test]
fn delta_has_no_summand_and_is_stuck() {
    let sheet = "proc X=delta;init X;";
    assert_eq!(table(sheet).equations[0].summands, []);
    assert_eq!(stream(sheet)[8..], [0, 0, 1, 0, 0, 0]);
    assert_eq!(reader::walk(sheet.as_bytes()), "stuck\n");
}

#[test]
fn a_to_depth_one_and_a_to_ended() {
    let table = table("act a;act b;proc X=a.b+a;init X;");
    let steps = all_steps(&table, &table.start_stack());
    let to_b = (label("a", &[], &[]), vec![Frame::new(1, &[])]);
    let to_end = (label("a", &[], &[]), vec![]);
    assert_eq!(steps, [to_b, to_end]);
}

#[test]
fn a_head_call_gives_the_summand_a_with_the_call_x() {
    let table = table("act a;proc X=Y.X;proc Y=a;init X;");
    let [summand] = table.equations[0].summands.as_slice() else {
        panic!("one summand");
    };
    assert_eq!((summand.action, &summand.variables), (Some(0), &vec![]));
    assert_eq!((summand.conditions.len(), summand.calls.len()), (0, 1));
    assert_eq!(summand.calls[0].equation, 0);
}

#[test]
fn a_sum_steps_by_each_value() {
    let sheet = "sort D 3;act a:D;proc X=sum(d:D,a(d));init X;";
    let table = table(sheet);
    let steps = all_steps(&table, &table.start_stack());
    let wanted = [0, 1, 2].map(|value| (label("a", &["D"], &[value]), vec![]));
    assert_eq!(steps, wanted);
    assert_eq!(verdict(&sheet.replace("a(d)", "a(3)")), 8);
}

#[test]
fn depth_63_steps_to_64_and_depth_64_gets_16() {
    let table = table("act a;proc X=a.X.X;init X;");
    let frames = lent(&[]);
    let step = Answer::Step {
        label: label("a", &[], &[]),
        depth: 64,
        frames: frames.clone(),
    };
    assert_eq!(ask_table(&table, &frames, 63, 0), step);
    assert_eq!(ask_table(&table, &frames, 64, 0), Answer::Refused(16));
    assert_eq!(ask_table(&table, &frames, 64, 1), Answer::None);
}

#[test]
fn sizes_calls_and_length_on_the_shelf() {
    let sized = |size: u8| verdict(&format!("sort D {size};act a;proc X=a;init X;"));
    assert_eq!([sized(16), sized(17), sized(0)], [0, 6, 6]);
    let calls = |count| verdict(&format!("act a;proc X=a{};init X;", ".X".repeat(count)));
    assert_eq!([calls(8), calls(9)], [0, 10]);
    assert_eq!(verdict(&format!("{:4096}", "act a;proc X=a;init X;")), 0);
}

#[test]
fn a_sum_variable_captures_no_argument() {
    let sheet = "sort D 2;act a:D#D;proc Y=sum(d:D,X(d));proc X(p:D)=sum(d:D,a(p,d));init Y;";
    let table = table(sheet);
    let steps = all_steps(&table, &table.start_stack());
    let labels: Vec<String> = steps.iter().map(|(label, _)| label.to_string()).collect();
    assert_eq!(labels, ["a(0,0)", "a(0,1)", "a(1,0)", "a(1,1)"]);
}

#[test]
fn only_choice_on_the_left_distributes() {
    let sheet = reader::check_sheet(b"act a;act b;act c;proc X=a;init X;").unwrap();
    let terms = Terms::of(&sheet);
    let read = |text: &str| terms.read(text.as_bytes()).unwrap();
    let equal = |n, p: &str, q: &str| equal_to(n, (&terms, &read(p)), (&terms, &read(q)));
    assert!(equal(1, "a.(b+c)", "a.b+a.c"));
    assert!(!equal(2, "a.(b+c)", "a.b+a.c"));
    assert!(equal(9, "(a+b).c", "a.c+b.c"));
}

#[test]
fn delta_after_an_action_is_not_the_end() {
    let walk = reader::walk(b"act a;proc X=a.delta;init X;");
    assert_eq!(walk, "1 a 1\nstuck\n");
}

#[test]
fn a_false_guard_is_no_way_out_of_a_circle() {
    assert_eq!(verdict("act a;proc X=a<|1|>X.a;init X;"), 9);
}
