//! Table files (questions 12 to 14): each limit from both sides, and single changes to right
//! files.

mod common;

use common::{sort_sections, table, vectors};
use reader::signature::{Action, Data, Function, Sort};
use reader::table::{Call, Condition, Equation, Summand, Table};
use reader::{crc16, encode_file, from_blocks, read_table, to_blocks};

/// 0 if the file of this table is read as this same table, else the refusal.
fn verdict(table: &Table) -> u8 {
    match read_table(&encode_file(table)) {
        Ok(read) => {
            assert_eq!(&read, table);
            0
        }
        Err(number) => number,
    }
}

/// The verdict on a table with this change, in both layouts.
fn changed(change: impl Fn(&mut Table)) -> u8 {
    let table = table_with(change);
    let answer = verdict(&table);
    assert_eq!(verdict(&table.older()), answer);
    answer
}

fn table_with(change: impl Fn(&mut Table)) -> Table {
    let mut table = table(
        "sort D 3;func f:D->Bool=0,1,1;func g:Bool#D->D=0,1,2,2,1,0;act a:D;act b;\
         proc X(p:D)=sum(q:D,a(g(f(p),q)).X(p).b<|f(q)|>tau);init X(2);",
    );
    change(&mut table);
    table
}

fn summand(table: &mut Table) -> &mut Summand {
    &mut table.equations[0].summands[0]
}

fn plain() -> Summand {
    Summand {
        variables: vec![],
        conditions: vec![],
        action: None,
        arguments: vec![],
        calls: vec![],
    }
}

fn named(name: &str) -> Action {
    Action {
        name: name.to_string(),
        arguments: vec![],
    }
}

#[test]
fn lengths() {
    let file = encode_file(&table("act a;proc X=a;init X;"));
    for length in [0, 1, 511, 513, 768, 1023, 65_535, 65_537, 66_048] {
        let mut longer = file.clone();
        longer.resize(length, 0);
        assert_eq!(read_table(&longer), Err(12), "{length}");
    }
    for length in [1024, 65_536] {
        let mut longer = file.clone();
        longer.resize(length, 0);
        assert_eq!(read_table(&longer), Err(13), "{length}");
    }
}

#[test]
fn every_bit_of_a_block_is_checked() {
    let file = encode_file(&table("act a;proc X=a.X;init X;"));
    assert!(read_table(&file).is_ok());
    for bit in 0..512 * 8 {
        let mut other = file.clone();
        other[bit / 8] ^= 1 << (bit % 8);
        assert_eq!(read_table(&other), Err(13), "bit {bit}");
    }
}

#[test]
fn number_and_count_with_a_right_check() {
    let file = encode_file(&table("act a;proc X=a.X;init X;"));
    for place in 0..4 {
        let mut other = file.clone();
        other[place] ^= 1;
        let check = crc16(&other[..510]).to_be_bytes();
        other[510..].copy_from_slice(&check);
        assert_eq!(read_table(&other), Err(13), "place {place}");
    }
    let mut low_first = file.clone();
    low_first[510..].copy_from_slice(&crc16(&file[..510]).to_le_bytes());
    assert_eq!(read_table(&low_first), Err(13));
}

#[test]
fn blocks_in_another_order() {
    let sheet = format!("act a;proc X={};init X;", vec!["a"; 200].join("+"));
    let file = encode_file(&table(&sheet));
    assert_eq!(file.len(), 1024);
    let swapped = [&file[512..], &file[..512]].concat();
    assert_eq!(read_table(&swapped), Err(13));
}

#[test]
fn thirteen_is_put_to_all_blocks_before_fourteen() {
    let mut file = to_blocks(&[0xee; 600]);
    assert_eq!(read_table(&file), Err(14));
    file[1023] ^= 1;
    assert_eq!(read_table(&file), Err(13));
}

#[test]
fn sorts_and_functions() {
    let sorts = |count: usize| {
        let more = (2..count).map(|i| Sort::new(&format!("E{i}"), 1));
        changed(move |t| t.signature.sorts.extend(more.clone()))
    };
    assert_eq!([sorts(8), sorts(9)], [0, 14]);
    let size = |size: u8| changed(move |t| t.signature.sorts.push(Sort::new("E", size)));
    assert_eq!([0, 1, 16, 17].map(size), [14, 0, 0, 14]);
    assert_eq!(changed(|t| t.signature.sorts[0].size = 3), 14);
    let function = |arguments: Vec<usize>, result, values: Vec<u8>| {
        changed(move |t| {
            t.signature.functions.push(Function {
                arguments: arguments.clone(),
                result,
                values: values.clone(),
            })
        })
    };
    assert_eq!(function(vec![0], 1, vec![2, 2]), 0);
    assert_eq!(function(vec![0], 1, vec![2, 3]), 14);
    assert_eq!(function(vec![], 1, vec![2]), 14);
    assert_eq!(function(vec![0, 0, 0], 0, vec![0; 8]), 14);
    assert_eq!(function(vec![2], 0, vec![0, 0]), 14);
    assert_eq!(function(vec![0], 2, vec![0, 0]), 14);
    let functions = |count: usize| {
        changed(move |t| {
            let first = t.signature.functions[0].clone();
            t.signature.functions.resize(count, first);
        })
    };
    assert_eq!([functions(16), functions(17)], [0, 14]);
}

#[test]
fn names_of_sorts() {
    let name = |name: &str| verdict(&table_with(|t| t.signature.sorts.push(Sort::new(name, 2))));
    let right = ["E", "bool", "c_", "sum1", "a", "s1", "nnnnnnnnnnnnnnnn"];
    assert_eq!(right.map(name), [0; 7]);
    let wrong = [
        "D",
        "Bool",
        "",
        "_c",
        "1c",
        "c-",
        "sort",
        "nnnnnnnnnnnnnnnnn",
    ];
    assert_eq!(wrong.map(name), [14; 8]);
    let first = |name: &str| verdict(&table_with(|t| t.signature.sorts[0].name = name.into()));
    assert_eq!(["Bool", "bool", "E", "D"].map(first), [0, 14, 14, 14]);
}

#[test]
fn sort_sections_damaged_and_right() {
    for stream in sort_sections::damaged() {
        let answer = read_table(&to_blocks(&stream.bytes));
        assert_eq!(answer, Err(14), "{}", stream.what);
    }
    for stream in sort_sections::right() {
        let file = to_blocks(&stream.bytes);
        let table = read_table(&file).expect(&stream.what);
        assert_eq!(encode_file(&table), file, "{}", stream.what);
    }
}

#[test]
fn actions_and_their_names() {
    let actions = |count: usize| {
        changed(move |t| {
            let names = (2..count).map(|i| named(&format!("c{i}")));
            t.signature.actions.extend(names);
        })
    };
    assert_eq!([actions(32), actions(33)], [0, 14]);
    let name = |name: &str| changed(|t| t.signature.actions.push(named(name)));
    let right = ["A", "bool", "c_", "sum1", "Sum", "nnnnnnnnnnnnnnnn"];
    assert_eq!(right.map(name), [0; 6]);
    let wrong = [
        "a",
        "b",
        "Bool",
        "",
        "_c",
        "1c",
        "c-",
        "c c",
        "c\n",
        "nnnnnnnnnnnnnnnnn",
    ];
    assert_eq!(wrong.map(name), [14; 10]);
    let words = ["sort", "func", "act", "proc", "init", "sum", "delta", "tau"];
    assert_eq!(words.map(name), [14; 8]);
    let arity = |count: usize| changed(|t| t.signature.actions[1].arguments = vec![0; count]);
    assert_eq!(
        [
            arity(3),
            changed(|t| t.signature.actions[0].arguments[0] = 9)
        ],
        [14; 2]
    );
}

#[test]
fn equations_and_parameters() {
    let row = |parameters: usize| Equation {
        parameters: vec![1; parameters],
        summands: vec![],
    };
    let equations = |count: usize| changed(move |t| t.equations.resize(count, row(0)));
    assert_eq!([equations(64), equations(65)], [0, 14]);
    let parameters = |count| changed(move |t| t.equations.push(row(count)));
    assert_eq!([parameters(4), parameters(5)], [0, 14]);
    assert_eq!(changed(|t| t.equations.clear()), 14);
    let sort = |sort| changed(move |t| t.equations[1].parameters.push(sort));
    assert_eq!([sort(9), sort(2)], [14, 14]);
    let start = |start, value| {
        changed(move |t| {
            t.start = start;
            t.start_values = vec![value];
        })
    };
    assert_eq!([start(0, 2), start(0, 3), start(2, 0)], [0, 14, 14]);
}

#[test]
fn summands() {
    let summands = |first: usize, second: usize| {
        changed(move |t| {
            t.equations[0].summands.resize(first, plain());
            t.equations[1].summands.resize(second, plain());
        })
    };
    assert_eq!(
        [summands(200, 55), summands(200, 56), summands(255, 1)],
        [0, 14, 14]
    );
    let variables = |count: usize| changed(move |t| summand(t).variables.resize(count, 0));
    assert_eq!([variables(4), variables(5)], [0, 14]);
    assert_eq!(changed(|t| summand(t).variables.push(7)), 14);
    let condition = Condition {
        wanted: 1,
        data: Data::Value(1),
    };
    let conditions = |count: usize| {
        let condition = condition.clone();
        changed(move |t| summand(t).conditions.resize(count, condition.clone()))
    };
    assert_eq!([conditions(8), conditions(9)], [0, 14]);
    let call = Call {
        equation: 1,
        arguments: vec![],
    };
    let calls = |count: usize| changed(|t| summand(t).calls.resize(count, call.clone()));
    assert_eq!([calls(8), calls(9)], [0, 14]);
    assert_eq!(changed(|t| summand(t).calls[1].equation = 2), 14);
    assert_eq!(changed(|t| summand(t).action = Some(2)), 14);
    let wanted = |wanted| changed(move |t| summand(t).conditions[0].wanted = wanted);
    assert_eq!([wanted(0), wanted(1), wanted(2)], [0, 0, 14]);
}

#[test]
fn terms() {
    let argument = |data: Data| changed(|t| summand(t).arguments[0] = data.clone());
    let condition = |data: Data| changed(|t| summand(t).conditions[0].data = data.clone());
    let nested = |nodes: usize| {
        let g = |data| Data::Apply(1, vec![Data::Value(1), data]);
        (0..nodes / 2).fold(Data::Variable(0), |data, _| g(data))
    };
    let f = |data| Data::Apply(0, vec![data]);
    assert_eq!(
        [2, 3, 16, 31].map(|v| argument(Data::Value(v))),
        [0, 14, 14, 14]
    );
    assert_eq!([0, 1, 2].map(|v| argument(Data::Variable(v))), [0, 0, 14]);
    assert_eq!([1, 2].map(|v| condition(Data::Value(v))), [0, 14]);
    assert_eq!(condition(Data::Variable(0)), 14);
    assert_eq!([argument(nested(31)), argument(nested(33))], [0, 14]);
    assert_eq!(
        [condition(f(nested(29))), condition(f(nested(31)))],
        [0, 14]
    );
    assert_eq!(
        [argument(f(Data::Value(0))), condition(nested(3))],
        [14, 14]
    );
    assert_eq!(argument(Data::Apply(2, vec![Data::Value(0)])), 14);
}

#[test]
fn the_rest_is_zeros_in_the_fewest_blocks() {
    let table = table("act a;proc X=a.X;init X;");
    let stream = reader::encode(&table);
    for place in stream.len()..506 {
        let mut longer = stream.clone();
        longer.resize(place, 0);
        longer.push(1);
        assert_eq!(read_table(&to_blocks(&longer)), Err(14), "{place}");
    }
    let with_zeros = |length: usize| {
        let mut longer = stream.clone();
        longer.resize(length, 0);
        read_table(&to_blocks(&longer)).err()
    };
    assert_eq!([with_zeros(506), with_zeros(507)], [None, Some(14)]);
}

#[test]
fn a_changed_stream_is_refused_or_the_stream_of_another_table() {
    let (mut refused, mut read) = (0, 0);
    for case in vectors::of("tables").iter().step_by(9) {
        let file = case.bytes("file");
        if case.text("answer") != "ok" || file.len() > 512 {
            continue;
        }
        let stream = from_blocks(&file).unwrap();
        for (place, step) in (0..506).flat_map(|place| [1, 2, 32, 128].map(|s| (place, s))) {
            let mut other = stream.clone();
            other[place] = other[place].wrapping_add(step);
            let other = to_blocks(&other);
            match read_table(&other) {
                Ok(table) => {
                    assert_eq!(encode_file(&table), other);
                    read += 1;
                }
                Err(number) => {
                    assert_eq!(number, 14);
                    refused += 1;
                }
            }
        }
    }
    assert!(refused > 10_000 && read > 100, "{refused} {read}");
}
