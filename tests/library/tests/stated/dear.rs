//! Tables that are dear to check, to print and to ask: random terms, and conditions over a sum in one block.

use library::common::random::Random;
use reader::limits::{CONDITIONS, PARAMETERS, STREAM_BYTES, SUMMANDS, TERM_NODES};
use reader::signature::{Action, Data, Function, Joint, Signature, Sort, BOOL};
use reader::table::{Condition, Equation, Summand, Table};
use reader::Layout;

/// A random term of so many nodes over Bool, its functions and its operators: no processor guesses what comes next.
fn term(random: &mut Random, nodes: usize) -> Data {
    if nodes == 1 {
        return match random.below(2) {
            0 => Data::Value(random.below(2) as u8),
            _ => Data::Variable(random.below(PARAMETERS)),
        };
    }
    if nodes == 2 || random.one_in(4) {
        let inner = term(random, nodes - 1);
        return match random.below(2) {
            0 => Data::not(1, inner),
            _ => Data::Apply(0, vec![inner]),
        };
    }
    let left = 1 + random.below(nodes - 2);
    let (left, right) = (term(random, left), term(random, nodes - 1 - left));
    match random.below(4) {
        0 => Data::Apply(1, vec![left, right]),
        1 => Data::equal(BOOL, left, right),
        2 => Data::joined(Joint::And, left, right),
        _ => Data::joined(Joint::Or, left, right),
    }
}

/// A table of one equation with so many summands, each with eight of the longest conditions.
fn table(random: &mut Random, summands: usize) -> Table {
    let function = |arguments: Vec<usize>| Function {
        values: vec![1; 1 << arguments.len()],
        arguments,
        result: BOOL,
    };
    let mut summand = || {
        let conditions = (0..CONDITIONS).map(|_| Condition {
            wanted: random.below(2) as u8,
            data: term(random, TERM_NODES),
        });
        Summand {
            variables: vec![],
            conditions: conditions.collect(),
            action: Some(0),
            arguments: vec![],
            calls: vec![],
        }
    };
    let summands = (0..summands).map(|_| summand()).collect();
    let parameters = vec![BOOL; PARAMETERS];
    Table {
        layout: Layout::Named,
        signature: Signature {
            sorts: vec![Sort::bool()],
            functions: vec![function(vec![BOOL]), function(vec![BOOL; 2])],
            actions: vec![Action {
                name: "a".into(),
                arguments: vec![],
            }],
        },
        equations: vec![Equation {
            parameters,
            summands,
        }],
        start: 0,
        start_values: vec![0; PARAMETERS],
    }
}

/// The file of a table of random terms that fills nearly 128 blocks.
pub fn random_terms() -> Vec<u8> {
    let counts = (1..=SUMMANDS).rev();
    let mut tables = counts.map(|count| table(&mut Random::new(26), count));
    let fits = |table: &Table| reader::encode(table).len() <= STREAM_BYTES;
    reader::encode_file(&tables.find(fits).expect("a table that fits"))
}

/// A sheet whose table has one block, with conditions on a sum variable and on several at once.
pub const ONE_BLOCK: &str = "sort D 16;act a:D#D;\
    proc X=sum(u:D,sum(v:D,sum(w:D,sum(x:D,((a(u,x)<|u==v|>delta)<|v==w/\\w==x|>delta)<|!(u==x)|>delta))));init X;";
