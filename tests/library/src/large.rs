//! A table whose stream fills 128 blocks but for a few bytes.

use reader::signature::{Action, Data, Function, Signature, Sort};
use reader::table::{Condition, Equation, Summand, Table};
use reader::Layout;

/// `f(f(..f(0)..))` of this many nodes.
fn nested(nodes: usize) -> Data {
    (1..nodes).fold(Data::Value(0), |data, _| Data::Apply(0, vec![data]))
}

/// One equation of 255 summands, each with eight conditions of these lengths.
fn equation(nodes: usize) -> Equation {
    let conditions = (0..8)
        .map(|_| Condition {
            wanted: 1,
            data: nested(nodes),
        })
        .collect::<Vec<_>>();
    let summand = Summand {
        variables: vec![],
        conditions,
        action: None,
        arguments: vec![],
        calls: vec![],
    };
    Equation {
        parameters: vec![],
        summands: vec![summand; 255],
    }
}

/// The file of the largest such table that is accepted.
pub fn large_file() -> Vec<u8> {
    let functions = vec![Function {
        arguments: vec![0],
        result: 0,
        values: vec![1, 0],
    }];
    let actions = vec![Action {
        name: "a".into(),
        arguments: vec![],
    }];
    let signature = Signature {
        sorts: vec![Sort::bool()],
        functions,
        actions,
    };
    let table = Table {
        layout: Layout::Named,
        signature,
        equations: vec![equation(30)],
        start: 0,
        start_values: vec![],
    };
    reader::encode_file(&table)
}
