//! The stream of a table, one byte a number, in the table's layout. All parameter lists stand before
//! all summands, so that a call's data can be read without a count.

use crate::data::{Data, Joint};
use crate::layout::Layout;
use crate::signature::{Signature, Sort};
use crate::table::{Equation, Summand, Table};

/// The first byte of a stream that names its sorts (#104).
pub const NAMED: u8 = 0xf2;
/// The action byte of tau.
pub const TAU: u8 = 0xff;
/// Variable i is this plus i.
pub const VARIABLE: u8 = 0x20;
/// Function i is this plus i.
pub const FUNCTION: u8 = 0x40;
/// `!`, before its data.
pub const NOT: u8 = 0x60;
/// `==`, before its sort and both sides.
pub const EQUAL: u8 = 0x61;
/// `/\`, before both sides.
pub const AND: u8 = 0x62;
/// `\/`, before both sides.
pub const OR: u8 = 0x63;

/// The stream of a table.
pub fn encode(table: &Table) -> Vec<u8> {
    let mut stream = Vec::new();
    sorts(table.layout, &table.signature.sorts, &mut stream);
    declared(&table.signature, &mut stream);
    number(table.equations.len(), &mut stream);
    for equation in &table.equations {
        list(&equation.parameters, &mut stream);
    }
    for equation in &table.equations {
        summands(equation, &mut stream);
    }
    number(table.start, &mut stream);
    stream.extend_from_slice(&table.start_values);
    stream
}

fn number(value: usize, stream: &mut Vec<u8>) {
    stream.push(u8::try_from(value).expect("a table's numbers are bytes"));
}

/// A count, then the numbers.
fn list(numbers: &[usize], stream: &mut Vec<u8>) {
    number(numbers.len(), stream);
    numbers.iter().for_each(|&n| number(n, stream));
}

/// Count and sizes; with hex F2 before them, each size has its sort's name behind it.
fn sorts(layout: Layout, sorts: &[Sort], stream: &mut Vec<u8>) {
    if layout == Layout::Named {
        stream.push(NAMED);
    }
    number(sorts.len(), stream);
    for sort in sorts {
        stream.push(sort.size);
        if layout == Layout::Named {
            name(&sort.name, stream);
        }
    }
}

/// Name length, name.
fn name(name: &str, stream: &mut Vec<u8>) {
    number(name.len(), stream);
    stream.extend_from_slice(name.as_bytes());
}

/// Functions and actions.
fn declared(signature: &Signature, stream: &mut Vec<u8>) {
    number(signature.functions.len(), stream);
    for function in &signature.functions {
        list(&function.arguments, stream);
        number(function.result, stream);
        stream.extend_from_slice(&function.values);
    }
    number(signature.actions.len(), stream);
    for action in &signature.actions {
        name(&action.name, stream);
        list(&action.arguments, stream);
    }
}

fn summands(equation: &Equation, stream: &mut Vec<u8>) {
    number(equation.summands.len(), stream);
    for each in &equation.summands {
        summand(each, stream);
    }
}

fn summand(summand: &Summand, stream: &mut Vec<u8>) {
    list(&summand.variables, stream);
    number(summand.conditions.len(), stream);
    for condition in &summand.conditions {
        stream.push(condition.wanted);
        term(&condition.data, stream);
    }
    match summand.action {
        Some(action) => number(action, stream),
        None => stream.push(TAU),
    }
    terms(&summand.arguments, stream);
    number(summand.calls.len(), stream);
    for call in &summand.calls {
        number(call.equation, stream);
        terms(&call.arguments, stream);
    }
}

fn terms(data: &[Data], stream: &mut Vec<u8>) {
    data.iter().for_each(|d| term(d, stream));
}

/// Terms in prefix order.
fn term(data: &Data, stream: &mut Vec<u8>) {
    match data {
        Data::Value(value) => stream.push(*value),
        Data::Variable(index) => number(usize::from(VARIABLE) + index, stream),
        Data::Apply(function, arguments) => {
            number(usize::from(FUNCTION) + function, stream);
            terms(arguments, stream);
        }
        Data::Not(count, inner) => {
            stream.extend(vec![NOT; *count]);
            term(inner, stream);
        }
        Data::Equal(sort, sides) => {
            stream.push(EQUAL);
            number(*sort, stream);
            terms(&sides[..], stream);
        }
        // Grouped to the left, so all operators stand before the first operand.
        Data::Joined(joint, chain) => {
            let operator = match joint {
                Joint::And => AND,
                Joint::Or => OR,
            };
            stream.extend(vec![operator; chain.len() - 1]);
            terms(chain, stream);
        }
    }
}
