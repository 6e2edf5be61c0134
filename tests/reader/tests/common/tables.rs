//! Right tables by a seed, made without a sheet: within all limits and rightly sorted.

use reader::limits;
use reader::signature::{Action, Data, Function, Joint, Signature, Sort, BOOL};
use reader::table::{Call, Condition, Equation, Summand, Table};
use reader::Layout;

use super::random::Random;

/// How much a table has of what; the numbers are one more than the most.
#[derive(Clone, Copy)]
struct Shape {
    sorts: usize,
    size: usize,
    functions: usize,
    actions: usize,
    equations: usize,
    summands: usize,
    conditions: usize,
    calls: usize,
    nodes: usize,
}

/// Most of them print.
const SMALL: Shape = Shape {
    sorts: 4,
    size: 5,
    functions: 4,
    actions: 5,
    equations: 6,
    summands: 4,
    conditions: 3,
    calls: 4,
    nodes: 7,
};

/// Little in many equations.
const LONG: Shape = Shape {
    equations: limits::EQUATIONS + 1,
    summands: 2,
    conditions: 2,
    calls: 3,
    nodes: 2,
    ..SMALL
};

/// Terms as deep as can be, since most functions give the sort that they take.
const DEEP: Shape = Shape {
    sorts: 2,
    equations: 3,
    nodes: limits::TERM_NODES + 1,
    ..SMALL
};

/// Much of everything in few equations: about as long as a sheet may be, and as many brackets.
const LARGE: Shape = Shape {
    sorts: 9,
    size: 7,
    functions: 8,
    actions: 33,
    equations: 17,
    summands: 4,
    conditions: 9,
    calls: 9,
    nodes: 24,
};

/// Everything up to the limits of a table; few of these print.
const FULL: Shape = Shape {
    sorts: limits::SORTS + 1,
    size: limits::SORT_SIZE as usize + 1,
    functions: limits::FUNCTIONS + 1,
    actions: limits::ACTIONS + 1,
    equations: limits::EQUATIONS + 1,
    summands: 8,
    conditions: limits::CONDITIONS + 1,
    calls: limits::CALLS + 1,
    nodes: limits::TERM_NODES + 1,
};

/// Action names that press on the letters of printed names, or that are nearly words.
const PRESSING: [&str; 24] = [
    "s", "ss", "s1", "sss1", "f", "ff", "f0", "fff", "p", "p1", "pp", "pppp", "v", "v0", "vv",
    "vvv_", "Sum", "sums", "tau1", "delta_", "proc0", "initial", "bool", "Boolean",
];

/// Names of sorts: plain, nearly words, and such as the earlier layout gives.
const SORT_NAMES: [&str; 12] = [
    "D",
    "E",
    "Level",
    "coil_channel",
    "bool",
    "Boolean",
    "sort1",
    "Tau",
    "s1",
    "ss2",
    "sss1",
    "s_",
];

/// The table of a seed.
pub fn table(seed: u64) -> Table {
    made(seed, false)
}

/// The table of a seed with operators in its data.
pub fn with_operators(seed: u64) -> Table {
    made(seed, true)
}

/// The table of a seed as the earlier writer filed it, with or without operators in its data.
pub fn older(seed: u64) -> Table {
    made(seed, seed % 2 == 1).older()
}

fn made(seed: u64, operators: bool) -> Table {
    let shape = match seed % 32 {
        20..24 => DEEP,
        24..29 => LONG,
        29..31 => LARGE,
        31 => FULL,
        _ => SMALL,
    };
    let mut random = Random::new(seed);
    let mut signature = signature(&mut random, &shape);
    // by numbers of their own, so that all else is as without names
    name_sorts(&mut Random::new(seed ^ 0xf2), &mut signature);
    let mut maker = Maker {
        random,
        shape,
        operators,
        parameters: Vec::new(),
        signature,
    };
    maker.table()
}

fn signature(random: &mut Random, shape: &Shape) -> Signature {
    let mut sorts = vec![Sort::bool()];
    for _ in 1..1 + random.below(shape.sorts - 1) {
        sorts.push(Sort::new("", 1 + random.below(shape.size - 1) as u8));
    }
    let mut signature = Signature {
        sorts,
        functions: Vec::new(),
        actions: Vec::new(),
    };
    for _ in 0..random.below(shape.functions) {
        let function = function(random, &signature);
        signature.functions.push(function);
    }
    for _ in 0..random.below(shape.actions) {
        let name = action_name(random);
        if signature.actions.iter().all(|action| action.name != name) {
            let arguments = some_sorts(random, &signature, 0);
            signature.actions.push(Action { name, arguments });
        }
    }
    signature
}

/// Names all sorts but Bool: valid, distinct, now and then as an action is named.
fn name_sorts(random: &mut Random, signature: &mut Signature) {
    for index in BOOL + 1..signature.sorts.len() {
        let name = loop {
            let name = sort_name(random, &signature.actions);
            if signature.sorts[..index]
                .iter()
                .all(|sort| sort.name != name)
            {
                break name;
            }
        };
        signature.sorts[index].name = name;
    }
}

fn sort_name(random: &mut Random, actions: &[Action]) -> String {
    match random.below(32) {
        0 if !actions.is_empty() => random.pick(actions).name.clone(),
        0..4 => pressing_name(random),
        4..7 => format!(
            "{:n<1$}",
            random.pick(&["D", "s", "E9_"]),
            limits::NAME_LENGTH
        ),
        7..20 => random.pick(&SORT_NAMES).to_string(),
        _ => format!("D{}", random.below(40)),
    }
}

/// From so many sorts to two.
fn some_sorts(random: &mut Random, signature: &Signature, least: usize) -> Vec<usize> {
    let count = least + random.below(limits::ARITY + 1 - least);
    let sorts = signature.sorts.len();
    (0..count).map(|_| random.below(sorts)).collect()
}

fn function(random: &mut Random, signature: &Signature) -> Function {
    let arguments = some_sorts(random, signature, 1);
    let result = random.below(signature.sorts.len());
    let size = usize::from(signature.size(result));
    let values = (0..signature.combinations(&arguments)).map(|_| random.below(size) as u8);
    Function {
        values: values.collect(),
        arguments,
        result,
    }
}

/// A name that presses on a letter: a run of it of any length, with or without a digit behind it.
fn pressing_name(random: &mut Random) -> String {
    let short = random.below(3) < 2;
    let times = 1 + random.below(if short { 3 } else { limits::NAME_LENGTH });
    let run = random.pick(&["s", "f", "p", "v"]).repeat(times);
    let behind = random.pick(&["", "", "0", "1", "_"]);
    let name = format!("{run}{behind}");
    name.chars().take(limits::NAME_LENGTH).collect()
}

/// Often a name that presses on a letter.
fn action_name(random: &mut Random) -> String {
    match random.below(4) {
        0 => random.pick(&PRESSING).to_string(),
        1 => pressing_name(random),
        _ => format!(
            "{}{}",
            random.pick(&["a", "b", "read", "Y_"]),
            random.below(40)
        ),
    }
}

/// A table being made: its signature, and the parameters of all equations.
struct Maker {
    random: Random,
    shape: Shape,
    /// Data has operators.
    operators: bool,
    signature: Signature,
    parameters: Vec<Vec<usize>>,
}

impl Maker {
    fn table(&mut self) -> Table {
        let count = 1 + self.random.below(self.shape.equations - 1);
        for _ in 0..count {
            let parameters = self.sorts_below(limits::PARAMETERS + 1);
            self.parameters.push(parameters);
        }
        let mut left = limits::SUMMANDS;
        let equations = (0..count)
            .map(|index| self.equation(index, &mut left))
            .collect();
        let start = self.random.below(count);
        let sorts = self.parameters[start].clone();
        let start_values = sorts.iter().map(|&sort| self.value(sort)).collect();
        let mut table = Table {
            layout: Layout::Named,
            signature: self.signature.clone(),
            equations,
            start,
            start_values,
        };
        shorten(&mut table);
        table
    }

    fn sorts_below(&mut self, bound: usize) -> Vec<usize> {
        let (count, sorts) = (self.random.below(bound), self.signature.sorts.len());
        (0..count).map(|_| self.random.below(sorts)).collect()
    }

    fn value(&mut self, sort: usize) -> u8 {
        self.random.below(usize::from(self.signature.size(sort))) as u8
    }

    fn equation(&mut self, index: usize, left: &mut usize) -> Equation {
        let count = self.random.below(self.shape.summands).min(*left);
        *left -= count;
        let parameters = self.parameters[index].clone();
        Equation {
            summands: (0..count).map(|_| self.summand(&parameters)).collect(),
            parameters,
        }
    }

    fn summand(&mut self, parameters: &[usize]) -> Summand {
        let variables = self.sorts_below(limits::SUM_VARIABLES + 1);
        let scope = [parameters, &variables].concat();
        let conditions = (0..self.random.below(self.shape.conditions))
            .map(|_| Condition {
                wanted: self.random.below(2) as u8,
                data: self.term(&scope, 0),
            })
            .collect();
        let action = self.random.below(self.signature.actions.len() + 1);
        let action = (action < self.signature.actions.len()).then_some(action);
        let sorts = action.map_or(Vec::new(), |index| {
            self.signature.actions[index].arguments.clone()
        });
        let arguments = self.terms(&scope, &sorts);
        let calls = (0..self.random.below(self.shape.calls))
            .map(|_| self.call(&scope))
            .collect();
        Summand {
            variables,
            conditions,
            action,
            arguments,
            calls,
        }
    }

    fn call(&mut self, scope: &[usize]) -> Call {
        let equation = self.random.below(self.parameters.len());
        let sorts = self.parameters[equation].clone();
        Call {
            equation,
            arguments: self.terms(scope, &sorts),
        }
    }

    fn terms(&mut self, scope: &[usize], sorts: &[usize]) -> Vec<Data> {
        sorts.iter().map(|&sort| self.term(scope, sort)).collect()
    }

    fn term(&mut self, scope: &[usize], sort: usize) -> Data {
        let nodes = 1 + self.random.below(self.shape.nodes - 1);
        self.node(scope, sort, nodes)
    }

    /// A term of at most so many nodes with an operator outside.
    fn operator(&mut self, scope: &[usize], nodes: usize) -> Data {
        if nodes == 2 || self.random.one_in(4) {
            return Data::not(1, self.node(scope, BOOL, nodes - 1));
        }
        let joint = *self.random.pick(&[None, Some(Joint::And), Some(Joint::Or)]);
        let sort = match joint {
            None => self.random.below(self.signature.sorts.len()),
            Some(_) => BOOL,
        };
        let first = 1 + self.random.below(nodes - 2);
        let left = self.node(scope, sort, first);
        let right = self.node(scope, sort, nodes - 1 - first);
        match joint {
            None => Data::equal(sort, left, right),
            Some(joint) => Data::joined(joint, left, right),
        }
    }

    /// A term of at most so many nodes; deep on one side where functions allow it.
    fn node(&mut self, scope: &[usize], sort: usize, nodes: usize) -> Data {
        if self.operators && sort == BOOL && nodes > 1 && !self.random.one_in(4) {
            return self.operator(scope, nodes);
        }
        let functions = self.signature.functions.iter().enumerate();
        let fitting = functions.filter(|(_, f)| f.result == sort && f.arguments.len() < nodes);
        let fitting: Vec<(usize, Vec<usize>)> = fitting
            .map(|(index, f)| (index, f.arguments.clone()))
            .collect();
        if !fitting.is_empty() && !self.random.one_in(8) {
            let (function, sorts) = self.random.pick(&fitting).clone();
            let spare = nodes - 1 - sorts.len();
            let first = if sorts.len() == 1 {
                spare
            } else {
                self.random.below(spare + 1)
            };
            let shares = [1 + first, 1 + spare - first];
            let arguments = (sorts.iter().zip(shares))
                .map(|(&sort, share)| self.node(scope, sort, share))
                .collect();
            return Data::Apply(function, arguments);
        }
        let variables: Vec<usize> = (0..scope.len())
            .filter(|&index| scope[index] == sort)
            .collect();
        if variables.is_empty() || self.random.one_in(3) {
            Data::Value(self.value(sort))
        } else {
            Data::Variable(*self.random.pick(&variables))
        }
    }
}

/// Leaves summands out until the stream is short enough.
fn shorten(table: &mut Table) {
    while reader::encode(table).len() > limits::STREAM_BYTES {
        for equation in &mut table.equations {
            equation.summands.pop();
        }
    }
}
