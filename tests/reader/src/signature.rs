//! Sorts, functions and actions, which a sheet and its table share, the values of data over them, and labels.

pub use crate::data::{all_variables, Data, Joint};
use crate::transitions::Label;

/// The index of Bool among the sorts; Bool is always there first.
pub const BOOL: usize = 0;
/// The name of Bool, which no other name may be.
pub const BOOL_NAME: &str = "Bool";
/// The size of Bool: 0 false, 1 true.
pub const BOOL_SIZE: u8 = 2;

/// A sort: its name, and how many values it has.
#[derive(Clone, Debug, PartialEq, Eq)]
pub struct Sort {
    /// The name, as the labels bear it.
    pub name: String,
    /// The values are 0 to size - 1.
    pub size: u8,
}

impl Sort {
    /// The sort of this name and size.
    pub fn new(name: &str, size: u8) -> Self {
        let name = name.to_string();
        Sort { name, size }
    }

    /// Bool, which is always there first.
    pub fn bool() -> Self {
        Sort::new(BOOL_NAME, BOOL_SIZE)
    }
}

/// A function: argument sorts, result sort, and its values, last argument fastest.
#[derive(Clone, Debug, PartialEq, Eq)]
pub struct Function {
    /// Sorts of the arguments, one or two.
    pub arguments: Vec<usize>,
    /// Sort of the result.
    pub result: usize,
    /// One value for each choice of arguments.
    pub values: Vec<u8>,
}

/// An action: its name and the sorts of its values.
#[derive(Clone, Debug, PartialEq, Eq)]
pub struct Action {
    /// The name, as the labels bear it.
    pub name: String,
    /// Sorts of the values, none to two.
    pub arguments: Vec<usize>,
}

/// The sorts (Bool first), the functions and the actions.
#[derive(Clone, Debug, PartialEq, Eq)]
pub struct Signature {
    /// The sorts; Bool, of size 2, is first.
    pub sorts: Vec<Sort>,
    /// The functions.
    pub functions: Vec<Function>,
    /// The actions.
    pub actions: Vec<Action>,
}

impl Signature {
    /// How many values a sort has.
    pub fn size(&self, sort: usize) -> u8 {
        self.sorts[sort].size
    }

    /// The label of an action with these values: its name, the names of its sorts, and the values.
    pub fn label(&self, action: usize, values: Vec<u8>) -> Label {
        let Action { name, arguments } = &self.actions[action];
        let sorts = arguments.iter().map(|&sort| self.sorts[sort].name.clone());
        Label::Action {
            name: name.clone(),
            sorts: sorts.collect(),
            values,
        }
    }

    /// The number of values that a function of these argument sorts has.
    pub fn combinations(&self, arguments: &[usize]) -> usize {
        arguments
            .iter()
            .map(|&sort| usize::from(self.size(sort)))
            .product()
    }

    /// The value of a function at the given arguments.
    pub fn apply(&self, function: usize, arguments: &[u8]) -> u8 {
        let Function {
            arguments: sorts,
            values,
            ..
        } = &self.functions[function];
        let place = sorts.iter().zip(arguments).fold(0, |place, (&sort, &v)| {
            place * usize::from(self.size(sort)) + usize::from(v)
        });
        values[place]
    }

    /// The value of data when its variables have these values.
    pub fn value(&self, data: &Data, variables: &[u8]) -> u8 {
        match data {
            Data::Value(value) => *value,
            Data::Variable(index) => variables[*index],
            Data::Apply(function, arguments) => {
                self.apply(*function, &self.values(arguments, variables))
            }
            Data::Not(count, inner) => {
                let odd = count % 2 == 1;
                u8::from(self.is_true(inner, variables) != odd)
            }
            Data::Equal(_, sides) => {
                let [left, right] = &**sides;
                u8::from(self.value(left, variables) == self.value(right, variables))
            }
            Data::Joined(joint, chain) => {
                let mut truths = chain.iter().map(|part| self.is_true(part, variables));
                u8::from(match joint {
                    Joint::And => truths.all(|truth| truth),
                    Joint::Or => truths.any(|truth| truth),
                })
            }
        }
    }

    fn is_true(&self, data: &Data, variables: &[u8]) -> bool {
        self.value(data, variables) == 1
    }

    /// The values of a list of data when its variables have these values.
    pub fn values(&self, data: &[Data], variables: &[u8]) -> Vec<u8> {
        data.iter().map(|d| self.value(d, variables)).collect()
    }
}
