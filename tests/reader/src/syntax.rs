//! The text of a sheet as a tree, names not yet looked up.

use crate::data::Joint;

/// A whole sheet, its lines by kind.
#[derive(Debug)]
pub struct Sheet<'a> {
    /// `sort` lines: name and size.
    pub sorts: Vec<(&'a str, u8)>,
    /// `func` lines.
    pub functions: Vec<Function<'a>>,
    /// `act` lines.
    pub actions: Vec<Action<'a>>,
    /// `proc` lines.
    pub processes: Vec<Process<'a>>,
    /// The `init` line.
    pub init: Call<'a>,
}

/// `func` name `:` one or two sorts `->` sort `=` values.
#[derive(Debug)]
pub struct Function<'a> {
    pub name: &'a str,
    pub arguments: Vec<&'a str>,
    pub result: &'a str,
    pub values: Vec<u8>,
}

/// `act` name and none to two sorts.
#[derive(Debug)]
pub struct Action<'a> {
    pub name: &'a str,
    pub arguments: Vec<&'a str>,
}

/// `v:sort`.
#[derive(Debug)]
pub struct Variable<'a> {
    pub name: &'a str,
    pub sort: &'a str,
}

/// `proc` name, parameters and right side.
#[derive(Debug)]
pub struct Process<'a> {
    pub name: &'a str,
    pub parameters: Vec<Variable<'a>>,
    pub body: Choice<'a>,
}

/// Conditionals joined by `+`.
pub type Choice<'a> = Vec<Conditional<'a>>;

/// A sequence, or sequence `<|` data `|>` sequence.
#[derive(Debug)]
pub enum Conditional<'a> {
    Sequence(Sequence<'a>),
    Test {
        yes: Sequence<'a>,
        test: Data<'a>,
        no: Sequence<'a>,
    },
}

/// Parts joined by `.`.
pub type Sequence<'a> = Vec<Part<'a>>;

/// A part and the place of its first character.
#[derive(Debug)]
pub struct Part<'a> {
    pub place: usize,
    pub kind: PartKind<'a>,
}

/// The five forms of a part.
#[derive(Debug)]
pub enum PartKind<'a> {
    Delta,
    Tau,
    Name(Call<'a>),
    Sum(Variable<'a>, Choice<'a>),
    Brackets(Choice<'a>),
}

/// A name with or without bracketed data; without brackets it has no arguments.
#[derive(Debug)]
pub struct Call<'a> {
    pub name: &'a str,
    pub arguments: Vec<Data<'a>>,
}

/// A numeral, a variable, a function name with bracketed data, or operators over data. Brackets
/// leave no trace, and a run of `!` or of one joint is one node.
#[derive(Debug)]
pub enum Data<'a> {
    Numeral(u8),
    Variable(&'a str),
    Apply(Call<'a>),
    /// So many `!` before data.
    Not(usize, Box<Data<'a>>),
    Equal(Box<[Data<'a>; 2]>),
    /// Two or more data with this joint between.
    Joined(Joint, Vec<Data<'a>>),
}

impl<'a> Data<'a> {
    /// One or more data with this joint between.
    pub fn chain(joint: Joint, mut items: Vec<Data<'a>>) -> Data<'a> {
        match items.len() {
            1 => items.remove(0),
            _ => Data::Joined(joint, items),
        }
    }

    /// Whether a name without brackets of its own stands in it.
    pub fn has_bare_name(&self) -> bool {
        match self {
            Data::Numeral(_) => false,
            Data::Variable(_) => true,
            Data::Apply(call) => call.arguments.iter().any(Data::has_bare_name),
            Data::Not(_, inner) => inner.has_bare_name(),
            Data::Equal(sides) => sides.iter().any(Data::has_bare_name),
            Data::Joined(_, items) => items.iter().any(Data::has_bare_name),
        }
    }
}
