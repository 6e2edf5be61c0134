//! The text of a sheet as a tree in which everything knows its place; names are not looked up.

use super::finding::{Found, Span};

#[derive(Clone, Copy, Debug)]
pub struct Name<'s> {
    pub text: &'s str,
    pub span: Span,
}

#[derive(Debug)]
pub struct Sheet<'s> {
    pub sorts: Vec<Sort<'s>>,
    pub functions: Vec<Function<'s>>,
    pub actions: Vec<Action<'s>>,
    pub processes: Vec<Process<'s>>,
    pub init: Call<'s>,
}

#[derive(Debug)]
pub struct Sort<'s> {
    pub name: Name<'s>,
    pub size: Numeral,
}

#[derive(Clone, Copy, Debug)]
pub struct Numeral {
    pub value: u8,
    pub span: Span,
}

#[derive(Debug)]
pub struct Function<'s> {
    pub name: Name<'s>,
    pub arguments: Vec<Name<'s>>,
    pub result: Name<'s>,
    pub values: Vec<Numeral>,
}

#[derive(Debug)]
pub struct Action<'s> {
    pub name: Name<'s>,
    pub arguments: Vec<Name<'s>>,
}

/// `v: sort`.
#[derive(Debug)]
pub struct Variable<'s> {
    pub name: Name<'s>,
    pub sort: Name<'s>,
}

#[derive(Debug)]
pub struct Process<'s> {
    pub name: Name<'s>,
    pub parameters: Vec<Variable<'s>>,
    pub body: Choice<'s>,
}

/// Conditionals joined by `+`.
pub type Choice<'s> = Vec<Conditional<'s>>;

/// A sequence, with a condition and the no part behind it where it has these.
#[derive(Debug)]
pub struct Conditional<'s> {
    pub yes: Sequence<'s>,
    pub test: Option<(Data<'s>, Sequence<'s>)>,
}

/// Parts joined by `.`, at least one.
pub type Sequence<'s> = Vec<Part<'s>>;

#[derive(Debug)]
pub struct Part<'s> {
    pub span: Span,
    pub kind: PartKind<'s>,
}

#[derive(Debug)]
pub enum PartKind<'s> {
    Delta,
    Tau,
    /// An action or a call.
    Named(Call<'s>),
    Sum(Variable<'s>, Choice<'s>),
    Brackets(Choice<'s>),
}

/// A name with or without bracketed data; `span` has both.
#[derive(Debug)]
pub struct Call<'s> {
    pub name: Name<'s>,
    pub arguments: Vec<Data<'s>>,
    pub span: Span,
}

#[derive(Debug)]
pub struct Data<'s> {
    pub span: Span,
    pub kind: DataKind<'s>,
}

/// A run of `!` and a run of one joint are one node, so that data is no deeper than its brackets.
#[derive(Debug)]
pub enum DataKind<'s> {
    Numeral(u8),
    Variable(Name<'s>),
    Apply(Call<'s>),
    /// So many `!` before data.
    Not(usize, Box<Data<'s>>),
    Equal(Box<[Data<'s>; 2]>),
    /// Two or more data with `/\` or `\/` between.
    Joined(&'static str, Vec<Data<'s>>),
}

impl<'s> Data<'s> {
    /// What its function or its operators stand over.
    pub fn parts(&self) -> &[Data<'s>] {
        match &self.kind {
            DataKind::Numeral(_) | DataKind::Variable(_) => &[],
            DataKind::Apply(call) => &call.arguments,
            DataKind::Not(_, inner) => std::slice::from_ref(inner),
            DataKind::Equal(sides) => &sides[..],
            DataKind::Joined(_, parts) => parts,
        }
    }

    /// The first name in it that has no brackets.
    pub fn bare_name(&self) -> Option<Name<'s>> {
        match self.kind {
            DataKind::Variable(name) => Some(name),
            _ => self.parts().iter().find_map(Data::bare_name),
        }
    }
}

/// The parts of a sequence, those in brackets that hold a sequence alone among them.
pub fn flat<'t, 's>(sequence: &'t Sequence<'s>) -> Vec<&'t Part<'s>> {
    let mut parts = Vec::new();
    for part in sequence {
        match &part.kind {
            PartKind::Brackets(choice) => match &choice[..] {
                [Conditional { yes, test: None }] => parts.extend(flat(yes)),
                _ => parts.push(part),
            },
            _ => parts.push(part),
        }
    }
    parts
}

/// A walk over a right side in the order of the text, with a place for what is done at each part and each datum.
pub trait Walk<'s> {
    /// At an action or a call.
    fn named(&mut self, call: &Call<'s>) -> Found<()>;

    /// At a condition.
    fn condition(&mut self, test: &Data<'s>) -> Found<()>;

    /// Where a variable comes into scope, and where it leaves.
    fn open(&mut self, variable: &Variable<'s>) -> Found<()>;
    fn close(&mut self);

    fn process(&mut self, process: &Process<'s>) -> Found<()> {
        for parameter in &process.parameters {
            self.open(parameter)?;
        }
        self.choice(&process.body)?;
        process.parameters.iter().for_each(|_| self.close());
        Ok(())
    }

    fn choice(&mut self, choice: &Choice<'s>) -> Found<()> {
        for conditional in choice {
            self.sequence(&conditional.yes)?;
            if let Some((test, no)) = &conditional.test {
                self.condition(test)?;
                self.sequence(no)?;
            }
        }
        Ok(())
    }

    fn sequence(&mut self, sequence: &Sequence<'s>) -> Found<()> {
        for part in sequence {
            match &part.kind {
                PartKind::Delta | PartKind::Tau => {}
                PartKind::Named(call) => self.named(call)?,
                PartKind::Brackets(choice) => self.choice(choice)?,
                PartKind::Sum(variable, body) => {
                    self.open(variable)?;
                    self.choice(body)?;
                    self.close();
                }
            }
        }
        Ok(())
    }
}
