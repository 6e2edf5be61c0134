//! Names (question 7): every declared name new, each used name of the kind its place needs.

use std::collections::HashMap;

use crate::data::NO_SORT;
use crate::sheet::{Choice, Conditional, Part, PartKind, Process, Sequence, Sheet};
use crate::signature::{Action, Data, Function, Signature, Sort, BOOL, BOOL_NAME};
use crate::sorts::own_sort;
use crate::syntax;

/// What a declared name stands for.
#[derive(Clone, Copy, Debug, PartialEq, Eq)]
enum Declared {
    Sort(usize),
    Function(usize),
    Action(usize),
    Process(usize),
}

/// The declared names of a sheet: sorts, functions, actions and processes share one space.
#[derive(Clone, Debug)]
pub(crate) struct Names {
    declared: HashMap<String, Declared>,
}

/// The sheet with its names looked up, or `None` if question 7 fails.
pub fn resolve(sheet: &syntax::Sheet) -> Option<Sheet> {
    let names = Names::of(sheet)?;
    let signature = names.signature(sheet)?;
    let mut processes = Vec::new();
    for process in &sheet.processes {
        processes.push(names.process(&signature, process)?);
    }
    let Declared::Process(start) = names.get(sheet.init.name)? else {
        return None;
    };
    let start_data = Scope::new(&names, &signature).data_list(&sheet.init.arguments)?;
    Some(Sheet {
        signature,
        processes,
        start,
        start_data,
        names,
    })
}

impl Names {
    fn of(sheet: &syntax::Sheet) -> Option<Names> {
        let bool_sort = [(BOOL_NAME, Declared::Sort(BOOL))];
        let sorts = sheet.sorts.iter().enumerate();
        let functions = sheet.functions.iter().enumerate();
        let actions = sheet.actions.iter().enumerate();
        let processes = sheet.processes.iter().enumerate();
        let all = bool_sort
            .into_iter()
            .chain(sorts.map(|(i, sort)| (sort.0, Declared::Sort(i + 1))))
            .chain(functions.map(|(i, f)| (f.name, Declared::Function(i))))
            .chain(actions.map(|(i, a)| (a.name, Declared::Action(i))))
            .chain(processes.map(|(i, p)| (p.name, Declared::Process(i))));
        let mut declared = HashMap::new();
        for (name, kind) in all {
            if declared.insert(name.to_string(), kind).is_some() {
                return None;
            }
        }
        Some(Names { declared })
    }

    fn get(&self, name: &str) -> Option<Declared> {
        self.declared.get(name).copied()
    }

    fn sort(&self, name: &str) -> Option<usize> {
        match self.get(name)? {
            Declared::Sort(sort) => Some(sort),
            _ => None,
        }
    }

    fn sorts(&self, names: &[&str]) -> Option<Vec<usize>> {
        names.iter().map(|name| self.sort(name)).collect()
    }

    fn signature(&self, sheet: &syntax::Sheet) -> Option<Signature> {
        let written = sheet.sorts.iter();
        let written = written.map(|&(name, size)| Sort::new(name, size));
        let sorts = [Sort::bool()].into_iter().chain(written).collect();
        let mut functions = Vec::new();
        for function in &sheet.functions {
            functions.push(Function {
                arguments: self.sorts(&function.arguments)?,
                result: self.sort(function.result)?,
                values: function.values.clone(),
            });
        }
        let mut actions = Vec::new();
        for action in &sheet.actions {
            actions.push(Action {
                name: action.name.to_string(),
                arguments: self.sorts(&action.arguments)?,
            });
        }
        Some(Signature {
            sorts,
            functions,
            actions,
        })
    }

    fn process(&self, signature: &Signature, process: &syntax::Process) -> Option<Process> {
        let mut scope = Scope::new(self, signature);
        for parameter in &process.parameters {
            scope.open(parameter)?;
        }
        let parameters = scope.sorts.clone();
        let body = scope.choice(&process.body)?;
        Some(Process { parameters, body })
    }

    /// A choice without free variables, its names looked up.
    pub(crate) fn closed_choice(
        &self,
        signature: &Signature,
        choice: &syntax::Choice,
    ) -> Option<Choice> {
        Scope::new(self, signature).choice(choice)
    }
}

/// The variables in scope, outermost first.
struct Scope<'n> {
    names: &'n Names,
    signature: &'n Signature,
    variables: Vec<String>,
    /// Their sorts.
    sorts: Vec<usize>,
}

impl<'n> Scope<'n> {
    fn new(names: &'n Names, signature: &'n Signature) -> Self {
        Scope {
            names,
            signature,
            variables: Vec::new(),
            sorts: Vec::new(),
        }
    }

    /// Puts a variable, unlike all declared names and all in scope, into scope; gives its sort.
    fn open(&mut self, variable: &syntax::Variable) -> Option<usize> {
        let taken = self.names.get(variable.name).is_some() || self.find(variable.name).is_some();
        if taken {
            return None;
        }
        let sort = self.names.sort(variable.sort)?;
        self.variables.push(variable.name.to_string());
        self.sorts.push(sort);
        Some(sort)
    }

    fn find(&self, name: &str) -> Option<usize> {
        self.variables.iter().position(|known| known == name)
    }

    fn choice(&mut self, choice: &syntax::Choice) -> Option<Choice> {
        choice.iter().map(|c| self.conditional(c)).collect()
    }

    fn conditional(&mut self, conditional: &syntax::Conditional) -> Option<Conditional> {
        Some(match conditional {
            syntax::Conditional::Sequence(parts) => Conditional::Sequence(self.sequence(parts)?),
            syntax::Conditional::Test { yes, test, no } => Conditional::Test {
                yes: self.sequence(yes)?,
                test: self.data(test)?,
                no: self.sequence(no)?,
            },
        })
    }

    fn sequence(&mut self, parts: &syntax::Sequence) -> Option<Sequence> {
        let mut sequence = Vec::new();
        self.flatten(parts, &mut sequence)?;
        Some(sequence)
    }

    /// Brackets that hold only a sequence are flattened into the sequence around them.
    fn flatten(&mut self, parts: &syntax::Sequence, sequence: &mut Sequence) -> Option<()> {
        for part in parts {
            if let Some(inner) = only_sequence(part) {
                self.flatten(inner, sequence)?;
            } else {
                sequence.push(self.part(part)?);
            }
        }
        Some(())
    }

    fn part(&mut self, part: &syntax::Part) -> Option<Part> {
        let kind = match &part.kind {
            syntax::PartKind::Delta => PartKind::Delta,
            syntax::PartKind::Tau => PartKind::Tau,
            syntax::PartKind::Name(call) => self.named_part(call)?,
            syntax::PartKind::Sum(variable, body) => self.sum(variable, body)?,
            syntax::PartKind::Brackets(choice) => PartKind::Brackets(self.choice(choice)?),
        };
        let place = part.place;
        Some(Part { place, kind })
    }

    fn named_part(&self, call: &syntax::Call) -> Option<PartKind> {
        let arguments = self.data_list(&call.arguments)?;
        match self.names.get(call.name)? {
            Declared::Action(action) => Some(PartKind::Action(action, arguments)),
            Declared::Process(process) => Some(PartKind::Call(process, arguments)),
            Declared::Sort(_) | Declared::Function(_) => None,
        }
    }

    fn sum(&mut self, variable: &syntax::Variable, body: &syntax::Choice) -> Option<PartKind> {
        let number = self.variables.len();
        let sort = self.open(variable)?;
        let body = self.choice(body)?;
        self.variables.truncate(number);
        self.sorts.truncate(number);
        Some(PartKind::Sum {
            variable: number,
            sort,
            body,
        })
    }

    fn data_list(&self, data: &[syntax::Data]) -> Option<Vec<Data>> {
        data.iter().map(|d| self.data(d)).collect()
    }

    fn data(&self, data: &syntax::Data) -> Option<Data> {
        match data {
            syntax::Data::Numeral(value) => Some(Data::Value(*value)),
            syntax::Data::Variable(name) => Some(Data::Variable(self.find(name)?)),
            syntax::Data::Apply(call) => match self.names.get(call.name)? {
                Declared::Function(f) => Some(Data::Apply(f, self.data_list(&call.arguments)?)),
                _ => None,
            },
            syntax::Data::Not(count, inner) => Some(Data::not(*count, self.data(inner)?)),
            syntax::Data::Equal(sides) => self.comparison(sides),
            syntax::Data::Joined(joint, items) => Some(Data::chain(*joint, self.data_list(items)?)),
        }
    }

    /// The sort of `==` is that of a side that is no numeral.
    fn comparison(&self, [left, right]: &[syntax::Data; 2]) -> Option<Data> {
        let (left, right) = (self.data(left)?, self.data(right)?);
        let sort = |side| own_sort(self.signature, &self.sorts, side);
        let sort = sort(&left).or(sort(&right)).unwrap_or(NO_SORT);
        Some(Data::equal(sort, left, right))
    }
}

fn only_sequence<'s, 'a>(part: &'s syntax::Part<'a>) -> Option<&'s syntax::Sequence<'a>> {
    let syntax::PartKind::Brackets(choice) = &part.kind else {
        return None;
    };
    match choice.as_slice() {
        [syntax::Conditional::Sequence(parts)] => Some(parts),
        _ => None,
    }
}
