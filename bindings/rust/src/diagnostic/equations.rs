//! Question 10, the equations of the table and how many summands they have: the written processes, then a new equation
//! for each part behind the first of a sequence that is no call.

use std::collections::HashMap;

use super::finding::{Finding, Found, Span};
use super::known::{Declared, Known};
use super::tree::{flat, Choice, Data, DataKind, Name, Part, PartKind, Sequence};

const EQUATIONS: usize = 64;
const PARAMETERS: usize = 4;
const SUMMANDS: u64 = 255;

/// The right side of an equation.
#[derive(Clone, Copy)]
pub enum Body<'t, 's> {
    Process(usize),
    Part(&'t Part<'s>),
}

pub struct Equation<'t, 's> {
    pub body: Body<'t, 's>,
    pub parameters: Vec<Name<'s>>,
}

/// The equations of a sheet without circles, and the heads of its processes.
pub struct Equations<'k, 't, 's> {
    pub known: &'k Known<'t, 's>,
    pub list: Vec<Equation<'t, 's>>,
    /// How many heads each process has; a count that is too large for the machine stands still.
    heads: Vec<u64>,
    /// The heads of each part that stands first in a sequence, since a head is looked for once for each call.
    counted: HashMap<Span, u64>,
}

impl<'k, 't, 's> Equations<'k, 't, 's> {
    pub fn of(known: &'k Known<'t, 's>) -> Self {
        let processes = &known.sheet.processes;
        let written = processes
            .iter()
            .enumerate()
            .map(|(number, process)| Equation {
                body: Body::Process(number),
                parameters: process
                    .parameters
                    .iter()
                    .map(|variable| variable.name)
                    .collect(),
            });
        let mut equations = Equations {
            known,
            list: written.collect(),
            heads: vec![0; processes.len()],
            counted: HashMap::new(),
        };
        for process in processes {
            let mut scope = process
                .parameters
                .iter()
                .map(|variable| variable.name)
                .collect();
            equations.choice(&process.body, &mut scope);
        }
        // without a circle every count is right after as many rounds as there are processes
        for _ in processes {
            let counts = processes
                .iter()
                .map(|process| equations.count(&process.body));
            equations.heads = counts.collect();
        }
        processes
            .iter()
            .for_each(|process| equations.remember(&process.body));
        equations
    }

    /// Counts the heads of all parts of a choice, once for all.
    fn remember(&mut self, choice: &Choice) {
        let parts = sequences(choice).flatten();
        for part in parts {
            match &part.kind {
                PartKind::Sum(_, body) => self.remember(body),
                PartKind::Brackets(choice) => self.remember(choice),
                _ => {}
            }
            self.counted.insert(part.span, self.count_part(part));
        }
    }

    fn choice(&mut self, choice: &'t Choice<'s>, scope: &mut Vec<Name<'s>>) {
        sequences(choice).for_each(|sequence| self.sequence(sequence, scope));
    }

    fn sequence(&mut self, sequence: &'t Sequence<'s>, scope: &mut Vec<Name<'s>>) {
        for (place, part) in flat(sequence).into_iter().enumerate() {
            if place > 0 && self.called(part).is_none() {
                let free = |name: &&Name| part_uses(part, name.text);
                let parameters = scope.iter().filter(free).copied().collect();
                let body = Body::Part(part);
                self.list.push(Equation { body, parameters });
            }
            match &part.kind {
                PartKind::Sum(variable, body) => {
                    scope.push(variable.name);
                    self.choice(body, scope);
                    scope.pop();
                }
                PartKind::Brackets(choice) => self.choice(choice, scope),
                _ => {}
            }
        }
    }

    /// The process that a part calls, if it is a call.
    pub fn called(&self, part: &Part) -> Option<usize> {
        match &part.kind {
            PartKind::Named(call) => match self.known.get(call.name.text) {
                Some(Declared::Process(process)) => Some(process),
                _ => None,
            },
            _ => None,
        }
    }

    /// The parameters of the new equation of a part.
    pub fn parameters(&self, part: &Part) -> &[Name<'s>] {
        let is = |equation: &&Equation| match equation.body {
            Body::Part(other) => other.span == part.span,
            Body::Process(_) => false,
        };
        self.list
            .iter()
            .find(is)
            .map_or(&[], |equation| &equation.parameters)
    }

    /// How many heads a choice has.
    pub fn count(&self, choice: &Choice) -> u64 {
        sequences(choice).fold(0, |sum, parts| sum.saturating_add(self.count_first(parts)))
    }

    /// The heads of a sequence are those of its first part.
    pub fn count_first(&self, sequence: &Sequence) -> u64 {
        sequence.first().map_or(0, |part| self.count_part(part))
    }

    pub fn count_part(&self, part: &Part) -> u64 {
        if let Some(count) = self.counted.get(&part.span) {
            return *count;
        }
        match &part.kind {
            PartKind::Delta => 0,
            PartKind::Tau => 1,
            PartKind::Named(_) => self.called(part).map_or(1, |process| self.heads[process]),
            PartKind::Sum(_, body) => self.count(body),
            PartKind::Brackets(choice) => self.count(choice),
        }
    }

    fn count_of(&self, equation: &Equation) -> u64 {
        match equation.body {
            Body::Process(process) => self.heads[process],
            Body::Part(part) => self.count_part(part),
        }
    }

    /// At most 64 equations of 4 parameters, 255 summands in all.
    pub fn check(&self) -> Found<()> {
        self.few_equations()?;
        self.list.iter().try_for_each(few_parameters)?;
        self.few_summands()
    }

    fn few_equations(&self) -> Found<()> {
        let Some(Equation {
            body: Body::Part(part),
            ..
        }) = self.list.get(EQUATIONS)
        else {
            return Ok(());
        };
        let (count, written) = (self.list.len(), self.heads.len());
        let message = format!(
            "the table would have {count} equations, {written} of processes and {} of parts behind a first part: at most {EQUATIONS}",
            count - written
        );
        let help = "calls need no equation: make a process of what is written often, and call it"
            .to_string();
        Err(Finding::new(10, part.span, message)
            .label("number 65")
            .help(help))
    }

    fn few_summands(&self) -> Found<()> {
        let counts = self.list.iter().map(|equation| self.count_of(equation));
        let sum = counts.fold(0, u64::saturating_add);
        if sum <= SUMMANDS {
            return Ok(());
        }
        let most = self
            .list
            .iter()
            .rev()
            .max_by_key(|equation| self.count_of(equation));
        let Some(most) = most else { return Ok(()) };
        let ways = in_words(self.count_of(most));
        let (span, label) = match most.body {
            Body::Process(process) => {
                let name = self.known.sheet.processes[process].name;
                (
                    name.span,
                    format!("process `{}` begins in {ways} ways", name.text),
                )
            }
            Body::Part(part) => (part.span, format!("this part begins in {ways} ways")),
        };
        let message = format!(
            "the table would have {} summands, one for each way to begin: at most {SUMMANDS}",
            in_words(sum)
        );
        let help = "a call that stands first brings all ways of its process, unless an action or `tau` stands before it; ways \
                    that differ in data alone are one sum"
            .to_string();
        Err(Finding::new(10, span, message).label(label).help(help))
    }
}

/// All sequences of a choice.
fn sequences<'c, 's>(choice: &'c Choice<'s>) -> impl Iterator<Item = &'c Sequence<'s>> {
    choice.iter().flat_map(|conditional| {
        let no = conditional.test.as_ref().map(|(_, no)| no);
        std::iter::once(&conditional.yes).chain(no)
    })
}

/// A count, which may have stood still.
fn in_words(count: u64) -> String {
    match count {
        u64::MAX => "more than 10^19".to_string(),
        _ => count.to_string(),
    }
}

fn few_parameters(equation: &Equation) -> Found<()> {
    let Body::Part(part) = equation.body else {
        return Ok(());
    };
    let count = equation.parameters.len();
    if count <= PARAMETERS {
        return Ok(());
    }
    let names: Vec<&str> = equation.parameters.iter().map(|name| name.text).collect();
    let message =
        format!("a part behind a first part uses {count} variables: at most {PARAMETERS}");
    let help = "it gets an equation of its own, and the variables are its parameters".to_string();
    Err(Finding::new(10, part.span, message)
        .label(format!("uses {}", names.join(", ")))
        .help(help))
}

fn part_uses(part: &Part, variable: &str) -> bool {
    match &part.kind {
        PartKind::Delta | PartKind::Tau => false,
        PartKind::Named(call) => call.arguments.iter().any(|data| data_uses(data, variable)),
        PartKind::Sum(_, body) => choice_uses(body, variable),
        PartKind::Brackets(choice) => choice_uses(choice, variable),
    }
}

fn choice_uses(choice: &Choice, variable: &str) -> bool {
    let in_parts = |parts: &Sequence| parts.iter().any(|part| part_uses(part, variable));
    choice.iter().any(|conditional| {
        let test = conditional.test.as_ref();
        in_parts(&conditional.yes)
            || test.is_some_and(|(test, no)| data_uses(test, variable) || in_parts(no))
    })
}

fn data_uses(data: &Data, variable: &str) -> bool {
    match &data.kind {
        DataKind::Variable(name) => name.text == variable,
        _ => data.parts().iter().any(|part| data_uses(part, variable)),
    }
}
