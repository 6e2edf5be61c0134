//! The names of the sum variables of every summand, in the order in which the table has them.

use super::equations::{Body, Equation, Equations};
use super::tree::{flat, Choice, Part, PartKind, Sequence};

/// The way down to the heads of one equation.
struct Sums<'e, 'k, 't, 's> {
    equations: &'e Equations<'k, 't, 's>,
    parameters: Vec<String>,
    /// The variables of the sums around.
    open: Vec<&'s str>,
    heads: Vec<Vec<String>>,
}

/// Of each summand of an equation of an accepted sheet the names of its sum variables, all different from each other and
/// from the parameters: a name that comes again, by a call at the head, has a `'` behind it, as no name of a sheet has.
pub fn sums(equations: &Equations, equation: &Equation) -> Vec<Vec<String>> {
    let names = equation.parameters.iter();
    let mut sums = Sums {
        equations,
        parameters: names.map(|name| name.text.to_string()).collect(),
        open: Vec::new(),
        heads: Vec::new(),
    };
    match equation.body {
        Body::Process(process) => sums.choice(&equations.known.sheet.processes[process].body),
        Body::Part(part) => sums.part(part),
    }
    sums.heads
}

impl<'s> Sums<'_, '_, '_, 's> {
    fn choice(&mut self, choice: &Choice<'s>) {
        for conditional in choice {
            self.sequence(&conditional.yes);
            if let Some((_, no)) = &conditional.test {
                self.sequence(no);
            }
        }
    }

    fn sequence(&mut self, sequence: &Sequence<'s>) {
        if let Some(first) = flat(sequence).first() {
            self.part(first);
        }
    }

    fn part(&mut self, part: &Part<'s>) {
        // what has no head is not followed: calls could lead through it very often
        if self.equations.count_part(part) == 0 {
            return;
        }
        match (&part.kind, self.equations.called(part)) {
            (PartKind::Named(_), Some(process)) => {
                self.choice(&self.equations.known.sheet.processes[process].body);
            }
            (PartKind::Sum(variable, body), _) => {
                self.open.push(variable.name.text);
                self.choice(body);
                self.open.pop();
            }
            (PartKind::Brackets(choice), _) => self.choice(choice),
            (PartKind::Named(_) | PartKind::Tau | PartKind::Delta, _) => self.head(),
        }
    }

    fn head(&mut self) {
        let mut names = self.parameters.clone();
        for open in &self.open {
            let mut name = open.to_string();
            while names.contains(&name) {
                name.push('\'');
            }
            names.push(name);
        }
        self.heads.push(names.split_off(self.parameters.len()));
    }
}
