//! The heads of an equation's right side. A limit is passed only where a head results, so terms
//! without heads are left before anything of them is written.

use crate::count::HeadCounts;
use crate::equations::{Body, Equation, Equations};
use crate::limits;
use crate::question::{self, put, Refusal};
use crate::sheet::{Choice, Conditional, Part, PartKind, Sequence};
use crate::signature::Data;
use crate::table::{Call, Condition, Summand};

/// The heads of an equation, in order, or question 10 if one passes a limit.
pub fn heads(
    equations: &Equations,
    counts: &HeadCounts,
    equation: &Equation,
) -> Result<Vec<Summand>, Refusal> {
    let mut bound = vec![None; equation.scope];
    for (parameter, &variable) in equation.variables.iter().enumerate() {
        bound[variable] = Some(Data::Variable(parameter));
    }
    let mut heads = Heads {
        equations,
        counts,
        parameters: equation.parameters.len(),
        bound,
        variables: Vec::new(),
        conditions: Vec::new(),
        summands: Vec::new(),
    };
    match equation.body {
        Body::Process(process) => heads.choice(&equations.sheet.processes[process].body, &[])?,
        Body::Part(part) => heads.part(part, &[])?,
    }
    Ok(heads.summands)
}

/// The way down to a head: what stands for each variable in scope, and what the head has so far.
struct Heads<'e, 's> {
    equations: &'e Equations<'s>,
    counts: &'e HeadCounts,
    parameters: usize,
    /// What is put for each variable in scope; `None` for data of too many nodes.
    bound: Vec<Option<Data>>,
    variables: Vec<usize>,
    conditions: Vec<Condition>,
    summands: Vec<Summand>,
}

impl<'s> Heads<'_, 's> {
    /// p + q: those of p, then of q. Each is followed by the calls given.
    fn choice(&mut self, choice: &'s Choice, calls: &[Call]) -> Result<(), Refusal> {
        for conditional in choice {
            match conditional {
                Conditional::Sequence(parts) => self.sequence(parts, calls)?,
                Conditional::Test { yes, test, no } => {
                    self.branch(yes, test, 1, calls)?;
                    self.branch(no, test, 0, calls)?;
                }
            }
        }
        Ok(())
    }

    /// One side of p `<|c|>` q: the condition with its wanted value is put first.
    fn branch(
        &mut self,
        parts: &'s Sequence,
        test: &Data,
        wanted: u8,
        calls: &[Call],
    ) -> Result<(), Refusal> {
        if self.counts.sequence(parts) == 0 {
            return Ok(());
        }
        within(self.conditions.len() < limits::CONDITIONS)?;
        let data = self.put_in(test)?;
        self.conditions.push(Condition { wanted, data });
        self.sequence(parts, calls)?;
        self.conditions.pop();
        Ok(())
    }

    /// A sequence: those of the first part, each followed by the calls of the rest.
    fn sequence(&mut self, parts: &'s Sequence, calls: &[Call]) -> Result<(), Refusal> {
        let (first, rest) = (&parts[0], &parts[1..]);
        if rest.is_empty() || self.counts.part(first) == 0 {
            return self.part(first, calls);
        }
        within(rest.len() + calls.len() <= limits::CALLS)?;
        let mut followed = Vec::new();
        for part in rest {
            followed.push(self.call_of(part)?);
        }
        followed.extend_from_slice(calls);
        self.part(first, &followed)
    }

    /// The call that stands for a part after the first.
    fn call_of(&self, part: &Part) -> Result<Call, Refusal> {
        let (equation, data) = match &part.kind {
            PartKind::Call(process, data) => (*process, data.clone()),
            _ => {
                let number = self.equations.number(part);
                let variables = self.equations.list[number].variables.iter();
                (number, variables.map(|&v| Data::Variable(v)).collect())
            }
        };
        let arguments = self.put_in_all(&data)?;
        Ok(Call {
            equation,
            arguments,
        })
    }

    fn part(&mut self, part: &'s Part, calls: &[Call]) -> Result<(), Refusal> {
        if self.counts.part(part) == 0 {
            return Ok(());
        }
        match &part.kind {
            PartKind::Delta => Ok(()),
            PartKind::Tau => self.head(None, &[], calls),
            PartKind::Action(action, data) => self.head(Some(*action), data, calls),
            PartKind::Call(process, data) => self.call(*process, data, calls),
            PartKind::Sum { sort, body, .. } => self.sum(*sort, body, calls),
            PartKind::Brackets(choice) => self.choice(choice, calls),
        }
    }

    /// An action or tau: one head.
    fn head(
        &mut self,
        action: Option<usize>,
        data: &[Data],
        calls: &[Call],
    ) -> Result<(), Refusal> {
        let arguments = self.put_in_all(data)?;
        self.summands.push(Summand {
            variables: self.variables.clone(),
            conditions: self.conditions.clone(),
            action,
            arguments,
            calls: calls.to_vec(),
        });
        Ok(())
    }

    /// A call: those of the process's right side, arguments put for parameters.
    fn call(&mut self, process: usize, data: &[Data], calls: &[Call]) -> Result<(), Refusal> {
        let arguments = data.iter().map(|d| self.put_in(d).ok()).collect();
        let outside = std::mem::replace(&mut self.bound, arguments);
        let sheet = self.equations.sheet;
        self.choice(&sheet.processes[process].body, calls)?;
        self.bound = outside;
        Ok(())
    }

    /// A sum: those of its body, its variable put before theirs.
    fn sum(&mut self, sort: usize, body: &'s Choice, calls: &[Call]) -> Result<(), Refusal> {
        within(self.variables.len() < limits::SUM_VARIABLES)?;
        let number = self.parameters + self.variables.len();
        self.variables.push(sort);
        self.bound.push(Some(Data::Variable(number)));
        self.choice(body, calls)?;
        self.bound.pop();
        self.variables.pop();
        Ok(())
    }

    fn put_in_all(&self, data: &[Data]) -> Result<Vec<Data>, Refusal> {
        data.iter().map(|d| self.put_in(d)).collect()
    }

    /// Data with what stands for its variables put in, never evaluated.
    fn put_in(&self, data: &Data) -> Result<Data, Refusal> {
        let mut nodes_left = limits::TERM_NODES;
        put_within(data, &self.bound, &mut nodes_left).ok_or(question::TABLE_LIMITS)
    }
}

fn within(limit_kept: bool) -> Result<(), Refusal> {
    put(question::TABLE_LIMITS, limit_kept)
}

/// Stops as soon as more nodes than are left would be written.
fn put_within(data: &Data, bound: &[Option<Data>], nodes_left: &mut usize) -> Option<Data> {
    if let Data::Variable(variable) = data {
        let put = bound[*variable].as_ref()?;
        *nodes_left = nodes_left.checked_sub(put.nodes())?;
        return Some(put.clone());
    }
    *nodes_left = nodes_left.checked_sub(data.own_nodes())?;
    let mut put = Vec::new();
    for part in data.parts() {
        put.push(put_within(part, bound, nodes_left)?);
    }
    Some(data.over(put))
}
