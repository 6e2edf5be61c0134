//! Question 10, the heads of every equation. Only their sizes are made: how many conditions, sums, calls and nodes, and
//! how many bytes of the stream. A limit counts only where a head results.

use super::equations::{Body, Equation, Equations};
use super::finding::{Finding, Found, Span};
use super::tree::{flat, Call, Choice, Data, DataKind, Name, Part, PartKind, Sequence};

const SUM_VARIABLES: usize = 4;
const CONDITIONS: usize = 8;
const CALLS: usize = 8;
const NODES: usize = 31;
const STREAM_BYTES: usize = 64_768;

/// Puts question 10.
pub fn check(equations: &Equations) -> Found<()> {
    equations.check()?;
    let mut bytes = front_bytes(equations);
    for equation in &equations.list {
        bytes += heads(equations, equation)?;
    }
    let init = &equations.known.sheet.init;
    if bytes > STREAM_BYTES {
        let message = format!("the table would take {bytes} bytes: at most {STREAM_BYTES}");
        let help = "cut the sheet in two, or let fewer ways to begin carry long data".to_string();
        return Err(Finding::new(10, init.span, message)
            .label("the table of the whole sheet")
            .help(help));
    }
    Ok(())
}

/// The bytes of a table that are none of its summands'.
fn front_bytes(equations: &Equations) -> usize {
    let sheet = equations.known.sheet;
    let sorts = sheet.sorts.iter().map(|sort| 2 + sort.name.text.len());
    let functions = sheet.functions.iter();
    let functions = functions.map(|function| 2 + function.arguments.len() + function.values.len());
    let actions = sheet.actions.iter();
    let actions = actions.map(|action| 2 + action.name.text.len() + action.arguments.len());
    // a list of parameters, and a count of summands
    let rows = equations
        .list
        .iter()
        .map(|equation| 2 + equation.parameters.len());
    let named = 2 + 2 + "Bool".len();
    let counts = 3;
    let start = 1 + sheet.init.arguments.len();
    let lines = sorts.chain(functions).chain(actions).chain(rows);
    named + counts + start + lines.sum::<usize>()
}

/// The size of data that is put in: counts that stand still before they are too large.
#[derive(Clone, Copy, Default)]
struct Size {
    nodes: usize,
    bytes: usize,
}

impl Size {
    fn and(self, other: Size) -> Size {
        Size {
            nodes: self.nodes.saturating_add(other.nodes),
            bytes: self.bytes.saturating_add(other.bytes),
        }
    }
}

/// The calls behind a head, and their bytes.
#[derive(Clone, Copy, Default)]
struct Calls {
    count: usize,
    bytes: usize,
}

/// The way down to a head.
struct Heads<'e, 'k, 't, 's> {
    equations: &'e Equations<'k, 't, 's>,
    /// What is put for each variable in scope.
    bound: Vec<(Name<'s>, Size)>,
    sums: usize,
    conditions: Calls,
    /// The calls at the head that were followed.
    followed: Vec<Span>,
    /// Bytes of all heads so far.
    bytes: usize,
}

/// The bytes of an equation's heads.
fn heads(equations: &Equations, equation: &Equation) -> Found<usize> {
    let one = Size { nodes: 1, bytes: 1 };
    let mut heads = Heads {
        equations,
        bound: equation
            .parameters
            .iter()
            .map(|name| (*name, one))
            .collect(),
        sums: 0,
        conditions: Calls::default(),
        followed: Vec::new(),
        bytes: 0,
    };
    let none = Calls::default();
    match equation.body {
        Body::Process(process) => {
            heads.choice(&equations.known.sheet.processes[process].body, none)?
        }
        Body::Part(part) => heads.part(part, none)?,
    }
    Ok(heads.bytes)
}

impl<'t, 's> Heads<'_, '_, 't, 's> {
    fn choice(&mut self, choice: &'t Choice<'s>, calls: Calls) -> Found<()> {
        for conditional in choice {
            match &conditional.test {
                None => self.sequence(&conditional.yes, calls)?,
                Some((test, no)) => {
                    self.branch(&conditional.yes, test, calls)?;
                    self.branch(no, test, calls)?;
                }
            }
        }
        Ok(())
    }

    /// One side of a conditional: its condition is one more.
    fn branch(&mut self, side: &'t Sequence<'s>, test: &Data<'s>, calls: Calls) -> Found<()> {
        if self.equations.count_first(side) == 0 {
            return Ok(());
        }
        let before = self.conditions;
        self.conditions = Calls {
            count: before.count + 1,
            bytes: before.bytes + 1 + self.put(test)?.bytes,
        };
        if self.conditions.count > CONDITIONS {
            let message = format!(
                "{} conditions before one action: at most {CONDITIONS}",
                self.conditions.count
            );
            let help = "join conditions by `/\\`".to_string();
            return Err(self.limit(test.span, message).label("number 9").help(help));
        }
        self.sequence(side, calls)?;
        self.conditions = before;
        Ok(())
    }

    /// The heads of the first part, with the calls of the rest behind them.
    fn sequence(&mut self, sequence: &'t Sequence<'s>, mut calls: Calls) -> Found<()> {
        let parts = flat(sequence);
        let Some((first, rest)) = parts.split_first() else {
            return Ok(());
        };
        if self.equations.count_part(first) == 0 {
            return Ok(());
        }
        let count = rest.len() + calls.count;
        if count > CALLS && !rest.is_empty() {
            let message = format!("{count} calls behind one action: at most {CALLS}");
            let help = "give some of these parts a process of their own".to_string();
            let span = rest[0].span.to(rest[rest.len() - 1].span);
            let label = match calls.count {
                0 => format!("{} parts behind the first", rest.len()),
                more => format!("{} parts here, {more} around", rest.len()),
            };
            return Err(self.limit(span, message).label(label).help(help));
        }
        for part in rest {
            calls.bytes += 1 + self.call_bytes(part)?;
        }
        calls.count = count;
        self.part(first, calls)
    }

    /// The bytes of a call's data: those written, or the variables of a new equation.
    fn call_bytes(&self, part: &Part<'s>) -> Found<usize> {
        match (&part.kind, self.equations.called(part)) {
            (PartKind::Named(call), Some(_)) => self.all(&call.arguments),
            _ => {
                let mut bytes = 0;
                for name in self.equations.parameters(part) {
                    let size = self.variable(name.text);
                    self.few_nodes(size, part.span, &format!("`{}` in this part", name.text))?;
                    bytes += size.bytes;
                }
                Ok(bytes)
            }
        }
    }

    fn part(&mut self, part: &'t Part<'s>, calls: Calls) -> Found<()> {
        if self.equations.count_part(part) == 0 {
            return Ok(());
        }
        match (&part.kind, self.equations.called(part)) {
            (PartKind::Named(call), Some(process)) => self.call(process, call, calls),
            (PartKind::Named(call), None) => self.head(&call.arguments, calls),
            (PartKind::Sum(variable, body), _) => self.sum(variable.name, body, calls),
            (PartKind::Brackets(choice), _) => self.choice(choice, calls),
            (PartKind::Tau | PartKind::Delta, _) => self.head(&[], calls),
        }
    }

    /// An action or tau: counts of sums, conditions and calls, what these hold, the action and its data.
    fn head(&mut self, data: &[Data<'s>], calls: Calls) -> Found<()> {
        let data = self.all(data)?;
        self.bytes += 4 + self.sums + self.conditions.bytes + data + calls.bytes;
        Ok(())
    }

    /// A call at the head: the right side, the data put for the parameters.
    fn call(&mut self, process: usize, call: &Call<'s>, calls: Calls) -> Found<()> {
        let process = &self.equations.known.sheet.processes[process];
        let sizes = call.arguments.iter().map(|data| self.size(data));
        let names = process.parameters.iter().map(|variable| variable.name);
        let bound = names.zip(sizes).collect();
        let outside = std::mem::replace(&mut self.bound, bound);
        self.followed.push(call.name.span);
        self.choice(&process.body, calls)?;
        self.followed.pop();
        self.bound = outside;
        Ok(())
    }

    fn sum(&mut self, name: Name<'s>, body: &'t Choice<'s>, calls: Calls) -> Found<()> {
        self.sums += 1;
        if self.sums > SUM_VARIABLES {
            let message = format!(
                "{} sums before one action: at most {SUM_VARIABLES}",
                self.sums
            );
            return Err(self.limit(name.span, message).label("number 5"));
        }
        self.bound.push((name, Size { nodes: 1, bytes: 1 }));
        self.choice(body, calls)?;
        self.bound.pop();
        self.sums -= 1;
        Ok(())
    }

    fn variable(&self, name: &str) -> Size {
        let mut bound = self.bound.iter();
        bound
            .find(|(known, _)| known.text == name)
            .map_or(Size::default(), |(_, size)| *size)
    }

    /// The size of data, with what is put for its variables.
    fn size(&self, data: &Data) -> Size {
        let (nodes, bytes) = match &data.kind {
            DataKind::Variable(name) => return self.variable(name.text),
            DataKind::Numeral(_) | DataKind::Apply(_) => (1, 1),
            // behind `==` stands its sort, which is no node
            DataKind::Equal(_) => (1, 2),
            DataKind::Not(count, _) => (*count, *count),
            DataKind::Joined(_, parts) => (parts.len() - 1, parts.len() - 1),
        };
        let parts = data.parts().iter().map(|part| self.size(part));
        parts.fold(Size { nodes, bytes }, Size::and)
    }

    /// The size of data that comes to stand in the table.
    fn put(&self, data: &Data) -> Found<Size> {
        let size = self.size(data);
        self.few_nodes(size, data.span, "this")?;
        Ok(size)
    }

    fn all(&self, data: &[Data]) -> Found<usize> {
        let mut bytes = 0;
        for each in data {
            bytes += self.put(each)?.bytes;
        }
        Ok(bytes)
    }

    fn few_nodes(&self, size: Size, span: Span, what: &str) -> Found<()> {
        if size.nodes <= NODES {
            return Ok(());
        }
        let count = match size.nodes {
            usize::MAX => "more than 10^19".to_string(),
            count => count.to_string(),
        };
        let message =
            format!("data of {count} values, variables, functions and operators: at most {NODES}");
        let (label, help) = match self.followed.is_empty() {
            true => (
                format!("{what} has {count}"),
                "a function can list what a large part of it gives",
            ),
            false => (
                format!("{what} has {count}, with the data of the calls put in"),
                "put an action, or `tau`, before a call that hands large data on",
            ),
        };
        Err(self
            .limit(span, message)
            .label(label)
            .help(help.to_string()))
    }

    /// A limit that is passed, and the calls through which it is.
    fn limit(&self, span: Span, message: String) -> Box<Finding> {
        let finding = Finding::new(10, span, message);
        let followed = self.followed.iter();
        followed.fold(finding, |finding, call| {
            finding.note(*call, "through this call")
        })
    }
}
