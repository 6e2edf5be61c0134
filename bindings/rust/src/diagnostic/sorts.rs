//! Question 8: numbers of data, their sorts, numerals, values of functions.

use super::finding::{Finding, Found, Span};
use super::known::{Declared, Known, BOOL};
use super::tree::{Call, Data, DataKind, Function, Name, Variable, Walk};

pub fn check(known: &Known) -> Found<()> {
    let sheet = known.sheet;
    let mut sorts = Sorts {
        known,
        scope: Vec::new(),
    };
    sheet
        .functions
        .iter()
        .try_for_each(|function| sorts.values(function))?;
    for process in &sheet.processes {
        sorts.process(process)?;
    }
    sorts.call(&sheet.init)
}

/// The variables in scope, with their sorts.
struct Sorts<'k, 't, 's> {
    known: &'k Known<'t, 's>,
    scope: Vec<(Name<'s>, usize)>,
}

/// Why a sort is wanted.
enum Why<'s> {
    /// For a place of what is named: its kind, its name, the place from 0, and how many there are.
    Place(&'static str, &'s str, usize, usize),
    Condition,
    Operator(&'static str),
    /// For a side of `==` whose other side is there.
    Side(Span),
}

impl<'s> Walk<'s> for Sorts<'_, '_, 's> {
    fn named(&mut self, call: &Call<'s>) -> Found<()> {
        self.call(call)
    }

    fn condition(&mut self, test: &Data<'s>) -> Found<()> {
        self.data(test, BOOL, &Why::Condition)
    }

    fn open(&mut self, variable: &Variable<'s>) -> Found<()> {
        let sort = self.known.sort(variable.sort);
        self.scope.push((variable.name, sort));
        Ok(())
    }

    fn close(&mut self) {
        self.scope.pop();
    }
}

impl<'s> Sorts<'_, '_, 's> {
    /// A function's values, complete and in range.
    fn values(&self, function: &Function) -> Found<()> {
        let sorts = self.known.sorts(&function.arguments);
        let sizes = sorts.iter().map(|&sort| self.known.size(sort).into());
        let sizes: Vec<usize> = sizes.collect();
        if function.values.len() != sizes.iter().product() {
            return Err(wrong_count(function, &sizes));
        }
        let result = self.known.sort(function.result);
        let size = self.known.size(result);
        let large = function.values.iter().find(|value| value.value >= size);
        match large {
            Some(value) => {
                let label = format!("a value of function `{}`", function.name.text);
                Err(self.too_large(value.value, value.span, result).label(label))
            }
            None => Ok(()),
        }
    }

    fn too_large(&self, value: u8, span: Span, sort: usize) -> Box<Finding> {
        let (name, size) = (self.known.sort_name(sort), self.known.size(sort));
        let values = match size {
            1 => "whose only value is 0".to_string(),
            2 => "whose values are 0 and 1".to_string(),
            _ => format!("whose values are 0 to {}", size - 1),
        };
        let message = format!("`{value}` is no value of sort `{name}`, {values}");
        let declared = self.known.span(Declared::Sort(sort));
        Finding::new(8, span, message).note(declared, "the sort")
    }

    /// What a declared name takes: its kind, and the sorts of its places.
    fn takes(&self, declared: Option<Declared>) -> (&'static str, Vec<usize>) {
        let sheet = self.known.sheet;
        match declared {
            Some(Declared::Function(i)) => {
                ("function", self.known.sorts(&sheet.functions[i].arguments))
            }
            Some(Declared::Process(i)) => {
                let sorts: Vec<Name> = sheet.processes[i]
                    .parameters
                    .iter()
                    .map(|p| p.sort)
                    .collect();
                ("process", self.known.sorts(&sorts))
            }
            Some(Declared::Action(i)) => ("action", self.known.sorts(&sheet.actions[i].arguments)),
            Some(Declared::Sort(_)) | None => ("sort", Vec::new()),
        }
    }

    /// An action, a process or a function has as many data as it takes, each of its sort.
    fn call(&self, call: &Call<'s>) -> Found<()> {
        let declared = self.known.get(call.name.text);
        let (kind, sorts) = self.takes(declared);
        let (name, wanted, given) = (call.name.text, sorts.len(), call.arguments.len());
        if wanted != given {
            let names: Vec<String> = sorts
                .iter()
                .map(|&sort| format!("`{}`", self.known.sort_name(sort)))
                .collect();
            let takes = match &names[..] {
                [] => "no arguments".to_string(),
                [one] => format!("1 argument, of sort {one},"),
                names => format!("{wanted} arguments, of sorts {},", names.join(", ")),
            };
            let gets = if given == 0 {
                "none".to_string()
            } else {
                given.to_string()
            };
            let message = format!("{kind} `{name}` takes {takes} and gets {gets}");
            let span = match call.arguments.get(wanted) {
                Some(first) => first.span.to(call.arguments[given - 1].span),
                None => call.span,
            };
            let note = declared.and_then(|declared| self.known.span(declared));
            return Err(Finding::new(8, span, message)
                .label(if given > wanted {
                    "too many"
                } else {
                    "too few"
                })
                .note(note, "declared here"));
        }
        for (place, (data, sort)) in call.arguments.iter().zip(sorts).enumerate() {
            self.data(data, sort, &Why::Place(kind, name, place, wanted))?;
        }
        Ok(())
    }

    /// Data of this sort.
    fn data(&self, data: &Data<'s>, sort: usize, why: &Why) -> Found<()> {
        let own = self.own_sort(data);
        if let Some(own) = own.filter(|own| *own != sort) {
            return Err(self.other_sort(data, own, sort, why));
        }
        match &data.kind {
            DataKind::Numeral(value) if *value >= self.known.size(sort) => {
                let finding = self.too_large(*value, data.span, sort);
                Err(why.explain(finding))
            }
            DataKind::Numeral(_) | DataKind::Variable(_) => Ok(()),
            DataKind::Apply(call) => self.call(call),
            DataKind::Not(_, inner) => self.data(inner, BOOL, &Why::Operator("!")),
            DataKind::Joined(joint, parts) => {
                let mut parts = parts.iter();
                parts.try_for_each(|part| self.data(part, BOOL, &Why::Operator(joint)))
            }
            DataKind::Equal(sides) => self.equal(data, sides),
        }
    }

    /// The sides of `==` are of the sort of one that is no numeral.
    fn equal(&self, data: &Data, [left, right]: &[Data<'s>; 2]) -> Found<()> {
        match (self.own_sort(left), self.own_sort(right)) {
            (None, None) => {
                let message = "`==` stands between two numerals, which have no sort";
                let help = "one side is a variable, a function or a condition".to_string();
                Err(Finding::new(8, data.span, message).help(help))
            }
            (Some(sort), _) => {
                self.data(left, sort, &Why::Side(right.span))?;
                self.data(right, sort, &Why::Side(left.span))
            }
            (None, Some(sort)) => {
                self.data(left, sort, &Why::Side(right.span))?;
                self.data(right, sort, &Why::Side(left.span))
            }
        }
    }

    /// The sort that data has by itself; a numeral has none.
    fn own_sort(&self, data: &Data) -> Option<usize> {
        match &data.kind {
            DataKind::Numeral(_) => None,
            DataKind::Variable(name) => {
                Some(self.variable(name.text).map_or(BOOL, |(_, sort)| sort))
            }
            DataKind::Apply(call) => match self.known.get(call.name.text) {
                Some(Declared::Function(i)) => {
                    Some(self.known.sort(self.known.sheet.functions[i].result))
                }
                _ => Some(BOOL),
            },
            _ => Some(BOOL),
        }
    }

    /// A variable in scope, and its sort.
    fn variable(&self, text: &str) -> Option<(Name<'s>, usize)> {
        let mut scope = self.scope.iter();
        scope.find(|(name, _)| name.text == text).copied()
    }

    fn other_sort(&self, data: &Data, own: usize, wanted: usize, why: &Why) -> Box<Finding> {
        let (own, wanted_name) = (self.known.sort_name(own), self.known.sort_name(wanted));
        let (what, place, note) = match &data.kind {
            DataKind::Variable(name) => {
                let place = self.variable(name.text).map(|(name, _)| name.span);
                (format!("`{}` is of", name.text), place, "introduced here")
            }
            DataKind::Apply(call) => {
                let declared = self.known.get(call.name.text);
                let place = declared.and_then(|declared| self.known.span(declared));
                (
                    format!("`{}` gives", call.name.text),
                    place,
                    "declared here",
                )
            }
            DataKind::Equal(_) => ("`==` gives".to_string(), None, ""),
            DataKind::Joined(joint, _) => (format!("`{joint}` gives"), None, ""),
            DataKind::Not(..) | DataKind::Numeral(_) => ("`!` gives".to_string(), None, ""),
        };
        let message = match why {
            Why::Side(_) => {
                format!("`==` stands between data of two sorts, `{wanted_name}` and `{own}`")
            }
            _ => format!("{what} sort `{own}`, and `{wanted_name}` is wanted here"),
        };
        let compare = matches!(why, Why::Condition | Why::Operator(_));
        let help = compare.then(|| "compare it with a value: `x == 1`".to_string());
        let finding = Finding::new(8, data.span, message).help(help);
        why.explain(finding.note(place, note))
    }
}

impl Why<'_> {
    /// Says beside the mark why a sort is wanted there.
    fn explain(&self, finding: Box<Finding>) -> Box<Finding> {
        match self {
            Why::Place(kind, name, _, 1) => finding.label(format!("for {kind} `{name}`")),
            Why::Place(kind, name, place, _) => {
                let ordinal = ["first", "second", "third", "fourth"];
                let ordinal = ordinal.get(*place).copied().unwrap_or("next");
                finding.label(format!("the {ordinal} of {kind} `{name}`"))
            }
            Why::Condition => finding.label("a condition is of sort `Bool`"),
            Why::Operator(operator) => finding.label(format!("`{operator}` takes sort `Bool`")),
            Why::Side(other) => finding
                .label("both sides of `==` are of one sort")
                .note(*other, "the other side"),
        }
    }
}

/// A function with more or fewer values than its arguments, of so many values each, ask for.
fn wrong_count(function: &Function, sizes: &[usize]) -> Box<Finding> {
    let count = function.values.len();
    let wanted: usize = sizes.iter().product();
    let last = function.values.last();
    let last = last.map_or(function.name.span, |value| value.span);
    let (place, label) = match function.values.get(wanted) {
        Some(first) => (first.span.to(last), format!("{} too many", count - wanted)),
        None => (last.behind(), format!("{} missing", wanted - count)),
    };
    let (product, help) = match sizes {
        [one, two] => (
            format!(", {one} times {two}"),
            "one for each pair of arguments, the last argument changing fastest",
        ),
        _ => (String::new(), "one for each value of the argument"),
    };
    let values = if count == 1 { "value" } else { "values" };
    let name = function.name.text;
    let message = format!("function `{name}` has {count} {values} and needs {wanted}{product}");
    Finding::new(8, place, message)
        .label(label)
        .help(help.to_string())
}
