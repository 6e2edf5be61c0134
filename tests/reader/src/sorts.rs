//! Sorts (question 8): argument counts and sorts, conditions, numerals, function values.

use crate::data::NO_SORT;
use crate::sheet::{Choice, Conditional, Part, PartKind, Sequence, Sheet};
use crate::signature::{Data, Function, Signature, BOOL};

/// Whether the whole sheet passes question 8.
pub fn well_sorted(sheet: &Sheet) -> bool {
    let signature = &sheet.signature;
    let functions = &signature.functions;
    let start = &sheet.processes[sheet.start].parameters;
    functions.iter().all(|f| values_right(signature, f))
        && (sheet.processes.iter()).all(|p| Scope::new(sheet, &p.parameters).choice(&p.body))
        && Scope::new(sheet, &[]).arguments(&sheet.start_data, start)
}

/// Whether a choice without free variables passes question 8.
pub fn closed_choice_well_sorted(sheet: &Sheet, choice: &Choice) -> bool {
    Scope::new(sheet, &[]).choice(choice)
}

/// Function values complete and in range.
fn values_right(signature: &Signature, function: &Function) -> bool {
    let size = signature.size(function.result);
    function.values.len() == signature.combinations(&function.arguments)
        && function.values.iter().all(|&value| value < size)
}

/// Whether data has this sort when its variables have the sorts given.
fn data_has_sort(signature: &Signature, variables: &[usize], data: &Data, sort: usize) -> bool {
    match data {
        Data::Value(value) => *value < signature.size(sort),
        Data::Variable(index) => variables[*index] == sort,
        Data::Apply(function, arguments) => {
            let function = &signature.functions[*function];
            function.result == sort
                && list_has_sorts(signature, variables, arguments, &function.arguments)
        }
        Data::Not(..) | Data::Joined(..) => {
            let has_bool = |part| data_has_sort(signature, variables, part, BOOL);
            sort == BOOL && data.parts().iter().all(has_bool)
        }
        Data::Equal(of, sides) => {
            let has_sort = |side| data_has_sort(signature, variables, side, *of);
            sort == BOOL && *of != NO_SORT && sides.iter().all(has_sort)
        }
    }
}

/// The sort that data has by itself, its variables of the sorts given; a numeral has none.
pub fn own_sort(signature: &Signature, variables: &[usize], data: &Data) -> Option<usize> {
    match data {
        Data::Value(_) => None,
        Data::Variable(index) => Some(variables[*index]),
        Data::Apply(function, _) => Some(signature.functions[*function].result),
        Data::Not(..) | Data::Equal(..) | Data::Joined(..) => Some(BOOL),
    }
}

fn list_has_sorts(
    signature: &Signature,
    variables: &[usize],
    data: &[Data],
    sorts: &[usize],
) -> bool {
    data.len() == sorts.len()
        && (data.iter().zip(sorts)).all(|(d, &s)| data_has_sort(signature, variables, d, s))
}

/// The sorts of the variables in scope, outermost first.
struct Scope<'s> {
    sheet: &'s Sheet,
    variables: Vec<usize>,
}

impl<'s> Scope<'s> {
    fn new(sheet: &'s Sheet, parameters: &[usize]) -> Self {
        let variables = parameters.to_vec();
        Scope { sheet, variables }
    }

    fn choice(&mut self, choice: &Choice) -> bool {
        choice.iter().all(|conditional| match conditional {
            Conditional::Sequence(parts) => self.sequence(parts),
            Conditional::Test { yes, test, no } => {
                self.sequence(yes) && self.condition(test) && self.sequence(no)
            }
        })
    }

    fn sequence(&mut self, parts: &Sequence) -> bool {
        parts.iter().all(|part| self.part(part))
    }

    fn part(&mut self, part: &Part) -> bool {
        let sheet = self.sheet;
        match &part.kind {
            PartKind::Delta | PartKind::Tau => true,
            PartKind::Action(action, data) => {
                self.arguments(data, &sheet.signature.actions[*action].arguments)
            }
            PartKind::Call(process, data) => {
                self.arguments(data, &sheet.processes[*process].parameters)
            }
            PartKind::Sum { sort, body, .. } => {
                self.variables.push(*sort);
                let right = self.choice(body);
                self.variables.pop();
                right
            }
            PartKind::Brackets(choice) => self.choice(choice),
        }
    }

    fn condition(&self, test: &Data) -> bool {
        data_has_sort(&self.sheet.signature, &self.variables, test, BOOL)
    }

    fn arguments(&self, data: &[Data], sorts: &[usize]) -> bool {
        list_has_sorts(&self.sheet.signature, &self.variables, data, sorts)
    }
}
