//! Reading the stream of a table (question 14), of either layout: within all limits, rightly sorted.
//! `None` is a stream of no table.

use crate::layout::{name_older, Layout};
use crate::limits;
use crate::signature::{Action, Data, Function, Signature, Sort, BOOL, BOOL_NAME, BOOL_SIZE};
use crate::stream::{NAMED, TAU};
use crate::table::{Call, Condition, Equation, Summand, Table};
use crate::token::is_name;

/// The table at the start of the bytes, and how many bytes it takes.
pub fn decode(bytes: &[u8]) -> Option<(Table, usize)> {
    let mut reader = Reader { bytes };
    let (layout, signature) = reader.signature()?;
    let parameters = reader.parameter_lists(&signature)?;
    let rows = Rows {
        signature: &signature,
        parameters: &parameters,
    };
    let equations = rows.equations(&mut reader)?;
    let start = reader.index(equations.len())?;
    let mut start_values = Vec::new();
    for &sort in &parameters[start] {
        start_values.push(reader.value_below(signature.size(sort))?);
    }
    let length = bytes.len() - reader.bytes.len();
    let table = Table {
        layout,
        signature,
        equations,
        start,
        start_values,
    };
    Some((table, length))
}

/// The bytes not read yet.
pub(crate) struct Reader<'b> {
    bytes: &'b [u8],
}

impl Reader<'_> {
    /// The next byte.
    pub(crate) fn byte(&mut self) -> Option<u8> {
        let (&first, rest) = self.bytes.split_first()?;
        self.bytes = rest;
        Some(first)
    }

    fn value_below(&mut self, size: u8) -> Option<u8> {
        self.byte().filter(|&value| value < size)
    }

    /// A byte below the count.
    pub(crate) fn index(&mut self, count: usize) -> Option<usize> {
        let index = usize::from(self.byte()?);
        (index < count).then_some(index)
    }

    fn count(&mut self, least: usize, most: usize) -> Option<usize> {
        let count = usize::from(self.byte()?);
        (least..=most).contains(&count).then_some(count)
    }

    fn sort_list(&mut self, least: usize, most: usize, sorts: usize) -> Option<Vec<usize>> {
        let count = self.count(least, most)?;
        (0..count).map(|_| self.index(sorts)).collect()
    }

    fn signature(&mut self) -> Option<(Layout, Signature)> {
        let layout = self.layout()?;
        let mut signature = Signature {
            sorts: self.sorts(layout)?,
            functions: Vec::new(),
            actions: Vec::new(),
        };
        for _ in 0..self.count(0, limits::FUNCTIONS)? {
            let function = self.function(&signature)?;
            signature.functions.push(function);
        }
        for _ in 0..self.count(0, limits::ACTIONS)? {
            let action = self.action(&signature)?;
            signature.actions.push(action);
        }
        if layout == Layout::Older {
            name_older(&mut signature);
        }
        Some((layout, signature))
    }

    /// The first byte says it, and is passed where it is hex F2.
    fn layout(&mut self) -> Option<Layout> {
        if *self.bytes.first()? != NAMED {
            return Some(Layout::Older);
        }
        self.byte().map(|_| Layout::Named)
    }

    /// Bool of size 2 is first; sort names are valid and distinct. In the earlier layout none stands
    /// here.
    fn sorts(&mut self, layout: Layout) -> Option<Vec<Sort>> {
        let mut sorts: Vec<Sort> = Vec::new();
        for _ in 0..self.count(1, limits::SORTS)? {
            let size = self.count(1, limits::SORT_SIZE.into())? as u8;
            let name = match layout {
                Layout::Named => self.name()?,
                Layout::Older => String::new(),
            };
            if layout == Layout::Named && sorts.iter().any(|sort| sort.name == name) {
                return None;
            }
            sorts.push(Sort { name, size });
        }
        let first_named = layout == Layout::Older || sorts[BOOL].name == BOOL_NAME;
        (first_named && sorts[BOOL].size == BOOL_SIZE).then_some(sorts)
    }

    /// Name length and a name that is valid by the token rule.
    fn name(&mut self) -> Option<String> {
        let length = self.count(1, limits::NAME_LENGTH)?;
        let bytes = (0..length).map(|_| self.byte()).collect::<Option<_>>()?;
        String::from_utf8(bytes).ok().filter(|name| is_name(name))
    }

    fn function(&mut self, signature: &Signature) -> Option<Function> {
        let arguments = self.sort_list(1, limits::ARITY, signature.sorts.len())?;
        let result = self.index(signature.sorts.len())?;
        let size = signature.size(result);
        let values = (0..signature.combinations(&arguments))
            .map(|_| self.value_below(size))
            .collect::<Option<_>>()?;
        Some(Function {
            arguments,
            result,
            values,
        })
    }

    /// Action names are distinct, valid by the token rule, and none is Bool.
    fn action(&mut self, signature: &Signature) -> Option<Action> {
        let name = self.name()?;
        let known = signature.actions.iter().any(|action| action.name == name);
        if known || name == BOOL_NAME {
            return None;
        }
        let arguments = self.sort_list(0, limits::ARITY, signature.sorts.len())?;
        Some(Action { name, arguments })
    }

    fn parameter_lists(&mut self, signature: &Signature) -> Option<Vec<Vec<usize>>> {
        let count = self.count(1, limits::EQUATIONS)?;
        (0..count)
            .map(|_| self.sort_list(0, limits::PARAMETERS, signature.sorts.len()))
            .collect()
    }
}

/// What is known when the summands are read.
pub(crate) struct Rows<'t> {
    pub(crate) signature: &'t Signature,
    parameters: &'t [Vec<usize>],
}

impl Rows<'_> {
    fn equations(&self, reader: &mut Reader) -> Option<Vec<Equation>> {
        let mut equations = Vec::new();
        let mut summands_left = limits::SUMMANDS;
        for parameters in self.parameters {
            let count = reader.count(0, summands_left)?;
            summands_left -= count;
            let summands = (0..count)
                .map(|_| self.summand(reader, parameters))
                .collect::<Option<_>>()?;
            let parameters = parameters.clone();
            equations.push(Equation {
                parameters,
                summands,
            });
        }
        Some(equations)
    }

    fn summand(&self, reader: &mut Reader, parameters: &[usize]) -> Option<Summand> {
        let sorts = self.signature.sorts.len();
        let variables = reader.sort_list(0, limits::SUM_VARIABLES, sorts)?;
        let scope = [parameters, &variables].concat();
        let conditions = (0..reader.count(0, limits::CONDITIONS)?)
            .map(|_| self.condition(reader, &scope))
            .collect::<Option<_>>()?;
        let (action, arguments) = self.action(reader, &scope)?;
        let calls = (0..reader.count(0, limits::CALLS)?)
            .map(|_| self.call(reader, &scope))
            .collect::<Option<_>>()?;
        Some(Summand {
            variables,
            conditions,
            action,
            arguments,
            calls,
        })
    }

    fn condition(&self, reader: &mut Reader, scope: &[usize]) -> Option<Condition> {
        let wanted = reader.value_below(BOOL_SIZE)?;
        let data = self.term(reader, scope, BOOL)?;
        Some(Condition { wanted, data })
    }

    fn action(&self, reader: &mut Reader, scope: &[usize]) -> Option<(Option<usize>, Vec<Data>)> {
        let byte = reader.byte()?;
        if byte == TAU {
            return Some((None, Vec::new()));
        }
        let action = self.signature.actions.get(usize::from(byte))?;
        let arguments = self.terms(reader, scope, &action.arguments)?;
        Some((Some(usize::from(byte)), arguments))
    }

    fn call(&self, reader: &mut Reader, scope: &[usize]) -> Option<Call> {
        let equation = reader.index(self.parameters.len())?;
        let arguments = self.terms(reader, scope, &self.parameters[equation])?;
        Some(Call {
            equation,
            arguments,
        })
    }
}
