//! A sheet in arrays, as the crates `nodes`, `sheets` and `parts` lay it out, made of the reader's sheet; and the index
//! of a table's stream, as `tables` lays it out. Brackets that hold only a sequence are flattened by the reader: their
//! cells are not those of the library.

use std::collections::BTreeMap;

use reader::sheet::{Choice, Conditional, Part, PartKind};
use reader::signature::{Data, Joint, Signature};
use reader::table::Summand;
use reader::{Layout, Sheet, Table};

/// Constants by their names.
pub type Numbers = BTreeMap<String, usize>;

/// Arrays by their names; of each what is used.
pub type Arrays = BTreeMap<&'static str, Vec<usize>>;

/// The cells of resolved terms, and the rows of new equations.
struct Terms<'k> {
    kinds: &'k Numbers,
    cells: Vec<usize>,
    parts: Vec<usize>,
    /// The variables that were written, as bits.
    seen: usize,
}

impl Terms<'_> {
    /// So many functions of this number in one another, and how many arguments each has.
    fn functions(&mut self, times: usize, number: usize, arguments: usize) {
        let cells = [4 * number + self.kinds["FUNCTION"], arguments];
        (0..times).for_each(|_| self.cells.extend(cells));
    }

    fn data(&mut self, data: &Data) {
        match data {
            Data::Value(value) => {
                let cell = 4 * usize::from(*value) + self.kinds["VALUE"];
                self.cells.push(cell);
            }
            Data::Variable(index) => {
                self.cells.push(4 * index + self.kinds["VARIABLE"]);
                self.seen |= 1 << index;
            }
            Data::Apply(function, arguments) => {
                self.functions(1, *function, arguments.len());
                arguments.iter().for_each(|argument| self.data(argument));
            }
            Data::Not(times, operand) => {
                self.functions(*times, self.kinds["NOT"], 1);
                self.data(operand);
            }
            Data::Equal(sort, sides) => {
                self.functions(1, self.kinds["EQUAL"] + sort, 2);
                sides.iter().for_each(|side| self.data(side));
            }
            Data::Joined(joint, operands) => {
                let name = if *joint == Joint::And { "AND" } else { "OR" };
                self.functions(operands.len() - 1, self.kinds[name], 2);
                operands.iter().for_each(|operand| self.data(operand));
            }
        }
    }

    fn node(&mut self, kind: &str, after: bool, number: usize, datas: &[Data]) {
        let mark = if after { self.kinds["AFTER"] } else { 0 };
        let first = self.kinds["NUMBER"] * number + mark + self.kinds[kind];
        let node = self.cells.len();
        self.cells.extend([first, 0, datas.len()]);
        datas.iter().for_each(|data| self.data(data));
        self.cells[node + 1] = self.cells.len() - (node + 3);
    }

    fn choice(&mut self, after: bool, scope: usize, choice: &[Conditional]) {
        match choice {
            [] => {}
            [only] => self.conditional(after, scope, only),
            [first, rest @ ..] => {
                self.node("ALT", after, 0, &[]);
                self.conditional(false, scope, first);
                self.choice(false, scope, rest);
            }
        }
    }

    fn conditional(&mut self, after: bool, scope: usize, conditional: &Conditional) {
        match conditional {
            Conditional::Sequence(parts) => self.sequence(after, scope, parts),
            Conditional::Test { yes, test, no } => {
                self.node("COND", after, 0, std::slice::from_ref(test));
                self.sequence(false, scope, yes);
                self.sequence(false, scope, no);
            }
        }
    }

    fn sequence(&mut self, after: bool, scope: usize, parts: &[Part]) {
        match parts {
            [] => {}
            [last] => self.part(after, scope, last),
            [first, rest @ ..] => {
                self.node("SEQ", false, 0, &[]);
                self.part(after, scope, first);
                self.sequence(true, scope, rest);
            }
        }
    }

    /// A part; its row, before those of the parts inside it, if it gets a new equation.
    fn part(&mut self, after: bool, scope: usize, part: &Part) {
        if !after || matches!(part.kind, PartKind::Call(..)) {
            return self.kind(after, scope, &part.kind);
        }
        let row = self.parts.len();
        self.parts.extend([self.cells.len(), scope, 0]);
        let seen = std::mem::take(&mut self.seen);
        self.kind(after, scope, &part.kind);
        self.parts[row + 2] = self.seen & ((1 << scope) - 1);
        self.seen |= seen;
    }

    fn kind(&mut self, after: bool, scope: usize, kind: &PartKind) {
        match kind {
            PartKind::Delta => self.node("DELTA", after, 0, &[]),
            PartKind::Tau => self.node("ATOM", after, 0, &[]),
            PartKind::Action(action, datas) => self.node("ATOM", after, action + 1, datas),
            PartKind::Call(process, datas) => self.node("CALL", false, *process, datas),
            PartKind::Sum {
                variable,
                sort,
                body,
            } => {
                self.node("SUM", after, *sort, &[Data::Variable(*variable)]);
                self.choice(false, scope + 1, body);
            }
            PartKind::Brackets(choice) => self.choice(after, scope, choice),
        }
    }

    fn right_side(&mut self, scope: usize, body: &Choice) -> usize {
        let start = self.cells.len();
        self.choice(false, scope, body);
        start
    }
}

/// A count, the sorts, and room for as many as there may be.
fn row(sorts: &[usize], room: usize) -> Vec<usize> {
    let mut row = vec![sorts.len()];
    row.extend(sorts);
    row.resize(1 + room, 0);
    row
}

/// The arrays that hold a sheet: its terms and rows, and the rows of its new equations.
pub fn arrays(sheet: &Sheet, kinds: &Numbers) -> Arrays {
    let mut terms = Terms {
        kinds,
        cells: Vec::new(),
        parts: Vec::new(),
        seen: 0,
    };
    let (signature, processes) = (&sheet.signature, &sheet.processes);
    let starts = processes.iter();
    let starts = starts.map(|process| terms.right_side(process.parameters.len(), &process.body));
    let starts: Vec<usize> = starts.collect();
    let init = terms.cells.len();
    terms.node("CALL", false, sheet.start, &sheet.start_data);
    let functions = signature.functions.iter();
    let (mut funcs, mut places, mut values) = (Vec::new(), vec![0], Vec::new());
    for function in functions {
        funcs.extend(row(&function.arguments, kinds["FUNC_ROW"] - 2));
        funcs.push(function.result);
        values.extend(function.values.iter().copied().map(usize::from));
        places.push(values.len());
    }
    let acts = signature.actions.iter();
    let acts = acts.flat_map(|action| row(&action.arguments, kinds["ACT_ROW"] - 1));
    let procs = processes.iter();
    let procs = procs.flat_map(|process| row(&process.parameters, kinds["PROC_ROW"] - 1));
    let outline = [
        signature.sorts.len(),
        signature.functions.len(),
        signature.actions.len(),
        processes.len(),
        init,
    ];
    Arrays::from([
        ("sizes", sizes(signature)),
        ("funcs", funcs),
        ("places", places),
        ("values", values),
        ("acts", acts.collect()),
        ("procs", procs.collect()),
        ("starts", starts),
        ("outline", outline.to_vec()),
        ("cells", terms.cells),
        ("parts", terms.parts),
    ])
}

/// The size of each sort.
fn sizes(signature: &Signature) -> Vec<usize> {
    let sorts = signature.sorts.iter();
    sorts.map(|sort| usize::from(sort.size)).collect()
}

fn nodes(datas: &[Data]) -> usize {
    datas.iter().map(Data::nodes).sum()
}

/// Bytes of a summand in the stream.
fn summand_length(summand: &Summand) -> usize {
    let conditions = summand.conditions.iter();
    let calls = summand.calls.iter();
    let counts = [1 + summand.variables.len(), 1, 1, 1];
    counts.iter().sum::<usize>()
        + conditions.map(|each| 1 + each.data.nodes()).sum::<usize>()
        + nodes(&summand.arguments)
        + calls.map(|call| 1 + nodes(&call.arguments)).sum::<usize>()
}

/// Where things of these lengths stand, the first at a place; and where they end.
fn standing(first: usize, lengths: impl Iterator<Item = usize>) -> (Vec<usize>, usize) {
    let mut at = first;
    let place = |length| {
        at += length;
        at - length
    };
    let places = lengths.map(place).collect();
    (places, at)
}

/// The index of a table's stream.
pub fn index(table: &Table) -> Arrays {
    let (signature, equations) = (&table.signature, &table.equations);
    let named = table.layout == Layout::Named;
    let names = signature.sorts.iter();
    let names = names.map(|sort| if named { 2 + sort.name.len() } else { 1 });
    let (sorts, end) = standing(usize::from(named) + 1, names);
    let functions = signature.functions.iter();
    let functions = functions.map(|each| 2 + each.arguments.len() + each.values.len());
    let (funcs, end) = standing(end + 1, functions);
    let actions = signature.actions.iter();
    let actions = actions.map(|each| 2 + each.name.len() + each.arguments.len());
    let (acts, end) = standing(end + 1, actions);
    let lists = equations.iter().map(|each| 1 + each.parameters.len());
    let (params, end) = standing(end + 1, lists);
    let summands = equations.iter();
    let summands = summands.map(|each| 1 + each.summands.iter().map(summand_length).sum::<usize>());
    let (rows, start) = standing(end, summands);
    Arrays::from([
        ("sort_count", vec![sorts.len()]),
        ("named", vec![named.into()]),
        ("sorts", sorts),
        ("sizes", sizes(signature)),
        ("functions", vec![funcs.len()]),
        ("actions", vec![acts.len()]),
        ("equations", vec![rows.len()]),
        ("funcs", funcs),
        ("acts", acts),
        ("params", params),
        ("rows", rows),
        ("start", vec![start]),
    ])
}
