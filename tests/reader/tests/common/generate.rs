//! Sheets by a seed: right in form, names and sorts, and without circles at the head unless these are asked for.

use super::random::Random;

struct Function {
    name: String,
    arguments: Vec<usize>,
    result: usize,
}

/// How much a sheet has of what; the numbers are one more than the most.
#[derive(Clone, Copy)]
struct Shape {
    functions: usize,
    processes: usize,
    parameters: usize,
    /// How deep choices stand in one another.
    depth: usize,
    /// A conditional is a test once in so many times.
    tests: usize,
    /// Variables in scope where another sum may stand.
    scope: usize,
    /// Any process may stand at any head.
    circles: bool,
    /// Processes call the next one at the head, for long ways to a head.
    chained: bool,
    /// Data has operators and brackets.
    operators: bool,
}

const SMALL: Shape = Shape {
    functions: 3,
    processes: 3,
    parameters: 3,
    depth: 3,
    tests: 4,
    scope: 4,
    circles: false,
    chained: false,
    operators: false,
};

/// Many heads through several processes, with data.
const HEADS: Shape = Shape {
    functions: 5,
    processes: 7,
    parameters: 5,
    depth: 2,
    tests: 3,
    scope: 6,
    circles: false,
    chained: true,
    operators: false,
};

/// A sheet being written, with what is declared and the variables in scope.
struct Writer {
    random: Random,
    sizes: Vec<usize>,
    functions: Vec<Function>,
    actions: Vec<(String, Vec<usize>)>,
    processes: Vec<(String, Vec<usize>)>,
    scope: Vec<(String, usize)>,
    sums: usize,
    shape: Shape,
    text: String,
}

const SORT_NAMES: [&str; 3] = ["Bool", "D", "E"];

/// The names that a sheet's sorts and actions have, and those that they may get instead: as long as
/// can be, runs of the letters of printed names, nearly words. None is one that a sheet has.
const NAMES: [&str; 5] = ["D", "E", "a0", "a1", "a2"];
const OTHERS: [&str; 20] = [
    "Level",
    "coil_channel",
    "nnnnnnnnnnnnnnnn",
    "n_0_9_Z________z",
    "s",
    "ss",
    "s1",
    "sss_",
    "set",
    "sssssssssssssss",
    "ssssssssssssssss",
    "f",
    "ff_",
    "p",
    "ppp_",
    "v",
    "vv",
    "Sum",
    "tau1",
    "bool",
];

/// How tightly the operators bind; data without one outside binds tightest.
const OR: usize = 0;
const AND: usize = 1;
const EQUAL: usize = 2;
const NOT: usize = 3;
const ATOM: usize = 4;

/// The sheet of a seed.
pub fn sheet(seed: u64) -> String {
    written(seed, SMALL)
}

/// The sheet of a seed in which any process may stand at any head.
pub fn with_circles(seed: u64) -> String {
    let circles = true;
    written(seed, Shape { circles, ..SMALL })
}

/// The sheet of a seed in which heads are reached through calls with data, sums and tests.
pub fn with_heads(seed: u64) -> String {
    written(seed, HEADS)
}

/// The sheet of a seed with operators and brackets in its data.
pub fn with_operators(seed: u64) -> String {
    let operators = true;
    written(seed, Shape { operators, ..SMALL })
}

/// The same with heads reached as above.
pub fn with_heads_and_operators(seed: u64) -> String {
    let operators = true;
    written(seed, Shape { operators, ..HEADS })
}

/// The sheet of a seed, with operators or without, with other names for its sorts and actions.
pub fn with_names(seed: u64) -> String {
    let text = match seed % 2 {
        0 => sheet(seed),
        _ => with_operators(seed),
    };
    let mut random = Random::new(seed ^ 0xf2);
    let mut others = OTHERS.to_vec();
    let new = NAMES.map(|_| others.swap_remove(random.below(others.len())));
    let in_name = |letter: char| letter.is_ascii_alphanumeric() || letter == '_';
    let mut renamed = String::new();
    let mut rest = &text[..];
    while let Some(place) = rest.find(in_name) {
        let (front, from) = rest.split_at(place);
        let (word, behind) =
            from.split_at(from.find(|letter| !in_name(letter)).unwrap_or(from.len()));
        let known = NAMES.iter().position(|name| *name == word);
        renamed += front;
        renamed += known.map_or(word, |index| new[index]);
        rest = behind;
    }
    renamed + rest
}

fn written(seed: u64, shape: Shape) -> String {
    let mut writer = Writer {
        random: Random::new(seed),
        sizes: vec![2],
        functions: Vec::new(),
        actions: Vec::new(),
        processes: Vec::new(),
        scope: Vec::new(),
        sums: 0,
        shape,
        text: String::new(),
    };
    writer.declarations();
    for number in 0..writer.processes.len() {
        writer.process(number);
    }
    let (name, sorts) = writer.processes[0].clone();
    let data = writer.bracketed(&sorts);
    writer.text + &format!("init {name}{data};")
}

impl Writer {
    fn declarations(&mut self) {
        for name in &SORT_NAMES[1..=self.random.below(3)] {
            let size = 1 + self.random.below(3);
            self.sizes.push(size);
            self.text += &format!("sort {name} {size};");
        }
        for number in 0..self.random.below(self.shape.functions) {
            self.function(number);
        }
        for number in 0..1 + self.random.below(3) {
            let count = self.random.below(3);
            let sorts = self.some_sorts(count);
            let name = format!("a{number}");
            let listed = sort_names(&sorts, "#");
            let colon = if sorts.is_empty() { "" } else { ":" };
            self.text += &format!("act {name}{colon}{listed};");
            self.actions.push((name, sorts));
        }
        for number in 0..1 + self.random.below(self.shape.processes) {
            let count = self.random.below(self.shape.parameters);
            let sorts = self.some_sorts(count);
            self.processes.push((format!("X{number}"), sorts));
        }
    }

    fn some_sorts(&mut self, count: usize) -> Vec<usize> {
        let sorts = self.sizes.len();
        (0..count).map(|_| self.random.below(sorts)).collect()
    }

    fn function(&mut self, number: usize) {
        let count = 1 + self.random.below(2);
        let arguments = self.some_sorts(count);
        let result = self.random.below(self.sizes.len());
        let name = format!("f{number}");
        let places: usize = arguments.iter().map(|&sort| self.sizes[sort]).product();
        let size = self.sizes[result];
        let values: Vec<String> = (0..places)
            .map(|_| self.random.below(size).to_string())
            .collect();
        let (listed, result_name) = (sort_names(&arguments, "#"), SORT_NAMES[result]);
        self.text += &format!("func {name}:{listed}->{result_name}={};", values.join(","));
        self.functions.push(Function {
            name,
            arguments,
            result,
        });
    }

    fn process(&mut self, number: usize) {
        let (name, sorts) = self.processes[number].clone();
        self.scope = (sorts.iter().enumerate())
            .map(|(index, &sort)| (format!("p{index}"), sort))
            .collect();
        let parameters: Vec<String> = (self.scope.iter())
            .map(|(name, sort)| format!("{name}:{}", SORT_NAMES[*sort]))
            .collect();
        let parameters = in_brackets(&parameters);
        let body = self.choice(self.shape.depth, Some(number));
        self.scope.clear();
        self.text += &format!("proc {name}{parameters}={body};");
    }

    /// A choice at the head of a process, or further back.
    fn choice(&mut self, depth: usize, head_of: Option<usize>) -> String {
        let count = 1 + self.random.below(2);
        let items: Vec<String> = (0..count)
            .map(|_| self.conditional(depth, head_of))
            .collect();
        items.join("+")
    }

    fn conditional(&mut self, depth: usize, head_of: Option<usize>) -> String {
        let yes = self.sequence(depth, head_of);
        if !self.random.one_in(self.shape.tests) {
            return yes;
        }
        let test = self.data(0, 2);
        let no = self.sequence(depth, head_of);
        format!("{yes}<|{test}|>{no}")
    }

    fn sequence(&mut self, depth: usize, head_of: Option<usize>) -> String {
        let mut parts = vec![self.part(depth, head_of)];
        for _ in 0..self.random.below(3) {
            parts.push(self.part(depth, None));
        }
        parts.join(".")
    }

    fn part(&mut self, depth: usize, head_of: Option<usize>) -> String {
        if self.shape.chained && head_of.is_some() && self.random.one_in(3) {
            return self.call(head_of);
        }
        match self.random.below(if depth == 0 { 7 } else { 10 }) {
            0 if self.random.one_in(2) => "delta".to_string(),
            1 => "tau".to_string(),
            2 | 3 => self.call(head_of),
            7 => format!("({})", self.choice(depth - 1, head_of)),
            8 | 9 if self.scope.len() < self.shape.scope => self.sum(depth - 1, head_of),
            _ => self.action(),
        }
    }

    fn action(&mut self) -> String {
        let (name, sorts) = self.random.pick(&self.actions).clone();
        name + &self.bracketed(&sorts)
    }

    /// Where there is to be no circle, only later processes are called at the head.
    fn call(&mut self, head_of: Option<usize>) -> String {
        let head_of = head_of.filter(|_| !self.shape.circles);
        let from = head_of.map_or(0, |number| number + 1);
        if from == self.processes.len() {
            return self.action();
        }
        let next = self.shape.chained && head_of.is_some() && !self.random.one_in(3);
        let to = if next { from + 1 } else { self.processes.len() };
        let (name, sorts) = self.random.pick(&self.processes[from..to]).clone();
        name + &self.bracketed(&sorts)
    }

    fn sum(&mut self, depth: usize, head_of: Option<usize>) -> String {
        let sort = self.random.below(self.sizes.len());
        let name = format!("v{}", self.sums);
        self.sums += 1;
        self.scope.push((name.clone(), sort));
        let body = self.choice(depth, head_of);
        self.scope.pop();
        format!("sum({name}:{},{body})", SORT_NAMES[sort])
    }

    fn bracketed(&mut self, sorts: &[usize]) -> String {
        let data: Vec<String> = sorts.iter().map(|&sort| self.data(sort, 2)).collect();
        in_brackets(&data)
    }

    fn data(&mut self, sort: usize, depth: usize) -> String {
        self.operand(sort, depth, OR)
    }

    /// Data in brackets where it binds less than is needed, and now and then where it need not.
    fn operand(&mut self, sort: usize, depth: usize, needed: usize) -> String {
        if !self.shape.operators {
            return self.plain(sort, depth);
        }
        let (text, level) = if sort == 0 && depth > 0 && !self.random.one_in(3) {
            self.operator(depth)
        } else {
            (self.plain(sort, depth), ATOM)
        };
        if level < needed || self.random.one_in(12) {
            format!("({text})")
        } else {
            text
        }
    }

    /// Data with an operator outside, and how tightly that binds.
    fn operator(&mut self, depth: usize) -> (String, usize) {
        let (joint, level) =
            *self
                .random
                .pick(&[("\\/", OR), ("/\\", AND), ("==", EQUAL), ("!", NOT)]);
        if level == NOT {
            return (format!("!{}", self.operand(0, depth - 1, NOT)), NOT);
        }
        let (sort, left) = match level {
            EQUAL => (self.random.below(self.sizes.len()), NOT),
            _ => (0, level),
        };
        let sides = [left, level + 1].map(|needed| self.operand(sort, depth - 1, needed));
        if level == EQUAL && sides.iter().all(|side| is_numeral(side)) {
            return self.operator(depth);
        }
        (sides.join(joint), level)
    }

    fn plain(&mut self, sort: usize, depth: usize) -> String {
        let variables: Vec<&String> = (self.scope.iter())
            .filter(|(_, of)| *of == sort)
            .map(|(name, _)| name)
            .collect();
        if !variables.is_empty() && !self.random.one_in(4) {
            return self.random.pick(&variables).to_string();
        }
        let functions: Vec<(String, Vec<usize>)> = (self.functions.iter())
            .filter(|function| function.result == sort)
            .map(|function| (function.name.clone(), function.arguments.clone()))
            .collect();
        if depth == 0 || functions.is_empty() || self.random.one_in(3) {
            return self.random.below(self.sizes[sort]).to_string();
        }
        let (name, arguments) = self.random.pick(&functions).clone();
        let data: Vec<String> = (arguments.iter())
            .map(|&sort| self.data(sort, depth - 1))
            .collect();
        name + &in_brackets(&data)
    }
}

/// Whether data is a numeral, in brackets or not.
fn is_numeral(data: &str) -> bool {
    data.bytes().all(|byte| b"()0123456789".contains(&byte))
}

fn sort_names(sorts: &[usize], joint: &str) -> String {
    let names: Vec<&str> = sorts.iter().map(|&sort| SORT_NAMES[sort]).collect();
    names.join(joint)
}

fn in_brackets(items: &[String]) -> String {
    if items.is_empty() {
        String::new()
    } else {
        format!("({})", items.join(","))
    }
}
