//! `graph SHEET|TABLE [--limit N] [--html FILE]`: the stacks that are reached and their steps, as Graphviz dot or drawn on
//! a page.

mod graphviz;
mod layered;
mod layout;
mod page;

use std::collections::HashMap;
use std::ffi::{OsStr, OsString};
use std::io::{BufWriter, Result as Io, Write};

use wizbratel::{Stack, Table};

use crate::args::{Args, Opt};
use crate::help::Help;
use crate::input::{self, Kind, SHEET_OPTION, TABLE_OPTION};
use crate::labels::{Labels, SORTS_OPTION};
use crate::naming::Naming;
use crate::out::written;
use crate::output;
use crate::stop::{misuse, say, Status, Stop, GOOD};

const LIMIT: &str = "--limit";
const HTML: &str = "--html";
pub const HELP: Help = Help {
    usage: "graph SHEET|TABLE [--limit N] [--html FILE]",
    does: "draws the stacks that are reached and their steps",
    text: "\
Prints a graph in the language of Graphviz: a box for each stack, the top frame
first, and an arrow for each step. A large one is cut, with marks where it was.
Frames are shown as step shows them. With --html it is drawn on a page instead,
on which a click takes a step and the path so far is listed. The page needs no
other file and no network. Graphviz places the boxes if its program dot is found
and the graph is not large.
",
    options: &[
        Opt {
            name: LIMIT,
            value: "N",
            does: "at most N stacks (1000) and 16 N steps",
        },
        Opt {
            name: HTML,
            value: "FILE",
            does: "writes a page for a browser, and prints nothing",
        },
        SORTS_OPTION,
        TABLE_OPTION,
        SHEET_OPTION,
    ],
    example: "wizbratel graph charger.pcrl >charger.dot\nwizbratel graph charger.pcrl --html charger.html",
};

/// Stacks at most, unless `--limit` says otherwise.
const STACKS: u64 = 1000;

/// Steps for each of the stacks at most, on the average.
const STEPS: usize = 16;

/// Who may read and write a page.
const ALL: u32 = 0o666;

/// Prints the graph, or writes its page; a graph that was cut is said to be on standard error.
pub fn run(words: &[OsString]) -> Result<Status, Stop> {
    let args = Args::parse(words, HELP.options)?;
    let name = args.file("SHEET or TABLE")?;
    let limit = match args.number(LIMIT)?.unwrap_or(STACKS) {
        0 => return Err(misuse("--limit is at least 1")),
        limit => usize::try_from(limit).unwrap_or(usize::MAX),
    };
    if let Some(html) = args.value(HTML) {
        output::apart(&[name], &[html.to_owned()], ["page", "sheet or table"])?;
    }
    let (table, naming) = input::named(name, Kind::of(&args, name)?)?;
    let graph = Graph::reached(&table, limit, Labels::of(&args));
    match args.value(HTML) {
        Some(html) => write_page(html, name, &graph, &naming)?,
        None => {
            let mut out = BufWriter::new(std::io::stdout().lock());
            written(graph.write(&naming, &mut out).and_then(|()| out.flush()))?;
        }
    }
    if graph.cut {
        let (name, counts) = (input::shown(name), graph.counts());
        say(&format!("{name}: {counts}; --limit N allows more"));
    }
    Ok(GOOD)
}

fn write_page(html: &OsStr, name: &OsStr, graph: &Graph, naming: &Naming) -> Result<(), Stop> {
    let page = page::page(&input::shown(name), graph, naming);
    output::write(html, page.as_bytes(), ALL)
}

/// Where a step leads to in the graph.
enum End {
    /// A stack, by its number.
    Stack(usize),
    /// A stack that is left out; or further steps are.
    Cut,
    /// Nowhere: question 16 refuses it.
    TooDeep,
}

/// A step: the stack's number, its own number there, the label, and where it leads to.
struct Edge {
    from: usize,
    k: u64,
    label: String,
    to: End,
}

/// Stacks in the order in which they are reached, nearest first, and their steps.
struct Graph<'t> {
    stacks: Vec<Stack<'t>>,
    numbers: HashMap<Stack<'t>, usize>,
    edges: Vec<Edge>,
    limit: usize,
    cut: bool,
}

impl<'t> Graph<'t> {
    /// What is reached from the start, with at most so many stacks.
    fn reached(table: &'t Table, limit: usize, labels: Labels) -> Self {
        let mut graph = Graph {
            stacks: vec![table.start()],
            numbers: HashMap::from([(table.start(), 0)]),
            edges: Vec::new(),
            limit,
            cut: false,
        };
        let most = limit.saturating_mul(STEPS);
        let mut from = 0;
        while let Some(stack) = graph.stacks.get(from) {
            for step in stack.steps() {
                if graph.edges.len() >= most {
                    graph.edge(from, step.k, "..".to_string(), End::Cut);
                    return graph;
                }
                match step.way {
                    Ok((label, stack)) => {
                        let to = graph.end(stack);
                        graph.edge(from, step.k, labels.shown(&label), to);
                    }
                    Err(_) => graph.edge(from, step.k, String::new(), End::TooDeep),
                }
            }
            from += 1;
        }
        graph
    }

    /// Where a step to this stack ends; a stack that is new gets a number, unless there are enough.
    fn end(&mut self, stack: Stack<'t>) -> End {
        let next = self.stacks.len();
        match self.numbers.get(&stack) {
            Some(&number) => End::Stack(number),
            None if next < self.limit => {
                self.numbers.insert(stack.clone(), next);
                self.stacks.push(stack);
                End::Stack(next)
            }
            None => End::Cut,
        }
    }

    /// Adds a step.
    fn edge(&mut self, from: usize, k: u64, label: String, to: End) {
        self.cut |= matches!(to, End::Cut);
        self.edges.push(Edge { from, k, label, to });
    }

    /// What is in the graph, in words.
    fn counts(&self) -> String {
        let whole = |edge: &&Edge| !matches!(edge.to, End::Cut);
        let (stacks, steps) = (self.stacks.len(), self.edges.iter().filter(whole).count());
        let cut = if self.cut { ", cut" } else { "" };
        format!("stacks {stacks}, steps {steps}{cut}")
    }

    /// What stands in the box of a stack.
    fn title(&self, number: usize, naming: &Naming) -> String {
        let stack = &self.stacks[number];
        match stack.is_ended() {
            true => "ended".to_string(),
            false => naming.stack(stack.frames()),
        }
    }

    /// Writes the graph in the language of Graphviz.
    fn write(&self, naming: &Naming, out: &mut impl Write) -> Io<()> {
        writeln!(out, "// {}", self.counts())?;
        writeln!(out, "digraph wizbratel {{")?;
        writeln!(out, "  node [shape=box];")?;
        for (number, stack) in self.stacks.iter().enumerate() {
            // a part may have `/\` in it
            let label = self.title(number, naming).replace('\\', "\\\\");
            let more = match number {
                0 => ", style=bold",
                _ if stack.is_ended() => ", shape=doublecircle",
                _ => "",
            };
            writeln!(out, "  s{number} [label=\"{label}\"{more}];")?;
        }
        for (number, edge) in self.edges.iter().enumerate() {
            edge.write(number, out)?;
        }
        writeln!(out, "}}")
    }
}

impl End {
    /// The mark of what leads to no stack of the graph.
    fn mark(&self) -> &'static str {
        match self {
            End::Stack(_) => "",
            End::Cut => "cut",
            End::TooDeep => "refused 16",
        }
    }
}

impl Edge {
    /// Writes a step; what is left out and what is refused has a mark of its own.
    fn write(&self, number: usize, out: &mut impl Write) -> Io<()> {
        let Edge {
            from, label, to, ..
        } = self;
        let mark = match to {
            End::Stack(to) => return writeln!(out, "  s{from} -> s{to} [label=\"{label}\"];"),
            mark => mark.mark(),
        };
        writeln!(out, "  m{number} [label=\"{mark}\", shape=plaintext];")?;
        writeln!(
            out,
            "  s{from} -> m{number} [label=\"{label}\", style=dashed];"
        )
    }
}
