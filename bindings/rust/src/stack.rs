//! Stacks, and the questions for their steps.

use std::fmt;
use std::hash::{Hash, Hasher};
use std::ops::Deref;
use std::sync::Arc;

use crate::steps::Steps;
use crate::sys::{self, Answer, Frame, FRAMES};
use crate::table::promised;
use crate::{Label, Refused, Table};

/// A stack of a table: where a process stands. Stacks are equal if their tables and their frames are.
///
/// It borrows its table, or owns it: then it is a `Stack<'static>`, and a struct can hold it beside or without the table.
///
/// ```
/// use wizbratel::{Refused, Stack, Table};
///
/// struct Bench {
///     stack: Stack<'static>,
/// }
///
/// fn bench(sheet: &str) -> Result<Bench, Refused> {
///     let stack = sheet.parse::<Table>()?.into_start();
///     Ok(Bench { stack })
/// }
///
/// let mut bench = bench("act a; proc X = a; init X;")?;
/// assert_eq!(bench.stack.take(0)?.unwrap().name(), "a");
/// assert!(bench.stack.is_ended() && bench.stack.table().file().len() == 512);
/// # Ok::<(), Refused>(())
/// ```
#[derive(Clone)]
pub struct Stack<'t> {
    table: Held<'t>,
    frames: [Frame; FRAMES],
    depth: usize,
}

/// A table that is borrowed, or owned together with other stacks.
#[derive(Clone)]
pub(crate) enum Held<'t> {
    Lent(&'t Table),
    Owned(Arc<Table>),
}

impl Deref for Held<'_> {
    type Target = Table;

    fn deref(&self) -> &Table {
        match self {
            Held::Lent(table) => table,
            Held::Owned(table) => table,
        }
    }
}

/// What is answered to the question for step k.
#[allow(clippy::large_enum_variant)] // a stack goes by value everywhere: no step needs an allocation
#[derive(Clone, Debug, PartialEq, Eq)]
pub enum Asked<'t> {
    /// The stack has no frame: the process has ended.
    Ended,
    /// The stack has at most k steps.
    None,
    /// Step k.
    Step {
        /// Its label.
        label: Label,
        /// The stack after it.
        stack: Stack<'t>,
    },
}

/// What was done for one question of a list.
#[derive(Clone, Copy, Debug, PartialEq, Eq)]
pub enum Taken {
    /// Nothing: the process has ended.
    Ended,
    /// Nothing: the stack has at most k steps.
    None,
    /// Nothing: there is step k, and the stack after it would have more than 64 frames (question 16).
    TooDeep,
    /// Step k was taken: its label, and the depth after it.
    Step(Label, usize),
}

impl<'t> Stack<'t> {
    /// A stack whose frames the library has passed or written.
    pub(crate) fn new(table: Held<'t>, frames: &[Frame; FRAMES], depth: usize) -> Self {
        Stack {
            table,
            frames: *frames,
            depth,
        }
    }

    /// The same stack with its table its own: a copy of a borrowed one. Stacks that are reached from it share it.
    #[must_use]
    pub fn into_owned(self) -> Stack<'static> {
        let table = match self.table {
            Held::Lent(table) => Arc::new(table.clone()),
            Held::Owned(table) => table,
        };
        Stack::new(Held::Owned(table), &self.frames, self.depth)
    }

    /// The table that the stack steps by.
    #[must_use]
    pub fn table(&self) -> &Table {
        &self.table
    }

    /// How many frames are used, 0 to 64.
    #[must_use]
    pub fn depth(&self) -> usize {
        self.depth
    }

    /// Whether the process has ended: no frame is used.
    #[must_use]
    pub fn is_ended(&self) -> bool {
        self.depth == 0
    }

    /// The used frames, the bottom first and the top last.
    #[must_use]
    pub fn frames(&self) -> &[Frame] {
        &self.frames[..self.depth]
    }

    /// All steps, in order.
    ///
    /// ```
    /// let table = wizbratel::Table::make(b"sort D 3; act a: D; proc X = sum(d: D, a(d)); init X;")?;
    /// let stack = table.start();
    /// let labels: Vec<_> = stack.steps().map(|step| step.way.unwrap().0.to_string()).collect();
    /// assert_eq!(labels, ["a(0)", "a(1)", "a(2)"]);
    /// # Ok::<(), wizbratel::Refused>(())
    /// ```
    #[must_use]
    pub fn steps(&self) -> Steps<'t> {
        Steps::new(self.clone())
    }

    /// Asks for step k (from 0) and leaves this stack as it is.
    ///
    /// # Errors
    ///
    /// Question 16, if the stack after the step would have more than 64 frames.
    ///
    /// ```
    /// use wizbratel::{Asked, Table};
    /// let table = Table::make(b"act a; proc X = a; init X;")?;
    /// let start = table.start();
    /// match start.ask(0)? {
    ///     Asked::Step { label, stack } => assert!(label.name() == "a" && stack.is_ended()),
    ///     _ => unreachable!(),
    /// }
    /// assert_eq!(start.ask(1)?, Asked::None);
    /// # Ok::<(), wizbratel::Refused>(())
    /// ```
    pub fn ask(&self, k: u64) -> Result<Asked<'t>, Refused> {
        let mut stack = self.clone();
        let answer = stack.put(k)?;
        Ok(match answer.kind {
            sys::ENDED => Asked::Ended,
            sys::STEP => Asked::Step {
                label: Label::of(&answer),
                stack,
            },
            _ => Asked::None,
        })
    }

    /// Takes step k (from 0) and gives its label; none if there is no such step or the process has ended. The stack is
    /// as it was then.
    ///
    /// # Errors
    ///
    /// Question 16, if the stack after the step would have more than 64 frames; it is as it was then too.
    ///
    /// ```
    /// let table = wizbratel::Table::make(b"act a; proc X = a; init X;")?;
    /// let mut stack = table.start();
    /// assert!(stack.take(1)?.is_none());
    /// assert_eq!(stack.take(0)?.unwrap().name(), "a");
    /// assert!(stack.take(0)?.is_none() && stack.is_ended());
    /// # Ok::<(), wizbratel::Refused>(())
    /// ```
    pub fn take(&mut self, k: u64) -> Result<Option<Label>, Refused> {
        let answer = self.put(k)?;
        Ok((answer.kind == sys::STEP).then(|| Label::of(&answer)))
    }

    /// Takes a list of steps, each from the stack that the one before it left, and says what was done for each: the
    /// fast way, since the table is checked once and not for every step.
    ///
    /// ```
    /// use wizbratel::{Table, Taken};
    /// let table = Table::make(b"act a; act b; proc X = a.b; init X;")?;
    /// let mut stack = table.start();
    /// let taken = stack.take_all(&[0, 7, 0, 0]);
    /// assert!(matches!(taken[..], [Taken::Step(_, 1), Taken::None, Taken::Step(_, 0), Taken::Ended]));
    /// # Ok::<(), wizbratel::Refused>(())
    /// ```
    pub fn take_all(&mut self, ks: &[u64]) -> Vec<Taken> {
        let mut answers = vec![Answer::default(); ks.len()];
        let file = self.table.file();
        promised(sys::ask_all(
            file,
            &mut self.frames,
            &mut self.depth,
            ks,
            &mut answers,
        ));
        answers.iter().map(Taken::of).collect()
    }

    /// How many steps there are, those that 16 refuses among them. Asks about twice as often as the number has bits.
    ///
    /// ```
    /// let table = wizbratel::Table::make(b"sort D 9; act a: D; proc X = sum(d: D, a(d)); init X;")?;
    /// assert_eq!(table.start().step_count(), 9);
    /// # Ok::<(), wizbratel::Refused>(())
    /// ```
    #[must_use]
    pub fn step_count(&self) -> u64 {
        let mut past = 1;
        while self.has_step(past - 1) {
            past *= 2;
        }
        let (mut least, mut most) = (past / 2, past - 1);
        while least < most {
            let middle = least + (most - least) / 2;
            if self.has_step(middle) {
                least = middle + 1;
            } else {
                most = middle;
            }
        }
        least
    }

    /// Whether there is a step k.
    fn has_step(&self, k: u64) -> bool {
        !matches!(self.ask(k), Ok(Asked::None | Asked::Ended))
    }

    /// Puts the question for step k to these frames.
    fn put(&mut self, k: u64) -> Result<Answer, Refused> {
        let mut answer = Answer::default();
        let file = self.table.file();
        let number = sys::ask(file, &mut self.frames, &mut self.depth, k, &mut answer);
        Refused::unless_zero(number)?;
        Ok(answer)
    }
}

impl Taken {
    /// What an answer of a list says.
    fn of(answer: &Answer) -> Self {
        match answer.kind {
            sys::ENDED => Taken::Ended,
            sys::NONE => Taken::None,
            sys::TOO_DEEP => Taken::TooDeep,
            _ => Taken::Step(Label::of(answer), usize::from(answer.depth)),
        }
    }
}

impl PartialEq for Stack<'_> {
    fn eq(&self, other: &Self) -> bool {
        let (one, two): (&Table, &Table) = (&self.table, &other.table);
        let tables = std::ptr::eq(one, two) || one == two;
        tables && self.frames() == other.frames()
    }
}

impl Eq for Stack<'_> {}

impl Hash for Stack<'_> {
    fn hash<H: Hasher>(&self, state: &mut H) {
        self.frames().hash(state);
    }
}

impl fmt::Debug for Stack<'_> {
    fn fmt(&self, f: &mut fmt::Formatter<'_>) -> fmt::Result {
        f.debug_list().entries(self.frames()).finish()
    }
}
