//! How many heads a term has, counted without writing them, up to one past the limit.

use crate::limits::SUMMANDS;
use crate::sheet::{Choice, Conditional, Part, PartKind, Sequence, Sheet};

const MANY: usize = SUMMANDS + 1;

/// The number of heads of each process, at most one more than a table may have.
#[derive(Clone, Debug)]
pub struct HeadCounts {
    processes: Vec<usize>,
}

impl HeadCounts {
    /// Counts in as many rounds as there are processes; without a circle at the head (question 9)
    /// every count is then right.
    pub fn of(sheet: &Sheet) -> Self {
        let count = sheet.processes.len();
        let mut counts = HeadCounts {
            processes: vec![0; count],
        };
        for _ in 0..count {
            let bodies = sheet.processes.iter().map(|process| &process.body);
            let processes = bodies.map(|body| counts.choice(body)).collect();
            counts = HeadCounts { processes };
        }
        counts
    }

    /// The heads of a call.
    pub fn process(&self, process: usize) -> usize {
        self.processes[process]
    }

    /// The heads of a choice.
    pub fn choice(&self, choice: &Choice) -> usize {
        choice.iter().fold(0, |sum, conditional| {
            let more = match conditional {
                Conditional::Sequence(parts) => self.sequence(parts),
                Conditional::Test { yes, no, .. } => self.sequence(yes) + self.sequence(no),
            };
            MANY.min(sum + more)
        })
    }

    /// The heads of a sequence are those of its first part.
    pub fn sequence(&self, parts: &Sequence) -> usize {
        self.part(&parts[0])
    }

    /// The heads of a part.
    pub fn part(&self, part: &Part) -> usize {
        match &part.kind {
            PartKind::Delta => 0,
            PartKind::Tau | PartKind::Action(..) => 1,
            PartKind::Call(process, _) => self.process(*process),
            PartKind::Sum { body, .. } => self.choice(body),
            PartKind::Brackets(choice) => self.choice(choice),
        }
    }
}
