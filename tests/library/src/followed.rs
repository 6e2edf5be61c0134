//! The stacks of a sheet's table as states with transitions, stepped by the proved library.

use reader::limits::FRAMES;
use reader::{Label, Transitions};

use crate::asked::lent;
use crate::made::made_whole;
use crate::stepping::{ask, start, Answer, Frame, STEP};

/// A step between reached stacks: the place of a stack, the label, the place of the next stack.
type Arrow = (usize, Label, usize);

/// A table file that the library made of a sheet.
pub struct Followed {
    pub file: Vec<u8>,
}

impl Followed {
    /// The table of an accepted sheet, or the number of the question that fails.
    pub fn of(sheet: &[u8]) -> Result<Self, u8> {
        Ok(Followed {
            file: made_whole(sheet)?,
        })
    }

    /// The stack that the table starts with.
    pub fn start(&self) -> Vec<Frame> {
        let (mut frames, mut depth) = (vec![Frame::default(); FRAMES], 0);
        assert_eq!(start(&self.file, &mut frames, &mut depth), 0);
        frames.truncate(depth);
        frames
    }

    /// Step k of a stack, if it has one.
    fn step(&self, stack: &[Frame], k: u64) -> Option<(Label, Vec<Frame>)> {
        let (mut frames, mut depth) = (lent(stack), stack.len());
        let mut answer = Answer::plain(0);
        let number = ask(&self.file, &mut frames, &mut depth, k, &mut answer);
        assert_eq!(number, 0, "a stack that is followed has room for its steps");
        frames.truncate(depth);
        (answer.kind() == STEP).then(|| (answer.shown(), frames))
    }

    /// The stacks reached from the start, nearest first, and the steps of so many of them at the most.
    fn graph(&self, most: usize) -> (Vec<Vec<Frame>>, Vec<Arrow>) {
        let mut stacks = vec![self.start()];
        let mut arrows = Vec::new();
        let mut at = 0;
        while at < stacks.len().min(most) {
            for (label, next) in self.steps(&stacks[at]) {
                let known = stacks.iter().position(|stack| *stack == next);
                let place = known.unwrap_or(stacks.len());
                if known.is_none() {
                    stacks.push(next);
                }
                arrows.push((at, label, place));
            }
            at += 1;
        }
        (stacks, arrows)
    }

    /// The stacks reached from the start, nearest first, by the steps of so many of them at the most.
    pub fn stacks(&self, most: usize) -> Vec<Vec<Frame>> {
        self.graph(most).0
    }

    /// The steps of these stacks as text: a line has the number of a stack, a label and the number of the next stack, or
    /// the number of a stack and `ended` or `stuck`.
    pub fn reached(&self, most: usize) -> String {
        let (stacks, arrows) = self.graph(most);
        let mut text = String::new();
        for (at, stack) in stacks.iter().take(most).enumerate() {
            let own = arrows.iter().filter(|arrow| arrow.0 == at);
            let lines: Vec<String> = own
                .map(|(at, label, next)| format!("{at} {label} {next}\n"))
                .collect();
            if self.ended(stack) {
                text += &format!("{at} ended\n");
            } else if lines.is_empty() {
                text += &format!("{at} stuck\n");
            }
            text += &lines.concat();
        }
        text
    }
}

impl Transitions for Followed {
    type State = Vec<Frame>;

    fn ended(&self, stack: &Vec<Frame>) -> bool {
        stack.is_empty()
    }

    fn steps(&self, stack: &Vec<Frame>) -> Vec<(Label, Vec<Frame>)> {
        (0..).map_while(|k| self.step(stack, k)).collect()
    }
}
