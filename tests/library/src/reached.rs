//! Stacks that a table reaches.

use reader::{all_steps, Frame, Table};

/// The first stacks reached from the start, nearest first, none deeper than the frames.
pub fn reached(table: &Table, most: usize) -> Vec<Vec<Frame>> {
    let mut stacks = vec![table.start_stack()];
    let mut next = 0;
    while next < stacks.len() && stacks.len() < most {
        for (_, stack) in all_steps(table, &stacks[next]) {
            if stack.len() <= reader::limits::FRAMES && !stacks.contains(&stack) {
                stacks.push(stack);
            }
        }
        next += 1;
    }
    stacks.truncate(most);
    stacks
}

/// So many frames of a stack that is not empty, again and again.
pub fn piled(stack: &[Frame], depth: usize) -> Vec<Frame> {
    stack.iter().copied().cycle().take(depth).collect()
}
