//! Circles at the head (question 9). Conditions are ignored.

use crate::sheet::{Choice, Conditional, PartKind, Sequence, Sheet};

/// Whether some process stands at its own head through one or more right sides.
pub fn has_circle(sheet: &Sheet) -> bool {
    let mut reached: Vec<u32> = (sheet.processes.iter())
        .map(|process| heads(&process.body))
        .collect();
    for through in 0..reached.len() {
        for from in 0..reached.len() {
            if reached[from] & (1 << through) != 0 {
                reached[from] |= reached[through];
            }
        }
    }
    (reached.iter().enumerate()).any(|(process, bits)| bits & (1 << process) != 0)
}

/// The processes that stand at the head of a choice, as bits.
fn heads(choice: &Choice) -> u32 {
    choice.iter().fold(0, |bits, conditional| {
        bits | match conditional {
            Conditional::Sequence(parts) => first_heads(parts),
            Conditional::Test { yes, no, .. } => first_heads(yes) | first_heads(no),
        }
    })
}

/// The head of a sequence is that of its first part.
fn first_heads(parts: &Sequence) -> u32 {
    match &parts[0].kind {
        PartKind::Delta | PartKind::Tau | PartKind::Action(..) => 0,
        PartKind::Call(process, _) => 1 << process,
        PartKind::Sum { body, .. } => heads(body),
        PartKind::Brackets(choice) => heads(choice),
    }
}
