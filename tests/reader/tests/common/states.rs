//! The states that cases of `equal` in `tests/vectors` describe.

use reader::{check_sheet, frame_right, linear_table, read_table};
use reader::{Frame, Sheet, State, States, Table};

use super::json::Json;
use super::vectors;

/// The sheet of a state and its table, or the table of a file.
pub struct Given {
    sheet: Option<Sheet>,
    table: Table,
}

impl Given {
    pub fn of(described: &Json) -> Self {
        if described.get("file").is_some() {
            let table = read_table(&described.bytes("file")).expect("a table");
            return Given { sheet: None, table };
        }
        let sheet = check_sheet(&described.bytes("sheet")).expect("an accepted sheet");
        let table = linear_table(&sheet).expect("a table within its limits");
        let sheet = Some(sheet);
        Given { sheet, table }
    }

    pub fn states(&self) -> States<'_> {
        match &self.sheet {
            Some(sheet) => States::of(sheet, &self.table),
            None => States::of_table(&self.table),
        }
    }

    /// The call of the init line, or the stack of the frames described, else of the start, or the
    /// term that this stands for.
    pub fn state(&self, described: &Json) -> State {
        let states = self.states();
        match described.text("state") {
            "call" => State::Term(states.terms().start()),
            "stack" => State::Stack(self.stack(described)),
            "term" => State::Term(states.terms().of_stack(&self.stack(described))),
            other => panic!("no state: {other}"),
        }
    }

    fn stack(&self, described: &Json) -> Vec<Frame> {
        if described.get("frames").is_none() {
            return self.table.start_stack();
        }
        let stack = vectors::used_frames(described, "frames");
        assert!(stack.iter().all(|frame| frame_right(&self.table, frame)));
        stack
    }
}
