//! The two layouts of a stream (#104): one that begins with hex F2 names its sorts; in the earlier one
//! sorts are taken as named as #101's printer named them.

use crate::signature::{Signature, BOOL, BOOL_NAME};
use crate::table::Table;

/// How a stream gives the sorts.
#[derive(Clone, Copy, Debug, PartialEq, Eq)]
pub enum Layout {
    /// Hex F2 first, and behind each size the sort's name.
    Named,
    /// The earlier layout: sizes alone.
    Older,
}

/// The letter as few times, at least once, as leave no taken name beginning with that run.
pub(crate) fn run_of(letter: &str, taken: &[&str]) -> String {
    let mut run = letter.to_string();
    while taken.iter().any(|name| name.starts_with(&run)) {
        run += letter;
    }
    run
}

/// Names the sorts as #101's printer did: Bool, and for the others the letter s and the index. Beside
/// an action of 16 times s such a name has 18 characters; nobody asks whether it is one.
pub(crate) fn name_older(signature: &mut Signature) {
    let actions = signature.actions.iter().map(|action| &action.name[..]);
    let run = run_of("s", &actions.collect::<Vec<_>>());
    for (index, sort) in signature.sorts.iter_mut().enumerate() {
        sort.name = match index {
            BOOL => BOOL_NAME.to_string(),
            _ => format!("{run}{index}"),
        };
    }
}

impl Table {
    /// This table with its sorts named in the stream: printing a table and reading the text gives the
    /// bytes of this one.
    pub fn renewed(&self) -> Table {
        let layout = Layout::Named;
        Table {
            layout,
            ..self.clone()
        }
    }

    /// This table as the earlier writer filed it: its sorts lose their names.
    pub fn older(&self) -> Table {
        let mut table = Table {
            layout: Layout::Older,
            ..self.clone()
        };
        name_older(&mut table.signature);
        table
    }
}
