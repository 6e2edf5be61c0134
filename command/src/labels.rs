//! Labels as text. Within one table an action's name says its sorts, so labels are told apart without them: `set(1)`.
//! Those of two tables need not be; with `--sorts` they are shown whole: `set(Channel:1)`.

use wizbratel::Label;

use crate::args::{Args, Opt};

/// The option that shows sorts.
const SORTS: &str = "--sorts";
pub const SORTS_OPTION: Opt = Opt {
    name: SORTS,
    value: "",
    does: "shows labels as `set(Channel:1)`, not `set(1)`: within one table\nan action's name says its sorts, between tables it need not",
};

/// How labels are shown.
#[derive(Clone, Copy)]
pub struct Labels {
    sorts: bool,
}

impl Labels {
    /// As the options say.
    pub fn of(args: &Args) -> Self {
        let sorts = args.has(SORTS);
        Labels { sorts }
    }

    /// A label as text.
    pub fn shown(self, label: &Label) -> String {
        if self.sorts {
            label.with_sorts().to_string()
        } else {
            label.to_string()
        }
    }
}
