//! Labels of steps.

use std::fmt;

use crate::sys::{Answer, LabelRecord};

/// The label of a step: an action's name, its sorts and its values, or tau. Two labels are equal if all of these are.
///
/// ```
/// let table = wizbratel::Table::make(b"sort D 3; act a: D # Bool; proc X = a(2, 1) + tau; init X;")?;
/// let stack = table.start();
/// let labels: Vec<_> = stack.steps().map(|step| step.way.unwrap().0).collect();
/// assert_eq!((labels[0].name(), labels[0].values()), ("a", &[2, 1][..]));
/// assert_eq!(labels[0].sorts().collect::<Vec<_>>(), ["D", "Bool"]);
/// assert_eq!(labels[0].to_string(), "a(2,1)");
/// assert_eq!(labels[0].with_sorts().to_string(), "a(D:2,Bool:1)");
/// assert!(labels[1].is_tau());
/// # Ok::<(), wizbratel::Refused>(())
/// ```
#[derive(Clone, Copy, PartialEq, Eq, Hash, PartialOrd, Ord)]
pub struct Label(LabelRecord);

impl Label {
    /// The action's name, or `tau`, which is no action's name.
    #[must_use]
    pub fn name(&self) -> &str {
        text(&self.0.name, self.0.name_length)
    }

    /// The names of the action's sorts, one for each value. Those of a table without names are the letter s, repeated,
    /// and a number.
    ///
    /// ```
    /// use wizbratel::Table;
    /// let house = |sheet: &str| Table::make(sheet.as_bytes()).unwrap().start().take(0).unwrap().unwrap();
    /// let one = house("act set: Bool; proc X = set(1); init X;");
    /// let other = house("sort Channel 2; act set: Channel; proc X = set(1); init X;");
    /// assert_eq!(one.to_string(), other.to_string());
    /// assert!(one != other && one.sorts().eq(["Bool"]) && other.sorts().eq(["Channel"]));
    /// ```
    #[must_use]
    pub fn sorts(&self) -> impl ExactSizeIterator<Item = &str> {
        let sorts = &self.0.sorts[..self.values().len()];
        sorts.iter().map(|sort| text(&sort.name, sort.length))
    }

    /// The action's values, at most two.
    #[must_use]
    pub fn values(&self) -> &[u8] {
        &self.0.values[..usize::from(self.0.value_count)]
    }

    /// Whether this is tau.
    #[must_use]
    pub fn is_tau(&self) -> bool {
        self.name() == "tau"
    }

    /// The label as text with its sorts: `a`, `a(D:1)`, `a(D:1,Bool:0)`, `tau`. Labels that differ have other texts.
    #[must_use]
    pub fn with_sorts(&self) -> impl fmt::Display + '_ {
        WithSorts(self)
    }

    /// The label of an answer that is a step.
    pub(crate) fn of(answer: &Answer) -> Self {
        Label(answer.label)
    }

    /// The name, then the values in brackets by commas, without blanks; before each value what `front` gives.
    fn write<'l>(
        &'l self,
        f: &mut fmt::Formatter<'_>,
        front: impl Fn(&'l str) -> [&'l str; 2],
    ) -> fmt::Result {
        f.write_str(self.name())?;
        for (index, (sort, value)) in self.sorts().zip(self.values()).enumerate() {
            let [sort, colon] = front(sort);
            let before = if index == 0 { '(' } else { ',' };
            write!(f, "{before}{sort}{colon}{value}")?;
        }
        f.write_str(if self.values().is_empty() { "" } else { ")" })
    }
}

/// The front of a name's bytes.
fn text(name: &[u8], length: u8) -> &str {
    let name = &name[..usize::from(length)];
    std::str::from_utf8(name).expect("the library's names are ASCII")
}

/// A label that is shown with its sorts.
struct WithSorts<'l>(&'l Label);

impl fmt::Display for WithSorts<'_> {
    fn fmt(&self, f: &mut fmt::Formatter<'_>) -> fmt::Result {
        self.0.write(f, |sort| [sort, ":"])
    }
}

impl fmt::Display for Label {
    /// As a walk prints it, without its sorts: `a`, `a(1)`, `a(1,2)`, `tau`.
    fn fmt(&self, f: &mut fmt::Formatter<'_>) -> fmt::Result {
        self.write(f, |_| ["", ""])
    }
}

impl fmt::Debug for Label {
    fn fmt(&self, f: &mut fmt::Formatter<'_>) -> fmt::Result {
        write!(f, "Label({})", self.with_sorts())
    }
}
