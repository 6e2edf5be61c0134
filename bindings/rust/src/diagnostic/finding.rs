//! What is wrong, and where: a question, a place, words.

/// Bytes of the sheet, from `start` to before `end`.
#[derive(Clone, Copy, Debug, PartialEq, Eq, Hash)]
pub struct Span {
    pub start: usize,
    pub end: usize,
}

impl Span {
    pub fn new(start: usize, end: usize) -> Self {
        Span { start, end }
    }

    /// From the beginning of this one to the end of another.
    pub fn to(self, other: Span) -> Span {
        Span::new(self.start, other.end)
    }

    /// The place right behind it.
    pub fn behind(self) -> Span {
        Span::new(self.end, self.end)
    }
}

/// What a question found.
#[derive(Clone, Debug, PartialEq, Eq)]
pub struct Finding {
    pub question: u8,
    pub span: Span,
    pub message: String,
    /// What stands beside the mark.
    pub label: String,
    pub help: Option<String>,
    /// Other places that belong to it, each with what is said there.
    pub notes: Vec<(Span, String)>,
}

/// What was read, or what is wrong with it.
pub type Found<T> = Result<T, Box<Finding>>;

impl Finding {
    pub fn new(question: u8, span: Span, message: impl Into<String>) -> Box<Self> {
        Box::new(Finding {
            question,
            span,
            message: message.into(),
            label: String::new(),
            help: None,
            notes: Vec::new(),
        })
    }

    pub fn label(mut self: Box<Self>, label: impl Into<String>) -> Box<Self> {
        self.label = label.into();
        self
    }

    /// A help, where there is one.
    pub fn help(mut self: Box<Self>, help: impl Into<Option<String>>) -> Box<Self> {
        self.help = help.into();
        self
    }

    /// Another place, if none is told yet.
    pub fn unless_noted(self: Box<Self>, span: Span, label: &str) -> Box<Self> {
        match self.notes.is_empty() {
            true => self.note(span, label),
            false => self,
        }
    }

    /// Another place, where there is one.
    pub fn note(
        mut self: Box<Self>,
        span: impl Into<Option<Span>>,
        label: impl Into<String>,
    ) -> Box<Self> {
        self.notes
            .extend(span.into().map(|span| (span, label.into())));
        self
    }
}
