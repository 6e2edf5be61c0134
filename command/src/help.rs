//! The help of the whole command and of each of its words, the man page made of the same texts, and the version.

use crate::args::Opt;
use crate::refusal::OPTIONS;
use crate::COMMANDS;

/// What `--version` prints.
pub const VERSION: &str = concat!("wizbratel ", env!("CARGO_PKG_VERSION"), "\n");

/// What is said of one word of the command. Lines have at most 80 characters.
pub struct Help {
    /// The word and what stands behind it.
    pub usage: &'static str,
    /// What it does, in a line.
    pub does: &'static str,
    /// The same, with what must be known of it.
    pub text: &'static str,
    pub options: &'static [Opt],
    /// Lines for a shell.
    pub example: &'static str,
}

const ABOUT: &str = "linear tables of pCRL process sheets, and steps through them";

/// What holds for all words.
const FILES: &str = "\
`-` is standard input, or output behind -o. A file whose name ends in .table is
taken for a table file, any other for a sheet, unless --table or --sheet says
what all files are; ask and print take a table file unless --sheet is given.
Files are written whole or not at all: a reader, a crash and a full disk find
the old one or the new one. No output goes over an input.
";

const REFUSED: &str = "\
What is refused is said on standard error, of a sheet with the place; renew and
audit say a line for each. With any word:
";

const STATUS: &str = "\
The exit status is 0; 1 if something was refused, or an audit found a fault;
2 for misuse and for files that cannot be read or written. That nobody reads
standard output is no fault.
";

impl Help {
    /// The word.
    pub fn name(&self) -> &'static str {
        self.usage.split(' ').next().unwrap_or_default()
    }

    /// The help as text.
    pub fn shown(&self) -> String {
        let Help {
            usage,
            text,
            example,
            ..
        } = self;
        let options: String = self.options.iter().map(option).collect();
        let options = match options.is_empty() {
            true => String::new(),
            false => format!("\nOptions:\n{options}"),
        };
        let example = example.lines().map(|line| format!("  {line}\n"));
        let example: String = example.collect();
        format!("usage: wizbratel {usage}\n\n{text}{options}\nExample:\n{example}")
    }
}

/// An option's name and value, and what it does beside them.
fn option(option: &Opt) -> String {
    let name = format!("{} {}", option.name, option.value);
    let names = std::iter::once(name.trim_end()).chain(std::iter::repeat(""));
    let lines = names.zip(option.does.lines());
    lines
        .map(|(name, line)| format!("  {name:13} {line}\n"))
        .collect()
}

/// What `help` prints.
pub fn all() -> String {
    let words = COMMANDS.iter().map(|(help, _)| help);
    let words = words.map(|help| format!("  {:8} {}\n", help.name(), help.does));
    let words: String = words.collect();
    let more = "`wizbratel help WORD` says more of a word, with an example.";
    let options: String = OPTIONS.iter().map(option).collect();
    format!("wizbratel: {ABOUT}\n\n{words}\n{more}\n\n{FILES}\n{REFUSED}{options}\n{STATUS}")
}

/// The man page, in the language of man(7).
pub fn man() -> String {
    let mut page = format!(
        ".TH WIZBRATEL 1 \"\" \"{}\"\n.SH NAME\nwizbratel \\- {}\n.SH SYNOPSIS\n",
        VERSION.trim_end(),
        roff(ABOUT)
    );
    for (help, _) in COMMANDS {
        page += &format!(".B wizbratel\n{}\n.br\n", roff(help.usage));
    }
    page += &format!(
        ".SH DESCRIPTION\n{}.PP\n{}",
        paragraphs(FILES),
        paragraphs(REFUSED)
    );
    page += &tagged(OPTIONS);
    page += ".SH WORDS\n";
    for (help, _) in COMMANDS {
        page += &format!(".SS {}\n{}", roff(help.name()), paragraphs(help.text));
        page += &tagged(help.options);
        page += &format!(
            ".PP\nExample:\n.PP\n.RS\n.nf\n{}.fi\n.RE\n",
            lines(help.example)
        );
    }
    page + ".SH EXIT STATUS\n" + &paragraphs(STATUS)
}

/// Options for man(7).
fn tagged(options: &[Opt]) -> String {
    let options = options.iter().map(|Opt { name, value, does }| {
        let name = format!("{name} {value}");
        format!(".TP\n.B {}\n{}", roff(name.trim_end()), paragraphs(does))
    });
    options.collect()
}

/// A text of several paragraphs for man(7).
fn paragraphs(text: &str) -> String {
    let paragraphs: Vec<String> = text.split("\n\n").map(lines).collect();
    paragraphs.join(".PP\n")
}

fn lines(text: &str) -> String {
    text.lines().map(|line| roff(line) + "\n").collect()
}

/// A line for man(7): what would be a request, or be taken for another mark, is marked.
fn roff(line: &str) -> String {
    let line = line
        .replace('\\', "\\e")
        .replace('-', "\\-")
        .replace('`', "\\(ga");
    match line.starts_with(['.', '\'', ' ']) {
        true => format!("\\&{line}"),
        false => line,
    }
}
