//! `explain N`: what a question asks, with an example that fails it, how to mend it, and the example mended.

use std::ffi::OsString;

use wizbratel::question;

use crate::args::{number, Args};
use crate::example::Example;
use crate::example::Example::{Asked, Blanks, File, Printed, Room, Sheet};
use crate::help::Help;
use crate::out;
use crate::stop::{misuse, Status, Stop, GOOD};

pub const HELP: Help = Help {
    usage: "explain [N]",
    does: "says what a question asks, and how to mend what fails it",
    text: "\
Says what question N asks, with an example that fails it, what to do then, and
the example mended; or lists what all questions ask.
",
    options: &[],
    example: "wizbratel explain 9",
};

/// How a question is failed, and what to do then.
struct Explained {
    fails: Example,
    advice: &'static str,
    mended: Example,
}

/// One entry of the table.
const fn entry(fails: Example, advice: &'static str, mended: Example) -> Explained {
    Explained {
        fails,
        advice,
        mended,
    }
}

const LOOP: &str = "act a;proc X=a.X;init X;";

/// The questions, 1 first.
const EXPLAINED: [Explained; 17] = [
    entry(
        Blanks(LOOP, 4073),
        "Leave blanks and line feeds out, shorten names, or cut the sheet in two.",
        Blanks(LOOP, 4072),
    ),
    entry(
        Sheet("act öffne;proc X=öffne.X;init X;"),
        "Write in ASCII, with line feeds alone at the ends of lines and without tabs.",
        Sheet("act oeffne;proc X=oeffne.X;init X;"),
    ),
    entry(
        Sheet("act power-on;proc X=power-on.X;init X;"),
        "Look for marks that the language does not have, names of more than 16 characters, and numerals that are \
         above 255 or begin with 0.",
        Sheet("act power_on;proc X=power_on.X;init X;"),
    ),
    entry(
        Sheet("act a;proc X=(((((((((((((((((a)))))))))))))))));init X;"),
        "Take brackets away that hold a sequence alone, or give the inner part a process of its own.",
        Sheet("act a;proc X=((((((((((((((((a))))))))))))))));init X;"),
    ),
    entry(
        Sheet("act a;proc X=a.X init X;"),
        "Look for a semicolon or a bracket that is missing, lines that are out of order, and an empty list. The \
         order is sort, func, act, proc, init.",
        Sheet(LOOP),
    ),
    entry(
        Sheet("sort D 17;act a:D;proc X=sum(d:D,a(d));init X;"),
        "Make the sort smaller, or declare less. Bool counts as one of the 8 sorts.",
        Sheet("sort D 16;act a:D;proc X=sum(d:D,a(d));init X;"),
    ),
    entry(
        Sheet("act a;proc X=a.b.X;init X;"),
        "Declare the name, or give one of two equal names another. A variable may not be named as anything that is \
         declared, also further down.",
        Sheet("act a;act b;proc X=a.b.X;init X;"),
    ),
    entry(
        Sheet("sort D 3;act a:D;proc X=a(3);init X;"),
        "Values of a sort of size n are 0 to n - 1. Give each action, process and function as many data as its line \
         says, of those sorts; a function needs one value for each choice of arguments. Of two numerals == cannot tell \
         the sort.",
        Sheet("sort D 3;act a:D;proc X=a(2);init X;"),
    ),
    entry(
        Sheet("act a;proc X=Y+a;proc Y=X.a;init X;"),
        "Put an action, or tau, before one of the calls in the circle. A condition that is never met does not help.",
        Sheet("act a;proc X=Y+a;proc Y=a.X;init X;"),
    ),
    entry(
        Sheet("act a;proc X=a.X.X.X.X.X.X.X.X.X;init X;"),
        "Give a part of a long sequence, or of a choice that is copied into many places, a process of its own.",
        Sheet("act a;proc X=a.Y.Y.Y;proc Y=X.X.X;init X;"),
    ),
    entry(
        Room(LOOP, 511),
        "Lend more: 65,536 bytes are always enough. The command and Table::make lend so many, and never meet this \
         question.",
        Room(LOOP, 512),
    ),
    entry(
        File("cut after 100 bytes", |file| file.truncate(100)),
        "The file is no table file, or was not written to its end. Make it again from its sheet.",
        File("whole", |_| {}),
    ),
    entry(
        File("with byte 10 changed", |file| file[10] ^= 1),
        "The file was damaged. Make it again from its sheet.",
        File("as it was made", |_| {}),
    ),
    entry(
        File("with 3 for the size of Bool, and the block's check made right", |file| {
            file[6] = 3;
            file[510..].copy_from_slice(&[0xb5, 0x25]);
        }),
        "The file was not written by this library, or by a writer that keeps other rules. Make it again from its \
         sheet.",
        File("as it was made", |_| {}),
    ),
    entry(
        Asked(LOOP, 1, 1),
        "Lend 64 frames that come from a start or from a step of this table, and change none of them; zeros stand in \
         all that is not used.",
        Asked(LOOP, 0, 1),
    ),
    entry(
        Asked("act a;proc X=a.X.X;init X;", 0, 64),
        "The process calls deeper than a stack can hold. Take another step, or let the process end its calls sooner.",
        Asked("act a;proc X=a.X.X;init X;", 0, 63),
    ),
    entry(
        Printed("act a;proc X=a.a.a.a.a.a.a.a.a+a.a.a.a.a.a.a.a.a;init X;"),
        "Each equation of the table is printed as a process, and each part after a first one that is no call has an \
         equation; data deep in functions, or a long name of an action or a sort that begins with f, p or v, can fail \
         it too. The table itself is right: keep the sheet that it was made from.",
        Printed("act a;proc X=a.a.a.a.a.a.a.a.a+a.a.a.a.a.a.a.a;init X;"),
    ),
];

/// Prints one question, or what all of them ask.
pub fn run(words: &[OsString]) -> Result<Status, Stop> {
    let args = Args::parse(words, HELP.options)?;
    if args.files().is_empty() {
        return out::print(&all()).map(|()| GOOD);
    }
    let asked = number("N", args.file("N")?)?;
    match u8::try_from(asked).ok().and_then(text) {
        Some(text) => out::print(&text).map(|()| GOOD),
        None => Err(misuse(format!("no question {asked}: there are 1 to 17"))),
    }
}

/// A line for each question.
fn all() -> String {
    let asked = (1..).map_while(|number| Some((number, question(number)?)));
    asked
        .map(|(number, asked)| format!("{number:2}  {asked}\n"))
        .collect()
}

/// All that is said of a question.
fn text(number: u8) -> Option<String> {
    let asked = question(number)?;
    let explained = EXPLAINED.get(usize::from(number).checked_sub(1)?)?;
    let (fails, mended) = (shown(&explained.fails), shown(&explained.mended));
    let advice = explained.advice;
    Some(format!(
        "Question {number}: {asked}\n\n{fails}\n{advice}\n\n{mended}"
    ))
}

/// An example, and what the library says of it.
fn shown(example: &Example) -> String {
    let lines = example.shown();
    let lines: String = lines.iter().map(|line| format!("    {line}\n")).collect();
    let answer = match example.put() {
        Ok(()) => "accepted".to_string(),
        Err(refused) => format!("refused {}", refused.number()),
    };
    format!("{lines}  {answer}\n")
}

#[cfg(test)]
mod tests {
    use super::*;

    #[test]
    fn every_example_fails_its_question_and_passes_once_mended() {
        for (wanted, explained) in (1..).zip(&EXPLAINED) {
            let refused = explained.fails.put().map_err(|refused| refused.number());
            assert_eq!(refused, Err(wanted), "{:?}", explained.fails.shown());
            let passes = explained.mended.put();
            assert_eq!(passes, Ok(()), "{:?}", explained.mended.shown());
        }
    }

    #[test]
    fn there_are_as_many_as_the_library_asks() {
        assert!((1..=17).all(|number| text(number).is_some()));
        assert!(text(0).is_none() && text(18).is_none());
        assert_eq!(all().lines().count(), 17);
    }
}
