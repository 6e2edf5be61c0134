//! Arguments: files, and the options that a command has. `--` ends the options, and `-` alone is a file.

use std::ffi::{OsStr, OsString};

use crate::nearest::did_you_mean;
use crate::stop::{misuse, Stop};

/// The arguments of a command, taken apart.
#[derive(Debug, Default)]
pub struct Args {
    files: Vec<OsString>,
    options: Vec<(&'static str, OsString)>,
}

/// An option of a command: its name, what stands behind it (nothing, where it stands alone), and what it does, in lines.
pub struct Opt {
    pub name: &'static str,
    pub value: &'static str,
    pub does: &'static str,
}

impl Args {
    /// Takes the words behind a command's name apart.
    pub fn parse(words: &[OsString], options: &'static [Opt]) -> Result<Args, Stop> {
        let mut args = Args::default();
        let mut words = words.iter();
        while let Some(word) = words.next() {
            let text = word.to_str().unwrap_or_default();
            if text == "--" {
                args.files.extend(words.by_ref().cloned());
            } else if text == "-" || !word.as_encoded_bytes().starts_with(b"-") {
                args.files.push(word.clone());
            } else {
                args.option(text, word, &mut words, options)?;
            }
        }
        Ok(args)
    }

    /// Takes one option, its value with it: the next word, or what stands behind `=`.
    fn option<'w>(
        &mut self,
        text: &str,
        word: &OsStr,
        words: &mut impl Iterator<Item = &'w OsString>,
        options: &'static [Opt],
    ) -> Result<(), Stop> {
        let (name, behind) = match text.split_once('=') {
            Some((name, value)) => (name, Some(OsString::from(value))),
            None => (text, None),
        };
        let Some(option) = options.iter().find(|option| option.name == name) else {
            return Err(unknown(word, name, options));
        };
        let (name, alone) = (option.name, option.value.is_empty());
        let value = match (behind, alone) {
            (None, true) => OsString::new(),
            (Some(value), false) => value,
            (Some(_), true) => return Err(misuse(format!("{name} takes no value"))),
            (None, false) => match words.next() {
                Some(value) => value.clone(),
                None => {
                    let value = option.value;
                    return Err(misuse(format!("{name} needs a value behind it: {value}")));
                }
            },
        };
        if self.value(name).is_some() {
            return Err(misuse(format!("{name} is given twice")));
        }
        self.options.push((name, value));
        Ok(())
    }

    /// All files.
    pub fn files(&self) -> &[OsString] {
        &self.files
    }

    /// The only file; `what` names it in the message if there is another number of them.
    pub fn file(&self, what: &str) -> Result<&OsStr, Stop> {
        match &self.files[..] {
            [file] => Ok(file),
            [] => Err(misuse(format!("{what} is missing"))),
            _ => Err(misuse(format!("only one {what} is taken"))),
        }
    }

    /// Whether an option is given.
    pub fn has(&self, name: &str) -> bool {
        self.value(name).is_some()
    }

    /// The value of an option, if it is given.
    pub fn value(&self, name: &str) -> Option<&OsStr> {
        let mut given = self.options.iter().filter(|(given, _)| *given == name);
        given.next().map(|(_, value)| value.as_os_str())
    }

    /// The value of an option as a number, if it is given.
    pub fn number(&self, name: &str) -> Result<Option<u64>, Stop> {
        self.value(name)
            .map(|value| number(name, value))
            .transpose()
    }
}

/// What is said of an option that a command does not have.
fn unknown(word: &OsStr, name: &str, options: &'static [Opt]) -> Stop {
    let near = did_you_mean(name, options.iter().map(|option| option.name));
    let near = near.map_or(String::new(), |near| format!("; {near}"));
    misuse(format!("no option `{}` here{near}", word.to_string_lossy()))
}

/// A whole number in decimal.
pub fn number(what: &str, value: &OsStr) -> Result<u64, Stop> {
    let text = value.to_string_lossy();
    let digits = !text.is_empty() && text.bytes().all(|byte| byte.is_ascii_digit());
    match text.parse() {
        Ok(number) if digits => Ok(number),
        _ => Err(misuse(format!(
            "{what}: `{text}` is no number from 0 to {}",
            u64::MAX
        ))),
    }
}
