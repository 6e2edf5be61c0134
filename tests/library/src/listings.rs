//! The listings of a document: what stands between three backquotes, with the words behind the opening ones.

/// A listing.
#[derive(Clone, Debug, PartialEq, Eq)]
pub struct Listing {
    /// The heading that it stands under.
    pub heading: String,
    /// Its line in the document, from 1.
    pub line: usize,
    /// The words behind the backquotes, one blank between them.
    pub words: String,
    /// Its lines, each ended by a line feed.
    pub text: String,
}

const FENCE: &str = "```";

/// All listings of a document, in order; or what is wrong with its backquotes.
pub fn listings(document: &str) -> Result<Vec<Listing>, String> {
    let mut found = Vec::new();
    let mut heading = String::new();
    let mut open: Option<Listing> = None;
    for (index, line) in document.lines().enumerate() {
        match (&mut open, line.strip_prefix(FENCE)) {
            (None, None) if line.starts_with('#') => heading = line.to_string(),
            (None, None) => {}
            (None, Some(words)) => {
                open = Some(Listing {
                    heading: heading.clone(),
                    line: index + 1,
                    words: words.trim().to_string(),
                    text: String::new(),
                });
            }
            (Some(listing), None) => listing.text += &format!("{line}\n"),
            (Some(_), Some("")) => found.extend(open.take()),
            (Some(_), Some(_)) => return Err(format!("line {}: backquotes", index + 1)),
        }
    }
    match open {
        None => Ok(found),
        Some(listing) => Err(format!("line {}: not closed", listing.line)),
    }
}

/// The bytes that a listing of a stream shows: in each line the pairs of hex digits before the first two blanks.
pub fn stream(text: &str) -> Vec<u8> {
    let shown = text.lines().filter_map(|line| {
        let front = line.trim_start().split("  ").next()?;
        let pairs = front.split(' ').map(|pair| match pair.len() {
            2 => u8::from_str_radix(pair, 16).ok(),
            _ => None,
        });
        pairs.collect::<Option<Vec<u8>>>()
    });
    shown.flatten().collect()
}
