//! Whether a filed table is its sheet's own in the earlier layout, which has no names of sorts.

use wizbratel::Table;

use crate::stream::{stream, NAMED};

/// The library accepts the file as a table, and its stream is that of the sheet's table with the sizes of sorts in place
/// of sizes and names. Behind a stream stand zeros in either file, and a stream is read in one way only, so that what
/// follows the streams need not be known.
pub fn is_earlier(filed: &[u8], own: &Table) -> bool {
    let Some(mut wanted) = without_names(&stream(own.file())) else {
        return false;
    };
    if Table::read(filed).is_err() {
        return false;
    }
    let mut found = stream(filed);
    let longer = wanted.len().max(found.len());
    wanted.resize(longer, 0);
    found.resize(longer, 0);
    found == wanted
}

/// The stream with count and sizes in place of hex F2, count, and each sort's size, name length and name.
fn without_names(stream: &[u8]) -> Option<Vec<u8>> {
    let (&count, mut rest) = stream.strip_prefix(&[NAMED])?.split_first()?;
    let mut earlier = vec![count];
    for _ in 0..count {
        let [size, length, behind @ ..] = rest else {
            return None;
        };
        earlier.push(*size);
        rest = behind.get(usize::from(*length)..)?;
    }
    earlier.extend(rest);
    Some(earlier)
}

#[cfg(test)]
mod tests {
    use super::*;

    #[test]
    fn sizes_in_place_of_sizes_and_names() {
        let named = b"\xf2\x02\x02\x04Bool\x03\x01D\x00\x01";
        let earlier = without_names(named);
        assert_eq!(earlier.as_deref(), Some(&b"\x02\x02\x03\x00\x01"[..]));
        assert_eq!(without_names(b"\x02\x02\x03\x00"), None);
        assert_eq!(without_names(b"\xf2\x02\x02\x04Bool\x03\x09D"), None);
        assert_eq!(without_names(b""), None);
    }
}
