//! Streams by their sort sections: damaged ones with hex F2, and right ones of either layout (#104).

/// A stream, and what is tried in it.
pub struct Stream {
    pub what: String,
    pub bytes: Vec<u8>,
}

/// What stands behind the sorts in the stream of `sort D 3;act a:D;proc X=a(2);init X;`.
const REST: [u8; 15] = [0, 1, 1, b'a', 1, 1, 1, 0, 1, 0, 0, 0, 2, 0, 0];

/// The words, none of which is a name.
const WORDS: [&str; 8] = ["sort", "func", "act", "proc", "init", "sum", "delta", "tau"];

/// A stream of these pieces.
fn stream(what: &str, pieces: &[&[u8]]) -> Stream {
    let (what, bytes) = (what.to_string(), pieces.concat());
    Stream { what, bytes }
}

/// Size, name length and name of each sort, behind hex F2 and their count.
fn named(sorts: &[(u8, &[u8])]) -> Vec<u8> {
    let mut section = vec![0xf2, sorts.len() as u8];
    for (size, name) in sorts {
        section.extend([*size, name.len() as u8]);
        section.extend(*name);
    }
    section
}

/// The stream whose sorts are Bool and this one.
fn with_sort(size: u8, name: &[u8]) -> Stream {
    let what = format!("{:?} of size {size}", String::from_utf8_lossy(name));
    stream(&what, &[&named(&[(2, b"Bool"), (size, name)]), &REST])
}

/// The stream whose first sort is this one.
fn with_first(size: u8, name: &[u8]) -> Stream {
    let what = format!("first {:?} of size {size}", String::from_utf8_lossy(name));
    stream(&what, &[&named(&[(size, name), (3, b"D")]), &REST])
}

/// Streams that question 14 refuses for their sort section.
pub fn damaged() -> Vec<Stream> {
    let right = named(&[(2, b"Bool"), (3, b"D")]);
    let first = (0..=255).filter(|&byte| byte != 0xf2);
    let first = first.map(|byte| {
        stream(
            &format!("first byte {byte}"),
            &[&[byte], &right[1..], &REST],
        )
    });
    let counts = [0, 1, 3, 8, 9, 242, 255];
    let counts = counts.map(|n| stream(&format!("count {n}"), &[&[0xf2, n], &right[2..], &REST]));
    let cuts = (0..right.len()).map(|n| stream(&format!("cut after {n}"), &[&right[..n], &[0]]));
    let longer = [0, 2, 3, 16, 17, 255].map(|length| {
        let (front, name) = right.split_at(right.len() - 2);
        stream(
            &format!("name length {length}"),
            &[front, &[length], &name[1..], &REST],
        )
    });
    let layouts = [
        stream("hex F2 twice", &[&[0xf2], &right, &REST]),
        stream("names without hex F2", &[&right[1..], &REST]),
        stream("hex F2 without names", &[&[0xf2, 2, 2, 3], &REST]),
        stream(
            "names before sizes",
            &[b"\xf2\x02\x04Bool\x02\x01D\x03", &REST],
        ),
        stream(
            "names behind all sizes",
            &[b"\xf2\x02\x02\x03\x04Bool\x01D", &REST],
        ),
        stream("D named, Bool not", &[b"\xf2\x02\x02\x03\x01D", &REST]),
    ];
    let mut streams: Vec<Stream> = first
        .chain(counts)
        .chain(cuts)
        .chain(longer)
        .chain(layouts)
        .collect();
    streams.extend(names());
    streams
}

/// Names and sizes that no sort may have, and a first sort that is not Bool of size 2.
fn names() -> Vec<Stream> {
    let wrong: [&[u8]; 16] = [
        b"Bool",
        b"_D",
        b"1D",
        b"9",
        b"D-",
        b"D ",
        b" D",
        b"D\n",
        b"D\0",
        b"\0",
        b"D.",
        b"\xc3\xa4",
        b"D\x80",
        b"\xff",
        b"nnnnnnnnnnnnnnnnn",
        b"nnnnnnnnnnnnnnnnnn",
    ];
    let words = WORDS.map(|word| with_sort(3, word.as_bytes()));
    let sizes = [0, 17, 18, 128, 255].map(|size| with_sort(size, b"D"));
    let first: [&[u8]; 6] = [b"bool", b"BOOL", b"Boo", b"Boole", b"s0", b"E"];
    let first_sizes = [0, 1, 3, 16].map(|size| with_first(size, b"Bool"));
    let pairs = [
        named(&[(3, b"D"), (2, b"Bool")]),
        named(&[(2, b"Bool"), (3, b"D"), (3, b"D")]),
        named(&[(2, b"Bool"), (3, b"D"), (4, b"E"), (5, b"D")]),
        named(&[(2, b"Bool"), (3, b"D"), (2, b"Bool")]),
    ];
    let wrong = wrong.map(|name| with_sort(3, name)).into_iter();
    let first = first.map(|name| with_first(2, name));
    let pairs = pairs.map(|section| stream(&format!("{section:?}"), &[&section, &REST]));
    let sized = sizes.into_iter().chain(first_sizes);
    wrong
        .chain(words)
        .chain(first)
        .chain(sized)
        .chain(pairs)
        .collect()
}

/// Streams that question 14 lets through: names of all lengths and of every kind of character, a sort
/// named like an action or like another's letter, as many sorts as can be, the earlier layout.
pub fn right() -> Vec<Stream> {
    let names: [&[u8]; 15] = [
        b"D",
        b"a",
        b"bool",
        b"Boolean",
        b"Sum",
        b"tau1",
        b"sort_",
        b"s1",
        b"p0",
        b"vvvv",
        b"ffffffffffffffff",
        b"n_9_Z_0_______xY",
        b"nnnnnnnnnnnnnnnn",
        b"ssssssssssssssss",
        b"x",
    ];
    let eight: Vec<Vec<u8>> = (1..8)
        .map(|n| format!("nnnnnnnnnnnnnnn{n}").into_bytes())
        .collect();
    let mut most: Vec<(u8, &[u8])> = vec![(2, b"Bool")];
    most.extend(eight.iter().map(|name| (16, name.as_slice())));
    let mut streams: Vec<Stream> = names.map(|name| with_sort(3, name)).into();
    streams.push(stream("eight sorts", &[&named(&most), &REST]));
    streams.push(stream("the earlier layout", &[&[2, 2, 3], &REST]));
    streams.extend((1..=16).map(|times| {
        let name = vec![b's'; times];
        let action = [&[0, 1, times as u8][..], &name, &REST[4..]].concat();
        stream(
            &format!("the earlier layout, {times} times s"),
            &[&[2, 2, 3], &action],
        )
    }));
    streams
}
