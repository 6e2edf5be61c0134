//! Every sheet of the vectors through `make_table`, byte for byte, through `check_sheet` and `walk`.

use library::common::vectors;
use library::made::made;
use library::{check_sheet, check_table, walk};

#[test]
fn sheets_give_their_files_or_refusals() {
    let mut seen = [0; 12];
    let mut cases = vectors::all("sheets");
    cases.retain(|case| case.get("refused").or(case.get("stream")).is_some());
    for case in &cases {
        let (name, sheet, wanted) = (case.text("name"), case.bytes("sheet"), vectors::made(case));
        let number = wanted.as_ref().err().copied().unwrap_or(0);
        assert_eq!(made(&sheet, vectors::room(case)), wanted, "{name}");
        let checked = if number == 11 { 0 } else { number };
        assert_eq!(check_sheet(&sheet), checked, "{name}");
        if let Ok(file) = &wanted {
            assert_eq!(check_table(file), 0, "{name}");
        }
        seen[usize::from(number)] += 1;
    }
    assert_eq!(seen.iter().sum::<usize>(), 1241 + 70 + 70);
    assert!(seen.iter().all(|&count| count >= 3), "{seen:?}");
}

#[test]
fn sheets_give_their_walks() {
    let mut cases = vectors::all("sheets");
    cases.retain(|case| case.get("walk").is_some());
    assert_eq!(cases.len(), 1241 + 70 + 70);
    for case in &cases {
        let mut out = [0; 300];
        let length = walk(&case.bytes("sheet"), &mut out);
        let text = String::from_utf8_lossy(&out[..length]);
        assert_eq!(text, vectors::walk(case), "{}", case.text("name"));
    }
}

/// The streams of the vectors before #104 are files still.
#[test]
fn earlier_files_are_accepted() {
    let cases = vectors::all("sheets");
    let streams: Vec<Vec<u8>> = cases.iter().filter_map(vectors::older_stream).collect();
    assert_eq!(streams.len(), 407 + 32);
    for stream in streams {
        assert_eq!(check_table(&reader::to_blocks(&stream)), 0);
    }
}
