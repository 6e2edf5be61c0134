//! The walk, by the program `walk` and by the library: its text for every sheet of the vectors, for generated ones, and for
//! document 01's own.

use library::common::{generate, vectors};

/// The program's text, which is the library's; the library leaves what is behind its text.
fn written(sheet: &[u8]) -> String {
    let text = library::program::written("walk", sheet);
    let mut out = [0xA5; 300];
    let length = library::walk(sheet, &mut out);
    assert_eq!(out[..length], *text.as_bytes());
    assert!(out[length..].iter().all(|&byte| byte == 0xA5));
    text
}

#[test]
fn document_01() {
    let text = written(b"act a;act b;proc X=a.b;init X;");
    assert_eq!(text, "1 a 1\n2 b 0\nended\n");
}

#[test]
fn examples_get_their_walks() {
    let folder = std::path::Path::new(env!("CARGO_MANIFEST_DIR")).join("../../examples");
    let mut walks = 0;
    for entry in std::fs::read_dir(folder).expect("the examples") {
        let path = entry.expect("an example").path();
        if path.extension().is_some_and(|end| end == "pcrl") {
            let sheet = std::fs::read(&path).expect("a sheet");
            let walk = std::fs::read_to_string(path.with_extension("walk")).expect("its walk");
            assert_eq!(written(&sheet), walk, "{}", path.display());
            walks += 1;
        }
    }
    assert!(walks >= 7);
}

#[test]
fn vectors_get_their_walks() {
    for case in vectors::of("sheets") {
        let (name, sheet) = (case.text("name"), case.bytes("sheet"));
        assert_eq!(written(&sheet), vectors::walk(&case), "{name}");
    }
}

#[test]
fn generated_sheets() {
    let mut closed = std::collections::BTreeMap::new();
    for seed in 0..600 {
        let sheet = match seed % 2 {
            0 => generate::with_heads(seed),
            _ => generate::with_heads_and_operators(seed),
        };
        let text = written(sheet.as_bytes());
        assert_eq!(text, reader::walk(sheet.as_bytes()), "{sheet}");
        let word = text.lines().last().expect("a closing word").to_string();
        *closed.entry(word).or_insert(0) += 1;
    }
    let words: Vec<&String> = closed.keys().collect();
    assert_eq!(words, ["ended", "more", "refused 10", "stuck"]);
}

#[test]
fn every_room() {
    let sheet = b"act a;act b;proc X=a.b;init X;";
    let text = written(sheet);
    for room in 0..text.len() + 3 {
        let mut out = vec![0xA5; room];
        let length = library::walk(sheet, &mut out);
        assert_eq!(length, room.min(text.len()));
        assert_eq!(out[..length], text.as_bytes()[..length]);
    }
}

#[test]
fn nothing_and_too_much() {
    assert_eq!(written(b""), "refused 5\n");
    for length in [4097, 65_536, 65_537, 1 << 20] {
        assert_eq!(written(&vec![b' '; length]), "refused 1\n");
    }
}
