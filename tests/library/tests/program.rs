//! The program `check_sheet`: what it writes for sheets on its standard input.

use library::common::vectors;

fn written(sheet: &[u8]) -> String {
    library::program::written("check_sheet", sheet)
}

#[test]
fn vectors_in_words() {
    for case in vectors::of("sheets").iter().step_by(20) {
        let wanted = match vectors::made(case) {
            Ok(_) => "accepted\n".to_string(),
            Err(number) => format!("refused {number}\n"),
        };
        assert_eq!(
            written(&case.bytes("sheet")),
            wanted,
            "{}",
            case.text("name")
        );
    }
}

#[test]
fn nothing_and_too_much() {
    assert_eq!(written(b""), "refused 5\n");
    for length in [4097, 65_536, 65_537, 1 << 20] {
        assert_eq!(written(&vec![b' '; length]), "refused 1\n");
    }
}
