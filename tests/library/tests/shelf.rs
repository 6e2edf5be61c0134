//! The rest of document 01's shelf: "Sort size 16 passes, 17 and 0 get 6. Eight calls pass, nine get 10. 4,096 bytes
//! pass." And the CRC of nine digits.

use library::check_sheet;
use library::made::same;
use reader::limits::FILE_BYTES;

/// Both readers give this answer.
fn answers(sheet: &str, wanted: u8) {
    assert_eq!(
        same(sheet.as_bytes(), FILE_BYTES, "shelf"),
        wanted,
        "{sheet}"
    );
    assert_eq!(check_sheet(sheet.as_bytes()), wanted, "{sheet}");
}

#[test]
fn sort_sizes() {
    for (size, wanted) in [(16, 0), (17, 6), (0, 6)] {
        answers(
            &format!("sort D {size};act a:D;proc X=sum(d:D,a(d));init X;"),
            wanted,
        );
    }
}

#[test]
fn eight_calls_and_nine() {
    for (count, wanted) in [(8, 0), (9, 10)] {
        answers(
            &format!("act a;proc X=a{};init X;", ".X".repeat(count)),
            wanted,
        );
    }
}

#[test]
fn sheets_of_4096_bytes() {
    let sheet = format!("{:4096}", "act a;proc X=a.X;init X;");
    answers(&sheet, 0);
    answers(&(sheet + " "), 1);
}

#[test]
fn crc_of_nine_digits() {
    assert_eq!(
        [library::crc(b"123456789"), reader::crc16(b"123456789")],
        [0x29b1; 2]
    );
}
