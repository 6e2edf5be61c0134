//! Operators in data: sheets at their limits, and the deepest ones.

use std::time::Duration;

use library::check_sheet;
use library::common::{operators, within};
use library::made::made_whole;
use reader::limits::FILE_BYTES;

/// Both say the same of a sheet.
fn same(what: &str, sheet: &[u8], wanted: u8) {
    let made = made_whole(sheet);
    assert_eq!(made, reader::make_table(sheet), "{what}");
    assert_eq!(made.err().unwrap_or(0), wanted, "{what}");
    assert_eq!(check_sheet(sheet), wanted, "{what}");
}

#[test]
fn sheets_at_their_limits() {
    for case in operators::sheets() {
        same(&case.what, &case.sheet, case.wanted);
    }
}

#[test]
fn the_deepest_sheets_in_a_small_stack() {
    for case in operators::deep() {
        let (what, sheet, wanted) = (case.what.clone(), case.sheet.clone(), case.wanted);
        assert!(sheet.len() <= FILE_BYTES);
        within(Duration::from_secs(5), move || same(&what, &sheet, wanted));
    }
}
