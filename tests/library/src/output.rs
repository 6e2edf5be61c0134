//! A lent output that stands between canaries.

use std::sync::LazyLock;

use reader::limits::FILE_BYTES;
use reader::Refusal;

/// Bytes on each side of the output.
const SIDE: usize = 64;

/// What the place of the length holds before it is written.
const UNWRITTEN: usize = 0x5eed_0000_0000_0001;

/// What stands in and around an output before it is lent; no two bytes beside each other are equal.
static BEFORE: LazyLock<Vec<u8>> = LazyLock::new(|| {
    let longest = SIDE + FILE_BYTES + 1024 + SIDE;
    (0..longest)
        .map(|place| (place % 251) as u8 ^ 0xa5)
        .collect()
});

/// What a call writes to an output of this length, or the number of the question that fails. Asserts that nothing else
/// was written: after a refusal nothing at all, else only what is answered and its length.
pub fn written(
    room: usize,
    what: impl Fn() -> String,
    call: impl FnOnce(&mut [u8], &mut usize) -> u8,
) -> Result<Vec<u8>, Refusal> {
    let before = &BEFORE[..SIDE + room + SIDE];
    let mut bytes = before.to_vec();
    let mut written = UNWRITTEN;
    let answer = call(&mut bytes[SIDE..SIDE + room], &mut written);
    if answer != 0 {
        assert_eq!(written, UNWRITTEN, "{answer} with a length: {}", what());
        assert!(bytes == before, "{answer} with bytes written: {}", what());
        return Err(answer);
    }
    assert!(written <= room, "{written} of {room} bytes: {}", what());
    let (front, rest) = bytes.split_at(SIDE);
    assert!(front == &before[..SIDE], "written before: {}", what());
    let (wanted, behind) = rest.split_at(written);
    assert!(
        behind == &before[SIDE + written..],
        "written behind: {}",
        what()
    );
    Ok(wanted.to_vec())
}
