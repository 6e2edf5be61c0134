//! Frames in hex, 5 bytes each.

use wizbratel::Frame;

/// Hex digits of a frame.
const DIGITS: usize = 10;

/// Frames in hex, the bottom first.
pub fn hex(frames: &[Frame]) -> String {
    let bytes = frames.iter().flat_map(|frame| {
        let [a, b, c, d] = frame.values;
        [frame.equation, a, b, c, d]
    });
    bytes.map(|byte| format!("{byte:02x}")).collect()
}

/// Frames of their hex; none if there is another character, or a frame is not whole.
pub fn from_hex(text: &str) -> Option<Vec<Frame>> {
    let digit = |byte: &u8| char::from(*byte).to_digit(16).map(|digit| digit as u8);
    let digits: Option<Vec<u8>> = text.as_bytes().iter().map(digit).collect();
    let digits = digits?;
    let frames = digits.chunks(DIGITS).map(|frame| {
        let bytes: Vec<u8> = frame.chunks(2).map(|pair| pair[0] << 4 | pair[1]).collect();
        let [equation, a, b, c, d] = bytes[..] else {
            return None;
        };
        let values = [a, b, c, d];
        Some(Frame { equation, values })
    });
    (digits.len() % DIGITS == 0)
        .then(|| frames.collect())
        .flatten()
}
