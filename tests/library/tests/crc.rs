//! The proved CRC beside the other reader's.

#[test]
fn nine_digits() {
    assert_eq!(library::crc(b"123456789"), 0x29b1);
}

#[test]
fn every_length_to_past_a_block() {
    let bytes: Vec<u8> = (0..600).map(|i| (i * 37 + i / 7) as u8).collect();
    for length in 0..=bytes.len() {
        let part = &bytes[..length];
        assert_eq!(library::crc(part), reader::crc16(part), "{length} bytes");
    }
}
