//! Blocks of the table file: number, block count, 506 stream bytes and a check.

use crate::limits::{BLOCK_BYTES, FILE_BYTES};
use crate::question::{self, put, Refusal};

/// Bytes of the stream in a block.
pub const STREAM_PART: usize = 506;
const STREAM_START: usize = 4;
const CHECK_START: usize = STREAM_START + STREAM_PART;

/// CRC-16: polynomial hex 1021, start FFFF, nothing reflected or inverted.
pub fn crc16(bytes: &[u8]) -> u16 {
    bytes.iter().fold(0xffff, |crc, &byte| {
        (0..8).fold(crc ^ (u16::from(byte) << 8), |crc: u16, _| {
            let shifted = crc << 1;
            if crc & 0x8000 != 0 {
                shifted ^ 0x1021
            } else {
                shifted
            }
        })
    })
}

/// The file that holds a stream, in the fewest blocks, with zeros after it.
pub fn to_blocks(stream: &[u8]) -> Vec<u8> {
    let parts = stream.chunks(STREAM_PART);
    let count = parts.len();
    let mut file = Vec::new();
    for (number, part) in parts.enumerate() {
        file.extend(block(number, count, part));
    }
    file
}

fn block(number: usize, count: usize, part: &[u8]) -> [u8; BLOCK_BYTES] {
    let mut block = [0; BLOCK_BYTES];
    block[..STREAM_START].copy_from_slice(&header(number, count));
    block[STREAM_START..STREAM_START + part.len()].copy_from_slice(part);
    let check = crc16(&block[..CHECK_START]);
    block[CHECK_START..].copy_from_slice(&check.to_be_bytes());
    block
}

/// Number (from 0) and block count, two bytes each, low first.
fn header(number: usize, count: usize) -> [u8; STREAM_START] {
    let [number_low, number_high] = (number as u16).to_le_bytes();
    let [count_low, count_high] = (count as u16).to_le_bytes();
    [number_low, number_high, count_low, count_high]
}

/// The stream bytes of all blocks, or question 12 or 13.
pub fn from_blocks(file: &[u8]) -> Result<Vec<u8>, Refusal> {
    let length = file.len();
    let length_right =
        (BLOCK_BYTES..=FILE_BYTES).contains(&length) && length.is_multiple_of(BLOCK_BYTES);
    put(question::FILE_LENGTH, length_right)?;
    let count = length / BLOCK_BYTES;
    let mut stream = Vec::new();
    for (number, block) in file.chunks(BLOCK_BYTES).enumerate() {
        let check = crc16(&block[..CHECK_START]).to_be_bytes();
        let right = block[..STREAM_START] == header(number, count) && block[CHECK_START..] == check;
        put(question::BLOCKS, right)?;
        stream.extend_from_slice(&block[STREAM_START..CHECK_START]);
    }
    Ok(stream)
}
