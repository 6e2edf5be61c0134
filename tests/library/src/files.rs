//! Table files: those of the vectors' sheets, in both layouts, and changed ones whose checks are right again.

use crate::common::random::Random;
use crate::common::vectors;

/// Files of the accepted sheets of the vectors, and those of their tables in the earlier layout.
pub fn made() -> Vec<Vec<u8>> {
    let sheets = vectors::of("sheets");
    let files = sheets.iter();
    let files = files.filter_map(|case| reader::make_table(&case.bytes("sheet")).ok());
    files.flat_map(|file| [earlier(&file), file]).collect()
}

/// The file of a file's table in the earlier layout.
pub fn earlier(file: &[u8]) -> Vec<u8> {
    let table = reader::read_table(file).expect("a table");
    reader::encode_file(&table.older())
}

/// The check of each block made right again.
pub fn rechecked(mut file: Vec<u8>) -> Vec<u8> {
    for block in file.chunks_mut(512) {
        if block.len() == 512 {
            let check = reader::crc16(&block[..510]).to_be_bytes();
            block[510..].copy_from_slice(&check);
        }
    }
    file
}

/// The file with one stream byte of the first block made a little larger or smaller; many such are still accepted.
pub fn slightly_changed(random: &mut Random, file: &[u8]) -> Vec<u8> {
    let mut mutant = file.to_vec();
    let at = 4 + random.below(60);
    mutant[at] = mutant[at].wrapping_add([1, 255, 32, 64, 2][random.below(5)]);
    rechecked(mutant)
}
