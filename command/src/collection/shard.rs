//! A part of a collection, for one of several machines: `K/N`, the K-th of N, by a digest of each sheet's path.

use std::ffi::OsStr;
use std::os::unix::ffi::OsStrExt;
use std::path::Path;

use crate::args::number;
use crate::stop::{misuse, Stop};

/// The K-th of N parts, K from 1.
#[derive(Clone, Copy, Debug)]
pub struct Shard {
    number: u64,
    of: u64,
}

impl Shard {
    /// The collection as one part.
    pub const WHOLE: Shard = Shard { number: 1, of: 1 };

    /// What an option says.
    pub fn parse(option: &str, value: &OsStr) -> Result<Shard, Stop> {
        let text = value.to_string_lossy();
        let wrong = || misuse(format!("{option}: `{text}` is no K/N with K from 1 to N"));
        let (k, n) = text.split_once('/').ok_or_else(wrong)?;
        let (number, of) = (number(option, k.as_ref())?, number(option, n.as_ref())?);
        match number >= 1 && number <= of {
            true => Ok(Shard { number, of }),
            false => Err(wrong()),
        }
    }

    /// Whether a path, from the folder that was named on, is of this part. It is of one part only.
    pub fn has(self, path: &Path) -> bool {
        digest(path.as_os_str().as_bytes()) % self.of == self.number - 1
    }
}

/// FNV-1a of 64 bits, its halves laid over each other. The standard library's digest may change with its version, and
/// parts that are computed by two builds of the command must fit.
fn digest(bytes: &[u8]) -> u64 {
    let digest = bytes
        .iter()
        .fold(0xcbf2_9ce4_8422_2325, |digest: u64, &byte| {
            (digest ^ u64::from(byte)).wrapping_mul(0x0000_0100_0000_01b3)
        });
    digest ^ digest >> 32
}

#[cfg(test)]
mod tests {
    use super::*;

    #[test]
    fn the_digest_stays_what_it_is() {
        let (empty, text) = (0xcbf2_9ce4_8422_2325_u64, 0x8594_4171_f739_67e8_u64);
        assert_eq!(digest(b""), empty ^ empty >> 32);
        assert_eq!(digest(b"foobar"), text ^ text >> 32);
    }

    #[test]
    fn parts_are_about_as_large_as_each_other() {
        for of in [2, 3, 4, 7, 10, 16] {
            let mut sizes = vec![0; of as usize];
            for sheet in 0..10_000 {
                let path = format!("{:03}/{sheet:05}", sheet / 100);
                let has = |&number: &u64| Shard { number, of }.has(Path::new(&path));
                let parts: Vec<u64> = (1..=of).filter(has).collect();
                assert_eq!(parts.len(), 1, "{path}");
                sizes[parts[0] as usize - 1] += 1;
            }
            let even = 10_000 / of as i32;
            let near = |&size: &i32| (size - even).abs() < even / 4;
            assert!(sizes.iter().all(near), "{of}: {sizes:?}");
        }
    }

    #[test]
    fn what_is_no_part() {
        let parse = |text: &str| Shard::parse("--shard", text.as_ref());
        assert!(parse("1/1").is_ok() && parse("7/7").is_ok());
        for wrong in [
            "", "1", "0/2", "3/2", "1/0", "1/", "/1", "1/2/3", "-1/2", "a/b",
        ] {
            assert!(parse(wrong).is_err(), "{wrong}");
        }
    }
}
