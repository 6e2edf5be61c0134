//! Looks for sheets whose tables take longest to make, or most stack: changes the dearest ones and keeps what is dearer.
//! `cargo run --release --offline --bin slowest [SECONDS [SEED [stack]]]` prints the dearest of all.

use std::time::{Duration, Instant};

use library::common::random::Random;
use library::common::{mutate, slow, worst};
use library::painted::used;
use library::timing::least;
use library::words::{number, word};
use library::{make_table, sheets};
use reader::limits::{FILE_BYTES, SHEET_BYTES};

/// So many of the dearest are kept.
const KEPT: usize = 12;

/// After so many tries they are priced anew.
const AGAIN: u32 = 20_000;

/// A sheet and what its table costs.
type Priced = (u128, Vec<u8>);

/// What a sheet's table costs, by a few calls.
type Price = fn(&[u8], u32) -> u128;

/// Nanoseconds, the least of the calls.
fn time(sheet: &[u8], calls: u32) -> u128 {
    let mut out = vec![0; FILE_BYTES];
    let mut written = 0;
    let mut call = || {
        make_table(sheet, &mut out, &mut written);
    };
    least(&mut call, calls).as_nanos()
}

/// Bytes of stack.
fn stack(sheet: &[u8], _: u32) -> u128 {
    let mut out = vec![0; FILE_BYTES];
    let mut written = 0;
    let bytes = used(|| {
        make_table(sheet, &mut out, &mut written);
    });
    bytes as u128
}

/// Keeps the dearest, each once.
fn keep(kept: &mut Vec<Priced>, one: Priced) {
    kept.push(one);
    kept.sort();
    kept.reverse();
    kept.dedup_by(|a, b| a.1 == b.1);
    kept.truncate(KEPT);
}

/// Of many prices some are too high by chance, and those would be kept: all are priced anew.
fn again(kept: Vec<Priced>, price: Price, calls: u32) -> Vec<Priced> {
    let mut anew = Vec::new();
    for (_, sheet) in kept {
        keep(&mut anew, (price(&sheet, calls), sheet));
    }
    anew
}

/// Places where a piece of a right side may begin or end.
fn borders(text: &[u8]) -> Vec<usize> {
    let inside = |i: &usize| b"+.()=;|".contains(&text[*i]);
    (0..text.len()).filter(inside).collect()
}

/// A piece between two such places.
fn piece(random: &mut Random, text: &[u8]) -> (usize, usize) {
    let borders = borders(text);
    let first = random.below(borders.len());
    let most = 1 + random.below(40);
    let last = (first + random.below(most)).min(borders.len() - 1);
    (borders[first], borders[last].max(borders[first] + 1))
}

/// Pieces again and again, left out, in brackets, or in another's place.
fn rearranged(random: &mut Random, text: &[u8], other: &[u8]) -> Vec<u8> {
    let (from, to) = piece(random, text);
    let own = &text[from..to];
    let put = match random.below(5) {
        0 => Vec::new(),
        1 => own.repeat(2 + random.below(30)),
        2 => [&own[..1], b"(", &own[1..], b")"].concat(),
        3 => [own, b"+a"].concat(),
        _ => {
            let (from, to) = piece(random, other);
            other[from..to].to_vec()
        }
    };
    [&text[..from], &put, &text[to..]].concat()
}

/// A changed sheet, cut to length by leaving pieces out.
fn changed(random: &mut Random, kept: &[Priced]) -> Vec<u8> {
    let (sheet, other) = (&random.pick(kept).1, &random.pick(kept).1);
    let mut text = sheet.clone();
    for _ in 0..1 + random.below(3) {
        text = match random.below(4) {
            0 => mutate::mutant(random, &text),
            _ => rearranged(random, &text, other),
        };
        if borders(&text).is_empty() {
            return sheet.clone();
        }
    }
    while text.len() > SHEET_BYTES {
        let (from, to) = piece(random, &text);
        text.drain(from..to);
    }
    text
}

fn main() {
    let (seconds, mut random) = (number(0, 60), Random::new(number(1, 1)));
    let by_stack = word(2).is_some_and(|word| word == "stack");
    let (price, unit): (Price, &str) = if by_stack {
        (stack, "bytes")
    } else {
        (time, "ns")
    };
    let cases = [worst::sheets(), slow::sheets()].concat();
    let known = cases.into_iter().map(|case| case.sheet);
    let usual = sheets::accepted().map(String::into_bytes);
    let mut kept = Vec::new();
    for sheet in known.chain(usual) {
        keep(&mut kept, (price(&sheet, 5), sheet));
    }
    println!("the dearest known: {} {unit}", kept[0].0);
    let (end, mut tried) = (Instant::now() + Duration::from_secs(seconds), 0u32);
    while Instant::now() < end {
        if tried % AGAIN == 0 {
            kept = again(kept, price, 20);
        }
        let sheet = changed(&mut random, &kept);
        tried += 1;
        let fewest = kept[kept.len() - 1].0;
        if price(&sheet, 1) > fewest && price(&sheet, 5) > fewest {
            let found = price(&sheet, 20);
            if found > kept[0].0 {
                println!("{found} {unit}");
            }
            keep(&mut kept, (found, sheet));
        }
    }
    kept = again(kept, price, 400);
    let (found, sheet) = &kept[0];
    let answer = match reader::make_table(sheet) {
        Ok(file) => format!("a file of {} bytes", file.len()),
        Err(number) => format!("refused {number}"),
    };
    println!("{tried} tried; the dearest costs {found} {unit}, {answer}:");
    println!("{}", String::from_utf8_lossy(sheet));
}
