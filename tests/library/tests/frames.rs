//! Broken frames of every kind, each answered 15 with nothing changed, and files that are refused before them.

use library::asked::{lent, same, same_all, same_start};
use library::common::random::Random;
use library::common::sort_sections;
use library::stepping::{Frame, ANSWER};

/// Equations of no, two and four parameters, sorts of 3, 2 and 1, and a new equation of one.
const SHEET: &str = "sort D 3;sort U 1;act a:D;act b;\
    proc X(p:D,q:Bool)=sum(d:D,a(d).a(p).X(d,q)<|q|>b);proc Y=b;\
    proc Z(p:D,q:Bool,r:U,s:D)=b;init X(1,1);";

fn file() -> Vec<u8> {
    reader::make_table(SHEET.as_bytes()).expect("a table")
}

/// A frame of an equation with these values, spare ones 0.
fn frame(equation: u8, values: &[u8]) -> Frame {
    let mut all = [0; 4];
    all[..values.len()].copy_from_slice(values);
    Frame {
        equation,
        values: all,
    }
}

/// A single question and a list of them get this number; a list puts 15 even if it is empty.
fn answers(file: &[u8], frames: &[Frame], depth: usize, wanted: u8, what: &str) {
    for k in [0, 1, u64::MAX] {
        assert_eq!(same(file, frames, depth, k, what).0, wanted, "{what}");
    }
    for questions in [&[][..], &[0], &[0, 5, 0]] {
        for room in [0, ANSWER - 1, ANSWER, 4 * ANSWER + 4] {
            let after = same_all(file, frames, depth, questions, room, what);
            assert_eq!(after.number, wanted, "{what}");
        }
    }
}

fn refused(frames: &[Frame], depth: usize, what: &str) {
    answers(&file(), frames, depth, 15, what);
}

fn passes(frames: &[Frame], depth: usize, what: &str) {
    answers(&file(), frames, depth, 0, what);
}

#[test]
fn exactly_64_frames() {
    for count in [0, 1, 2, 63, 65, 66, 128, 1000] {
        refused(
            &vec![Frame::default(); count],
            0,
            "another number of frames",
        );
        refused(
            &vec![Frame::default(); count],
            1,
            "another number of frames",
        );
    }
    passes(&lent(&[]), 0, "64 frames");
    passes(&lent(&[frame(0, &[1, 1])]), 1, "64 frames");
}

#[test]
fn depth_to_64() {
    let full = vec![frame(1, &[]); 64];
    passes(&full, 64, "depth 64");
    for depth in [
        65,
        66,
        255,
        256,
        320,
        1 << 16,
        1 << 32,
        (1 << 32) + 1,
        usize::MAX / 5,
        usize::MAX,
    ] {
        refused(&full, depth, "a depth past 64");
        refused(&lent(&[]), depth, "a depth past 64");
    }
}

#[test]
fn an_equation_out_of_range() {
    let table = reader::read_table(&file()).expect("a table");
    let count = table.equations.len() as u8;
    assert_eq!(count, 4);
    passes(&lent(&[frame(3, &[2])]), 1, "the last equation");
    for equation in count..=255 {
        refused(
            &lent(&[frame(equation, &[])]),
            1,
            "an equation out of range",
        );
        refused(
            &lent(&[frame(equation, &[]), frame(1, &[])]),
            2,
            "one below the top",
        );
    }
}

#[test]
fn values_out_of_their_sorts() {
    let below = frame(1, &[]);
    let right = [[2, 1, 0, 2], [0, 0, 0, 0], [2, 0, 0, 1]];
    for values in right {
        passes(
            &lent(&[frame(2, &values), below]),
            2,
            "values in their sorts",
        );
    }
    let sizes = [3, 2, 1, 3];
    for (place, size) in sizes.into_iter().enumerate() {
        for value in [size, size + 1, 16, 31, 32, 128, 255] {
            let mut values = [0; 4];
            values[place] = value;
            refused(&lent(&[frame(2, &values)]), 1, "a value out of its sort");
            refused(&lent(&[frame(2, &values), below]), 2, "one below the top");
        }
    }
}

#[test]
fn spare_values() {
    for (equation, parameters) in [(0, 2), (1, 0), (3, 1)] {
        for place in parameters..4 {
            for value in [1, 2, 255] {
                let mut values = [0; 4];
                values[place] = value;
                refused(&lent(&[frame(equation, &values)]), 1, "a spare value");
            }
        }
    }
}

#[test]
fn unused_frames() {
    for place in 0..64 {
        for byte in 0..5 {
            let mut frames = lent(&[]);
            if byte == 0 {
                frames[place].equation = 1;
            } else {
                frames[place].values[byte - 1] = 1;
            }
            refused(&frames, 0, "an unused frame at depth 0");
            refused(&frames, place, "the frame behind the stack");
        }
        let mut frames = lent(&[]);
        frames[place] = frame(1, &[]);
        passes(&frames, place + 1, "the top frame");
    }
}

/// Files refused by 12, 13 and 14.
fn broken_files() -> [(Vec<u8>, u8); 5] {
    let file = file();
    let mut changed = file.clone();
    changed[9] ^= 1;
    [
        (vec![], 12),
        (file[1..].to_vec(), 12),
        (changed, 13),
        (vec![0; 512], 13),
        (reader::to_blocks(&[9]), 14),
    ]
}

#[test]
fn files_before_frames() {
    let right = lent(&[frame(0, &[1, 1])]);
    let broken = vec![frame(9, &[9, 9, 9, 9]); 63];
    for (file, number) in broken_files() {
        answers(&file, &right, 1, number, "a broken file");
        answers(
            &file,
            &broken,
            99,
            number,
            "a broken file and broken frames",
        );
        answers(&file, &[], 0, number, "a broken file and no frames");
    }
}

/// Sort sections that are damaged are refused before the frames; by right ones, of either layout, steps are taken.
#[test]
fn sort_sections_before_frames() {
    let start = lent(&[Frame::default()]);
    let sections = [(sort_sections::damaged(), 14), (sort_sections::right(), 0)];
    for (streams, number) in sections {
        for stream in streams {
            let (file, what) = (reader::to_blocks(&stream.bytes), &stream.what[..]);
            answers(&file, &start, 1, number, what);
            assert_eq!(same_start(&file, &start, 1, what), number, "{what}");
        }
    }
}

#[test]
fn starts() {
    let dirty = |count| vec![frame(9, &[9, 9, 9, 9]); count];
    for depth in [0, 1, 65, usize::MAX] {
        assert_eq!(same_start(&file(), &dirty(64), depth, "a start"), 0);
        for count in [0, 1, 63, 65, 200] {
            assert_eq!(
                same_start(&file(), &dirty(count), depth, "other frames"),
                15
            );
        }
        for (file, number) in broken_files() {
            assert_eq!(
                same_start(&file, &dirty(64), depth, "a broken file"),
                number
            );
            assert_eq!(same_start(&file, &dirty(3), depth, "a broken file"), number);
        }
    }
}

#[test]
fn random_frames() {
    let (file, mut random) = (file(), Random::new(51));
    let mut seen = [0, 0];
    for _ in 0..20_000 {
        let depth = random.below(66);
        let mut frames = vec![Frame::default(); 64];
        for frame in &mut frames[..depth.min(64)] {
            frame.equation = random.below(4) as u8;
            if frame.equation != 1 {
                frame.values[0] = random.below(3) as u8;
            }
        }
        if random.one_in(2) {
            let at = random.below(64);
            let byte = random.below(5);
            let value = random.below(4) as u8;
            match byte {
                0 => frames[at].equation = value,
                _ => frames[at].values[byte - 1] = value,
            }
        }
        let (number, _) = same(
            &file,
            &frames,
            depth,
            random.below(4) as u64,
            "random frames",
        );
        seen[usize::from(number == 15)] += 1;
    }
    assert!(seen.iter().all(|&count| count > 1000), "{seen:?}");
}
