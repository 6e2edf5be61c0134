//! Times the proved library beside the other reader in one run and prints the ratios:
//! `cargo run --release --offline --bin bench [WORD ..]`, with words only the parts that they name (crc, check, make,
//! print, ask, dear).
//! On a busy machine the calls of several milliseconds come out too long, the reader's of 128 blocks above all: its ratio
//! is then too good.

use std::hint::black_box;
use std::time::Duration;

use library::common::{operators, slow, worst, Case};
use library::large::large_file;
use library::printing::{printings, Printing};
use library::questions::{dearest, dearest_tables, going_on, largest, smallest, usual, Question};
use library::stepping::{Answer, Frame, ANSWER};
use library::timing::{compare, compare_each, least};
use library::{asked, sheets, stepping};

/// What eight shifts make of a register with this byte at its top.
const fn shifted(byte: usize) -> u16 {
    let mut register = (byte as u16) << 8;
    let mut shifts = 0;
    while shifts < 8 {
        let carry = register & 0x8000 != 0;
        register = (register << 1) ^ if carry { 0x1021 } else { 0 };
        shifts += 1;
    }
    register
}

static SHIFTED: [u16; 256] = {
    let mut table = [0; 256];
    let mut byte = 0;
    while byte < 256 {
        table[byte] = shifted(byte);
        byte += 1;
    }
    table
};

/// The usual CRC-16 by a table of 256 entries: a fairer rival than the reader's, which goes bit by bit.
fn table_crc(bytes: &[u8]) -> u16 {
    bytes.iter().fold(0xffff, |crc: u16, &byte| {
        (crc << 8) ^ SHIFTED[usize::from((crc >> 8) as u8 ^ byte)]
    })
}

fn bench_crc(length: usize) {
    let bytes: Vec<u8> = (0..length).map(|i| (i * 7 + i / 256) as u8).collect();
    assert_eq!(library::crc(&bytes), reader::crc16(&bytes));
    assert_eq!(library::crc(&bytes), table_crc(&bytes));
    let what = format!("CRC of {length} bytes");
    let proved = || {
        black_box(library::crc(black_box(&bytes)));
    };
    compare(&what, proved, "reader", || {
        black_box(reader::crc16(black_box(&bytes)));
    });
    compare(&what, proved, "table", || {
        black_box(table_crc(black_box(&bytes)));
    });
}

fn bench_table(file: &[u8]) {
    assert_eq!(library::check_table(file), 0);
    let blocks = file.len() / 512;
    compare(
        &format!("check a table, blocks: {blocks}"),
        || {
            black_box(library::check_table(black_box(file)));
        },
        "reader",
        || {
            let _ = black_box(reader::read_table(black_box(file)));
        },
    );
}

/// Questions 1 to 10; the reader's file is left out of its time.
fn bench_check(what: &str, sheet: &[u8]) -> Duration {
    let read = |sheet| reader::check_sheet(sheet).and_then(|sheet| reader::linear_table(&sheet));
    let wanted = read(sheet).err().unwrap_or(0);
    assert_eq!(library::check_sheet(sheet), wanted, "{what}");
    compare(
        &format!("check {what}"),
        || {
            black_box(library::check_sheet(black_box(sheet)));
        },
        "reader",
        || {
            let _ = black_box(read(black_box(sheet)));
        },
    )
}

/// Questions 1 to 11, into an output that is long enough.
fn bench_make(what: &str, sheet: &[u8]) -> Duration {
    let wanted = reader::make_table(sheet).err().unwrap_or(0);
    let mut out = vec![0; reader::limits::FILE_BYTES];
    let mut written = 0;
    assert_eq!(
        library::make_table(sheet, &mut out, &mut written),
        wanted,
        "{what}"
    );
    let answer = if wanted == 0 {
        format!("{written} bytes")
    } else {
        format!("refused {wanted}")
    };
    compare(
        &format!("make {what} ({answer})"),
        || {
            black_box(library::make_table(
                black_box(sheet),
                &mut out,
                &mut written,
            ));
        },
        "reader",
        || {
            let _ = black_box(reader::make_table(black_box(sheet)));
        },
    )
}

type Bench = fn(&str, &[u8]) -> Duration;

/// Sheets of 25, 500 and 4,096 bytes, the dearest ones, and the longest time of any.
fn bench_sheets(bench: Bench, dearest: Vec<Case>) {
    let mut longest = Duration::ZERO;
    for sheet in sheets::accepted() {
        let what = format!("a sheet of {} bytes", sheet.len());
        longest = longest.max(bench(&what, sheet.as_bytes()));
    }
    for case in dearest {
        longest = longest.max(bench(&case.what, &case.sheet));
    }
    println!("longest of these: {longest:.2?}");
}

/// Questions 12 to 14, 17 and 11, into an output that is long enough.
fn bench_print(Printing { what, file }: Printing) {
    let mut out = vec![0; reader::limits::SHEET_BYTES];
    let mut written = 0;
    let wanted = reader::print_table(&file).err().unwrap_or(0);
    let number = library::print_table(&file, &mut out, &mut written);
    assert_eq!(number, wanted, "{what}");
    compare(
        &format!("print {what} ({} blocks)", file.len() / 512),
        || {
            black_box(library::print_table(
                black_box(&file),
                &mut out,
                &mut written,
            ));
        },
        "reader",
        || {
            let _ = black_box(reader::print_table(black_box(&file)));
        },
    );
}

/// The walk's text, into an output that is long enough.
fn bench_walk(sheet: &str) {
    let wanted = reader::walk(sheet.as_bytes());
    let mut out = [0; 256];
    let length = library::walk(sheet.as_bytes(), &mut out);
    assert_eq!(&out[..length], wanted.as_bytes());
    compare(
        &format!("walk a sheet of {} bytes", sheet.len()),
        || {
            black_box(library::walk(black_box(sheet.as_bytes()), &mut out));
        },
        "reader",
        || {
            black_box(reader::walk(black_box(sheet.as_bytes())));
        },
    );
}

/// The reader's frames of the library's.
fn reader_frames(frames: &[Frame]) -> Vec<reader::Frame> {
    frames.iter().map(|&frame| frame.into()).collect()
}

/// One question from a file, the frames put back each time.
fn bench_ask(question: &Question) -> Duration {
    let Question {
        what,
        file,
        frames,
        k,
    } = question;
    let ours = asked::same(file, frames, 1, *k, what);
    let others = reader_frames(frames);
    let mut answer = Answer::plain(0);
    let mut lent = frames.clone();
    compare(
        &format!("ask {what} ({ours:?})"),
        || {
            lent.copy_from_slice(frames);
            let mut depth = 1;
            black_box(stepping::ask(
                black_box(file),
                &mut lent,
                &mut depth,
                *k,
                &mut answer,
            ));
        },
        "reader",
        || {
            black_box(reader::ask(black_box(file), &others, 1, *k));
        },
    )
}

/// A list of a thousand questions: the time of each. The reader reads the file once too.
fn bench_list(what: &str, file: &[u8], start: Frame, questions: &[u64]) {
    let frames = asked::lent(&[start]);
    let room = questions.len() * ANSWER;
    asked::same_all(file, &frames, 1, questions, room, what);
    let others = reader_frames(&frames);
    let mut answers = vec![0; room];
    let mut lent = frames.clone();
    compare_each(
        &format!("ask a list of {}, each: {what}", questions.len()),
        questions.len() as u32,
        || {
            lent.copy_from_slice(&frames);
            let mut depth = 1;
            stepping::ask_all(
                black_box(file),
                &mut lent,
                &mut depth,
                questions,
                &mut answers,
            );
            black_box(&answers);
        },
        "reader",
        || {
            let table = reader::read_table(black_box(file)).expect("a table");
            let (mut frames, mut depth) = (others.clone(), 1);
            for &k in questions {
                let answer = reader::ask_table(&table, &frames, depth, k);
                if let reader::Answer::Step {
                    depth: next,
                    frames: left,
                    ..
                } = black_box(answer)
                {
                    (frames, depth) = (left, next);
                }
            }
        },
    );
}

/// One question from a file, without the reader.
fn bench_alone(question: &Question) {
    let Question {
        what,
        file,
        frames,
        k,
    } = question;
    let mut answer = Answer::plain(0);
    let mut call = || {
        let (mut lent, mut depth) = (frames.clone(), 1);
        stepping::ask(file, &mut lent, &mut depth, *k, &mut answer);
    };
    let time = least(&mut call, 5);
    println!("ask {what:<66} proved {time:>10.2?}");
}

fn bench_start(what: &str, file: &[u8]) {
    let mut frames = asked::lent(&[]);
    let mut depth = 0;
    compare(
        &format!("start {what}"),
        || {
            black_box(stepping::start(black_box(file), &mut frames, &mut depth));
        },
        "reader",
        || {
            let table = reader::read_table(black_box(file)).expect("a table");
            black_box(table.start_stack());
        },
    );
}

fn bench_asks() {
    bench_start("one block", &smallest());
    bench_start("128 blocks", &largest());
    for question in usual() {
        bench_ask(&question);
    }
    let [first, none] = [vec![0; 1000], vec![9; 1000]];
    bench_list("step 0 of one block", &smallest(), Frame::default(), &first);
    bench_list("none of one block", &smallest(), Frame::default(), &none);
    let sheet = sheets::typical(4096);
    let file = reader::make_table(sheet.as_bytes()).expect("a table");
    let table = reader::read_table(&file).expect("a table");
    let questions = going_on(&file, 1000);
    let start = table.start_stack()[0].into();
    bench_list("steps of a usual sheet", &file, start, &questions);
}

fn main() {
    let words: Vec<String> = std::env::args().skip(1).collect();
    let wanted = |word: &str| words.is_empty() || words.iter().any(|given| given == word);
    if wanted("crc") {
        [510, 65_536].into_iter().for_each(bench_crc);
    }
    if wanted("check") {
        bench_table(&reader::make_table(b"act a;proc X=a.X;init X;").expect("a table"));
        bench_table(&large_file());
        bench_sheets(bench_check, [worst::sheets(), operators::deep()].concat());
    }
    if wanted("make") {
        let dear = [worst::sheets(), slow::sheets(), operators::deep()];
        bench_sheets(bench_make, dear.concat());
    }
    if wanted("walk") {
        sheets::accepted()
            .iter()
            .for_each(|sheet| bench_walk(sheet));
    }
    if wanted("print") {
        printings().into_iter().for_each(bench_print);
        bench_print(Printing {
            what: "a table that is refused by 17",
            file: large_file(),
        });
    }
    if wanted("ask") {
        bench_asks();
    }
    if wanted("dear") {
        bench_ask(&dearest());
        dearest_tables().iter().for_each(bench_alone);
    }
}
