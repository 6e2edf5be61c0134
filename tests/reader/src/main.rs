//! Reads one case a line, bytes in hex, and answers a line each: `reader table`, `reader walk`,
//! `reader readtable` or `reader print`.

#![forbid(unsafe_code)]

use std::io::{self, BufRead, Write};

fn table(sheet: &[u8]) -> String {
    match reader::make_table(sheet) {
        Ok(file) => reader::to_hex(&file),
        Err(number) => format!("refused {number}"),
    }
}

fn walk(sheet: &[u8]) -> String {
    reader::walk(sheet).replace('\n', "/")
}

fn read_table(file: &[u8]) -> String {
    match reader::read_table(file) {
        Ok(_) => "ok".to_string(),
        Err(number) => format!("refused {number}"),
    }
}

fn print(file: &[u8]) -> String {
    match reader::print_table(file) {
        Ok(text) => text,
        Err(number) => format!("refused {number}"),
    }
}

fn main() -> io::Result<()> {
    let answer: fn(&[u8]) -> String = match std::env::args().nth(1).as_deref() {
        Some("table") => table,
        Some("walk") => walk,
        Some("readtable") => read_table,
        Some("print") => print,
        _ => return Err(io::Error::other("usage: reader table|walk|readtable|print")),
    };
    let mut output = io::stdout().lock();
    for line in io::stdin().lock().lines() {
        let bytes = reader::from_hex(line?.trim());
        let bytes = bytes.ok_or_else(|| io::Error::other("a line is not bytes in hex"))?;
        writeln!(output, "{}", answer(&bytes))?;
    }
    Ok(())
}
