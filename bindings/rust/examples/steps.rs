//! The first steps of a sheet, one a line: number, label, depth of the stack after it. `cargo run --example steps SHEET`

use std::error::Error;

fn main() -> Result<(), Box<dyn Error>> {
    let name = std::env::args().nth(1).ok_or("usage: steps SHEET")?;
    let table = wizbratel::Table::make(&std::fs::read(name)?)?;
    for step in table.start().steps() {
        let (label, next) = step.way?;
        println!("{} {label} {}", step.k, next.depth());
    }
    Ok(())
}
