//! Examples that fail a question or pass it: how each is shown, and how it is put to the library.

use wizbratel::{make_into, Frame, Refused, Table};

use crate::frames;

/// The sheet whose table file is changed.
const PLAIN: &str = "act a;proc X=a.X;init X;";

/// What is put to the library.
pub enum Example {
    /// A sheet.
    Sheet(&'static str),
    /// A sheet with so many blanks behind it.
    Blanks(&'static str, usize),
    /// A sheet, and the bytes lent for its table file.
    Room(&'static str, usize),
    /// The plain sheet's table file, changed; what was done to it in words.
    File(&'static str, fn(&mut Vec<u8>)),
    /// A sheet whose table is printed.
    Printed(&'static str),
    /// Step 0 of a sheet's table and a stack of so many frames of one equation.
    Asked(&'static str, u8, usize),
}

impl Example {
    /// The example in lines.
    pub fn shown(&self) -> Vec<String> {
        match *self {
            Example::Sheet(sheet) => vec![sheet.to_string()],
            Example::Blanks(sheet, blanks) => {
                vec![sheet.to_string(), format!("and {blanks} blanks behind it")]
            }
            Example::Room(sheet, room) => {
                vec![sheet.to_string(), format!("with an output of {room} bytes")]
            }
            Example::File(change, _) => vec![format!("the table file of  {PLAIN}"), change.into()],
            Example::Printed(sheet) => {
                vec![sheet.to_string(), "its table printed as a sheet".into()]
            }
            Example::Asked(sheet, equation, depth) => {
                let hex = frames::hex(&[frame(equation)]);
                let times = match depth {
                    1 => "once".to_string(),
                    _ => format!("{depth} times"),
                };
                let asked = format!("its table asked for step 0 with the frame {hex} {times}");
                vec![sheet.to_string(), asked]
            }
        }
    }

    /// What the library says of it.
    pub fn put(&self) -> Result<(), Refused> {
        match *self {
            Example::Sheet(sheet) => Table::make(sheet.as_bytes()).map(|_| ()),
            Example::Blanks(sheet, blanks) => {
                let sheet = format!("{sheet}{:blanks$}", "");
                Table::make(sheet.as_bytes()).map(|_| ())
            }
            Example::Room(sheet, room) => {
                make_into(sheet.as_bytes(), &mut vec![0; room]).map(|_| ())
            }
            Example::File(_, change) => {
                let mut file = Table::make(PLAIN.as_bytes())?.file().to_vec();
                change(&mut file);
                Table::read(&file).map(|_| ())
            }
            Example::Printed(sheet) => Table::make(sheet.as_bytes())?.print().map(|_| ()),
            Example::Asked(sheet, equation, depth) => {
                let table = Table::make(sheet.as_bytes())?;
                let stack = table.stack(&vec![frame(equation); depth])?;
                stack.ask(0).map(|_| ())
            }
        }
    }
}

/// A frame of an equation, all values 0.
fn frame(equation: u8) -> Frame {
    let values = [0; 4];
    Frame { equation, values }
}
