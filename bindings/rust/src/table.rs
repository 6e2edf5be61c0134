//! Sheets, tables and table files.

use std::fmt;
use std::str::FromStr;
use std::sync::Arc;

use crate::stack::{Held, Stack};
use crate::sys::{self, Frame, FRAMES, MAX_FILE, MAX_SHEET};
use crate::Refused;

/// Checks a sheet: it is accepted exactly if its table can be made.
///
/// # Errors
///
/// The first of the questions 1 to 10 that the sheet fails.
///
/// ```
/// assert!(wizbratel::check(b"act a; proc X = a.X; init X;").is_ok());
/// assert_eq!(wizbratel::check(b"").unwrap_err().number(), 5);
/// ```
pub fn check(sheet: &[u8]) -> Result<(), Refused> {
    Refused::unless_zero(sys::check_sheet(sheet))
}

/// The walk of a sheet, step 0 up to 8 times: a line for each step with its number, the label and the depth after it,
/// then `ended`, `more` or `stuck`; or `refused` and the number of the question that the sheet fails.
///
/// ```
/// assert_eq!(wizbratel::walk(b"act a; proc X = a; init X;"), "1 a 0\nended\n");
/// assert_eq!(wizbratel::walk(b""), "refused 5\n");
/// ```
#[must_use]
pub fn walk(sheet: &[u8]) -> String {
    let mut text = [0; sys::MAX_WALK];
    let length = sys::walk(sheet, &mut text);
    String::from_utf8_lossy(&text[..length]).into_owned()
}

/// Makes a sheet's table file over the front of an output, and says how long it is. What is behind it in the output
/// stays, and a refusal leaves all of it. An output of [`MAX_FILE`] bytes is never too short.
///
/// # Errors
///
/// The first of the questions 1 to 11 that fails.
///
/// ```
/// let mut out = [0; 512];
/// let sheet = b"act a; proc X = a.X; init X;";
/// assert_eq!(wizbratel::make_into(sheet, &mut out), Ok(512));
/// assert_eq!(wizbratel::make_into(sheet, &mut out[..511]).unwrap_err().number(), 11);
/// ```
pub fn make_into(sheet: &[u8], out: &mut [u8]) -> Result<usize, Refused> {
    let mut written = 0;
    Refused::unless_zero(sys::make_table(sheet, out, &mut written))?;
    Ok(written)
}

/// A table, held as its file.
///
/// `parse` makes it of a sheet's text, and `try_from` reads a file:
///
/// ```
/// use wizbratel::Table;
/// let table: Table = "act a; proc X = a.X; init X;".parse()?;
/// assert_eq!(Table::try_from(table.file().to_vec())?, table);
/// # Ok::<(), wizbratel::Refused>(())
/// ```
#[derive(Clone, PartialEq, Eq, Hash)]
pub struct Table {
    file: Box<[u8]>,
}

impl Table {
    /// Makes the table of a sheet.
    ///
    /// # Errors
    ///
    /// The first of the questions 1 to 10 that the sheet fails.
    ///
    /// ```
    /// let table = wizbratel::Table::make(b"act a; proc X = a.X; init X;")?;
    /// assert_eq!(table.file().len(), 512);
    /// # Ok::<(), wizbratel::Refused>(())
    /// ```
    pub fn make(sheet: &[u8]) -> Result<Table, Refused> {
        let mut file = vec![0; MAX_FILE];
        let written = make_into(sheet, &mut file)?;
        let file = file[..written].into();
        Ok(Table { file })
    }

    /// Reads a table file.
    ///
    /// # Errors
    ///
    /// The first of the questions 12 to 14 that the file fails.
    ///
    /// ```
    /// use wizbratel::Table;
    /// let table = Table::make(b"act a; proc X = a.X; init X;")?;
    /// assert_eq!(Table::read(table.file())?, table);
    /// assert_eq!(Table::read(&table.file()[1..]).unwrap_err().number(), 12);
    /// # Ok::<(), wizbratel::Refused>(())
    /// ```
    pub fn read(file: &[u8]) -> Result<Table, Refused> {
        Table::try_from(file.to_vec())
    }

    /// The table file: whole blocks of 512 bytes.
    #[must_use]
    pub fn file(&self) -> &[u8] {
        &self.file
    }

    /// Prints the table as a sheet, whose table is this one byte for byte. Functions, processes and variables are named
    /// by a letter and a number. A table that was filed without the names of its sorts has them named so too, and the
    /// sheet's table has these names.
    ///
    /// # Errors
    ///
    /// Question 17, if the text is no sheet.
    ///
    /// ```
    /// use wizbratel::Table;
    /// let table = Table::make(b"sort D 3; act in: D; proc Get = sum(d: D, in(d).Get); init Get;")?;
    /// let text = table.print()?;
    /// assert_eq!(text, "sort D 3;act in:D;proc p0=sum(v0:D,in(v0).p0);init p0;");
    /// assert_eq!(Table::make(text.as_bytes())?, table);
    /// # Ok::<(), wizbratel::Refused>(())
    /// ```
    pub fn print(&self) -> Result<String, Refused> {
        let mut text = [0; MAX_SHEET];
        let length = self.print_into(&mut text)?;
        Ok(String::from_utf8_lossy(&text[..length]).into_owned())
    }

    /// Prints the table over the front of an output, and says how long the text is. What is behind it in the output
    /// stays, and a refusal leaves all of it. An output of [`MAX_SHEET`] bytes is never too short.
    ///
    /// # Errors
    ///
    /// Question 17, if the text is no sheet, then 11, if the output is too short.
    ///
    /// ```
    /// let table = wizbratel::Table::make(b"act a; proc X = a.X; init X;")?;
    /// let mut out = [0; 27];
    /// assert_eq!(table.print_into(&mut out), Ok(27));
    /// assert_eq!(&out, b"act a;proc p0=a.p0;init p0;");
    /// assert_eq!(table.print_into(&mut out[..26]).unwrap_err().number(), 11);
    /// # Ok::<(), wizbratel::Refused>(())
    /// ```
    pub fn print_into(&self, out: &mut [u8]) -> Result<usize, Refused> {
        let mut written = 0;
        Refused::unless_zero(sys::print_table(&self.file, out, &mut written))?;
        Ok(written)
    }

    /// The stack with which the table starts, of one frame.
    #[must_use]
    pub fn start(&self) -> Stack<'_> {
        started(Held::Lent(self))
    }

    /// The stack with which the table starts, which owns the table.
    #[must_use]
    pub fn into_start(self) -> Stack<'static> {
        started(Held::Owned(Arc::new(self)))
    }

    /// The stack of these frames, the bottom first and the top last.
    ///
    /// # Errors
    ///
    /// Question 15, if they are no stack of this table.
    ///
    /// ```
    /// use wizbratel::{Frame, Table};
    /// let table = Table::make(b"act a; proc X = a.X; init X;")?;
    /// let two = table.stack(&[Frame::default(); 2])?;
    /// assert_eq!(two.depth(), 2);
    /// let wrong = Frame { equation: 1, values: [0; 4] };
    /// assert_eq!(table.stack(&[wrong]).unwrap_err().number(), 15);
    /// # Ok::<(), wizbratel::Refused>(())
    /// ```
    pub fn stack(&self, used: &[Frame]) -> Result<Stack<'_>, Refused> {
        let mut depth = used.len();
        let mut lent = used.to_vec();
        // more frames than a stack has are lent as they are: it is the library that refuses them
        lent.resize(FRAMES.max(depth), Frame::default());
        // a list of no questions puts 12 to 15
        Refused::unless_zero(sys::ask_all(
            &self.file,
            &mut lent,
            &mut depth,
            &[],
            &mut [],
        ))?;
        let mut frames = [Frame::default(); FRAMES];
        frames.copy_from_slice(&lent);
        Ok(Stack::new(Held::Lent(self), &frames, depth))
    }
}

/// The stack of one frame with which a table starts.
fn started(table: Held<'_>) -> Stack<'_> {
    let (mut frames, mut depth) = ([Frame::default(); FRAMES], 0);
    promised(sys::start(table.file(), &mut frames, &mut depth));
    Stack::new(table, &frames, depth)
}

impl FromStr for Table {
    type Err = Refused;

    /// Makes the table of a sheet's text.
    fn from_str(sheet: &str) -> Result<Table, Refused> {
        Table::make(sheet.as_bytes())
    }
}

impl TryFrom<&[u8]> for Table {
    type Error = Refused;

    /// Reads a table file.
    fn try_from(file: &[u8]) -> Result<Table, Refused> {
        Table::read(file)
    }
}

impl TryFrom<Vec<u8>> for Table {
    type Error = Refused;

    /// Reads a table file, whose bytes the table keeps.
    fn try_from(file: Vec<u8>) -> Result<Table, Refused> {
        Refused::unless_zero(sys::check_table(&file))?;
        let file = file.into();
        Ok(Table { file })
    }
}

impl fmt::Debug for Table {
    fn fmt(&self, f: &mut fmt::Formatter<'_>) -> fmt::Result {
        write!(f, "Table({} bytes)", self.file.len())
    }
}

/// The library's number where it is proved to be 0: a table that was made or read passes 12 to 14, and the frames that
/// it leaves pass 15 again.
pub(crate) fn promised(number: u8) {
    assert_eq!(
        number, 0,
        "the library refuses a table or a stack of its own"
    );
}
