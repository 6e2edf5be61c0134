//! The stream of a table file, taken apart to be shown. The library has accepted the file; nothing is decided here.

/// Bytes of a block, and where its part of the stream stands.
const BLOCK: usize = 512;
const PART: std::ops::Range<usize> = 4..510;

/// The first byte of a stream that names its sorts.
pub const NAMED: u8 = 0xf2;

const TAU: u8 = 0xff;

/// The stream bytes of all blocks of a table file, with the zeros behind it.
pub fn stream(file: &[u8]) -> Vec<u8> {
    let blocks = file.chunks_exact(BLOCK);
    blocks.flat_map(|block| &block[PART]).copied().collect()
}

/// A linear table. Sorts, functions, actions, equations and variables are numbers.
#[derive(Debug, PartialEq, Eq)]
pub struct Linear {
    /// The names of the sorts, Bool first; in the earlier layout empty.
    pub sorts: Vec<String>,
    /// How many functions there are.
    pub functions: usize,
    pub actions: Vec<Action>,
    pub equations: Vec<Equation>,
    pub start: Call,
}

#[derive(Debug, PartialEq, Eq)]
pub struct Action {
    pub name: String,
    arguments: usize,
}

#[derive(Debug, PartialEq, Eq)]
pub struct Equation {
    /// The sorts of the parameters.
    pub parameters: Vec<usize>,
    pub summands: Vec<Summand>,
}

#[derive(Debug, PartialEq, Eq)]
pub struct Summand {
    /// The sorts of the sum variables.
    pub sums: Vec<usize>,
    /// Terms, each with the value that is wanted of it.
    pub conditions: Vec<(u8, Term)>,
    /// None for tau.
    pub action: Option<usize>,
    pub data: Vec<Term>,
    pub calls: Vec<Call>,
}

#[derive(Debug, PartialEq, Eq)]
pub struct Call {
    pub equation: usize,
    pub data: Vec<Term>,
}

#[derive(Debug, PartialEq, Eq)]
pub enum Term {
    Value(u8),
    Variable(usize),
    Apply(usize, Vec<Term>),
    Not(Box<Term>),
    /// Two terms with `==`, `/\` or `\/` between.
    Joined(&'static str, Box<[Term; 2]>),
}

impl Linear {
    /// The table of a file; none where the bytes are no table's.
    pub fn of(file: &[u8]) -> Option<Linear> {
        let bytes = stream(file);
        let mut reader = Reader {
            rest: &bytes,
            sizes: Vec::new(),
            functions: Vec::new(),
            actions: Vec::new(),
            parameters: Vec::new(),
        };
        let sorts = reader.sorts()?;
        reader.functions = reader.each(Reader::function)?;
        reader.actions = reader.each(Reader::action)?;
        reader.parameters = reader.each(|reader| reader.each(Reader::number))?;
        let count = reader.parameters.len();
        let summands = reader.times(count, |reader| reader.each(Reader::summand))?;
        let start = reader.call()?;
        let equations = reader.parameters.into_iter().zip(summands);
        let equations = equations.map(|(parameters, summands)| Equation {
            parameters,
            summands,
        });
        Some(Linear {
            sorts,
            functions: reader.functions.len(),
            actions: reader.actions,
            equations: equations.collect(),
            start,
        })
    }
}

/// What is left of a stream, and what must be known to read it.
struct Reader<'b> {
    rest: &'b [u8],
    sizes: Vec<usize>,
    functions: Vec<usize>,
    actions: Vec<Action>,
    parameters: Vec<Vec<usize>>,
}

impl Reader<'_> {
    fn byte(&mut self) -> Option<u8> {
        let (first, rest) = self.rest.split_first()?;
        self.rest = rest;
        Some(*first)
    }

    fn number(&mut self) -> Option<usize> {
        self.byte().map(usize::from)
    }

    /// So many of something.
    fn times<T>(&mut self, count: usize, read: fn(&mut Self) -> Option<T>) -> Option<Vec<T>> {
        (0..count).map(|_| read(self)).collect()
    }

    /// A count, and so many of something.
    fn each<T>(&mut self, read: fn(&mut Self) -> Option<T>) -> Option<Vec<T>> {
        let count = self.number()?;
        self.times(count, read)
    }

    fn name(&mut self) -> Option<String> {
        String::from_utf8(self.each(Reader::byte)?).ok()
    }

    /// The names of the sorts; their sizes are kept.
    fn sorts(&mut self) -> Option<Vec<String>> {
        if self.rest.first() != Some(&NAMED) {
            self.sizes = self.each(Reader::number)?;
            return Some(vec![String::new(); self.sizes.len()]);
        }
        self.byte()?;
        let sorts = self.each(|reader| Some((reader.number()?, reader.name()?)))?;
        let (sizes, names) = sorts.into_iter().unzip();
        self.sizes = sizes;
        Some(names)
    }

    /// How many arguments a function takes; its result and its values are passed over.
    fn function(&mut self) -> Option<usize> {
        let arguments = self.each(Reader::number)?;
        self.number()?;
        let sizes = arguments.iter().map(|sort| self.sizes.get(*sort));
        let values: usize = sizes.map(Option::<&usize>::cloned).product::<Option<_>>()?;
        self.times(values, Reader::byte)?;
        Some(arguments.len())
    }

    fn action(&mut self) -> Option<Action> {
        let name = self.name()?;
        let arguments = self.each(Reader::number)?.len();
        Some(Action { name, arguments })
    }

    fn summand(&mut self) -> Option<Summand> {
        let sums = self.each(Reader::number)?;
        let conditions = self.each(|reader| Some((reader.byte()?, reader.term()?)))?;
        let action = match self.byte()? {
            TAU => None,
            number => Some(usize::from(number)),
        };
        let arguments = match action {
            Some(number) => self.actions.get(number)?.arguments,
            None => 0,
        };
        Some(Summand {
            sums,
            conditions,
            action,
            data: self.times(arguments, Reader::term)?,
            calls: self.each(Reader::call)?,
        })
    }

    fn call(&mut self) -> Option<Call> {
        let equation = self.number()?;
        let count = self.parameters.get(equation)?.len();
        let data = self.times(count, Reader::term)?;
        Some(Call { equation, data })
    }

    fn term(&mut self) -> Option<Term> {
        Some(match self.byte()? {
            value @ 0..=0x1f => Term::Value(value),
            variable @ 0x20..=0x3f => Term::Variable(usize::from(variable - 0x20)),
            function @ 0x40..=0x5f => {
                let function = usize::from(function - 0x40);
                let count = *self.functions.get(function)?;
                Term::Apply(function, self.times(count, Reader::term)?)
            }
            0x60 => Term::Not(Box::new(self.term()?)),
            0x61 => {
                self.byte()?;
                self.joined("==")?
            }
            0x62 => self.joined("/\\")?,
            0x63 => self.joined("\\/")?,
            _ => return None,
        })
    }

    fn joined(&mut self, mark: &'static str) -> Option<Term> {
        let sides = Box::new([self.term()?, self.term()?]);
        Some(Term::Joined(mark, sides))
    }
}

#[cfg(test)]
mod tests {
    use super::*;

    /// A file of one block with this stream.
    fn file(stream: &[u8]) -> Vec<u8> {
        let mut file = vec![0; BLOCK];
        file[PART][..stream.len()].copy_from_slice(stream);
        file
    }

    /// The sheet of docs/LAYOUTS.md, `proc X(d:D)=sum(e:D,a(d).a(e).X(e))<|low(d)|>tau.X(1)`, from its functions on.
    const REST: &[u8] = b"\x01\x01\x01\x00\x01\x01\x00\x01\x01a\x01\x01\x02\x01\x01\x01\x01\
        \x02\x01\x01\x01\x01\x40\x20\x00\x20\x02\x01\x21\x00\x21\x00\x01\x00\x40\x20\xff\x01\x00\x01\
        \x01\x00\x00\x00\x20\x00\x00\x01";

    #[test]
    fn both_layouts() {
        let named = [&b"\xf2\x02\x02\x04Bool\x03\x01D"[..], REST].concat();
        let earlier = [&b"\x02\x02\x03"[..], REST].concat();
        let table = Linear::of(&file(&named)).unwrap();
        assert_eq!(table.sorts, ["Bool", "D"]);
        assert_eq!((table.functions, &table.actions[0].name[..]), (1, "a"));
        let counts = table
            .equations
            .iter()
            .map(|equation| equation.summands.len());
        assert_eq!(counts.collect::<Vec<_>>(), [2, 1]);
        let (variable, low) = (Term::Variable, |term| Term::Apply(0, vec![term]));
        let first = &table.equations[0].summands[0];
        assert_eq!((&first.sums[..], first.action), (&[1][..], Some(0)));
        assert_eq!(first.conditions, [(1, low(variable(0)))]);
        let call = |equation, data| Call { equation, data };
        let calls = [call(1, vec![variable(1)]), call(0, vec![variable(1)])];
        assert_eq!(first.calls, calls);
        assert_eq!(table.start, call(0, vec![Term::Value(1)]));
        let other = Linear::of(&file(&earlier)).unwrap();
        assert_eq!(other.sorts, ["", ""]);
        assert_eq!(other.equations, table.equations);
    }

    #[test]
    fn what_is_no_stream() {
        assert_eq!(Linear::of(b""), None);
        assert_eq!(
            Linear::of(&file(b"\x01\x02\x00\x00\x01\x00\x01\x00\x00\x07")),
            None
        );
    }
}
