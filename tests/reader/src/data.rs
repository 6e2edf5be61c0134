//! Data: values, variables, functions and operators. A run of `!` and a chain of one joint are one
//! node of the tree, so that data is never deeper than its brackets allow, and data is equal
//! exactly where its nodes in prefix order are.

/// The sort of a `==` that a text puts between two numerals: none, which question 8 refuses.
pub const NO_SORT: usize = usize::MAX;

/// The operators that group to the left.
#[derive(Clone, Copy, Debug, PartialEq, Eq, Hash)]
pub enum Joint {
    /// `/\`.
    And,
    /// `\/`.
    Or,
}

/// Data: in a sheet the variables are numbered by scope, outermost first; in a summand the
/// parameters come first, then the sum variables.
#[derive(Clone, Debug, PartialEq, Eq, Hash)]
pub enum Data {
    /// A value of the sort that its place needs.
    Value(u8),
    /// A variable.
    Variable(usize),
    /// A function and its arguments.
    Apply(usize, Vec<Data>),
    /// So many `!` before data that has none in front.
    Not(usize, Box<Data>),
    /// The sort of both sides of a `==`, and the sides.
    Equal(usize, Box<[Data; 2]>),
    /// Two or more data with this joint between, of which the first has another one, or none.
    Joined(Joint, Vec<Data>),
}

impl Data {
    /// The data with so many more `!` before it.
    pub fn not(count: usize, data: Data) -> Data {
        match data {
            Data::Not(more, inner) => Data::Not(count + more, inner),
            other => Data::Not(count, Box::new(other)),
        }
    }

    /// Two data of this sort compared.
    pub fn equal(sort: usize, left: Data, right: Data) -> Data {
        Data::Equal(sort, Box::new([left, right]))
    }

    /// Two data joined; a chain on the left goes on.
    pub fn joined(joint: Joint, left: Data, right: Data) -> Data {
        match left {
            Data::Joined(of, mut chain) if of == joint => {
                chain.push(right);
                Data::Joined(joint, chain)
            }
            other => Data::Joined(joint, vec![other, right]),
        }
    }

    /// A list of two or more joined, grouped to the left.
    pub fn chain(joint: Joint, parts: Vec<Data>) -> Data {
        let joined = |left, right| Data::joined(joint, left, right);
        parts.into_iter().reduce(joined).expect("a chain has parts")
    }

    /// What its function or its operators stand over.
    pub fn parts(&self) -> &[Data] {
        match self {
            Data::Value(_) | Data::Variable(_) => &[],
            Data::Apply(_, arguments) => arguments,
            Data::Not(_, inner) => std::slice::from_ref(inner),
            Data::Equal(_, sides) => &sides[..],
            Data::Joined(_, chain) => chain,
        }
    }

    /// The same function or operators over other parts.
    pub fn over(&self, parts: Vec<Data>) -> Data {
        match self {
            Data::Value(_) | Data::Variable(_) => self.clone(),
            Data::Apply(function, _) => Data::Apply(*function, parts),
            Data::Not(count, _) => {
                let [inner] = exactly(parts);
                Data::not(*count, inner)
            }
            Data::Equal(sort, _) => {
                let [left, right] = exactly(parts);
                Data::equal(*sort, left, right)
            }
            Data::Joined(joint, _) => Data::chain(*joint, parts),
        }
    }

    /// The number of nodes: values, variables, functions and operators. A sort is none.
    pub fn nodes(&self) -> usize {
        self.own_nodes() + self.parts().iter().map(Data::nodes).sum::<usize>()
    }

    /// The nodes that are none of its parts'.
    pub fn own_nodes(&self) -> usize {
        match self {
            Data::Value(_) | Data::Variable(_) | Data::Apply(..) | Data::Equal(..) => 1,
            Data::Not(count, _) => *count,
            Data::Joined(_, chain) => chain.len() - 1,
        }
    }

    /// The variables in it, as bits.
    pub fn variables(&self) -> u32 {
        match self {
            Data::Variable(index) => 1 << index,
            _ => all_variables(self.parts()),
        }
    }
}

/// The variables in a list of data, as bits.
pub fn all_variables(data: &[Data]) -> u32 {
    data.iter().fold(0, |bits, d| bits | d.variables())
}

fn exactly<const N: usize>(parts: Vec<Data>) -> [Data; N] {
    parts.try_into().expect("as many parts as before")
}
