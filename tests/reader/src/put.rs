//! Values put for variables in a part, which makes closed terms of open ones.

use crate::sheet::{Choice, Conditional, Part, PartKind, Sequence};
use crate::signature::{Data, Signature};

/// Puts values for variables; data that is closed then is evaluated.
pub(crate) struct Put<'k> {
    pub(crate) signature: &'k Signature,
    /// The value of each variable in scope, where it is put in.
    pub(crate) known: &'k [Option<u8>],
}

impl Put<'_> {
    pub(crate) fn choice(&self, choice: &Choice) -> Choice {
        let put = |conditional: &Conditional| match conditional {
            Conditional::Sequence(parts) => Conditional::Sequence(self.sequence(parts)),
            Conditional::Test { yes, test, no } => Conditional::Test {
                yes: self.sequence(yes),
                test: self.data(test),
                no: self.sequence(no),
            },
        };
        choice.iter().map(put).collect()
    }

    fn sequence(&self, parts: &Sequence) -> Sequence {
        parts.iter().map(|part| self.part(part)).collect()
    }

    pub(crate) fn part(&self, part: &Part) -> Part {
        let kind = match &part.kind {
            PartKind::Delta => PartKind::Delta,
            PartKind::Tau => PartKind::Tau,
            PartKind::Action(action, data) => PartKind::Action(*action, self.data_list(data)),
            PartKind::Call(process, data) => PartKind::Call(*process, self.data_list(data)),
            PartKind::Sum {
                variable,
                sort,
                body,
            } => PartKind::Sum {
                variable: *variable,
                sort: *sort,
                body: self.choice(body),
            },
            PartKind::Brackets(choice) => PartKind::Brackets(self.choice(choice)),
        };
        let place = part.place;
        Part { place, kind }
    }

    fn data_list(&self, data: &[Data]) -> Vec<Data> {
        data.iter().map(|d| self.data(d)).collect()
    }

    fn data(&self, data: &Data) -> Data {
        match data {
            Data::Variable(variable) => match self.known.get(*variable) {
                Some(Some(value)) => Data::Value(*value),
                _ => Data::Variable(*variable),
            },
            // Grouped to the left, so what is closed in front has a value of its own.
            Data::Joined(joint, chain) => {
                let joined = |left, right| self.evaluated(Data::joined(*joint, left, right));
                let put = chain.iter().map(|part| self.data(part));
                put.reduce(joined).expect("a chain has parts")
            }
            _ => self.evaluated(data.over(self.data_list(data.parts()))),
        }
    }

    /// Data over values alone is a value.
    fn evaluated(&self, data: Data) -> Data {
        let is_value = |part: &Data| matches!(part, Data::Value(_));
        if data.parts().iter().all(is_value) {
            Data::Value(self.signature.value(&data, &[]))
        } else {
            data
        }
    }
}
