//! Values for a summand's sum variables, last variable fastest, that meet its conditions.

use std::collections::HashMap;

use crate::stack::Frame;
use crate::table::{Summand, Table};

/// Values found one variable after another; each condition is tested as soon as its variables
/// have values.
pub(crate) struct Search<'t> {
    table: &'t Table,
    summand: &'t Summand,
    parameters: usize,
    /// Values of the parameters, then of the sum variables known so far.
    values: Vec<u8>,
    /// For each condition, how many sum variables must be known for its test.
    needs: Vec<usize>,
    /// How many completions some known values have, by what later conditions look at.
    counted: HashMap<(usize, Vec<u8>), u64>,
}

impl<'t> Search<'t> {
    /// The search for the steps that a summand gives to a top frame.
    pub(crate) fn new(table: &'t Table, top: &Frame, summand: &'t Summand) -> Self {
        let equation = &table.equations[usize::from(top.equation)];
        let parameters = equation.parameters.len();
        let last_variable = |bits: u32| u32::BITS - (bits >> parameters).leading_zeros();
        let conditions = summand.conditions.iter();
        let needs = conditions.map(|condition| last_variable(condition.data.variables()) as usize);
        Search {
            table,
            summand,
            parameters,
            values: top.values[..parameters].to_vec(),
            needs: needs.collect(),
            counted: HashMap::new(),
        }
    }

    /// The values known: of the parameters, then of the sum variables.
    pub(crate) fn values(&self) -> &[u8] {
        &self.values
    }

    /// Every choice of values, in order.
    pub(crate) fn each(&mut self, visit: &mut impl FnMut(&[u8])) {
        if !self.holds() {
            return;
        }
        let Some(size) = self.next_size() else {
            return visit(&self.values);
        };
        for value in 0..size {
            self.values.push(value);
            self.each(visit);
            self.values.pop();
        }
    }

    /// Leaves the values of choice k, or takes the number of all choices from k.
    pub(crate) fn seek(&mut self, k: &mut u64) -> bool {
        let choices = self.choices();
        if *k >= choices {
            *k -= choices;
            return false;
        }
        while let Some(size) = self.next_size() {
            for value in 0..size {
                self.values.push(value);
                let choices = self.choices();
                if *k < choices {
                    break;
                }
                *k -= choices;
                self.values.pop();
            }
        }
        true
    }

    /// How many choices begin with the known values.
    fn choices(&mut self) -> u64 {
        if self.holds() {
            self.completions()
        } else {
            0
        }
    }

    /// The same where all conditions decided so far hold.
    fn completions(&mut self) -> u64 {
        let Some(size) = self.next_size() else {
            return 1;
        };
        let key = (self.known(), self.looked_at());
        if let Some(&count) = self.counted.get(&key) {
            return count;
        }
        let mut count = 0;
        for value in 0..size {
            self.values.push(value);
            count += self.choices();
            self.values.pop();
        }
        self.counted.insert(key, count);
        count
    }

    fn known(&self) -> usize {
        self.values.len() - self.parameters
    }

    /// The size of the next variable's sort, if one is left.
    fn next_size(&self) -> Option<u8> {
        let sort = *self.summand.variables.get(self.known())?;
        Some(self.table.signature.size(sort))
    }

    /// Whether the conditions hold that the last known variable has decided.
    fn holds(&self) -> bool {
        let known = self.known();
        let conditions = self.summand.conditions.iter().zip(&self.needs);
        let mut decided = conditions.filter(|(_, &needs)| needs == known);
        decided.all(|(condition, _)| {
            self.table.signature.value(&condition.data, &self.values) == condition.wanted
        })
    }

    /// The known values that conditions not decided yet look at.
    fn looked_at(&self) -> Vec<u8> {
        let known = self.known();
        let conditions = self.summand.conditions.iter().zip(&self.needs);
        let later = conditions.filter(|(_, &needs)| needs > known);
        let bits = later.fold(0, |bits, (condition, _)| bits | condition.data.variables());
        let values = self.values.iter().enumerate();
        let looked_at = values.filter(|(variable, _)| bits & (1 << variable) != 0);
        looked_at.map(|(_, &value)| value).collect()
    }
}
