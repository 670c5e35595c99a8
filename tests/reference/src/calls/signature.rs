//! What each call takes: its numbers and slices in order, the exact lengths, and its possible refusals.

use crate::lookup::Packing;

#[derive(Clone, Copy, Debug, PartialEq, Eq, PartialOrd, Ord)]
pub enum Call {
    EncryptClasses,
    DecryptClasses,
    DecryptScalar,
    Extract,
    EncryptSelector,
    ExternalProduct,
    Cmux,
    Lookup,
    LookupVertical,
    LookupHidden,
    LookupHiddenVertical,
}

pub const CALLS: [Call; 11] = [
    Call::EncryptClasses,
    Call::DecryptClasses,
    Call::DecryptScalar,
    Call::Extract,
    Call::EncryptSelector,
    Call::ExternalProduct,
    Call::Cmux,
    Call::Lookup,
    Call::LookupVertical,
    Call::LookupHidden,
    Call::LookupHiddenVertical,
];

#[derive(Clone, Copy, Debug, PartialEq, Eq)]
pub enum Number {
    Degree,
    BaseLog,
    Digits,
    Weight,
    ClassCount,
    Carried,
    Depth,
    Position,
    Bit,
    Amplitude,
}

#[derive(Clone, Copy, Debug, PartialEq, Eq)]
pub enum Slice {
    Key,
    /// Masks and samples: every word is lawful.
    Words,
    Errors,
    ClassList,
    Amplitudes,
    SampleAmplitudes,
    Written,
}

pub struct Signature {
    pub name: &'static str,
    pub numbers: &'static [Number],
    pub slices: &'static [Slice],
    /// In the order in which they are checked.
    pub refusals: &'static [u32],
}

/// The numbers of refusals in the order in which they are checked, that of the papers: 12 stands directly after 2.
pub const ORDER: [u32; 10] = [1, 2, 12, 3, 4, 5, 6, 7, 8, 9];

impl Call {
    pub fn signature(self) -> Signature {
        let (name, numbers, slices, refusals): (_, &[Number], &[Slice], &[u32]) = match self {
            Call::EncryptClasses => {
                let slices = &[Slice::Key, Slice::Words, Slice::Errors, Slice::ClassList, Slice::Written];
                ("encrypt_classes", CLASSES, slices, &[1, 3, 4, 5, 7, 8, 9])
            }
            Call::DecryptClasses => ("decrypt_classes", CLASSES, DECRYPTED, &[1, 3, 4, 5, 8]),
            Call::DecryptScalar => {
                ("decrypt_scalar", &[Number::Degree, Number::ClassCount], DECRYPTED, &[1, 3, 5, 8])
            }
            Call::Extract => {
                let numbers = &[Number::Degree, Number::Position];
                ("extract", numbers, &[Slice::Words, Slice::Written], &[1, 4, 5])
            }
            Call::EncryptSelector => {
                let numbers = &[Number::Degree, Number::BaseLog, Number::Digits, Number::Bit];
                let slices = &[Slice::Key, Slice::Words, Slice::Errors, Slice::Written];
                ("encrypt_selector", numbers, slices, &[1, 2, 5, 7, 8])
            }
            Call::ExternalProduct => ("external_product", &GATE[..6], &GATE_SLICES[1..], &[1, 2, 12, 5, 6]),
            Call::Cmux => ("cmux", GATE, GATE_SLICES, &[1, 2, 12, 5, 6]),
            Call::Lookup => ("lookup", LOOKUP, LOOKUP_SLICES, LOOKUP_REFUSALS),
            Call::LookupVertical => ("lookup_vertical", LOOKUP, LOOKUP_SLICES, LOOKUP_REFUSALS),
            Call::LookupHidden => ("lookup_hidden", LOOKUP, HIDDEN_SLICES, HIDDEN_REFUSALS),
            Call::LookupHiddenVertical => ("lookup_hidden_vertical", LOOKUP, HIDDEN_SLICES, HIDDEN_REFUSALS),
        };
        Signature { name, numbers, slices, refusals }
    }

    /// The number of words of each slice, without regard to whether the numbers are lawful.
    pub fn exact_lengths(self, numbers: &[u64]) -> Vec<u128> {
        let number = |role| self.number(numbers, role);
        let degree = number(Number::Degree);
        let sample = times(&[2, degree]);
        let rows = times(&[2, number(Number::Digits), degree]);
        let block = times(&[2, rows]);
        let carried = number(Number::Carried);
        match self {
            Call::EncryptClasses => vec![degree, degree, degree, carried, sample],
            Call::DecryptClasses => vec![degree, sample, carried],
            Call::DecryptScalar => vec![degree, degree + 1, 1],
            Call::Extract => vec![sample, degree + 1],
            Call::EncryptSelector => vec![degree, rows, rows, block],
            Call::ExternalProduct => vec![block, sample, sample],
            Call::Cmux => vec![block, sample, sample, sample],
            Call::Lookup | Call::LookupVertical | Call::LookupHidden | Call::LookupHiddenVertical => {
                let depth = number(Number::Depth);
                let selectors = vec![times(&[depth, block]), depth];
                [selectors, self.table_lengths(numbers), vec![sample, times(&[sample, depth + 1])]].concat()
            }
        }
    }

    /// Those of the slices that hold a table.
    fn table_lengths(self, numbers: &[u64]) -> Vec<u128> {
        let [degree, carried, depth] =
            [Number::Degree, Number::Carried, Number::Depth].map(|role| self.number(numbers, role));
        let entries = 1 << depth.min(100);
        match self.packing() {
            Some(packing) if self.hides() => {
                let samples = packing.samples(degree, entries);
                vec![times(&[samples, 2, degree]), samples]
            }
            Some(_) => vec![times(&[carried, entries])],
            None => Vec::new(),
        }
    }

    /// The packing of its table, if it takes one.
    pub fn packing(self) -> Option<Packing> {
        match self {
            Call::Lookup | Call::LookupHidden => Some(Packing::Horizontal),
            Call::LookupVertical | Call::LookupHiddenVertical => Some(Packing::Vertical),
            _ => None,
        }
    }

    /// Whether its table is hidden: encrypted samples in place of classes.
    pub fn hides(self) -> bool {
        [Call::LookupHidden, Call::LookupHiddenVertical].contains(&self)
    }

    /// The number of this role among a call's numbers, 0 if it takes none.
    pub fn number(self, numbers: &[u64], role: Number) -> u128 {
        let place = self.signature().numbers.iter().position(|&taken| taken == role);
        place.map_or(0, |place| numbers[place].into())
    }
}

const CLASSES: &[Number] = &[Number::Degree, Number::ClassCount, Number::Carried];
const DECRYPTED: &[Slice] = &[Slice::Key, Slice::Words, Slice::Written];
const GATE: &[Number] = &[
    Number::Degree,
    Number::BaseLog,
    Number::Digits,
    Number::Weight,
    Number::Amplitude,
    Number::Amplitude,
    Number::Amplitude,
];
const GATE_SLICES: &[Slice] = &[Slice::Words, Slice::Words, Slice::Words, Slice::Written];
const LOOKUP: &[Number] = &[
    Number::Degree,
    Number::BaseLog,
    Number::Digits,
    Number::Weight,
    Number::ClassCount,
    Number::Carried,
    Number::Depth,
];
const LOOKUP_SLICES: &[Slice] =
    &[Slice::Words, Slice::Amplitudes, Slice::ClassList, Slice::Written, Slice::Written];
const LOOKUP_REFUSALS: &[u32] = &[1, 2, 12, 3, 4, 5, 6, 7, 9];
const HIDDEN_SLICES: &[Slice] =
    &[Slice::Words, Slice::Amplitudes, Slice::Words, Slice::SampleAmplitudes, Slice::Written, Slice::Written];
const HIDDEN_REFUSALS: &[u32] = &[1, 2, 12, 3, 4, 5, 6, 9];

fn times(factors: &[u128]) -> u128 {
    factors.iter().fold(1, |so_far, &factor| so_far.saturating_mul(factor))
}

#[cfg(test)]
mod tests {
    use super::*;
    use crate::calls::run;

    #[test]
    fn refusals_are_listed_in_order() {
        for call in CALLS {
            let refusals = call.signature().refusals;
            let in_order: Vec<u32> = ORDER.into_iter().filter(|number| refusals.contains(number)).collect();
            assert_eq!(refusals, in_order, "{call:?}");
        }
    }

    /// A lawful value of a number, one that is not, and the refusal that it then gets.
    fn values(role: Number) -> (u64, u64, u32) {
        match role {
            Number::Degree => (2, 3, 1),
            Number::BaseLog | Number::Digits => (4, 0, 2),
            Number::Weight => (2, 5, 12),
            Number::ClassCount => (16, 3, 3),
            Number::Carried => (1, 0, 4),
            Number::Depth => (2, 17, 4),
            Number::Position => (1, 5, 4),
            Number::Bit => (1, 2, 7),
            Number::Amplitude => (1, 1 << 32, 6),
        }
    }

    /// Slices are empty. Of the numbers those are at fault that are judged from some refusal on.
    #[test]
    fn what_is_checked_first_is_returned() {
        let place = |number: u32| ORDER.iter().position(|&of| of == number);
        for call in CALLS {
            let Signature { numbers, slices, refusals, .. } = call.signature();
            let up_to_lengths = refusals.iter().filter(|&&first| place(first) <= place(5));
            for &first in up_to_lengths {
                let value = |&role: &Number| {
                    let (lawful, fault, number) = values(role);
                    if place(number) < place(first) {
                        lawful
                    } else {
                        fault
                    }
                };
                let numbers: Vec<u64> = numbers.iter().map(value).collect();
                assert_eq!(run(call, &numbers, &vec![&[][..]; slices.len()]).number, first, "{call:?}");
            }
        }
    }
}
