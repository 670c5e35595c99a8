//! The calls as the portal makes them: numbers and byte slices in, and out what is returned, what the
//! sister calls report, and what is written.

mod blocks;
mod bytes;
mod checks;
mod lookups;
mod samples;
mod signature;

pub use bytes::{bytes_of, words_of};
pub use signature::{Call, Number, Signature, Slice, CALLS, ORDER};

#[derive(Clone, Debug, PartialEq, Eq)]
pub struct Outcome {
    pub number: u32,
    pub bound: u64,
    pub gates: u64,
    /// The place of each written slice among the call's slices, and all of its bytes.
    pub written: Vec<(usize, Vec<u8>)>,
}

struct Refusal {
    number: u32,
    bound: i128,
}

struct Report {
    bound: i128,
    gates: u64,
    written: Vec<(usize, Vec<i64>)>,
}

type Answer = Result<Report, Refusal>;

pub fn run(call: Call, numbers: &[u64], slices: &[&[u8]]) -> Outcome {
    let answer = match call {
        Call::EncryptClasses => samples::encrypt_classes(numbers, slices),
        Call::DecryptClasses => samples::decrypt_classes(numbers, slices),
        Call::DecryptScalar => samples::decrypt_scalar(numbers, slices),
        Call::Extract => samples::extract(numbers, slices),
        Call::EncryptSelector => blocks::encrypt_selector(numbers, slices),
        Call::ExternalProduct => blocks::external_product(numbers, slices),
        Call::Cmux => blocks::cmux(numbers, slices),
        Call::Lookup | Call::LookupVertical | Call::LookupHidden | Call::LookupHiddenVertical => {
            lookups::lookup(call, numbers, slices)
        }
    };
    outcome(answer)
}

fn outcome(answer: Answer) -> Outcome {
    let narrow = |bound: i128| u64::try_from(bound).expect("every bound has 64 bits");
    match answer {
        Ok(report) => Outcome {
            number: 0,
            bound: narrow(report.bound),
            gates: report.gates,
            written: report.written.iter().map(|(place, words)| (*place, bytes_of(words))).collect(),
        },
        Err(refusal) => {
            Outcome { number: refusal.number, bound: narrow(refusal.bound), gates: 0, written: Vec::new() }
        }
    }
}
