//! Extreme words: the greatest sums, the least digits, few words that are not 0, keys of every
//! kind. The degrees are those round which a product may be made another way, and the greatest.

mod fillings;
mod keys;
mod lookups;
mod products;

use crate::arguments::Arguments;
use crate::compare::compare;
use crate::options::Options;
use crate::random::Random;
use crate::SHOWN;
use reference::calls::{Call, CALLS};
use std::collections::BTreeMap;
use std::time::Instant;

enum Case {
    Product(products::Case),
    Key(keys::Case),
    Lookup(lookups::Case),
}

fn cases() -> Vec<Case> {
    let products = products::cases().into_iter().map(Case::Product);
    let keys = keys::cases().into_iter().map(Case::Key);
    let lookups = lookups::cases().into_iter().map(Case::Lookup);
    products.chain(keys).chain(lookups).collect()
}

impl Case {
    fn arguments(&self, seed: u64, number: u64) -> Arguments {
        let mut random = Random::of_case(seed, number);
        match self {
            Case::Product(case) => case.arguments(&mut random),
            Case::Key(case) => case.arguments(&mut random),
            Case::Lookup(case) => case.arguments(&mut random),
        }
    }
}

pub fn arguments_of(seed: u64, case: u64) -> Arguments {
    let cases = cases();
    assert!(case < cases.len() as u64, "there are {} cases", cases.len());
    cases[case as usize].arguments(seed, case)
}

/// All cases are made to be accepted, so that a refusal is a fault of the case or of both sides.
fn run(arguments: &Arguments, number: u64) -> Result<(), String> {
    match compare(arguments, number)?.number {
        0 => Ok(()),
        refusal => Err(format!("both sides refuse with {refusal}")),
    }
}

pub fn all_cases(options: &Options) -> bool {
    let start = Instant::now();
    let mut counts: BTreeMap<Call, u64> = BTreeMap::new();
    let mut differences = 0;
    for (number, case) in (0..).zip(cases()) {
        let arguments = case.arguments(options.seed, number);
        *counts.entry(arguments.call).or_default() += 1;
        if let Err(difference) = run(&arguments, number) {
            differences += 1;
            if differences <= SHOWN {
                let seed = options.seed;
                println!("DIFFERENCE seed {seed} extremes case {number}: {difference}\n  in {arguments}");
            }
        }
    }
    for call in CALLS.into_iter().filter(|call| counts.contains_key(call)) {
        println!("{:<23}{:>6} sets of extreme arguments", call.signature().name, counts[&call]);
    }
    println!("seed {}: {differences} differences, {:.1} s", options.seed, start.elapsed().as_secs_f64());
    differences == 0
}

/// The arguments of a call out of what it reads; random words stand in what it writes.
fn with_written(call: Call, numbers: Vec<u64>, mut slices: Vec<Vec<i64>>, random: &mut Random) -> Arguments {
    for &length in &call.exact_lengths(&numbers)[slices.len()..] {
        slices.push((0..length).map(|_| random.word()).collect());
    }
    Arguments::new(call, numbers, &slices)
}
