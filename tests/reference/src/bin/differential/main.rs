//! Compares the library's exports with the implementation in this package.
//!
//!     differential [--calls COUNT] [--seed SEED] [--only CASE]
//!     differential accuracy [--jobs COUNT] [--seed SEED] [--only JOB]
//!     differential extremes [--seed SEED] [--only CASE]

#![deny(warnings)]

mod accuracy;
mod arguments;
mod compare;
mod crash;
mod damage;
mod exports;
mod extremes;
mod lawful;
mod lent;
mod library;
mod noise;
mod options;
mod parameters;
mod random;
mod tally;

use arguments::Arguments;
use options::{Options, Part};
use std::process::ExitCode;
use std::time::Instant;

/// Differences that are printed; the others are counted.
const SHOWN: u64 = 5;

fn main() -> ExitCode {
    let options = match Options::parse(std::env::args().skip(1)) {
        Ok(options) => options,
        Err(message) => {
            eprintln!("{message}");
            return ExitCode::from(2);
        }
    };
    println!("seed {}", options.seed);
    crash::watch(options.seed);
    let passed = match (options.part, options.only) {
        (Part::Calls, Some(case)) => one_case(compare::arguments_of(options.seed, case), case),
        (Part::Calls, None) => all_cases(&options),
        (Part::Accuracy, Some(job)) => accuracy::one_job(&options, job),
        (Part::Accuracy, None) => accuracy::all_jobs(&options),
        (Part::Extremes, Some(case)) => one_case(extremes::arguments_of(options.seed, case), case),
        (Part::Extremes, None) => extremes::all_cases(&options),
    };
    if passed {
        ExitCode::SUCCESS
    } else {
        ExitCode::FAILURE
    }
}

fn one_case(mut arguments: Arguments, case: u64) -> bool {
    arguments.shown = usize::MAX;
    let result = compare::compare(&arguments, case);
    println!("case {case}: {arguments}");
    match &result {
        Ok(outcome) => println!("same: {outcome:?}"),
        Err(difference) => println!("DIFFERENCE {difference}"),
    }
    result.is_ok()
}

fn all_cases(options: &Options) -> bool {
    let start = Instant::now();
    let mut tally = tally::Tally::default();
    let mut differences = 0;
    for case in 0..options.count.div_ceil(3) {
        let arguments = compare::arguments_of(options.seed, case);
        match compare::compare(&arguments, case) {
            Ok(outcome) => tally.count(&arguments, &outcome),
            Err(difference) => {
                differences += 1;
                if differences <= SHOWN {
                    println!("DIFFERENCE seed {} case {case}: {difference}\n  in {arguments}", options.seed);
                }
            }
        }
    }
    tally.print();
    let missing = if differences == 0 { tally.missing() } else { Vec::new() };
    missing.iter().for_each(|what| println!("NEVER REACHED {what}"));
    println!("\nseed {}: {differences} differences, {:.1} s", options.seed, start.elapsed().as_secs_f64());
    differences == 0 && missing.is_empty()
}
