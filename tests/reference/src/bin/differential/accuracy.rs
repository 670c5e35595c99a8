//! The accuracy rule: errors at exactly the declared amplitudes, and the phase of the result within the
//! reported bound of what it should be.

mod adversary;
mod gates;
mod lookups;
mod thin;

use crate::crash;
use crate::options::Options;
use crate::parameters::{Effort, Parameters};
use crate::random::Random;
use reference::calls::Call;
use reference::torus::distance;
use std::collections::BTreeSet;
use std::time::Instant;

#[derive(Clone, Copy, PartialEq, Eq)]
enum Kind {
    ExternalProduct,
    Cmux,
    /// A CMux with a block without errors, whose whole charge is for rounding.
    Rounding,
    /// A whole lookup, by this call.
    Lookup(Call),
}

/// What is measured, and how much of the charges a run has to meet at least once.
const KINDS: [(Kind, &str, f64); 7] = [
    (Kind::ExternalProduct, "external product", 0.95),
    (Kind::Cmux, "CMux", 0.95),
    (Kind::Rounding, "CMux, rounding alone", 0.95),
    (Kind::Lookup(Call::Lookup), "lookup", 0.5),
    (Kind::Lookup(Call::LookupVertical), "vertical lookup", 0.5),
    (Kind::Lookup(Call::LookupHidden), "hidden lookup", 0.4),
    (Kind::Lookup(Call::LookupHiddenVertical), "hidden vertical lookup", 0.4),
];

/// A job that was within its bound.
pub struct Measured {
    pub parameters: Parameters,
    /// The greatest distance of a coefficient from what it should be.
    pub distance: i64,
    pub bound: i64,
    /// The part of the bound that the input samples bring.
    pub brought: i64,
    /// Whether its noise counts towards what a run has to meet.
    pub counts: bool,
}

impl Measured {
    /// The distance of every coefficient is measured, used or not.
    pub fn new(parameters: Parameters, phase: &[i64], exact: &[i64], bound: i64) -> Result<Measured, String> {
        let distances = phase.iter().zip(exact).map(|(&found, &right)| distance(found, right));
        let distance = distances.max().unwrap_or(0);
        if distance > bound {
            return Err(format!("distance {distance} above the bound {bound}, {parameters:?}"));
        }
        Ok(Measured { parameters, distance, bound, brought: 0, counts: true })
    }

    /// The added noise as a part of the charges.
    fn share(&self) -> f64 {
        let added = (self.distance - self.brought).max(0);
        added as f64 / (self.bound - self.brought).max(1) as f64
    }
}

/// The weights for which the charges have to be met: that of any key, and less.
const WEIGHTS: [&str; 2] = ["W = N", "0 < W < N"];

#[derive(Default)]
struct Record {
    jobs: u64,
    degrees: BTreeSet<u64>,
    /// By weight.
    nearest: [Option<Measured>; WEIGHTS.len()],
}

impl Record {
    fn add(&mut self, measured: Measured) {
        self.jobs += 1;
        let Parameters { degree, weight, .. } = measured.parameters;
        self.degrees.insert(degree);
        let nearest = &mut self.nearest[usize::from(weight < degree)];
        if weight > 0 && measured.counts && measured.share() > share(nearest) {
            *nearest = Some(measured);
        }
    }
}

fn share(nearest: &Option<Measured>) -> f64 {
    nearest.as_ref().map_or(0.0, Measured::share)
}

fn run_job(seed: u64, job: u64) -> Result<Measured, String> {
    crash::enter(job);
    let mut random = Random::of_case(seed, job);
    let effort = Effort::of_round(job / KINDS.len() as u64);
    match KINDS[kind_of(job)].0 {
        Kind::Lookup(call) => lookups::run(call, effort, &mut random),
        kind => gates::run(kind, effort, &mut random),
    }
}

fn kind_of(job: u64) -> usize {
    (job % KINDS.len() as u64) as usize
}

pub fn one_job(options: &Options, job: u64) -> bool {
    let result = run_job(options.seed, job);
    match &result {
        Ok(measured) => print_measured(measured),
        Err(message) => println!("WRONG job {job}: {message}"),
    }
    result.is_ok()
}

pub fn all_jobs(options: &Options) -> bool {
    let start = Instant::now();
    let mut wrong = 0;
    let mut records: Vec<Record> = KINDS.iter().map(|_| Record::default()).collect();
    for job in 0..options.count {
        match run_job(options.seed, job) {
            Ok(measured) => records[kind_of(job)].add(measured),
            Err(message) => {
                wrong += 1;
                println!("WRONG seed {} job {job}: {message}", options.seed);
            }
        }
    }
    let met = KINDS.iter().zip(&records).filter(|((_, name, least), record)| report(name, *least, record));
    let all_met = met.count() == KINDS.len();
    let thin_met = thin::all_cases(options.seed);
    println!("seed {}: {wrong} wrong, {:.1} s", options.seed, start.elapsed().as_secs_f64());
    wrong == 0 && all_met && thin_met
}

/// Whether the jobs met every N and enough of the charges.
fn report(name: &str, least: f64, record: &Record) -> bool {
    println!("{name}: {} jobs, {} degrees", record.jobs, record.degrees.len());
    record.nearest.iter().flatten().for_each(print_measured);
    let mut enough = record.degrees.len() == 11;
    for (nearest, weights) in record.nearest.iter().zip(WEIGHTS) {
        if share(nearest) < least {
            println!("NEVER REACHED {name}: {least} of the charges with {weights}");
            enough = false;
        }
    }
    if record.degrees.len() < 11 {
        println!("NEVER REACHED {name}: all 11 degrees");
    }
    enough
}

fn print_measured(measured: &Measured) {
    let Measured { distance, bound, brought, parameters, .. } = measured;
    println!("  added noise is {:.6} of the charges", measured.share());
    println!("  distance {distance}, bound {bound}, of which {brought} came with the samples");
    println!("  {parameters:?}");
}
