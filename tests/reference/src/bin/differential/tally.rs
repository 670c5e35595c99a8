//! Counts of what was reached, and what was not.

use crate::arguments::Arguments;
use reference::calls::{Call, Number, Outcome, Signature, CALLS, ORDER};
use reference::classes::Classes;
use reference::gadget::all_gadgets;
use reference::lookup::Packing;
use std::collections::{BTreeMap, BTreeSet};

#[derive(Default)]
pub struct Tally {
    sets: u64,
    answers: BTreeMap<(Call, u32), u64>,
    degrees: BTreeMap<(Call, u64), u64>,
    gadgets: BTreeSet<(Call, u64, u64)>,
    depths: BTreeMap<(Call, u64), u64>,
    weights: BTreeSet<(Call, &'static str)>,
    edges: BTreeSet<(Call, bool, i64)>,
}

/// The calls whose bound can be at a limit, with selectors and without.
const EDGED: [(Call, bool); 7] = [
    (Call::EncryptClasses, false),
    (Call::Lookup, true),
    (Call::LookupVertical, true),
    (Call::LookupHidden, false),
    (Call::LookupHidden, true),
    (Call::LookupHiddenVertical, false),
    (Call::LookupHiddenVertical, true),
];

/// Bounds less the limit that every run has to reach.
const EDGES: [i64; 2] = [-1, 0];

impl Tally {
    pub fn count(&mut self, arguments: &Arguments, outcome: &Outcome) {
        let call = arguments.call;
        self.sets += 1;
        *self.answers.entry((call, outcome.number)).or_default() += 1;
        let selects = arguments.number(Number::Depth) > 0;
        if EDGED.contains(&(call, selects)) && [0, 9].contains(&outcome.number) {
            let limit = Classes::new(arguments.number(Number::ClassCount)).limit();
            let beyond = outcome.bound as i64 - limit;
            EDGES.contains(&beyond).then(|| self.edges.insert((call, selects, beyond)));
        }
        let number = |role| arguments.number(role);
        if [0, 12].contains(&outcome.number) && takes_weight(call) {
            self.weights.insert((call, named_weight(number(Number::Weight), number(Number::Degree))));
        }
        if outcome.number == 0 {
            *self.degrees.entry((call, number(Number::Degree))).or_default() += 1;
            self.gadgets.insert((call, number(Number::BaseLog), number(Number::Digits)));
            *self.depths.entry((call, number(Number::Depth))).or_default() += 1;
        }
    }

    pub fn print(&self) {
        println!("{} argument sets, {} calls of exports", self.sets, 3 * self.sets);
        println!("\n{:<23}returned number, and how often", "call");
        let numbers = || [0].into_iter().chain(ORDER);
        print_row("", numbers().map(|number| number.to_string()));
        for call in CALLS {
            let possible = |number: u32| number == 0 || call.signature().refusals.contains(&number);
            let times = |number| self.answers.get(&(call, number)).copied();
            let cell = |number| times(number).map_or(if possible(number) { "0" } else { "-" }.into(), text);
            print_row(call.signature().name, numbers().map(cell));
        }
        println!("\n{:<23}accepted, by N", "call");
        print_row("", degrees().map(text));
        for call in CALLS {
            let times = |degree| self.degrees.get(&(call, degree)).copied().unwrap_or(0);
            print_row(call.signature().name, degrees().map(times).map(text));
        }
        println!("\n{:<23}accepted, by d", "call");
        print_row("", (0..=16).map(text));
        for call in CALLS.into_iter().filter(|call| call.packing().is_some()) {
            let times = |depth| self.depths.get(&(call, depth)).copied().unwrap_or(0);
            print_row(call.signature().name, depths(call).map(times).map(text));
        }
    }

    /// What every run has to reach and this one did not.
    pub fn missing(&self) -> Vec<String> {
        let mut missing: Vec<String> = CALLS.iter().flat_map(|&call| self.missing_in(call)).collect();
        let edges = EDGED.map(|(call, selects)| EDGES.map(|beyond| (call, selects, beyond))).concat();
        let absent = edges.iter().filter(|edge| !self.edges.contains(edge));
        missing.extend(absent.map(|(call, selects, beyond)| {
            let selectors = if *selects { "with" } else { "without" };
            format!("{call:?}: a bound of the limit + {beyond}, {selectors} selectors")
        }));
        missing
    }

    fn missing_in(&self, call: Call) -> Vec<String> {
        let Signature { name, numbers, refusals, .. } = call.signature();
        let mut missing = Vec::new();
        let absent = refusals.iter().filter(|&&number| !self.answers.contains_key(&(call, number)));
        missing.extend(absent.map(|number| format!("{name}: refusal {number}")));
        let absent = degrees().filter(|&degree| !self.degrees.contains_key(&(call, degree)));
        missing.extend(absent.map(|degree| format!("{name}: accepted with N = {degree}")));
        let absent = depths(call).filter(|&depth| !self.depths.contains_key(&(call, depth)));
        missing.extend(absent.map(|depth| format!("{name}: accepted with d = {depth}")));
        let absent = WEIGHTS.iter().filter(|&&weight| !self.weights.contains(&(call, weight)));
        missing.extend(absent.filter(|_| takes_weight(call)).map(|weight| format!("{name}: W {weight}")));
        if numbers.contains(&Number::BaseLog) {
            let gadgets = all_gadgets().into_iter();
            let absent = gadgets.filter(|&(g, l)| !self.gadgets.contains(&(call, g, l)));
            missing.extend(absent.map(|(g, l)| format!("{name}: accepted with g = {g}, L = {l}")));
        }
        missing
    }
}

/// Where a weight that is judged stands beside the degree.
const WEIGHTS: [&str; 5] = ["= 0", "between 0 and N", "= N", "= N + 1", "above N + 1"];

fn named_weight(weight: u64, degree: u64) -> &'static str {
    let place = match weight {
        0 => 0,
        _ if weight < degree => 1,
        _ if weight == degree => 2,
        _ if weight == degree + 1 => 3,
        _ => 4,
    };
    WEIGHTS[place]
}

fn takes_weight(call: Call) -> bool {
    call.signature().numbers.contains(&Number::Weight)
}

fn degrees() -> impl Iterator<Item = u64> {
    (0..=10).map(|log| 1 << log)
}

/// The lawful numbers of selectors; 0 alone for a call without a table.
fn depths(call: Call) -> impl Iterator<Item = u64> {
    0..=call.packing().map_or(0, Packing::most_selectors)
}

fn text(count: u64) -> String {
    count.to_string()
}

fn print_row(name: &str, cells: impl Iterator<Item = String>) {
    let cells: Vec<String> = cells.map(|cell| format!("{cell:>7}")).collect();
    println!("{name:<23}{}", cells.concat());
}
