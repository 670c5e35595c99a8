//! Lawful parameters, drawn so that one call costs no more than a number of word products.

use crate::random::Random;
use reference::calls::Call;
use reference::gadget::{all_gadgets, Gadget};
use reference::lookup::Packing;
use reference::trgsw::Scheme;

#[derive(Clone, Copy, Debug)]
pub struct Parameters {
    pub degree: u64,
    pub base_log: u64,
    pub digits: u64,
    pub weight: u64,
    pub class_count: u64,
    pub carried: u64,
    pub depth: u64,
}

/// How much one call may cost, and what is given so that every run meets it in an accepted call.
#[derive(Clone, Copy, Debug)]
pub struct Effort {
    pub products: u64,
    pub degree: Option<u64>,
    pub gadget: Option<(u64, u64)>,
}

const DEGREE_LOGS: u64 = 11;

impl Effort {
    /// Most rounds are cheap. Of each 8 one has the next gadget, of each 32 one has the next of the 11
    /// degrees, and of each 2048 one is large.
    pub fn of_round(round: u64) -> Effort {
        let drawn = |products| Effort { products, degree: None, gadget: None };
        let with_degree = |products, degree| Effort { degree: Some(degree), ..drawn(products) };
        match round {
            _ if round % 2048 == 2047 => with_degree(1 << 26, 512 << (round / 2048 % 2)),
            _ if round % 32 == 31 => with_degree(1 << 23, 1 << (round / 32 % DEGREE_LOGS)),
            _ if round % 8 == 3 => drawn(1 << 17),
            _ if round % 8 == 5 => Effort { gadget: Some(gadget_of_round(round / 8)), ..drawn(1 << 13) },
            _ => drawn(1 << 13),
        }
    }

    pub fn stays_lawful(&self) -> bool {
        self.degree.is_some() || self.gadget.is_some()
    }
}

fn gadget_of_round(round: u64) -> (u64, u64) {
    let gadgets = all_gadgets();
    gadgets[(round % gadgets.len() as u64) as usize]
}

impl Parameters {
    pub fn draw(call: Call, effort: Effort, random: &mut Random) -> Parameters {
        let fewest_digits = effort.gadget.map_or(1, |(_, digits)| digits);
        let degree = effort.degree.unwrap_or_else(|| affordable_degree(call, fewest_digits, effort, random));
        let most = affordable_depth(call, degree, fewest_digits, effort);
        let depth = if random.one_in(2) { most } else { random.below(most + 1) };
        let (base_log, digits) = effort.gadget.unwrap_or_else(|| {
            let affordable = |&(_, digits): &(u64, u64)| cost(call, degree, digits, depth) <= effort.products;
            let gadgets: Vec<(u64, u64)> = all_gadgets().into_iter().filter(affordable).collect();
            random.pick(&gadgets)
        });
        let depth = random.pick(&[depth, affordable_depth(call, degree, digits, effort)]);
        let most_carried = call.packing().map_or(degree, |packing| packing.most_carried(degree));
        let carried = 1 + random.below(most_carried);
        Parameters {
            degree,
            base_log,
            digits,
            weight: weight(degree, random),
            class_count: 2 << random.below(16),
            carried: random.pick(&[1, most_carried, carried]),
            depth,
        }
    }

    pub fn gadget(&self) -> Gadget {
        Gadget::new(self.base_log, self.digits)
    }

    pub fn scheme(&self) -> Scheme {
        Scheme { degree: self.degree, gadget: self.gadget(), weight: self.weight }
    }
}

/// A lawful weight: often that of any key, or a small one.
pub fn weight(degree: u64, random: &mut Random) -> u64 {
    let (any, small) = (random.below(degree + 1), random.up_to(degree));
    random.pick(&[degree, degree, degree - 1, degree / 2, 0, 1, any, small])
}

fn affordable_degree(call: Call, digits: u64, effort: Effort, random: &mut Random) -> u64 {
    let affordable = |&log: &u64| cost(call, 1 << log, digits, 0) <= effort.products;
    let logs: Vec<u64> = (0..DEGREE_LOGS).filter(affordable).collect();
    1 << random.pick(&logs)
}

fn affordable_depth(call: Call, degree: u64, digits: u64, effort: Effort) -> u64 {
    let affordable = |&depth: &u64| cost(call, degree, digits, depth) <= effort.products;
    let most = call.packing().map_or(0, Packing::most_selectors);
    (0..=most).rev().find(affordable).unwrap_or(0)
}

/// Word products of a call.
fn cost(call: Call, degree: u64, digits: u64, depth: u64) -> u64 {
    let product = degree * degree;
    let gates = call.packing().map_or(0, |packing| packing.gates(degree, depth));
    match call {
        Call::DecryptScalar | Call::Extract => degree,
        Call::EncryptClasses | Call::DecryptClasses => product,
        Call::EncryptSelector => 2 * digits * product,
        Call::ExternalProduct | Call::Cmux => 4 * digits * product,
        Call::Lookup | Call::LookupVertical | Call::LookupHidden | Call::LookupHiddenVertical => {
            4 * digits * product * (1 + gates)
        }
    }
}
