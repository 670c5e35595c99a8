//! Errors and amplitudes just below, at and above the limits.

use crate::parameters::{Effort, Parameters};
use crate::random::Random;
use reference::calls::Call;
use reference::classes::Classes;
use reference::torus::{word, HALF_TURN};

/// Where the bound of a call that has a limit is to lie.
#[derive(Clone, Copy, Debug, PartialEq, Eq)]
pub enum Plan {
    Below,
    Above,
    Anywhere,
}

impl Plan {
    pub fn draw(random: &mut Random) -> Plan {
        random.pick(&[Plan::Below, Plan::Below, Plan::Below, Plan::Above, Plan::Anywhere])
    }
}

/// N, W, d and M of lookups whose bound can be one below the limit. That takes a rounding remainder of at
/// most 1, so g = 1 and L = 31.
const ONE_BELOW: [(u64, u64, u64, u64); 4] = [(2, 2, 1, 16), (2, 2, 5, 4), (4, 4, 3, 128), (1, 0, 3, 16)];

/// Parameters under which the plan can be kept: rounding alone can pass a lookup's limit. Without
/// selectors every gadget can be used.
pub fn parameters(call: Call, effort: Effort, plan: Plan, random: &mut Random) -> Parameters {
    let looks_up = call.packing().is_some();
    if looks_up && plan == Plan::Below && !effort.stays_lawful() && random.one_in(16) {
        let (degree, weight, depth, class_count) = random.pick(&ONE_BELOW);
        return Parameters { degree, base_log: 1, digits: 31, weight, class_count, carried: 1, depth };
    }
    loop {
        let drawn = Parameters::draw(call, effort, random);
        if !looks_up || plan != Plan::Below || spare_amplitude(&drawn) >= 0 {
            return drawn;
        }
        if random.one_in(4) {
            return Parameters { depth: 0, ..drawn };
        }
    }
}

/// An amplitude passed by value.
pub fn amplitude(random: &mut Random) -> u64 {
    let half = HALF_TURN as u64;
    let any = random.up_to(half);
    random.pick(&[0, 1, half - 1, half, any, any])
}

/// Error words, the greatest of a magnitude that the plan names.
pub fn errors(
    call: Call,
    parameters: &Parameters,
    plan: Plan,
    count: usize,
    random: &mut Random,
) -> Vec<i64> {
    let limit = Classes::new(parameters.class_count).limit() as u64;
    let within = random.up_to(limit - 1);
    let greatest = match plan {
        _ if call == Call::EncryptSelector => amplitude(random),
        Plan::Below => random.pick(&[0, limit - 1, limit - 1, within]),
        Plan::Above => random.pick(&[limit, limit, limit + 1, HALF_TURN as u64]).min(HALF_TURN as u64),
        Plan::Anywhere => amplitude(random),
    };
    let magnitudes = with_greatest(greatest, count, random);
    magnitudes.into_iter().map(|magnitude| word(random.sign() * magnitude)).collect()
}

/// So many numbers up to the greatest, which is one of them.
fn with_greatest(greatest: u64, count: usize, random: &mut Random) -> Vec<i64> {
    let mut numbers: Vec<i64> = (0..count).map(|_| random.up_to(greatest) as i64).collect();
    numbers[random.below(count as u64) as usize] = greatest as i64;
    numbers
}

/// An amplitude for each selector of a lookup. Together they bring the bound to the place planned, or leave room
/// for a hidden table's samples to do so.
pub fn amplitudes(call: Call, parameters: &Parameters, plan: Plan, random: &mut Random) -> Vec<i64> {
    let greatest = spare_amplitude(parameters).max(-1);
    let within = random.up_to(greatest.max(0) as u64) as i64;
    let leave_room = call.hides() && random.one_in(2);
    let total = match plan {
        Plan::Anywhere => return (0..parameters.depth).map(|_| amplitude(random) as i64).collect(),
        _ if leave_room => random.pick(&[0, greatest / 2, greatest / 2, within]),
        Plan::Below => random.pick(&[0, greatest, greatest, within]),
        Plan::Above => greatest + random.pick(&[1, 1, 1, 2]),
    };
    split(total.max(0), parameters.depth as usize, random)
}

/// An amplitude for each sample of a hidden table. The greatest brings the bound to the place planned, if beside
/// these of the selectors there is room.
pub fn sample_amplitudes(
    parameters: &Parameters,
    plan: Plan,
    selectors: &[i64],
    count: usize,
    random: &mut Random,
) -> Vec<i64> {
    let room = room(parameters, selectors);
    let within = random.up_to(room.max(0) as u64) as i64;
    let greatest = match plan {
        Plan::Below => random.pick(&[0, room, room, within]),
        Plan::Above => room + random.pick(&[1, 1, 1, 2]),
        Plan::Anywhere => amplitude(random) as i64,
    };
    with_greatest(greatest.clamp(0, HALF_TURN) as u64, count, random)
}

/// The greatest amplitude of a sample that is accepted beside these of the selectors, below 0 if there is none.
fn room(parameters: &Parameters, selectors: &[i64]) -> i64 {
    let limit = i128::from(Classes::new(parameters.class_count).limit());
    let charges: i128 = selectors.iter().map(|&amplitude| parameters.scheme().charge(amplitude)).sum();
    (limit - 1 - charges) as i64
}

/// The greatest sum of the amplitudes under which a lookup is accepted, below 0 if there is none.
pub fn spare_amplitude(parameters: &Parameters) -> i64 {
    let unit = parameters.scheme().charge(1) - parameters.scheme().charge(0);
    room(parameters, &vec![0; parameters.depth as usize]).div_euclid(unit as i64)
}

fn split(total: i64, parts: usize, random: &mut Random) -> Vec<i64> {
    let mut rest = total;
    let mut amplitudes = vec![0; parts];
    let Some(first) = random.number().checked_rem(parts as u64) else {
        return amplitudes;
    };
    for i in 1..parts {
        let part = random.up_to(rest as u64) as i64;
        amplitudes[(first as usize + i) % parts] = part;
        rest -= part;
    }
    amplitudes[first as usize] = rest;
    amplitudes
}
