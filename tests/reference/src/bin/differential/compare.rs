//! One case: arguments made from the seed and the case's number, given to a call, to both its sisters
//! and to the implementation in this package.

use crate::arguments::Arguments;
use crate::crash;
use crate::damage::damage;
use crate::exports::{self, Export};
use crate::lawful;
use crate::lent::LentSlices;
use crate::parameters::Effort;
use crate::random::Random;
use reference::calls::{run, Outcome, CALLS};

const EXPORTS: [Export; 3] = [Export::Number, Export::Bound, Export::Gates];

/// Each round of cases goes through the calls once.
pub fn arguments_of(seed: u64, case: u64) -> Arguments {
    let count = CALLS.len() as u64;
    let (round, call) = (case / count, CALLS[(case % count) as usize]);
    let mut random = Random::of_case(seed, case);
    let effort = Effort::of_round(round);
    let mut arguments = lawful::arguments(call, effort, &mut random);
    let faults = if effort.stays_lawful() { 0 } else { random.pick(&[0, 0, 0, 1, 1, 2]) };
    for _ in 0..faults {
        damage(&mut arguments, &mut random);
    }
    arguments
}

/// What both sides agree on, or what they differ in.
pub fn compare(arguments: &Arguments, case: u64) -> Result<Outcome, String> {
    let expected = run(arguments.call, &arguments.numbers, &arguments.borrowed());
    crash::enter(case);
    let mut lent = LentSlices::new(&arguments.slices, (case / 3 % 4) as usize);
    for turn in 0..EXPORTS.len() {
        let export = EXPORTS[(case as usize + turn) % EXPORTS.len()];
        let slices = lent.lend();
        // SAFETY: the slices are parts of separate buffers.
        let returned = unsafe { exports::call(arguments.call, export, &arguments.numbers, &slices) };
        check_return(export, returned, &expected)?;
        if export == Export::Number {
            expected.written.iter().for_each(|(place, bytes)| lent.expect(*place, bytes));
        }
        let difference = lent.difference();
        difference.map_or(Ok(()), |difference| Err(format!("after {export:?}, {difference}")))?;
    }
    Ok(expected)
}

fn check_return(export: Export, returned: u64, expected: &Outcome) -> Result<(), String> {
    let right = match export {
        Export::Number => expected.number.into(),
        Export::Bound => expected.bound,
        Export::Gates => expected.gates,
    };
    if returned == right {
        Ok(())
    } else {
        Err(format!("{export:?} is {returned} instead of {right}"))
    }
}
