//! Faults in lawful arguments: a number near or far beyond a limit, a wrong length, a bad word.

use crate::arguments::Arguments;
use crate::random::Random;
use reference::calls::{bytes_of, Number, Slice};

pub fn damage(arguments: &mut Arguments, random: &mut Random) {
    match random.below(4) {
        0 | 1 => damage_number(arguments, random),
        2 => damage_length(arguments, random),
        _ => damage_word(arguments, random),
    }
}

fn damage_number(arguments: &mut Arguments, random: &mut Random) {
    let roles = arguments.call.signature().numbers;
    let place = random.below(roles.len() as u64) as usize;
    let lawful = arguments.numbers[place];
    let shift = random.pick(&[28, 31, 32, 60, 61, 62, 63]);
    arguments.numbers[place] = match random.below(4) {
        0 => random.pick(&[0, lawful.wrapping_sub(1), lawful.wrapping_add(1), lawful << 1, u64::MAX]),
        1 => random.pick(&[lawful.wrapping_add(1 << shift), 1 << shift, (1 << 32) - 1, (1 << 63) - 1]),
        _ => near_limit(roles[place], arguments, random),
    };
    if random.one_in(2) {
        fit_lengths(arguments);
    }
}

fn near_limit(role: Number, arguments: &Arguments, random: &mut Random) -> u64 {
    let degree = arguments.number(Number::Degree);
    let base_log = arguments.number(Number::BaseLog);
    match role {
        Number::Degree => random.pick(&[0, 3, 6, 12, 1023, 1025, 1536, 2048]),
        Number::BaseLog => random.pick(&[0, 16, 17, 32, 33]),
        Number::Digits => random.pick(&[0, 32 / base_log.max(1) + 1, 33, (1 << 60) + 1]),
        Number::Weight => random.pick(&[degree, degree.saturating_add(1), (1 << 32) | degree, 1 << 32]),
        Number::ClassCount => random.pick(&[0, 1, 3, 12, 65535, 65537, 131072]),
        Number::Carried => random.pick(&[0, degree.saturating_add(1), degree, 1, 2]),
        Number::Depth => random.pick(&[11, 12, 17, 18, 63, 64, 65, 256]),
        Number::Position => random.pick(&[degree, degree.wrapping_sub(1), degree.saturating_add(1)]),
        Number::Bit => random.pick(&[2, 3, 255, 256]),
        Number::Amplitude => random.pick(&[1 << 31, (1 << 31) + 1, 1 << 32]),
    }
}

/// Gives every slice the length that goes with the numbers, lawful or not, while it is short.
fn fit_lengths(arguments: &mut Arguments) {
    let lengths = arguments.call.exact_lengths(&arguments.numbers);
    if lengths.iter().any(|&words| words > 1 << 14) {
        return;
    }
    for (slice, &words) in arguments.slices.iter_mut().zip(&lengths) {
        slice.resize(4 * words as usize, 0);
    }
}

fn damage_length(arguments: &mut Arguments, random: &mut Random) {
    let place = random.below(arguments.slices.len() as u64) as usize;
    let length = arguments.slices[place].len();
    let shorter = [1, 2, 3, 4, length / 2, length].map(|bytes| length.saturating_sub(bytes));
    let longer = [1, 2, 3, 4, length].map(|bytes| length + bytes);
    let changed = if random.one_in(2) { random.pick(&shorter) } else { random.pick(&longer) };
    arguments.slices[place].resize(changed, 0);
}

/// Puts a bad word into a slice that can have one, or changes a length if there is no such slice.
fn damage_word(arguments: &mut Arguments, random: &mut Random) {
    let roles = [Slice::Key, Slice::ClassList, Slice::Amplitudes, Slice::SampleAmplitudes];
    let places: Vec<usize> = roles.iter().flat_map(|&role| arguments.places(role)).collect();
    let filled = |&place: &usize| arguments.slices[place].len() >= 4;
    let places: Vec<usize> = places.into_iter().filter(filled).collect();
    if places.is_empty() {
        return damage_length(arguments, random);
    }
    let place = random.pick(&places);
    let bad = bad_word(arguments.call.signature().slices[place], arguments, random);
    let slice = &mut arguments.slices[place];
    let start = 4 * random.below(slice.len() as u64 / 4) as usize;
    slice[start..start + 4].copy_from_slice(&bytes_of(&[bad]));
}

fn bad_word(role: Slice, arguments: &Arguments, random: &mut Random) -> i64 {
    let class_count = i64::from(arguments.number(Number::ClassCount) as u32);
    let far = random.pick(&[1 << 31, (1 << 32) - 1]);
    match role {
        Slice::Key => random.pick(&[2, 3, 256, 257, 65536, 1 << 24, far]),
        Slice::ClassList => {
            random.pick(&[class_count, class_count, class_count + 1, class_count + 65536, far])
        }
        _ => random.pick(&[1 << 31, (1 << 31) + 1, (1 << 32) - 1]),
    }
}
