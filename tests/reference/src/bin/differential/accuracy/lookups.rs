//! A whole lookup: selectors, hidden table and sample of the library's making, phases in plain arithmetic.

use super::adversary::{block, digits_of, random_words, Signs, Target};
use super::Measured;
use crate::noise::{self, Plan};
use crate::parameters::{Effort, Parameters};
use crate::random::Random;
use crate::{lawful, library};
use reference::calls::Call;
use reference::classes::Classes;
use reference::lookup::Packing;
use reference::polynomial::{difference, rotated, zero};
use reference::trlwe::Sample;

struct Job {
    call: Call,
    parameters: Parameters,
    /// How many selectors rotate.
    rotating: usize,
    key: Vec<i64>,
    table: Vec<i64>,
    /// The entry that is looked up.
    entry: usize,
    amplitudes: Vec<i64>,
    signs: Signs,
    target: Target,
}

impl Job {
    fn draw(call: Call, effort: Effort, random: &mut Random) -> Job {
        let packing = call.packing().expect("a call with a table");
        let parameters = noise::parameters(call, effort, Plan::Below, random);
        let degree = parameters.degree as usize;
        let count = parameters.carried as usize * (1 << parameters.depth);
        let mut job = Job {
            call,
            parameters,
            rotating: packing.rotating(parameters.degree, parameters.depth) as usize,
            key: lawful::key(degree, parameters.weight, random),
            table: lawful::class_list(count, parameters.class_count, random),
            entry: random.below(1 << parameters.depth) as usize,
            amplitudes: noise::amplitudes(call, &parameters, Plan::Below, random),
            signs: Signs::draw(random),
            target: Target::draw(degree, random),
        };
        if let Some(last) = job.aligned() {
            let all = job.amplitudes.iter().sum();
            job.amplitudes.fill(0);
            job.amplitudes[last] = all;
        }
        job
    }

    /// The selector whose errors are aligned with the digits that it meets, if one is to be: that of the last
    /// gate. Selectors that rotate come after the others.
    fn aligned(&self) -> Option<usize> {
        let last = if self.rotating > 0 { self.rotating } else { self.amplitudes.len() }.checked_sub(1);
        last.filter(|_| self.signs == Signs::Aligned)
    }

    /// How many classes a sample of the table holds, which sample has the entry, and by how many places the lookup
    /// rotates it.
    fn place(&self) -> (usize, usize, usize) {
        let held = (self.parameters.carried as usize) << self.rotating;
        (held, self.entry >> self.rotating, self.entry % (1 << self.rotating))
    }

    /// The table as the call takes it: its classes, or encrypted samples and the amplitude of each. Where noise is
    /// to add up, the sample with the entry has the greatest one.
    fn lent_table(&self, random: &mut Random) -> Result<Vec<Vec<i64>>, String> {
        if !self.call.hides() {
            return Ok(vec![self.table.clone()]);
        }
        let (held, named, _) = self.place();
        let count = self.table.len() / held;
        let mut amplitudes =
            noise::sample_amplitudes(&self.parameters, Plan::Below, &self.amplitudes, count, random);
        if self.signs == Signs::Aligned {
            let greatest = (0..count).max_by_key(|&t| amplitudes[t]).expect("a table has a sample");
            amplitudes.swap(named, greatest);
        }
        let lists = self.table.chunks(held).zip(&amplitudes);
        let samples: Result<Vec<_>, _> =
            lists.map(|(list, &amplitude)| self.encrypt(list, amplitude, random)).collect();
        Ok(vec![samples?.concat(), amplitudes])
    }

    /// A sample of the library's making. The lookup's rotation brings its errors to the target.
    fn encrypt(&self, list: &[i64], amplitude: i64, random: &mut Random) -> Result<Vec<i64>, String> {
        let degree = self.key.len();
        let (_, _, places) = self.place();
        let errors = self.target.sample_errors(self.signs, amplitude, degree, random);
        let errors = difference(&zero(degree), &rotated(&errors, degree - places));
        let numbers = [self.parameters.degree, self.parameters.class_count, list.len() as u64];
        let read = [self.key.clone(), random_words(degree, random), errors, list.to_vec()];
        library::encrypt(Call::EncryptClasses, &numbers, &read, amplitude)
    }

    /// The sample and the bound of a lookup with these blocks in a table.
    fn look_up(&self, blocks: &[Vec<i64>], table: &[Vec<i64>]) -> Result<(Sample, i64), String> {
        let Parameters { degree, base_log, digits, weight, class_count, carried, depth } = self.parameters;
        let numbers = [degree, base_log, digits, weight, class_count, carried, depth];
        let read = [&[blocks.concat(), self.amplitudes.clone()], table].concat();
        let made = library::call(self.call, &numbers, &read)?;
        Ok((Sample::from_words(&made.written[0]), made.bound))
    }

    /// The digits that the selector of the last gate meets. With a block of zeros it picks the first of its two
    /// samples as it is. The second is that one rotated, or what the other half of the table comes to.
    fn met_digits(
        &self,
        last: usize,
        blocks: &[Vec<i64>],
        table: &[Vec<i64>],
    ) -> Result<Vec<Vec<i64>>, String> {
        let gadget = self.parameters.gadget();
        let mut blocks = blocks.to_vec();
        blocks[last].fill(0);
        let (first, _) = self.look_up(&blocks, table)?;
        let second = if self.rotating > 0 {
            first.rotated(1 << last)
        } else {
            let exchanged = |slice: &Vec<i64>| {
                let (left, right) = slice.split_at(slice.len() / 2);
                [right, left].concat()
            };
            self.look_up(&blocks, &table.iter().map(exchanged).collect::<Vec<_>>())?.0
        };
        Ok(digits_of(gadget, &second.minus(&first)))
    }

    /// The block of selector i, against the digits that it meets.
    fn block(&self, i: usize, met: &[Vec<i64>], random: &mut Random) -> Result<Vec<i64>, String> {
        let Parameters { degree, base_log, digits, .. } = self.parameters;
        let amplitude = self.amplitudes[i];
        let row = |digits: &Vec<i64>| self.target.errors(self.signs, amplitude, digits, random);
        let errors: Vec<Vec<i64>> = met.iter().map(row).collect();
        let bit = self.entry as u64 >> i & 1;
        block(&[degree, base_log, digits, bit], &self.key, &errors, amplitude, random)
    }

    /// Blocks of the bits of the entry's number, selector 0 first.
    fn blocks(&self, table: &[Vec<i64>], random: &mut Random) -> Result<Vec<Vec<i64>>, String> {
        let unknown = vec![zero(self.key.len()); 2 * self.parameters.digits as usize];
        let selectors = 0..self.amplitudes.len();
        let mut blocks: Vec<Vec<i64>> =
            selectors.map(|i| self.block(i, &unknown, random)).collect::<Result<_, _>>()?;
        if let Some(last) = self.aligned() {
            let met = self.met_digits(last, &blocks, table)?;
            blocks[last] = self.block(last, &met, random)?;
        }
        Ok(blocks)
    }

    /// The classes of the entry, and what the sample that is looked up should hold: the message of the table's
    /// sample with this entry, rotated.
    fn exact(&self) -> (&[i64], Vec<i64>) {
        let (held, sample, places) = self.place();
        let part = |size: usize, number: usize| &self.table[number * size..(number + 1) * size];
        let message = Classes::new(self.parameters.class_count).message(part(held, sample), self.key.len());
        (part(self.parameters.carried as usize, self.entry), rotated(&message, places))
    }

    fn decrypt(&self, sample: &Sample) -> Result<Vec<i64>, String> {
        let Parameters { degree, class_count, carried, .. } = self.parameters;
        let read = [self.key.clone(), sample.words()];
        let made = library::call(Call::DecryptClasses, &[degree, class_count, carried], &read)?;
        Ok(made.written.concat())
    }

    /// Whether its noise counts. A vertical lookup in which nothing rotates tells no more than one of the other
    /// packing, and a hidden table with small errors no more than a public one.
    fn counts(&self, brought: i64, bound: i64) -> bool {
        let rotates = self.rotating > 0 || self.call.packing() == Some(Packing::Horizontal);
        rotates && (!self.call.hides() || 4 * brought >= bound)
    }
}

pub fn run(call: Call, effort: Effort, random: &mut Random) -> Result<Measured, String> {
    let job = Job::draw(call, effort, random);
    let table = job.lent_table(random)?;
    let blocks = job.blocks(&table, random)?;
    let (sample, bound) = job.look_up(&blocks, &table)?;
    let (named, exact) = job.exact();
    let found = job.decrypt(&sample)?;
    if found != named {
        return Err(format!("classes {found:?} instead of {named:?}, {:?}", job.parameters));
    }
    let measured = Measured::new(job.parameters, &sample.phase(&job.key), &exact, bound)?;
    let brought = table.get(1).and_then(|amplitudes| amplitudes.iter().copied().max()).unwrap_or(0);
    Ok(Measured { brought, counts: job.counts(brought, bound), ..measured })
}
