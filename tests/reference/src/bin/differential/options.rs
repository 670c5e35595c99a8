//! The command line.

/// What is compared: random calls, the accuracy rule, or extreme words in large calls.
#[derive(Clone, Copy, PartialEq, Eq)]
pub enum Part {
    Calls,
    Accuracy,
    Extremes,
}

pub struct Options {
    pub part: Part,
    /// Calls of exports, or jobs.
    pub count: u64,
    pub seed: u64,
    /// One case or job alone.
    pub only: Option<u64>,
}

impl Options {
    pub fn parse(words: impl Iterator<Item = String>) -> Result<Options, String> {
        let mut words = words.peekable();
        let part = match words.peek().map(String::as_str) {
            Some("accuracy") => Part::Accuracy,
            Some("extremes") => Part::Extremes,
            _ => Part::Calls,
        };
        if part != Part::Calls {
            words.next();
        }
        let (counted, count) = match part {
            Part::Calls => (Some("--calls"), 200_000),
            Part::Accuracy => (Some("--jobs"), 10_000),
            Part::Extremes => (None, 0),
        };
        let mut options = Options { part, count, seed: 1, only: None };
        while let Some(name) = words.next() {
            let value = words.next().and_then(|text| text.parse().ok());
            let value = value.ok_or(format!("{name} needs a number"))?;
            match name.as_str() {
                "--seed" => options.seed = value,
                "--only" => options.only = Some(value),
                known if Some(known) == counted => options.count = value,
                _ => return Err(format!("unknown option {name}")),
            }
        }
        Ok(options)
    }
}
