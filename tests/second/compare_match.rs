//! Hands random calls of the matcher to another program, many at a time, and compares its answers with
//! those of the matcher here.

use crate::comparison;
use crate::program;
use crate::random::Random;
use crate::topic::{answer, Answer};
use crate::topic_calls::{self, Call};
use std::io;

/// How many octets the calls compared had, and how often each answer came up.
#[derive(Default)]
pub struct Tally {
    octets: usize,
    no: usize,
    yes: usize,
    malformed_name: usize,
    malformed_pattern: usize,
}

impl Tally {
    fn count(&mut self, call: &Call) {
        match answer(&call.name, &call.pattern) {
            Answer::No => self.no += 1,
            Answer::Yes => self.yes += 1,
            Answer::MalformedName => self.malformed_name += 1,
            Answer::MalformedPattern => self.malformed_pattern += 1,
        }
    }
}

impl comparison::Tally for Tally {
    const COMPARED: &'static str = "calls compared";

    fn of(program: &str, count: usize, seed: u64) -> io::Result<Option<Tally>> {
        let mut tally = Tally::default();
        let equal = comparison::in_batches(program, count, seed, |batch: &Batch, octets| {
            tally.octets += octets;
            batch.calls.iter().for_each(|call| tally.count(call));
        })?;
        Ok(equal.then_some(tally))
    }

    fn octets(&self) -> usize {
        self.octets
    }

    fn print(&self) {
        println!("yes {}", self.yes);
        println!("no {}", self.no);
        println!("refused 80 {}", self.malformed_name);
        println!("refused 81 {}", self.malformed_pattern);
    }
}

/// Calls for one run of the program.
struct Batch {
    calls: Vec<Call>,
}

impl comparison::Batch for Batch {
    const SIZE: usize = 5_000;
    const NAME: &'static str = "match";

    fn new(random: &mut Random, size: usize) -> Batch {
        let calls = (0..size).map(|_| topic_calls::call(random)).collect();
        Batch { calls }
    }

    fn octets(&self) -> Vec<u8> {
        self.calls.iter().flat_map(Call::octets).collect()
    }

    fn replies(&self) -> Vec<Vec<u8>> {
        self.calls.iter().map(Call::reply).collect()
    }

    fn report(&self, name: &str, index: usize) -> io::Result<()> {
        let Call {
            name: text,
            pattern,
        } = &self.calls[index];
        let path = program::keep(name, &self.calls[index].octets())?;
        println!("second: a difference, the call is in {}", path.display());
        println!("name \"{}\"", text.escape_ascii());
        println!("pattern \"{}\"", pattern.escape_ascii());
        Ok(())
    }

    fn print_both(&self, index: usize, theirs: &[u8]) {
        let line = theirs.split(|&octet| octet == b'\n').next();
        let call = &self.calls[index];
        println!(
            "answer: second program {}, compared program {}",
            answer(&call.name, &call.pattern).packed(),
            line.unwrap_or_default().escape_ascii()
        );
    }
}
