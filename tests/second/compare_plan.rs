//! Hands random calls that check a plan to another program, many at a time, and compares its answers with
//! those found here.

use crate::comparison;
use crate::plan::answer;
use crate::plan_calls::{self, Call};
use crate::program;
use crate::random::Random;
use std::collections::BTreeMap;
use std::io;

/// How many octets the calls compared had, and how often each number came up, 0 where accepted.
#[derive(Default)]
pub struct Tally {
    octets: usize,
    numbers: BTreeMap<u64, usize>,
}

impl Tally {
    fn count(&mut self, call: &Call) {
        let number = answer(&call.messages, &call.subscriptions, &call.plan).number();
        *self.numbers.entry(number).or_default() += 1;
    }
}

impl comparison::Tally for Tally {
    const COMPARED: &'static str = "calls compared";

    fn of(program: &str, count: usize, seed: u64) -> io::Result<Option<Tally>> {
        let mut tally = Tally::default();
        let equal = comparison::in_batches(program, count, seed, |batch: &Batch, octets| {
            tally.octets += octets;
            batch.calls.iter().for_each(|call| tally.count(call));
        })?;
        Ok(equal.then_some(tally))
    }

    fn octets(&self) -> usize {
        self.octets
    }

    fn print(&self) {
        for (number, count) in &self.numbers {
            match number {
                0 => println!("accepted {count}"),
                _ => println!("refused {number} {count}"),
            }
        }
    }
}

/// Calls for one run of the program.
struct Batch {
    calls: Vec<Call>,
}

impl comparison::Batch for Batch {
    const SIZE: usize = 5_000;
    const NAME: &'static str = "plan";

    fn new(random: &mut Random, size: usize) -> Batch {
        let calls = (0..size).map(|_| plan_calls::call(random)).collect();
        Batch { calls }
    }

    fn octets(&self) -> Vec<u8> {
        self.calls.iter().flat_map(Call::octets).collect()
    }

    fn replies(&self) -> Vec<Vec<u8>> {
        self.calls.iter().map(Call::reply).collect()
    }

    fn report(&self, name: &str, index: usize) -> io::Result<()> {
        let Call {
            messages,
            subscriptions,
            plan,
        } = &self.calls[index];
        let path = program::keep(name, &self.calls[index].octets())?;
        println!("second: a difference, the call is in {}", path.display());
        println!("messages \"{}\"", messages.escape_ascii());
        println!("subscriptions \"{}\"", subscriptions.escape_ascii());
        println!("plan \"{}\"", plan.escape_ascii());
        Ok(())
    }

    fn print_both(&self, index: usize, theirs: &[u8]) {
        let line = theirs.split(|&octet| octet == b'\n').next();
        let ours = self.calls[index].reply();
        println!(
            "answer: second program {}, compared program {}",
            ours.trim_ascii_end().escape_ascii(),
            line.unwrap_or_default().escape_ascii()
        );
    }
}
