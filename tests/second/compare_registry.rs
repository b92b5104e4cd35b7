//! Hands random calls on a registry's record to another program, many at a time, and compares its answers and
//! records with those here.

use crate::comparison;
use crate::program;
use crate::random::Random;
use crate::registry_calls::sequence::{sequence, Step};
use crate::registry_calls::{Call, NAMES};
use std::collections::BTreeMap;
use std::io;

/// How many octets the calls compared had, how often each answer came up, of each kind of call, and how many
/// calls were on damaged records.
#[derive(Default)]
pub struct Tally {
    octets: usize,
    answers: BTreeMap<(&'static str, String), usize>,
    damaged: usize,
}

impl Tally {
    fn count(&mut self, step: &Step) {
        let key = (step.call.name(), in_short(step));
        *self.answers.entry(key).or_default() += 1;
        self.damaged += usize::from(step.damaged);
    }
}

/// The answer without the place of a port.
fn in_short(step: &Step) -> String {
    match (step.reply.answer, &step.call) {
        (0, Call::Ask { .. }) => "none".to_string(),
        (0, _) => "accepted".to_string(),
        (number @ 1..=0xffff, _) => format!("refused {number}"),
        _ => "port".to_string(),
    }
}

impl comparison::Tally for Tally {
    const COMPARED: &'static str = "calls of a registry compared";

    fn of(program: &str, count: usize, seed: u64) -> io::Result<Option<Tally>> {
        let mut tally = Tally::default();
        let equal = comparison::in_batches(program, count, seed, |batch: &Batch, octets| {
            tally.octets += octets;
            batch.0.iter().for_each(|step| tally.count(step));
        })?;
        Ok(equal.then_some(tally))
    }

    fn octets(&self) -> usize {
        self.octets
    }

    fn print(&self) {
        for name in NAMES {
            for ((_, answer), count) in self.answers.iter().filter(|((kind, _), _)| *kind == name) {
                println!("{name}: {answer} {count}");
            }
        }
        println!("on damaged records {}", self.damaged);
    }
}

/// Calls for one run of the program, with the records before them and the replies.
struct Batch(Vec<Step>);

impl comparison::Batch for Batch {
    const SIZE: usize = 1_000;
    const NAME: &'static str = "registry";

    fn new(random: &mut Random, size: usize) -> Batch {
        Batch(sequence(random, size))
    }

    fn octets(&self) -> Vec<u8> {
        octets(&self.0)
    }

    fn replies(&self) -> Vec<Vec<u8>> {
        self.0.iter().map(|step| step.reply.octets()).collect()
    }

    fn report(&self, name: &str, index: usize) -> io::Result<()> {
        report(name, &self.0[..=index])
    }

    fn print_both(&self, index: usize, theirs: &[u8]) {
        print_both(&self.0[index], theirs);
    }
}

/// Calls as the program reads them.
fn octets(steps: &[Step]) -> Vec<u8> {
    steps.iter().flat_map(|step| step.call.octets()).collect()
}

/// Keeps the calls from the last record that was set up to the last one of these in a file, and says what that
/// one is.
fn report(name: &str, steps: &[Step]) -> io::Result<()> {
    let is_set = |step: &Step| matches!(step.call, Call::Set(_));
    let start = steps.iter().rposition(is_set).unwrap_or(0);
    let steps = &steps[start..];
    let path = program::keep(name, &octets(steps))?;
    println!(
        "second: a difference at the last of {} calls, which are in {}",
        steps.len(),
        path.display()
    );
    let step = &steps[steps.len() - 1];
    println!("record before: \"{}\"", step.before.escape_ascii());
    match &step.call {
        Call::Set(_) => println!("call: set"),
        call => println!("call: {call:?}"),
    }
    Ok(())
}

/// Prints both answers, and where the records part.
fn print_both(step: &Step, theirs: &[u8]) {
    let mut parts = theirs.splitn(2, |&octet| octet == b'\n');
    let line = parts.next().unwrap_or_default();
    let ours = step.reply.octets();
    let mut our_parts = ours.splitn(2, |&octet| octet == b'\n');
    let our_line = our_parts.next().unwrap_or_default();
    println!("answer: second program \"{}\"", our_line.escape_ascii());
    println!("answer: compared program \"{}\"", line.escape_ascii());
    if line.ends_with(b" changed") && our_line.ends_with(b" changed") {
        let record = our_parts.next().unwrap_or_default();
        let theirs = parts.next().unwrap_or_default();
        let theirs = &theirs[..theirs.len().min(record.len())];
        program::print_difference("the record", record, theirs);
    }
}
