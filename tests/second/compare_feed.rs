//! Hands streams in pieces to another program, many at a time, and versions between them, and compares its
//! answers, records and buffers with those of the stream parser here.

use crate::comparison;
use crate::feed::record::version_of;
use crate::feed::{Fed, INVALID_RECORD, SHORT_BUFFER};
use crate::feed_calls::sequence::{sequence, Step};
use crate::feed_calls::{Call, Due, Reply, Told};
use crate::item::{Answer, Item};
use crate::program;
use crate::random::Random;
use crate::table::NUMBERS;
use crate::version::{Version, BOTH};
use std::collections::BTreeMap;
use std::io;

/// How many octets the calls compared had, and how often each answer came up, in each version; a version that is
/// no version of a record is none. The answers to records that no call leaves are not counted apart.
#[derive(Default)]
pub struct Tally {
    octets: usize,
    answers: BTreeMap<(String, Option<Version>), usize>,
}

impl Tally {
    fn count(&mut self, step: &Step) {
        if let Some(outcome) = outcome(&step.due) {
            *self.answers.entry(outcome).or_default() += 1;
        }
    }

    fn counted(&self, name: &str, version: Option<Version>) -> usize {
        let key = (name.to_string(), version);
        self.answers.get(&key).copied().unwrap_or(0)
    }
}

/// What is due, in words, and in which version.
pub fn outcome(due: &Due) -> Option<(String, Option<Version>)> {
    Some(match due {
        Due::Nothing => return None,
        Due::Exactly { fed, reply } => (name(*fed), version_of(&reply.record)),
        Due::Told(told) => (name_of_told(told), version_of(&told.record)),
        Due::Any(_) => (ANY.to_string(), None),
        Due::AnyTold(_) => (ANY_TOLD.to_string(), None),
    })
}

const ANY: &str = "any answer";
const ANY_TOLD: &str = "told, any answer";
const TAKEN: &str = "told, taken";
const NOT_TAKEN: &str = "told, not taken";

fn name_of_told(told: &Told) -> String {
    let name = if told.taken { TAKEN } else { NOT_TAKEN };
    name.to_string()
}

fn name(fed: Fed) -> String {
    match fed.reply {
        Answer::Complete(Item::HeartBeat { .. }) => "beat".to_string(),
        Answer::Complete(Item::Frame(_)) => "frame".to_string(),
        Answer::Incomplete => "more".to_string(),
        Answer::Invalid { code, .. } => format!("refused {code}"),
    }
}

impl comparison::Tally for Tally {
    const COMPARED: &'static str = "streams in pieces compared";

    fn of(program: &str, count: usize, seed: u64) -> io::Result<Option<Tally>> {
        let mut tally = Tally::default();
        let equal = comparison::in_batches(program, count, seed, |batch: &Batch, octets| {
            tally.octets += octets;
            batch.0.iter().for_each(|step| tally.count(step));
        })?;
        Ok(equal.then_some(tally))
    }

    fn octets(&self) -> usize {
        self.octets
    }

    fn print(&self) {
        let mut names = ["beat", "frame", "more"].map(str::to_string).to_vec();
        names.extend((1..=NUMBERS).map(|code| format!("refused {code}")));
        names.extend([SHORT_BUFFER, INVALID_RECORD].map(|code| format!("refused {code}")));
        names.extend([TAKEN, NOT_TAKEN].map(str::to_string));
        for name in names {
            let [new, old] = BOTH.map(|version| self.counted(&name, Some(version)));
            let none = self.counted(&name, None);
            println!("{name}: 1.2 {new}, 1.1 {old}, of no version {none}");
        }
        for name in [ANY, ANY_TOLD] {
            println!("{name}: {}", self.counted(name, None));
        }
    }
}

/// The calls for some streams, with what is due to them.
struct Batch(Vec<Step>);

impl comparison::Batch for Batch {
    const SIZE: usize = 100;
    const NAME: &'static str = "feed";

    fn new(random: &mut Random, size: usize) -> Batch {
        Batch(sequence(random, size))
    }

    fn octets(&self) -> Vec<u8> {
        octets(&self.0)
    }

    fn replies(&self) -> Vec<Vec<u8>> {
        let reply = |step: &Step| match &step.due {
            Due::Exactly { reply, .. } => reply.octets(),
            Due::Told(told) => told.octets(),
            Due::Nothing | Due::Any(_) | Due::AnyTold(_) => Vec::new(),
        };
        self.0.iter().map(reply).collect()
    }

    fn length_of_reply(&self, index: usize, reply: &[u8], output: &[u8]) -> Option<usize> {
        match &self.0[index].due {
            Due::Any(bounds) => {
                let (reply, length) = Reply::read(output)?;
                bounds.allow(&reply).then_some(length)
            }
            Due::AnyTold(bounds) => {
                let (told, length) = Told::read(output)?;
                bounds.allow(&told).then_some(length)
            }
            _ => output.starts_with(reply).then_some(reply.len()),
        }
    }

    fn report(&self, name: &str, index: usize) -> io::Result<()> {
        report(name, &self.0[..=index])
    }

    fn print_both(&self, index: usize, theirs: &[u8]) {
        print_both(&self.0[index].due, theirs);
    }
}

/// Calls as the program reads them.
fn octets(steps: &[Step]) -> Vec<u8> {
    steps.iter().flat_map(|step| step.call.octets()).collect()
}

/// Keeps the calls from the last fresh parser up to the last one of these in a file, and says what they
/// are.
fn report(name: &str, steps: &[Step]) -> io::Result<()> {
    let is_fresh = |step: &Step| matches!(step.call, Call::Fresh { .. });
    let start = steps.iter().rposition(is_fresh).unwrap_or(0);
    let steps = &steps[start..];
    let path = program::keep(name, &octets(steps))?;
    println!(
        "second: a difference at the last of {} calls, which are in {}",
        steps.len(),
        path.display()
    );
    for step in &steps[steps.len().saturating_sub(20)..] {
        print_call(&step.call);
    }
    Ok(())
}

fn print_call(call: &Call) {
    match call {
        Call::Feed { piece } => {
            let front = &piece[..piece.len().min(100)];
            println!("  feed {}: \"{}\"", piece.len(), front.escape_ascii());
        }
        other => println!("  {other:?}"),
    }
}

/// Prints both replies where they part.
fn print_both(due: &Due, theirs: &[u8]) {
    let Due::Exactly { fed, reply } = due else {
        println!("due: {due:?}");
        let octets = match due {
            Due::Told(told) => told.octets(),
            _ => Vec::new(),
        };
        program::print_difference("the reply", &octets, theirs);
        return;
    };
    println!("due: {fed:?}");
    let Some((read, _)) = Reply::read(theirs) else {
        program::print_difference("the reply", &reply.octets(), theirs);
        return;
    };
    println!(
        "answer: second program {}, compared program {}",
        reply.answer, read.answer
    );
    println!(
        "sum: second program {}, compared program {}",
        reply.sum, read.sum
    );
    program::print_difference("the record", &reply.record, &read.record);
    program::print_difference("the buffer's front", &reply.front, &read.front);
}
