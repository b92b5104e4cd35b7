//! Hands random calls to another program, many at a time, and compares its answers and targets with
//! those of the encoder here.

use crate::block::{self, Entry};
use crate::calls;
use crate::comparison;
use crate::encode::Options;
use crate::encode_calls::{Call, Reply};
use crate::item::CR;
use crate::program;
use crate::random::Random;
use crate::version::BOTH;
use std::collections::BTreeMap;
use std::io;

/// The number of the first refusal.
const FIRST_CODE: usize = 50;

/// The number of the last one.
const LAST_CODE: usize = 56;

/// How many octets the calls compared had, and how often each answer came up, in each version, without the mark
/// and with it: images, of which those that hold 13 are counted too, and each refusal by its number.
#[derive(Default)]
pub struct Tally {
    octets: usize,
    answers: BTreeMap<(String, &'static str, bool), usize>,
}

impl Tally {
    fn count(&mut self, call: &Call, reply: &Reply) {
        let name = match reply.answer / 65_536 {
            0 if holds_13(call) => WITH_13.to_string(),
            0 => WITHOUT_13.to_string(),
            code => refused(code),
        };
        let Options { counted, version } = call.asked_for();
        let key = (name, version.name(), counted);
        *self.answers.entry(key).or_default() += 1;
    }

    /// How often an answer came up, in the order in which it is printed.
    fn counts(&self, name: &str) -> Vec<String> {
        let mut counts = Vec::new();
        for version in BOTH {
            for counted in [false, true] {
                let key = (name.to_string(), version.name(), counted);
                let count = self.answers.get(&key).unwrap_or(&0);
                let mark = if counted { " with the mark" } else { "" };
                counts.push(format!("{}{mark} {count}", version.name()));
            }
        }
        counts
    }
}

const WITHOUT_13: &str = "image of headers without 13";
const WITH_13: &str = "image of headers with 13";

/// Whether a name or a value of the call holds 13.
fn holds_13(call: &Call) -> bool {
    let holds = |entry: &Entry| [&entry.name[..], &entry.value].concat().contains(&CR);
    block::read(&call.block).is_some_and(|entries| entries.iter().any(holds))
}

fn refused(code: usize) -> String {
    format!("refused {code}")
}

impl comparison::Tally for Tally {
    const COMPARED: &'static str = "calls compared";

    fn of(program: &str, count: usize, seed: u64) -> io::Result<Option<Tally>> {
        let mut tally = Tally::default();
        let equal = comparison::in_batches(program, count, seed, |batch: &Batch, octets| {
            tally.octets += octets;
            let replied = batch.calls.iter().zip(&batch.replies);
            replied.for_each(|(call, reply)| tally.count(call, reply));
        })?;
        Ok(equal.then_some(tally))
    }

    fn octets(&self) -> usize {
        self.octets
    }

    fn print(&self) {
        let mut names = vec![WITHOUT_13.to_string(), WITH_13.to_string()];
        names.extend((FIRST_CODE..=LAST_CODE).map(refused));
        for name in names {
            println!("{name}: {}", self.counts(&name).join(", "));
        }
    }
}

/// Calls for one run of the program, and their replies.
struct Batch {
    calls: Vec<Call>,
    replies: Vec<Reply>,
}

impl comparison::Batch for Batch {
    const SIZE: usize = 500;
    const NAME: &'static str = "encode";

    fn new(random: &mut Random, size: usize) -> Batch {
        let calls: Vec<Call> = (0..size).map(|_| calls::call(random)).collect();
        let replies = calls.iter().map(Reply::of).collect();
        Batch { calls, replies }
    }

    fn octets(&self) -> Vec<u8> {
        self.calls.iter().flat_map(Call::octets).collect()
    }

    fn replies(&self) -> Vec<Vec<u8>> {
        self.replies.iter().map(Reply::octets).collect()
    }

    fn report(&self, name: &str, index: usize) -> io::Result<()> {
        report(name, &self.calls[index])
    }

    fn print_both(&self, index: usize, theirs: &[u8]) {
        print_both(&self.replies[index], theirs);
    }
}

/// Keeps the call in a file and says what it is.
fn report(name: &str, call: &Call) -> io::Result<()> {
    let path = program::keep(name, &call.octets())?;
    println!("second: a difference, the call is in {}", path.display());
    println!(
        "options {}, command {}, header block of {} octets, body of {}, target of {}",
        call.options,
        call.command,
        call.block.len(),
        call.body.len(),
        call.room
    );
    Ok(())
}

/// Prints both answers, and the targets from where they part.
fn print_both(ours: &Reply, theirs: &[u8]) {
    let mut parts = theirs.splitn(2, |&octet| octet == b'\n');
    let answer = parts.next().unwrap_or_default().escape_ascii();
    println!(
        "answer: second program {}, compared program {answer}",
        ours.answer
    );
    let ours = [&ours.target[..], b"\n"].concat();
    let theirs = parts.next().unwrap_or_default();
    let theirs = &theirs[..theirs.len().min(ours.len())];
    program::print_difference("the target with its LF", &ours, theirs);
}
