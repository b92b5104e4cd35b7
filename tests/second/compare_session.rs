//! Hands random calls of a session to another program, many at a time, and compares its answers and
//! session records with those here.

use crate::block;
use crate::comparison;
use crate::item::Command;
use crate::program;
use crate::random::Random;
use crate::session::frame::{opens, settles};
use crate::session::opening::{Flags, VERSIONS};
use crate::session::record::{Record, LENGTH};
use crate::session::{Phase, MAX_ID};
use crate::session_calls::accounts::{self, Totals};
use crate::session_calls::sequence::{sequence, Step};
use crate::session_calls::{Call, NAMES};
use std::collections::BTreeMap;
use std::io;

/// The answers to a frame.
const FRAME: [&str; 19] = [
    "accepted",
    "accepted overwritten",
    "accepted receipt",
    "accepted receipt overwritten",
    "refused 31",
    "refused 32",
    "refused 33",
    "refused 38",
    "refused 39",
    "refused 40",
    "refused 41",
    "refused 42",
    "refused 43",
    "refused 44",
    "refused 45",
    "refused 46",
    "refused 47",
    "refused 49",
    "refused 60",
];

const HEART_BEAT: [&str; 3] = ["accepted", "refused 38", "refused 40"];

const TIMED_OUT: [&str; 3] = ["yes", "no", "refused 38"];

const DELIVER: [&str; 6] = [
    "recorded",
    "refused 38",
    "refused 61",
    "refused 62",
    "refused 63",
    "refused 64",
];

/// The answers to each kind of call, by its number; of `pending` without the texts, of `overwritten` without
/// the counts.
pub const ANSWERS: [&[&str]; 11] = [
    &["made", "refused 34"],
    &FRAME,
    &HEART_BEAT,
    &TIMED_OUT,
    &["set"],
    &FRAME,
    &HEART_BEAT,
    &TIMED_OUT,
    &DELIVER,
    &DELIVER,
    &["pending 1", "pending 2", "none", "refused 38"],
];

/// The answer without the texts of `pending` and the counts of `overwritten`.
pub fn in_short(answer: &str) -> String {
    let length = match answer.split_once(" overwritten") {
        Some((front, _)) => 1 + front.split(' ').count(),
        None => 2,
    };
    let words: Vec<&str> = answer.split(' ').take(length).collect();
    words.join(" ")
}

/// The parts of a record, with the octet that each begins at.
const PARTS: [(usize, &str); 17] = [
    (0, "phase"),
    (1, "sends"),
    (5, "wants"),
    (9, "offered"),
    (12, "shared"),
    (15, "client to server"),
    (19, "server to client"),
    (23, "last-heard"),
    (27, "subscription ids"),
    (539, "lengths of subscription ids"),
    (555, "transaction ids"),
    (683, "lengths of transaction ids"),
    (687, "labels"),
    (2_735, "lengths of labels"),
    (2_799, "places of their subscriptions"),
    (2_863, "modes"),
    (2_879, "count"),
];

/// How many octets the calls compared had, how often each answer came up, of each kind of call, what came up in
/// each version, and the accounts of the deliveries.
#[derive(Default)]
pub struct Tally {
    octets: usize,
    answers: BTreeMap<(&'static str, String), usize>,
    versions: BTreeMap<String, usize>,
    totals: Totals,
}

impl Tally {
    fn count(&mut self, step: &Step) {
        let key = (step.call.name(), in_short(&step.reply.answer));
        *self.answers.entry(key).or_default() += 1;
        if let Some(name) = of_version(step) {
            *self.versions.entry(name).or_default() += 1;
        }
    }
}

/// What a call tells of versions, if it does: those that are offered where a session is made, the one chosen where
/// it is opened, that of an open session that gets ACK or NACK, and a record that is invalid by those shared alone.
pub fn of_version(step: &Step) -> Option<String> {
    let answer = in_short(&step.reply.answer);
    if invalid_by_shared(&step.before) && answer == "refused 38" {
        return Some("refused 38 for the versions shared".to_string());
    }
    match &step.call {
        Call::Make { offered, .. } => Some(format!("{answer}, offering {}", names(*offered))),
        Call::Frame { command, block, .. } => {
            let command = Command::numbered(*command)?;
            let version = step.reply.record.version()?;
            if opens(command) && answer.starts_with("accepted") {
                let offered = names(step.before.state.offered);
                return Some(format!("opened in {version} of {offered}"));
            }
            confirmed(step, command, block)
        }
        _ => None,
    }
}

/// What an open session of each version answers to ACK and NACK; of 60 it is told where the label is that of
/// another subscription than the one named.
fn confirmed(step: &Step, command: Command, block: &[u8]) -> Option<String> {
    let session = step.before.session()?;
    if session.phase != Phase::Open || !settles(command) {
        return None;
    }
    let entries = block::read(block)?;
    let named = |name: &[u8]| entries.iter().find(|entry| entry.name == name);
    let pending = named(b"message-id").and_then(|entry| session.pending(&entry.value));
    let other = pending.is_some_and(|place| {
        let owner = &session.deliveries[place].subscription;
        named(b"subscription").is_some_and(|entry| entry.value != *owner)
    });
    let answer = in_short(&step.reply.answer);
    let version = session.version().name();
    let others = if other && answer == "refused 60" && version == "1.1" {
        " for another subscription's label"
    } else {
        ""
    };
    Some(format!("ACK and NACK in {version}: {answer}{others}"))
}

/// Whether nothing else makes the record invalid than the versions shared.
fn invalid_by_shared(record: &Record) -> bool {
    let mut other = record.clone();
    other.state.shared = other.state.offered;
    record.session().is_none() && other.session().is_some()
}

/// The versions that are marked.
fn names(flags: Flags) -> String {
    let marked = VERSIONS.iter().zip(flags).filter(|(_, flag)| *flag);
    let names: Vec<&str> = marked.map(|(name, _)| *name).collect();
    format!("[{}]", names.join(","))
}

impl comparison::Tally for Tally {
    const COMPARED: &'static str = "calls of a session compared";

    fn of(program: &str, count: usize, seed: u64) -> io::Result<Option<Tally>> {
        let mut tally = Tally::default();
        let equal = comparison::in_batches(program, count, seed, |batch: &Batch, octets| {
            tally.octets += octets;
            batch.0.iter().for_each(|step| tally.count(step));
            tally.totals.add(&accounts::of(&batch.0));
        })?;
        Ok(equal.then_some(tally))
    }

    fn octets(&self) -> usize {
        self.octets
    }

    fn print(&self) {
        for (kind, answers) in NAMES.iter().zip(ANSWERS) {
            for answer in answers {
                let count = self.answers.get(&(*kind, answer.to_string())).unwrap_or(&0);
                println!("{kind}: {answer} {count}");
            }
        }
        for (name, count) in &self.versions {
            println!("{name} {count}");
        }
        let totals = &self.totals;
        print!("accounts of {} sessions made: ", totals.lives);
        print!("{} deliveries made, ", totals.made);
        print!("{} acknowledged, ", totals.acknowledged);
        print!("{} refused by NACK, ", totals.refused);
        print!("{} dropped, ", totals.dropped);
        println!("{} pending", totals.pending);
    }
}

/// Calls for one run of the program, with the records before them and the replies.
struct Batch(Vec<Step>);

impl comparison::Batch for Batch {
    const SIZE: usize = 400;
    const NAME: &'static str = "session";

    fn new(random: &mut Random, size: usize) -> Batch {
        Batch(sequence(random, size))
    }

    fn octets(&self) -> Vec<u8> {
        octets(&self.0)
    }

    fn replies(&self) -> Vec<Vec<u8>> {
        self.0.iter().map(|step| step.reply.octets()).collect()
    }

    fn report(&self, name: &str, index: usize) -> io::Result<()> {
        report(name, &self.0[..=index])
    }

    fn print_both(&self, index: usize, theirs: &[u8]) {
        print_both(&self.0[index], theirs);
    }
}

/// Calls as the program reads them.
fn octets(steps: &[Step]) -> Vec<u8> {
    steps.iter().flat_map(|step| step.call.octets()).collect()
}

/// Keeps the run's calls up to the last one of these in a file, and says what that one is.
fn report(name: &str, steps: &[Step]) -> io::Result<()> {
    let path = program::keep(name, &octets(steps))?;
    let step = &steps[steps.len() - 1];
    println!(
        "second: a difference at the last of {} calls, which are in {}",
        steps.len(),
        path.display()
    );
    print_record(&step.before);
    print_call(&step.call);
    Ok(())
}

fn print_record(record: &Record) {
    println!("record before: phase {}, {:?}", record.phase, record.state);
    println!("  modes {:?}, count {}", record.modes, record.count);
    println!("  places of subscriptions {:?}", record.owners);
    let stores = [
        ("subscription", &record.subscriptions),
        ("transaction", &record.transactions),
        ("label", &record.labels),
    ];
    for (kind, store) in stores {
        let places = store.octets.chunks(MAX_ID).zip(&store.lengths);
        for (index, (octets, length)) in places.enumerate() {
            if *length != 0 || octets.iter().any(|&octet| octet != 0) {
                let octets = octets.escape_ascii();
                println!("  {kind} place {index}, length {length}: \"{octets}\"");
            }
        }
    }
}

fn print_call(call: &Call) {
    let Call::Frame {
        command,
        time,
        block,
        ..
    } = call
    else {
        println!("call: {call:?}");
        return;
    };
    let length = block.len();
    let name = call.name();
    println!("call: {name}, command {command}, time {time}, header block of {length} octets");
    let Some(entries) = block::read(block) else {
        println!("  malformed: \"{}\"", front(block));
        return;
    };
    for entry in entries.iter().take(20) {
        println!("  \"{}\": \"{}\"", front(&entry.name), front(&entry.value));
    }
}

/// The first octets of a text.
fn front(text: &[u8]) -> String {
    text[..text.len().min(100)].escape_ascii().to_string()
}

/// Prints both answers, and in what the records differ.
fn print_both(step: &Step, theirs: &[u8]) {
    let mut parts = theirs.splitn(2, |&octet| octet == b'\n');
    let line = parts.next().unwrap_or_default().escape_ascii();
    println!("answer: second program \"{}\"", step.reply.line());
    println!("answer: compared program \"{line}\"");
    let ours = [&step.reply.record.octets()[..], b"\n"].concat();
    let theirs = parts.next().unwrap_or_default();
    let theirs = &theirs[..theirs.len().min(LENGTH + 1)];
    let differs = |&index: &usize| ours.get(index) != theirs.get(index);
    if let Some(first) = (0..=LENGTH).find(differs) {
        let part = PARTS.iter().rfind(|(start, _)| *start <= first);
        let (_, name) = part.expect("a part");
        program::print_difference(&format!("the record in its {name}"), &ours, theirs);
    }
}
