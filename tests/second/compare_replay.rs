//! Runs another program on random streams of clients and compares what it says of each item with what
//! a session here answers.

use crate::comparison;
use crate::item::COMMANDS;
use crate::listing::End;
use crate::lives::{life, Life};
use crate::program::{self, Ran};
use crate::random::Random;
use crate::replay::{self, Replay, Said, Step};
use crate::session::delivery::Recorded;
use crate::session::{Answer, COUNTED};
use crate::version::{Version, BOTH};
use std::collections::BTreeMap;
use std::io::{self, Write};

/// The refusals of a session that is made and gets frames.
pub const NUMBERS: [usize; 13] = [31, 32, 33, 40, 41, 42, 43, 44, 45, 46, 47, 49, 60];

/// The refusals of such a session that is told of a delivery.
pub const RECORDING: [usize; 4] = [61, 62, 63, 64];

/// How many octets the streams compared had, how many were logs, how often each version was chosen, and what came
/// up in items that were read in each.
#[derive(Default)]
pub struct Tally {
    octets: usize,
    logs: usize,
    opened: BTreeMap<Version, usize>,
    outcomes: BTreeMap<Version, Outcomes>,
}

/// How often each outcome came up; of accepted frames, first those without a receipt, then those with one, and
/// those with later entries of each name counted.
#[derive(Default)]
struct Outcomes {
    beats: [usize; 2],
    accepted: [[usize; 2]; COMMANDS.len()],
    overwritten: [usize; COUNTED.len()],
    refused: [[usize; NUMBERS.len()]; COMMANDS.len()],
    delivered: usize,
    unrecorded: [usize; RECORDING.len()],
    ends: [usize; 3],
}

/// Counts a number in its column.
fn count_in(numbers: &[usize], counts: &mut [usize], number: usize) {
    let column = numbers.iter().position(|&known| known == number);
    counts[column.expect("a refusal that can be")] += 1;
}

impl Tally {
    fn count(&mut self, replay: &Replay) {
        let mut version = Version::V1_2;
        for step in &replay.steps {
            let outcomes = self.outcomes.entry(step.version).or_default();
            outcomes.count(step);
            if let Some((chosen, ..)) = step.opened {
                version = chosen;
                *self.opened.entry(chosen).or_default() += 1;
            }
        }
        let end = match replay.listing.end {
            End::Refused { .. } => 0,
            End::More => 1,
            End::Nothing => 2,
        };
        self.outcomes.entry(version).or_default().ends[end] += 1;
    }
}

impl Outcomes {
    fn count(&mut self, step: &Step) {
        match (step.command, step.said) {
            (_, Said::Recorded(recorded)) => self.count_delivery(recorded),
            (None, Said::Answer(answer)) => self.beats[usize::from(answer.is_err())] += 1,
            (Some(command), Said::Answer(answer)) => self.count_frame(command.0 - 1, answer),
        }
    }

    fn count_frame(&mut self, index: usize, answer: Answer) {
        match answer {
            Ok(accepted) => {
                self.accepted[index][usize::from(accepted.receipt)] += 1;
                let counts = self.overwritten.iter_mut().zip(accepted.later);
                counts.for_each(|(count, later)| *count += usize::from(later > 0));
            }
            Err(number) => count_in(&NUMBERS, &mut self.refused[index], number),
        }
    }

    fn count_delivery(&mut self, recorded: Recorded) {
        match recorded {
            Ok(()) => self.delivered += 1,
            Err(number) => count_in(&RECORDING, &mut self.unrecorded, number),
        }
    }

    fn print(&self, version: Version) {
        let version = version.name();
        let [accepted, refused] = self.beats;
        println!("{version} beat accepted {accepted}, refused 40 {refused}");
        for (index, [without, with]) in self.accepted.iter().enumerate() {
            let name = String::from_utf8_lossy(COMMANDS[index]);
            print!("{version} frame {} {name} accepted {without}", index + 1);
            print!(", with a receipt {with}, refused");
            let counts = NUMBERS.iter().zip(&self.refused[index]);
            print_counts(counts.filter(|(_, &count)| count > 0));
        }
        let [destinations, ids, transactions] = self.overwritten;
        print!("{version} frames accepted with a later destination {destinations}, ");
        println!("id {ids}, transaction {transactions}");
        let mut all = [0; NUMBERS.len()];
        for row in &self.refused {
            (0..all.len()).for_each(|column| all[column] += row[column]);
        }
        print!("{version} frames refused");
        print_counts(NUMBERS.iter().zip(&all));
        print!("{version} delivered {}, refused", self.delivered);
        print_counts(RECORDING.iter().zip(&self.unrecorded));
        let [refused, more, end] = self.ends;
        println!("{version} stream refused {refused}, more {more}, end {end}");
    }
}

impl comparison::Tally for Tally {
    const COMPARED: &'static str = "streams replayed and compared";

    fn of(program: &str, count: usize, seed: u64) -> io::Result<Option<Tally>> {
        let mut random = Random::new(seed);
        let mut tally = Tally::default();
        for number in 0..count {
            let life = life(&mut random);
            let (sends, wants) = life.offers.unwrap_or((0, 0));
            let replay = replay::replay(&life.stream, sends, wants, life.log);
            let replay = replay.expect("offers that are allowed");
            let ours = replay::write(&replay);
            let ran = program::run(program, &arguments(&life), &life.stream)?;
            io::stderr().write_all(&ran.errors)?;
            if ran.output != ours.as_bytes() || ran.status.is_none() {
                let name = format!("second-difference-replay-{seed}-{number}");
                report(&name, &life, &ours, &ran)?;
                return Ok(None);
            }
            tally.octets += life.stream.len();
            tally.logs += usize::from(life.log);
            tally.count(&replay);
        }
        Ok(Some(tally))
    }

    fn octets(&self) -> usize {
        self.octets
    }

    fn print(&self) {
        for version in BOTH {
            if let Some(outcomes) = self.outcomes.get(&version) {
                outcomes.print(version);
            }
        }
        let [new, old] = BOTH.map(|version| self.opened.get(&version).unwrap_or(&0));
        println!("logs {}, opened in 1.2 {new}, in 1.1 {old}", self.logs);
    }
}

/// Prints how often each of these numbers came up.
fn print_counts<'a>(counts: impl Iterator<Item = (&'a usize, &'a usize)>) {
    for (number, count) in counts {
        print!(" {number}: {count}");
    }
    println!();
}

/// The arguments that the program gets: none, or the server's two numbers, and `log` for a log.
fn arguments(life: &Life) -> Vec<String> {
    let mut arguments = match life.offers {
        Some((sends, wants)) => vec![sends.to_string(), wants.to_string()],
        None => Vec::new(),
    };
    if life.log {
        arguments.push("log".to_string());
    }
    arguments
}

/// Keeps the stream in a file and prints both outputs from the first line that differs.
fn report(name: &str, life: &Life, ours: &str, ran: &Ran) -> io::Result<()> {
    let path = program::keep(name, &life.stream)?;
    println!("second: a difference, the stream is in {}", path.display());
    println!("arguments: {:?}", arguments(life));
    let theirs = String::from_utf8_lossy(&ran.output);
    let (ours, theirs) = (lines(ours), lines(&theirs));
    let alike = ours.iter().zip(&theirs).take_while(|(a, b)| a == b).count();
    println!("the first {alike} lines are equal");
    for (whose, lines) in [("second", ours), ("compared", theirs)] {
        println!("the {whose} program's next lines:");
        let next = lines[alike..].iter().take(5);
        next.for_each(|line| println!("  {line:?}"));
    }
    program::print_signal(ran.status);
    Ok(())
}

/// The lines with their LF.
fn lines(text: &str) -> Vec<&str> {
    text.split_inclusive('\n').collect()
}
