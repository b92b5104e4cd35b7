//! Runs another program on random streams, each in both versions, with C-16's mark and without, and compares
//! what it writes with these streams written again here.

use crate::comparison;
use crate::encode::Options;
use crate::item::COMMANDS;
use crate::program::{self, Ran};
use crate::random::Random;
use crate::rewrite::{self, Rewritten, Stop, Written};
use crate::streams;
use crate::table;
use crate::version::{Version, BOTH};
use std::collections::BTreeMap;
use std::io;

/// How many octets the streams compared had, and how often each outcome came up in each version.
#[derive(Default)]
pub struct Tally {
    octets: usize,
    outcomes: BTreeMap<Version, Outcomes>,
}

/// How often each outcome came up, without the mark and with it together; of a command's frames, first those
/// without an added line, then those with one.
#[derive(Default)]
struct Outcomes {
    beats: usize,
    frames: [[usize; 2]; COMMANDS.len()],
    refused: [usize; table::NUMBERS],
    more: usize,
    unwritten: usize,
    end: usize,
}

impl Outcomes {
    fn count(&mut self, rewritten: &Rewritten) {
        for item in &rewritten.items {
            match *item {
                Written::HeartBeat => self.beats += 1,
                Written::Frame { command, added } => {
                    self.frames[command.0 - 1][usize::from(added)] += 1;
                }
            }
        }
        match rewritten.stop {
            Stop::Refused { code, .. } => self.refused[code - 1] += 1,
            Stop::More => self.more += 1,
            Stop::Unwritten { .. } => self.unwritten += 1,
            Stop::End => self.end += 1,
        }
    }

    fn print(&self, version: Version) {
        let version = version.name();
        println!("{version} beat {}", self.beats);
        for (index, [without, added]) in self.frames.iter().enumerate() {
            let name = String::from_utf8_lossy(COMMANDS[index]);
            println!(
                "{version} frame {} {name} {without}, with a line added {added}",
                index + 1
            );
        }
        for (index, count) in self.refused.iter().enumerate() {
            println!("{version} refused {} {count}", index + 1);
        }
        println!("{version} more {}", self.more);
        println!("{version} unwritten 52 {}", self.unwritten);
        println!("{version} end {}", self.end);
    }
}

impl comparison::Tally for Tally {
    const COMPARED: &'static str = "streams written again and compared";

    fn of(program: &str, count: usize, seed: u64) -> io::Result<Option<Tally>> {
        let mut random = Random::new(seed);
        let mut tally = Tally::default();
        for number in 0..count {
            let version = random.pick(&BOTH);
            let stream = streams::stream_to_rewrite(&mut random, version);
            for options in all_options() {
                let rewritten = rewrite::rewrite(&stream, options);
                let ran = program::run(program, &arguments(options), &stream)?;
                if !alike(&rewritten, &ran) {
                    let name = format!("second-difference-rewrite-{seed}-{number}");
                    report(&name, &stream, options, &rewritten, &ran)?;
                    return Ok(None);
                }
                let outcomes = tally.outcomes.entry(options.version).or_default();
                outcomes.count(&rewritten);
            }
            tally.octets += stream.len();
        }
        Ok(Some(tally))
    }

    fn octets(&self) -> usize {
        self.octets
    }

    fn print(&self) {
        for version in BOTH {
            if let Some(outcomes) = self.outcomes.get(&version) {
                outcomes.print(version);
            }
        }
    }
}

/// Both versions, without the mark and with it.
fn all_options() -> Vec<Options> {
    let with_mark = |counted| BOTH.map(|version| Options { counted, version });
    [with_mark(false), with_mark(true)].concat()
}

/// The arguments for these options.
pub fn arguments(options: Options) -> Vec<String> {
    let mut arguments = Vec::new();
    if options.counted {
        arguments.push("counted".to_string());
    }
    if options.version == Version::V1_1 {
        arguments.push("1.1".to_string());
    }
    arguments
}

/// Whether standard output and standard error are equal, and the program came to its end. Its status
/// is 0 in any case: standard error tells.
fn alike(rewritten: &Rewritten, ran: &Ran) -> bool {
    ran.output == rewritten.octets
        && ran.errors == rewrite::complaint(rewritten).as_bytes()
        && ran.status == Some(0)
}

/// Keeps the stream in a file and prints what differs.
fn report(
    name: &str,
    stream: &[u8],
    options: Options,
    rewritten: &Rewritten,
    ran: &Ran,
) -> io::Result<()> {
    let path = program::keep(name, stream)?;
    println!("second: a difference, the stream is in {}", path.display());
    println!("arguments: {:?}", arguments(options));
    program::print_difference("standard output", &rewritten.octets, &ran.output);
    let complaint = rewrite::complaint(rewritten);
    program::print_difference("standard error", complaint.as_bytes(), &ran.errors);
    match ran.status {
        Some(status) if status != 0 => {
            println!("the compared program's status is {status}");
        }
        status => program::print_signal(status),
    }
    Ok(())
}
