//! Runs another program on random streams and compares its listings with this one's.

use crate::comparison;
use crate::item::{Item, COMMANDS};
use crate::listing::{self, End, Listing};
use crate::program::{self, Ran};
use crate::random::Random;
use crate::streams;
use crate::table;
use crate::version::Version::V1_2;
use std::io::{self, Write};

/// How many octets the streams compared had, and how often each outcome came up.
#[derive(Default)]
pub struct Tally {
    octets: usize,
    beats: usize,
    frames: [usize; COMMANDS.len()],
    refused: [usize; table::NUMBERS],
    more: usize,
    end: usize,
}

impl Tally {
    fn count(&mut self, listing: &Listing) {
        for (_, item) in &listing.items {
            match item {
                Item::HeartBeat { .. } => self.beats += 1,
                Item::Frame(frame) => self.frames[frame.command.0 - 1] += 1,
            }
        }
        match listing.end {
            End::Refused { code, .. } => self.refused[code - 1] += 1,
            End::More => self.more += 1,
            End::Nothing => self.end += 1,
        }
    }
}

impl comparison::Tally for Tally {
    const COMPARED: &'static str = "streams compared";

    fn of(program: &str, count: usize, seed: u64) -> io::Result<Option<Tally>> {
        let mut random = Random::new(seed);
        let mut tally = Tally::default();
        for number in 0..count {
            let stream = streams::stream(&mut random, V1_2);
            let listing = listing::read(V1_2, &stream);
            let ours = listing::write(&listing);
            let ran = program::run(program, &[], &stream)?;
            io::stderr().write_all(&ran.errors)?;
            if ran.output != ours.as_bytes() || ran.status.is_none() {
                let name = format!("second-difference-{seed}-{number}");
                report(&name, &stream, &ours, &ran)?;
                return Ok(None);
            }
            tally.octets += stream.len();
            tally.count(&listing);
        }
        Ok(Some(tally))
    }

    fn octets(&self) -> usize {
        self.octets
    }

    fn print(&self) {
        println!("beat {}", self.beats);
        for (index, count) in self.frames.iter().enumerate() {
            let name = String::from_utf8_lossy(COMMANDS[index]);
            println!("frame {} {name} {count}", index + 1);
        }
        for (index, count) in self.refused.iter().enumerate() {
            println!("refused {} {count}", index + 1);
        }
        println!("more {}", self.more);
        println!("end {}", self.end);
    }
}

/// Keeps the stream in a file and prints both listings.
fn report(name: &str, stream: &[u8], ours: &str, ran: &Ran) -> io::Result<()> {
    let path = program::keep(name, stream)?;
    println!("second: a difference, the stream is in {}", path.display());
    print!("the second program's listing:\n{ours}");
    print!(
        "the compared program's listing:\n{}",
        String::from_utf8_lossy(&ran.output)
    );
    program::print_signal(ran.status);
    Ok(())
}
