//! What is counted of the rows that were compared.

use crate::block::Entry;
use crate::encode::line;
use crate::feed_calls::Call;
use crate::item::{COMMANDS, CONTENT_LENGTH, CR, MAX_BODY, MAX_LINE, MAX_LINES, NUL};
use crate::rows::{Laid, Write};
use crate::version::{Version, BOTH};
use std::collections::BTreeMap;

/// How many items and octets were compared; how many writes of each command, and how many with each thing that is
/// counted, in each version, without the mark and with it; how many heart-beats of each length; how many pieces of
/// each length the stream parser was given, and how often a version was told.
#[derive(Default)]
pub struct Tally {
    pub octets: usize,
    items: usize,
    commands: [usize; COMMANDS.len()],
    writes: BTreeMap<(&'static str, Version, bool), usize>,
    beats: BTreeMap<(Version, usize), usize>,
    pieces: BTreeMap<usize, usize>,
    told: usize,
}

/// What is counted of writes, in the order in which it is printed.
const COUNTED: [&str; 14] = [
    "writes",
    "without entries",
    "with 32 lines",
    "with a line of 512 octets",
    "with an empty value",
    "with an escape",
    "with 13 in a name or a value",
    "with a character of several octets",
    "with a content-length given",
    "with a length line added",
    "with octet 0 in the body",
    "with a body of 32,768 octets",
    "of more than 49,000 octets",
    "refused 52 with the mark",
];

/// What of it a write has, in that order.
fn has(laid: &Laid, write: &Write) -> [bool; COUNTED.len()] {
    let (entries, body) = (&write.content.entries, &write.content.body);
    let raw = |entry: &Entry| line(laid.version, write.content.command, entry).len();
    let plain = |entry: &Entry| entry.name.len() + 1 + entry.value.len();
    let any = |has: &dyn Fn(&Entry) -> bool| entries.iter().any(has);
    let any_octet = |has: fn(&u8) -> bool| {
        any(&|entry| entry.name.iter().any(has) || entry.value.iter().any(has))
    };
    [
        true,
        entries.is_empty(),
        write.entries().len() == MAX_LINES,
        any(&|entry| raw(entry) == MAX_LINE),
        any(&|entry| entry.value.is_empty()),
        any(&|entry| raw(entry) > plain(entry)),
        any_octet(|octet| *octet == CR),
        any_octet(|octet| !octet.is_ascii()),
        any(&|entry| entry.name == CONTENT_LENGTH),
        write.entries().len() > entries.len(),
        body.contains(&NUL),
        body.len() == MAX_BODY,
        laid.octets.len() > 49_000,
        write.with_mark.is_err(),
    ]
}

impl Tally {
    pub fn count(&mut self, laid: &Laid) {
        self.items += 1;
        self.octets += laid.octets.len();
        let Some(write) = &laid.write else {
            let key = (laid.version, laid.octets.len());
            *self.beats.entry(key).or_default() += 1;
            return;
        };
        self.commands[write.content.command.0 - 1] += 1;
        for (name, has) in COUNTED.iter().zip(has(laid, write)) {
            let key = (*name, laid.version, write.counted);
            *self.writes.entry(key).or_default() += usize::from(has);
        }
    }

    pub fn count_call(&mut self, call: &Call) {
        match call {
            Call::Feed { piece } => *self.pieces.entry(piece.len()).or_default() += 1,
            Call::Tell { .. } => self.told += 1,
            _ => {}
        }
    }

    /// How many writes have this, in each version, without the mark and with it.
    fn counts(&self, name: &'static str) -> String {
        let count = |version: Version, counted| {
            let count = self.writes.get(&(name, version, counted));
            let mark = if counted { " with the mark" } else { "" };
            format!("{}{mark} {}", version.name(), count.unwrap_or(&0))
        };
        let counts = BOTH.map(|version| [false, true].map(|counted| count(version, counted)));
        counts.concat().join(", ")
    }

    pub fn print_all(&self) {
        for (index, count) in self.commands.iter().enumerate() {
            let name = String::from_utf8_lossy(COMMANDS[index]);
            println!("frame {} {name} {count}", index + 1);
        }
        for name in COUNTED {
            println!("{name}: {}", self.counts(name));
        }
        for ((version, length), count) in &self.beats {
            println!("beat {length} in {}: {count}", version.name());
        }
        let pieces: usize = self.pieces.values().sum();
        let of = |length: usize| self.pieces.get(&length).unwrap_or(&0);
        print!(
            "pieces: {pieces}, of no octets {}, of one {}; ",
            of(0),
            of(1)
        );
        println!("versions told: {}", self.told);
        println!("items: {}, octets: {}", self.items, self.octets);
    }
}
