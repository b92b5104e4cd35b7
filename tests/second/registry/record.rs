//! The record of a registry: how it is written, and which registry octets are the record of. A text has its
//! length in an octet and room for its longest; a port is destination, text and session (eight octets, high
//! first); a run is its label and eight places for ports; the registry is four places for runs. What holds
//! nothing is 0.

use super::{Port, Registry, Run, MAX_DESTINATION, MAX_LABEL, MAX_PORTS, MAX_RUNS, MAX_TEXT};
use std::collections::BTreeMap;

const SESSION: usize = 8;
/// Where the text begins in a place for a port, with its length, and the session.
pub const TEXT_AT: usize = 1 + MAX_DESTINATION;
pub const SESSION_AT: usize = TEXT_AT + 1 + MAX_TEXT;
pub const PORT: usize = SESSION_AT + SESSION;
/// Where the ports begin in a place for a run.
pub const PORTS_AT: usize = 1 + MAX_LABEL;
pub const RUN: usize = PORTS_AT + MAX_PORTS * PORT;
pub const LENGTH: usize = MAX_RUNS * RUN;

/// Where a place for a run begins, and one for a port.
pub fn run_at(run: usize) -> usize {
    run * RUN
}

pub fn port_at(run: usize, port: usize) -> usize {
    run_at(run) + PORTS_AT + port * PORT
}

/// The record of a registry.
pub fn write(registry: &Registry) -> Vec<u8> {
    let mut record = vec![0; LENGTH];
    let mut put = |at: usize, octets: &[u8]| record[at..at + octets.len()].copy_from_slice(octets);
    for (label, run) in &registry.runs {
        put(run_at(run.place), &with_length(label));
        for (destination, port) in &run.ports {
            let at = port_at(run.place, port.place);
            put(at, &with_length(destination));
            put(at + TEXT_AT, &with_length(&port.text));
            put(at + SESSION_AT, &port.session.to_be_bytes());
        }
    }
    record
}

fn with_length(text: &[u8]) -> Vec<u8> {
    [&[text.len() as u8][..], text].concat()
}

/// Octets of a record, and which of them were looked at.
struct Seen<'a> {
    octets: &'a [u8],
    seen: Vec<bool>,
}

impl<'a> Seen<'a> {
    fn look(&mut self, at: usize, count: usize) -> &'a [u8] {
        self.seen[at..at + count].fill(true);
        &self.octets[at..at + count]
    }

    /// The text at a place; none where it has no octet, or more than it may.
    fn text(&mut self, at: usize, most: usize) -> Option<Vec<u8>> {
        let length = usize::from(self.look(at, 1)[0]);
        let good = (1..=most).contains(&length);
        good.then(|| self.look(at + 1, length).to_vec())
    }

    /// Whether a place is free, by its first octet; all others of it are not looked at then.
    fn is_free(&self, at: usize) -> bool {
        self.octets[at] == 0
    }

    fn port(&mut self, at: usize, place: usize) -> Option<(Vec<u8>, Port)> {
        let destination = self.text(at, MAX_DESTINATION)?;
        let text = self.text(at + TEXT_AT, MAX_TEXT)?;
        let session = self.look(at + SESSION_AT, SESSION);
        let session = session
            .iter()
            .fold(0, |n, &octet| n << 8 | u64::from(octet));
        let port = Port {
            place,
            text,
            session,
        };
        Some((destination, port))
    }

    fn run(&mut self, place: usize) -> Option<(Vec<u8>, Run)> {
        let label = self.text(run_at(place), MAX_LABEL)?;
        let mut ports = BTreeMap::new();
        for slot in 0..MAX_PORTS {
            let at = port_at(place, slot);
            if self.is_free(at) {
                continue;
            }
            let (destination, port) = self.port(at, slot)?;
            if ports.insert(destination, port).is_some() {
                return None;
            }
        }
        Some((label, Run { place, ports }))
    }
}

/// The registry that the octets are the record of. None, so 89, where there is none: the record has another
/// length, a size is bad, two run labels or two destinations of a run are equal, or an octet that belongs to no
/// text and no session is not 0.
pub fn read(octets: &[u8]) -> Option<Registry> {
    if octets.len() != LENGTH {
        return None;
    }
    let seen = vec![false; LENGTH];
    let mut record = Seen { octets, seen };
    let mut registry = Registry::default();
    for place in 0..MAX_RUNS {
        if record.is_free(run_at(place)) {
            continue;
        }
        let (label, run) = record.run(place)?;
        if registry.runs.insert(label, run).is_some() {
            return None;
        }
    }
    let mut rest = octets.iter().zip(&record.seen).filter(|(_, seen)| !**seen);
    rest.all(|(octet, _)| *octet == 0).then_some(registry)
}
