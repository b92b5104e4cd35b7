//! A registry of ports under run labels (C-21): a map from the labels of open runs to these, and in each a map
//! from destinations to ports. A call's answer is the lowest of the numbers that fit it, or none of them.

pub mod record;

use std::collections::{BTreeMap, BTreeSet};

pub const MAX_RUNS: usize = 4;
pub const MAX_PORTS: usize = 8;
pub const MAX_LABEL: usize = 32;
pub const MAX_DESTINATION: usize = 32;
pub const MAX_TEXT: usize = 64;

pub const UNSOUND: u64 = 89;
pub const BAD_SIZE: u64 = 90;
pub const NOT_OPEN: u64 = 91;
pub const HELD: u64 = 92;
pub const PORTS_TAKEN: u64 = 93;
pub const ALREADY_OPEN: u64 = 94;
pub const FOUR_OPEN: u64 = 95;

/// A port, and which of the run's places it has.
#[derive(Clone, PartialEq, Eq, Debug)]
pub struct Port {
    pub place: usize,
    pub text: Vec<u8>,
    pub session: u64,
}

/// An open run, and which of the registry's places it has.
#[derive(Clone, PartialEq, Eq, Debug, Default)]
pub struct Run {
    pub place: usize,
    pub ports: BTreeMap<Vec<u8>, Port>,
}

#[derive(Clone, PartialEq, Eq, Debug, Default)]
pub struct Registry {
    pub runs: BTreeMap<Vec<u8>, Run>,
}

/// A text has at least one octet and not more than it may.
fn is_bad(text: &[u8], most: usize) -> bool {
    !(1..=most).contains(&text.len())
}

/// The first place that is not taken.
fn first_free(taken: impl Iterator<Item = usize>) -> usize {
    let taken: BTreeSet<usize> = taken.collect();
    (0..).find(|place| !taken.contains(place)).expect("a place")
}

/// The lowest of the numbers that fit.
fn lowest(numbers: &[(u64, bool)]) -> Result<(), u64> {
    let fitting = numbers.iter().filter(|(_, fits)| *fits);
    match fitting.map(|(number, _)| *number).min() {
        Some(number) => Err(number),
        None => Ok(()),
    }
}

impl Registry {
    pub fn open(&mut self, run: &[u8]) -> Result<(), u64> {
        lowest(&[
            (BAD_SIZE, is_bad(run, MAX_LABEL)),
            (ALREADY_OPEN, self.runs.contains_key(run)),
            (FOUR_OPEN, self.runs.len() == MAX_RUNS),
        ])?;
        let place = first_free(self.runs.values().map(|run| run.place));
        let ports = BTreeMap::new();
        self.runs.insert(run.to_vec(), Run { place, ports });
        Ok(())
    }

    pub fn close(&mut self, run: &[u8]) -> Result<(), u64> {
        lowest(&[
            (BAD_SIZE, is_bad(run, MAX_LABEL)),
            (NOT_OPEN, !self.runs.contains_key(run)),
        ])?;
        self.runs.remove(run);
        Ok(())
    }

    pub fn publish(
        &mut self,
        run: &[u8],
        destination: &[u8],
        text: &[u8],
        session: u64,
    ) -> Result<(), u64> {
        let bad = [
            is_bad(run, MAX_LABEL),
            is_bad(destination, MAX_DESTINATION),
            is_bad(text, MAX_TEXT),
        ];
        let open = self.runs.get(run);
        let held = open.and_then(|run| run.ports.get(destination));
        let full = open.is_some_and(|run| run.ports.len() == MAX_PORTS);
        lowest(&[
            (BAD_SIZE, bad.contains(&true)),
            (NOT_OPEN, open.is_none()),
            (HELD, held.is_some_and(|port| port.session != session)),
            (PORTS_TAKEN, held.is_none() && full),
        ])?;
        let ports = &mut self.runs.get_mut(run).expect("an open run").ports;
        let place = match ports.get(destination) {
            Some(port) => port.place,
            None => first_free(ports.values().map(|port| port.place)),
        };
        let text = text.to_vec();
        let port = Port {
            place,
            text,
            session,
        };
        ports.insert(destination.to_vec(), port);
        Ok(())
    }

    /// The port, with the place of its run.
    pub fn ask(&self, run: &[u8], destination: &[u8]) -> Result<Option<(usize, &Port)>, u64> {
        let bad = is_bad(run, MAX_LABEL) || is_bad(destination, MAX_DESTINATION);
        let open = self.runs.get(run);
        lowest(&[(BAD_SIZE, bad), (NOT_OPEN, open.is_none())])?;
        let run = open.expect("an open run");
        Ok(run.ports.get(destination).map(|port| (run.place, port)))
    }

    pub fn end(&mut self, session: u64) {
        for run in self.runs.values_mut() {
            run.ports.retain(|_, port| port.session != session);
        }
    }
}
