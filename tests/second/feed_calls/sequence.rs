//! Random calls of the stream parser: streams in pieces, cut everywhere and where it matters, short
//! buffers, calls after a refusal, records that no call leaves, and versions told between items, inside them,
//! after a refusal and with any record.

use super::{Call, Calls, Due, BUFFER};
use crate::calls::version_option;
use crate::feed::record::{
    number_of, Record, CHARACTER, CODE, COMMAND, HELD, IN_CHARACTER_OF_NAME, IN_CHARACTER_OF_VALUE,
    LENGTH, MOST_HELD, PHASE, REFUSED, START, VERSION, ZEROS,
};
use crate::feed::{StreamParser, LEAST_BUFFER};
use crate::item::{Answer, BACKSLASH, COLON, CONTENT_LENGTH, CR, LF, NUL};
use crate::random::Random;
use crate::streams;
use crate::version::{Version, BOTH};

/// The longest stream of which every cut is tried, and of which most octets come alone.
const SHORT: usize = 64;
const ALONE: usize = 200;

/// The octets of a record before the version, those that are 0 and the unfinished character.
const FRONT: usize = 12;

/// How often a version is told besides where it is wanted: once in so many items or pieces.
const SELDOM: usize = 30;

/// A call, and what is due to it.
pub struct Step {
    pub call: Call,
    pub due: Due,
}

/// The calls for so many streams.
pub fn sequence(random: &mut Random, streams: usize) -> Vec<Step> {
    let mut maker = Maker {
        calls: Calls::new(),
        steps: Vec::new(),
    };
    for _ in 0..streams {
        match random.below(20) {
            0 | 1 => maker.every_cut(random),
            2 => maker.short_buffers(random),
            3..=5 => maker.other_record(random),
            _ => maker.in_pieces(random),
        }
    }
    maker.steps
}

/// The calls that are being made.
struct Maker {
    calls: Calls,
    steps: Vec<Step>,
}

/// How much of the buffer a call is given: as much as it needs, or more.
fn enough(random: &mut Random) -> usize {
    random.pick(&[LEAST_BUFFER, LEAST_BUFFER, LEAST_BUFFER + 1, BUFFER])
}

/// Too little of the buffer.
fn too_short(random: &mut Random) -> usize {
    random.pick(&[0, 1, 100, LEAST_BUFFER - 1, LEAST_BUFFER - 1])
}

impl Maker {
    fn push(&mut self, call: Call) -> &Due {
        let due = self.calls.call(&call);
        self.steps.push(Step { call, due });
        &self.steps[self.steps.len() - 1].due
    }

    /// A fresh parser that reads in this version; 1.2 need not be told.
    fn fresh(&mut self, random: &mut Random, version: Version) {
        let room = enough(random);
        self.push(Call::Fresh { room });
        if version != Version::V1_2 || random.once_in(8) {
            self.tell(version.option());
        }
    }

    fn tell(&mut self, options: u32) {
        self.push(Call::Tell { options });
    }

    /// Tells either version, at times with bits that are not looked at.
    fn tell_any(&mut self, random: &mut Random) {
        let options = version_option(random, 0);
        self.tell(options);
    }

    fn feed(&mut self, piece: &[u8]) -> &Due {
        self.push(Call::Feed {
            piece: piece.to_vec(),
        })
    }

    /// Hands a piece in, and after each item what is left of it; seldom a version is told there. The octets left
    /// where it is refused.
    fn hand_in<'a>(&mut self, random: &mut Random, piece: &'a [u8]) -> Result<(), &'a [u8]> {
        let mut rest = piece;
        loop {
            if random.once_in(SELDOM) {
                self.tell_any(random);
            }
            let Due::Exactly { fed, .. } = self.feed(rest) else {
                return Err(rest);
            };
            rest = &rest[fed.taken..];
            match fed.reply {
                Answer::Complete(_) => {}
                Answer::Incomplete => return Ok(()),
                Answer::Invalid { .. } => return Err(rest),
            }
        }
    }

    /// Streams cut somehow, each in its version, and what comes after a refusal.
    fn in_pieces(&mut self, random: &mut Random) {
        let mut version = random.pick(&BOTH);
        self.fresh(random, version);
        for stream in parts(random, version) {
            if self.hand_in_pieces(random, &stream).is_err() {
                return;
            }
            version = version.other();
            let options = version.option();
            self.tell(options);
        }
    }

    /// A stream cut somehow, and what comes after a refusal, which is an error.
    fn hand_in_pieces(&mut self, random: &mut Random, stream: &[u8]) -> Result<(), ()> {
        for piece in pieces(random, stream) {
            if random.once_in(40) {
                self.too_short_once(random, piece);
            }
            if let Err(rest) = self.hand_in(random, piece) {
                self.go_on(random, rest);
                return Err(());
            }
        }
        Ok(())
    }

    /// The same call with too short a buffer before, which takes and changes nothing; a version that is told then
    /// asks for no buffer.
    fn too_short_once(&mut self, random: &mut Random, piece: &[u8]) {
        let room = too_short(random);
        self.push(Call::Room { room });
        if random.once_in(4) {
            self.tell_any(random);
        }
        self.feed(piece);
        let room = enough(random);
        self.push(Call::Room { room });
    }

    /// Calls after a refusal: the octets that are left, none, others, versions; at times a fresh parser with the
    /// buffer as it is.
    fn go_on(&mut self, random: &mut Random, rest: &[u8]) {
        if random.once_in(3) {
            self.tell_any(random);
        }
        self.feed(rest);
        let version = random.pick(&BOTH);
        for _ in 0..random.between(0, 2) {
            let other = streams::stream(random, version);
            let piece: [&[u8]; 4] = [b"", b"\n", b"ACK\n\n\0", &other];
            self.feed(random.pick(&piece));
        }
        if random.once_in(3) {
            self.too_short_once(random, rest);
        }
        if random.once_in(3) {
            self.push(Call::Record(fresh_record(version)));
            let other = streams::stream(random, version);
            for piece in pieces(random, &other) {
                if self.hand_in(random, piece).is_err() {
                    return;
                }
            }
        }
    }

    /// A short stream in two pieces, cut at each place, where at times a version is told.
    fn every_cut(&mut self, random: &mut Random) {
        let version = random.pick(&BOTH);
        let mut stream = streams::stream(random, version);
        stream.truncate(SHORT);
        let told = random.once_in(3);
        for place in 0..=stream.len() {
            self.fresh(random, version);
            if self.hand_in(random, &stream[..place]).is_err() {
                continue;
            }
            if told {
                self.tell_any(random);
            }
            let _ = self.hand_in(random, &stream[place..]);
        }
    }

    /// A stream with buffers that are long enough or not, as it comes.
    fn short_buffers(&mut self, random: &mut Random) {
        let version = random.pick(&BOTH);
        self.fresh(random, version);
        let stream = streams::stream(random, version);
        for piece in pieces(random, &stream) {
            let room = if random.once_in(2) {
                too_short(random)
            } else {
                enough(random)
            };
            self.push(Call::Room { room });
            if random.once_in(8) {
                self.tell_any(random);
            }
            let _ = self.hand_in(random, piece);
        }
    }

    /// Octets for a record that was set: those of an item that goes on, or any stream; at times a version is told
    /// before them or between them.
    fn other_record(&mut self, random: &mut Random) {
        let version = random.pick(&BOTH);
        self.fresh(random, version);
        let stream = streams::stream(random, version);
        let place = random.between(0, stream.len());
        let mut parser = StreamParser::told(version);
        let taken = parser.feed(&mut vec![0; BUFFER], &stream[..place]).taken;
        let mut record = parser.record();
        if random.once_in(4) {
            let _ = self.hand_in(random, &stream[..place]);
        }
        let is_left = random.once_in(5);
        if !is_left {
            damage(random, &mut record);
        }
        self.push(Call::Record(record));
        if is_left {
            self.calls.is_left();
        }
        if random.once_in(4) {
            self.too_short_once(random, &stream);
        }
        let told = random.below(8);
        if told < 3 {
            self.tell_any(random);
        }
        self.feed(&stream[taken..]);
        if told == 3 {
            self.tell_any(random);
        }
        self.feed(random.pick(&[&b""[..], b"\n", b"a", &stream]));
    }
}

/// The record of a fresh parser that was told this version.
fn fresh_record(version: Version) -> Record {
    StreamParser::told(version).record()
}

/// Streams one after another, the first to be read in this version, each later one in the other than the one
/// before it; all but the last are whole items.
fn parts(random: &mut Random, mut version: Version) -> Vec<Vec<u8>> {
    let mut parts = Vec::new();
    for _ in 0..random.pick(&[0, 0, 0, 1, 1, 2, 4]) {
        parts.push(streams::items(random, version));
        version = version.other();
    }
    parts.push(streams::stream(random, version));
    parts
}

/// Octets for an unfinished character, those that calls leave and those beside them.
const CHARACTERS: [u8; 17] = [
    0, 1, 2, 3, 58, 91, 92, 93, 128, 191, 192, 193, 194, 223, 244, 245, 255,
];

/// Alters a record: the count, the number, the version, the octets kept for later requests, the unfinished
/// character, or any octets.
fn damage(random: &mut Random, record: &mut Record) {
    let mut put_count = |random: &mut Random, least: usize, most: usize| {
        let count = random.between(least, most) as u16;
        record[HELD..HELD + 2].copy_from_slice(&count.to_be_bytes());
    };
    match random.below(13) {
        10 => record[VERSION] = random.pick(&[2, 2, 3, 10, 11, 12, 128, 255]),
        11 => {
            let other = BOTH.map(number_of);
            record[VERSION] = random.pick(&other);
        }
        12 => {
            record[PHASE] = START;
            record[VERSION] = random.pick(&[0, 1, 1, 2]);
        }
        0 => {
            let most = random.pick(&[MOST_HELD + 1, MOST_HELD + 2, 65_535]);
            put_count(random, MOST_HELD + 1, most);
        }
        1 => put_count(random, MOST_HELD - 1, MOST_HELD),
        2 | 3 => {
            let (place, count) = (random.below(LENGTH - 6), random.pick(&[0, 3, 40_000]));
            let version = record[VERSION];
            *record = [0; LENGTH];
            record[VERSION] = version;
            record[place] = random.pick(&[0, 0, 1, 255]);
            record[PHASE] = REFUSED;
            record[CODE] = random.pick(&[0, 1, 2, 7, 10, 11, 12, 38, 70, 71, 255]);
            record[HELD..HELD + 2].copy_from_slice(&(count as u16).to_be_bytes());
        }
        4 => record[random.pick(&ZEROS)] = random.pick(&[1, 2, 128, 255]),
        8 => record[CHARACTER] = random.pick(&CHARACTERS),
        9 => {
            record[PHASE] = random.pick(&[IN_CHARACTER_OF_NAME, IN_CHARACTER_OF_VALUE]);
            record[COMMAND] = random.between(1, 15) as u8;
            record[CHARACTER] = random.pick(&CHARACTERS);
        }
        5 => record[PHASE] = random.pick(&[0, 4, 9, 12, 13, 14, 15, 16, 17, 255]),
        6 => {
            for _ in 0..random.between(1, 3) {
                record[random.below(FRONT)] = random.pick(&[0, 1, 2, 14, 15, 31, 32, 33, 128, 255]);
            }
        }
        _ => {
            for octet in &mut record[..FRONT] {
                *octet = random.below(256) as u8;
            }
        }
    }
}

/// A stream cut into pieces, some of them empty.
fn pieces<'a>(random: &mut Random, stream: &'a [u8]) -> Vec<&'a [u8]> {
    let most = random.pick(&[1, 3, 40, 2_000]);
    let cuts = match random.below(8) {
        0 => Vec::new(),
        1 => vec![random.between(0, stream.len())],
        2 | 3 => (1..stream.len().min(ALONE)).collect(),
        4 | 5 => places_that_matter(random, stream),
        _ => at_random(random, stream.len(), most),
    };
    let mut pieces = Vec::new();
    let mut start = 0;
    for end in cuts.into_iter().chain([stream.len()]) {
        if random.once_in(10) {
            pieces.push(&stream[start..start]);
        }
        pieces.push(&stream[start..end]);
        start = end;
    }
    pieces
}

/// Places that leave at most so many octets between them, or as many as make few pieces.
fn at_random(random: &mut Random, length: usize, most: usize) -> Vec<usize> {
    let most = most.max(length / 100);
    let mut cuts = Vec::new();
    let mut place = 0;
    loop {
        place += random.between(0, most);
        if place >= length {
            return cuts;
        }
        cuts.push(place);
    }
}

/// Places inside a command's word, a line end, an escape, a character of several octets, content-length and
/// its line, and beside the octets that end something.
fn places_that_matter(random: &mut Random, stream: &[u8]) -> Vec<usize> {
    let often = random.pick(&[1, 2, 4]);
    let first = |place: usize| &stream[place..];
    let in_length = |place: usize| {
        let start = place.saturating_sub(CONTENT_LENGTH.len() + 3);
        (start..place).any(|start| first(start).starts_with(CONTENT_LENGTH))
    };
    let matters = |place: &usize| {
        let octet = stream[place - 1];
        let ends = [CR, LF, BACKSLASH, COLON, NUL].contains(&octet);
        *place < 14 || ends || !octet.is_ascii() || in_length(*place)
    };
    let places: Vec<usize> = (1..stream.len()).filter(matters).collect();
    let places = places.into_iter().filter(|_| random.once_in(often));
    places.take(ALONE).collect()
}
