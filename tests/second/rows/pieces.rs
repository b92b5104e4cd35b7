//! A row cut into pieces, for the stream parser, which is told the version of each item before it: the calls, and
//! the replies that are due by what the row says of its items. Inside an item the record is that of the octets held.

use super::Laid;
use crate::feed::{Fed, StreamParser, LEAST_BUFFER};
use crate::feed_calls::{Call, Reply, Told, BUFFER, FILLED};
use crate::item::Answer;
use crate::random::Random;
use crate::version::Version;

/// The longest row of which each octet may come alone.
const ALONE: usize = 3_000;

/// A call, the reply that is due, and the item of the row that it is for.
pub struct Step {
    pub call: Call,
    pub due: Vec<u8>,
    pub item: usize,
}

/// The calls for a row: a fresh parser, all pieces, and one without octets behind the last item.
pub fn steps(random: &mut Random, row: &[Laid]) -> Vec<Step> {
    let stream = row.iter().flat_map(|laid| laid.octets.clone());
    let stream: Vec<u8> = stream.collect();
    let mut feeding = Feeding::new(row);
    let mut start = 0;
    for end in cuts(random, row).into_iter().chain([stream.len()]) {
        feeding.hand_in(random, &stream[start..end]);
        start = end;
    }
    feeding.feed(b"");
    feeding.steps
}

/// What is known between two calls: the item under way and how many of its octets are held, the version told, and
/// the buffer.
struct Feeding<'a> {
    row: &'a [Laid],
    index: usize,
    held: usize,
    version: Version,
    buffer: Vec<u8>,
    steps: Vec<Step>,
}

impl Feeding<'_> {
    fn new(row: &[Laid]) -> Feeding<'_> {
        let mut feeding = Feeding {
            row,
            index: 0,
            held: 0,
            version: Version::default(),
            buffer: vec![FILLED; BUFFER],
            steps: Vec::new(),
        };
        let room = LEAST_BUFFER;
        feeding.push(Call::Fresh { room }, Vec::new());
        feeding
    }

    fn push(&mut self, call: Call, due: Vec<u8>) {
        let item = self.index;
        self.steps.push(Step { call, due, item });
    }

    /// Hands a piece in, and after each item what is left of it.
    fn hand_in(&mut self, random: &mut Random, piece: &[u8]) {
        let mut rest = piece;
        loop {
            self.tell(random);
            let taken = self.feed(rest);
            rest = &rest[taken..];
            if rest.is_empty() {
                return;
            }
        }
    }

    /// Before the first octet of an item its version is told, where it is another one, and at times anyway.
    fn tell(&mut self, random: &mut Random) {
        let Some(laid) = self.row.get(self.index) else {
            return;
        };
        if self.held > 0 || (laid.version == self.version && !random.once_in(20)) {
            return;
        }
        self.version = laid.version;
        let told = Told {
            taken: true,
            record: StreamParser::told(self.version).record(),
        };
        let options = self.version.option();
        self.push(Call::Tell { options }, told.octets());
    }

    /// Feeds what is left of a piece, and how much of it is taken: up to the end of the item under way, which is at
    /// the buffer's front then, or else all.
    fn feed(&mut self, rest: &[u8]) -> usize {
        let laid = self.row.get(self.index);
        let octets = laid.map_or(&[][..], |laid| &laid.octets);
        let taken = rest.len().min(octets.len() - self.held);
        let before = self.held;
        self.held += taken;
        self.buffer[before..self.held].copy_from_slice(&octets[before..self.held]);
        let found = laid.filter(|_| self.held == octets.len());
        let reply = found.map_or(Answer::Incomplete, |laid| Answer::Complete(laid.item()));
        let front = octets[..self.held].to_vec();
        let mut left = StreamParser::told(self.version);
        if found.is_none() {
            left.held = front.clone();
        }
        let due = Reply {
            answer: Fed { reply, taken }.packed(),
            sum: self.buffer.iter().map(|&octet| usize::from(octet)).sum(),
            record: left.record(),
            front,
        };
        let piece = rest.to_vec();
        self.push(Call::Feed { piece }, due.octets());
        if found.is_some() {
            self.index += 1;
            self.held = 0;
        }
        taken
    }
}

/// Where the row is cut, in ascending order; places that are equal make pieces without octets. Some are at the end
/// of an item, or one octet beside it.
fn cuts(random: &mut Random, row: &[Laid]) -> Vec<usize> {
    let length = row.iter().map(|laid| laid.octets.len()).sum();
    let mut cuts = if length <= ALONE && random.once_in(3) {
        (1..length).collect()
    } else {
        in_stretches(random, length)
    };
    let mut end = 0;
    for laid in row {
        end += laid.octets.len();
        if random.once_in(8) {
            let beside = [end.saturating_sub(1), end, end, end + 1];
            cuts.push(random.pick(&beside).min(length));
        }
    }
    cuts.sort_unstable();
    cuts
}

/// Places at random: in each stretch of the row some that leave at most so many octets between them.
fn in_stretches(random: &mut Random, length: usize) -> Vec<usize> {
    let stretches = [
        (1, 20),
        (3, 20),
        (40, 20),
        (600, 20),
        (6_000, 20),
        (BUFFER, 1),
    ];
    let mut cuts = Vec::new();
    let mut place = 0;
    loop {
        let (most, count) = random.pick(&stretches);
        for _ in 0..count {
            place += random.between(0, most);
            if place >= length {
                return cuts;
            }
            cuts.push(place);
        }
    }
}
