//! Random streams of a client's life: heart-beats and frames that are accepted for a good while, most
//! often one that is not, and some after it. A log has the MESSAGE frames too that the client was sent. What
//! comes after the opening frame is written in the version that it chooses.

use crate::block::Entry;
use crate::characters::is_utf8;
use crate::client::messages::message;
use crate::client::right::{leaving, right, taking};
use crate::client::set;
use crate::client::wrong::wrong;
use crate::decode::decode;
use crate::encode;
use crate::item::{Command, COLON, NUL};
use crate::random::Random;
use crate::replay::delivery;
use crate::session::frame::{label_header, Frame, Kind};
use crate::session::opening::{BOTH, MAX_INTERVAL};
use crate::session::record::make;
use crate::session::{Phase, Session};
use crate::streams::{body, damage, length_line, line_end, or_the_other};
use crate::version::Version;

/// A stream, the server's heart-beat numbers, which are 0 without them, and whether it is a log.
pub struct Life {
    pub offers: Option<(u32, u32)>,
    pub log: bool,
    pub stream: Vec<u8>,
}

/// How a life goes on to its end: a refusal, DISCONNECT, or neither.
#[derive(Clone, Copy, PartialEq, Eq)]
enum Plan {
    Refused(usize),
    Leaves,
    Stays,
}

const PLANS: [Plan; 19] = [
    Plan::Refused(31),
    Plan::Refused(32),
    Plan::Refused(33),
    Plan::Refused(41),
    Plan::Refused(42),
    Plan::Refused(42),
    Plan::Refused(43),
    Plan::Refused(43),
    Plan::Refused(44),
    Plan::Refused(45),
    Plan::Refused(46),
    Plan::Refused(46),
    Plan::Refused(47),
    Plan::Refused(49),
    Plan::Refused(60),
    Plan::Refused(60),
    Plan::Leaves,
    Plan::Leaves,
    Plan::Stays,
];

/// One random life.
pub fn life(random: &mut Random) -> Life {
    let offers = offers(random);
    let log = !random.once_in(3);
    let mut client = Client::new(offers.unwrap_or((0, 0)), log);
    let plan = random.pick(&PLANS);
    client.beats(random);
    if !ends_fresh(random, plan) {
        client.right(random);
        client.goes_on(random);
    }
    if random.once_in(5) || plan == Plan::Refused(47) {
        client.fills(random);
    }
    if log && random.once_in(6) {
        client.gets_all(random);
    }
    if random.once_in(4) {
        client.beats(random);
    }
    client.ends(random, plan);
    client.comes_back(random);
    if random.once_in(5) {
        client.breaks_off(random);
    }
    let stream = client.stream;
    Life {
        offers,
        log,
        stream,
    }
}

/// The server's two numbers, or none.
fn offers(random: &mut Random) -> Option<(u32, u32)> {
    let any = random.below(MAX_INTERVAL as usize + 1) as u32;
    let mut number = || random.pick(&[0, 1, 500, 999, 1_000, 1_001, 2_000, any, MAX_INTERVAL]);
    let (sends, wants) = (number(), number());
    (!random.once_in(4)).then_some((sends, wants))
}

/// Whether the plan is for a session that is still fresh.
fn ends_fresh(random: &mut Random, plan: Plan) -> bool {
    match plan {
        Plan::Refused(31..=33) => true,
        Plan::Refused(41..=43) => random.once_in(2),
        _ => false,
    }
}

/// A client that keeps its own session, so that it knows what is accepted, the version that it writes in, and the
/// labels that it was sent.
struct Client {
    session: Session,
    version: Version,
    log: bool,
    labels: Vec<Vec<u8>>,
    stream: Vec<u8>,
}

impl Client {
    fn new((sends, wants): (u32, u32), log: bool) -> Client {
        let (_, record) = make(sends, wants, BOTH);
        Client {
            session: record.session().expect("a session that was made"),
            version: Version::V1_2,
            log,
            labels: Vec::new(),
            stream: Vec::new(),
        }
    }

    /// Sends the frame, or gets it where it is a MESSAGE of a log. The session gets what is read of it.
    fn send(&mut self, random: &mut Random, frame: &Frame) {
        let image = image(random, self.version, frame);
        let content = decode(self.version, &image).expect("a frame");
        let frame = Frame {
            command: content.command,
            entries: content.entries,
        };
        if self.log && frame.command.name() == b"MESSAGE" {
            let (subscription, label) = delivery(self.version, &frame);
            let recorded = self.session.deliver(subscription, label);
            self.labels.extend(recorded.map(|()| label.to_vec()));
        } else if self.session.frame(&frame, 0).is_ok() && frame.opens() {
            self.version = self.session.version();
        }
        self.stream.extend(image);
    }

    /// Gets some messages, if there is a log.
    fn gets(&mut self, random: &mut Random) {
        for _ in 0..random.pick(&[0, 1, 1, 3, 6]) {
            if self.log {
                let frame = message(random, &self.session);
                self.send(random, &frame);
            }
        }
    }

    /// Gets as many messages as can be pending, and some more, if the session has a subscription.
    fn gets_all(&mut self, random: &mut Random) {
        let has = self.session.phase == Phase::Open && !self.session.modes.is_empty();
        for _ in 0..if has { 120 } else { 2 } {
            let frame = message(random, &self.session);
            self.send(random, &frame);
        }
    }

    fn beats(&mut self, random: &mut Random) {
        for _ in 0..random.pick(&[0, 1, 2]) {
            line_end(random, self.version, &mut self.stream);
        }
    }

    fn right(&mut self, random: &mut Random) {
        let frame = right(random, &self.session);
        self.send(random, &frame);
    }

    /// Sends what is accepted, for a good while.
    fn goes_on(&mut self, random: &mut Random) {
        for _ in 0..random.pick(&[0, 2, 5, 12, 30, 60]) {
            if random.once_in(8) {
                self.beats(random);
            }
            if random.once_in(3) {
                self.gets(random);
            }
            self.right(random);
        }
    }

    /// Takes all places of a kind, if the session is open.
    fn fills(&mut self, random: &mut Random) {
        let kind = random.pick(&[Kind::Subscription, Kind::Transaction]);
        while self.session.phase == Phase::Open {
            let Some(frame) = taking(random, &self.session, kind) else {
                return;
            };
            self.send(random, &frame);
            if random.once_in(12) {
                self.right(random);
            }
        }
    }

    /// Ends as planned, if the session has the ids for it.
    fn ends(&mut self, random: &mut Random, plan: Plan) {
        let frame = match plan {
            Plan::Refused(60) if random.once_in(3) => self.settles_again(random),
            Plan::Refused(number) => wrong(random, &self.session, number),
            Plan::Leaves => Some(leaving(random, &self.session)),
            Plan::Stays => None,
        };
        if let Some(frame) = frame {
            self.send(random, &frame);
        }
    }

    /// ACK or NACK of a delivery that is not pending any more, if there is one.
    fn settles_again(&self, random: &mut Random) -> Option<Frame> {
        let settled = |label: &&Vec<u8>| self.session.pending(label).is_none();
        let labels: Vec<&Vec<u8>> = self.labels.iter().filter(settled).collect();
        let mut frame = wrong(random, &self.session, 60)?;
        if !labels.is_empty() {
            let label = labels[random.below(labels.len())];
            set(&mut frame, label_header(self.version), label);
        }
        Some(frame)
    }

    /// Sends a few things more, as if the session were open, or fresh again.
    fn comes_back(&mut self, random: &mut Random) {
        for _ in 0..random.pick(&[0, 0, 1, 2, 3]) {
            let mut session = self.session.clone();
            session.phase = random.pick(&[Phase::Open, Phase::Open, Phase::Fresh]);
            let number = random.pick(&[41, 43, 46]);
            let frame = match random.below(4) {
                0 => wrong(random, &session, number),
                1 => Some(leaving(random, &session)),
                _ => Some(right(random, &session)),
            };
            self.beats(random);
            if random.once_in(3) {
                self.gets(random);
            }
            if let Some(frame) = frame {
                self.send(random, &frame);
            }
        }
    }

    /// Sends a frame that is cut off or damaged, or is written in the other version.
    fn breaks_off(&mut self, random: &mut Random) {
        let frame = right(random, &self.session);
        let version = or_the_other(random, self.version);
        let mut image = image(random, version, &frame);
        match random.below(5) {
            0 | 1 => damage(random, &mut image),
            2 | 3 => {
                let length = random.below(image.len());
                image.truncate(length);
            }
            _ => {
                line_end(random, self.version.other(), &mut self.stream);
                image = self::image(random, self.version.other(), &frame);
            }
        }
        self.stream.extend(image);
    }
}

/// The frame on the wire, with a body if the command may have one, with and without its length.
fn image(random: &mut Random, version: Version, frame: &Frame) -> Vec<u8> {
    let command = frame.command;
    let mut image = command.name().to_vec();
    line_end(random, version, &mut image);
    let length = random.between(0, 9).min(command.max_body());
    let declared = random.once_in(if command.has_body() { 2 } else { 16 });
    let place = random.between(0, frame.entries.len());
    for (index, entry) in frame.entries.iter().enumerate() {
        if declared && index == place {
            length_line(random, version, length, &mut image);
        }
        let entry = writable(version, command, entry);
        image.extend(encode::line(version, command, &entry));
        line_end(random, version, &mut image);
    }
    if declared && place == frame.entries.len() {
        length_line(random, version, length, &mut image);
    }
    line_end(random, version, &mut image);
    body(random, length, declared, &mut image);
    image.push(NUL);
    image
}

/// The entry as the command can have it: without escapes there is nothing that ends a line, and in the name no
/// colon; and all is UTF-8.
fn writable(version: Version, command: Command, entry: &Entry) -> Entry {
    let without = |stops: &[u8], text: &[u8]| -> Vec<u8> {
        let wide = is_utf8(text);
        let stops = |octet: &u8| version.ends_line(*octet) || stops.contains(octet);
        let stands = |octet: &u8| command.escapes() || !stops(octet);
        let writable = |octet: &u8| stands(octet) && (wide || octet.is_ascii());
        let octet = |octet: &u8| if writable(octet) { *octet } else { b';' };
        text.iter().map(octet).collect()
    };
    Entry {
        name: without(&[COLON], &entry.name),
        value: without(&[], &entry.value),
    }
}
