//! Safe calls of the library. Each answer is one number, which is taken apart here; see include/stomp.h.
//!
//! A slice is passed as pointer and length. Rust sees to it that the one that is written overlaps no
//! other; those that are only read may overlap, as nothing is written through them.

#![allow(dead_code)]

/// Octets that the header block of any frame fits in, and that any image fits in.
pub const MAX_BLOCK: usize = 16544;
pub const MAX_FRAME: usize = 49228;

/// Octets of a registry, and of a stream parser's state.
pub const REGISTRY: usize = 3524;
pub const FEED_STATE: usize = 16;

pub const COMMAND_ABORT: u32 = 1;
pub const COMMAND_ACK: u32 = 2;
pub const COMMAND_BEGIN: u32 = 3;
pub const COMMAND_COMMIT: u32 = 4;
pub const COMMAND_CONNECT: u32 = 5;
pub const COMMAND_CONNECTED: u32 = 6;
pub const COMMAND_DISCONNECT: u32 = 7;
pub const COMMAND_ERROR: u32 = 8;
pub const COMMAND_MESSAGE: u32 = 9;
pub const COMMAND_NACK: u32 = 10;
pub const COMMAND_RECEIPT: u32 = 11;
pub const COMMAND_SEND: u32 = 12;
pub const COMMAND_STOMP: u32 = 13;
pub const COMMAND_SUBSCRIBE: u32 = 14;
pub const COMMAND_UNSUBSCRIBE: u32 = 15;

/// The options, to be joined by `|`: of `encode_with`, a line with the body's length also where the body holds
/// no octet 0; of all calls that have options, version 1.1 of the protocol in the place of 1.2.
pub const COUNTED: u32 = 1;
pub const VERSION_1_1: u32 = 2;

/// The numbers of `parse` and `parse_with`: what the octet at the place does. Where several fit one octet, the
/// first of 1, 2, 11, 10, 3, 8, 9, 4, 5, 6, 7 that fits is given.
pub const INVALID_COMMAND: u32 = 1; // leaves no command, and begins no heart-beat
pub const INVALID_LINE_END: u32 = 2; // follows 13 and is not 10; never in version 1.1
pub const INVALID_EMPTY_NAME: u32 = 3; // is a colon with an empty name: the header line begins with it
pub const INVALID_LINE_LENGTH: u32 = 4; // makes the line longer than 512
pub const INVALID_LINE_COUNT: u32 = 5; // begins a 33rd header line
pub const INVALID_CONTENT_LENGTH: u32 = 6; // spoils the first content-length: no digit, or too large
pub const INVALID_BODY_END: u32 = 7; // stands where only octet 0 can
pub const INVALID_SECOND_COLON: u32 = 8; // is a second colon; never in CONNECT and CONNECTED
pub const INVALID_NO_COLON: u32 = 9; // ends a header line, or begins its end, before the colon
pub const INVALID_ESCAPE: u32 = 10; // follows a backslash and makes no escape with it
pub const INVALID_UTF8: u32 = 11; // is one that no UTF-8 character has there, in a name or a value

/// The numbers of a stream parser itself, in the order in which they are given; else it gives those of `parse`.
pub const FEED_SHORT_BUFFER: u32 = 70; // never here: a `StreamParser` has room for any item
pub const FEED_INVALID_STATE: u32 = 71; // the state is not valid

/// The numbers of `matches`, in the order in which they are given.
pub const MATCH_NAME: u32 = 80; // the name is malformed
pub const MATCH_PATTERN: u32 = 81; // the pattern is malformed

/// The numbers of `check_plan`: 101, else 102; else of the first bad pair the lowest that fits; else 100.
pub const PLAN_UNKNOWN_MESSAGE: u32 = 96; // no such message waits
pub const PLAN_MESSAGE_AGAIN: u32 = 97; // an earlier pair has the message
pub const PLAN_NOT_MATCHING: u32 = 98; // the subscription is not live, or does not match the destination
pub const PLAN_OVER_ROOM: u32 = 99; // the earlier pairs take all the subscription's room
pub const PLAN_LEFT_OUT: u32 = 100; // no pair is bad, and no pair has a message that waits
pub const PLAN_TOO_MANY_PAIRS: u32 = 101; // more than 64 whole pairs
pub const PLAN_MALFORMED: u32 = 102; // no whole records, a number twice, or a malformed text

/// The numbers of a registry's calls: 89 first, then 90, then the call's own in this order.
pub const REGISTRY_INVALID: u32 = 89; // the registry is not valid
pub const REGISTRY_SIZE: u32 = 90; // a text of the call is empty or too long
pub const REGISTRY_NOT_OPEN: u32 = 91; // no run of that label is open
pub const REGISTRY_HELD: u32 = 92; // another session's port is under the destination
pub const REGISTRY_FULL: u32 = 93; // the destination is new, and all places of the run are taken
pub const REGISTRY_ALREADY_OPEN: u32 = 94; // a run of that label is open
pub const REGISTRY_RUNS_TAKEN: u32 = 95; // four runs are open

mod library {
    extern "C" {
        pub fn stomp_parse_with(options: u32, octets: *const u8, len: usize) -> u64;
        pub fn stomp_feed(
            state: *mut u8,
            state_len: usize,
            buffer: *mut u8,
            buffer_len: usize,
            piece: *const u8,
            piece_len: usize,
        ) -> u64;
        pub fn stomp_feed_tell(state: *mut u8, state_len: usize, options: u32) -> u64;
        pub fn stomp_decode_with(
            options: u32,
            frame: *const u8,
            frame_len: usize,
            block: *mut u8,
            block_len: usize,
        ) -> u64;
        pub fn stomp_find(
            block: *const u8,
            block_len: usize,
            name: *const u8,
            name_len: usize,
        ) -> u64;
        pub fn stomp_later(
            block: *const u8,
            block_len: usize,
            name: *const u8,
            name_len: usize,
        ) -> u64;
        pub fn stomp_match(
            name: *const u8,
            name_len: usize,
            pattern: *const u8,
            pattern_len: usize,
        ) -> u64;
        pub fn stomp_check_plan(
            messages: *const u8,
            messages_len: usize,
            subscriptions: *const u8,
            subscriptions_len: usize,
            plan: *const u8,
            plan_len: usize,
        ) -> u64;
        pub fn stomp_registry_open(
            registry: *mut u8,
            registry_len: usize,
            run: *const u8,
            run_len: usize,
        ) -> u64;
        pub fn stomp_registry_close(
            registry: *mut u8,
            registry_len: usize,
            run: *const u8,
            run_len: usize,
        ) -> u64;
        pub fn stomp_registry_publish(
            registry: *mut u8,
            registry_len: usize,
            run: *const u8,
            run_len: usize,
            destination: *const u8,
            destination_len: usize,
            text: *const u8,
            text_len: usize,
            session: u64,
        ) -> u64;
        pub fn stomp_registry_end(registry: *mut u8, registry_len: usize, session: u64) -> u64;
        pub fn stomp_registry_ask(
            registry: *const u8,
            registry_len: usize,
            run: *const u8,
            run_len: usize,
            destination: *const u8,
            destination_len: usize,
        ) -> u64;
        pub fn stomp_encode_with(
            options: u32,
            command: u32,
            block: *const u8,
            block_len: usize,
            body: *const u8,
            body_len: usize,
            target: *mut u8,
            target_len: usize,
        ) -> u64;
    }
}

#[derive(Debug, Clone, Copy, PartialEq, Eq)]
pub struct Frame {
    pub used: usize,
    pub command: u32,
    pub headers: usize,
    pub body: usize,
    pub body_len: usize,
}

#[derive(Debug, Clone, Copy, PartialEq, Eq)]
pub enum Parsed {
    Incomplete,
    HeartBeat { used: usize },
    Frame(Frame),
    Invalid(Refusal),
}

/// The number, and the place it speaks of: the offset of an octet for 1 to 11, the index of an entry
/// for 53, the index of a pair for 96 to 99, the number of a message for 100, else 0.
#[derive(Debug, Clone, Copy, PartialEq, Eq)]
pub struct Refusal {
    pub code: u32,
    pub place: usize,
}

/// Some bits of an answer, from a place on.
fn bits(answer: u64, from: u32, count: u32) -> usize {
    (answer >> from & ((1 << count) - 1)) as usize
}

/// The first item of the octets, in version 1.2.
pub fn parse(octets: &[u8]) -> Parsed {
    parse_with(0, octets)
}

/// The same with options.
pub fn parse_with(options: u32, octets: &[u8]) -> Parsed {
    let answer = unsafe { library::stomp_parse_with(options, octets.as_ptr(), octets.len()) };
    match answer & 3 {
        0 => Parsed::Incomplete,
        1 => Parsed::HeartBeat {
            used: bits(answer, 2, 62),
        },
        2 => Parsed::Frame(Frame {
            used: bits(answer, 2, 16),
            command: bits(answer, 18, 4) as u32,
            headers: bits(answer, 22, 6),
            body: bits(answer, 28, 16),
            body_len: bits(answer, 44, 20),
        }),
        _ => Parsed::Invalid(Refusal {
            code: bits(answer, 2, 8) as u32,
            place: bits(answer, 10, 54),
        }),
    }
}

/// The length that decode or encode wrote, or what matches answers.
fn length(answer: u64) -> Result<usize, Refusal> {
    match answer >> 16 {
        0 => Ok(answer as usize),
        code => Err(Refusal {
            code: code as u32,
            place: bits(answer, 0, 16),
        }),
    }
}

/// A stream that is parsed as it arrives, piece by piece: the state, and the octets of the item under way.
pub struct StreamParser {
    pub state: [u8; FEED_STATE],
    buffer: Vec<u8>,
}

/// What `feed` found, and how many octets of the piece it took. The item, or the octets of one before the octet
/// refused, are `octets`.
#[derive(Debug, Clone, Copy, PartialEq, Eq)]
pub struct Fed<'a> {
    pub found: Parsed,
    pub taken: usize,
    pub octets: &'a [u8],
}

impl StreamParser {
    /// Before the first octet of a stream, in version 1.2.
    pub fn new() -> StreamParser {
        StreamParser {
            state: [0; FEED_STATE],
            buffer: vec![0; MAX_FRAME],
        }
    }

    /// The next piece. A call finds one item at most: hand in the rest of the piece until it is incomplete.
    pub fn feed(&mut self, piece: &[u8]) -> Fed<'_> {
        let answer = unsafe {
            library::stomp_feed(
                self.state.as_mut_ptr(),
                self.state.len(),
                self.buffer.as_mut_ptr(),
                self.buffer.len(),
                piece.as_ptr(),
                piece.len(),
            )
        };
        let taken = match answer & 3 {
            0 => bits(answer, 2, 62),
            _ => bits(answer, 2, 16),
        };
        let (found, used) = match answer & 3 {
            0 => (Parsed::Incomplete, 0),
            1 => {
                let used = bits(answer, 18, 46);
                (Parsed::HeartBeat { used }, used)
            }
            2 => {
                let body = bits(answer, 28, 16);
                let body_len = bits(answer, 44, 20);
                let used = body + body_len + 1;
                let frame = Frame {
                    used,
                    command: bits(answer, 18, 4) as u32,
                    headers: bits(answer, 22, 6),
                    body,
                    body_len,
                };
                (Parsed::Frame(frame), used)
            }
            _ => {
                let place = bits(answer, 26, 38);
                let code = bits(answer, 18, 8) as u32;
                (Parsed::Invalid(Refusal { code, place }), place)
            }
        };
        // A state that was changed from outside may count a few octets more than the buffer has.
        let used = used.min(self.buffer.len());
        Fed {
            found,
            taken,
            octets: &self.buffer[..used],
        }
    }

    /// Tells the version of the items from here on, by the options. False, and nothing changes, inside an item,
    /// after a refusal, and with an invalid state.
    pub fn tell(&mut self, options: u32) -> bool {
        let state = &mut self.state;
        unsafe { library::stomp_feed_tell(state.as_mut_ptr(), state.len(), options) == 1 }
    }
}

impl Default for StreamParser {
    fn default() -> StreamParser {
        StreamParser::new()
    }
}

/// Decodes the headers of exactly one frame, of version 1.2; the length used of the block.
pub fn decode(frame: &[u8], block: &mut [u8]) -> Result<usize, Refusal> {
    decode_with(0, frame, block)
}

/// The same with options.
pub fn decode_with(options: u32, frame: &[u8], block: &mut [u8]) -> Result<usize, Refusal> {
    length(unsafe {
        library::stomp_decode_with(
            options,
            frame.as_ptr(),
            frame.len(),
            block.as_mut_ptr(),
            block.len(),
        )
    })
}

/// The first value of a name. The block is the part in use.
pub fn find<'a>(block: &'a [u8], name: &[u8]) -> Result<Option<&'a [u8]>, Refusal> {
    let answer =
        unsafe { library::stomp_find(block.as_ptr(), block.len(), name.as_ptr(), name.len()) };
    match answer as usize {
        0 => Ok(None),
        1 => Err(Refusal { code: 22, place: 0 }),
        start => {
            let at = start - name.len() - 2;
            let len = usize::from(u16::from_be_bytes([block[at], block[at + 1]]));
            Ok(Some(&block[start..start + len]))
        }
    }
}

/// How many later entries of a name follow the first; 0 where no entry has it. The block is the part in use.
pub fn later(block: &[u8], name: &[u8]) -> Result<usize, Refusal> {
    let answer =
        unsafe { library::stomp_later(block.as_ptr(), block.len(), name.as_ptr(), name.len()) };
    match answer >> 63 {
        0 => Ok(answer as usize),
        _ => Err(Refusal {
            code: bits(answer, 0, 8) as u32,
            place: 0,
        }),
    }
}

/// Writes a frame; its length. A line with the body's length is added where the body holds octet 0 and
/// no entry is named content-length.
pub fn encode(
    command: u32,
    block: &[u8],
    body: &[u8],
    target: &mut [u8],
) -> Result<usize, Refusal> {
    encode_with(0, command, block, body, target)
}

/// The same with options.
pub fn encode_with(
    options: u32,
    command: u32,
    block: &[u8],
    body: &[u8],
    target: &mut [u8],
) -> Result<usize, Refusal> {
    length(unsafe {
        library::stomp_encode_with(
            options,
            command,
            block.as_ptr(),
            block.len(),
            body.as_ptr(),
            body.len(),
            target.as_mut_ptr(),
            target.len(),
        )
    })
}

/// Whether a pattern matches a name: in the pattern the word `*` stands for exactly one word, `#` for none
/// or more.
pub fn matches(name: &[u8], pattern: &[u8]) -> Result<bool, Refusal> {
    let answer =
        unsafe { library::stomp_match(name.as_ptr(), name.len(), pattern.as_ptr(), pattern.len()) };
    length(answer).map(|yes| yes == 1)
}

/// Whether a plan hands out each waiting message exactly once, to a live subscription that matches it and has
/// room. The lists are rows of records, which the three functions below add to.
pub fn check_plan(messages: &[u8], subscriptions: &[u8], plan: &[u8]) -> Result<(), Refusal> {
    let answer = unsafe {
        library::stomp_check_plan(
            messages.as_ptr(),
            messages.len(),
            subscriptions.as_ptr(),
            subscriptions.len(),
            plan.as_ptr(),
            plan.len(),
        )
    };
    match answer >> 32 {
        0 => Ok(()),
        code => Err(Refusal {
            code: code as u32,
            place: bits(answer, 0, 32),
        }),
    }
}

/// Adds a waiting message at the end of a list.
pub fn add_message(messages: &mut Vec<u8>, number: u32, destination: &[u8]) {
    let length = u16::try_from(destination.len()).expect("at most 65,535 octets");
    messages.extend(number.to_be_bytes());
    messages.extend(length.to_be_bytes());
    messages.extend(destination);
}

/// Adds a live subscription at the end of a list.
pub fn add_subscription(subscriptions: &mut Vec<u8>, number: u32, pattern: &[u8], room: u32) {
    add_message(subscriptions, number, pattern);
    subscriptions.extend(room.to_be_bytes());
}

/// Adds a pair at the end of a plan.
pub fn add_pair(plan: &mut Vec<u8>, message: u32, subscription: u32) {
    plan.extend(message.to_be_bytes());
    plan.extend(subscription.to_be_bytes());
}

/// Adds an entry at the end of a block.
pub fn add(block: &mut Vec<u8>, name: &[u8], value: &[u8]) {
    let two_octets = |len: usize| {
        u16::try_from(len)
            .expect("at most 65,535 octets")
            .to_be_bytes()
    };
    block.extend([72, 68]);
    block.extend(two_octets(name.len()));
    block.extend(two_octets(value.len()));
    block.extend(name);
    block.extend(value);
}

/// Ports under the labels of runs, in a record. A call that is refused leaves it as it was.
pub struct Registry {
    pub octets: [u8; REGISTRY],
}

/// 0 where a call was done, else its number.
fn done(answer: u64) -> Result<(), Refusal> {
    match answer as u32 {
        0 => Ok(()),
        code => Err(Refusal { code, place: 0 }),
    }
}

impl Registry {
    /// An empty one.
    pub fn new() -> Registry {
        let octets = [0; REGISTRY];
        Registry { octets }
    }

    /// Opens a run, with no ports.
    pub fn open(&mut self, run: &[u8]) -> Result<(), Refusal> {
        let octets = &mut self.octets;
        done(unsafe {
            library::stomp_registry_open(octets.as_mut_ptr(), octets.len(), run.as_ptr(), run.len())
        })
    }

    /// Closes a run and withdraws its ports.
    pub fn close(&mut self, run: &[u8]) -> Result<(), Refusal> {
        let octets = &mut self.octets;
        done(unsafe {
            library::stomp_registry_close(
                octets.as_mut_ptr(),
                octets.len(),
                run.as_ptr(),
                run.len(),
            )
        })
    }

    /// Publishes a port for a session; the text is replaced where the session holds the destination.
    pub fn publish(
        &mut self,
        run: &[u8],
        destination: &[u8],
        text: &[u8],
        session: u64,
    ) -> Result<(), Refusal> {
        let octets = &mut self.octets;
        done(unsafe {
            library::stomp_registry_publish(
                octets.as_mut_ptr(),
                octets.len(),
                run.as_ptr(),
                run.len(),
                destination.as_ptr(),
                destination.len(),
                text.as_ptr(),
                text.len(),
                session,
            )
        })
    }

    /// Withdraws the ports that a session published, in every run.
    pub fn end(&mut self, session: u64) -> Result<(), Refusal> {
        let octets = &mut self.octets;
        done(unsafe { library::stomp_registry_end(octets.as_mut_ptr(), octets.len(), session) })
    }

    /// The text of the port under a run and a destination.
    pub fn ask(&self, run: &[u8], destination: &[u8]) -> Result<Option<&[u8]>, Refusal> {
        let answer = unsafe {
            library::stomp_registry_ask(
                self.octets.as_ptr(),
                self.octets.len(),
                run.as_ptr(),
                run.len(),
                destination.as_ptr(),
                destination.len(),
            )
        };
        let start = bits(answer, 0, 16);
        match bits(answer, 16, 48) {
            0 => done(answer).map(|()| None),
            length => Ok(Some(&self.octets[start..start + length])),
        }
    }
}

impl Default for Registry {
    fn default() -> Registry {
        Registry::new()
    }
}
