//! Reads the stream of a 1.1 client in pieces, as examples/c/versions.c does, and prints the same.

mod stomp;

use stomp::{Parsed, StreamParser, COMMAND_CONNECTED, MAX_BLOCK, MAX_FRAME, VERSION_1_1};

/// What the client writes, in the pieces that arrive: see examples/c/versions.c.
const PIECES: [&[u8]; 5] = [
    b"CONNECT\r\naccept-version:1.0,1.1\r\nho",
    b"st:ocean\r\n\r\n\0SEND\ndestination:/po",
    b"rts/ice\nlabel:run 7\r",
    b"\n\nnode9\0\nACK\nsubscription:0\nmessage-id:7\n\n\0",
    b"SEND\ndestination:/a\\rb\n\n\0",
];

/// What can be printed, and the number of any other octet.
fn printed(octets: &[u8]) -> String {
    let show = |x: &u8| match x {
        b' '..=b'~' => char::from(*x).to_string(),
        _ => format!("<{x}>"),
    };
    octets.iter().map(show).collect()
}

/// The entries of a block, one after another.
fn print_entries(block: &[u8]) {
    let number_at = |at: usize| usize::from(u16::from_be_bytes([block[at], block[at + 1]]));
    let mut at = 0;
    while at < block.len() {
        let value = at + 6 + number_at(at + 2);
        let end = value + number_at(at + 4);
        println!("  {}", printed(&block[at + 6..value]));
        println!("    {}", printed(&block[value..end]));
        at = end;
    }
}

/// The opening frame, which is read by 1.2: the options for all that follows.
fn open_connection(frame: &[u8]) -> u32 {
    let mut block = vec![0; MAX_BLOCK];
    let used = stomp::decode(frame, &mut block).expect("one frame");
    let value = stomp::find(&block[..used], b"accept-version").expect("a block");
    let offers = |version: &[u8]| {
        value
            .unwrap_or(b"")
            .split(|x| *x == b',')
            .any(|x| x == version)
    };
    let (options, version): (u32, &[u8]) = if offers(b"1.2") {
        (0, b"1.2")
    } else if offers(b"1.1") {
        (VERSION_1_1, b"1.1")
    } else {
        // A server that finds neither answers with an ERROR and closes the connection.
        return 0;
    };
    let mut answer = Vec::new();
    let mut target = vec![0; MAX_FRAME];
    stomp::add(&mut answer, b"version", version);
    let length =
        stomp::encode_with(options, COMMAND_CONNECTED, &answer, b"", &mut target).expect("room");
    println!("the answer is: {}", printed(&target[..length]));
    options
}

/// A frame after the opening one, read and written again by the version that was chosen.
fn print_frame(options: u32, frame: &stomp::Frame, octets: &[u8]) {
    let mut block = vec![0; MAX_BLOCK];
    let mut target = vec![0; MAX_FRAME];
    let used = stomp::decode_with(options, octets, &mut block).expect("one frame");
    let body = &octets[frame.body..frame.body + frame.body_len];
    let again = stomp::encode_with(options, frame.command, &block[..used], body, &mut target);
    print_entries(&block[..used]);
    if again.map(|length| &target[..length]) == Ok(octets) {
        println!("  encoded again it is the same");
    }
}

fn main() {
    let mut parser = StreamParser::new();
    let mut options = 0;
    let mut open = false;
    for (i, piece) in PIECES.iter().enumerate() {
        let mut rest = *piece;
        loop {
            let fed = parser.feed(rest);
            rest = &rest[fed.taken..];
            match fed.found {
                Parsed::Incomplete => break,
                Parsed::Invalid(refusal) => {
                    let (code, place) = (refusal.code, refusal.place);
                    println!(
                        "refused with {code} at {place}, after: {}",
                        printed(fed.octets)
                    );
                    println!("told after a refusal: {}", i32::from(parser.tell(0)));
                    return;
                }
                Parsed::HeartBeat { used } => println!("a heart-beat of {used} octets"),
                Parsed::Frame(frame) => {
                    let (used, command, headers) = (frame.used, frame.command, frame.headers);
                    println!("a frame of {used} octets: command {command}, {headers} headers");
                    if open {
                        print_frame(options, &frame, fed.octets);
                        continue;
                    }
                    // The version is told here, between two items and before the rest of the piece.
                    open = true;
                    options = open_connection(fed.octets);
                    println!("told between items: {}", i32::from(parser.tell(options)));
                }
            }
        }
        // The third piece ends in a header line: there it is too late, and nothing changes.
        if i == 2 {
            println!("told inside an item: {}", i32::from(parser.tell(0)));
        }
    }
}
