//! Reads a frame that a relay passed on, finds its first port and how many follow, writes a frame that
//! answers it, and asks which of some names a pattern matches.

mod stomp;

use stomp::{Parsed, Refusal};

/// The relay put a fresh port in front and kept the old one below. The body holds octet 0.
const MESSAGE: &[u8] = b"MESSAGE\n\
    destination:/ports/ocean\n\
    message-id:7\n\
    subscription:ice\n\
    port:tcp\\cocean-2\\c4711\n\
    port:tcp\\cocean-1\\c4710\n\
    content-length:9\n\
    \n\
    temp\0salt\0";

/// What can be printed, and the number of any other octet.
fn shown(octets: &[u8]) -> String {
    let show = |&x: &u8| match x {
        b'\n' | b' '..=b'~' => char::from(x).to_string(),
        _ => format!("<{x}>"),
    };
    octets.iter().map(show).collect()
}

fn main() -> Result<(), Refusal> {
    let frame = match stomp::parse(MESSAGE) {
        Parsed::Frame(frame) => frame,
        other => panic!("{other:?}"),
    };
    let body = &MESSAGE[frame.body..frame.body + frame.body_len];
    println!(
        "read a frame of {} octets: command {}, {} headers, a body of {} octets at {}",
        frame.used, frame.command, frame.headers, frame.body_len, frame.body
    );
    println!("{}", shown(body));

    let mut read = vec![0; stomp::MAX_BLOCK];
    let used = stomp::decode(&MESSAGE[..frame.used], &mut read)?;
    read.truncate(used);
    println!("decoded its headers to {used} octets");

    let port = stomp::find(&read, b"port")?.expect("a port");
    println!("found the first port, {} octets", port.len());
    println!("{}", shown(port));

    // What the relay put its port before is still there, and no longer counts.
    let later = stomp::later(&read, b"port")?;
    println!("later ports that no longer count: {later}");

    let mut reply = Vec::new();
    let mut target = vec![0; stomp::MAX_FRAME];
    stomp::add(&mut reply, b"destination", b"/ports/ice");
    stomp::add(&mut reply, b"port", port);
    let written = stomp::encode(stomp::COMMAND_SEND, &reply, body, &mut target)?;
    println!("wrote a frame of {written} octets");
    println!("{}", shown(&target[..written]));

    // A body without octet 0 needs no line with its length; an option asks for one.
    let plain = stomp::encode(stomp::COMMAND_SEND, &reply, b"salt", &mut target)?;
    let counted = stomp::encode_with(
        stomp::COUNTED,
        stomp::COMMAND_SEND,
        &reply,
        b"salt",
        &mut target,
    )?;
    println!(
        "with the body salt it has {plain} octets, and {counted} where its length is asked for"
    );

    // All ports of the ocean: its words, and none or more after them.
    for name in ["port.ocean", "port.ocean.sst.1", "port.ice.1"] {
        let matches = stomp::matches(name.as_bytes(), b"port.ocean.#")?;
        println!(
            "port.ocean.# {} {name}",
            if matches { "matches" } else { "does not match" }
        );
    }

    // Two messages wait for the ice members; the plan hands out both, then forgets one.
    let (mut messages, mut members, mut plan) = (Vec::new(), Vec::new(), Vec::new());
    stomp::add_message(&mut messages, 7, b"port.ocean.sst");
    stomp::add_message(&mut messages, 8, b"port.ocean.ssh");
    stomp::add_subscription(&mut members, 1, b"port.ocean.#", 1);
    stomp::add_subscription(&mut members, 2, b"port.*.sst", 1);
    stomp::add_pair(&mut plan, 8, 1);
    stomp::add_pair(&mut plan, 7, 2);
    stomp::check_plan(&messages, &members, &plan)?;
    println!("the plan is accepted");
    if let Err(refusal) = stomp::check_plan(&messages, &members, &plan[..8]) {
        println!(
            "with one pair it is refused with {}: message {}",
            refusal.code, refusal.place
        );
    }

    // What a refusal looks like: a command without a body, and octets that begin no frame.
    if let Err(refusal) = stomp::encode(stomp::COMMAND_ACK, &reply, body, &mut target) {
        println!("as an ACK it is refused with {}", refusal.code);
    }
    if let Parsed::Invalid(refusal) = stomp::parse(b"SENT") {
        println!("SENT is refused with {} at {}", refusal.code, refusal.place);
    }
    if let Err(refusal) = stomp::matches(b"port..1", b"#") {
        println!("the name port..1 is refused with {}", refusal.code);
    }
    Ok(())
}
