//! Random calls of the encoder: sound ones, and ones with a reason for each refusal. The reasons come
//! up independently of each other, so that each meets each other one in some calls.

pub mod damage;
pub mod headers;

use crate::block;
use crate::encode::encode;
use crate::encode_calls::{Call, COUNTED};
use crate::item::{Command, MAX_BODY, NUL};
use crate::random::Random;
use crate::streams::{any_command, body_length, or_the_other, with_body};
use crate::version::{Version, BOTH, OPTION};

/// No slice of a call is longer.
pub const MAX_SLICE: usize = 65_536;

/// One random call.
pub fn call(random: &mut Random) -> Call {
    let options = options(random);
    asking(random, options)
}

/// One random call with these options.
pub fn asking(random: &mut Random, options: u32) -> Call {
    let version = or_the_other(random, Version::asked_for(options));
    let known = command(random);
    let length = length_of_body(random, known);
    let entries = headers::entries(random, version, known, length);
    let mut block = block::write(&entries);
    if random.once_in(8) {
        damage::damage(random, &entries, &mut block);
    }
    block.truncate(MAX_SLICE);
    let body = body(random, length);
    let command = if random.once_in(12) {
        unknown_command(random)
    } else {
        known.0 as u32
    };
    let mut call = Call {
        options,
        command,
        block,
        body,
        room: MAX_SLICE,
    };
    let image = encode(
        call.asked_for(),
        command,
        &call.block,
        &call.body,
        MAX_SLICE,
    );
    call.room = room(random, image.ok());
    call
}

/// Each command; more often one that may have a body or has no escapes.
fn command(random: &mut Random) -> Command {
    match random.below(8) {
        0 | 1 => with_body(random),
        2 | 3 => Command::named(random.pick(&[b"CONNECT", b"CONNECTED"])).expect("a command"),
        _ => any_command(random),
    }
}

/// Numbers next to the commands', and large ones whose lower octets are those of a command.
pub fn unknown_command(random: &mut Random) -> u32 {
    let large = [17, 32, 255, 256, 268, 65_536, 65_548, 16_777_228];
    let largest = [1 << 31, (1 << 31) + 12, u32::MAX - 3, u32::MAX];
    match random.below(4) {
        0 => 0,
        1 => 16,
        2 => random.pick(&large),
        _ => random.pick(&largest),
    }
}

/// The length of a body that the command may have, and at times of one that it may not.
fn length_of_body(random: &mut Random, command: Command) -> usize {
    let length = body_length(random);
    if random.once_in(60) {
        random.pick(&[MAX_BODY + 1, MAX_BODY + 2, MAX_SLICE])
    } else if random.once_in(8) {
        length
    } else {
        length.min(command.max_body())
    }
}

/// The mark set or not, either version, and at times other bits, which are not looked at.
fn options(random: &mut Random) -> u32 {
    let mark = random.pick(&[0, COUNTED]);
    mark | version_option(random, COUNTED)
}

/// Either version, and at times other bits, but none of these.
pub fn version_option(random: &mut Random, but: u32) -> u32 {
    let version = random.pick(&BOTH).option();
    let others = random.pick(&[4, 8, 252, 256, 1 << 16, 1 << 25, 1 << 31, u32::MAX]);
    if random.once_in(6) {
        version | others & !(OPTION | but)
    } else {
        version
    }
}

/// Octets of any kind: without octet 0, with one of them first, last or anywhere, or with many.
pub fn body(random: &mut Random, length: usize) -> Vec<u8> {
    let octets = b"\n\r:\\abc019\xaa\xff";
    let mut body: Vec<u8> = (0..length).map(|_| random.pick(octets)).collect();
    let Some(last) = length.checked_sub(1) else {
        return body;
    };
    let any = random.below(length);
    match random.below(8) {
        0..=3 => {}
        4 => body[0] = NUL,
        5 => body[last] = NUL,
        6 => body[any] = NUL,
        _ => {
            let some = body.iter_mut().filter(|_| random.once_in(6));
            some.for_each(|octet| *octet = NUL);
        }
    }
    body
}

/// The length of the target: about that of the image, if there is one, or much more.
fn room(random: &mut Random, image: Option<Vec<u8>>) -> usize {
    let Some(image) = image else {
        let last = if random.once_in(50) { MAX_SLICE } else { 300 };
        return random.pick(&[0, 1, 8, last]);
    };
    match random.below(16) {
        0 => 0,
        1 | 2 => image.len() - 1,
        3 => random.below(image.len()),
        4..=9 => image.len(),
        10 | 11 => image.len() + 1,
        12..=14 => image.len() + random.between(2, 400),
        _ => random
            .pick(&[20_000, MAX_SLICE - 1, MAX_SLICE])
            .max(image.len()),
    }
}
