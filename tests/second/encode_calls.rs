//! The calls that the program `encode_calls` reads, and what it writes of each: the answer and the target.

use crate::encode::{encode, Options};
use crate::reader::Reader;
use crate::version::Version;

/// The octet that a target is filled with before the call.
const FILLED: u8 = 170;

/// The option that asks for a length line: C-16's mark. The version has one too (`version::OPTION`).
pub const COUNTED: u32 = 1;

/// A call: the target is known by its length.
#[derive(Clone, PartialEq, Eq, Debug)]
pub struct Call {
    pub options: u32,
    pub command: u32,
    pub block: Vec<u8>,
    pub body: Vec<u8>,
    pub room: usize,
}

impl Call {
    /// What the options ask for; other bits are not looked at.
    pub fn asked_for(&self) -> Options {
        Options {
            counted: self.options & COUNTED != 0,
            version: Version::asked_for(self.options),
        }
    }

    /// The call as the program reads it.
    pub fn octets(&self) -> Vec<u8> {
        let number = |length: usize| (length as u32).to_be_bytes();
        [
            &self.options.to_be_bytes()[..],
            &self.command.to_be_bytes(),
            &number(self.block.len()),
            &number(self.body.len()),
            &number(self.room),
            &self.block,
            &self.body,
        ]
        .concat()
    }

    /// The next call, if it is whole.
    fn read(reader: &mut Reader) -> Option<Call> {
        let (options, command) = (reader.number()?, reader.number()?);
        let (block, body) = (reader.number()? as usize, reader.number()? as usize);
        let room = reader.number()? as usize;
        Some(Call {
            options,
            command,
            block: reader.octets(block)?.to_vec(),
            body: reader.octets(body)?.to_vec(),
            room,
        })
    }
}

/// The calls of an input, if all of them are whole.
pub fn read(input: &[u8]) -> Option<Vec<Call>> {
    let mut reader = Reader(input);
    let mut calls = Vec::new();
    while !reader.0.is_empty() {
        calls.push(Call::read(&mut reader)?);
    }
    Some(calls)
}

/// An answer as the program writes it, and the target after the call.
pub struct Reply {
    pub answer: usize,
    pub target: Vec<u8>,
}

impl Reply {
    /// "length of the image, or 2^16*code + index of the entry (0 but for 53)"
    pub fn of(call: &Call) -> Reply {
        let mut target = vec![FILLED; call.room];
        let image = encode(
            call.asked_for(),
            call.command,
            &call.block,
            &call.body,
            call.room,
        );
        let answer = match image {
            Ok(image) => {
                target[..image.len()].copy_from_slice(&image);
                image.len()
            }
            Err(refusal) => 65_536 * refusal.code + refusal.index,
        };
        Reply { answer, target }
    }

    /// The reply to a call that an output begins with, and its length, whatever it says.
    pub fn read(call: &Call, output: &[u8]) -> Option<(Reply, usize)> {
        let mut reader = Reader(output);
        let length = output.iter().position(|&octet| octet == b'\n')?;
        let line = std::str::from_utf8(reader.octets(length + 1)?).ok()?;
        let answer = line.trim_end().parse().ok()?;
        let target = reader.octets(call.room)?.to_vec();
        let reply = Reply { answer, target };
        (reader.octet()? == b'\n').then_some((reply, output.len() - reader.0.len()))
    }

    /// The image, if the answer is the length of one that the target has room for; or the number of the refusal.
    pub fn image(&self) -> Option<Result<Vec<u8>, usize>> {
        match self.answer / 65_536 {
            0 => Some(Ok(self.target.get(..self.answer)?.to_vec())),
            code => Some(Err(code)),
        }
    }

    /// As the program writes it: the answer, LF, the target, LF.
    pub fn octets(&self) -> Vec<u8> {
        let answer = self.answer.to_string();
        [answer.as_bytes(), b"\n", &self.target, b"\n"].concat()
    }
}
