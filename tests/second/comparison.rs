//! What all comparisons with another program have: how they are run, and how calls are compared batch
//! by batch.

use crate::program;
use crate::random::Random;
use std::io::{self, Write};

/// What a comparison counts: octets, and how often each outcome came up.
pub trait Tally: Sized {
    /// What was compared, as it is said at the end.
    const COMPARED: &'static str;
    /// The tally of that many streams or calls of the seed. None at the first difference, which is
    /// printed.
    fn of(program: &str, count: usize, seed: u64) -> io::Result<Option<Self>>;
    fn octets(&self) -> usize;
    fn print(&self);
}

/// Compares that many streams or calls of the seed. False at the first difference, which is printed.
pub fn compare<T: Tally>(program: &str, count: usize, seed: u64) -> io::Result<bool> {
    let Some(tally) = T::of(program, count, seed)? else {
        return Ok(false);
    };
    tally.print();
    println!("second: {count} {}, seed {seed}", T::COMPARED);
    Ok(true)
}

/// Compares as `compare` does, but prints nothing without a difference: the octets compared.
pub fn quietly<T: Tally>(program: &str, count: usize, seed: u64) -> io::Result<Option<usize>> {
    Ok(T::of(program, count, seed)?.map(|tally| tally.octets()))
}

/// The calls that one run of a program is given, with the replies that are due.
pub trait Batch: Sized {
    /// How many calls, or streams of calls, one run is given at most.
    const SIZE: usize;
    /// What the file of a difference is named for.
    const NAME: &'static str;
    fn new(random: &mut Random, size: usize) -> Self;
    /// All calls, as the program reads them.
    fn octets(&self) -> Vec<u8>;
    /// The replies, as the program has to write them.
    fn replies(&self) -> Vec<Vec<u8>>;
    /// How many octets at the output's front are the reply of this index, where they are as they should
    /// be: those that are due.
    fn length_of_reply(&self, _index: usize, reply: &[u8], output: &[u8]) -> Option<usize> {
        output.starts_with(reply).then_some(reply.len())
    }
    /// Keeps the call of this index in a file of that name, and says what it is.
    fn report(&self, name: &str, index: usize) -> io::Result<()>;
    /// Prints the reply of this index, and what the program wrote for it.
    fn print_both(&self, index: usize, theirs: &[u8]);
}

/// Hands that many calls of the seed to the program, batch by batch, and each batch with its number of
/// octets to `tally`. False at the first difference, which is printed.
pub fn in_batches<B: Batch>(
    program: &str,
    count: usize,
    seed: u64,
    mut tally: impl FnMut(&B, usize),
) -> io::Result<bool> {
    let mut random = Random::new(seed);
    let mut done = 0;
    while done < count {
        let size = B::SIZE.min(count - done);
        let batch = B::new(&mut random, size);
        let input = batch.octets();
        let ran = program::run(program, &[], &input)?;
        io::stderr().write_all(&ran.errors)?;
        let replies = batch.replies();
        let (alike, rest) = matched(&batch, &replies, &ran.output);
        if alike < replies.len() || !rest.is_empty() || ran.status.is_none() {
            let index = alike.min(replies.len() - 1);
            let name = format!("second-difference-{}-{seed}-{}", B::NAME, done + index);
            batch.report(&name, index)?;
            if alike < replies.len() {
                batch.print_both(alike, rest);
            } else {
                program::print_difference("what stands behind the last reply", b"", rest);
            }
            program::print_signal(ran.status);
            return Ok(false);
        }
        tally(&batch, input.len());
        done += size;
    }
    Ok(true)
}

/// How many replies from the first on are those that are due, and what was written behind these.
fn matched<'a, B: Batch>(batch: &B, replies: &[Vec<u8>], output: &'a [u8]) -> (usize, &'a [u8]) {
    let mut rest = output;
    for (index, reply) in replies.iter().enumerate() {
        match batch.length_of_reply(index, reply, rest) {
            Some(length) => rest = &rest[length..],
            None => return (index, rest),
        }
    }
    (replies.len(), rest)
}
