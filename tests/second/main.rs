//! An independent second program: it parses, decodes and encodes STOMP frames, keeps a client's session,
//! matches patterns, checks plans and keeps a registry of ports by documents 01 and 02, and compares what it
//! finds with what other programs write. README.md has the modes.

mod block;
mod calls;
mod characters;
mod client;
mod compare;
mod compare_encode;
mod compare_feed;
mod compare_for;
mod compare_match;
mod compare_plan;
mod compare_registry;
mod compare_replay;
mod compare_rewrite;
mod compare_rows;
mod compare_session;
mod comparison;
mod decode;
mod encode;
mod encode_calls;
mod feed;
mod feed_calls;
mod fixed;
mod item;
mod listing;
mod lives;
mod plan;
mod plan_calls;
mod program;
mod random;
mod reader;
mod registry;
mod registry_calls;
mod replay;
mod rewrite;
mod rows;
mod session;
mod session_calls;
mod specification;
mod streams;
mod table;
mod topic;
mod topic_calls;
mod vectors;
mod version;

#[cfg(test)]
mod check;

use encode::Options;
use encode_calls::Reply;
use feed_calls::Due;
use session::opening::MAX_INTERVAL;
use std::fs;
use std::io::{self, Read, Write};
use std::path::Path;
use std::process::ExitCode;
use std::time::Duration;
use version::Version::{self, V1_1, V1_2};

const USAGE: &str = "second list
second rewrite [counted] [1.1]
second encode
second replay [SENDS WANTS] [log]
second session
second feed
second match
second plan
second registry
second compare PROGRAM COUNT SEED
second compare-rewrite PROGRAM COUNT SEED
second compare-encode PROGRAM COUNT SEED
second compare-replay PROGRAM COUNT SEED
second compare-session PROGRAM COUNT SEED
second compare-feed PROGRAM COUNT SEED
second compare-match PROGRAM COUNT SEED
second compare-plan PROGRAM COUNT SEED
second compare-registry PROGRAM COUNT SEED
second compare-rows PROGRAMS COUNT SEED
second compare-for SECONDS SEED PROGRAMS
second make DIR
second make-encode FILE
second make-replay FILE [1.2]
second make-session FILE
second make-feed FILE
second make-match FILE
second make-plan FILE
second make-registry FILE
second vectors DIR";

fn main() -> ExitCode {
    let arguments: Vec<String> = std::env::args().skip(1).collect();
    let arguments: Vec<&str> = arguments.iter().map(String::as_str).collect();
    let done = match arguments[..] {
        ["list"] => list(),
        ["rewrite"] => rewrite(false, V1_2),
        ["rewrite", "counted"] => rewrite(true, V1_2),
        ["rewrite", "1.1"] => rewrite(false, V1_1),
        ["rewrite", "counted", "1.1"] => rewrite(true, V1_1),
        ["encode"] => encode(),
        ["replay"] => replay("0", "0", false),
        ["replay", "log"] => replay("0", "0", true),
        ["replay", sends, wants] => replay(sends, wants, false),
        ["replay", sends, wants, "log"] => replay(sends, wants, true),
        ["session"] => session(),
        ["feed"] => feed(),
        ["match"] => match_patterns(),
        ["plan"] => check_plans(),
        ["registry"] => registry(),
        ["compare-for", seconds, seed, programs] => compare_for(seconds, seed, programs),
        [mode, program, count, seed] => match comparison(mode) {
            Some(compare) => compare_by(compare, program, count, seed),
            None => Err(io::Error::other(USAGE)),
        },
        ["make", folder] => vectors::make(Path::new(folder)).map(|()| true),
        ["make-encode", file] => fs::write(file, fixed::encoding::calls()).map(|()| true),
        ["make-replay", file] => fs::write(file, fixed::stream(V1_1)).map(|()| true),
        ["make-replay", file, "1.2"] => fs::write(file, fixed::stream(V1_2)).map(|()| true),
        ["make-session", file] => fs::write(file, fixed::calls()).map(|()| true),
        ["make-feed", file] => fs::write(file, fixed::feeding::calls()).map(|()| true),
        ["make-match", file] => fs::write(file, fixed::matching::calls()).map(|()| true),
        ["make-plan", file] => fs::write(file, fixed::planning::calls()).map(|()| true),
        ["make-registry", file] => fs::write(file, fixed::registering::calls()).map(|()| true),
        ["vectors", folder] => vectors::write_listings(Path::new(folder)).map(|()| true),
        _ => Err(io::Error::other(USAGE)),
    };
    match done {
        Ok(true) => ExitCode::SUCCESS,
        Ok(false) => ExitCode::FAILURE,
        Err(error) => {
            eprintln!("{error}");
            ExitCode::from(2)
        }
    }
}

/// Reads a stream from standard input and writes its listing.
fn list() -> io::Result<bool> {
    let mut stream = Vec::new();
    io::stdin().read_to_end(&mut stream)?;
    io::stdout().write_all(listing::of(&stream).as_bytes())?;
    Ok(true)
}

/// Reads a stream from standard input and writes it again in this version, with C-16's mark or without.
fn rewrite(counted: bool, version: Version) -> io::Result<bool> {
    let mut stream = Vec::new();
    io::stdin().read_to_end(&mut stream)?;
    let rewritten = rewrite::rewrite(&stream, Options { counted, version });
    let mut output = io::stdout().lock();
    output.write_all(&rewritten.octets)?;
    output.flush()?;
    io::stderr().write_all(rewrite::complaint(&rewritten).as_bytes())?;
    Ok(true)
}

/// Reads calls of the encoder from standard input and writes the replies.
fn encode() -> io::Result<bool> {
    let mut input = Vec::new();
    io::stdin().read_to_end(&mut input)?;
    let calls = encode_calls::read(&input).ok_or(io::Error::other("encode: a call is cut off"))?;
    let mut output = io::stdout().lock();
    for call in &calls {
        output.write_all(&Reply::of(call).octets())?;
    }
    output.flush()?;
    Ok(true)
}

/// Reads a client's stream from standard input, with the MESSAGE frames that it was sent if it is a log, and
/// writes what a session answers to its items.
fn replay(sends: &str, wants: &str, log: bool) -> io::Result<bool> {
    let offer = |text: &str| item::decimal(text.as_bytes(), MAX_INTERVAL as usize);
    let (Some(sends), Some(wants)) = (offer(sends), offer(wants)) else {
        return Err(io::Error::other("replay: no heart-beat offers"));
    };
    let mut stream = Vec::new();
    io::stdin().read_to_end(&mut stream)?;
    let replay = replay::replay(&stream, sends as u32, wants as u32, log);
    let replay = replay.expect("offers in the limit");
    io::stdout().write_all(replay::write(&replay).as_bytes())?;
    Ok(true)
}

/// Reads calls of a session from standard input and writes the replies.
fn session() -> io::Result<bool> {
    let mut input = Vec::new();
    io::stdin().read_to_end(&mut input)?;
    let calls =
        session_calls::read(&input).ok_or(io::Error::other("session: a call is cut off"))?;
    let mut output = io::stdout().lock();
    for reply in session_calls::replies(&calls) {
        output.write_all(&reply.octets())?;
    }
    output.flush()?;
    Ok(true)
}

/// Reads calls of the stream parser from standard input and writes the replies.
fn feed() -> io::Result<bool> {
    let mut input = Vec::new();
    io::stdin().read_to_end(&mut input)?;
    let calls = feed_calls::read(&input).ok_or(io::Error::other("feed: a call is cut off"))?;
    let mut output = io::stdout().lock();
    for due in feed_calls::dues(&calls) {
        match due {
            Due::Nothing => {}
            Due::Exactly { reply, .. } => output.write_all(&reply.octets())?,
            Due::Told(told) => output.write_all(&told.octets())?,
            Due::Any(_) | Due::AnyTold(_) => {
                return Err(io::Error::other(
                    "feed: what such a record gives is not said",
                ))
            }
        }
    }
    output.flush()?;
    Ok(true)
}

/// Reads calls of the matcher from standard input and writes the answers.
fn match_patterns() -> io::Result<bool> {
    let mut input = Vec::new();
    io::stdin().read_to_end(&mut input)?;
    let calls = topic_calls::read(&input).ok_or(io::Error::other("match: a call is cut off"))?;
    let replies: Vec<u8> = calls.iter().flat_map(topic_calls::Call::reply).collect();
    io::stdout().write_all(&replies)?;
    Ok(true)
}

/// Reads calls that check a plan from standard input and writes the answers.
fn check_plans() -> io::Result<bool> {
    let mut input = Vec::new();
    io::stdin().read_to_end(&mut input)?;
    let calls = plan_calls::read(&input).ok_or(io::Error::other("plan: a call is cut off"))?;
    let replies: Vec<u8> = calls.iter().flat_map(plan_calls::Call::reply).collect();
    io::stdout().write_all(&replies)?;
    Ok(true)
}

/// Reads calls of a registry from standard input and writes the replies.
fn registry() -> io::Result<bool> {
    let mut input = Vec::new();
    io::stdin().read_to_end(&mut input)?;
    let calls =
        registry_calls::read(&input).ok_or(io::Error::other("registry: a call is cut off"))?;
    let mut output = io::stdout().lock();
    for reply in registry_calls::replies(&calls) {
        output.write_all(&reply.octets())?;
    }
    output.flush()?;
    Ok(true)
}

type Comparison = fn(&str, usize, u64) -> io::Result<bool>;

fn comparison(mode: &str) -> Option<Comparison> {
    Some(match mode {
        "compare" => comparison::compare::<compare::Tally>,
        "compare-rewrite" => comparison::compare::<compare_rewrite::Tally>,
        "compare-encode" => comparison::compare::<compare_encode::Tally>,
        "compare-replay" => comparison::compare::<compare_replay::Tally>,
        "compare-session" => comparison::compare::<compare_session::Tally>,
        "compare-feed" => comparison::compare::<compare_feed::Tally>,
        "compare-match" => comparison::compare::<compare_match::Tally>,
        "compare-plan" => comparison::compare::<compare_plan::Tally>,
        "compare-registry" => comparison::compare::<compare_registry::Tally>,
        "compare-rows" => comparison::compare::<compare_rows::Tally>,
        _ => return None,
    })
}

/// Compares; a difference is an answer, not an error.
fn compare_by(compare: Comparison, program: &str, count: &str, seed: &str) -> io::Result<bool> {
    let count = count.parse().map_err(io::Error::other)?;
    let seed = seed.parse().map_err(io::Error::other)?;
    compare(program, count, seed)
}

/// Compares with all programs of a folder for that many seconds.
fn compare_for(seconds: &str, seed: &str, programs: &str) -> io::Result<bool> {
    let seconds = seconds.parse().map_err(io::Error::other)?;
    let seed = seed.parse().map_err(io::Error::other)?;
    compare_for::compare(Duration::from_secs(seconds), seed, Path::new(programs))
}
