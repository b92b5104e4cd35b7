//! Keeps ports under the labels of runs: yesterday's ocean run is still open when today's is asked for its port.

mod stomp;

use stomp::{Refusal, Registry};

/// What a call answered.
fn say(what: &str, run: &str, done: Result<(), Refusal>) {
    match done {
        Ok(()) => println!("{what} {run}"),
        Err(refusal) => println!("{what} {run}: refused with {}", refusal.code),
    }
}

fn open(registry: &mut Registry, run: &str) {
    say("open", run, registry.open(run.as_bytes()));
}

fn publish(registry: &mut Registry, run: &str, text: &str, session: u64) {
    let done = registry.publish(run.as_bytes(), b"ocean", text.as_bytes(), session);
    say("publish in", run, done);
}

fn ask(registry: &Registry, run: &str) {
    match registry.ask(run.as_bytes(), b"ocean") {
        Ok(Some(text)) => println!("ask {run}: {}", String::from_utf8_lossy(text)),
        Ok(None) => println!("ask {run}: no port"),
        Err(refusal) => println!("ask {run}: refused with {}", refusal.code),
    }
}

/// The daemon's numbers of sessions.
const YESTERDAYS: u64 = 1;
const TODAYS: u64 = 2;

fn main() -> Result<(), Refusal> {
    let (yesterday, today) = ("ocean-0611", "ocean-0612");
    let mut registry = Registry::new();

    open(&mut registry, yesterday);
    publish(&mut registry, yesterday, "node7:40111", YESTERDAYS);

    // Today's run has no port yet: it must not get yesterday's.
    open(&mut registry, today);
    ask(&registry, today);
    ask(&registry, yesterday);

    publish(&mut registry, today, "node9:40200", TODAYS);
    ask(&registry, today);
    ask(&registry, yesterday);

    // A port is its session's: another one cannot replace it, and it goes when that session ends.
    publish(&mut registry, today, "node7:40112", YESTERDAYS);
    registry.end(TODAYS)?;
    println!("session {TODAYS} ended");
    ask(&registry, today);
    publish(&mut registry, today, "node9:40201", 3);
    ask(&registry, today);

    say("close", yesterday, registry.close(yesterday.as_bytes()));
    ask(&registry, yesterday);
    publish(&mut registry, yesterday, "node7:40111", YESTERDAYS);
    open(&mut registry, today);

    // A registry that was damaged is refused, and stays as it is.
    registry.octets[stomp::REGISTRY - 1] = 1;
    ask(&registry, today);
    Ok(())
}
