//! Runs all comparisons in turn for as long as asked, each batch with a seed of its own.

use crate::comparison::quietly;
use crate::random::Random;
use crate::{
    compare, compare_encode, compare_feed, compare_match, compare_plan, compare_registry,
    compare_replay, compare_rewrite, compare_rows, compare_session,
};
use std::io;
use std::path::Path;
use std::time::{Duration, Instant};

/// A comparison: its mode, the program's name in the folder, or none where it is given the folder, what is compared,
/// how many of these make a batch, and how a batch is run; that gives the octets compared, or none at a difference.
struct Comparison {
    mode: &'static str,
    program: &'static str,
    what: &'static str,
    batch: usize,
    run: fn(&str, usize, u64) -> io::Result<Option<usize>>,
}

/// The comparisons; the batches take about as long as each other, but for that of rows, three of which are long.
const COMPARISONS: [Comparison; 10] = [
    Comparison {
        mode: "compare",
        program: "list",
        what: "streams",
        batch: 200,
        run: quietly::<compare::Tally>,
    },
    Comparison {
        mode: "compare-rewrite",
        program: "rewrite",
        what: "streams",
        batch: 100,
        run: quietly::<compare_rewrite::Tally>,
    },
    Comparison {
        mode: "compare-encode",
        program: "encode_calls",
        what: "calls",
        batch: 20_000,
        run: quietly::<compare_encode::Tally>,
    },
    Comparison {
        mode: "compare-replay",
        program: "replay",
        what: "streams",
        batch: 200,
        run: quietly::<compare_replay::Tally>,
    },
    Comparison {
        mode: "compare-session",
        program: "session_calls",
        what: "calls",
        batch: 20_000,
        run: quietly::<compare_session::Tally>,
    },
    Comparison {
        mode: "compare-feed",
        program: "feed_calls",
        what: "streams",
        batch: 500,
        run: quietly::<compare_feed::Tally>,
    },
    Comparison {
        mode: "compare-match",
        program: "match_calls",
        what: "calls",
        batch: 50_000,
        run: quietly::<compare_match::Tally>,
    },
    Comparison {
        mode: "compare-plan",
        program: "plan_calls",
        what: "calls",
        batch: 20_000,
        run: quietly::<compare_plan::Tally>,
    },
    Comparison {
        mode: "compare-registry",
        program: "registry_calls",
        what: "calls",
        batch: 50_000,
        run: quietly::<compare_registry::Tally>,
    },
    Comparison {
        mode: "compare-rows",
        program: "",
        what: "rows",
        batch: 20,
        run: quietly::<compare_rows::Tally>,
    },
];

/// How many streams, calls or rows a comparison has compared, and their octets.
#[derive(Clone, Copy, Default)]
struct Total {
    count: usize,
    octets: usize,
}

/// Compares until that time has passed and the batch under way is done; each comparison gets at least
/// one batch. False at the first difference, which is printed.
pub fn compare(limit: Duration, seed: u64, programs: &Path) -> io::Result<bool> {
    let start = Instant::now();
    let mut seeds = Random::new(seed);
    let mut totals = [Total::default(); COMPARISONS.len()];
    let mut batches = 0;
    while batches < COMPARISONS.len() || start.elapsed() < limit {
        let index = batches % COMPARISONS.len();
        let Some(octets) = run(&COMPARISONS[index], seeds.seed(), programs)? else {
            return Ok(false);
        };
        totals[index].count += COMPARISONS[index].batch;
        totals[index].octets += octets;
        batches += 1;
    }
    print(&totals);
    let seconds = start.elapsed().as_secs_f64();
    println!("second: {batches} batches compared in {seconds:.1} seconds, seed {seed}");
    Ok(true)
}

/// Runs a batch. At a difference it also prints how the batch is run alone, behind an LF, for what the
/// compared program wrote may end without one.
fn run(comparison: &Comparison, seed: u64, programs: &Path) -> io::Result<Option<usize>> {
    let Comparison { mode, batch, .. } = comparison;
    let program = programs.join(comparison.program);
    let program = program.to_string_lossy();
    let octets = (comparison.run)(&program, *batch, seed)?;
    if octets.is_none() {
        println!("\nthe batch alone: second {mode} {program} {batch} {seed}");
    }
    Ok(octets)
}

fn print(totals: &[Total]) {
    for (comparison, Total { count, octets }) in COMPARISONS.iter().zip(totals) {
        let Comparison { mode, what, .. } = comparison;
        println!("{mode}: {count} {what}, {octets} octets");
    }
}
