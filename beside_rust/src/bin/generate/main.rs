//! Writes calls for the oracle, one a line. What is written depends on the arguments alone.
mod bytes;
mod limits;
mod random;
mod reading;
mod rows;
mod scripts;
mod spell;
mod texts;

use beside_rust::call::{Call, Hex};
use beside_rust::memory::Bounded;
use beside_rust::standins::board::Kind;
use random::Random;
use std::io::{self, BufWriter, Write};
use std::process::ExitCode;

#[global_allocator]
static MEMORY: Bounded = Bounded;

const USAGE: &str = "usage: generate short LEN | messages SEED N | damaged SEED N | pairs | limits | exhaustive | scripts SEED N LEN | long SEED N LEN | sample SEED";

type Calls = Box<dyn Iterator<Item = Call>>;

/// What needs no seed: every script of two entries and every row of four calls, short strings of bytes and damages of good ones, and all around the limits.
fn exhaustive() -> Calls {
    let pairs = scripts::of_two_entries().into_iter();
    Box::new(pairs.chain(rows::all(4)).chain(rows::short(4)).chain(rows::two()).chain(rows::damaged()).chain(limits::all()))
}

/// Every so many scripts one.
fn some(calls: impl Iterator<Item = Call>, every: usize) -> impl Iterator<Item = Call> {
    let mut number = 0;
    calls.filter(move |call| {
        number += usize::from(matches!(call, Call::Hub { .. }));
        number % every == 0
    })
}

/// What is stored: calls that read and write, then whole scripts.
fn sample(seed: u64) -> Calls {
    let reading = reading::short(2)
        .chain(rows::strings(&rows::TELLING, 3).map(|bytes| Call::Read(Hex(bytes))))
        .chain([Kind::Count, Kind::Slot].map(reading::full))
        .chain(reading::random_calls(Random::new(seed), 3000))
        .chain(reading::damaged_calls(Random::new(seed), 1000));
    let scripts = scripts::crowds()
        .chain(some(rows::all(3), 150))
        .chain(some(rows::damaged(), 200))
        .chain(some(limits::all(), 29))
        .chain(scripts::many(Random::new(seed), 100, 40))
        .chain(scripts::settled(Random::new(seed), 4, 600));
    Box::new(reading.chain(scripts))
}

/// The calls that the arguments ask for.
fn calls(args: &[&str]) -> Option<Calls> {
    let random = |seed: &str| seed.parse().ok().map(Random::new);
    Some(match *args {
        ["short", len] => Box::new(reading::short(len.parse().ok()?)),
        ["messages", seed, n] => Box::new(reading::random_calls(random(seed)?, n.parse().ok()?)),
        ["damaged", seed, n] => Box::new(reading::damaged_calls(random(seed)?, n.parse().ok()?)),
        ["pairs"] => Box::new(scripts::of_two_entries().into_iter()),
        ["limits"] => Box::new(limits::all()),
        ["exhaustive"] => exhaustive(),
        ["scripts", seed, n, len] => {
            Box::new(scripts::crowds().chain(scripts::many(random(seed)?, n.parse().ok()?, len.parse().ok()?)))
        }
        ["long", seed, n, len] => Box::new(scripts::settled(random(seed)?, n.parse().ok()?, len.parse().ok()?)),
        ["sample", seed] => sample(seed.parse().ok()?),
        _ => return None,
    })
}

fn main() -> io::Result<ExitCode> {
    let args: Vec<String> = std::env::args().skip(1).collect();
    let args: Vec<&str> = args.iter().map(String::as_str).collect();
    let Some(calls) = calls(&args) else {
        eprintln!("{USAGE}");
        return Ok(ExitCode::from(2));
    };
    let mut out = BufWriter::new(io::stdout().lock());
    for call in calls {
        writeln!(out, "{call}")?;
    }
    out.flush()?;
    Ok(ExitCode::SUCCESS)
}
