//! Answers calls, one a line, as the unchanged Rust does: one line for each, with a mark that says whether it may be compared.
//! With `--pairs` calls are printed as pairs, each with `= ` and its answer, or why that is not compared; and in the end, on standard error, how many there were.
use beside_rust::answer::{Answer, Mark, Otherwise, Reason};
use beside_rust::call::{BadCall, Call};
use beside_rust::memory::Bounded;
use beside_rust::oracle::Oracle;
use std::collections::BTreeMap;
use std::fmt;
use std::io::{self, BufRead, BufWriter, Write};

#[global_allocator]
static MEMORY: Bounded = Bounded;

/// How many calls were answered, by what may be held against the port's answer.
#[derive(Default)]
struct Counts {
    compared: u64,
    listed_otherwise: BTreeMap<Otherwise, u64>,
    outside: BTreeMap<Reason, u64>,
    /// calls of a hub that holds another thing than the port's, by what came of it
    astray: BTreeMap<Reason, u64>,
    no_call: u64,
}

impl Counts {
    fn add(&mut self, mark: Mark) {
        match mark {
            Mark::Inside => self.compared += 1,
            Mark::Lists(otherwise) => {
                self.compared += 1;
                *self.listed_otherwise.entry(otherwise).or_default() += 1;
            }
            Mark::Outside(reason) => *self.outside.entry(reason).or_default() += 1,
            Mark::Astray(reason) => *self.astray.entry(reason).or_default() += 1,
            Mark::NoCall => self.no_call += 1,
        }
    }
}

impl fmt::Display for Counts {
    fn fmt(&self, f: &mut fmt::Formatter) -> fmt::Result {
        let [outside, astray]: [u64; 2] = [&self.outside, &self.astray].map(|kind| kind.values().sum());
        writeln!(f, "{} calls inside the comparison, {outside} outside, {astray} left out", self.compared)?;
        for (otherwise, n) in &self.listed_otherwise {
            writeln!(f, "    inside, a list by the rule: {otherwise}: {n}")?;
        }
        for (reason, n) in &self.outside {
            writeln!(f, "    outside: {reason}: {n}")?;
        }
        for (reason, n) in &self.astray {
            writeln!(f, "    left out, for the hub met before {reason}: {n}")?;
        }
        match self.no_call {
            0 => Ok(()),
            n => writeln!(f, "    no calls: {n}"),
        }
    }
}

/// A call and its answer, as far as it may be compared.
fn write_pair(out: &mut impl Write, call: &Call, answer: &Answer, mark: Mark) -> io::Result<()> {
    match mark {
        Mark::Inside => writeln!(out, "{call}\n= {answer}"),
        Mark::Lists(otherwise) => writeln!(out, "{call}\n= {answer} | {otherwise}"),
        Mark::Outside(reason) => match reason.number() {
            Some(number) => writeln!(out, "{call}\n= ? {number} | {reason}"),
            None => writeln!(out, "{call}\n= ? | {reason}"),
        },
        Mark::Astray(_) | Mark::NoCall => Ok(()),
    }
}

fn main() -> io::Result<()> {
    let pairs = std::env::args().skip(1).any(|arg| arg == "--pairs");
    let mut out = BufWriter::new(io::stdout().lock());
    let mut oracle = Oracle::default();
    let mut counts = Counts::default();
    for line in io::stdin().lock().lines() {
        let line = line?;
        if line.trim().is_empty() || line.starts_with('#') {
            continue;
        }
        let (answer, mark) = match line.parse::<Call>() {
            Ok(call) => {
                let (answer, mark) = oracle.answer(&call);
                if pairs {
                    write_pair(&mut out, &call, &answer, mark)?;
                }
                (answer, mark)
            }
            Err(BadCall(what)) => (Answer::BadCall(what), Mark::NoCall),
        };
        counts.add(mark);
        if !pairs {
            writeln!(out, "{answer} | {mark}")?;
            out.flush()?;
        }
    }
    out.flush()?;
    if pairs {
        eprint!("{counts}");
    }
    Ok(())
}
