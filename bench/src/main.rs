//! Feeds the port and the unchanged Rust the same bytes in one run, and prints how many messages a second each takes.
mod bytes;
mod counting;
mod port;
mod rust;
mod side;

use counting::{allocations, Counting};
use port::Port;
use rust::Rust;
use side::Side;
use std::hint::black_box;
use std::time::Instant;

#[global_allocator]
static ALLOCATOR: Counting = Counting;

/// Rounds of each workload, of which the best counts.
const ROUNDS: usize = 200;

/// What both sides are asked: first what is not measured, then what is.
struct Work {
    name: String,
    first: Vec<Vec<u8>>,
    asked: Vec<Vec<u8>>,
    call: Call,
}

#[derive(Clone, Copy)]
enum Call {
    Handle,
    Apply,
}

/// The best round of a side: nanoseconds for one message, allocations for one, and what the answers add up to.
struct Best {
    nanos: f64,
    allocations: f64,
    answers: usize,
}

fn ask<S: Side>(side: &mut S, call: Call, bytes: &[u8]) -> usize {
    match call {
        Call::Handle => side.handle(bytes),
        Call::Apply => side.apply(bytes),
    }
}

/// One round, with a fresh hub.
fn round<S: Side>(work: &Work) -> Best {
    let mut side = S::new(1);
    for bytes in &work.first {
        ask(&mut side, work.call, bytes);
    }
    let before = allocations();
    let start = Instant::now();
    let mut answers = 0;
    for bytes in &work.asked {
        answers += black_box(ask(&mut side, work.call, black_box(bytes)));
    }
    let count = work.asked.len() as f64;
    let nanos = start.elapsed().as_nanos() as f64 / count;
    Best { nanos, allocations: (allocations() - before) as f64 / count, answers }
}

/// The best of the rounds of both sides, which take turns; their answers have to be the same.
fn compare(work: &Work) -> (Best, Best) {
    let mut best = (round::<Port>(work), round::<Rust>(work));
    for _ in 0..ROUNDS {
        let (port, rust) = (round::<Port>(work), round::<Rust>(work));
        assert_eq!(port.answers, rust.answers, "{}: {} and {} answer otherwise", work.name, Port::NAME, Rust::NAME);
        if port.nanos < best.0.nanos {
            best.0 = port;
        }
        if rust.nanos < best.1.nanos {
            best.1 = rust;
        }
    }
    best
}

fn per_second(nanos: f64) -> String {
    let rate = 1e9 / nanos;
    if rate >= 1e6 {
        format!("{:.2} M", rate / 1e6)
    } else {
        format!("{:.1} k", rate / 1e3)
    }
}

fn line(work: &Work) -> f64 {
    let (port, rust) = compare(work);
    println!(
        "| {} | {} | {} | {:.2} | {:.1} | {:.1} |",
        work.name,
        per_second(port.nanos),
        per_second(rust.nanos),
        rust.nanos / port.nanos,
        port.allocations,
        rust.allocations
    );
    port.nanos
}

/// Awareness messages of one entry, from so many clients in turn; each brings a text where another was.
fn awareness(clients: u64, length: usize) -> Work {
    let first = (0..clients).map(|client| bytes::awareness(client, 1, length)).collect();
    let asked = (0..2000u64).map(|i| bytes::awareness(i % clients, 2 + i / clients, length)).collect();
    Work { name: format!("awareness, clients: {clients}, text of {length}"), first, asked, call: Call::Handle }
}

/// The same from clients in no order: as no search can foresee which comes next.
fn at_random(clients: u64, length: usize) -> Work {
    let first = (0..clients).map(|client| bytes::awareness(client, 1, length)).collect();
    let mut state = 1u64;
    let asked = (0..2000u64)
        .map(|i| {
            state = state.wrapping_mul(6364136223846793005).wrapping_add(1442695040888963407);
            bytes::awareness((state >> 33) % clients, 2 + i, length)
        })
        .collect();
    Work { name: format!("awareness, clients: {clients} in no order, text of {length}"), first, asked, call: Call::Handle }
}

/// Updates of the board, from so many clients in turn; each raises a count.
fn board(clients: u64) -> Work {
    let first = (0..clients).map(|client| bytes::board(client, 1)).collect();
    let asked = (0..2000u64).map(|i| bytes::board(i % clients, 2 + i / clients)).collect();
    Work { name: format!("board update, clients: {clients}"), first, asked, call: Call::Handle }
}

/// Queries that are answered with so many clients.
fn query(clients: u64) -> Work {
    let first = (0..clients).map(|client| bytes::awareness(client, 1, 64)).collect();
    let asked = (0..100).map(|_| bytes::query()).collect();
    Work { name: format!("query, clients: {clients}, texts of 64"), first, asked, call: Call::Handle }
}

/// Presence updates that bring each client another text.
fn apply(clients: u64) -> Work {
    let first = vec![bytes::presence(0..clients, 1, 64)];
    let asked = (2..102).map(|clock| bytes::presence(0..clients, clock, 64)).collect();
    Work { name: format!("apply of {clients} entries, texts of 64"), first, asked, call: Call::Apply }
}

/// Awareness messages that are read, and whose clock is too low for more.
fn stale() -> Work {
    let first = (0..63).map(|client| bytes::awareness(client, 9, 256)).collect();
    let asked = (0..2000u64).map(|i| bytes::awareness(i % 63, 8, 256)).collect();
    Work { name: "awareness that is only read, texts of 256".to_owned(), first, asked, call: Call::Handle }
}

/// Nanoseconds for a plain copy of one message of a workload, at best.
fn copied(work: &Work) -> f64 {
    let mut place = vec![0u8; 1024];
    (0..ROUNDS).fold(f64::MAX, |best, _| {
        let start = Instant::now();
        for bytes in &work.asked {
            place[..bytes.len()].copy_from_slice(black_box(bytes));
            black_box(&mut place);
        }
        best.min(start.elapsed().as_nanos() as f64 / work.asked.len() as f64)
    })
}

/// Lines for 1, 8 and 63 clients, and how many times as much the port takes at the last as at the first.
fn growth(work: impl Fn(u64) -> Work) -> f64 {
    let nanos = [1, 8, 63].map(|clients| line(&work(clients)));
    nanos[2] / nanos[0]
}

fn main() {
    // not counted: a processor that was idle is slow at first
    compare(&awareness(1, 16));
    println!("| workload | port, a second | Rust, a second | ratio | allocations, port | allocations, Rust |");
    println!("|---|---|---|---|---|---|");
    let growths = [
        ("awareness, text of 16", growth(|clients| awareness(clients, 16))),
        ("awareness, text of 64", growth(|clients| awareness(clients, 64))),
        ("awareness, text of 256", growth(|clients| awareness(clients, 256))),
        ("board update", growth(board)),
    ];
    line(&at_random(8, 64));
    line(&at_random(63, 64));
    line(&query(63));
    line(&apply(64));
    let read = stale();
    let nanos = line(&read);
    println!();
    for (name, growth) in growths {
        println!("{name}: a message costs the port {growth:.2} times as much at 63 clients as at 1");
    }
    println!("reading a text of 256 bytes: {nanos:.0} ns, a plain copy of the same bytes {:.1} ns", copied(&read));
    println!("a hub takes {} bytes", port::size());
}
