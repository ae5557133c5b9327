//! Calls that read and write without a hub.
use crate::bytes::{self, NARROW, WIDE};
use crate::random::Random;
use crate::rows::{strings, TELLING};
use beside_rust::call::{Call, ClockOf, Fields, Hex, Presence, Shown};
use beside_rust::standins::board::Kind;

fn updates(r: &mut Random, kind: Kind) -> Call {
    let one = |r: &mut Random| match kind {
        Kind::Count => bytes::counts(r, WIDE),
        Kind::Slot => bytes::slots(r, WIDE),
    };
    let updates = (0..1 + r.below(3))
        .map(|_| {
            let bytes = one(r);
            Hex(if r.once_in(8) { bytes::damaged(r, bytes) } else { bytes })
        })
        .collect();
    let since = if r.once_in(3) { vec![0] } else { bytes::vector(r, WIDE) };
    Call::Updates { kind, updates, since: Hex(since) }
}

/// A board that is filled to its limit, and an entry more.
pub fn full(kind: Kind) -> Call {
    let (limit, tail): (u8, &[u8]) = match kind {
        Kind::Count => (64, b"\x01"),
        Kind::Slot => (16, b"\x01\x00"),
    };
    let mut all = vec![limit];
    for client in 0..limit {
        all.push(client);
        all.extend_from_slice(tail);
    }
    let one = |client: u8, clock: u8| Hex([&[1, client, clock], &tail[1..]].concat());
    Call::Updates { kind, updates: vec![Hex(all), one(limit, 1), one(5, 9)], since: Hex(vec![1, 5, 9]) }
}

fn clock_of(r: &mut Random) -> ClockOf {
    ClockOf { client: bytes::client(r, WIDE), clock: bytes::clock(r, WIDE) as u32 }
}

fn shown(r: &mut Random) -> Shown {
    if r.once_in(5) {
        Shown::Null
    } else {
        Shown::Text(Hex(bytes::text(r, WIDE)))
    }
}

/// A message to be written, of any kind.
pub fn fields(r: &mut Random) -> Fields {
    let len = if r.once_in(40) { 64 } else { r.below(4) };
    let spread = |i: usize, at: ClockOf| if len == 64 { ClockOf { client: 3 * i as u64, ..at } } else { at };
    match r.below(8) {
        0 => Fields::Step1((0..len).map(|i| spread(i, clock_of(r))).collect()),
        1 => Fields::Step2(Hex(bytes::counts(r, WIDE))),
        2 => Fields::Update(Hex(bytes::slots(r, WIDE))),
        3 | 4 => Fields::Awareness((0..len).map(|i| Presence { at: spread(i, clock_of(r)), shown: shown(r) }).collect()),
        5 => Fields::Denied(Hex(bytes::text(r, WIDE))),
        6 => r.pick(&[Fields::Granted, Fields::Query]).clone(),
        _ => Fields::Custom(*r.pick(&[0, 1, 2, 3, 4, 16, 31, 127, 128, 255]), Hex(bytes::text(r, WIDE))),
    }
}

/// All calls that read short bytes.
pub fn short(len: u32) -> impl Iterator<Item = Call> {
    strings(&TELLING, len).map(Hex).flat_map(|bytes| {
        let board = |kind| Call::Updates { kind, updates: vec![bytes.clone()], since: Hex(vec![0]) };
        [
            Call::Read(bytes.clone()),
            Call::Vector(bytes.clone()),
            Call::Presence(bytes.clone()),
            board(Kind::Count),
            board(Kind::Slot),
        ]
    })
}

/// Random calls that read and write, of every kind.
pub fn random_calls(mut r: Random, n: usize) -> impl Iterator<Item = Call> {
    let one = |r: &mut Random| match r.below(10) {
        0..=3 => {
            let len = 1 + r.below(3);
            Call::Read(Hex(bytes::messages(r, WIDE, len)))
        }
        4 => Call::Vector(Hex(bytes::vector(r, WIDE))),
        5 => Call::Presence(Hex(bytes::presence(r, WIDE))),
        6 => updates(r, Kind::Count),
        7 => updates(r, Kind::Slot),
        _ => Call::Write(fields(r)),
    };
    (0..n).map(move |_| one(&mut r))
}

/// Damaged copies of good bytes, read.
pub fn damaged_calls(mut r: Random, n: usize) -> impl Iterator<Item = Call> {
    let one = |r: &mut Random| match r.below(6) {
        0..=3 => {
            let len = 1 + r.below(3);
            let bytes = bytes::messages(r, NARROW, len);
            Call::Read(Hex(bytes::damaged(r, bytes)))
        }
        4 => {
            let bytes = bytes::vector(r, NARROW);
            Call::Vector(Hex(bytes::damaged(r, bytes)))
        }
        _ => {
            let bytes = bytes::presence(r, NARROW);
            Call::Presence(Hex(bytes::damaged(r, bytes)))
        }
    };
    (0..n).map(move |_| one(&mut r))
}
