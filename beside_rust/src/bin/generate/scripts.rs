//! Scripts of calls on a hub.
use crate::bytes::{self, Scope, NARROW, WIDE};
use crate::random::Random;
use crate::reading::fields;
use crate::rows::KINDS;
use crate::spell;
use crate::texts::Texts;
use beside_rust::call::{Call, Hex, Pace, Policy};
use beside_rust::oracle::Oracle;
use beside_rust::standins::board::Kind;

fn fresh(r: &mut Random) -> Call {
    Call::Hub {
        own: *r.pick(&[1, 1, 1, 0, 7, (1 << 53) - 1]),
        kind: *r.pick(&[Kind::Count, Kind::Slot]),
        policy: *r.pick(&[Policy::Default, Policy::Ranges]),
        pace: *r.pick(&[Pace::Set, Pace::Step]),
        reading: *r.pick(&[0, 100, u64::MAX - 3]),
    }
}

/// How often a script looks at all that its hub holds.
#[derive(Clone, Copy, PartialEq, Eq)]
enum Looks {
    /// after each call that may change it
    Always,
    Seldom,
}

/// Everything that bytes can be, but for the texts.
fn wide(scope: Scope) -> Scope {
    Scope { texts: scope.texts, ..WIDE }
}

/// A few messages, mostly of few clients, now and then many or damaged; they show texts of the script alone.
fn packet(r: &mut Random, scope: Scope) -> Vec<u8> {
    loop {
        let made_of = if r.once_in(60) { wide(scope) } else { scope };
        let len = if r.once_in(50) { 30 } else { 1 + r.below(3) };
        let mut bytes = bytes::messages(r, made_of, len);
        if r.once_in(10) {
            bytes = bytes::damaged(r, bytes);
        }
        if scope.texts.admit(&bytes) {
            return bytes;
        }
    }
}

/// A presence update, which shows texts of the script alone.
fn update(r: &mut Random, scope: Scope) -> Vec<u8> {
    loop {
        let bytes = bytes::presence(r, scope);
        if scope.texts.admit(&spell::awareness(&bytes)) {
            return bytes;
        }
    }
}

fn known(r: &mut Random) -> u64 {
    bytes::client(r, NARROW)
}

/// An update of many entries, more and more of which fill a board.
fn many_parts(r: &mut Random, kind: Kind, scope: Scope) -> Vec<u8> {
    let first = r.below(60) as u64;
    let clients = first..first + 1 + r.below(20) as u64;
    let parts: Vec<_> = clients.map(|client| spell::part(kind, client, scope.clock + 1)).collect();
    spell::update(&spell::counted(&parts))
}

fn step(r: &mut Random, kind: Kind, pace: Pace, scope: Scope) -> Call {
    match r.below(40) {
        0..=14 => Call::Handle(Hex(packet(r, scope))),
        15..=21 => Call::Apply(Hex(update(r, scope))),
        22..=24 => Call::Set(Hex(scope.texts.of_few(r))),
        25 => Call::Clean,
        26..=27 => Call::Remove(known(r)),
        28 => Call::Step1,
        29 => Call::Start,
        30..=31 => Call::Show(known(r)),
        32..=33 => Call::List((0..r.below(4)).map(|_| known(r)).collect()),
        34 => Call::Document,
        35 if pace == Pace::Set => Call::Clock(r.below(1000) as u64),
        36 if r.once_in(8) => Call::Set(Hex(bytes::text(r, wide(scope)))),
        37 => Call::Write(fields(r)),
        38 if scope.crowds && r.once_in(3) => Call::Handle(Hex(many_parts(r, kind, scope))),
        39 if r.once_in(80) => Call::Set(Hex(b"null".to_vec())),
        _ => Call::Records,
    }
}

/// A fresh hub, many calls, and a look at all that it holds in the end. Clocks go on with the calls.
fn script(r: &mut Random, len: usize, looks: Looks) -> Vec<Call> {
    let hub = fresh(r);
    let Call::Hub { kind, pace, .. } = hub else { return Vec::new() };
    let crowds = r.once_in(2);
    let texts = Texts::of_script(r);
    let mut calls = vec![hub];
    for i in 0..len {
        let scope = Scope { clock: i as u64 / 6, texts, crowds, ..NARROW };
        let call = step(r, kind, pace, scope);
        match call {
            _ if looks == Looks::Seldom && !r.once_in(20) => calls.push(call),
            Call::Handle(_) => calls.extend([call, Call::Records, Call::Document]),
            Call::Apply(_) | Call::Set(_) | Call::Clean | Call::Remove(_) => calls.extend([call, Call::Records]),
            _ => calls.push(call),
        }
    }
    calls.extend([Call::Records, Call::Document, Call::Start]);
    calls
}

/// So many scripts, with a look at the hub after each call that may change it.
pub fn many(mut r: Random, n: usize, len: usize) -> impl Iterator<Item = Call> {
    (0..n).flat_map(move |_| script(&mut r, len, Looks::Always))
}

/// The first call with which the Rust's hub goes its own way.
fn first_astray(calls: &[Call]) -> Option<usize> {
    let mut oracle = Oracle::default();
    calls.iter().position(|call| {
        oracle.answer(call);
        oracle.is_astray()
    })
}

/// So many scripts, each long, without the calls with which the Rust's hub goes its own way: each of those is left out and the script played anew,
/// so that all of it is compared.
pub fn settled(mut r: Random, n: usize, len: usize) -> impl Iterator<Item = Call> {
    (0..n).flat_map(move |_| {
        let mut calls = script(&mut r, len, Looks::Seldom);
        while let Some(i) = first_astray(&calls) {
            calls.remove(i);
        }
        calls
    })
}

/// Both boards filled.
pub fn crowds() -> impl Iterator<Item = Call> {
    KINDS.into_iter().flat_map(crowd)
}

/// Sixty-four clients come one after another, then one of them again, and one more.
fn crowd(kind: Kind) -> Vec<Call> {
    let mut calls = vec![Call::Hub { own: 1, kind, policy: Policy::Default, pace: Pace::Step, reading: 1 }];
    for client in 1..=64 {
        calls.push(Call::Handle(Hex(vec![1, 5, 1, client, 1, 1, b'1'])));
        calls.push(Call::Handle(Hex(match kind {
            Kind::Count => vec![0, 2, 3, 1, client, 1],
            Kind::Slot => vec![0, 2, 5, 1, client, 1, 1, b'a'],
        })));
    }
    calls.extend([Call::Handle(Hex(vec![3])), Call::Records, Call::Document, Call::Start]);
    calls.push(Call::Handle(Hex(vec![1, 5, 1, 64, 2, 1, b'2'])));
    calls.push(Call::Handle(Hex(vec![0, 2, 3, 1, 65, 1])));
    calls.push(Call::Apply(Hex(vec![1, 65, 1, 1, b'1'])));
    calls
}

/// Every script of two entries, of the own client or another, below, at or above each other's clock, on a hub with and without a text.
pub fn of_two_entries() -> Vec<Call> {
    let mut entries = Vec::new();
    for client in [1, 7] {
        for clock in 1..=3 {
            for text in [&b"null"[..], b"1", b"2"] {
                entries.push([&[1, client, clock, text.len() as u8], text].concat());
            }
        }
    }
    let mut calls = Vec::new();
    for own in [false, true] {
        for first in &entries {
            for second in &entries {
                calls.push(Call::Hub { own: 1, kind: Kind::Count, policy: Policy::Default, pace: Pace::Step, reading: 1 });
                calls.extend(own.then(|| Call::Set(Hex(b"1".to_vec()))));
                calls.push(Call::Handle(Hex([&[1, first.len() as u8], &first[..]].concat())));
                calls.push(Call::Apply(Hex(second.clone())));
                calls.push(Call::Apply(Hex(second.clone())));
                calls.push(Call::Records);
            }
        }
    }
    calls
}
