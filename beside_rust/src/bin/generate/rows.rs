//! Scripts without chance: every row of a few calls, every short string of bytes, and every damage of good bytes.
use crate::spell;
use beside_rust::call::{Call, Hex, Pace, Policy};
use beside_rust::standins::board::Kind;

pub const KINDS: [Kind; 2] = [Kind::Count, Kind::Slot];

/// Bytes that tell: tags, kinds and counts; the last of seven bits and the first of eight; a byte that no text has.
pub const TELLING: [u8; 9] = [0x00, 0x01, 0x02, 0x03, 0x05, 0x10, 0x7f, 0x80, 0xff];

/// A fresh hub of client 1.
pub fn hub(kind: Kind, policy: Policy, pace: Pace) -> Call {
    Call::Hub { own: 1, kind, policy, pace, reading: 100 }
}

pub fn handle(bytes: impl Into<Vec<u8>>) -> Call {
    Call::Handle(Hex(bytes.into()))
}

pub fn apply(bytes: impl Into<Vec<u8>>) -> Call {
    Call::Apply(Hex(bytes.into()))
}

pub fn set(text: &[u8]) -> Call {
    Call::Set(Hex(text.to_vec()))
}

/// All strings of a length at most over an alphabet, the shorter first.
pub fn strings(alphabet: &'static [u8], len: u32) -> impl Iterator<Item = Vec<u8>> {
    let of_len = move |len: u32| {
        (0..alphabet.len().pow(len)).map(move |n| {
            let digit = |place: u32| alphabet[n / alphabet.len().pow(place) % alphabet.len()];
            (0..len).rev().map(digit).collect()
        })
    };
    (0..=len).flat_map(of_len)
}

/// All two bytes.
fn two_bytes() -> impl Iterator<Item = Vec<u8>> {
    (0..=u16::MAX).map(|both| both.to_be_bytes().to_vec())
}

/// What a hub is first given: a text of its own, a client that is live and one that is gone, and something in its document.
fn given(kind: Kind) -> Vec<u8> {
    let presence = [spell::shown(1, 1, b"1"), spell::shown(2, 1, b"null"), spell::shown(7, 1, b"2")];
    [spell::awareness(&spell::counted(&presence)), spell::update(&spell::counted(&[spell::part(kind, 5, 2)]))].concat()
}

/// Calls on a hub that was given something, and a look at all that it holds after each.
fn on_given(kind: Kind, policy: Policy, calls: impl IntoIterator<Item = Call>) -> Vec<Call> {
    let mut script = vec![hub(kind, policy, Pace::Step), handle(given(kind))];
    for call in calls {
        script.extend([call, Call::Records, Call::Document]);
    }
    script
}

/// Every short string of telling bytes, handled and applied.
pub fn short(len: u32) -> impl Iterator<Item = Call> {
    let each = move |kind: Kind| {
        strings(&TELLING, len).flat_map(move |bytes| {
            let mut calls = on_given(kind, Policy::Ranges, [handle(bytes.clone())]);
            calls.extend(on_given(kind, Policy::Ranges, [apply(bytes)]));
            calls
        })
    };
    KINDS.into_iter().flat_map(each)
}

/// Any two bytes, handled.
pub fn two() -> impl Iterator<Item = Call> {
    two_bytes().flat_map(|bytes| on_given(Kind::Count, Policy::Default, [handle(bytes)]))
}

/// What presence can meet of the own client and another: low clocks, texts and nulls.
fn presence_calls() -> Vec<Call> {
    let mut calls = vec![set(b"1"), set(b"\"\""), Call::Clean, Call::Remove(7)];
    for client in [1, 7] {
        for (clock, text) in [(1, &b"1"[..]), (2, b"1"), (2, b"2"), (1, b"null"), (2, b"null")] {
            calls.push(apply(spell::counted(&[spell::shown(client, clock, text)])));
        }
    }
    calls
}

/// What a document can meet: what it has, what is newer or older, what it cannot read, and who asks for what.
fn document_calls(kind: Kind) -> Vec<Call> {
    let parts = |parts: &[(u64, u64)]| parts.iter().map(|&(client, clock)| spell::part(kind, client, clock)).collect::<Vec<_>>();
    let vector = |parts: &[(u64, u64)]| parts.iter().map(|&(client, clock)| spell::at(client, clock)).collect::<Vec<_>>();
    vec![
        handle(spell::update(&spell::counted(&parts(&[(5, 1)])))),
        handle(spell::step2(&spell::counted(&parts(&[(5, 2), (9, 1)])))),
        handle(spell::update(&spell::counted(&parts(&[(9, 3), (9, 2)])))),
        handle(spell::update(&spell::declared(2, &parts(&[(9, 4)])))),
        handle(spell::step1(&spell::counted(&[]))),
        handle(spell::step1(&spell::counted(&vector(&[(5, 1), (9, 2)])))),
        Call::Step1,
        Call::Start,
    ]
}

/// All rows of so many of these calls, each on a fresh hub, with a look at what it holds after each call.
fn rows(hub: Call, calls: Vec<Call>, len: u32, look: Call) -> impl Iterator<Item = Call> {
    (0..calls.len().pow(len)).flat_map(move |n| {
        let mut script = vec![hub.clone()];
        for place in (0..len).rev() {
            script.extend([calls[n / calls.len().pow(place) % calls.len()].clone(), look.clone()]);
        }
        script
    })
}

/// All rows of so many calls on presence, and on the document of either board.
pub fn all(len: u32) -> impl Iterator<Item = Call> {
    let presence = [Pace::Set, Pace::Step]
        .into_iter()
        .flat_map(move |pace| rows(hub(Kind::Count, Policy::Default, pace), presence_calls(), len, Call::Records));
    let document = KINDS
        .into_iter()
        .flat_map(move |kind| rows(hub(kind, Policy::Default, Pace::Step), document_calls(kind), len, Call::Document));
    presence.chain(document)
}

/// Good bytes of every message, and of several in a row.
fn packets(kind: Kind) -> Vec<Vec<u8>> {
    let presence = |client: u64, clock: u64, text: &[u8]| spell::awareness(&spell::counted(&[spell::shown(client, clock, text)]));
    let two = spell::counted(&[spell::shown(1, 2, b"null"), spell::shown(300, 1, "\"é\"".as_bytes())]);
    let parts = spell::counted(&[spell::part(kind, 5, 3), spell::part(kind, 300, 1)]);
    vec![
        spell::step1(&spell::counted(&[])),
        spell::step1(&spell::counted(&[spell::at(5, 1), spell::at(300, 65536)])),
        spell::step2(&parts),
        spell::update(&spell::counted(&[spell::part(kind, 5, 1)])),
        presence(7, 2, b"3"),
        presence(7, 1, b"null"),
        spell::awareness(&two),
        spell::GRANTED.to_vec(),
        spell::denied(b"no"),
        spell::QUERY.to_vec(),
        spell::custom(spell::ACCEPTED_TAG, b"ab"),
        spell::custom(200, b""),
        [spell::QUERY, &spell::update(&parts), &presence(7, 3, b"4"), spell::QUERY].concat(),
    ]
}

/// Every cut of bytes, and every byte with one bit turned, left out, doubled, or made one that tells.
fn damages(bytes: &[u8]) -> impl Iterator<Item = Vec<u8>> + '_ {
    (0..bytes.len()).flat_map(|at| {
        let put = |by: &[u8]| [&bytes[..at], by, &bytes[at + 1..]].concat();
        let mut all: Vec<_> = (0..8).map(|bit| put(&[bytes[at] ^ 1 << bit])).collect();
        all.extend(TELLING.map(|byte| put(&[byte])));
        all.extend([bytes[..at].to_vec(), put(&[]), put(&[bytes[at], bytes[at]])]);
        all
    })
}

/// Every damage of good bytes, handled and applied; and every cut of the ones, with others behind it.
pub fn damaged() -> impl Iterator<Item = Call> {
    KINDS.into_iter().flat_map(|kind| {
        let packets = packets(kind);
        let mut all: Vec<Vec<u8>> = packets.iter().flat_map(|packet| damages(packet)).collect();
        for first in &packets {
            for second in &packets {
                all.extend((0..=first.len()).map(|end| [&first[..end], second].concat()));
            }
        }
        let entries =
            spell::counted(&[spell::shown(1, 2, b"null"), spell::shown(7, 2, "\"é\"".as_bytes()), spell::shown(300, 1, b"5")]);
        let updates: Vec<_> = damages(&entries).map(apply).collect();
        all.into_iter().map(handle).chain(updates).flat_map(move |call| on_given(kind, Policy::Ranges, [call]))
    })
}
