//! Scripts around every limit: below it, at it and above it, by every call that can come to it. What only the port refuses ends a script,
//! since the Rust takes it; so each such call has a script of its own.
use crate::rows::{apply, handle, hub, set, KINDS};
use crate::spell;
use crate::texts::{self, MAX_DEPTH, NO_JSON};
use beside_rust::call::{Call, ClockOf, Fields, Hex, Pace, Policy, Presence, Shown};
use beside_rust::standins::board::Kind;

const LAST_CLOCK: u64 = u32::MAX as u64;
const END_OF_IDS: u64 = 1 << 53;
const IDS: [u64; 9] = [0, 1, 127, 128, END_OF_IDS - 2, END_OF_IDS - 1, END_OF_IDS, END_OF_IDS + 1, u64::MAX];
const LENGTHS: [usize; 12] = [0, 1, 31, 32, 33, 127, 128, 254, 255, 256, 257, 300];

/// For each last call a script: the first calls, then that one, then a look at all that the hub holds.
fn each(first: &[Call], last: impl IntoIterator<Item = Call>) -> Vec<Call> {
    let script = |call| [first, &[call, Call::Records, Call::Document, Call::Start]].concat();
    last.into_iter().flat_map(script).collect()
}

/// A presence update of one client, applied and handled.
fn presence(client: u64, clock: u64, text: &[u8]) -> [Call; 2] {
    let update = spell::counted(&[spell::shown(client, clock, text)]);
    [apply(update.clone()), handle(spell::awareness(&update))]
}

/// Entries of so many clients from one on.
fn crowd(first: u64, len: u64, text: &[u8]) -> Vec<Vec<u8>> {
    (first..first + len).map(|client| spell::shown(client, 1, text)).collect()
}

/// So many clients held, in each of the ways that they can come; the own one is among them or not.
fn filled(first: u64, len: u64) -> [Vec<Call>; 3] {
    let one_by_one = |client| handle(spell::awareness(&spell::counted(&crowd(client, 1, b"1"))));
    [
        vec![apply(spell::counted(&crowd(first, len, b"1")))],
        (first..first + len).map(one_by_one).collect(),
        (first..first + len).map(Call::Remove).collect(),
    ]
}

/// All calls that may bring another client, or two.
fn newcomers() -> Vec<Call> {
    let new = spell::awareness(&spell::counted(&crowd(900, 1, b"2")));
    let held = spell::awareness(&spell::counted(&[spell::shown(10, 9, b"3")]));
    let mut calls =
        vec![set(b"\"own\""), Call::Clean, Call::Remove(900), Call::Remove(10), handle([&held[..], &new, &held].concat())];
    calls.extend(presence(900, 1, b"null"));
    calls.extend(presence(10, 2, b"null"));
    calls.extend([handle([&[3][..], &new, &[3]].concat()), apply(spell::counted(&crowd(900, 2, b"2")))]);
    calls.push(apply(spell::counted(&[spell::shown(10, 2, b"4"), spell::shown(900, 0, b"5")])));
    calls
}

/// A table that is full, or has a place left.
fn clients() -> Vec<Call> {
    let mut calls = Vec::new();
    for (first, len) in [(1, 62), (1, 63), (1, 64), (2, 63), (2, 64)] {
        for filled in filled(first, len) {
            let first = [&[hub(Kind::Count, Policy::Default, Pace::Step)][..], &filled].concat();
            calls.extend(each(&first, newcomers()));
        }
    }
    calls
}

/// A clock at its end or near, of the own client and of another, live and null.
fn clocks() -> Vec<Call> {
    let mut calls = Vec::new();
    for client in [1, 7] {
        for clock in [LAST_CLOCK - 2, LAST_CLOCK - 1, LAST_CLOCK] {
            for text in [&b"1"[..], b"null"] {
                let update = spell::counted(&[spell::shown(client, clock, text)]);
                let first = [hub(Kind::Count, Policy::Default, Pace::Set), apply(update)];
                let mut last = vec![set(b"2"), Call::Clean, Call::Remove(client), Call::List(vec![client])];
                for clock in [LAST_CLOCK - 2, LAST_CLOCK - 1, LAST_CLOCK, LAST_CLOCK + 1] {
                    last.extend(presence(client, clock, b"2"));
                    last.extend(presence(client, clock, b"null"));
                }
                calls.extend(each(&first, last));
            }
        }
    }
    calls
}

/// An id in every place that has one.
fn ids() -> Vec<Call> {
    let mut calls = Vec::new();
    for id in IDS {
        for kind in KINDS {
            let mut last = vec![Call::Remove(id), Call::Show(id), Call::List(vec![1, id])];
            last.extend(presence(id, 1, b"1"));
            last.push(handle(spell::step1(&spell::counted(&[spell::at(5, 0), spell::at(id, 1)]))));
            last.push(handle(spell::update(&spell::counted(&[spell::part(kind, id, 1)]))));
            last.push(Call::Write(Fields::Step1(vec![ClockOf { client: id, clock: 1 }])));
            last.push(Call::Write(Fields::Awareness(vec![Presence {
                at: ClockOf { client: id, clock: 1 },
                shown: Shown::Null,
            }])));
            calls.extend(each(&[hub(kind, Policy::Default, Pace::Set), set(b"1")], last));
            let own = Call::Hub { own: id, kind, policy: Policy::Default, pace: Pace::Step, reading: 5 };
            calls.extend(each(&[own], [set(b"1"), Call::Clean, Call::Remove(id), Call::Show(id), Call::Step1]));
        }
    }
    calls
}

/// Texts of a length: a number, and in quotes; with a letter of two bytes at the end, cut within one, and with a byte that no text has.
fn texts_of(len: usize) -> Vec<Vec<u8>> {
    let ends = [&b""[..], "é".as_bytes(), b"\xc3", b"\xff"];
    let quoted = ends.into_iter().map(|end| texts::quoted(len, end));
    quoted.chain([vec![b'1'; len]]).collect()
}

/// Texts as deep as they may be, and deeper.
fn deep() -> impl Iterator<Item = Vec<u8>> {
    (MAX_DEPTH - 1..=MAX_DEPTH + 1).map(texts::nested)
}

/// What is no JSON: short, and below, at and above the limit of a text.
fn no_json() -> impl Iterator<Item = Vec<u8>> {
    let long = [255, 256, 257].map(|len| vec![b'a'; len]);
    NO_JSON.into_iter().map(<[u8]>::to_vec).chain(long)
}

/// A text in every place that has one.
fn texts() -> Vec<Call> {
    let mut calls = Vec::new();
    for text in LENGTHS.into_iter().flat_map(texts_of).chain(deep()).chain(no_json()) {
        let mut last = vec![set(&text), handle(spell::denied(&text)), handle(spell::custom(spell::ACCEPTED_TAG, &text))];
        last.extend(presence(7, 1, &text));
        last.extend(presence(1, 1, &text));
        last.push(handle(spell::update(&spell::counted(&[spell::shown(7, 1, &text)]))));
        let shown = Shown::Text(Hex(text.clone()));
        last.push(Call::Write(Fields::Awareness(vec![Presence { at: ClockOf { client: 7, clock: 1 }, shown }])));
        last.push(Call::Write(Fields::Denied(Hex(text.clone()))));
        last.push(Call::Write(Fields::Custom(16, Hex(text))));
        calls.extend(each(&[hub(Kind::Slot, Policy::Ranges, Pace::Set)], last));
    }
    calls
}

/// So many entries, with that count and others declared, in every place that has them.
fn entries() -> Vec<Call> {
    let mut calls = Vec::new();
    for len in [0u64, 1, 15, 16, 17, 63, 64, 65] {
        for count in [len, len + 1, len.saturating_sub(1), LAST_CLOCK, LAST_CLOCK + 1, u64::MAX] {
            let vector: Vec<_> = (1..=len).map(|client| spell::at(client, 1)).collect();
            let update = spell::declared(count, &crowd(1, len, b"1"));
            let mut last = vec![apply(update.clone()), handle(spell::awareness(&update))];
            last.push(handle(spell::step1(&spell::declared(count, &vector))));
            last.push(handle(spell::update(&spell::declared(count, &vector))));
            last.push(handle(spell::step2(&update)));
            calls.extend(KINDS.into_iter().flat_map(|kind| each(&[hub(kind, Policy::Default, Pace::Step)], last.clone())));
        }
        let held = [hub(Kind::Count, Policy::Default, Pace::Step), apply(spell::counted(&crowd(1, 64, b"1")))];
        let at = |client| ClockOf { client, clock: 1 };
        let vector = (1..=len).map(at).collect();
        let update = (1..=len).map(|client| Presence { at: at(client), shown: Shown::Null }).collect();
        let last = [
            Call::List((1..=len).collect()),
            Call::List(vec![1; len as usize]),
            Call::Write(Fields::Step1(vector)),
            Call::Write(Fields::Awareness(update)),
        ];
        calls.extend(each(&held, last));
    }
    calls
}

/// A board that is full, or has a place left, and clocks at their ends.
fn boards() -> Vec<Call> {
    let mut calls = Vec::new();
    for kind in KINDS {
        let limit = match kind {
            Kind::Count => 64,
            Kind::Slot => 16,
        };
        let parts = |clients: &[u64], clock| {
            spell::counted(&clients.iter().map(|&client| spell::part(kind, client, clock)).collect::<Vec<_>>())
        };
        for len in [limit - 1, limit] {
            let held: Vec<u64> = (1..=len).collect();
            let first = [hub(kind, Policy::Default, Pace::Step), handle(spell::update(&parts(&held, 1)))];
            let updates =
                [parts(&[900], 1), parts(&[900, 901], 1), parts(&[5, 900], 7), parts(&[5], 7), parts(&held, 2), parts(&[900], 0)];
            let mut last: Vec<_> = updates.iter().map(|bytes| handle(spell::update(bytes))).collect();
            last.extend(updates.iter().map(|bytes| handle([&spell::step2(bytes)[..], spell::QUERY].concat())));
            let vector: Vec<_> = held.iter().map(|&client| spell::at(client, client % 3)).collect();
            last.extend([handle(spell::step1(&spell::counted(&vector))), handle(spell::step1(&[0])), Call::Step1]);
            calls.extend(each(&first, last));
        }
        for clock in [LAST_CLOCK - 1, LAST_CLOCK, LAST_CLOCK + 1] {
            let last =
                [0, 1, LAST_CLOCK, LAST_CLOCK + 1].map(|clock| handle(spell::step1(&spell::counted(&[spell::at(5, clock)]))));
            calls.extend(each(&[hub(kind, Policy::Default, Pace::Set), handle(spell::update(&parts(&[5], clock)))], last));
        }
    }
    calls
}

/// Slots at one clock, whose bytes stand before or after each other.
fn slots() -> Vec<Call> {
    let slot = |bytes: &[u8], clock| spell::counted(&[spell::shown(5, clock, bytes)]);
    let mut all: Vec<Vec<u8>> = [&b""[..], b"\x00", b"a", b"a\x00", b"ab", b"b", b"\xff"].map(<[u8]>::to_vec).to_vec();
    all.extend([31, 32, 33].map(|len| vec![b'a'; len]));
    let mut calls = Vec::new();
    for held in &all {
        let first = [hub(Kind::Slot, Policy::Default, Pace::Step), handle(spell::update(&slot(held, 2)))];
        calls.extend(each(&first, all.iter().flat_map(|next| [1, 2, 3].map(|clock| handle(spell::update(&slot(next, clock)))))));
    }
    calls
}

/// Every tag, flag and kind, read and written, by both policies.
fn tags() -> Vec<Call> {
    let mut calls = Vec::new();
    for policy in [Policy::Default, Policy::Ranges] {
        let tag = |tag: u64| [handle([spell::QUERY, &spell::number(tag), &[0]].concat()), handle(spell::custom(tag, b"ab"))];
        let flag = |flag: u64| handle([&[2][..], &spell::number(flag), &[0]].concat());
        let kind = |kind: u64| handle([&[0][..], &spell::number(kind), &[1, 0]].concat());
        let last = (0..=256).flat_map(|n| tag(n).into_iter().chain([flag(n), kind(n)]));
        calls.extend(each(&[hub(Kind::Count, policy, Pace::Set)], last));
    }
    calls.extend((0..=255).flat_map(|tag| [&b""[..], b"a"].map(|data| Call::Write(Fields::Custom(tag, Hex(data.to_vec()))))));
    calls
}

/// Lengths of buffers around those of one, two and three bytes, and lengths that are not there.
fn lengths() -> Vec<Call> {
    let mut last = Vec::new();
    for len in [0, 127, 128, 16383, 16384, 32767, 32768, 40000] {
        last.push(handle(spell::custom(spell::ACCEPTED_TAG, &vec![b'a'; len])));
        last.push(handle([spell::custom(spell::ACCEPTED_TAG, &vec![b'a'; len]), vec![3]].concat()));
    }
    for len in [1, 127, 128, LAST_CLOCK, LAST_CLOCK + 1, u64::MAX] {
        for before in [&[0, 0][..], &[0, 1], &[0, 2], &[1], &[2, 0], &[16]] {
            last.push(handle([before, &spell::number(len)].concat()));
            last.push(handle([spell::QUERY, before, &spell::number(len), &[0]].concat()));
        }
    }
    each(&[hub(Kind::Count, Policy::Ranges, Pace::Set)], last)
}

/// All that is live at its largest, asked for in every way.
fn largest() -> Vec<Call> {
    let mut calls = Vec::new();
    for len in [255, 256] {
        let full = spell::counted(&crowd(END_OF_IDS - 64, 64, &texts::quoted(len, b"")));
        let first = [hub(Kind::Count, Policy::Default, Pace::Step), handle(spell::awareness(&full))];
        let all = (END_OF_IDS - 64..END_OF_IDS).collect();
        calls.extend(each(&first, [handle([3, 3, 3, 3]), Call::List(all)]));
    }
    calls
}

/// Readings at their ends.
fn readings() -> Vec<Call> {
    let mut calls = Vec::new();
    for pace in [Pace::Set, Pace::Step] {
        for reading in [0, u64::MAX - 1, u64::MAX] {
            calls.push(Call::Hub { own: 1, kind: Kind::Count, policy: Policy::Default, pace, reading });
            for client in 1..5 {
                calls.extend(presence(client, 1, b"1"));
                calls.extend([Call::Remove(client + 10), set(b"1"), Call::Show(client), Call::Records]);
            }
        }
    }
    calls
}

pub fn all() -> impl Iterator<Item = Call> {
    [clients, clocks, ids, texts, entries, boards, slots, tags, lengths, largest, readings]
        .into_iter()
        .flat_map(|limits| limits())
}
