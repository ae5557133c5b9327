//! Bytes of entries, updates and messages in their shortest form, from their parts.
use beside_rust::encoding::write::Write;
use beside_rust::standins::board::Kind;

/// The policy's tag that accepts all data.
pub const ACCEPTED_TAG: u64 = 16;

pub fn number(value: u64) -> Vec<u8> {
    let mut bytes = Vec::new();
    bytes.write_var(value);
    bytes
}

pub fn buffer(bytes: &[u8]) -> Vec<u8> {
    [&number(bytes.len() as u64), bytes].concat()
}

/// A client at a clock.
pub fn at(client: u64, clock: u64) -> Vec<u8> {
    [number(client), number(clock)].concat()
}

/// A client at a clock, with the text that it shows or the bytes that its slot has.
pub fn shown(client: u64, clock: u64, text: &[u8]) -> Vec<u8> {
    [at(client, clock), buffer(text)].concat()
}

/// What a client's part of a board is at a clock.
pub fn part(kind: Kind, client: u64, clock: u64) -> Vec<u8> {
    match kind {
        Kind::Count => at(client, clock),
        Kind::Slot => shown(client, clock, b"a"),
    }
}

/// Entries behind a count of them that is declared.
pub fn declared(count: u64, entries: &[Vec<u8>]) -> Vec<u8> {
    [number(count), entries.concat()].concat()
}

pub fn counted(entries: &[Vec<u8>]) -> Vec<u8> {
    declared(entries.len() as u64, entries)
}

pub fn step1(vector: &[u8]) -> Vec<u8> {
    [&[0, 0][..], &buffer(vector)].concat()
}

pub fn step2(update: &[u8]) -> Vec<u8> {
    [&[0, 1][..], &buffer(update)].concat()
}

pub fn update(update: &[u8]) -> Vec<u8> {
    [&[0, 2][..], &buffer(update)].concat()
}

pub fn awareness(update: &[u8]) -> Vec<u8> {
    [&[1][..], &buffer(update)].concat()
}

pub fn denied(reason: &[u8]) -> Vec<u8> {
    [&[2, 0][..], &buffer(reason)].concat()
}

pub fn custom(tag: u64, data: &[u8]) -> Vec<u8> {
    [number(tag), buffer(data)].concat()
}

pub const GRANTED: &[u8] = &[2, 1];
pub const QUERY: &[u8] = &[3];
