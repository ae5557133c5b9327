//! The bytes by docs/FORMAT.md and docs/RULES.md, read once more and apart from the Rust: to see what of them lies outside
//! the comparison, and where the entries of a vector or a presence update lie, which the Rust writes in no order of their own.
use crate::answer::Reason;
use std::collections::BTreeSet;
use std::ops::Range;

const MAX_ENTRIES: u64 = 64;
const END_OF_IDS: u64 = 1 << 53;
const MAX_TEXT: usize = 256;

/// Why reading stops.
#[derive(Debug, Clone, Copy, PartialEq, Eq)]
pub enum Stop {
    /// The bytes are not there.
    End,
    /// Both refuse: a number or a value.
    Both,
    /// Only the port refuses.
    Port(Reason),
}

/// Whether limits that only the port has are asked for.
#[derive(Debug, Clone, Copy, PartialEq, Eq)]
enum Limits {
    Port,
    None,
}

struct Bytes<'a> {
    all: &'a [u8],
    at: usize,
    limits: Limits,
}

impl<'a> Bytes<'a> {
    fn new(all: &'a [u8], limits: Limits) -> Self {
        Bytes { all, at: 0, limits }
    }

    /// The value, where the limit that only the port has is kept or isn't asked for.
    fn within<T>(&self, kept: bool, reason: Reason, value: T) -> Result<T, Stop> {
        match self.limits {
            Limits::Port if !kept => Err(Stop::Port(reason)),
            _ => Ok(value),
        }
    }

    fn number(&mut self, largest: u64) -> Result<u64, Stop> {
        let mut value = 0u128;
        for i in 0..10 {
            let byte = *self.all.get(self.at).ok_or(Stop::End)?;
            self.at += 1;
            value |= u128::from(byte % 128) << (7 * i);
            if byte < 128 {
                return u64::try_from(value).ok().filter(|&value| value <= largest).ok_or(Stop::Both);
            }
        }
        Err(Stop::Both)
    }

    /// A buffer, by where its bytes lie.
    fn buffer(&mut self) -> Result<Range<usize>, Stop> {
        let len = self.number(u64::from(u32::MAX))? as usize;
        let end = self.at.checked_add(len).filter(|&end| end <= self.all.len()).ok_or(Stop::End)?;
        let start = std::mem::replace(&mut self.at, end);
        Ok(start..end)
    }

    fn text(&mut self) -> Result<Range<usize>, Stop> {
        let range = self.buffer()?;
        match std::str::from_utf8(&self.all[range.clone()]) {
            Ok(_) => Ok(range),
            Err(_) => Err(Stop::Both),
        }
    }

    fn presence_text(&mut self) -> Result<Range<usize>, Stop> {
        let range = self.text()?;
        self.within(range.len() <= MAX_TEXT, Reason::Text, range)
    }

    fn client(&mut self) -> Result<u64, Stop> {
        let client = self.number(u64::MAX)?;
        self.within(client < END_OF_IDS, Reason::Id, client)
    }

    fn count(&mut self, largest: u64) -> Result<u64, Stop> {
        let count = self.number(largest)?;
        self.within(count <= MAX_ENTRIES, Reason::Count, count)
    }
}

/// An entry's client, and where the entry lies.
type Entry = (u64, Range<usize>);

/// What stands in a step 1 or an awareness buffer.
#[derive(Debug, Clone, Copy, PartialEq, Eq)]
pub enum Holds {
    Vector,
    Presence,
}

/// Reads so much of the bytes as entries, and stops where they can't be read on.
fn entries(bytes: &[u8], holds: Holds, limits: Limits) -> Result<Vec<Entry>, Stop> {
    let mut r = Bytes::new(bytes, limits);
    let count = match holds {
        Holds::Vector => r.count(u64::from(u32::MAX))?,
        Holds::Presence => r.count(u64::MAX)?,
    };
    let mut entries = Vec::new();
    for _ in 0..count {
        let start = r.at;
        let client = r.client()?;
        r.number(u64::from(u32::MAX))?;
        if holds == Holds::Presence {
            r.presence_text()?;
        }
        entries.push((client, start..r.at));
    }
    Ok(entries)
}

/// Why entries, read on their own, lie outside the comparison, if they do.
pub fn outside(bytes: &[u8], holds: Holds) -> Option<Reason> {
    match entries(bytes, holds, Limits::Port) {
        Err(Stop::Port(reason)) => Some(reason),
        Err(_) => None,
        Ok(entries) => {
            let clients: BTreeSet<u64> = entries.iter().map(|entry| entry.0).collect();
            (holds == Holds::Presence && clients.len() < entries.len()).then_some(Reason::Twice)
        }
    }
}

/// A message's frame: what its buffer holds, if that is entries, and where it lies.
struct Frame {
    holds: Option<(Holds, Range<usize>)>,
}

fn frame(r: &mut Bytes) -> Result<Frame, Stop> {
    let byte = u64::from(u8::MAX);
    let mut holds = None;
    match r.number(byte)? {
        0 => match r.number(byte)? {
            0 => holds = Some((Holds::Vector, r.buffer()?)),
            1 | 2 => {
                r.buffer()?;
            }
            _ => return Err(Stop::Both),
        },
        1 => holds = Some((Holds::Presence, r.buffer()?)),
        2 => {
            if r.number(byte)? == 0 {
                r.text()?;
            }
        }
        3 => {}
        _ => {
            r.buffer()?;
        }
    }
    Ok(Frame { holds })
}

/// For each message in turn why it lies outside the comparison, if it does, up to where reading stops for both.
pub fn outside_of_messages(bytes: &[u8]) -> Vec<Option<Reason>> {
    let mut r = Bytes::new(bytes, Limits::None);
    let mut reasons = Vec::new();
    while let Ok(Frame { holds }) = frame(&mut r) {
        reasons.push(holds.and_then(|(holds, range)| {
            let part = &bytes[range];
            match entries(part, holds, Limits::Port) {
                Err(Stop::End) => Some(Reason::BufferEnds),
                _ => outside(part, holds),
            }
        }));
    }
    reasons
}

/// Bare entries in ascending order of their clients. What can't be read stays as it is.
pub fn in_client_order(bytes: &[u8], holds: Holds) -> Vec<u8> {
    let Ok(mut entries) = entries(bytes, holds, Limits::None) else {
        return bytes.to_vec();
    };
    let first = entries.first().map_or(bytes.len(), |entry| entry.1.start);
    let end = entries.last().map_or(bytes.len(), |entry| entry.1.end);
    entries.sort_by_key(|entry| entry.0);
    let mut sorted = bytes[..first].to_vec();
    for (_, range) in entries {
        sorted.extend_from_slice(&bytes[range]);
    }
    sorted.extend_from_slice(&bytes[end..]);
    sorted
}

/// Messages with the entries of each in ascending order of their clients.
pub fn messages_in_client_order(bytes: &[u8]) -> Vec<u8> {
    let mut r = Bytes::new(bytes, Limits::None);
    let mut sorted = Vec::new();
    let mut copied = 0;
    while let Ok(Frame { holds }) = frame(&mut r) {
        if let Some((holds, range)) = holds {
            sorted.extend_from_slice(&bytes[copied..range.start]);
            copied = range.end;
            sorted.extend(in_client_order(&bytes[range], holds));
        }
    }
    sorted.extend_from_slice(&bytes[copied..]);
    sorted
}
