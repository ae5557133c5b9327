//! Answers as text, one a line, with a mark that says what of each may be compared.
use crate::call::{ClockOf, Hex, Listed, Presence, Shown};
use std::fmt;

/// Why an answer, or a part of it, may not be held against the port's.
#[derive(Debug, Clone, Copy, PartialEq, Eq, PartialOrd, Ord)]
pub enum Reason {
    Id,
    Count,
    Text,
    Clients,
    ClockEnd,
    Twice,
    BufferEnds,
    NullSet,
    CustomTag,
    NotText,
}

impl Reason {
    /// The number with which the port refuses, where the reason alone decides it.
    pub fn number(self) -> Option<u8> {
        match self {
            Reason::BufferEnds => Some(2),
            Reason::NotText => Some(3),
            Reason::Id => Some(4),
            Reason::Count => Some(5),
            Reason::Text => Some(6),
            Reason::Clients => Some(7),
            Reason::ClockEnd => Some(8),
            Reason::Twice | Reason::NullSet | Reason::CustomTag => None,
        }
    }
}

impl fmt::Display for Reason {
    fn fmt(&self, f: &mut fmt::Formatter) -> fmt::Result {
        f.write_str(match self {
            Reason::Id => "an id from 2^53 on",
            Reason::Count => "more than 64 entries",
            Reason::Text => "a text above 256 bytes",
            Reason::Clients => "a 65th client",
            Reason::ClockEnd => "a clock at its end",
            Reason::Twice => "a client twice in one presence update",
            Reason::BufferEnds => "a step 1 or awareness buffer that ends too soon",
            Reason::NullSet => "null set as a text",
            Reason::CustomTag => "a custom tag from 128 on, written",
            Reason::NotText => "not UTF-8, which the Rust's types exclude",
        })
    }
}

/// Why the Rust leaves clients out of the lists of an update.
#[derive(Debug, Clone, Copy, PartialEq, Eq, PartialOrd, Ord)]
pub enum Otherwise {
    /// The updated list lacks the own client.
    OwnRaised,
    /// The changed list lacks those that came back.
    TextOverNull,
    Both,
}

impl fmt::Display for Otherwise {
    fn fmt(&self, f: &mut fmt::Formatter) -> fmt::Result {
        f.write_str(match self {
            Otherwise::OwnRaised => "a raised own record",
            Otherwise::TextOverNull => "a text over null",
            Otherwise::Both => "a raised own record and a text over null",
        })
    }
}

/// What of an answer may be held against the port's.
#[derive(Debug, Clone, Copy, PartialEq, Eq)]
pub enum Mark {
    Inside,
    /// All, once the clients are in the lists that the Rust leaves out.
    Lists(Otherwise),
    Outside(Reason),
    /// The hub's own record or table went astray in an earlier call.
    Astray(Reason),
    /// The line is no call.
    NoCall,
}

impl fmt::Display for Mark {
    fn fmt(&self, f: &mut fmt::Formatter) -> fmt::Result {
        match self {
            Mark::Inside => f.write_str("inside"),
            Mark::Lists(reason) => write!(f, "lists {reason}"),
            Mark::Outside(reason) => write!(f, "outside {reason}"),
            Mark::Astray(reason) => write!(f, "outside since {reason}"),
            Mark::NoCall => f.write_str("outside no call"),
        }
    }
}

/// A refusal by the number and the layer that docs/RULES.md gives it.
#[derive(Debug, Clone, Copy, PartialEq, Eq)]
pub enum Fault {
    Wire(u8),
    UnknownClient,
    Denied,
    Unsupported,
    Unreadable(u8),
    TooLarge,
    /// The Rust asked for more memory than there is, which has no number.
    Memory,
}

impl fmt::Display for Fault {
    fn fmt(&self, f: &mut fmt::Formatter) -> fmt::Result {
        match self {
            Fault::Wire(number) => write!(f, "{number} layer wire"),
            Fault::UnknownClient => f.write_str("9 layer presence"),
            Fault::Denied => f.write_str("10 layer policy"),
            Fault::Unsupported => f.write_str("11 layer policy"),
            Fault::Unreadable(wire) => write!(f, "12 layer document wire {wire}"),
            Fault::TooLarge => f.write_str("13 layer document"),
            Fault::Memory => f.write_str("memory layer none"),
        }
    }
}

/// A refused call: the fault, the message counted from 0 with its first byte, and the replies before it.
#[derive(Debug, Clone, PartialEq, Eq)]
pub struct Refusal {
    pub fault: Fault,
    pub message: usize,
    pub byte: usize,
    pub reply: Hex,
}

impl From<Fault> for Refusal {
    fn from(fault: Fault) -> Self {
        Refusal { fault, message: 0, byte: 0, reply: Hex::default() }
    }
}

/// A client in a list.
#[derive(Debug, Clone, Copy, PartialEq, Eq)]
pub enum Told {
    ByTheRust(u64),
    /// The Rust leaves it out, and docs/RULES.md has it in.
    ByTheRule(u64),
}

impl Told {
    pub fn client(self) -> u64 {
        match self {
            Told::ByTheRust(client) | Told::ByTheRule(client) => client,
        }
    }
}

impl fmt::Display for Told {
    fn fmt(&self, f: &mut fmt::Formatter) -> fmt::Result {
        match self {
            Told::ByTheRust(client) => write!(f, "{client}"),
            Told::ByTheRule(client) => write!(f, "+{client}"),
        }
    }
}

/// What apply lists, ascending.
#[derive(Debug, Clone, PartialEq, Eq, Default)]
pub struct Lists {
    pub added: Vec<Told>,
    pub updated: Vec<Told>,
    pub changed: Vec<Told>,
    pub removed: Vec<Told>,
}

/// A record as the hub holds it.
#[derive(Debug, Clone, PartialEq, Eq)]
pub struct Record {
    pub at: ClockOf,
    pub time: u64,
    pub shown: Shown,
}

impl fmt::Display for Record {
    fn fmt(&self, f: &mut fmt::Formatter) -> fmt::Result {
        write!(f, "{}@{}:{}", self.at, self.time, self.shown)
    }
}

/// A message in words, at the place of its first byte.
#[derive(Debug, Clone, PartialEq, Eq)]
pub struct Placed {
    pub place: usize,
    pub words: String,
}

/// How a row of messages ends.
#[derive(Debug, Clone, Copy, PartialEq, Eq)]
pub enum End {
    Ended,
    Cut(usize),
    Refused(Fault, usize),
}

/// How a board took an update.
#[derive(Debug, Clone, Copy, PartialEq, Eq)]
pub enum Taken {
    Joined,
    Unreadable(u8),
    TooLarge,
}

impl fmt::Display for Taken {
    fn fmt(&self, f: &mut fmt::Formatter) -> fmt::Result {
        match self {
            Taken::Joined => f.write_str("taken"),
            Taken::Unreadable(wire) => write!(f, "12:{wire}"),
            Taken::TooLarge => f.write_str("13"),
        }
    }
}

#[derive(Debug, Clone, PartialEq, Eq)]
pub enum Answer {
    Done,
    Handled {
        count: usize,
        place: usize,
        reply: Hex,
    },
    Refused(Refusal),
    Lists(Lists),
    Bytes(Hex),
    Record(Option<Record>),
    Records(Vec<Record>),
    Document(Hex),
    Row {
        messages: Vec<Placed>,
        end: End,
    },
    Vector {
        entries: Vec<ClockOf>,
        bytes: Hex,
    },
    Presence(Vec<Presence>),
    Updates {
        taken: Vec<Taken>,
        document: Hex,
        vector: Hex,
        update: Hex,
    },
    /// The Rust can't be asked this.
    Unasked,
    BadCall(&'static str),
}

impl fmt::Display for Answer {
    fn fmt(&self, f: &mut fmt::Formatter) -> fmt::Result {
        match self {
            Answer::Done => f.write_str("done"),
            Answer::Handled { count, place, reply } => write!(f, "done {count} at {place} reply {reply}"),
            Answer::Refused(Refusal { fault, message, byte, reply }) => {
                write!(f, "refused {fault} message {message} byte {byte} reply {reply}")
            }
            Answer::Lists(lists) => write!(
                f,
                "added {} updated {} changed {} removed {}",
                Listed(lists.added.clone()),
                Listed(lists.updated.clone()),
                Listed(lists.changed.clone()),
                Listed(lists.removed.clone())
            ),
            Answer::Bytes(bytes) => write!(f, "bytes {bytes}"),
            Answer::Record(None) => f.write_str("none"),
            Answer::Record(Some(record)) => write!(f, "record {record}"),
            Answer::Records(records) => write!(f, "records {}", Listed(records.iter().collect())),
            Answer::Document(bytes) => write!(f, "document {bytes}"),
            Answer::Row { messages, end } => write_row(f, messages, *end),
            Answer::Vector { entries, bytes } => write!(f, "vector {} bytes {bytes}", Listed(entries.clone())),
            Answer::Presence(entries) => write!(f, "presence {}", Listed(entries.clone())),
            Answer::Updates { taken, document, vector, update } => {
                write!(f, "updates {} document {document} vector {vector} update {update}", Listed(taken.clone()))
            }
            Answer::Unasked => f.write_str("unasked"),
            Answer::BadCall(what) => write!(f, "no call: {what}"),
        }
    }
}

fn write_row(f: &mut fmt::Formatter, messages: &[Placed], end: End) -> fmt::Result {
    for Placed { place, words } in messages {
        write!(f, "{place} {words}; ")?;
    }
    match end {
        End::Ended => f.write_str("ended"),
        End::Cut(place) => write!(f, "cut at {place}"),
        End::Refused(fault, place) => write!(f, "refused {fault} at {place}"),
    }
}
