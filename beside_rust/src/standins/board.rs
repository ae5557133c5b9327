//! The two documents, by docs/RULES.md: a count board and a slot board, each a map by client.
use crate::encoding::read::{Cursor, Error, Read};
use crate::encoding::write::Write;
use std::collections::BTreeMap;

/// Declared entries of an update, at most.
const MAX_ENTRIES: u32 = 64;

/// Client ids stay below this.
const END_OF_IDS: u64 = 1 << 53;

/// Bytes of a slot, at most.
const MAX_SLOT: usize = 32;

/// Which document a hub keeps.
#[derive(Debug, Clone, Copy, PartialEq, Eq)]
pub enum Kind {
    Count,
    Slot,
}

/// A document, or an update of one, which is a document too.
#[derive(Debug, Clone, PartialEq, Eq)]
pub enum Board {
    /// For each client a count of at least 1.
    Count(BTreeMap<u64, u32>),
    /// For each client a clock of at least 1 and its bytes.
    Slot(BTreeMap<u64, (u32, Vec<u8>)>),
}

/// Why an update can't be read where the Rust has no error of its own, by the number of docs/RULES.md.
fn refused(number: u8) -> Error {
    Error::Custom(number.to_string())
}

fn read_client(r: &mut Cursor) -> Result<u64, Error> {
    let client: u64 = r.read_var()?;
    if client < END_OF_IDS {
        Ok(client)
    } else {
        Err(refused(4))
    }
}

fn read_count(r: &mut Cursor) -> Result<u32, Error> {
    let count: u32 = r.read_var()?;
    if count <= MAX_ENTRIES {
        Ok(count)
    } else {
        Err(refused(5))
    }
}

/// A slot's clock, then its bytes.
fn read_slot(r: &mut Cursor) -> Result<(u32, Vec<u8>), Error> {
    let clock: u32 = r.read_var()?;
    if clock == 0 {
        return Err(Error::UnexpectedValue);
    }
    let bytes = r.read_buf()?;
    if bytes.len() > MAX_SLOT {
        return Err(refused(6));
    }
    Ok((clock, bytes.to_vec()))
}

/// The entry stays that stands above the other.
fn offer<T: Ord>(map: &mut BTreeMap<u64, T>, client: u64, entry: T) {
    match map.get_mut(&client) {
        Some(held) if entry > *held => *held = entry,
        Some(_) => {}
        None => {
            map.insert(client, entry);
        }
    }
}

impl Board {
    pub fn empty(kind: Kind) -> Self {
        match kind {
            Kind::Count => Board::Count(BTreeMap::new()),
            Kind::Slot => Board::Slot(BTreeMap::new()),
        }
    }

    fn size(&self) -> usize {
        match self {
            Board::Count(counts) => counts.len(),
            Board::Slot(slots) => slots.len(),
        }
    }

    fn limit(&self) -> usize {
        match self {
            Board::Count(_) => 64,
            Board::Slot(_) => 16,
        }
    }

    /// The bytes as an update, from the first to the last.
    pub fn read(kind: Kind, bytes: &[u8]) -> Result<Self, Error> {
        let mut board = Board::empty(kind);
        let mut r = Cursor::new(bytes);
        for _ in 0..read_count(&mut r)? {
            let client = read_client(&mut r)?;
            match &mut board {
                Board::Count(counts) => match r.read_var()? {
                    0 => {}
                    count => offer(counts, client, count),
                },
                Board::Slot(slots) => offer(slots, client, read_slot(&mut r)?),
            }
        }
        if r.has_content() {
            Err(Error::UnexpectedValue)
        } else {
            Ok(board)
        }
    }

    /// The join with an update, or nothing where it would be larger than the limit.
    pub fn joined(&self, update: &Board) -> Option<Board> {
        let mut joined = self.clone();
        match (&mut joined, update) {
            (Board::Count(held), Board::Count(new)) => {
                for (&client, &count) in new {
                    offer(held, client, count);
                }
            }
            (Board::Slot(held), Board::Slot(new)) => {
                for (&client, slot) in new {
                    offer(held, client, slot.clone());
                }
            }
            _ => return None,
        }
        (joined.size() <= joined.limit()).then_some(joined)
    }

    /// Each client's count or clock, ascending.
    pub fn clocks(&self) -> Vec<(u64, u32)> {
        match self {
            Board::Count(counts) => counts.iter().map(|(&client, &count)| (client, count)).collect(),
            Board::Slot(slots) => slots.iter().map(|(&client, slot)| (client, slot.0)).collect(),
        }
    }

    /// The update for whoever knows each client up to the clock that `known` gives.
    pub fn update(&self, known: impl Fn(u64) -> u32) -> Vec<u8> {
        let mut entries = Vec::new();
        let mut len = 0u32;
        let mut put = |client: u64, clock: u32, slot: Option<&[u8]>| {
            len += 1;
            entries.write_var(client);
            entries.write_var(clock);
            if let Some(bytes) = slot {
                entries.write_buf(bytes);
            }
        };
        match self {
            Board::Count(counts) => {
                for (&client, &count) in counts.iter().filter(|(&client, &count)| count > known(client)) {
                    put(client, count, None);
                }
            }
            Board::Slot(slots) => {
                for (&client, (clock, bytes)) in slots.iter().filter(|(&client, slot)| slot.0 >= known(client)) {
                    put(client, *clock, Some(bytes));
                }
            }
        }
        let mut out = Vec::new();
        out.write_var(len);
        out.write_all(&entries);
        out
    }
}
