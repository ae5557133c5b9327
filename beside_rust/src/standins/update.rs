//! An update of the document: all the bytes that are left, read as the board of the hub at hand reads them.
use crate::encoding::read::Error;
use crate::standins::board::{Board, Kind};
use crate::updates::decoder::{Decode, Decoder};
use std::cell::Cell;

thread_local! {
    /// Which board updates are of. The Rust reads an update before it looks at the document, so the document can't say.
    static KIND: Cell<Kind> = const { Cell::new(Kind::Count) };
}

/// From here on updates are of this kind.
pub fn read_updates_as(kind: Kind) {
    KIND.set(kind);
}

#[derive(Debug, Clone, PartialEq)]
pub struct Update(pub(crate) Board);

impl Decode for Update {
    fn decode<D: Decoder>(decoder: &mut D) -> Result<Self, Error> {
        Ok(Update(Board::read(KIND.get(), decoder.read_to_end()?)?))
    }
}
