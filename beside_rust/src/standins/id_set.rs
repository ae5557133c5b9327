//! Sets of deleted blocks: named by snapshots, met by no message of the sync protocol.
use crate::block::ID;
use crate::encoding::read::Error;
use crate::updates::decoder::{Decode, Decoder};
use crate::updates::encoder::{Encode, Encoder};

#[derive(Debug, Default, Clone, PartialEq, Eq)]
pub struct IdSet;

impl IdSet {
    pub fn contains(&self, _id: &ID) -> bool {
        false
    }
}

impl Encode for IdSet {
    fn encode<E: Encoder>(&self, _encoder: &mut E) {}
}

impl Decode for IdSet {
    fn decode<D: Decoder>(_decoder: &mut D) -> Result<Self, Error> {
        Ok(IdSet)
    }
}
