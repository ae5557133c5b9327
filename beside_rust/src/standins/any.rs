//! The dynamic value type: named by the decoder, met by no message of the sync protocol.
use crate::encoding::read::{Error, Read};

#[derive(Debug, Clone, PartialEq)]
pub struct Any;

impl Any {
    pub fn decode<R: Read>(_decoder: &mut R) -> Result<Self, Error> {
        Err(Error::type_mismatch::<Any>())
    }

    pub fn from_json(_src: &str) -> Result<Self, Error> {
        Err(Error::type_mismatch::<Any>())
    }
}
