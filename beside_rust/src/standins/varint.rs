//! The number coding, by docs/FORMAT.md: seven bits a byte, the low ones first, the first byte below 80 the last;
//! ten bytes at most, and a value that has ended is held against its width.
use crate::encoding::read::{Error, Read};
use crate::encoding::write::Write;

/// As many bytes as 64 bits need.
const MAX_BYTES: u32 = 10;

pub trait VarInt: Sized + Copy {
    fn read<R: Read>(r: &mut R) -> Result<Self, Error>;
    fn write<W: Write>(&self, w: &mut W);
}

/// A number of any width, wide enough for ten bytes of seven bits.
fn read_wide<R: Read>(r: &mut R) -> Result<u128, Error> {
    let mut value = 0u128;
    for i in 0..MAX_BYTES {
        let byte = r.read_u8()?;
        value |= u128::from(byte & 0x7f) << (7 * i);
        if byte < 0x80 {
            return Ok(value);
        }
    }
    Err(Error::InvalidVarInt)
}

fn write_wide<W: Write>(mut value: u64, w: &mut W) {
    while value >= 0x80 {
        w.write_u8((value as u8 & 0x7f) | 0x80);
        value >>= 7;
    }
    w.write_u8(value as u8);
}

macro_rules! unsigned {
    ($($width:ty),*) => {$(
        impl VarInt for $width {
            fn read<R: Read>(r: &mut R) -> Result<Self, Error> {
                <$width>::try_from(read_wide(r)?).map_err(|_| Error::InvalidVarInt)
            }

            fn write<W: Write>(&self, w: &mut W) {
                write_wide(*self as u64, w)
            }
        }
    )*};
}

unsigned!(u8, u16, u32, u64, usize);

/// A signed number, which the second version of the decoder names and no message of the sync protocol has.
pub struct Signed<T>(T);

impl Signed<i64> {
    pub fn is_negative(&self) -> bool {
        self.0 < 0
    }

    pub fn value(&self) -> i64 {
        self.0
    }
}

pub trait SignedVarInt: Sized + Copy {
    fn read_signed<R: Read>(r: &mut R) -> Result<Signed<Self>, Error>;
    fn write_signed<W: Write>(s: &Signed<Self>, w: &mut W);
}

impl SignedVarInt for i64 {
    fn read_signed<R: Read>(_r: &mut R) -> Result<Signed<Self>, Error> {
        Err(Error::type_mismatch::<Signed<i64>>())
    }

    fn write_signed<W: Write>(_s: &Signed<Self>, _w: &mut W) {}
}

impl VarInt for i32 {
    fn read<R: Read>(_r: &mut R) -> Result<Self, Error> {
        Err(Error::type_mismatch::<i32>())
    }

    fn write<W: Write>(&self, _w: &mut W) {}
}
