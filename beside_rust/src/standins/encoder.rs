//! The encoder: bytes go into a vector, one after another.
use crate::encoding::write::Write;

pub trait Encoder: Write {
    fn to_vec(self) -> Vec<u8>;
}

pub trait Encode {
    fn encode<E: Encoder>(&self, encoder: &mut E);

    fn encode_v1(&self) -> Vec<u8> {
        let mut encoder = EncoderV1::new();
        self.encode(&mut encoder);
        encoder.to_vec()
    }
}

#[derive(Default)]
pub struct EncoderV1 {
    buf: Vec<u8>,
}

impl EncoderV1 {
    pub fn new() -> Self {
        EncoderV1::default()
    }
}

impl Write for EncoderV1 {
    fn write_all(&mut self, buf: &[u8]) {
        self.buf.extend_from_slice(buf)
    }
}

impl Encoder for EncoderV1 {
    fn to_vec(self) -> Vec<u8> {
        self.buf
    }
}
