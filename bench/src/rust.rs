//! The unchanged Rust, with the policy and the count board of the hub that ships.
use crate::side::Side;
use beside_rust::block::ClientID;
use beside_rust::standins::board::Kind;
use beside_rust::standins::doc::Doc;
use beside_rust::standins::encoder::Encode;
use beside_rust::sync::{Awareness, AwarenessUpdate, DefaultProtocol, Error, Message, Protocol};
use beside_rust::updates::decoder::Decode;

/// The default protocol, with custom tags from 16 to 31.
struct Ranges;

impl Protocol for Ranges {
    fn missing_handle(&self, awareness: &mut Awareness, tag: u8, data: Vec<u8>) -> Result<Option<Message>, Error> {
        match tag {
            16..=31 => Ok(None),
            _ => DefaultProtocol.missing_handle(awareness, tag, data),
        }
    }
}

pub struct Rust {
    awareness: Awareness,
}

impl Side for Rust {
    const NAME: &'static str = "Rust";

    fn new(own: u64) -> Self {
        Rust { awareness: Awareness::with_clock(Doc::with_board(ClientID::new(own), Kind::Count), || 1000) }
    }

    fn handle(&mut self, bytes: &[u8]) -> usize {
        let replies = Ranges.handle(&mut self.awareness, bytes).expect("a message that is handled");
        replies.iter().map(|reply| reply.encode_v1().len()).sum()
    }

    fn apply(&mut self, update: &[u8]) -> usize {
        let update = AwarenessUpdate::decode_v1(update).expect("an update that is read");
        let summary = self.awareness.apply_update_summary(update).expect("an update that is taken");
        summary.map_or(0, |lists| lists.added.len() + lists.updated.len() + lists.removed.len())
    }
}
