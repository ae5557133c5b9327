//! The port, through its static library.
#[allow(dead_code)]
#[path = "../../link/presence_hub.rs"]
mod presence_hub;

pub use presence_hub::{size, SIZE};

use crate::side::Side;
use presence_hub::{Changes, Handled, Hub, Lists};

pub struct Port {
    hub: Hub,
    replies: Vec<u8>,
    lists: Lists,
}

impl Side for Port {
    const NAME: &'static str = "port";

    fn new(own: u64) -> Self {
        let mut hub = Hub::within(SIZE);
        assert_eq!(hub.make(own, 1000), 0);
        Port { hub, replies: vec![0; 1 << 16], lists: [[0; 64]; 4] }
    }

    fn handle(&mut self, bytes: &[u8]) -> usize {
        let mut told = Handled::default();
        assert_eq!(self.hub.handle(bytes, &mut self.replies, &mut told), 0);
        told.replies
    }

    fn apply(&mut self, update: &[u8]) -> usize {
        let mut told = Changes::default();
        assert_eq!(self.hub.apply(update, &mut self.lists, &mut told), 0);
        told.added + told.updated + told.removed
    }
}
