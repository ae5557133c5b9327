//! The sync part of yrs 0.28.0 out of its unchanged sources, with stand-ins for what the published part lacks,
//! and a hub around it that answers calls and says which of its answers may be held against the port's.
//!
//! Each `taken!` below brings in a file, or a part of one, that `build.rs` took from the folder YRS_SRC names.
macro_rules! taken {
    ($name:literal) => {
        include!(concat!(env!("OUT_DIR"), "/yrs/", $name));
    };
}

#[allow(warnings)]
pub mod encoding {
    pub use crate::standins::varint;

    pub mod read {
        taken!("encoding/read.rs");
    }

    pub mod write {
        taken!("encoding/write.rs");
    }
}

#[allow(warnings)]
pub mod block {
    use serde::{Deserialize, Serialize};
    use std::hash::Hash;

    taken!("block_ids.rs");
    taken!("block_display.rs");
}

#[allow(warnings)]
pub mod error {
    taken!("error.rs");
}

#[allow(warnings)]
pub mod observer {
    taken!("observer.rs");
}

#[allow(warnings)]
pub mod transaction {
    use smallvec::SmallVec;
    use std::fmt::Formatter;
    use std::pin::Pin;

    taken!("origin.rs");
}

#[allow(warnings)]
pub mod utils {
    pub mod client_hasher {
        taken!("utils/client_hasher.rs");
    }
}

#[allow(warnings)]
pub mod updates {
    pub use crate::standins::encoder;

    pub mod decoder {
        taken!("updates/decoder.rs");
    }
}

#[allow(warnings)]
pub mod state_vector {
    taken!("state_vector.rs");
}

#[allow(warnings)]
pub mod sync {
    pub mod awareness {
        use crate::standins::dashmap;

        taken!("sync/awareness.rs");
    }

    pub mod protocol {
        taken!("sync/protocol.rs");
    }

    pub mod time {
        taken!("sync/time.rs");
    }

    pub use awareness::{Awareness, AwarenessUpdate, AwarenessUpdateEntry, ClientState};
    pub use protocol::{DefaultProtocol, Error, Message, MessageReader, Protocol, SyncMessage};
    pub use time::{Clock, Timestamp};
}

pub mod standins;

pub mod answer;
pub mod call;
pub mod hub;
pub mod judge;
pub mod memory;
pub mod oracle;
pub mod reading;
pub mod wire;

// The names under which the Rust's files know each other.
pub use crate::block::ID;
pub use crate::observer::Observer;
pub use crate::standins::any::Any;
pub use crate::standins::doc::{AsyncTransact, Doc, ReadTxn, Transact};
pub use crate::standins::id_set::IdSet;
pub use crate::standins::update::Update;
pub use crate::state_vector::StateVector;
pub use crate::transaction::Origin;
