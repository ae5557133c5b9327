//! The concurrent map of Debian's version, under the names that the Rust's version has them.
pub use dashmap_five::mapref::entry::Entry;
pub use dashmap_five::{iter, DashMap};
