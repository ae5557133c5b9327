//! What stands in for files of the Rust that are not in the published part, with the rules of docs/.
pub mod any;
pub mod board;
pub mod dashmap;
pub mod doc;
pub mod encoder;
pub mod id_set;
pub mod update;
pub mod varint;
