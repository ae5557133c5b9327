//! What is measured: a hub of either side.

/// A hub of one side. Each call answers a number that depends on what it did, and both sides have to answer the same.
pub trait Side {
    const NAME: &'static str;

    /// A fresh hub of a client.
    fn new(own: u64) -> Self;

    /// Messages handled; the length of the replies in bytes.
    fn handle(&mut self, bytes: &[u8]) -> usize;

    /// A presence update taken, with the lists of who came, was updated and went; how many they name.
    fn apply(&mut self, update: &[u8]) -> usize;
}
