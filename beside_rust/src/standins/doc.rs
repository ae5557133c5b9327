//! The document with its transactions: a client id and a board.
use crate::block::{ClientID, ID};
use crate::error::UpdateError;
use crate::standins::board::{Board, Kind};
use crate::standins::update::{read_updates_as, Update};
use crate::state_vector::StateVector;
use std::cell::{Ref, RefCell, RefMut};
use std::future::{ready, Ready};

#[derive(Debug)]
pub struct Doc {
    client_id: ClientID,
    board: RefCell<Board>,
}

impl Doc {
    /// A document with the id of a client, which keeps the empty board of a kind.
    pub fn with_board(client_id: ClientID, kind: Kind) -> Self {
        read_updates_as(kind);
        Doc { client_id, board: RefCell::new(Board::empty(kind)) }
    }

    /// A document as the Rust makes one by default; no hub of the oracle is made so.
    pub fn new() -> Self {
        Doc::with_board(ClientID::random(), Kind::Count)
    }

    pub fn client_id(&self) -> ClientID {
        self.client_id
    }
}

impl Default for Doc {
    fn default() -> Self {
        Doc::new()
    }
}

pub trait ReadTxn {
    fn board(&self) -> &Board;

    fn state_vector(&self) -> StateVector {
        self.board().clocks().into_iter().map(|(client, clock)| (ClientID::new(client), clock)).collect()
    }

    fn encode_state_as_update_v1(&self, since: &StateVector) -> Vec<u8> {
        self.board().update(|client| since.get(&ClientID::new(client)))
    }
}

pub struct Transaction<'doc>(Ref<'doc, Board>);

impl ReadTxn for Transaction<'_> {
    fn board(&self) -> &Board {
        &self.0
    }
}

pub struct TransactionMut<'doc>(RefMut<'doc, Board>);

impl TransactionMut<'_> {
    /// Joins an update. One that would make the board too large leaves it as it is; the Rust's error has one case, which says so here.
    pub fn apply_update(&mut self, update: Update) -> Result<(), UpdateError> {
        let joined = self.0.joined(&update.0);
        *self.0 = joined.ok_or(UpdateError::InvalidParent(ID::new(ClientID::new(0), 0), 0))?;
        Ok(())
    }
}

pub trait Transact {
    fn transact(&self) -> Transaction<'_>;
    fn transact_mut(&self) -> TransactionMut<'_>;
}

impl Transact for Doc {
    fn transact(&self) -> Transaction<'_> {
        Transaction(self.board.borrow())
    }

    fn transact_mut(&self) -> TransactionMut<'_> {
        TransactionMut(self.board.borrow_mut())
    }
}

/// The same, awaited.
pub trait AsyncTransact {
    fn transact(&self) -> Ready<Transaction<'_>>;
    fn transact_mut(&self) -> Ready<TransactionMut<'_>>;
}

impl AsyncTransact for Doc {
    fn transact(&self) -> Ready<Transaction<'_>> {
        ready(Transact::transact(self))
    }

    fn transact_mut(&self) -> Ready<TransactionMut<'_>> {
        ready(Transact::transact_mut(self))
    }
}
