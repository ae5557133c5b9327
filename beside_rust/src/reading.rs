//! What is asked of bytes alone, without a hub: read, written, and read and written again, by the Rust.
use crate::answer::{Answer, End, Fault, Mark, Placed, Reason, Taken};
use crate::block::ClientID;
use crate::call::{ClockOf, Fields, Hex, Presence, Shown};
use crate::encoding::read::{Cursor, Error};
use crate::hub::END_OF_IDS;
use crate::standins::board::Kind;
use crate::standins::doc::{Doc, ReadTxn, Transact};
use crate::standins::update::Update;
use crate::sync::{AwarenessUpdate, AwarenessUpdateEntry, Message, MessageReader, SyncMessage};
use crate::updates::decoder::{Decode, Decoder, DecoderV1};
use crate::updates::encoder::Encode;
use crate::wire::{self, Holds};
use crate::StateVector;
use std::collections::{BTreeSet, HashMap};
use std::sync::Arc;

/// The number of what the Rust met in reading; none where memory was wanting.
pub fn number_of(error: &Error) -> Option<u8> {
    match error {
        Error::InvalidVarInt => Some(1),
        Error::EndOfBuffer(_) => Some(2),
        Error::UnexpectedValue => Some(3),
        // only a board's stand-in makes these
        Error::Custom(number) => number.parse().ok(),
        Error::NotEnoughMemory(_) | Error::InvalidJSON(_) | Error::TypeMismatch(_) => None,
    }
}

/// What reading a message, a vector or a presence update met.
pub fn fault_of(error: &Error) -> Fault {
    number_of(error).map_or(Fault::Memory, Fault::Wire)
}

/// A vector's entries, ascending.
pub fn vector_of(vector: &StateVector) -> Vec<ClockOf> {
    let mut entries: Vec<_> = vector.iter().map(|(client, &clock)| ClockOf { client: client.get(), clock }).collect();
    entries.sort();
    entries
}

/// What a text that was read shows: one that spells null is taken as gone by every reader.
fn shown(text: &str) -> Shown {
    match text {
        "null" => Shown::Null,
        text => Shown::Text(Hex(text.into())),
    }
}

/// A presence update's entries, ascending.
pub fn presence_of(update: &AwarenessUpdate) -> Vec<Presence> {
    let entry = |(client, entry): (&ClientID, &AwarenessUpdateEntry)| Presence {
        at: ClockOf { client: client.get(), clock: entry.clock },
        shown: shown(&entry.json),
    };
    let mut entries: Vec<_> = update.clients.iter().map(entry).collect();
    entries.sort_by_key(|entry| entry.at);
    entries
}

/// A message by its fields.
pub fn fields_of(message: &Message) -> Fields {
    match message {
        Message::Sync(SyncMessage::SyncStep1(vector)) => Fields::Step1(vector_of(vector)),
        Message::Sync(SyncMessage::SyncStep2(update)) => Fields::Step2(Hex(update.clone())),
        Message::Sync(SyncMessage::Update(update)) => Fields::Update(Hex(update.clone())),
        Message::Awareness(update) => Fields::Awareness(presence_of(update)),
        Message::Auth(Some(reason)) => Fields::Denied(Hex(reason.clone().into_bytes())),
        Message::Auth(None) => Fields::Granted,
        Message::AwarenessQuery => Fields::Query,
        Message::Custom(tag, data) => Fields::Custom(*tag, Hex(data.clone())),
    }
}

/// The place that reading has come to.
fn place(decoder: &mut DecoderV1, len: usize) -> usize {
    len - decoder.read_to_end().map_or(0, <[u8]>::len)
}

/// The messages that the Rust's reader gives, each at its place, and how it ends.
pub fn read(bytes: &[u8]) -> (Vec<(usize, Message)>, End) {
    let mut decoder = DecoderV1::new(Cursor::new(bytes));
    let mut messages = Vec::new();
    loop {
        let at = place(&mut decoder, bytes.len());
        match MessageReader::new(&mut decoder).next() {
            Some(Ok(message)) => messages.push((at, message)),
            Some(Err(error)) => return (messages, End::Refused(fault_of(&error), at)),
            None if at == bytes.len() => return (messages, End::Ended),
            None => return (messages, End::Cut(at)),
        }
    }
}

fn mark(reason: Option<Reason>) -> Mark {
    reason.map_or(Mark::Inside, Mark::Outside)
}

/// The messages in words.
pub fn read_in_words(bytes: &[u8]) -> (Answer, Mark) {
    let (messages, end) = read(bytes);
    let reasons = wire::outside_of_messages(bytes);
    let reason = reasons.into_iter().take(messages.len() + 1).flatten().next();
    let placed = |(place, message): (usize, Message)| Placed { place, words: fields_of(&message).to_string() };
    (Answer::Row { messages: messages.into_iter().map(placed).collect(), end }, mark(reason))
}

/// A vector, read and written again.
pub fn vector(bytes: &[u8]) -> (Answer, Mark) {
    let mark = mark(wire::outside(bytes, Holds::Vector));
    let answer = match StateVector::decode_v1(bytes) {
        Ok(vector) => {
            Answer::Vector { entries: vector_of(&vector), bytes: Hex(wire::in_client_order(&vector.encode_v1(), Holds::Vector)) }
        }
        Err(error) => Answer::Refused(fault_of(&error).into()),
    };
    (answer, mark)
}

/// The entries of a presence update.
pub fn presence(bytes: &[u8]) -> (Answer, Mark) {
    let mark = mark(wire::outside(bytes, Holds::Presence));
    let answer = match AwarenessUpdate::decode_v1(bytes) {
        Ok(update) => Answer::Presence(presence_of(&update)),
        Err(error) => Answer::Refused(fault_of(&error).into()),
    };
    (answer, mark)
}

fn awareness_update(entries: &[Presence]) -> Option<AwarenessUpdate> {
    let mut clients = HashMap::new();
    for Presence { at, shown } in entries {
        let json: Arc<str> = match shown {
            Shown::Null => "null".into(),
            Shown::Text(text) => std::str::from_utf8(&text.0).ok()?.into(),
        };
        clients.insert(ClientID::new(at.client), AwarenessUpdateEntry { clock: at.clock, json });
    }
    Some(AwarenessUpdate { clients })
}

/// The Rust's message of the fields, where its types can say it.
fn message_of(fields: &Fields) -> Option<Message> {
    Some(match fields {
        Fields::Step1(entries) => {
            let vector = entries.iter().map(|entry| (ClientID::new(entry.client), entry.clock)).collect();
            Message::Sync(SyncMessage::SyncStep1(vector))
        }
        Fields::Step2(update) => Message::Sync(SyncMessage::SyncStep2(update.0.clone())),
        Fields::Update(update) => Message::Sync(SyncMessage::Update(update.0.clone())),
        Fields::Awareness(entries) => Message::Awareness(awareness_update(entries)?),
        Fields::Denied(reason) => Message::Auth(Some(String::from_utf8(reason.0.clone()).ok()?)),
        Fields::Granted => Message::Auth(None),
        Fields::Query => Message::AwarenessQuery,
        Fields::Custom(tag, data) => Message::Custom(*tag, data.0.clone()),
    })
}

/// Why entries that are to be written lie outside the comparison, if they do: what the port meets first as it takes them one after another.
fn outside_of_entries<'a>(entries: impl Iterator<Item = (u64, Option<&'a Hex>)>) -> Option<Reason> {
    let mut clients = BTreeSet::new();
    for (client, text) in entries {
        let text = text.map_or(&[][..], |text| &text.0);
        clients.insert(client);
        if client >= END_OF_IDS {
            return Some(Reason::Id);
        }
        if std::str::from_utf8(text).is_err() {
            return Some(Reason::NotText);
        }
        if text.len() > 256 {
            return Some(Reason::Text);
        }
        if clients.len() > 64 {
            return Some(Reason::Count);
        }
    }
    None
}

/// Why a message that is to be written lies outside the comparison, if it does.
fn outside_of_fields(fields: &Fields) -> Option<Reason> {
    match fields {
        Fields::Step1(entries) => outside_of_entries(entries.iter().map(|entry| (entry.client, None))),
        Fields::Awareness(entries) => outside_of_entries(entries.iter().map(|entry| match &entry.shown {
            Shown::Null => (entry.at.client, None),
            Shown::Text(text) => (entry.at.client, Some(text)),
        })),
        Fields::Denied(reason) if std::str::from_utf8(&reason.0).is_err() => Some(Reason::NotText),
        Fields::Custom(128.., _) => Some(Reason::CustomTag),
        _ => None,
    }
}

/// A message, written.
pub fn write(fields: &Fields) -> (Answer, Mark) {
    let answer = match message_of(fields) {
        None => Answer::Unasked,
        Some(message) => Answer::Bytes(Hex(wire::messages_in_client_order(&message.encode_v1()))),
    };
    (answer, mark(outside_of_fields(fields)))
}

fn take(doc: &Doc, bytes: &[u8]) -> Taken {
    match Update::decode_v1(bytes) {
        Err(error) => Taken::Unreadable(number_of(&error).unwrap_or(0)),
        Ok(update) => match doc.transact_mut().apply_update(update) {
            Ok(()) => Taken::Joined,
            Err(_) => Taken::TooLarge,
        },
    }
}

/// Updates, one after another, on a board that was empty: the document, its vector, and what it would send for a vector.
pub fn updates(kind: Kind, updates: &[Hex], since: &[u8]) -> (Answer, Mark) {
    let mark = mark(wire::outside(since, Holds::Vector));
    let since = match StateVector::decode_v1(since) {
        Ok(since) => since,
        Err(error) => return (Answer::Refused(fault_of(&error).into()), mark),
    };
    let doc = Doc::with_board(ClientID::new(0), kind);
    let taken = updates.iter().map(|update| take(&doc, &update.0)).collect();
    let txn = doc.transact();
    let vector = wire::in_client_order(&txn.state_vector().encode_v1(), Holds::Vector);
    let answer = Answer::Updates {
        taken,
        document: document(&doc),
        vector: Hex(vector),
        update: Hex(txn.encode_state_as_update_v1(&since)),
    };
    (answer, mark)
}

/// A document as the update for whoever knows nothing.
pub fn document(doc: &Doc) -> Hex {
    Hex(doc.transact().encode_state_as_update_v1(&StateVector::default()))
}
