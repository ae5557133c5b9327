//! A hub around the Rust's awareness and protocol, which answers calls.
use crate::answer::{Answer, End, Fault, Lists, Mark, Reason, Record, Refusal, Told};
use crate::block::ClientID;
use crate::call::{Call, ClockOf, Hex, Pace, Policy, Shown};
use crate::judge::{self, Seen};
use crate::reading;
use crate::standins::board::Kind;
use crate::standins::doc::{Doc, ReadTxn, Transact};
use crate::standins::encoder::{Encode, Encoder, EncoderV1};
use crate::standins::update::read_updates_as;
use crate::sync::awareness::AwarenessUpdateSummary;
use crate::sync::{Awareness, AwarenessUpdate, DefaultProtocol, Error, Message, Protocol, SyncMessage};
use crate::updates::decoder::Decode;
use crate::wire::{self, Holds};
use std::cell::{Cell, RefCell};
use std::rc::Rc;
use std::sync::atomic::{AtomicU64, Ordering};
use std::sync::Arc;

/// Client ids that the Rust takes as they are stay below this.
pub const END_OF_IDS: u64 = 1 << 53;

/// The default protocol, except that custom tags from 16 to 31 are accepted.
struct Ranges;

impl Protocol for Ranges {
    fn missing_handle(&self, awareness: &mut Awareness, tag: u8, data: Vec<u8>) -> Result<Option<Message>, Error> {
        match tag {
            16..=31 => Ok(None),
            _ => DefaultProtocol.missing_handle(awareness, tag, data),
        }
    }
}

/// The protocol of a hub, which notes on the way what `handle` does not tell: how many messages are done, and their replies.
struct Watched {
    policy: Policy,
    done: Cell<usize>,
    handling: Cell<bool>,
    replies: RefCell<Vec<u8>>,
    outside: Cell<Option<(usize, Reason)>>,
}

impl Watched {
    fn new(policy: Policy) -> Self {
        Watched { policy, done: Cell::new(0), handling: Cell::new(false), replies: RefCell::default(), outside: Cell::new(None) }
    }
}

impl Protocol for Watched {
    fn handle_message(&self, awareness: &mut Awareness, message: Message) -> Result<Option<Message>, Error> {
        self.handling.set(true);
        if let Message::Awareness(update) = &message {
            let seen = judge::of_update(awareness, update).outside;
            self.outside.set(self.outside.get().or(seen.map(|reason| (self.done.get(), reason))));
        }
        let reply = match self.policy {
            Policy::Default => DefaultProtocol.handle_message(awareness, message),
            Policy::Ranges => Ranges.handle_message(awareness, message),
        }?;
        if let Some(reply) = &reply {
            self.replies.borrow_mut().extend(reply.encode_v1());
        }
        self.done.set(self.done.get() + 1);
        self.handling.set(false);
        Ok(reply)
    }
}

pub struct Hub {
    awareness: Awareness,
    kind: Kind,
    policy: Policy,
    pace: Pace,
    next_reading: Arc<AtomicU64>,
    changed: Rc<RefCell<Vec<u64>>>,
    /// why what the hub holds may be another thing than what the port's holds
    astray: Option<Reason>,
}

impl Hub {
    pub fn new(own: u64, kind: Kind, policy: Policy, pace: Pace, reading: u64) -> Self {
        let next_reading = Arc::new(AtomicU64::new(reading));
        let readings = next_reading.clone();
        let clock = move || {
            let step = u64::from(pace == Pace::Step);
            let now = readings.load(Ordering::Relaxed);
            readings.store(now.saturating_add(step), Ordering::Relaxed);
            now
        };
        let mut awareness = Awareness::with_clock(Doc::with_board(ClientID::new(own), kind), clock);
        let changed = Rc::new(RefCell::new(Vec::new()));
        let noted = changed.clone();
        awareness.on_change("oracle", move |_, event, _| {
            *noted.borrow_mut() = event.updated().iter().map(ClientID::get).collect();
        });
        let astray = (own >= END_OF_IDS).then_some(Reason::Id);
        Hub { awareness, kind, policy, pace, next_reading, changed, astray }
    }

    /// Whether it may hold another thing than the port's hub.
    pub fn is_astray(&self) -> bool {
        self.astray.is_some()
    }

    /// Answers a call that needs a hub.
    pub fn answer(&mut self, call: &Call) -> (Answer, Mark) {
        read_updates_as(self.kind);
        let before = self.astray;
        let (answer, mark) = match call {
            Call::Clock(reading) => self.put_reading(*reading),
            Call::Handle(bytes) => self.handle(&bytes.0),
            Call::Apply(bytes) => self.apply(&bytes.0),
            Call::Set(text) => self.set(&text.0),
            Call::Clean => self.remove(self.awareness.client_id().get()),
            Call::Remove(client) => self.remove(*client),
            Call::Step1 => (Answer::Bytes(self.step1()), Mark::Inside),
            Call::Start => self.start(),
            Call::Show(client) => self.show(*client),
            Call::List(clients) => self.list(clients),
            Call::Records => (Answer::Records(self.records()), Mark::Inside),
            Call::Document => (Answer::Document(reading::document(self.awareness.doc())), Mark::Inside),
            _ => (Answer::BadCall("a call of a hub"), Mark::NoCall),
        };
        (answer, before.map_or(mark, Mark::Astray))
    }

    /// Marks an answer that lies outside, and the hub too where it took what the port refuses.
    fn outside(&mut self, reason: Option<Reason>, took: bool) -> Mark {
        if took {
            self.astray = self.astray.or(reason);
        }
        reason.map_or(Mark::Inside, Mark::Outside)
    }

    fn put_reading(&mut self, reading: u64) -> (Answer, Mark) {
        match self.pace {
            Pace::Step => (Answer::BadCall("a step clock is not put"), Mark::NoCall),
            Pace::Set => {
                self.next_reading.store(reading, Ordering::Relaxed);
                (Answer::Done, Mark::Inside)
            }
        }
    }

    fn handle(&mut self, bytes: &[u8]) -> (Answer, Mark) {
        let (messages, end) = reading::read(bytes);
        let place_of = |i: usize| match (messages.get(i), end) {
            (Some(message), _) => message.0,
            (None, End::Ended) => bytes.len(),
            (None, End::Cut(place) | End::Refused(_, place)) => place,
        };
        let watched = Watched::new(self.policy);
        let result = watched.handle(&mut self.awareness, bytes);
        let count = watched.done.get();
        let reply = Hex(wire::messages_in_client_order(&watched.replies.take()));
        let by_wire = wire::outside_of_messages(bytes);
        let by_wire = by_wire.into_iter().enumerate().find_map(|(i, reason)| Some((i, reason?)));
        let met = [by_wire, watched.outside.get()].into_iter().flatten().filter(|met| met.0 <= count).min_by_key(|met| met.0);
        let mark = self.outside(met.map(|met| met.1), met.is_some_and(|met| met.0 < count));
        let place = place_of(count);
        let answer = match result {
            Ok(_) => Answer::Handled { count, place, reply },
            Err(error) => {
                let fault = fault_of(&error, watched.handling.get());
                Answer::Refused(Refusal { fault, message: count, byte: place, reply })
            }
        };
        (answer, mark)
    }

    fn apply(&mut self, bytes: &[u8]) -> (Answer, Mark) {
        let by_wire = wire::outside(bytes, Holds::Presence);
        let update = match AwarenessUpdate::decode_v1(bytes) {
            Ok(update) => update,
            Err(error) => {
                let mark = self.outside(by_wire, false);
                return (Answer::Refused(reading::fault_of(&error).into()), mark);
            }
        };
        let seen = judge::of_update(&self.awareness, &update);
        self.changed.borrow_mut().clear();
        let answer = match self.awareness.apply_update_summary(update) {
            Ok(summary) => Answer::Lists(self.lists(summary, &seen)),
            Err(_) => Answer::Unasked,
        };
        let mark = match (self.outside(by_wire.or(seen.outside), true), seen.otherwise()) {
            (Mark::Inside, Some(otherwise)) => Mark::Lists(otherwise),
            (mark, _) => mark,
        };
        (answer, mark)
    }

    /// The lists of a summary, the changed ones as the subscriber was told them, and the clients that the rules add.
    fn lists(&self, summary: Option<AwarenessUpdateSummary>, seen: &Seen) -> Lists {
        let list = |clients: &[u64], by_rule: &[u64]| {
            let mut told: Vec<_> = clients.iter().map(|&client| Told::ByTheRust(client)).collect();
            told.extend(by_rule.iter().map(|&client| Told::ByTheRule(client)));
            told.sort_by_key(|told| told.client());
            told
        };
        let ids = |clients: Vec<ClientID>| clients.iter().map(ClientID::get).collect::<Vec<_>>();
        // the subscriber is told nothing where there is no summary
        let (summary, changed) = match summary {
            Some(summary) => (summary, self.changed.borrow().clone()),
            None => (AwarenessUpdateSummary { added: Vec::new(), updated: Vec::new(), removed: Vec::new() }, Vec::new()),
        };
        Lists {
            added: list(&ids(summary.added), &[]),
            updated: list(&ids(summary.updated), &seen.raised),
            changed: list(&changed, &seen.came_back),
            removed: list(&ids(summary.removed), &[]),
        }
    }

    fn set(&mut self, text: &[u8]) -> (Answer, Mark) {
        let Ok(text) = std::str::from_utf8(text) else {
            return (Answer::Unasked, Mark::Outside(Reason::NotText));
        };
        let reason = match text.len() {
            257.. => Some(Reason::Text),
            _ if text == "null" => Some(Reason::NullSet),
            _ => judge::of_rise(&self.awareness, self.awareness.client_id()),
        };
        self.awareness.set_local_state_raw(text);
        (Answer::Done, self.outside(reason, true))
    }

    fn remove(&mut self, client: u64) -> (Answer, Mark) {
        let id = ClientID::new(client);
        let reason = match client {
            END_OF_IDS.. => Some(Reason::Id),
            _ => judge::of_rise(&self.awareness, id),
        };
        if id == self.awareness.client_id() {
            self.awareness.clean_local_state();
        } else {
            self.awareness.remove_state(id);
        }
        (Answer::Done, self.outside(reason, true))
    }

    fn step1(&self) -> Hex {
        let vector = self.awareness.doc().transact().state_vector();
        let message = Message::Sync(SyncMessage::SyncStep1(vector));
        Hex(wire::messages_in_client_order(&message.encode_v1()))
    }

    fn start(&self) -> (Answer, Mark) {
        let mut encoder = EncoderV1::new();
        match Watched::new(self.policy).start(&self.awareness, &mut encoder) {
            Ok(()) => (Answer::Bytes(Hex(wire::messages_in_client_order(&encoder.to_vec()))), Mark::Inside),
            Err(_) => (Answer::Unasked, Mark::Inside),
        }
    }

    fn show(&mut self, client: u64) -> (Answer, Mark) {
        let reason = (client >= END_OF_IDS).then_some(Reason::Id);
        let id = ClientID::new(client);
        let record = self.awareness.meta(id).and_then(|_| self.records().into_iter().find(|record| record.at.client == id.get()));
        (Answer::Record(record), self.outside(reason, false))
    }

    fn list(&mut self, clients: &[u64]) -> (Answer, Mark) {
        let by_limits = match clients.iter().take(65).find(|&&client| client >= END_OF_IDS) {
            _ if clients.len() > 64 => Some(Reason::Count),
            Some(_) => Some(Reason::Id),
            None => None,
        };
        let mark = self.outside(by_limits, false);
        let answer = match self.awareness.update_with_clients(clients.iter().map(|&client| ClientID::new(client))) {
            Ok(update) => Answer::Bytes(Hex(wire::in_client_order(&update.encode_v1(), Holds::Presence))),
            Err(_) => Answer::Refused(Fault::UnknownClient.into()),
        };
        (answer, mark)
    }

    fn records(&self) -> Vec<Record> {
        let mut records: Vec<_> = self
            .awareness
            .iter()
            .map(|(client, state)| Record {
                at: ClockOf { client: client.get(), clock: state.clock },
                time: state.last_updated,
                shown: state.data.map_or(Shown::Null, |text| Shown::Text(Hex(text.as_bytes().to_vec()))),
            })
            .collect();
        records.sort_by_key(|record| record.at);
        records
    }
}

/// What `handle` met: in reading a message, or in handling one.
fn fault_of(error: &Error, handling: bool) -> Fault {
    match error {
        Error::DecodingError(error) if handling => Fault::Unreadable(reading::number_of(error).unwrap_or(0)),
        Error::DecodingError(error) => reading::fault_of(error),
        Error::AwarenessEncoding(_) => Fault::UnknownClient,
        Error::PermissionDenied { .. } => Fault::Denied,
        Error::Unsupported(_) => Fault::Unsupported,
        Error::Update(_) => Fault::TooLarge,
        Error::IO(_) | Error::Other(_) => Fault::Memory,
    }
}
